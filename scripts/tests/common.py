"""Calls of the program and of the scripts."""
import os
import shutil
import subprocess
import tempfile
import unittest

TOP = os.path.dirname(os.path.dirname(os.path.dirname(os.path.realpath(__file__))))
PROGRAM = os.path.join(TOP, "crates", "hm_tool", "out", "hm_tool")
LONGEST = 67108864  # bytes of a file
ROW = b"L,1,B,10,5\n"
# An order takes two versions at least, and a file fills 8192 by turns where no option says another number.
PAIRS = b"L,1,B,10,5\nL,2,S,10,5\n" * 1400
# Each rests behind all others, and makes both its lists anew.
RISING = b"".join(b"L,%d,S,%d,1\n" % (row, row) for row in range(1, 501))


def path(*parts):
    """A path of the repository."""
    return os.path.join(TOP, *parts)


def content(*parts):
    """The bytes of a file of the repository."""
    with open(path(*parts), "rb") as file:
        return file.read()


class Case(unittest.TestCase):
    """A test with a folder of its own."""

    maxDiff = None

    def setUp(self):
        self.folder = tempfile.mkdtemp()
        self.addCleanup(shutil.rmtree, self.folder)

    def made(self, data, name="file"):
        """A file with these bytes, or with so many zero bytes."""
        place = os.path.join(self.folder, name)
        with open(place, "wb") as file:
            if isinstance(data, int):
                file.truncate(data)
            else:
                file.write(data)
        return place

    def call(self, program, *words, **more):
        """A call of a program, with what it wrote."""
        more = {"stdout": subprocess.PIPE, "stderr": subprocess.PIPE, "timeout": 120, **more}
        return subprocess.run([program, *words], stdin=subprocess.DEVNULL, **more)

    def hm(self, *words, **more):
        """A call of the program."""
        return self.call(PROGRAM, *words, **more)

    def made_all(self, datas):
        """The names of files that hold these bytes, and of one that is not there for None."""
        return [os.path.join(self.folder, "missing") if data is None else self.made(data, "file%d" % file)
                for file, data in enumerate(datas, 1)]

    def is_sound(self, *files):
        """A replay of the files prints a report that the plain replay agrees with; it is answered."""
        done = self.hm("replay", *files)
        self.assertEqual((done.returncode, done.stderr), (0, b""))
        check = self.script("report_check", self.made(done.stdout, "report"), *files)
        self.assertEqual((check.returncode, check.stderr), (0, b""), check.stdout)
        return done.stdout

    def script(self, name, *words, **more):
        """A call of a script."""
        return self.call(path("scripts", name), *words, **more)

    def says(self, done, status, out=b"", err=b""):
        """The call ended so."""
        self.assertEqual((done.returncode, done.stdout or b"", done.stderr), (status, out, err))

    def is_refused(self, done, *words):
        """The script said in one line, which has these words, what is wrong with its input."""
        error = done.stderr.decode()
        self.assertNotEqual(done.returncode, 0)
        self.assertEqual((error.count("\n"), error[-1:]), (1, "\n"), error)
        self.assertNotIn("Traceback", error)
        self.assertFalse(done.stdout)
        for word in words:
            self.assertIn(word, error)


class Built(Case):
    """A test of the built program."""

    def setUp(self):
        super().setUp()
        self.assertTrue(os.access(PROGRAM, os.X_OK), PROGRAM + " is missing; rt ci leaves the program there")
