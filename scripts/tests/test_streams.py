"""The scripts where a stream is closed or full, where a file is none to read, and under an older Python."""
import ast
import os
import re
import sys

from common import Case, content, path

SCRIPTS = ("bench", "bench_files", "explain", "generate_file", "ops", "report_check", "report_csv", "report_svg",
           "test")
REPORT, ORDERS = path("crates", "hm_tool", "stdout"), path("demo", "first.csv")
CALLS = [["report_check", REPORT, ORDERS], ["report_svg", REPORT, ORDERS], ["explain", "hm: write", "replay", "f"],
         ["generate_file", "7", "9"]]
CALLS += [[name, "--help"] for name in SCRIPTS]


class Streams(Case):
    def shell(self, line, *words, **more):
        """A line of bash with these words, in the repository."""
        return self.call("bash", "-c", line, "bash", *words, cwd=path(), **more)

    def test_a_closed_or_full_output_is_told_in_one_line_with_status_2(self):
        for words in CALLS:
            for stream, why in ((">&-", "Bad file descriptor"), (">/dev/full", "No space left on device")):
                with self.subTest(words=words, stream=stream):
                    done = self.shell('"scripts/$@" ' + stream, *words)
                    self.is_refused(done, words[0] + ": standard output: " + why)
                    self.assertEqual(done.returncode, 2)
        done = self.shell('"scripts/$@" >/dev/full', *CALLS[-1], env=dict(os.environ, PYTHONUNBUFFERED="1"))
        self.assertEqual(done.returncode, 2)

    def test_closed_input_or_errors_change_nothing(self):
        for words in CALLS[:5]:
            plain = self.shell('"scripts/$@"', *words)
            for stream in ("<&-", "2>&-", "2>/dev/full"):
                with self.subTest(words=words, stream=stream):
                    self.says(self.shell('"scripts/$@" ' + stream, *words), 0, out=plain.stdout)

    def test_bad_input_ends_with_2_where_it_cannot_be_told(self):
        for stream in ("2>&-", "2>/dev/full", ">&- 2>&-", "<&- >&- 2>&-"):
            with self.subTest(stream):
                self.says(self.shell("scripts/report_check missing missing " + stream), 2)
        self.says(self.shell('scripts/report_check "$1" "$2" 2>&-', self.made(b"x\n"), ORDERS), 1,
                  out=self.shell('scripts/report_check "$1" "$2"', self.folder + "/file", ORDERS).stdout)

    def test_tables_need_no_stream(self):
        self.says(self.shell('scripts/report_csv "$1" "$2" <&- >&- 2>&-', REPORT, self.folder), 0)
        self.assertEqual(sorted(os.listdir(self.folder)), ["fills.csv", "orders.csv"])

    def test_a_table_that_cannot_be_written_leaves_the_old_one(self):
        self.made(b"old", "orders.csv")
        done = self.shell('ulimit -f 0; scripts/report_csv "$1" "$2"', REPORT, self.folder)
        self.is_refused(done, "orders.csv cannot be written: File too large")
        with open(self.folder + "/orders.csv", "rb") as file:
            self.assertEqual((file.read(), os.listdir(self.folder)), (b"old", ["orders.csv"]))

    def test_no_file_is_read_for_ever(self):
        pipe = os.path.join(self.folder, "pipe")
        os.mkfifo(pipe)
        sparse = self.made(3 << 30, "sparse")
        for name, why in ((pipe, "it is no regular file"), ("/dev/zero", "it is no regular file"),
                          (self.folder, "Is a directory"), (sparse, "it has more than ")):
            calls = [["report_check", name, ORDERS], ["report_check", REPORT, name], ["report_svg", name],
                     ["report_csv", name, self.folder], ["explain", "hm: text 1 1 price", "replay", name]]
            for script, *words in calls if name in (pipe, sparse) else calls[:1]:
                with self.subTest(script=script, words=words):
                    done = self.script(script, *words, timeout=20)
                    self.is_refused(done, script + ": ", " cannot be read: " + why)
                    self.assertEqual(done.returncode, 2)

    def test_an_older_python_is_told_of_in_one_line(self):
        for name in SCRIPTS:
            old = "import runpy, sys; sys.version_info = (3, 7, 9, 'final', 0); sys.argv = [sys.argv[1]]; " \
                "sys.path.insert(0, %r); runpy.run_path(sys.argv[0], run_name='__main__')" % path("scripts")
            with self.subTest(name):
                done = self.call(sys.executable, "-c", old, path("scripts", name))
                self.says(done, 2, err=b"%b: Python 3.8 or later is needed, and python3 is 3.7 here\n" % name.encode())

    def test_scripts_are_written_in_the_least_python(self):
        modules = [name for name in os.listdir(path("scripts")) if name.endswith(".py")]
        for name in [*SCRIPTS, *modules]:
            text = content("scripts", name).decode()
            own = [it for it in re.findall(r"(?m)^from (\w+) import", text) if it + ".py" in modules]
            with self.subTest(name):
                ast.parse(text, feature_version=(3, 8))
                # An older one reads as far as the line that says so.
                ast.parse(text, feature_version=(3, 5))
                self.assertNotRegex(text, r"\bf['\"]|:=")
                self.assertIn("calls", own[:1] if name in SCRIPTS else ["calls"])
                self.assertLess(text.count("\n"), 150)
