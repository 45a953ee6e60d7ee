"""The built program: each status with its text, real devices, and the demo."""
import os
import random
import re
import resource

from common import LONGEST, ROW, Built, content, path
from orders import rows_at_random, written

# What a file holds (bytes, or how many zero bytes), and how a replay of it ends.
FILES = [
    ("no byte", b"", 0, b""),
    ("a row that is refused", ROW + b"L,2,B,0,5\n", 3, b"hm: text 1 2 price\n"),
    ("as many bytes as a file may have", LONGEST, 3, b"hm: text 1 1 fields\n"),
    ("a byte more than a file may have", LONGEST + 1, 7, b"hm: long 1\n"),
]
WORDS = [[], [""], ["--help"], ["--versions", "64", "replay", "f"], [b"replay", b"\xff"], [b"replay", b"f", b"\xff"],
         [b"\xff", b"f"], [b"replay", b"--low", b"\xff", b"f"], [b"generate", b"7", b"2", b"\xff"]]


class Program(Built):
    def test_each_file_ends_with_its_status_and_text(self):
        for what, data, status, err in FILES:
            with self.subTest(what):
                out = b"board 0\nend 0 0 0\n" if status == 0 else b""
                self.says(self.hm("replay", self.made(data)), status, out, err)

    def test_words_that_are_refused(self):
        for words in WORDS:
            with self.subTest(words):
                self.says(self.hm(*words, cwd=self.folder), 2, err=b"hm: words\n")

    def test_a_word_that_is_not_text_names_no_file(self):
        name = os.path.join(os.fsencode(self.folder), b"\xff")
        with open(name, "wb") as file:
            file.write(ROW)
        self.says(self.hm(b"replay", name), 2, err=b"hm: words\n")

    def test_a_file_that_cannot_be_read(self):
        for name in (os.path.join(self.folder, "missing"), self.folder, self.made(ROW) + "/file"):
            with self.subTest(name):
                self.says(self.hm("replay", name), 4, err=b"hm: read 1\n")

    def test_want_of_memory(self):
        def little():
            resource.setrlimit(resource.RLIMIT_AS, (32 << 20, 32 << 20))
        self.says(self.hm("replay", self.made(LONGEST), preexec_fn=little), 1, err=b"hm: memory\n")

    def test_a_replay_takes_as_much_address_space_as_explain_says(self):
        least = int(re.search(r"LEAST_MEMORY = (\d+)", content("scripts", "explain").decode())[1])
        for page in (content("docs", "TROUBLES.md").decode(), content("docs", "hm.1").decode()):
            self.assertIn(" %d MB of address space" % least, page)
        for megabytes, is_enough in ((least + 2, True), (least - 2, False)):
            limit = megabytes * 1000000
            done = self.hm("replay", path("demo", "first.csv"),
                           preexec_fn=lambda: resource.setrlimit(resource.RLIMIT_AS, (limit, limit)))
            self.assertEqual(done.returncode == 0, is_enough, (megabytes, done.stderr))

    def test_a_full_device(self):
        with open("/dev/full", "wb") as full:
            for files, rows in ((1, 1), (8, 1000)):
                with self.subTest(files):
                    done = self.hm("replay", *self.made_all([ROW * rows] * files), stdout=full)
                    self.says(done, 5, err=b"hm: write\n")

    def test_a_closed_pipe(self):
        for files, rows in ((1, 1), (8, 1000)):
            reader, writer = os.pipe()
            os.close(reader)
            with self.subTest(files):
                done = self.hm("replay", *self.made_all([ROW * rows] * files), stdout=writer)
                self.says(done, 5, err=b"hm: write\n")
            os.close(writer)

    def test_a_full_device_for_errors_changes_no_status(self):
        with open("/dev/full", "wb") as full:
            self.assertEqual(self.hm("frob", stderr=full).returncode, 2)
            self.assertEqual(self.hm("replay", self.made(b"x"), stderr=full).returncode, 3)

    def test_the_example_of_the_readme(self):
        text = content("README.md").decode().split("## A report\n")[1].split("```")
        parts = [re.findall("`(L,[^`]+)`", part) for part in text[0].split("a second one")]
        files = self.made_all("".join(row + "\n" for row in rows).encode() for rows in parts)
        report = self.made(text[1][len("text\n"):].encode(), "report")
        done = self.call(path("scripts", "report_check"), report, *files)
        self.assertEqual((done.returncode, done.stderr), (0, b""))
        self.is_sound(*files)

    def test_the_demo_file_is_the_one_that_the_gate_replays(self):
        self.assertEqual(content("demo", "first.csv"), content("crates", "hm_tool", "data", "first.csv"))
        self.assertEqual(content("crates", "hm_tool", "args"), b"replay\nfirst.csv\n")
        done = self.hm("replay", path("demo", "first.csv"))
        self.says(done, 0, out=content("crates", "hm_tool", "stdout"))

    def test_demo_run_prints_the_report_and_draws_it(self):
        os.makedirs(os.path.join(self.folder, "demo", "two"))
        for name in ("demo/run", "demo/first.csv", "demo/kinds.csv", "demo/two/a.csv", "demo/two/b.csv"):
            self.made(content(*name.split("/")), name)
        self.made(b'#!/bin/sh\nexec "%s" "$@"\n' % os.fsencode(path("crates/hm_tool/out/hm_tool")), "hm")
        os.symlink(path("scripts"), os.path.join(self.folder, "scripts"))
        for name in ("demo/run", "hm"):
            os.chmod(os.path.join(self.folder, name), 0o755)
        done = self.call(os.path.join(self.folder, "demo", "run"))
        reports = content("crates", "hm_tool", "stdout") + content("demo", "kinds.report")
        self.assertEqual((done.returncode, done.stdout), (0, reports))
        with open(os.path.join(self.folder, "demo", "first.svg"), "rb") as picture:
            self.assertEqual(picture.read(), content("demo", "first.svg"))
        self.assertRegex(done.stderr, rb"20 replays of the two files in demo/two, .*; distinct reports: [1-9]\d?; ")
        self.assertEqual(sorted(os.listdir(self.folder + "/demo/out")),
                         ["first.txt", "kinds.svg", "kinds.txt", "two.svg", "two.txt"])

    def test_the_plain_replay_agrees_on_random_files(self):
        chance = random.Random(7)
        for number in range(12):
            with self.subTest(number):
                self.is_sound(self.made(written(rows_at_random(chance, 20 * number, 40, 11))))
