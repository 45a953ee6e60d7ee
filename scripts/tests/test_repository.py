"""The gate's counts, the paths that documents name, and the words of scripts."""
import os
import re
import shutil

from common import Case, content, path
from orders import in_turn
from rows import Row

SCRIPTS = ("bench", "bench_files", "explain", "generate_file", "ops", "report_check", "report_csv", "report_svg",
           "test")
DOCUMENTS = ["README.md", "HACKING.md"] + sorted("docs/" + name for name in os.listdir(path("docs")))
# A path begins with a name at the top of the repository. NAME and STORY stand for any name.
PATH = re.compile(r"(?<![\w./-])(?:(?:\.ci|completions|crates|demo|docs|scripts)/[\w./-]*\w|HACKING\.md|README\.md)")
MADE = ("/out/",)  # what the programs make
# What rt and the scripts' tests print and end with, and then the gate's last line and status.
GATES = [
    ("3 passed, 0 failed", 0, "4 passed, 0 failed", 0, "7 passed, 0 failed", 0),
    ("3 passed, 1 failed", 1, "4 passed, 0 failed", 0, "7 passed, 1 failed", 1),
    ("3 passed, 0 failed", 0, "2 passed, 2 failed", 1, "5 passed, 2 failed", 1),
    ("3 passed, 0 failed", 1, "4 passed, 0 failed", 0, "7 passed, 0 failed", 1),
    ("3 passed, 0 failed", 0, "4 passed, 0 failed", 1, "7 passed, 0 failed", 1),
    ("3 passed, 0 failed\nand then", 0, "4 passed, 0 failed", 0, "4 passed, 1 failed", 1),
    ("3 passed, 0 failed (hm_book alone: not the gate)", 0, "4 passed, 0 failed", 0, "4 passed, 1 failed", 1),
    ("", 0, "4 passed, 0 failed", 0, "4 passed, 1 failed", 1),
    ("3 passed, 0 failed", 0, "", 0, "3 passed, 1 failed", 1),
    ("dies", 0, "dies", 0, "0 passed, 2 failed", 1),
    ("3 passed, 0 failed", 0, None, 0, "3 passed, 1 failed", 1),
    ("010 passed, 008 failed", 1, "4 passed, 0 failed", 0, "14 passed, 8 failed", 1),
]


class Repository(Case):
    def program(self, name, printed, status):
        """A program that prints this and ends so, or dies at once."""
        text = "printf '%s'; exit %d" % (printed and printed + "\n", status)
        text = "kill -9 $$" if printed == "dies" else text
        os.makedirs(os.path.dirname(os.path.join(self.folder, name)), exist_ok=True)
        os.chmod(self.made(b"#!/bin/bash\n" + text.encode() + b"\n", name), 0o755)

    def test_the_gate_adds_both_counts_and_ends_with_0_only_where_both_did(self):
        for rt, rt_status, tests, tests_status, line, status in GATES:
            with self.subTest(rt=rt, rt_status=rt_status, tests=tests, tests_status=tests_status):
                self.program("bin/rt", rt, rt_status)
                self.program(".ci/run", "", 0)
                self.made(content(".ci", "run"), ".ci/run")
                if os.path.exists(self.folder + "/scripts/test"):
                    os.remove(self.folder + "/scripts/test")
                if tests is not None:
                    self.program("scripts/test", tests, tests_status)
                places = dict(os.environ, PATH=self.folder + "/bin:" + os.environ["PATH"])
                done = self.call(self.folder + "/.ci/run", env=places)
                self.assertEqual((done.stdout.decode().splitlines()[-1], done.returncode), (line, status))

    def test_each_path_that_a_document_names_exists(self):
        for document in DOCUMENTS:
            text = content(document).decode().replace("\\-", "-")
            for name in sorted(set(PATH.findall(text))):
                is_pattern = "NAME" in name or "STORY" in name or any(made in name for made in MADE)
                with self.subTest(document=document, name=name):
                    self.assertTrue(is_pattern or os.path.exists(path(name)))

    def test_each_edit_that_a_promise_names_exists(self):
        there = {name[:-len(".edit")] for crate in os.listdir(path("crates"))
                 if os.path.isdir(path("crates", crate, "must-fail"))
                 for name in os.listdir(path("crates", crate, "must-fail"))}
        rows = [row.strip("|").split("|") for row in content("docs", "PROVED.md").decode().splitlines()
                if row.startswith("| ")]
        named = {edit for row in rows for edit in re.findall(r"`([a-z]\w+)`", row[-2]) if edit[:3] != "hm_"}
        self.assertGreater(len(named), 10)
        self.assertEqual(named - there, set())

    def test_each_promise_has_at_most_twenty_words(self):
        for row in content("docs", "PROVED.md").decode().splitlines():
            if row.startswith("| "):
                with self.subTest(row):
                    self.assertLessEqual(len(row.split("|")[1].split()), 20)

    def test_each_script_tells_its_use(self):
        for name in SCRIPTS:
            with self.subTest(name):
                done = self.script(name, "--help")
                self.assertEqual((done.returncode, done.stderr), (0, b""))
                self.assertIn(b"usage: " + name.encode(), done.stdout)

    def test_the_bench_is_named_or_nothing_is_measured(self):
        places = {name: value for name, value in os.environ.items() if name != "HM_BENCH"}
        for words, more in (([], {}), (["missing"], {}), ([], {"HM_BENCH": "missing"}), (["a", "b"], {}),
                            (["-x"], {})):
            with self.subTest(words=words, more=more):
                done = self.script("bench", *words, env={**places, **more}, cwd=self.folder)
                self.is_refused(done, "bench: ")

    def test_programs_are_measured_on_a_file_that_is_cut_into_several(self):
        shutil.copytree(path("scripts"), self.folder + "/scripts", ignore=shutil.ignore_patterns("__pycache__"))
        rows = self.made(b"L,1,B,10,5\n\nL,2,B,10,1\nL,1,S,9,5\n", "rows")
        files = [[Row("L", 1, "B", 10, 5)], [Row("L", 2, "B", 10, 1), Row("L", 1, "S", 9, 5)]]
        report = in_turn(files).decode().rstrip("\n")
        for name in ("crates/hm_tool/out/hm_tool", "peer"):
            self.program(name, report, 0)
        done = self.call(self.folder + "/scripts/bench_files", "--repeats", "3", rows, self.folder + "/peer")
        self.assertEqual((done.returncode, done.stderr), (0, b""))
        self.assertRegex(done.stdout, rb"^3 orders in 2 files, 3 runs.*\n.*\nhm_tool: [0-9.() ]+; 1.00; 1\npeer: .*; 1\n$")
        self.program("unsound", report.replace("filled", "rested"), 0)
        self.program("failing", "", 6)
        for words, why in (([self.folder + "/unsound"], "printed a report whose line 3 "), (["--files", "9"], "--files"),
                           ([self.folder + "/failing"], "ended with 6: it said nothing"), (["--files", "0"], "--files"),
                           ([self.folder], "cannot be run: Permission denied"), (["--repeats", "x"], "--repeats")):
            with self.subTest(words):
                self.is_refused(self.call(self.folder + "/scripts/bench_files", rows, *words), "bench_files: ", why)

    def test_versions_are_handed_on_to_hm_alone(self):
        shutil.copytree(path("scripts"), self.folder + "/scripts", ignore=shutil.ignore_patterns("__pycache__"))
        rows = self.made(b"L,1,B,10,5\n", "rows")
        for name in ("crates/hm_tool/out/hm_tool", "peer"):
            self.program(name, "", 0)
            self.made(b"#!/bin/sh\necho $* >>%s/words\nprintf 'order 1 1 1 rested\\nboard 1\\nend 1 0 1\\n'\n"
                      % os.fsencode(self.folder), name)
        words = [rows, self.folder + "/peer", "--files", "1", "--repeats", "1"]
        for more, given in ([], ""), (["--versions", "512"], "--versions 512 "):
            done = self.call(self.folder + "/scripts/bench_files", *words, *more)
            self.assertEqual((done.returncode, done.stderr), (0, b""))
            with open(self.folder + "/words") as file:
                calls = [re.sub(r"/\S+/", "", line) for line in file.read().splitlines()]
            self.assertEqual(calls[-2:], ["replay %s1.csv" % given, "replay 1.csv"])
        self.is_refused(self.call(self.folder + "/scripts/bench_files", *words, "--versions", "63"), "from 64 to 65536")

    def test_the_bench_gets_the_built_program(self):
        self.made(b"import sys\nprint(' '.join(sys.argv[1:]))\nsys.exit(7)\n", "bench.py")
        done = self.script("bench", self.folder, "--", "--work", "tiny")
        self.assertEqual((done.returncode, done.stderr), (1, b""))
        self.assertIn(b"--hm %s --work tiny\n" % os.fsencode(path("crates/hm_tool/out/hm_tool")), done.stdout)
