"""./hm, demo/run and .ci/run on a machine with a toolchain of our own, with a failing one, and without one."""
import os
import shutil
import sys

from common import Case, content, path
from orders import in_turn, one_by_one
from rows import files_of

TOOLS = ("awk", "bash", "cat", "dirname", "env", "find", "mkdir", "mktemp", "mv", "readlink", "rm", "sh", "tail",
         "tee", "touch")
# What stands in the toolchain's place: it notes its calls, and builds a program that prints the demo's reports, for two
# files one and the other report by turns.
RT = b"""#!/bin/bash
echo "${PWD##*/} $*" >>"$NOTES"
echo "rt: many words"
if [ "${PWD##*/}" = "$FAILS" ]; then echo "rt: not proved" >&2; exit 1; fi
if [ "$1" = run ]; then mkdir -p out; cp "$MADE" out/hm_tool; chmod +x out/hm_tool; fi
"""
PROGRAM = b"""#!/bin/bash
cd "%b"
if [[ $2 = */kinds.csv ]]; then cat kinds; elif [ $# -lt 3 ]; then cat first
elif [ -e turn ]; then rm turn; cat one; else >turn; cat other; fi
"""
CRATES = b"# Some.\nlow:\nother: low\nmiddle: low kit\nhm_tool: middle low\nlast: hm_tool\n"


class Build(Case):
    def setUp(self):
        """A repository with a demo and some crates, and the tools that it needs."""
        super().setUp()
        for name in ("bin", "tools", "demo", "demo/two", "crates", ".ci"):
            os.mkdir(os.path.join(self.folder, name))
        for name in ("low", "other", "middle", "hm_tool", "last"):
            os.mkdir(os.path.join(self.folder, "crates", name))
        for name in ("hm", "demo/run", "demo/first.csv", "demo/kinds.csv", "demo/two/a.csv", "demo/two/b.csv",
                     ".ci/run"):
            shutil.copy(path(name), os.path.join(self.folder, name))
        os.symlink(path("scripts"), self.folder + "/scripts")
        two = files_of([path("demo", "two", "a.csv"), path("demo", "two", "b.csv")])
        reports = (("first", content("crates", "hm_tool", "stdout")), ("kinds", content("demo", "kinds.report")),
                   ("one", one_by_one(two)), ("other", in_turn(two)))
        for name, report in reports:
            self.made(report, name)
        self.made(CRATES, "crates.txt")
        os.chmod(self.made(RT, "bin/rt"), 0o755)
        for name in TOOLS + ("cp", "chmod"):
            os.symlink(shutil.which(name), os.path.join(self.folder, "tools", name))
        self.add_python()

    def add_python(self):
        os.symlink(os.path.realpath(sys.executable), self.folder + "/bin/python3")

    def alone(self, program, *words, **more):
        """A call that finds no tool but these."""
        places = {"PATH": "%s/bin:%s/tools" % (self.folder, self.folder), "NOTES": self.folder + "/notes",
                  "MADE": self.made(PROGRAM % os.fsencode(self.folder), "made"), **more}
        return self.call(os.path.join(self.folder, program), *words, env=places)

    def test_a_build_says_which_crate_it_is_at(self):
        told = b"hm: building the program, some minutes the first time\nhm: crate 1 of 3: low\n" \
            b"hm: crate 2 of 3: middle\nhm: crate 3 of 3: hm_tool\n"
        self.says(self.alone("hm", "replay", "f"), 0, out=content("crates", "hm_tool", "stdout"), err=told)
        with open(self.folder + "/notes") as file:
            self.assertEqual(file.read(), "low lib\nmiddle lib\nhm_tool run -- replay /dev/null\n")
        self.says(self.alone("hm", "replay", "f"), 0, out=content("crates", "hm_tool", "stdout"))

    def test_a_build_that_fails_shows_why_and_ends_with_70(self):
        done = self.alone("hm", "replay", "f", FAILS="middle")
        self.assertEqual((done.returncode, done.stdout), (70, b""))
        self.assertEqual(done.stderr.splitlines()[-3:], [
            b"rt: many words", b"rt: not proved", b"hm: middle did not build, as the lines above say"])

    def test_demo_run_makes_the_reports_and_the_pictures(self):
        done = self.alone("demo/run")
        first, kinds = content("crates", "hm_tool", "stdout"), content("demo", "kinds.report")
        self.assertEqual((done.returncode, done.stdout), (0, first + kinds))
        for name, wanted in (("first.svg", content("demo", "first.svg")), ("out/first.txt", first),
                             ("out/kinds.txt", kinds)):
            with open(os.path.join(self.folder, "demo", name), "rb") as file:
                self.assertEqual(file.read(), wanted)
        self.assertEqual(sorted(os.listdir(self.folder + "/demo/out")),
                         ["first.txt", "kinds.svg", "kinds.txt", "two.svg", "two.txt"])
        self.assertIn(b"each sound by scripts/report_check; distinct reports: 2; ", done.stderr)
        with open(self.folder + "/demo/out/two.txt") as kept, open(self.folder + "/one") as last:
            self.assertEqual(kept.read(), last.read())

    def test_demo_run_keeps_no_report_that_is_not_sound(self):
        for name, kept in (("one", ["first.txt", "kinds.svg", "kinds.txt"]), ("kinds", ["first.txt"])):
            shutil.rmtree(self.folder + "/demo/out", ignore_errors=True)
            self.made(content("crates", "hm_tool", "stdout"), name)
            with self.subTest(name):
                done = self.alone("demo/run")
                self.assertEqual(done.returncode, 70)
                self.assertIn(b"and there should be ", done.stderr.splitlines()[-1])
                self.assertEqual(sorted(os.listdir(self.folder + "/demo/out")), kept)

    def test_demo_run_leaves_what_was_there_where_it_fails(self):
        self.made(b"old", "demo/first.svg")
        self.assertEqual(self.alone("demo/run", FAILS="low").returncode, 70)
        os.remove(self.folder + "/scripts")
        self.assertEqual(self.alone("demo/run").returncode, 70)
        with open(self.folder + "/demo/first.svg", "rb") as file:
            self.assertEqual((file.read(), os.listdir(self.folder + "/demo/out")), (b"old", []))

    def test_closed_streams(self):
        self.alone("hm")
        for line, status in (("./hm f 2>&-", 0), ("demo/run 2>&-", 0), ("demo/run <&-", 0), ("demo/run >&-", 70),
                             ("demo/run >/dev/full", 70), ("touch crates.txt; ./hm f <&- 2>&-", 0)):
            with self.subTest(line):
                done = self.alone("tools/bash", "-c", "cd %s; %s" % (self.folder, line))
                self.assertEqual(done.returncode, status, done.stderr)

    def test_a_machine_without_rt_or_python3_is_told_what_to_install(self):
        for lacking, install in (("python3", "install Python 3.8 or later"), ("rt", "install the kit that README.md")):
            os.remove(os.path.join(self.folder, "bin", lacking))
            done = self.alone("hm", "replay", "demo/first.csv")
            self.is_refused(done, "hm: ", "%s, which builds it, is not on the path: " % lacking + install)
            self.assertEqual(done.returncode, 70)
            done = self.alone("demo/run")
            self.is_refused(done, lacking, install)
            self.assertFalse(os.path.exists(self.folder + "/demo/first.svg"))
            done = self.alone(".ci/run")
            self.assertEqual((done.returncode, done.stderr), (1, b""))
            told, last = done.stdout.decode().splitlines()
            self.assertEqual(last, "0 passed, 1 failed")
            self.assertIn("not on the path is %s: %s" % (lacking, install), told)
            if lacking == "python3":
                self.says(self.alone("scripts/explain", "hm: read 1"), 2, err=b"install Python 3.8 or later\n")
                self.add_python()
