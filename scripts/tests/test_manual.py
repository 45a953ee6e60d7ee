"""docs/hm.1: that it renders, that it says what the words may be, and that its examples are what the program writes."""
import re
import shutil

from common import Built, Case, content, path
from options import OPTIONS
from words import COMMANDS, NUMBERS


def plain():
    """The manual page without its marks."""
    text = re.sub(r"(?m)^\.(?:[BI]|[BIR]{2}) ", "", content("docs", "hm.1").decode())
    return re.sub(r"\\f.|\\&", "", text).replace("\\-", "-")


def section(name):
    return plain().split("\n.SH %s\n" % name)[1].split("\n.SH ")[0]


def blocks(text):
    """The lines that stand as they are."""
    return re.findall(r"(?s)\.nf\n(.*?)\.fi\n", text)


class Manual(Case):
    def test_it_renders_without_warnings(self):
        if not shutil.which("groff"):
            return
        done = self.call("groff", "-man", "-ww", "-Tutf8", path("docs", "hm.1"))
        self.assertEqual((done.returncode, done.stderr), (0, b""))
        self.assertIn(b"--max-quantity", re.sub(rb".\x08|\x1b\[[0-9;]*m", b"", done.stdout))

    def test_it_has_each_option_and_range(self):
        options, synopsis = section("OPTIONS"), section("SYNOPSIS")
        for name, (least, most, default) in OPTIONS.items():
            self.assertRegex(options, r'%s " N"\n(.+\n)*.*from %d to %d, else %d\.' % (name, least, most, default))
            self.assertEqual(synopsis.count(name), sum(name in names for names in COMMANDS.values()))
        for most in NUMBERS.values():
            self.assertIn(" %d" % most, section("DESCRIPTION"))

    def test_the_readme_has_at_most_1200_words(self):
        self.assertLessEqual(len(content("README.md").split()), 1200)


class Examples(Built):
    def test_the_examples(self):
        rows, report, denied, _, summary, *calls = blocks(section("EXAMPLES"))
        file = self.made(rows.encode())
        self.says(self.hm("replay", file), 0, out=report.encode())
        self.says(self.hm("replay", "--max-quantity", "4", file), 0, out=denied.encode())
        self.says(self.hm("generate", "7", "2"), 0, out=summary.encode())
        self.made(b'#!/bin/sh\nexec "%s" "$@"\n' % path("crates/hm_tool/out/hm_tool").encode(), "hm")
        self.call("chmod", "+x", self.folder + "/hm")
        for name in ("scripts", "demo", "completions"):
            self.call("ln", "-s", path(name), self.folder)
        for name in ("first.csv", "second.csv"):
            self.made(b"L,1,B,10,5\n" * 16 + b"L,2,B,0,5\n", name)
        lines = "".join(calls).splitlines()
        self.assertEqual(len(lines), 8)
        for line in lines:
            with self.subTest(line):
                done = self.call("bash", "-c", line, cwd=self.folder)
                self.assertEqual((done.returncode, done.stderr), (0, b""), done.stdout)
