"""report_csv, report_svg and report_check over the worked reports of docs/FORMATS.md and broken ones."""
import os
import random
import xml.etree.ElementTree as tree

from common import Case
from replay import Unsound, Walk
from rows import orders_of
from worked import worked, worked_pair

ROWS = b"L,1,B,10,5\nL,2,S,9,3\n"
PAIR = b"order 1 1 1 rested\norder 2 2 1 filled\nfill 1 2 1 10 5\nboard 1 1\nend 2 1 0\n"
GOOD = b"order 1 1 1 rested\norder 2 1 2 filled\nfill 1 2 1 10 3\nboard 2\nend 2 1 1\n"
# What a check says of a report that is not the one of its interleaving.
WRONG = [
    ("no byte", b"", "line 1 of", "is missing"),
    ("another price", GOOD.replace(b"10 3", b"9 3"), "line 3 of", "'fill 1 2 1 10 3'"),
    ("the price 0", GOOD.replace(b"1 10 3", b"1 0 3"), "line 3 of", "'fill 1 2 1 10 3'"),
    ("another fate", GOOD.replace(b"filled", b"rested"), "line 2 of", "'order 2 1 2 filled'"),
    ("another root number", GOOD.replace(b"order 2", b"order 7"), "line 2 of", "'order 2 1 2 filled'"),
    ("another number at rest", GOOD.replace(b"end 2 1 1", b"end 2 1 2"), "line 5 of", "'end 2 1 1'"),
    ("a wrong board line", GOOD.replace(b"board 2", b"board 1"), "line 4 of", "'board 2'"),
    ("a row twice", GOOD.replace(b"order 2 1 2", b"order 2 1 1"), "line 2 of", "row 2 of file 1"),
    ("a file too many", GOOD.replace(b"order 2 1", b"order 2 2"), "line 2 of", "row 2 of file 1"),
    ("a fill less", GOOD.replace(b"fill 1 2 1 10 3\n", b""), "line 3 of", "'fill 1 2 1 10 3'"),
    ("a fill more", GOOD.replace(b"board", b"fill 2 2 1 10 2\nboard"), "line 4 of", "'board 2'"),
    ("no end line", GOOD[:GOOD.index(b"end")], "line 5 of", "is missing"),
    ("a line too many", GOOD + b"end 2 1 1\n", "line 6 of", "nothing"),
    ("two reports joined", GOOD + GOOD, "line 6 of", "nothing"),
    ("an empty line at the end", GOOD + b"\n", "line 6 of", "nothing"),
    ("a byte at the end", GOOD + b"x", "line 6 of", "nothing"),
    ("a cut line", GOOD[:-4], "line 5 of", "'end 2 1 1'"),
    ("no line feed at the end", GOOD[:-1], "line 5 of", "'end 2 1 1', ended by a line feed"),
    ("CR LF", GOOD.replace(b"\n", b"\r\n"), "line 1 of", "row 1 of file 1"),
    ("binary bytes", bytes(range(256)) + b"\n", "line 1 of", "row 1 of file 1"),
    ("a number of many digits", GOOD.replace(b"order 1", b"order " + b"1" * 9999), "line 1 of", "row 1 of file 1"),
]
TWO = (b"order 1 2 1 rested\norder 2 1 1 filled\nfill 1 2 1 9 5\norder 3 1 2 rested\norder 4 2 2 repeated\n"
       b"board 2 2\nend 4 1 1\n")
FIRST, SECOND = b"L,1,B,10,5\nL,1,B,8,1\n", b"L,7,S,9,6\nL,7,S,9,6\n"


class Reports(Case):
    def test_the_worked_reports(self):
        for case in worked():
            with self.subTest(case.name):
                file, report = self.made(case.data, "orders"), self.made(case.report or GOOD, "report")
                done = self.script("report_check", report, file)
                if case.refusal:
                    _, _, _, row, part = case.refusal.split()
                    self.is_refused(done, "refuses row %s" % row, "part %s" % part)
                    continue
                self.assertEqual((done.returncode, done.stderr), (0, b""), done.stdout)
                self.assertIn(b"unproved", done.stdout)
                if case.name in ("1", "4"):
                    tree.fromstring(self.script("report_svg", report, file).stdout)
                    self.says(self.script("report_csv", report, self.folder + "/tables"), 0)

    def test_the_tables(self):
        self.says(self.script("report_csv", self.made(TWO), self.folder + "/new/tables"), 0)
        with open(self.folder + "/new/tables/orders.csv", "rb") as file:
            self.assertEqual(file.read(), b"root,file,row,fate\n1,2,1,rested\n2,1,1,filled\n3,1,2,rested\n"
                                          b"4,2,2,repeated\n")
        with open(self.folder + "/new/tables/fills.csv", "rb") as file:
            self.assertEqual(file.read(), b"number,taker,maker,price,quantity\n1,2,1,9,5\n")

    def test_a_check_ends_with_0_or_1_whatever_bytes_a_report_has(self):
        chance, files = random.Random(3), [orders_of(self.made(ROWS, "orders"), 1)]
        for number in range(2000):
            report = bytearray(GOOD)
            for _ in range(chance.randrange(1, 4)):
                report[chance.randrange(len(report))] = chance.choice(b"\n\r 0129bdef\xff")
            is_sound, same = True, len(os.path.commonprefix([bytes(report), GOOD]))
            try:
                Walk(bytes(report), files).check()
            except Unsound as unsound:
                is_sound = False
                # The lines before are the sound report's, and the line is not.
                self.assertEqual(unsound.args[0], GOOD.count(b"\n", 0, same) + 1, report)
            self.assertEqual(is_sound, report == GOOD, report)

    def test_reports_of_another_replay(self):
        files = [orders_of(self.made(ROWS, "orders"), 1)]
        for what, report, line, words in WRONG:
            with self.subTest(what):
                with self.assertRaises(Unsound) as unsound:
                    Walk(report, files).check()
                told = "line %d of %s" % unsound.exception.args
                self.assertEqual((told.startswith(line), words in told), (True, True), told)
                if what in ("no byte", "CR LF", "two reports joined"):
                    done = self.script("report_check", self.made(report), self.made(ROWS, "orders"))
                    self.assertEqual((done.returncode, done.stderr, done.stdout.count(b"\n")), (1, b"", 1))
                    self.assertIn(line, done.stdout.decode())

    def test_a_report_of_two_files(self):
        files = self.made(FIRST, "a"), self.made(b"L,7,S,9,5\nL,8,S,9,6\n", "b")
        report = TWO.replace(b"2 2 repeated", b"2 2 rested").replace(b"end 4 1 1", b"end 4 1 2")
        self.assertEqual(self.script("report_check", self.made(report), *files).returncode, 0)
        done = self.script("report_check", self.made(TWO), *files)
        self.assertEqual(done.returncode, 1)
        self.assertIn(b"line 5 of ", done.stdout)
        picture = tree.fromstring(self.script("report_svg", self.made(report)).stdout)
        texts = [text.text for text in picture.iter("{http://www.w3.org/2000/svg}text")]
        self.assertIn("file 2", texts)

    def test_either_report_of_the_two_worked_files_is_sound(self):
        (first, second), reports = worked_pair()
        files = self.made(first, "a"), self.made(second, "b")
        self.assertEqual((reports[0], len(set(reports))), (PAIR, 2))
        for report in reports:
            with self.subTest(report):
                done = self.script("report_check", self.made(report, "report"), *files)
                self.assertEqual((done.returncode, done.stderr), (0, b""), done.stdout)
                self.assertEqual(self.script("report_check", self.folder + "/report", *files[::-1]).returncode, 1)
                for words in (files, ()):
                    picture = self.script("report_svg", self.folder + "/report", *words).stdout
                    texts = [text.text for text in tree.fromstring(picture).iter("{http://www.w3.org/2000/svg}text")]
                    self.assertIn("2 orders of 2 files, 1 fill; in the end 0 of the 1 rested order still rest", texts)
                self.says(self.script("report_csv", self.folder + "/report", self.folder + "/tables"), 0)
                with open(self.folder + "/tables/orders.csv") as table:
                    self.assertEqual({row.split(",")[1] for row in table.read().splitlines()[1:]}, {"1", "2"})
        mixed = self.made(reports[0].replace(b"10 5", b"9 5"), "report")
        done = self.script("report_check", mixed, *files)
        self.assertEqual((done.returncode, b"line 3 of " in done.stdout), (1, True))

    def test_files_without_rows_and_eight_files(self):
        files = [self.made(b"L,1,B,10,1\n" if file % 2 else b"", "file%d" % file) for file in range(8)]
        report = b"".join(b"order %d %d 1 rested\n" % pair for pair in ((1, 8), (2, 2), (3, 6), (4, 4)))
        report = self.made(report + b"board 0 1 0 1 0 1 0 1\nend 4 0 4\n")
        self.assertEqual(self.script("report_check", report, *files).returncode, 0)
        self.assertIn(b"file 8", self.script("report_svg", report, *files).stdout)
        for script in ("report_check", "report_svg"):
            self.is_refused(self.script(script, report, *files, files[0]), "at most 8 files together, and there are 9")

    def test_files_that_cannot_be_read(self):
        report, missing = self.made(GOOD), self.folder + "/missing"
        for script, words in (("report_svg", [missing]), ("report_svg", [self.folder]),
                              ("report_svg", [b"\xff"]), ("report_csv", [missing, self.folder]),
                              ("report_csv", [report, report]),
                              ("report_check", [missing, missing]), ("report_check", [report, missing]),
                              ("report_check", [report, self.made(ROWS, "orders"), missing]),
                              ("report_svg", []), ("report_csv", [report]), ("report_check", [report]),
                              ("report_svg", ["--frob", report])):
            with self.subTest(script=script, words=words):
                self.is_refused(self.script(script, *words))
