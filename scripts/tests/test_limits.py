"""Orders that limits deny: report_check by its options, and what report_csv and report_svg make of them."""
import random
import xml.etree.ElementTree as tree

from common import Case
from options import Limits, admits
from orders import in_turn, one_by_one, rows_at_random, written
from replay import Unsound, Walk
from rows import MOST_NUMBER, Row, orders_of
from worked import worked_limits

# Limits, an order, and whether they admit it.
ADMITTED = [
    (Limits(100, 5, 20), Row("L", 1, "B", 5, 100), True),
    (Limits(100, 5, 20), Row("I", 1, "S", 20, 1), True),
    (Limits(100, 5, 20), Row("L", 1, "B", 4, 1), False),
    (Limits(100, 5, 20), Row("I", 1, "S", 21, 1), False),
    (Limits(100, 5, 20), Row("L", 1, "S", 9, 101), False),
    (Limits(100, 5, 20), Row("M", 1, "S", None, 100), True),
    (Limits(100, 5, 20), Row("M", 1, "B", None, 101), False),
    (Limits(1, 7, 7), Row("C", 1, None, None, None), True),
    (Limits(MOST_NUMBER, 1, MOST_NUMBER), Row("L", 1, "B", MOST_NUMBER, MOST_NUMBER), True),
]
# What is changed in the report of the worked file with limits, and its first wrong line then.
WRONG = [
    ("an order that the limits do not admit", b"2 denied", b"2 rested", 2),
    ("an order that they admit", b"3 dropped\nfill 1 3 1 10 5", b"3 denied", 3),
    ("a market order that they admit", b"4 dropped", b"4 denied", 5),
    ("a cancel", b"cancelled", b"denied", 8),
]
# Words for report_check that it refuses.
REFUSED = [
    (["--low", "5", "--high", "4"], "--low 5 --high 4: the least price is above the greatest"),
    (["--low", "0"], "--low '0': a number from 1 to 4294967295"),
    (["--high=4294967296"], "--high '4294967296': a number from 1 to 4294967295"),
    (["--max-quantity", "x"], "--max-quantity 'x': a number from 1 to 4294967295"),
    (["--low", "5", "--low", "5"], "--low: the option is given twice"),
    (["--versions", "64"], "--versions"),
    (["--lo", "5"], "--lo"),
]


class Denied(Case):
    def setUp(self):
        super().setUp()
        self.words, data, self.report = worked_limits()
        self.file = self.made(data, "orders")

    def test_what_limits_admit(self):
        for limits, order, is_admitted in ADMITTED:
            self.assertEqual(admits(limits, order), is_admitted, (limits, order))

    def test_a_check_takes_the_limits_as_options_in_any_place(self):
        report, (quantity, most, low, least, high, greatest) = self.made(self.report, "report"), self.words
        for words in ([*self.words, report, self.file], [report, *self.words, self.file],
                      [report, self.file, *self.words],
                      [low + "=" + least, report, quantity, "+0" + most, self.file, high, greatest],
                      [*self.words, "--", report, self.file]):
            with self.subTest(words):
                done = self.script("report_check", *words)
                self.assertEqual((done.returncode, done.stderr), (0, b""), done.stdout)
        two = self.made(in_turn([orders_of(self.file, 1)] * 2, Limits(100, 5, 20)), "two")
        done = self.script("report_check", two, self.file, *self.words, self.file)
        self.assertEqual((done.returncode, done.stderr), (0, b""), done.stdout)
        for words in ([], self.words[:4], [quantity, "101", low, least, high, greatest]):
            done = self.script("report_check", *words, report, self.file)
            self.assertEqual((done.returncode, b" of " in done.stdout), (1, True))

    def test_each_change_of_a_fate_is_found(self):
        files, limits = [orders_of(self.file, 1)], Limits(100, 5, 20)
        admitted = lambda order, fate: admits(limits, order)
        self.assertEqual(Walk(self.report, files, admitted).check(), self.report.count(b"\n"))
        for what, old, new, line in WRONG:
            with self.subTest(what):
                self.assertEqual(self.report.count(old), 1)
                with self.assertRaises(Unsound) as unsound:
                    Walk(self.report.replace(old, new), files, admitted).check()
                self.assertEqual(unsound.exception.args[0], line)

    def test_words_that_a_check_refuses(self):
        for words, why in REFUSED:
            with self.subTest(words):
                done = self.script("report_check", *words, self.made(self.report, "report"), self.file)
                self.is_refused(done, "report_check: ", why)
                self.assertEqual(done.returncode, 2)

    def test_what_a_plain_replay_with_limits_prints_is_sound(self):
        chance = random.Random(23)
        for number in range(40):
            low, high = sorted(1 + chance.randrange(8) for _ in "ab")
            limits = Limits(chance.randrange(1, 9), low, high)
            files = [rows_at_random(chance, number, 9) for _ in range(1 + number % 4)]
            for report in (in_turn(files, limits), one_by_one(files)):
                is_sound = True
                try:
                    Walk(report, files, lambda order, fate: admits(limits, order)).check()
                except Unsound:
                    is_sound = False
                others = [order for rows in files for order in rows if not admits(limits, order)]
                self.assertEqual(is_sound, b" denied\n" in report or not others, (limits, files))
                Walk(report, files, lambda order, fate: fate != "denied").check()

    def test_tables_and_pictures_of_denied_orders(self):
        report = self.made(self.report, "report")
        self.says(self.script("report_csv", report, self.folder), 0)
        with open(self.folder + "/orders.csv") as table:
            self.assertEqual([line.split(",")[3] for line in table.read().split()].count("denied"), 2)
        for files in ([], [self.file]):
            done = self.script("report_svg", report, *files)
            self.assertEqual((done.returncode, done.stderr), (0, b""))
            texts = [it.text for it in tree.fromstring(done.stdout).iter("{http://www.w3.org/2000/svg}text")]
            self.assertIn("denied (2)", texts)
            told = ", limit buy of 101 at 9, id 2" if files else ""
            self.assertIn("<title>order 2: file 1, row 2%s, denied</title>" % told, done.stdout.decode())

    def test_a_picture_with_files_believes_no_denied_cancel_and_no_fill_of_a_denied_order(self):
        wrong = self.report.replace(b"cancelled", b"denied").replace(b"end 7 1 0", b"end 7 1 1")
        done = self.script("report_svg", self.made(wrong, "report"), self.file)
        self.is_refused(done, "is no report of these files: its line 8 has 'order 7 1 7 denied'")
        wrong = self.report.replace(b"3 dropped", b"3 denied")
        done = self.script("report_svg", self.made(wrong, "report"), self.file)
        self.is_refused(done, "its line 4 is 'fill 1 3 1 10 5', but an order with that fate has no fills")

    def test_a_summary_is_no_report(self):
        summary = self.made(b"generated 7 2\nboard 2\nend 2 0 1\n", "report")
        self.is_refused(self.script("report_svg", summary), "'generated 7 2', but it is no line of a report")
        self.is_refused(self.script("report_csv", summary, self.folder), "its line 1 is 'generated 7 2'")
        self.assertEqual(self.script("report_check", summary, self.file).returncode, 1)
