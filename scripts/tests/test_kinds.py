"""report_check, report_csv and report_svg over all kinds of orders, and over files that nobody would write."""
import random
import xml.etree.ElementTree as tree

from common import Case, content, path
from formats import FATES, read_report
from orders import in_turn, one_by_one, rows_at_random, written
from replay import Unsound, Walk
from rows import orders_of

ROWS = b"L,1,S,10,2\nL,2,S,9,2\nM,3,B,,3\nI,4,B,9,9\nC,1,,,\nC,1,,,\nL,5,B,8,1\nL,5,B,8,1\n"
GOOD = b"""order 1 1 1 rested
order 2 1 2 rested
order 3 1 3 filled
fill 1 3 2 9 2
fill 2 3 1 10 1
order 4 1 4 dropped
order 5 1 5 cancelled
order 6 1 6 unknown
order 7 1 7 rested
order 8 1 8 repeated
board 8
end 8 2 1
"""
# What is changed in the sound report, its first wrong line then, and what should be there.
WRONG = [
    ("a market order at the worse price first", b"fill 1 3 2 9 2\nfill 2 3 1 10 1", b"fill 1 3 1 10 2\nfill 2 3 2 9 1",
     4, "fill 1 3 2 9 2"),
    ("a market order that stops at a price", b"3 filled\nfill 1 3 2 9 2\nfill 2 3 1 10 1", b"3 dropped\nfill 1 3 2 9 2",
     3, "order 3 1 3 filled"),
    ("a market order that rests", b"3 1 3 filled", b"3 1 3 rested", 3, "order 3 1 3 filled"),
    ("an immediate order that rests", b"dropped", b"rested", 6, "order 4 1 4 dropped"),
    ("an immediate order that trades at a worse price", b"dropped\n", b"dropped\nfill 3 4 1 10 1\n", 7,
     "order line of row 5"),
    ("an order that the limits admit", b"dropped", b"denied", 6, "order 4 1 4 dropped"),
    ("a cancel of an order that rests", b"cancelled", b"unknown", 7, "order 5 1 5 cancelled"),
    ("a cancel of an order that rests no more", b"unknown", b"cancelled", 8, "order 6 1 6 unknown"),
    ("a limit order that is thrown away", b"7 1 7 rested", b"7 1 7 dropped", 9, "order 7 1 7 rested"),
    ("a limit order with a free id", b"7 1 7 rested", b"7 1 7 repeated", 9, "order 7 1 7 rested"),
    ("a second order with an id", b"repeated", b"rested", 10, "order 8 1 8 repeated"),
    ("an order at rest that was taken out", b"end 8 2 1", b"end 8 2 2", 12, "end 8 2 1"),
]
# Order files that nobody would write, and how they are refused.
HOSTILE = [
    ("zero bytes", b"\0" * 1000, "row 1", "fields"),
    ("a zero byte in a number", b"L,1,B,1\0,1", "row 1", "price"),
    ("bytes FF", b"\xff" * 1000 + b"\n", "row 1", "fields"),
    ("bytes FF in each field", b"\xff,\xff,\xff,\xff,\xff", "row 1", "kind"),
    ("a quote that is not closed", ROWS + b'"' + ROWS, "row 9", "fields"),
    ("quotes alone", b'"' * 9999, "row 1", "fields"),
    ("a row of 70000 fields", b"," * 69999, "row 1", "fields"),
    ("a row of 70000 quoted fields", b'"",' * 69999 + b'""', "row 1", "fields"),
    ("a number of many digits", b"L,1,B,1,%b" % (b"1" * 70000), "row 1", "quantity"),
    ("digits that are not ASCII", "L,1,B,1,\u0661".encode(), "row 1", "quantity"),
    ("a header", b"kind,id,side,price,quantity\n" + ROWS, "row 1", "kind"),
]


class Kinds(Case):
    def test_a_report_of_all_kinds_is_sound_and_each_change_is_found(self):
        file = self.made(ROWS, "orders")
        files = [orders_of(file, 1)]
        self.assertEqual(Walk(GOOD, files).check(), GOOD.count(b"\n"))
        for what, old, new, line, wanted in WRONG:
            with self.subTest(what):
                self.assertEqual(GOOD.count(old), 1)
                with self.assertRaises(Unsound) as unsound:
                    Walk(GOOD.replace(old, new), files).check()
                self.assertEqual((unsound.exception.args[0], wanted in unsound.exception.args[1]), (line, True),
                                 unsound.exception.args)
        for report, status in ((GOOD, 0), (GOOD.replace(b"unknown", b"cancelled"), 1)):
            self.assertEqual(self.script("report_check", self.made(report), file).returncode, status)

    def test_the_demo_of_all_kinds_has_each_fate_but_one(self):
        report, file = path("demo", "kinds.report"), path("demo", "kinds.csv")
        self.assertEqual(self.script("report_check", report, file).returncode, 0)
        found = read_report(report)
        self.assertEqual({order.fate for order in found.orders}, set(FATES) - {"denied"})
        self.assertEqual({order.kind for order in orders_of(file, 1)}, set("LIMC"))
        self.assertTrue(b'"' in content("demo", "kinds.csv") and b"\n\n" in content("demo", "kinds.csv"))
        tree.fromstring(self.script("report_svg", report, file).stdout)
        self.says(self.script("report_csv", report, self.folder), 0)
        for table, count in (("orders", 28), ("fills", 12)):
            with open("%s/%s.csv" % (self.folder, table)) as rows:
                self.assertEqual(rows.read().count("\n"), 1 + count)

    def test_a_cancel_and_an_id_are_of_their_own_file(self):
        files = self.made(b"L,1,B,10,5\nC,1,,,\n", "a"), self.made(b"C,1,,,\nM,1,S,,2\n", "b")
        report = b"order 1 1 1 rested\norder 2 2 1 unknown\norder 3 2 2 filled\nfill 1 3 1 10 2\n" \
            b"order 4 1 2 cancelled\nboard 2 2\nend 4 1 0\n"
        for name in ("report_check", "report_svg"):
            self.assertEqual(self.script(name, self.made(report), *files).returncode, 0)
        done = self.script("report_check", self.made(report.replace(b"unknown", b"cancelled")), *files)
        self.assertEqual((done.returncode, b"line 2 of " in done.stdout), (1, True))

    def test_an_order_trades_with_its_own_file(self):
        file = self.made(b"L,1,B,10,5\nI,2,S,9,9\n", "a")
        report = b"order 1 1 1 rested\norder 2 1 2 dropped\nfill 1 2 1 10 5\nboard 2\nend 2 1 0\n"
        self.assertEqual(self.script("report_check", self.made(report), file).returncode, 0)

    def test_what_a_plain_replay_prints_is_a_report(self):
        chance = random.Random(17)
        for number in range(60):
            files = [rows_at_random(chance, number, 9) for _ in range(1 + number % 8)]
            for report in (in_turn(files), one_by_one(files)):
                self.assertEqual(Walk(report, files).check(), report.count(b"\n"))
                self.assertEqual(read_report(self.made(report)).board, [number] * len(files))
            names = self.made_all(map(written, files))
            self.assertEqual([orders_of(name, 1) for name in names], files)

    def test_files_that_nobody_would_write(self):
        report = self.made(b"board 0\nend 0 0 0\n", "report")
        for what, data, row, part in HOSTILE:
            with self.subTest(what):
                file = self.made(data, "orders")
                for name in ("report_check", "report_svg"):
                    self.is_refused(self.script(name, report, file), "hm refuses %s of " % row, "by its part " + part)
        for data in (b"", b"\xef\xbb\xbf", b"\r\n\r\n", b"\n\r\r\n"):
            file = self.made(data, "orders")
            for name in ("report_check", "report_svg"):
                self.assertEqual(self.script(name, report, file).returncode, 0)
