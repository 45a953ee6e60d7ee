"""Reports that no replay prints whatever its files, as report_svg and report_csv refuse them."""
import os

from calls import Bad
from common import Case
from formats import read_report

ROWS = b"L,1,B,10,5\nL,2,S,9,3\n"
PAIR = b"order 1 1 1 rested\norder 2 2 1 filled\nfill 1 2 1 10 5\nboard 1 1\nend 2 1 0\n"
GOOD = b"order 1 1 1 rested\norder 2 1 2 filled\nfill 1 2 1 10 3\nboard 2\nend 2 1 1\n"
TWELVE = b"1" + b"0" * 11  # more than a price or a quantity may be
WIDE = b"18446744073709551616"  # more than 64 bits hold
# Reports that no replay prints whatever its files, and words of the line that is said of each.
BROKEN = [
    ("no byte", b"", "ends after line 0, without an end line"),
    ("a cut line", GOOD[:-4], "line 5 is 'end 2 ', but an end line has to follow"),
    ("cut behind a line", GOOD[:GOOD.index(b"board")], "ends after line 3"),
    ("an unknown fate", GOOD.replace(b"filled", b"felled"), "line 2 is 'order 2 1 2 felled', but that is no fate"),
    ("no end line", GOOD[:GOOD.index(b"end")], "ends after line 4"),
    ("a wrong end line", GOOD.replace(b"end 2 1", b"end 2 2"), "line 5 is 'end 2 2 1', but it does not count"),
    ("a line behind the end line", GOOD + b"end 2 1 1\n", "line 6 is 'end 2 1 1', but the report was over"),
    ("two reports joined", GOOD + GOOD, "line 6 is 'order 1 1 1 rested', but the report was over"),
    ("CR LF", GOOD.replace(b"\n", b"\r\n"), "line 1 is 'order 1 1 1 rested\\r'"),
    ("binary bytes", bytes(range(256)) + b"\n", "line 1 is '\\x00"),
    ("an order file", ROWS, "line 1 is 'L,1,B,10,5'"),
    ("a sign", GOOD.replace(b"order 1", b"order +1"), "line 1 is"),
    ("a leading zero", GOOD.replace(b"fill 1 2", b"fill 1 02"), "line 3 is"),
    ("a fill of no order", b"fill 1 0 0 10 3\n" + GOOD, "line 1 is"),
    ("a fill of another order", GOOD.replace(b"fill 1 2 1", b"fill 1 3 1"), "the taker is the order above it"),
    ("a fill with itself", GOOD.replace(b"fill 1 2 1", b"fill 1 2 2"), "the maker is an earlier order"),
    ("a maker that is none", GOOD.replace(b"fill 1 2 1", b"fill 1 2 0"), "the maker is an earlier order"),
    ("the price 0", GOOD.replace(b"1 10 3", b"1 0 3"), "line 3 is 'fill 1 2 1 0 3', but that is no price"),
    ("the quantity 0", GOOD.replace(b"10 3", b"10 0"), "line 3 is 'fill 1 2 1 10 0', but that is no quantity"),
    ("a price too great", GOOD.replace(b"1 10 3", b"1 %b 3" % TWELVE), "that is no price"),
    ("a quantity too great", GOOD.replace(b"10 3", b"10 4294967296"), "that is no quantity"),
    ("a price of 65 bits", GOOD.replace(b"1 10 3", b"1 %b 3" % WIDE), "that is no price"),
    ("a root number of 65 bits", GOOD.replace(b"order 2", b"order " + WIDE), "order 2 comes next"),
    ("a file of 65 bits", GOOD.replace(b"2 1 2 f", b"2 %b 1 f" % WIDE), "at most 8 files"),
    ("the file 0", GOOD.replace(b"2 1 2 f", b"2 0 1 f"), "at most 8 files"),
    ("the file 9", GOOD.replace(b"2 1 2 f", b"2 9 1 f"), "at most 8 files"),
    ("a number of many digits", GOOD.replace(b"end 2", b"end " + b"2" * 9999), "an end line has to follow"),
    ("a row twice", GOOD.replace(b"2 1 2 f", b"2 1 1 f"), "line 2 is 'order 2 1 1 filled', but the rows"),
    ("a row left out", GOOD.replace(b"2 1 2 f", b"2 1 3 f"), "the rows of a file come in turn"),
    ("a fill under a repeated order", GOOD.replace(b"filled", b"repeated"), "an order with that fate has no fills"),
    ("an order repeated at once", b"order 1 1 1 repeated\nboard 1\nend 1 0 0\n", "no order of its file rests"),
    ("a filled order without a fill", GOOD.replace(b"fill 1 2 1 10 3\n", b""), "line 3 is 'board 2', but an order"),
    ("a wrong board line", GOOD.replace(b"board 2", b"board 1"), "line 4 is 'board 1', but it does not count"),
    ("a board of no file", GOOD.replace(b"board 2", b"board"), "line 4 is 'board'"),
    ("a board of nine files", GOOD.replace(b"board 2", b"board 2" + b" 0" * 8), "line 4 is 'board 2 0 0"),
    ("a board that lacks a file", PAIR.replace(b"board 1 1", b"board 2"), "line 4 is 'board 2', but it does not count"),
    ("a board of swapped files", PAIR.replace(b"board 1 1", b"board 2 0"), "line 4 is 'board 2 0', but it does not"),
    ("a row of the other file", PAIR.replace(b"2 2 1 f", b"2 2 2 f"), "the rows of a file come in turn"),
    ("more at rest than orders", GOOD.replace(b"end 2 1 1", b"end 2 1 3"), "from 0 to 1 orders can rest"),
    ("more at rest than rested", GOOD.replace(b"end 2 1 1", b"end 2 1 2"), "from 0 to 1 orders can rest"),
    ("a maker that did not rest", GOOD[:GOOD.index(b"board")] + b"order 3 1 3 filled\nfill 2 3 2 9 1\n",
     "line 5 is 'fill 2 3 2 9 1', but the maker did not rest"),
    ("a maker with two prices", GOOD[:GOOD.index(b"board")] + b"order 3 1 3 filled\nfill 2 3 1 9 1\n",
     "the maker has another price"),
    ("a maker that was filled", GOOD.replace(b"filled", b"rested")[:GOOD.index(b"board")]
     + b"order 3 1 3 filled\nfill 2 3 1 10 1\n", "the maker was filled before"),
    ("a maker twice under an order", GOOD[:GOOD.index(b"board")] + b"fill 2 2 1 10 3\n", "the earlier maker comes first"),
    ("a fill under a cancel", GOOD.replace(b"filled", b"cancelled"), "an order with that fate has no fills"),
    ("a fill under a cancel of no order", GOOD.replace(b"filled", b"unknown"), "an order with that fate has no fills"),
    ("a cancel at once", b"order 1 1 1 cancelled\n", "line 1 is 'order 1 1 1 cancelled', but no order of its file"),
    ("a cancel of another file's order", PAIR.replace(b"filled", b"cancelled"), "line 2 is 'order 2 2 1 cancelled'"),
    ("two cancels of one order", b"order 1 1 1 rested\norder 2 1 2 cancelled\norder 3 1 3 cancelled\n", "line 3 is"),
    ("repeated after a cancel", b"order 1 1 1 rested\norder 2 1 2 cancelled\norder 3 1 3 repeated\n", "line 3 is"),
    ("a maker that was taken out", b"order 1 1 1 rested\norder 2 1 2 cancelled\norder 3 1 3 dropped\nfill 1 3 1 9 1\n",
     "line 4 is 'fill 1 3 1 9 1', but no order of the maker's file rests"),
    ("a maker that was filled by a dropped order", GOOD.replace(b"filled", b"dropped")[:GOOD.index(b"board") + 1]
     + b"order 3 1 3 filled\nfill 2 3 1 10 1\n", "the maker was filled before"),
    ("more at rest than were left", b"order 1 1 1 rested\norder 2 1 2 cancelled\nboard 2\nend 2 0 1\n",
     "from 0 to 0 orders can rest"),
    ("prices that rise and fall", b"order 1 1 1 rested\norder 2 1 2 rested\norder 3 1 3 rested\norder 4 1 4 filled\n"
     b"fill 1 4 1 5 1\nfill 2 4 2 6 1\nfill 3 4 3 5 1\n", "line 7 is 'fill 3 4 3 5 1', but the prices"),
]


class Broken(Case):
    def test_reports_that_no_replay_prints(self):
        for what, report, words in BROKEN:
            with self.subTest(what):
                report = self.made(report)
                with self.assertRaises(Bad) as bad:
                    read_report(report)
                self.assertIn(words, str(bad.exception))
                if what in ("no byte", "the quantity 0"):
                    self.is_refused(self.script("report_svg", report), "report_svg: ", words)
                    self.is_refused(self.script("report_csv", report, self.folder + "/tables"), words)
                    self.assertFalse(os.path.exists(self.folder + "/tables"))
