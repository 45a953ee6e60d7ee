"""generate_file: the rows that it makes, what a plain replay makes of them, and what it refuses."""
import os

from book import Book
from common import Case
from orders import in_turn
from rows import orders_of

# Row, order. The first two are worked in the script's rule: states 1 and 2 of 7 are 9098160460397411210 and
# 17628806926561717905, so 2118330556 and 4104526463 are drawn.
ROWS = [(1, b"L,1,B,1014,6"), (2, b"I,2,S,1015,4"), (62, b"I,62,B,1005,7"), (63, b"L,63,B,1003,4"), (64, b"C,1,,,"),
        (65, b"L,65,B,1011,6"), (66, b"C,3,,,"), (70, b"C,7,,,")]


class Generating(Case):
    def test_the_rows_of_seven(self):
        done = self.script("generate_file", "7", "70")
        self.assertEqual((done.returncode, done.stderr), (0, b""))
        rows = done.stdout.split(b"\n")
        self.assertEqual((len(rows), rows[70]), (71, b""))
        for row, order in ROWS:
            self.assertEqual(rows[row - 1], order)

    def test_the_least_and_the_most(self):
        self.says(self.script("generate_file", "7", "0"), 0)
        self.says(self.script("generate_file", "0", "1"), 0, out=b"L,1,B,1015,4\n")
        self.says(self.script("generate_file", str(2 ** 64 - 1), "1"), 0, out=b"L,1,S,1008,3\n")
        done = self.script("generate_file", "7", "1000000")
        self.assertEqual((done.stdout.count(b"\n"), done.stdout.endswith(b"\nC,999937,,,\n")), (1000000, True))

    def test_a_plain_replay_of_two_hundred_orders_of_seven(self):
        file = os.path.join(self.folder, "orders")
        self.says(self.script("generate_file", "7", "200", file), 0)
        self.assertEqual(os.listdir(self.folder), ["orders"])
        with open(file, "rb") as rows:
            self.assertEqual(rows.read(), self.script("generate_file", "7", "200").stdout)
        report = in_turn([orders_of(file, 1)])
        self.assertTrue(report.endswith(b"\nend 200 65 17\n"), report[-30:])

    def test_at_most_32_orders_rest_and_none_has_more_than_8_fills(self):
        file = os.path.join(self.folder, "orders")
        for number in (0, 7, 2 ** 64 - 1):
            self.says(self.script("generate_file", str(number), "2000", file), 0)
            book = Book()
            for row, order in enumerate(orders_of(file, 1), 1):
                _, *fills = book.apply(1, row, order)
                self.assertTrue(len(fills) <= 8 and len(book.left) <= 32, (number, row))

    def test_what_is_refused(self):
        for words, why in ((["x", "1"], "x is no number from 0 to 18446744073709551615"),
                           ([str(2 ** 64), "1"], "is no number"), (["-1", "1"], ""), (["", "1"], "is no number"),
                           (["7", "1000001"], "1000001 is no number from 0 to 1000000"), (["7"], ""),
                           (["7", "1" * 9999], "is no number"), (["\u0667", "1"], "is no number"),
                           (["7", "1", ""], " cannot be written: No such file"),
                           (["7", "1", "/dev/full"], "/dev/full cannot be written: No space left on device"),
                           (["7", "1", self.folder], " cannot be written: Is a directory"),
                           (["7", "1", self.folder + "/no/file"], " cannot be written: No such file")):
            with self.subTest(words):
                self.is_refused(self.script("generate_file", *words), "generate_file: ", why)
        self.assertEqual(os.listdir(self.folder), [])
