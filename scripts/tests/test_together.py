"""The built program on several files: statuses, the worked files, and replays that the plain replay agrees with."""
import random

from common import LONGEST, PAIRS, ROW, Built, path
from orders import rows_at_random, written
from worked import worked_pair

# What files hold, and how a replay of them together ends. None: the file is not there.
TOGETHER = [
    ("a second file that is not there", (ROW, None), 4, b"hm: read 2\n"),
    ("a refused row, and then a file that is not there", (b"x\n", None), 4, b"hm: read 2\n"),
    ("two files that are not there", (None, None), 4, b"hm: read 1\n"),
    ("a refused row of each file", (ROW + b"x\n", b"x\n"), 3, b"hm: text 1 2 fields\n"),
    ("a refused row of the eighth file", (ROW,) * 7 + (ROW + b"L,2,S,10,0\n",), 3, b"hm: text 8 2 quantity\n"),
    ("a byte too many of the second file", (b"x\n", LONGEST + 1), 7, b"hm: long 2\n"),
    ("nine files", (ROW,) * 9, 7, b"hm: files 9\n"),
    ("twelve files that are not there", (None,) * 12, 7, b"hm: files 12\n"),
    ("more orders in the second file than it has versions", (b"L,1,B,1,1\n", PAIRS), 6, b"hm: full 2\n"),
    ("eight files without rows", (b"",) * 8, 0, b""),
]


class Together(Built):
    def test_files_together_end_with_their_status_and_text(self):
        for what, datas, status, err in TOGETHER:
            with self.subTest(what):
                out = b"board" + b" 0" * len(datas) + b"\nend 0 0 0\n" if status == 0 else b""
                self.says(self.hm("replay", *self.made_all(datas)), status, out, err)

    def test_two_files_have_one_of_two_reports(self):
        datas, reports = worked_pair()
        for _ in range(20):
            self.assertIn(self.is_sound(*self.made_all(datas)), reports)

    def test_each_replay_of_the_two_demo_files_is_sound(self):
        for _ in range(50):
            self.is_sound(path("demo", "two", "a.csv"), path("demo", "two", "b.csv"))

    def test_one_file_named_twice_is_two_files(self):
        file = self.made(ROW)
        self.assertIn(b"\nboard 1 1\nend 2 0 2\n", self.is_sound(file, file))

    def test_each_replay_of_many_files_is_sound(self):
        chance = random.Random(11)
        for count in range(2, 9):
            with self.subTest(count):
                self.is_sound(*self.made_all(written(rows_at_random(chance, 12, 20, 5)) for _ in range(count)))

    def test_an_order_trades_with_its_own_file_and_a_cancel_names_an_order_of_its_own(self):
        own, other = b"L,1,B,10,5\nL,2,S,9,2\n", b"C,1,,,\n" * 3
        for _ in range(20):
            report = self.is_sound(*self.made_all((own, other)))
            self.assertEqual((report.count(b" unknown\n"), report[-10:]), (3, b"end 5 1 1\n"))
