"""What the built program reads: refused rows, the worked files, and bytes that the plain reader reads too."""
import random

from common import ROW, Built, content
from orders import bytes_at_random, in_turn, same_rows
from records import records_of
from rows import Refused, order_of
from worked import worked

# What a file holds, and how a replay of it ends.
FILES = [
    ("empty lines", b"\n\r\n\r\r\n", 0, b""),
    ("a byte order mark alone", b"\xef\xbb\xbf", 0, b""),
    ("a byte order mark behind a row", ROW + b"\xef\xbb\xbf" + ROW, 3, b"hm: text 1 2 kind\n"),
    ("a byte order mark twice", b"\xef\xbb\xbf\xef\xbb\xbf" + ROW, 3, b"hm: text 1 1 kind\n"),
    ("bytes that are no text", b"\xff\x00\n", 3, b"hm: text 1 1 fields\n"),
    ("a zero byte behind a number", b"L,1,B,10\x00,5\n", 3, b"hm: text 1 1 price\n"),
    ("a header", b"kind,id,side,price,quantity\n", 3, b"hm: text 1 1 kind\n"),
    ("a row of 70000 fields", b"," * 69999, 3, b"hm: text 1 1 fields\n"),
    ("a quote alone", b'"', 3, b"hm: text 1 1 fields\n"),
    ("a quote that is not closed", ROW + b'L,2,B,"10,5\n' + ROW, 3, b"hm: text 1 2 fields\n"),
    ("a row too many", ROW * 1000001, 3, b"hm: text 1 1000001 toomany\n"),
    ("a row too many that is wrong", ROW * 1000000 + b"x\n", 3, b"hm: text 1 1000001 toomany\n"),
]


class Reading(Built):
    def test_each_file_ends_with_its_status_and_text(self):
        for what, data, status, err in FILES:
            with self.subTest(what):
                out = b"board 0\nend 0 0 0\n" if status == 0 else b""
                self.says(self.hm("replay", self.made(data)), status, out, err)

    def test_the_worked_files(self):
        for case in worked():
            with self.subTest(case.name):
                done = self.hm("replay", self.made(case.data))
                if case.refusal:
                    self.says(done, 3, err=case.refusal.encode() + b"\n")
                else:
                    self.says(done, 0, out=case.report)

    def test_the_plain_reader_agrees_on_random_bytes(self):
        chance = random.Random(13)
        for _ in range(300):
            data = bytes_at_random(chance)
            file = self.made(data)
            with self.subTest(data):
                try:
                    rows = [order_of(row, record.fields) for row, record in enumerate(records_of(data), 1)]
                except Refused as refused:
                    self.says(self.hm("replay", file), 3, err=b"hm: text 1 %d %b\n" % (
                        refused.args[0], refused.args[1].encode()))
                else:
                    self.says(self.hm("replay", file), 0, out=in_turn([rows]))

    def test_a_file_reads_the_same_however_its_rows_are_written(self):
        plain = content("demo", "kinds.csv")
        for data in [plain] + same_rows(plain):
            with self.subTest(data):
                self.says(self.hm("replay", self.made(data)), 0, out=content("demo", "kinds.report"))
