"""The plain reader of order files: records, byte by byte beside a second reader, and the rows that they spell."""
import random

from common import Case, content
from orders import bytes_at_random, in_turn, same_rows
from records import line_of, pieces, records_of
from rows import Refused, Row, order_of, orders_of, spelled
from worked import worked

# What a file holds, and its records.
RECORDS = [
    ("no byte", b"", []),
    ("ends of lines alone", b"\n\r\n\r\r\n\n", []),
    ("each end of a line", b"a\nb\rc\r\nd", [[b"a"], [b"b"], [b"c"], [b"d"]]),
    ("LF and then CR", b"a\n\rb", [[b"a"], [b"b"]]),
    ("a mark alone", b"\xef\xbb\xbf", []),
    ("a mark", b"\xef\xbb\xbfa,b", [[b"a", b"b"]]),
    ("a mark and a quote", b'\xef\xbb\xbf"a","b"', [[b"a", b"b"]]),
    ("two marks", b"\xef\xbb\xbf" * 2, [[b"\xef\xbb\xbf"]]),
    ("a mark behind an end", b"\n\xef\xbb\xbfa", [[b"\xef\xbb\xbfa"]]),
    ("half a mark", b"\xef\xbba", [[b"\xef\xbba"]]),
    ("commas", b",,\n,", [[b"", b"", b""], [b"", b""]]),
    ("a comma at the end", b"a,", [[b"a", b""]]),
    ("spaces", b" a , b\n \n", [[b" a ", b" b"], [b" "]]),
    ("an empty quoted field", b'""\n', [[b""]]),
    ("a comma in quotes", b'"a,b",c', [[b"a,b", b"c"]]),
    ("the end of a line in quotes", b'"a\r\nb",c\nd', [[b"a\r\nb", b"c"], [b"d"]]),
    ("a doubled quote", b'"a""b"', [[b'a"b']]),
    ("doubled quotes alone", b'""""""', [[b'""']]),
    ("bytes behind a quote", b'"a"b"c,d', [[b'ab"c', b"d"]]),
    ("a quote inside", b'a"b,c"', [[b'a"b', b'c"']]),
    ("a quote behind a space", b' "a,b"', [[b' "a', b'b"']]),
    ("a quote alone", b'"', [[b""]]),
    ("a quote that is not closed", b'a,"b,\nc', [[b"a", b"b,\nc"]]),
    ("a quote that is closed by the end", b'"a""', [[b'a"']]),
    ("bytes of all values", b"\0\xff\x1a\x0b\x0c", [[b"\0\xff\x1a\x0b\x0c"]]),
    ("more fields than are kept", b"," * 70000 + b"\na", [[b""] * 6, [b"a"]]),
]
ROWS = [
    (b"L,1,B,10,5", Row("L", 1, "B", 10, 5), "limit buy of 5 at 10, id 1"),
    (b"I,0,S,4294967295,0000000001", Row("I", 0, "S", 4294967295, 1), "immediate sell of 1 at 4294967295, id 0"),
    (b"M,7,S,,9", Row("M", 7, "S", None, 9), "market sell of 9, id 7"),
    (b'"C","7","","",""', Row("C", 7, None, None, None), "cancel of id 7"),
]
# The states of a second reader, which takes a byte at a time.
START, FIELD, INSIDE, QUOTED, BEHIND = "start of a record", "start of a field", "inside", "quoted", "behind a quote"


def read_again(data):
    """All records, with all of their fields."""
    found, fields, field, state = [], [], b"", START
    for byte in (bytes([it]) for it in (data[3:] if data[:3] == b"\xef\xbb\xbf" else data)):
        if state == QUOTED:
            state, field = (BEHIND, field) if byte == b'"' else (QUOTED, field + byte)
        elif state in (START, FIELD) and byte == b'"':
            state = QUOTED
        elif state == BEHIND and byte == b'"':
            state, field = QUOTED, field + byte
        elif byte == b",":
            fields, field, state = fields + [field], b"", FIELD
        elif byte not in (b"\r", b"\n"):
            field, state = field + byte, INSIDE
        elif state != START:
            found, fields, field, state = found + [fields + [field]], [], b"", START
    return found + [fields + [field]] if state != START else found


class Rows(Case):
    def test_records(self):
        for what, data, records in RECORDS:
            with self.subTest(what):
                self.assertEqual([record.fields for record in records_of(data)], records)
                self.assertEqual([fields[:6] for fields in read_again(data)], records)

    def test_two_readers_find_the_same_records_and_where_they_stand(self):
        chance = random.Random(5)
        marks = (b'"', b'"', b",", b"\r", b"\n", b"L", b"1", b" ", b"\xef\xbb\xbf", b"\xef", b"\0")
        for _ in range(4000):
            data = b"".join(chance.choices(marks, k=chance.randrange(16)))
            records = list(records_of(data))
            self.assertEqual([record.fields for record in records], [fields[:6] for fields in read_again(data)], data)
            for record in records:
                alone = data[record.start:record.end]
                self.assertEqual([it.fields for it in records_of(b"\n" + alone)], [record.fields], data)
                before = data[:record.start].replace(b"\r\n", b"\n").replace(b"\r", b"\n")
                self.assertEqual(line_of(data, record.start), 1 + before.count(b"\n"), data)

    def test_rows(self):
        for data, order, words in ROWS:
            with self.subTest(data):
                self.assertEqual(orders_of(self.made(data), 1), [order])
                self.assertEqual(spelled(order), words)

    def test_refused_rows(self):
        for case in worked():
            with self.subTest(case.name):
                try:
                    for row, record in enumerate(records_of(case.data), 1):
                        order_of(row, record.fields)
                    self.assertIsNone(case.refusal)
                except Refused as refused:
                    self.assertEqual("hm: text 1 %d %s" % refused.args, case.refusal)
        for row, fields, part in ((1000001, [b"x"], "toomany"), (1000000, [b"x"], "fields")):
            with self.assertRaises(Refused) as refused:
                order_of(row, fields)
            self.assertEqual(refused.exception.args, (row, part))

    def test_a_file_reads_the_same_however_its_rows_are_written(self):
        orders = orders_of(self.made(content("demo", "kinds.csv")), 1)
        self.assertEqual(in_turn([orders]), content("demo", "kinds.report"))
        for data in same_rows(content("demo", "kinds.csv")):
            with self.subTest(data):
                self.assertEqual(orders_of(self.made(data), 1), orders)

    def test_a_file_is_cut_between_its_rows(self):
        chance = random.Random(9)
        for _ in range(400):
            data = bytes_at_random(chance)
            for count in (1, 2, 8):
                found = [[record.fields for record in records_of(piece)] for piece in pieces(data, count)]
                self.assertEqual(sum(found, []), [record.fields for record in records_of(data)], data)
                self.assertLessEqual(max(map(len, found)) - min(map(len, found)), 1, data)
