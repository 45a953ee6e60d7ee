"""explain: each line that the program may write, and lines that it never writes."""
import re

from common import Case, content
from worked import worked

NINE = list("abcdefghi")
LEAST_MEMORY = int(re.search(r"LEAST_MEMORY = (\d+)", content("scripts", "explain").decode())[1])
LINES = [
    ("hm: memory", ["replay", "f"], "Memory ran out (status 1)"),
    ("hm: memory", ["./hm", "replay", "f"], "at least %d MB of address space" % LEAST_MEMORY),
    ("hm: text 1 2 price", ["./hm", "replay", "FILE"], "Row 2 of FILE (its line 3)"),
    ("hm: text 1 2 price", ["crates/hm_tool/out/hm_tool", "replay", "FILE"], "Row 2 of FILE (its line 3)"),
    ("hm: text 1 2 kind", ["replay", "MARKS"], "'\\xef\\xbb\\xbfL'", "begins with a UTF-8 byte order mark (ef bb bf)"),
    ("hm: text 1 1 kind", ["replay", "MARKS"], "The row is 'L,1,B,10,5'.", "that row is accepted"),
    ("hm: text 1 1 kind", ["replay", "WIDE"], "begins with a UTF-16 byte order mark (ff fe)"),
    ("hm: text 1 3 side", ["replay", "LINES"], "Row 3 of LINES (its line 4)", "the side, is 'x'; that of an immediate"),
    ("hm: text 1 2 quantity", ["replay", "LINES"], "that row is accepted"),
    ("hm: text 1 1 kind", ["replay", "HEADER"], "Row 1 of HEADER (its line 1)", "it has to be L (limit), I ",
     "M (market) or C (cancel)", "No header is read"),
    ("hm: text 1 1 fields", ["replay", "NAMES"], "It has 2 fields", "No header is read"),
    ("hm: text 1 1 price", ["replay", "QUOTED"], "is 'L,1,B, \"10\",5'", "quotes are taken off where the field's"),
    ("hm: text 1 2 quantity", ["replay", "QUOTED"], "is '5\\n'", "so the row goes on to line 3: a quote that begins"),
    ("hm: text 1 3 fields", ["replay", "QUOTED"], "It has 4 fields", "so the row goes on to the end of the file: "),
    ("hm: text 1 2 price", ["replay", "FILE"], "Row 2 of FILE (its line 3)", "'L,2,B,0,5'", "is '0'", "from 1 to"),
    ("hm: text 1 3 fields\n", ["replay", "FILE"], "Row 3 of FILE", "'a\\xff'", "It has 1 field; a row has exactly"),
    ("hm: text 1 1 fields", ["replay", "WIDEST"], "It has more than five fields; a row has exactly five fields"),
    ("hm: text 1 1000001 toomany", ["replay", "LONG"], "Row 1000001 of LONG (its line 1000001)", "at most 1000000"),
    ("hm: text 1 1 kind", ["replay", "FILE"], "that row is accepted"),
    ("hm: text 2 2 side", ["replay", "other", "FILE"], "Row 2 of FILE", "refused by its part price"),
    ("hm: text 8 2 price", ["replay", *NINE[:7], "FILE"], "Row 2 of FILE (its line 3)", "'L,2,B,0,5'"),
    ("hm: read 1", ["replay", "missing"], "File 1, missing, could not be read (status 4): No such file"),
    ("hm: read 2", ["./hm", "replay", "FILE", "missing"], "File 2, missing, could not be read (status 4): No such"),
    ("hm: write", ["replay", "f"], "(status 5)"),
    ("hm: text 1 2 price", ["replay", "--low", "5", "FILE", "--high=9"], "Row 2 of FILE (its line 3)"),
    ("hm: text 2 2 price", ["replay", "other", "--versions=64", "--", "FILE"], "Row 2 of FILE (its line 3)"),
    ("hm: read 1", ["replay", ""], "File 1, '', could not be read (status 4): No such file"),
    ("hm: read 2", ["replay", "a", "--", "--low"], "File 2, --low, could not be read (status 4): No such file"),
    ("hm: full 1", ["replay", "f"], "8192 versions of the heap", "file 1, f (status 6)", "--versions gives more, up"),
    ("hm: full 1", ["replay", "f", "--versions", "65536"], "has 131072 versions", "--versions gives no more than that"),
    ("hm: full 1", ["generate", "7", "9999", "--versions=64"], "The orders that are made from 7 have 128 versions of",
     "none was left for one of them (status 6)", "--versions gives more, up to 65536, and fewer orders may fit."),
    ("hm: full 2", ["replay", "f", "g"], "file 2, g (status 6)"),
    ("hm: long 1", ["replay", "FILE"], "at most 67108864 bytes, and it has 25 bytes now"),
    ("hm: long 3", ["replay", "a", "b", "FILE"], "File 3, FILE, is too long (status 7)", "it has 25 bytes now"),
    ("hm: files 9", ["./hm", "replay", *NINE], "The words name 9 files (status 7), and at most 8 are replayed"),
    ("hm: files 9", ["replay", *NINE[:8], "--low", "5", "-"], "The words name 9 files (status 7), and at most 8 are "),
]
NO_LINES = [
    (),
    ("",),
    ("hm: text 1 2 price",),
    ("hm: text 1 2 price", "replay", "missing"),
    ("hm: text 1 9 price", "replay", "FILE"),
    ("hm: text 2 1 price", "replay", "FILE"),
    ("hm: text 1 1 weight", "replay", "FILE"),
    ("hm: text 1 1000002 price", "replay", "FILE"),
    ("hm: text 1 %s price" % ("9" * 9999), "replay", "FILE"),
    ("hm: read 0", "replay", "FILE"),
    ("hm: read 2", "replay", "FILE"),
    ("hm: read 1", "replay", *NINE),
    ("hm: full 9", "replay", *NINE[:8]),
    ("hm: files 8", "replay", *NINE[:8]),
    ("hm: files 10", "replay", *NINE),
    ("hm: files 9", "replay", *NINE[:8], "-i"),
    ("hm: files 9", "replay", *NINE, "--low", "0"),
    ("hm: files 9", "frob", *NINE),
    ("hm: files 9", "generate", "7", "9"),
    ("hm: read 1", "generate", "7", "9"),
    ("hm: read 1", "replay", "--versions", "63", "missing"),
    ("hm: text 1 2 price", "replay", "--low", "FILE"),
    ("hm: full 2", "generate", "7", "9"),
    ("hm: words", "generate", "7", "9"),
    ("hm: words", "replay", "--low", "5", "", "-", "--", "--high"),
    ("hm: words", "replay", *NINE),
    ("hm: words", "replay", "FILE"),
    ("hm: words", "./hm", "replay", "FILE"),
    ("hm: building the program", "replay", "FILE"),
    (b"\xff\x00"[:1], "replay", "FILE"),
]


class Explain(Case):
    def setUp(self):
        super().setUp()
        self.made(b"L,1,B,10,5\n\nL,2,B,0,5\na\xff\n", "FILE")
        self.made(b"\xef\xbb\xbfL,1,B,10,5\n" * 2, "MARKS")
        self.made("\ufeffL,1,B,10,5\n".encode("utf-16-le"), "WIDE")
        self.made(b"L,1,B,10,5\r\n\r\nM,1,B,,5\rI,1,x,10,5\r\n", "LINES")
        self.made(b"\xef\xbb\xbfKind,Id,Side,Price,Quantity\r\n", "HEADER")
        self.made(b"side,price\n", "NAMES")
        self.made(b'L,1,B, "10",5\nL,1,B,10,"5\n"\nL,1,B,"10,5\n', "QUOTED")
        self.made(b"," * 70000, "WIDEST")
        self.made(b"C,1,,,\n" * 1000001, "LONG")

    def test_each_line(self):
        for line, words, *parts in LINES:
            with self.subTest(line=line, words=words):
                done = self.script("explain", line, *words, cwd=self.folder)
                self.assertEqual((done.returncode, done.stderr), (0, b""))
                self.assertEqual(done.stdout.count(b"\n"), 1)
                for part in parts:
                    self.assertIn(part, done.stdout.decode())

    def test_each_refused_row_is_explained_for_its_kind(self):
        kinds = {b"L": "a limit order", b"I": "an immediate order", b"M": "a market order", b"C": "a cancel"}
        refused = [case for case in worked() if case.refusal and case.data.count(b"\n") == 1]
        self.assertGreater(len(refused), 20)
        for case in refused:
            with self.subTest(case.name):
                done = self.script("explain", case.refusal, "replay", self.made(case.data, "ROW"))
                told, part = done.stdout.decode(), case.refusal.split()[-1]
                self.assertEqual((done.returncode, told.count("\n")), (0, 1))
                self.assertIn("is refused by its part %s (status 3). The row is '%s" % (part, case.name), told)
                self.assertNotIn("As the file is now", told)
                if part not in ("fields", "kind"):
                    self.assertIn("; that of %s is " % kinds[case.data[:1]], told)
        done = self.script("explain", "hm: text 1 1 price", "replay", self.made(b"M,1,B,10,5", "ROW"))
        self.assertIn(b"The fourth field, the price, is '10'; that of a market order is empty.\n", done.stdout)

    def test_what_is_no_line(self):
        for words in NO_LINES:
            with self.subTest(words):
                self.is_refused(self.script("explain", *words, cwd=self.folder), "explain: ")
