"""The built program with options, and orders that it makes from a number, beside the plain book."""
import os
import random

from common import PAIRS, RISING, ROW, Built
from options import Limits
from orders import in_turn, rows_at_random, written
from rows import orders_of
from worked import worked_limits

# Words, and what is written then.
SUMMARIES = [
    (["7", "0"], b"generated 7 0\nboard 0\nend 0 0 0\n"),
    (["7", "1"], b"generated 7 1\nboard 1\nend 1 0 1\n"),
    (["7", "2"], b"generated 7 2\nboard 2\nend 2 0 1\n"),
    (["+7", "--versions=64", "002"], b"generated 7 2\nboard 2\nend 2 0 1\n"),
    (["--versions", "512", "7", "50000"], b"generated 7 50000\nboard 50000\nend 50000 16338 10\n"),
    (["--versions", "16384", "7", "200"], b"generated 7 200\nboard 200\nend 200 65 17\n"),
    (["18446744073709551615", "1"], b"generated 18446744073709551615 1\nboard 1\nend 1 0 1\n"),
]
# Options, a file, and how a replay of it ends: orders that take many versions, and few.
VERSIONS = [
    (["--versions", "64"], b"", 0),
    (["--versions", "64"], ROW * 8, 0),
    (["--versions", "64"], ROW * 64, 0),
    (["--versions", "64"], RISING, 6),
    (["--versions", "64"], PAIRS, 0),
    (["--versions=65536"], PAIRS, 0),
    (["--versions", "4096"], PAIRS, 0),
    ([], PAIRS, 0),
]


class Options(Built):
    def sound(self, files, *options):
        """The report of a replay of the files with these limits, which the plain replay agrees with."""
        done = self.hm("replay", *options, *files)
        self.assertEqual((done.returncode, done.stderr), (0, b""))
        check = self.script("report_check", *options, self.made(done.stdout, "report"), *files)
        self.assertEqual((check.returncode, check.stderr), (0, b""), check.stdout)
        return done.stdout

    def test_the_worked_file_with_limits(self):
        words, data, report = worked_limits()
        file = self.made(data, "orders")
        for call in ([*words, file], [file, *words], [*words, "--versions=512", "--", file]):
            self.says(self.hm("replay", *call), 0, out=report)
        self.assertEqual(self.sound([file], *words), report)
        self.assertNotIn(b"denied", self.sound([file]))

    def test_the_plain_replay_with_limits_agrees_on_random_files(self):
        chance = random.Random(29)
        for number in range(12):
            low, high = sorted(1 + chance.randrange(11) for _ in "ab")
            limits = Limits(chance.randrange(1, 9), low, high)
            options = ["--max-quantity", str(limits.max_quantity), "--low", str(low), "--high=%d" % high]
            rows = rows_at_random(chance, 10 * number, 40, 11)
            with self.subTest(limits):
                self.assertEqual(self.sound([self.made(written(rows))], *options), in_turn([rows], limits))

    def test_limits_hold_for_all_files_of_a_replay(self):
        chance = random.Random(31)
        files = self.made_all(written(rows_at_random(chance, 12, 20, 5)) for _ in range(4))
        for _ in range(5):
            self.assertIn(b" denied\n", self.sound(files, "--max-quantity=4", "--low", "2"))

    def test_more_versions_fit_more_orders(self):
        for options, data, status in VERSIONS:
            with self.subTest(options=options, bytes=len(data)):
                done = self.hm("replay", *options, self.made(data))
                self.assertEqual((done.returncode, done.stderr), (status, b"hm: full 1\n" if status else b""))
                self.assertEqual(bool(done.stdout), not status)

    def test_a_file_that_begins_with_a_hyphen(self):
        self.made(ROW, "--low")
        self.made(ROW, "-")
        report = b"order 1 1 1 rested\nboard 1\nend 1 0 1\n"
        for words in (["--", "--low"], ["./--low"], ["-"], ["--low", "5", "--", "--low"]):
            with self.subTest(words):
                self.says(self.hm("replay", *words, cwd=self.folder), 0, out=report)
        self.says(self.hm("replay", "-", "", cwd=self.folder), 4, err=b"hm: read 2\n")


class Generating(Built):
    def test_summaries(self):
        for words, summary in SUMMARIES:
            with self.subTest(words):
                self.says(self.hm("generate", *words), 0, out=summary)

    def test_the_plain_book_ends_so_over_the_same_orders(self):
        for number, count in ((7, 1000), (0, 300), (2 ** 64 - 1, 300)):
            file = os.path.join(self.folder, "orders")
            self.says(self.script("generate_file", str(number), str(count), file), 0)
            end = in_turn([orders_of(file, 1)]).splitlines()[-2:]
            with self.subTest(number):
                done = self.hm("generate", str(number), str(count), "--versions", "16384")
                self.assertEqual((done.returncode, done.stderr), (0, b""))
                self.assertEqual(done.stdout.splitlines(), [b"generated %d %d" % (number, count), *end])

    def test_the_same_words_give_the_same_summary(self):
        words = ["generate", "23", "500", "--versions", "16384"]
        self.assertEqual(len({self.hm(*words).stdout for _ in range(5)}), 1)

    def test_more_orders_at_rest_than_versions_and_an_output_that_cannot_be_written(self):
        self.says(self.hm("generate", "7", "300", "--versions", "64"), 6, err=b"hm: full 1\n")
        with open("/dev/full", "wb") as full:
            self.says(self.hm("generate", "7", "2", stdout=full), 5, err=b"hm: write\n")
