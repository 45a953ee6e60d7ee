"""Words: how the plain reader, explain and the built program take them, by the table of hm_words' tests and at random."""
import os
import random
import re

from calls import Bad
from common import Built, Case, content
from words import FORMS, Fault, call_of, refused_words

PRICE, QUANTITY = "a number from 1 to 4294967295", "a number from 1 to 4294967295"
STANDS = " has to stand behind it, and "
THERE = "no such option, there are --versions, --max-quantity, --low and --high; a file of that name is named ./"
# Words that are refused, and what explain says of them.
REFUSED = [
    ([], "no word: the first word is replay or generate"),
    (["./hm"], "no word: the first word is replay or generate"),
    (["frob", "f"], "frob: the first word is replay or generate"),
    ([""], "'': the first word is replay or generate"),
    (["--help"], "--help: the first word is replay or generate"),
    (["./hm", "hm", "replay", "f"], "hm: the first word is replay or generate"),
    (["REPLAY", "f"], "REPLAY: the first word is replay or generate"),
    ([b"replay", b"f", b"\xff"], "'\\udcff': a word that is not UTF-8, and beside such a one no word is read"),
    (["replay"], "replay: one file or more has to be named behind it, and none is"),
    (["../x/hm", "replay", "--low", "5", "--"], "replay: one file or more has to be named behind it, and none is"),
    (["replay", "--versions", "63", "f"], "--versions 63: a number from 64 to 65536"),
    (["replay", "--versions=65537", "f"], "--versions=65537: a number from 64 to 65536"),
    (["replay", "--versions=", "f"], "--versions='': a number from 64 to 65536"),
    (["replay", "--versions", "6 4", "f"], "--versions '6 4': a number from 64 to 65536"),
    (["replay", "--versions", "1" * 9999, "f"], "1..': a number from 64 to 65536"),
    (["replay", "--max-quantity", "0", "f"], "--max-quantity 0: " + QUANTITY),
    (["replay", "--low", "f"], "--low f: " + PRICE),
    (["replay", "--high", "4294967296", "f"], "--high 4294967296: " + PRICE),
    (["replay", "--high", "\u0661", "f"], "--high '\\u0661': " + PRICE),
    (["replay", "f", "--low"], "--low: " + PRICE + STANDS + "it is the last word"),
    (["replay", "--low", "--high", "4", "f"], "--low: " + PRICE + STANDS + "there stands --high, which begins with -"),
    (["replay", "--versions", "-64", "f"], "--versions: a number from 64 to 65536" + STANDS + "there stands -64, "),
    (["replay", "--low", "5", "--high", "4", "f"], "--low 5 --high 4: the least price is above the greatest"),
    (["replay", "--low=5", "f", "--low=5"], "--low: the option is given twice"),
    (["replay", "--vers", "64", "f"], "--vers: " + THERE + "--vers"),
    (["replay", "f", "-x"], "-x: " + THERE + "-x"),
    (["replay", "--=5", "f"], "--=5: " + THERE + "--=5"),
    (["generate"], "NUMBER: a number from 0 to 18446744073709551615 has to stand there, and the word is missing"),
    (["generate", "7"], "COUNT: a number from 0 to 1000000 has to stand there, and the word is missing"),
    (["generate", "seven", "9"], "NUMBER seven: a number from 0 to 18446744073709551615"),
    (["generate", "18446744073709551616", "1"], "NUMBER 18446744073709551616: a number from 0 to 18446744073709551615"),
    (["generate", "7", "1000001"], "COUNT 1000001: a number from 0 to 1000000"),
    (["generate", "7", "9", "f"], "f: a word too many behind COUNT, only --versions may stand there"),
    (["generate", "7", "9", "--low", "5"], "--low: no such option, there is --versions"),
]
# Of such words the program takes some and refuses others.
POOL = ("--versions", "--versions=64", "--low", "--low=9", "--high", "--high=3", "--max-quantity", "--low=", "--=",
        "--", "--x", "-", "-5", "-v", "", "=", "f", "64", "64", "0", "7", "+7", "63", "5=", "1000001")


def table():
    """The words of the table of hm_words' tests, and what they ask for."""
    rows = content("crates", "hm_words", "src", "tests.rt").decode().split("const ROWS")[1].split("];")[0]
    for line, wanted in re.findall(r'\(\s*"([^"]*)",\s*"([^"]*)",?\s*\)', rows):
        yield ["" if word == "~" else word for word in line.split(" ")], wanted


def told(words):
    """What the plain reader makes of words, as the table tells it."""
    try:
        call = call_of(words)
    except Fault:
        return "refused"
    numbers = call.options.values() if call.command == "replay" else [call.options["--versions"]]
    return " ".join(map(str, [call.command, *numbers, *call.rest]))


def behind_name(words):
    """The words behind the program's name, where it stands before them."""
    return [os.fsdecode(word) for word in words[words[:1] in (["./hm"], ["../x/hm"]):]]


def at_random(chance):
    """Some words."""
    return [chance.choice(("replay", "generate")), *chance.choices(POOL, k=chance.randrange(6))]


class Words(Case):
    def test_the_plain_reader_agrees_with_the_table(self):
        text = content("crates", "hm_words", "src", "tests.rt")
        self.assertEqual(len(list(table())), int(re.search(rb"ROWS: \[\(&str, &str\); (\d+)\]", text)[1]))
        for words, wanted in table():
            with self.subTest(words):
                self.assertEqual(told(words), wanted)

    def test_refused_words_are_told_with_what_is_allowed_there(self):
        for words, why in REFUSED:
            with self.subTest(words):
                said = refused_words(behind_name(words))
                self.assertIn(why, said)
                self.assertIn(". " + FORMS, said)
        for words in (["replay", "f"], ["replay", "", "-", "--", "--low"], ["generate", "+7", "--versions=64", "09"]):
            with self.assertRaises(Bad):
                refused_words(words)

    def test_explain_tells_it_in_a_sentence(self):
        for words, why in REFUSED[1:12:2]:
            with self.subTest(words):
                done = self.script("explain", "hm: words", *words)
                said = "The words are refused (status 2): %s. %s.\n" % (why, FORMS)
                self.says(done, 0, out=said.encode())


class Program(Built):
    def test_the_table(self):
        for words, wanted in table():
            with self.subTest(words):
                done = self.hm(*words, cwd=self.folder)
                if wanted == "refused":
                    self.says(done, 2, err=b"hm: words\n")
                elif words[0] == "replay":
                    is_many = len(call_of(words).rest) > 8
                    self.says(done, 7 if is_many else 4, err=b"hm: files 9\n" if is_many else b"hm: read 1\n")
                else:
                    self.assertIn((done.returncode, done.stderr), ((0, b""), (6, b"hm: full 1\n")))

    def test_words_that_explain_says_are_refused(self):
        for words, why in REFUSED:
            with self.subTest(words):
                self.says(self.hm(*behind_name(words), cwd=self.folder), 2, err=b"hm: words\n")

    def test_the_plain_reader_agrees_on_random_words(self):
        chance = random.Random(21)
        for _ in range(600):
            words = at_random(chance)
            with self.subTest(words):
                done = self.hm(*words, cwd=self.folder)
                self.assertEqual(done.returncode == 2, told(words) == "refused", (done.returncode, told(words)))
