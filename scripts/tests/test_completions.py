"""completions: what bash offers for the words of hm, by its function and at a prompt."""
import os
import pty
import subprocess

from common import Case, content, path
from options import OPTIONS
from words import COMMANDS

ALL = list(OPTIONS)
# Words, of which the last one is to be completed, and what is offered; None: the names of files.
OFFERED = [
    ([""], ["replay", "generate"]),
    (["g"], ["generate"]),
    (["-"], []),
    (["x"], []),
    (["replay", "--"], ALL),
    (["replay", "-"], ALL),
    (["replay", "f", "--m"], ["--max-quantity"]),
    (["replay", "--low", "5", "f", "--"], ["--versions", "--max-quantity", "--high"]),
    (["replay", "--low", "=", "5", "--l"], []),
    (["replay", "--low=5", "--l"], []),
    (["replay", "--low=5", "--low="], []),
    (["replay", "--versions", ""], []),
    (["replay", "--max-quantity", "4"], []),
    (["replay", "--low", ""], []),
    (["replay", "--high", "--"], []),
    (["replay", "--low", "="], []),
    (["replay", "--low", "=", "5"], []),
    (["replay", ""], None),
    (["replay", "f", "--low", "5", "g"], None),
    (["replay", "--low", "=", "5", ""], None),
    (["replay", "--", "--"], None),
    (["replay", "f", "--", "--low", ""], None),
    (["generate", ""], ["--versions"]),
    (["generate", "7", "200", "--"], ["--versions"]),
    (["generate", "7", "--low"], []),
    (["generate", "--versions", "6"], []),
    (["generate", "--versions", "64", "7", ""], []),
    (["generate", "--", ""], []),
    (["frob", ""], []),
    (["frob", "--"], []),
]
# What is typed at a prompt, with tabs, and the words of the call.
TYPED = [
    ("hm rep\t", "<replay>"),
    ("hm replay ord\tfol\ta\t", "<replay><orders.csv><folder/a file.csv>"),
    ("./hm replay --max\t5 ord\t", "<replay><--max-quantity><5><orders.csv>"),
    ("hm replay --low ord\t", "<replay><--low><ord>"),
    ("hm replay --low=o\t", "<replay><--low=o>"),
    ("hm replay --low=5 ord\t", "<replay><--low=5><orders.csv>"),
    ("hm replay -- -o\t", "<replay><--><-odd>"),
    ("hm gen\t7 200 --v\t64 ord\t", "<generate><7><200><--versions><64><ord>"),
]
SHELL = """. "$1"; shift
compopt() { FILES=$*; }
COMP_WORDS=(hm "$@") COMP_CWORD=$#
_hm
printf '%s\\n' "${FILES-words}" "${COMPREPLY[@]}"
"""


class Completions(Case):
    def test_what_the_function_offers(self):
        for words, offered in OFFERED:
            with self.subTest(words):
                done = self.call("bash", "-c", SHELL, "bash", path("completions", "hm.bash"), *words)
                self.assertEqual((done.returncode, done.stderr), (0, b""))
                wanted = ["-o default"] if offered is None else ["words", *offered]
                self.assertEqual(done.stdout.decode().rstrip("\n").split("\n"), wanted)

    def test_what_is_offered_behind_the_cursor_too(self):
        line = '. "$1"; COMP_WORDS=(hm replay -- --low 5 f); COMP_CWORD=2; _hm; echo "${COMPREPLY[@]}"'
        self.says(self.call("bash", "-c", line, "bash", path("completions", "hm.bash")), 0,
                  out=b"--versions --max-quantity --high\n")

    def test_tabs_at_a_prompt(self):
        os.mkdir(self.folder + "/folder")
        for name in ("folder/a file.csv", "orders.csv", "-odd"):
            self.made(b"", name)
        os.chmod(self.made(b"#!/bin/sh\n{ printf '<%s>' \"$@\"; echo; } >>out\n", "hm"), 0o755)
        lines = ['PATH=.:$PATH; . "$FILE"'] + [typed for typed, _ in TYPED] + ["exit"]
        ours, theirs = pty.openpty()
        places = dict(os.environ, TERM="dumb", INPUTRC="/dev/null", HISTFILE="", FILE=path("completions", "hm.bash"))
        with subprocess.Popen(["bash", "--norc", "--noprofile", "-i"], stdin=theirs, stdout=subprocess.DEVNULL,
                              stderr=subprocess.DEVNULL, cwd=self.folder, env=places, start_new_session=True) as shell:
            os.write(ours, "".join(line + "\n" for line in lines).encode())
            shell.wait(60)
        os.close(ours)
        os.close(theirs)
        with open(self.folder + "/out") as called:
            self.assertEqual(called.read().splitlines(), [words for _, words in TYPED])

    def test_both_shells_have_each_option_and_range(self):
        for name in ("hm.bash", "_hm"):
            text = content("completions", name).decode()
            for word in [*COMMANDS, *(option[2:] for option in OPTIONS)]:
                self.assertIn(word, text)
        for option, (least, most, _) in OPTIONS.items():
            self.assertRegex(text, "'%s=.*:a number from %d to %d: '" % (option, least, most))
