"""The words that hm is called with, read as the program reads them: what they ask for, or why they are refused."""
import re
from collections import namedtuple

from calls import Bad, shown
from options import DISORDER, OPTIONS, RANGE, number_in
from rows import MOST_FILES, MOST_ROWS

COMMANDS = {"replay": tuple(OPTIONS), "generate": ("--versions",)}
NUMBERS = {"NUMBER": 2 ** 64 - 1, "COUNT": MOST_ROWS}  # what stands behind generate, and the greatest that it may be
FORMS = "Allowed is replay [--versions N] [--max-quantity N] [--low N] [--high N] FILE.. or generate NUMBER COUNT " \
    "[--versions N], where each option stands once, in any order and also behind other words"

# A command, the number of each of its options, and the names of its files, or NUMBER and COUNT.
Call = namedtuple("Call", "command options rest")


class Fault(Exception):
    """Words that hm refuses; the text has the word and what is allowed there."""


def call_of(words):
    """What the words ask for, or Fault."""
    for word in words:
        if word != word.encode("utf-8", "replace").decode():
            raise Fault("%s: a word that is not UTF-8, and beside such a one no word is read" % spelled(word))
    if not words or words[0] not in COMMANDS:
        raise Fault("%s: the first word is replay or generate" % (spelled(words[0]) if words else "no word"))
    options, rest = divided(words[0], words[1:])
    if options["--low"] > options["--high"]:
        raise Fault(DISORDER % (options["--low"], options["--high"]))
    if words[0] == "generate":
        return Call("generate", options, numbers_of(rest))
    if not rest:
        raise Fault("replay: one file or more has to be named behind it, and none is")
    return Call("replay", options, rest)


def divided(command, words):
    """The number of each option among the words behind the first one, and the other words; or Fault."""
    given, rest, left = {}, [], iter(words)
    for word in left:
        if word == "--":
            rest += left
        elif is_option(word):
            name, equals, value = word.partition("=")
            if name not in COMMANDS[command]:
                raise Fault(unknown(command, word))
            if name in given:
                raise Fault("%s: the option is given twice" % name)
            given[name] = number_of(name, equals, value if equals else next(left, None))
        else:
            rest.append(word)
    return {name: given.get(name, default) for name, (_, _, default) in OPTIONS.items()}, rest


def is_option(word):
    """Whether a word is read as an option; - alone is none."""
    return word[:1] == "-" and word != "-"


def number_of(name, equals, value):
    """The number of an option, or Fault."""
    least, most, _ = OPTIONS[name]
    allowed = RANGE % (least, most)
    if value is None:
        raise Fault("%s: %s has to stand behind it, and it is the last word" % (name, allowed))
    if is_option(value) and not equals:
        raise Fault("%s: %s has to stand behind it, and there stands %s, which begins with -" % (
            name, allowed, spelled(value)))
    number = number_in(value, least, most)
    if number is None:
        raise Fault("%s%s%s: %s" % (name, equals or " ", spelled(value), allowed))
    return number


def unknown(command, word):
    """What is said of an option that a command does not have."""
    names = COMMANDS[command]
    there = "there is %s" % names[0] if len(names) == 1 else "there are %s and %s" % (", ".join(names[:-1]), names[-1])
    named = "; a file of that name is named ./%s" % spelled(word) if command == "replay" else ""
    return "%s: no such option, %s%s" % (spelled(word), there, named)


def numbers_of(words):
    """NUMBER and COUNT, or Fault."""
    numbers = []
    for (name, most), word in zip(NUMBERS.items(), words):
        numbers.append(number_in(word, 0, most))
        if numbers[-1] is None:
            raise Fault("%s %s: %s" % (name, spelled(word), RANGE % (0, most)))
    for name in list(NUMBERS)[len(words):]:
        raise Fault("%s: %s has to stand there, and the word is missing" % (name, RANGE % (0, NUMBERS[name])))
    if len(words) > len(NUMBERS):
        raise Fault("%s: a word too many behind COUNT, only %s may stand there" % (
            spelled(words[len(NUMBERS)]), COMMANDS["generate"][0]))
    return numbers


def spelled(word):
    """A word as a sentence can have it."""
    return word if re.fullmatch("[A-Za-z0-9_./+,@=-]{1,60}", word) else shown(word)


def refused_words(words):
    """What is wrong with the words, or Bad where hm does not refuse them so."""
    try:
        call_of(words)
    except Fault as fault:
        return "%s. %s" % (fault, FORMS)
    raise not_of(words)


def accepted(words):
    """What the words ask for, or Bad where hm refuses them."""
    try:
        return call_of(words)
    except Fault:
        raise not_of(words)


def require_count(words, count):
    """The words name so many files, more than are replayed together; else Bad."""
    call = accepted(words)
    if call.command != "replay" or not MOST_FILES < len(call.rest) == int(count):
        raise not_of(words)


def file_of(words, file):
    """The name of the file with this number among the words."""
    call = accepted(words)
    if call.command != "replay" or not int(file) <= len(call.rest) <= MOST_FILES:
        raise Bad("of a call with the words %s hm says nothing of a file %s" % (" ".join(map(ascii, words)), file))
    return call.rest[int(file) - 1]


def not_of(words):
    return Bad("hm does not say that of the words %s" % " ".join(map(ascii, words)))
