"""How a script is called and how it ends: the least Python, its words, its streams, and the files that it reads."""
import os
import sys

LEAST = (3, 8)  # of Python; a script under an older one says so, and no line of it is later than Python 3.5
if sys.version_info[:2] < LEAST:
    if sys.stderr:
        sys.stderr.write("%s: Python %d.%d or later is needed, and python3 is %d.%d here\n" % (
            (os.path.basename(sys.argv[0]),) + LEAST + tuple(sys.version_info[:2])))
    sys.exit(2)

import argparse
import re
import stat

PIECE = 1 << 20  # bytes that are read at once


class Bad(Exception):
    """Input that a script can do nothing with; the text says why."""


class Parser(argparse.ArgumentParser):
    """A parser of words that says in one line what is wrong with them."""

    def __init__(self, description):
        super().__init__(description=description, formatter_class=argparse.RawDescriptionHelpFormatter,
                         allow_abbrev=False)

    def error(self, message):
        raise Bad("%s; %s --help says more" % (message, self.prog))

    def print_help(self, file=None):
        print(self.format_help(), end="", file=file)


def run(main):
    """Runs a script's main and ends with its status; what goes wrong is one line on standard error and status 2."""
    open_streams()
    try:
        try:
            status = main()
        except SystemExit as end:  # as --help ends
            status = end.code or 0
        sys.stdout.flush()
    except (Exception, KeyboardInterrupt) as error:
        status = 2
        say("%s: %s" % (os.path.basename(sys.argv[0]), cause(error).replace("\n", " ")))
    os._exit(status)  # what could not be written is not tried again


def open_streams():
    """Puts something in the place of each closed stream: writing to output then fails, and errors are lost."""
    for number, flags in enumerate((os.O_RDONLY, os.O_RDONLY, os.O_WRONLY)):
        try:
            os.fstat(number)
        except OSError:
            os.open(os.devnull, flags)
    sys.stdout = sys.stdout or open(1, "w", closefd=False)
    sys.stderr = sys.stderr or open(2, "w", closefd=False)
    for stream in (sys.stdout, sys.stderr):
        stream.reconfigure(encoding="utf-8", errors="backslashreplace")


def say(line):
    """Writes a line to standard error, where that can be written."""
    try:
        print(line, file=sys.stderr, flush=True)
    except OSError:
        pass


def cause(error):
    """What is said of an error. One of the system that names no file is of standard output."""
    if isinstance(error, OSError) and error.strerror:
        return "%s: %s" % (named(error.filename) if error.filename else "standard output", error.strerror)
    return str(error) if isinstance(error, Bad) else ("%s %s" % (type(error).__name__, error)).strip()


def shown(text, most=60):
    """A line as it can be printed: bytes that are not ASCII text as escapes, and cut where it is long."""
    cut = text if len(text) <= most else text[:most] + (b".." if isinstance(text, bytes) else "..")
    return ascii(cut.decode("latin-1") if isinstance(cut, bytes) else cut)


def named(path):
    """A file's name as a sentence can have it."""
    path = os.fsdecode(path)
    return path if re.fullmatch("[A-Za-z0-9_./+,@-]+", path) else ascii(path)


def read_bytes(path, most):
    """The bytes of a regular file that has at most so many; of another nothing is read but its first bytes."""
    try:
        with open(path, "rb", opener=lambda name, flags: os.open(name, flags | os.O_NONBLOCK)) as file:
            found = os.fstat(file.fileno())
            if not stat.S_ISREG(found.st_mode):
                raise Bad("%s cannot be read: it is no regular file" % named(path))
            pieces, left = [], most + 1
            while left > 0 and found.st_size <= most:
                piece = file.read(min(left, PIECE))
                if not piece:
                    return b"".join(pieces)
                pieces.append(piece)
                left -= len(piece)
    except (OSError, ValueError) as error:
        raise Bad("%s cannot be read: %s" % (named(path), getattr(error, "strerror", None) or error))
    raise Bad("%s cannot be read: it has more than %d bytes" % (named(path), most))
