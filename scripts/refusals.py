"""What is said of a row that hm refuses: which bytes stand there, what is allowed, and what an editor does not show."""
import re

from calls import shown
from records import MARK, line_of
from rows import EMPTY, KINDS, LEAST, MOST_NUMBER, MOST_ROWS, PARTS

KIND = "L (limit), I (immediate), M (market) or C (cancel)"
FIVE = "a row has exactly five fields with commas between them, kind,id,side,price,quantity, and those that a kind " \
    "does not use are empty: C,1,,, has five, and so has M,1,S,,9"
PLACES = dict(zip(PARTS, ("first", "second", "third", "fourth", "fifth")))
NUMBER = "a number: 1 to 10 digits, without sign or spaces, with a value from %%d to %d" % MOST_NUMBER
WIDE = {b"\xff\xfe": "ff fe", b"\xfe\xff": "fe ff"}  # the byte order marks of UTF-16


def sentences_of(part, row, record, data):
    """The sentences about a row of a file's bytes, by the part that is refused."""
    there = data[record.start:record.end]
    told = ["The row is %s" % shown(there, 80), about(part, record.fields)]
    told += header(row, record.fields) + marks(record.start, there, data) + lines(record, data)
    return " ".join(sentence + "." for sentence in told)


def about(part, fields):
    """What stands in the refused part, and what is allowed there."""
    if part == "toomany":
        return "A file has at most %d rows" % MOST_ROWS
    if part == "fields" or len(fields) != len(PARTS):
        count = "%d field%s" % (len(fields), "" if len(fields) == 1 else "s")
        return "It has %s; %s" % (count if len(fields) <= len(PARTS) else "more than five fields", FIVE)
    field = fields[PARTS.index(part)]
    return "The %s field, the %s, is %s; %s%s" % (
        PLACES[part], part, shown(field) if field else "empty", allowed(part, fields[0]), quoted(field))


def allowed(part, kind):
    """What the field of this part may be in a row of this kind."""
    if part == "kind":
        return "it has to be " + KIND
    of_kind = "that of %s %s " % ("an" if kind == b"I" else "a", KINDS.get(kind, "row"))
    if part in EMPTY.get(kind, ()):
        return of_kind + "is empty"
    return of_kind + "is " + (NUMBER % LEAST[part] if part in LEAST else "B to buy or S to sell")


def quoted(field):
    """Why quotes are left in a field."""
    return "; quotes are taken off where the field's first byte is one, and between them a doubled quote is one quote" \
        if b'"' in field else ""


def header(row, fields):
    """A first line that names the fields is none that hm knows."""
    is_header = row == 1 and re.fullmatch(b"[A-Za-z_ ]{2,}", fields[0])
    return ["No header is read: a first line with the names of the fields is a row like any other, so take it out"] \
        if is_header else []


def marks(start, there, data):
    """A byte order mark that is not taken off."""
    if there.startswith(MARK):
        return ["The row begins with a UTF-8 byte order mark (%s), which is taken off at the start of a file alone: "
                "take it out here, where perhaps two files were joined" % MARK.hex(" ")]
    return ["The file begins with a UTF-16 byte order mark (%s): save it as UTF-8" % name
            for mark, name in WIDE.items() if start == 0 and there.startswith(mark)]


def lines(record, data):
    """A row that has more than one line."""
    last = line_of(data, record.end)
    if last == line_of(data, record.start):
        return []
    end = "the end of the file" if record.end == len(data) else "line %d" % last
    return ["A quoted field has line ends in it, so the row goes on to %s: a quote that begins a field is closed by "
            "the next quote that is not doubled, or by the end of the file" % end]
