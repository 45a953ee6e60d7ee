"""The records of a file's bytes, read as docs/FORMATS.md says. Unproved, and no copy of the proved program."""
import re
from collections import namedtuple

MARK = b"\xef\xbb\xbf"  # the byte order mark, U+FEFF in UTF-8
ENDS, PLAIN, QUOTES = re.compile(b"[\r\n]*"), re.compile(b"[^,\r\n]*"), re.compile(b'"+')
KEPT = 6  # fields of a record: one more than a row may have

Record = namedtuple("Record", "start end fields")  # where it starts and ends, and the first fields of it


def closing(data, at):
    """Where the quote stands that closes the bytes from here on, or the end of the file.

    Of some quotes in a row each two are a quote of the field, so the last one closes it where their number is odd.
    """
    for quotes in QUOTES.finditer(data, at):
        if (quotes.end() - quotes.start()) % 2:
            return quotes.end() - 1
    return len(data)


def field_at(data, at):
    """The bytes of the field that begins here, without the quotes around them, and where it ends."""
    if data[at:at + 1] != b'"':
        end = PLAIN.match(data, at).end()
        return data[at:end], end
    quote = closing(data, at + 1)
    end = PLAIN.match(data, quote + 1).end()
    return data[at + 1:quote].replace(b'""', b'"') + data[quote + 1:end], end


def records_of(data):
    """The records of a file's bytes, in turn: lines without bytes are none."""
    at = len(MARK) if data.startswith(MARK) else 0
    while True:
        start = at = ENDS.match(data, at).end()
        if at == len(data):
            return
        fields, is_over = [], False
        while not is_over:
            field, at = field_at(data, at)
            if len(fields) < KEPT:
                fields.append(field)
            is_over = data[at:at + 1] != b","
            at += not is_over
        yield Record(start, at, fields)


def line_of(data, at):
    """The number of the line in which a byte stands; a line ends in CR, LF or CR LF."""
    return 1 + data.count(b"\n", 0, at) + data.count(b"\r", 0, at) - data.count(b"\r\n", 0, at)


def pieces(data, count):
    """The bytes of a file in so many pieces with whole records, as equal as can be."""
    starts = [record.start for record in records_of(data)] + [len(data)]
    cuts = [starts[(len(starts) - 1) * at // count] for at in range(count + 1)]
    return [data[low:high] for low, high in zip(cuts, cuts[1:])]
