"""Rows of order files, as orders and as bytes, and the reports of rows that are applied in some order."""
from book import Book
from options import Limits, admits
from rows import MOST_NUMBER, Row

NO_LIMITS = Limits(MOST_NUMBER, 1, MOST_NUMBER)


def rows_at_random(chance, count, ids, prices=8):
    """Rows of all kinds, with so many ids and prices."""
    return [Row(kind, chance.randrange(ids), None if kind == "C" else chance.choice("BS"),
                None if kind in "MC" else 1 + chance.randrange(prices), None if kind == "C" else chance.randrange(1, 9))
            for kind in chance.choices("LIMC", (6, 1, 1, 1), k=count)]


def bytes_at_random(chance):
    """A short file: rows that are mostly right, and bytes that are likely to be read wrongly."""
    numbers, data = (b"1",) * 6 + (b"2",) * 6 + (b"007", b"4294967295", b"4294967296"), b""
    for _ in range(chance.randrange(4)):
        kind = chance.choice((b"L", b"I", b"M", b"C"))
        price, quantity = (b"" if kind in empty else chance.choice(numbers) for empty in (b"MC", b"C"))
        row = [kind, chance.choice(numbers), b"" if kind == b"C" else chance.choice((b"B", b"S")), price, quantity]
        data += b",".join(b'"%b"' % it if chance.randrange(4) == 0 else it for it in row)
        data += chance.choice((b"\n", b"\r\n", b"\r", b"\n\n", b"\r\r"))
    for _ in range(chance.choice((0, 0, 1, 2))):
        at = chance.randrange(len(data) + 1)
        data = data[:at] + chance.choice((b'"', b'""', b",", b"\r", b"\n", b" ", b"\0", b"\xff", b"1")) + data[at:]
    return (b"\xef\xbb\xbf" if chance.randrange(5) == 0 else b"") + data


def same_rows(data):
    """Other files with the same rows, of which none has a comma or the end of a line in a field."""
    quoted = b"\n".join(b",".join(b'"%b"' % field for field in row.replace(b'"', b"").split(b",")) if row else row
                        for row in data.split(b"\n"))
    return [data.rstrip(b"\n"), quoted, data.replace(b"\n", b"\r\n"), data.replace(b"\n", b"\r"),
            b"\xef\xbb\xbf" + data, b"\xef\xbb\xbf" + quoted.replace(b"\n", b"\r\n")]


def written(rows):
    """The bytes of a file with these rows."""
    return "".join(",".join("" if value is None else str(value) for value in row) + "\n" for row in rows).encode()


def in_turn(files, limits=NO_LIMITS):
    """The report of files of rows that are applied in turn, a row of each."""
    return report_of(files, [(file, row) for row in range(max(map(len, files))) for file in range(len(files))
                             if row < len(files[file])], limits)


def one_by_one(files):
    """The report of files of rows that are applied one file after another."""
    return report_of(files, [(file, row) for file in range(len(files)) for row in range(len(files[file]))])


def report_of(files, places, limits=NO_LIMITS):
    """The report of files of rows that are applied in this order, with these limits."""
    book, lines = Book(), []
    for file, row in places:
        lines += book.apply(file + 1, row + 1, files[file][row], admits(limits, files[file][row]))
    lines += ["board" + "".join(" %d" % len(rows) for rows in files),
              "end %d %d %d" % (book.root, book.fills, len(book.left))]
    return "".join(line + "\n" for line in lines).encode()
