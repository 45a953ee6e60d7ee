"""The rows of order files, read as docs/FORMATS.md says. Unproved, and no copy of the proved program."""
import re
from collections import namedtuple

from calls import Bad, named, read_bytes
from records import records_of

MOST_FILES, MOST_BYTES, MOST_ROWS, MOST_NUMBER = 8, 67108864, 1000000, 4294967295
PARTS = ("kind", "id", "side", "price", "quantity")  # the fields of a row
KINDS = {b"L": "limit order", b"I": "immediate order", b"M": "market order", b"C": "cancel"}
EMPTY = {b"M": ("price",), b"C": ("side", "price", "quantity")}  # the fields that a kind does not use
LEAST = {"id": 0, "price": 1, "quantity": 1}

Row = namedtuple("Row", PARTS)  # the value of a field that is not used is None


class Refused(Exception):
    """A row that the program refuses, by its number and its part."""


def number(field, least):
    """The number that a field spells, or None."""
    if not re.fullmatch(b"[0-9]{1,10}", field) or not least <= int(field) <= MOST_NUMBER:
        return None
    return int(field)


def value_of(part, field):
    """The value that a field spells, or None where it is refused."""
    if part in LEAST:
        return number(field, LEAST[part])
    return field.decode() if field in (KINDS if part == "kind" else (b"B", b"S")) else None


def order_of(row, fields):
    """The order of a row, or Refused with the row and its first refused part."""
    if row > MOST_ROWS or len(fields) != len(PARTS):
        raise Refused(row, "toomany" if row > MOST_ROWS else "fields")
    values, empty = [], EMPTY.get(fields[0], ())
    for part, field in zip(PARTS, fields):
        values.append(None if part in empty else value_of(part, field))
        if field != b"" if part in empty else values[-1] is None:
            raise Refused(row, part)
    return Row(*values)


def spelled(order):
    """An order in words."""
    if order.kind == "C":
        return "cancel of id %d" % order.id
    kind, side = KINDS[order.kind.encode()].split()[0], "buy" if order.side == "B" else "sell"
    return "%s %s of %d%s, id %d" % (
        kind, side, order.quantity, "" if order.price is None else " at %d" % order.price, order.id)


def orders_of(path, file):
    """The orders of a file, by its place among the files of a replay."""
    try:
        return [order_of(row, record.fields)
                for row, record in enumerate(records_of(read_bytes(path, MOST_BYTES)), 1)]
    except Refused as refused:
        raise Bad("hm refuses row %d of %s, file %d, by its part %s" % (
            refused.args[0], named(path), file, refused.args[1]))


def files_of(paths):
    """The orders of each file of a replay."""
    if len(paths) > MOST_FILES:
        raise Bad("hm replays at most %d files together, and there are %d" % (MOST_FILES, len(paths)))
    return [orders_of(path, file) for file, path in enumerate(paths, 1)]
