"""The first strip of a report's picture: a lane for each file, with its orders by their fates; and what both strips share."""
import math
from collections import Counter

from drawing import bar, line, many, marks, text
from fates import tick
from formats import FATES
from rows import spelled

LEFT, RIGHT = 134, 1154
LANES, FILLS = (112, 282), (376, 590)  # top and bottom of the strips
COLUMN = 2  # width of a gathered column of ticks
MOST = (RIGHT - LEFT) // COLUMN  # of more ticks, or twice as many fills, neighbours are gathered


def root_axis(orders, strip, words):
    """The axis of root numbers below a strip, and how wide an order's place on it is."""
    slot, (top, bottom) = (RIGHT - LEFT) / max(orders, 1), strip
    parts = [line(LEFT, bottom, RIGHT, bottom, "axis"), line(LEFT, top, LEFT, bottom, "axis")]
    for mark in marks(1, orders, 15):
        x = LEFT + (mark - .5) * slot
        parts += [line(x, bottom, x, bottom + 5, "axis"), text(x, bottom + 19, format(mark, ","), "mid")]
    return parts + [text((LEFT + RIGHT) / 2, bottom + 38, words, "mid")], slot


def empty(strip, words):
    """What is said in a strip that has nothing to show."""
    return text((LEFT + RIGHT) / 2, sum(strip) / 2 + 5, words, "mid")


def ticks(orders, rows, slot, high):
    """A tick for each order; on hover also what its row says, where the rows are known."""
    wide = max(min(slot * .7, 9), 1.2)
    for order in orders:
        x, y = LEFT + (order.root - .5) * slot - wide / 2, LANES[0] + (order.file - 1) * high
        row = ", " + spelled(rows[order.root - 1]) if rows else ""
        told = "order %d: file %d, row %d%s, %s" % (order.root, order.file, order.row, row, order.fate)
        yield tick(order.fate, x, y + 3, wide, high - 6, told)


def columns(orders, size):
    """Columns of so many orders: for each file the first and last order of the column, and how many have each fate."""
    for first in range(0, len(orders), size):
        column = orders[first:first + size]
        for file in sorted({order.file for order in column}):
            yield file, column[0], column[-1], Counter(order.fate for order in column if order.file == file)


def gathered_ticks(orders, slot, high, size):
    """Bars of each file's orders in a column, split by fate, and how many orders a bar as tall as its lane has.

    That is the largest share, without the largest two in a hundred: those may be of the end, where one file is left.
    """
    found = list(columns(orders, size))
    shares = sorted(sum(counts.values()) for _, _, _, counts in found)
    parts, most = [], shares[-1 - len(shares) // 50]
    for file, first, last, counts in found:
        fates = [fate for fate in FATES if counts[fate]]
        told = "orders %d to %d: of file %d %s" % (
            first.root, last.root, file, ", ".join("%d %s" % (counts[fate], fate) for fate in fates))
        y = LANES[0] + file * high - 1
        for fate in fates:
            tall = (high - 2) * counts[fate] / max(most, sum(counts.values()))
            y -= tall
            parts.append(bar(LEFT + (first.root - 1) * slot, y, (last.root - first.root + 1) * slot, tall, fate, told))
    return parts, most


def is_gathered(report):
    """Whether there are more orders than ticks fit."""
    return len(report.orders) > MOST


def lanes(report, order_rows):
    """The first strip: a lane for each file. The rows of the orders are told, if known."""
    words = "root number (the order's place among all orders applied)"
    parts, slot = root_axis(len(report.orders), LANES, words)
    high = (LANES[1] - LANES[0]) / len(report.board)
    for file, rows in enumerate(report.board):
        y = LANES[0] + file * high
        name_y = y + high / 2 + (-3 if high >= 36 else 4)
        parts.append(bar(LEFT, y + 1, RIGHT - LEFT, high - 2, "lane"))
        parts.append(text(LEFT - 8, name_y, "file %d" % (file + 1), "end"))
        parts += [text(LEFT - 8, name_y + 16, many(rows, "order"), "end")] if high >= 36 else []
    told = "Orders: each tick is one order, in the lane of its file; its shape and colour show its fate" \
        if report.orders else "Orders"
    if is_gathered(report):
        size = math.ceil(len(report.orders) / MOST)
        bars, most = gathered_ticks(report.orders, slot, high, size)
        told = "Orders, gathered: each column is %s; a bar is a file's share of them, split by fate, and one as " \
            "tall as its lane is %s or more" % (many(size, "order"), many(most, "order"))
        parts += bars
    elif report.orders:
        parts += ticks(report.orders, order_rows, slot, high)
    else:
        parts.append(empty(LANES, "no orders: %s without rows" % many(len(report.board), "file")))
    return parts + [text(LEFT, LANES[0] - 8, told)]
