"""Reports, read as docs/FORMATS.md says. Unproved, and no copy of the proved program."""
import io
import re
from collections import Counter, namedtuple

from calls import Bad, named, read_bytes, shown
from rows import MOST_FILES, MOST_NUMBER, MOST_ROWS

MOST_REPORT = 268435456  # bytes of a report, many times what the heap of a replay has room for
FATES = ("filled", "rested", "repeated", "dropped", "cancelled", "unknown", "denied")
TRADES = ("filled", "rested", "dropped")  # the fates with which an order may have fills
NUMBER = b" (0|[1-9][0-9]{0,19})"
ORDER_LINE = re.compile(b"order" + NUMBER * 3 + b" ([a-z]+)\n")
FILL_LINE = re.compile(b"fill" + NUMBER * 5 + b"\n")
BOARD_LINE = re.compile(b"board(" + NUMBER + b"){1,%d}\n" % MOST_FILES)
END_LINE = re.compile(b"end" + NUMBER * 3 + b"\n")

Order = namedtuple("Order", "root file row fate")
Fill = namedtuple("Fill", "number taker maker price quantity")
Report = namedtuple("Report", "orders fills board resting")


class Wrong(Exception):
    """A line that no replay prints where it stands; the text says why."""


def require(holds, why):
    if not holds:
        raise Wrong(why)


class Reading:
    """A report as far as it is read. What no replay prints, whatever its files, is Wrong."""

    def __init__(self):
        self.orders, self.fills, self.board, self.resting = [], [], None, None
        self.rows, self.rest = Counter(), Counter()  # of each file: its orders, and how many may rest
        self.prices, self.gone = {}, set()  # of makers: the price of each, and those that were filled
        self.last, self.way = None, 0  # the last fill of the last order, and whether its prices rise or fall

    def take(self, line):
        """Reads the next line."""
        require(self.resting is None, "the report was over")
        order, fill = ORDER_LINE.fullmatch(line), FILL_LINE.fullmatch(line)
        if self.board is not None:
            require(END_LINE.fullmatch(line), "an end line has to follow the board line")
            self.take_end(*numbers_of(line))
        elif order:
            self.end_order()
            self.take_order(Order(*map(int, order.groups()[:3]), fate=order[4].decode()))
        elif fill:
            self.take_fill(Fill(*map(int, fill.groups())))
        else:
            require(BOARD_LINE.fullmatch(line), "it is no line of a report" if line[-1:] == b"\n" else "it is cut")
            self.end_order()
            self.take_board(list(numbers_of(line)))

    def take_order(self, order):
        self.rows[order.file] += 1
        require(order.root == len(self.orders) + 1, "order %d comes next" % (len(self.orders) + 1))
        require(1 <= order.file <= MOST_FILES, "a replay has at most %d files, from 1" % MOST_FILES)
        require(order.row == self.rows[order.file] <= MOST_ROWS, "the rows of a file come in turn from 1")
        require(order.fate in FATES, "that is no fate")
        require(order.fate not in ("repeated", "cancelled") or self.rest[order.file], "no order of its file rests")
        self.rest[order.file] += {"rested": 1, "cancelled": -1}.get(order.fate, 0)
        self.orders.append(order)

    def take_fill(self, fill):
        require(fill.number == len(self.fills) + 1, "fill %d comes next" % (len(self.fills) + 1))
        require(0 < fill.taker == len(self.orders), "the taker is the order above it")
        require(self.orders[-1].fate in TRADES, "an order with that fate has no fills")
        require(0 < fill.maker < fill.taker, "the maker is an earlier order")
        maker = self.orders[fill.maker - 1]
        require(maker.fate == "rested", "the maker did not rest")
        require(1 <= fill.price <= MOST_NUMBER, "that is no price")
        require(1 <= fill.quantity <= MOST_NUMBER, "that is no quantity")
        require(self.prices.setdefault(fill.maker, fill.price) == fill.price, "the maker has another price")
        if self.last:
            self.fill_up(self.last.maker)
            step = fill.price - self.last.price
            require(step * self.way >= 0, "the prices of an order's fills rise or fall")
            require(step or fill.maker > self.last.maker, "at one price the earlier maker comes first")
            self.way = self.way or step
        require(fill.maker not in self.gone, "the maker was filled before")
        require(self.rest[maker.file], "no order of the maker's file rests")
        self.last = fill
        self.fills.append(fill)

    def fill_up(self, maker):
        """Nothing is left of a maker."""
        self.gone.add(maker)
        self.rest[self.orders[maker - 1].file] -= 1

    def end_order(self):
        """The last order has no more fills."""
        fate = self.orders[-1].fate if self.orders else None
        require(fate != "filled" or self.last, "an order that was filled has a fill")
        if self.last and fate != "filled":
            self.fill_up(self.last.maker)
        self.last, self.way = None, 0

    def take_board(self, board):
        counts = [self.rows[file] for file in range(1, len(board) + 1)]
        require(board == counts and sum(counts) == len(self.orders), "it does not count the orders of each file")
        self.board = board

    def take_end(self, orders, fills, resting):
        require((orders, fills) == (len(self.orders), len(self.fills)), "it does not count the orders and fills")
        fates, most = Counter(order.fate for order in self.orders), sum(self.rest.values())
        least = max(fates["rested"] - len(self.prices) - fates["cancelled"], 0)
        require(least <= resting <= most, "from %d to %d orders can rest in the end" % (least, most))
        self.resting = resting


def numbers_of(line):
    return (int(word) for word in line.split()[1:])


def read_report(path):
    """The report in a file, or Bad with the first line that no replay prints there."""
    reading, at, line = Reading(), 0, b""
    try:
        for at, line in enumerate(io.BytesIO(read_bytes(path, MOST_REPORT)), 1):
            reading.take(line)
    except Wrong as wrong:
        raise Bad("%s is no report: its line %d is %s, but %s" % (named(path), at, shown(line.rstrip(b"\n")), wrong))
    if reading.resting is None:
        raise Bad("%s is no report: it ends after line %d, without an end line" % (named(path), at))
    return Report(reading.orders, reading.fills, reading.board, reading.resting)
