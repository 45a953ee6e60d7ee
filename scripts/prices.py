"""The second strip of a report's picture: the fills at their prices, and the best bid and ask."""
import math

from drawing import cell, circle, legend, line, many, marks, stairs, text, upwards
from strips import FILLS, LEFT, MOST, RIGHT, empty, root_axis

CELL = 8  # width and height of a cell of gathered fills


class Prices:
    """Which prices the second strip shows: those of all fills, and as many of the quotes as are near them."""

    def __init__(self, fills, quotes):
        near = [fill.price for fill in fills]
        far = [price for quote in quotes for price in quote if price is not None]
        self.low, self.high = min(near or far or [1]), max(near or far or [1])
        if near and far:
            span = max(self.high - self.low, self.high // 20, 5)
            self.low = max(min(far + [self.low]), self.low - span)
            self.high = min(max(far + [self.high]), self.high + span)
        self.is_cut = any(not self.low <= price <= self.high for price in far)

    def place(self, price):
        """The height of a price in the strip; one that is not shown is at the edge."""
        (top, bottom), spare = FILLS, max((self.high - self.low) * .06, .6)
        share = (price - self.low + spare) / (self.high - self.low + 2 * spare)
        return bottom - (bottom - top) * min(max(share, 0), 1)


def single(fills, slot, place):
    """A circle for each fill; those of one order at one price stand side by side. Also what its legend shows."""
    same, largest = {}, max(fill.quantity for fill in fills)
    radius = lambda quantity: 3.3 + 5.5 * math.sqrt(quantity / largest)
    for fill in fills:
        same.setdefault((fill.taker, fill.price), []).append(fill)
    circles = []
    for found in same.values():
        step = min(7, max(slot * .8, 21) / max(len(found) - 1, 1))
        for at, fill in enumerate(found):
            told = "fill %d: order %d took from order %d, at %d, the quantity %d" % (
                fill.number, fill.taker, fill.maker, fill.price, fill.quantity)
            x = LEFT + (fill.taker - .5) * slot + (at - (len(found) - 1) / 2) * step
            circles.append((fill.quantity, circle(x, place(fill.price), radius(fill.quantity), told)))
    # The largest first, so that the small ones are seen.
    parts = [part for _, part in sorted(circles, key=lambda pair: -pair[0])]
    return parts, {1, max(largest // 4, 1), largest}, lambda x, y, quantity: circle(x + 9, y - 5, radius(quantity))


def gathered(fills, slot, place):
    """A square for the fills of one cell, darker where more was traded. Also what its legend shows."""
    cells = {}
    for fill in fills:
        spot = int((fill.taker - .5) * slot / CELL), int((place(fill.price) - FILLS[0]) / CELL)
        cells.setdefault(spot, []).append(fill)
    totals = [sum(fill.quantity for fill in found) for found in cells.values()]
    least, largest = min(totals), max(totals)
    shade = lambda quantity: .15 + .85 * math.log(quantity / least) / (math.log(largest / least) or 1)
    parts = []
    for (x, y), found in cells.items():
        prices, total = [fill.price for fill in found], sum(fill.quantity for fill in found)
        told = "%s of the orders %d to %d, at %d to %d: %d together" % (
            many(len(found), "fill"), found[0].taker, found[-1].taker, min(prices), max(prices), total)
        parts.append(cell(LEFT + x * CELL, FILLS[0] + y * CELL, CELL, shade(total), told))
    told = {least, math.isqrt(least * largest), largest}
    return parts, told, lambda x, y, quantity: cell(x + 4, y - 11, 12, shade(quantity))


def quote_line(prices, slot, place, kind):
    """The best price of a side after each order, on a white ground; of gathered orders, that after the last."""
    size = math.ceil(len(prices) / MOST)
    shown = [prices[min(first + size, len(prices)) - 1] for first in range(0, len(prices), size)]
    points = [(LEFT + (at * size + .5) * slot, None if price is None else place(price))
              for at, price in enumerate(shown)]
    return [stairs(points, RIGHT, "under"), stairs(points, RIGHT, kind)]


def trades(report, quotes):
    """The second strip: price and quantity of each fill, and the best bid and ask after each order, if told."""
    parts, slot = root_axis(len(report.orders), FILLS, "root number of the order that came (the taker)")
    prices, top = Prices(report.fills, quotes), FILLS[0]
    parts.append(upwards(14, sum(FILLS) / 2, "price, in the files' unit"))
    for mark in marks(prices.low, prices.high, 8) if report.fills or quotes else []:
        y = prices.place(mark)
        parts += [line(LEFT, y, RIGHT, y, "grid"), text(LEFT - 8, y + 4, format(mark, ","), "end")]
    items, told, is_many = [], "Fills", len(report.fills) > 2 * MOST
    lines = []
    for side, kind in enumerate(("bid", "ask") if quotes else ()):
        lines += quote_line([quote[side] for quote in quotes], slot, prices.place, kind)
        items.append((lambda x, y, kind=kind: line(x, y - 4, x + 17, y - 4, kind), "best %s" % kind))
    if report.fills:
        told = "Fills, gathered: each cell is the fills of %d by %d pixels, darker where more was traded" % (
            CELL, CELL) if is_many else "Fills: each circle is one fill, at its price, larger where more was traded"
        marked, quantities, sample = (gathered if is_many else single)(report.fills, slot, prices.place)
        parts += marked + lines if is_many else lines + marked
        for quantity in sorted(quantities):
            mark = lambda x, y, quantity=quantity: sample(x, y, quantity)
            items.append((mark, "quantity %s" % format(quantity, ",")))
    else:
        parts += lines + [empty(FILLS, "no fills")]
    told += "; the lines are cut where they leave the strip" if prices.is_cut else ""
    told += "" if quotes or not report.orders else "; name the files too for the best bid and ask"
    return parts + [text(LEFT, top - 27, told)] + legend(items, LEFT, RIGHT, top - 8)
