"""A plain book, written from docs/FORMATS.md; it shares no code with the program. Unproved."""
import heapq


class Book:
    """The resting orders of each side, best first."""

    def __init__(self):
        self.heaps = {"B": [], "S": []}  # (key, root number, price): the least goes first; some were taken out
        self.left = {}  # root number -> the quantity left of a resting order
        self.names, self.roots = {}, {}  # root number -> (file, id) of a resting order, and back
        self.root = self.fills = 0

    def apply(self, file, row, order, is_admitted=True):
        """The lines of the report for one order, which limits admit or not: its own, and then those of its fills."""
        self.root += 1
        name, fills = (file, order.id), []
        if not is_admitted:
            fate = "denied"
        elif order.kind == "C":
            fate = self.cancel(name)
        elif name in self.roots:
            fate = "repeated"
        else:
            left, fills = self.trade(order)
            fate = "filled" if left == 0 else "rested" if order.kind == "L" else "dropped"
            if fate == "rested":
                self.keep(name, order, left)
        return ["order %d %d %d %s" % (self.root, file, row, fate)] + fills

    def cancel(self, name):
        """Takes out the resting order with this name, if there is one; what becomes of the cancel."""
        if name not in self.roots:
            return "unknown"
        self.take_out(self.roots[name])
        return "cancelled"

    def trade(self, order):
        """Trades an order with the other side as far as it goes: what is left of it, and the lines of its fills."""
        side, left, fills = "S" if order.side == "B" else "B", order.quantity, []
        while left > 0:
            price = self.best(side)
            if price is None or not crosses(order, price):
                break
            maker = self.heaps[side][0][1]
            taken = min(left, self.left[maker])
            left, self.left[maker], self.fills = left - taken, self.left[maker] - taken, self.fills + 1
            fills.append("fill %d %d %d %d %d" % (self.fills, self.root, maker, price, taken))
            if self.left[maker] == 0:
                self.take_out(maker)
        return left, fills

    def best(self, side):
        """The best price of a side, or None."""
        heap = self.heaps[side]
        while heap and heap[0][1] not in self.left:
            heapq.heappop(heap)
        return heap[0][2] if heap else None

    def keep(self, name, order, left):
        """What is left of the order that came rests."""
        key = -order.price if order.side == "B" else order.price
        heapq.heappush(self.heaps[order.side], (key, self.root, order.price))
        self.left[self.root], self.names[self.root], self.roots[name] = left, name, self.root

    def take_out(self, root):
        """An order rests no more."""
        del self.left[root], self.roots[self.names.pop(root)]


def crosses(order, price):
    """Whether an order trades at a resting price of the other side; a market order does at each."""
    if order.kind == "M":
        return True
    return price <= order.price if order.side == "B" else price >= order.price
