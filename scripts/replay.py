"""A report beside a plain replay of its own interleaving; it shares no code with the program. Unproved."""
import io

from book import Book
from calls import shown
from formats import ORDER_LINE


class Unsound(Exception):
    """The first line of a report that is not the one of its interleaving: its number, and what is said of it."""


class Walk:
    """A report beside the replay of its own interleaving, line by line.

    Whether an order is admitted is told of it and the fate on its line.
    """

    def __init__(self, data, files, admits=lambda order, fate: True):
        self.lines, self.at, self.there = io.BytesIO(data), 0, b""
        self.files, self.done, self.book, self.admits = files, [0] * len(files), Book(), admits

    def check(self, each=lambda book: None):
        """Reads the report to its end, or tells of its first wrong line. After each order the book is shown."""
        for _ in range(sum(map(len, self.files))):
            file, row, fate = self.next_row()
            order = self.files[file - 1][row - 1]
            own, *fills = self.book.apply(file, row, order, self.admits(order, fate))
            self.require(own)
            for fill in fills:
                self.step()
                self.require(fill)
            each(self.book)
        for last in ("board" + "".join(" %d" % rows for rows in self.done),
                     "end %d %d %d" % (self.book.root, self.book.fills, len(self.book.left))):
            self.step()
            self.require(last)
        self.step()
        if self.there:
            self.wrong("nothing, since the report is over")
        return self.at - 1

    def step(self):
        self.there, self.at = self.lines.readline(), self.at + 1

    def next_row(self):
        """The file and the row that the next line names, which has to be a file's next row, and the fate on it."""
        self.step()
        found = ORDER_LINE.fullmatch(self.there)
        file = int(found[2]) if found else 0
        if 1 <= file <= len(self.files) and int(found[3]) == self.done[file - 1] + 1 <= len(self.files[file - 1]):
            self.done[file - 1] += 1
            return file, self.done[file - 1], found[4].decode()
        nexts = ["row %d of file %d" % (done + 1, at) for at, done in enumerate(self.done, 1)
                 if done < len(self.files[at - 1])]
        self.wrong("an order line of %s, for order %d" % (" or ".join(nexts), self.book.root + 1))

    def require(self, text):
        """The line has to be this one. A line that is cut is none."""
        if self.there != text.encode() + b"\n":
            self.wrong(shown(text) + (", ended by a line feed" if self.there == text.encode() else ""))

    def wrong(self, wanted):
        there = "has " + shown(self.there.rstrip(b"\n")) if self.there else "is missing"
        raise Unsound(self.at, "%s, and there should be %s" % (there, wanted))
