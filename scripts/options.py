"""The options of hm: how their numbers are read, and which orders the limits among them admit."""
import argparse
import re
from collections import namedtuple

from calls import Bad
from rows import MOST_NUMBER

# The least and the greatest number of each option, and the one that counts where the words have none.
OPTIONS = {"--versions": (64, 65536, 4096), "--max-quantity": (1, MOST_NUMBER, MOST_NUMBER),
           "--low": (1, MOST_NUMBER, 1), "--high": (1, MOST_NUMBER, MOST_NUMBER)}
LIMITS = {"--max-quantity": "the greatest quantity of an order", "--low": "the least price of an order that has one",
          "--high": "the greatest price of an order that has one"}
RANGE = "a number from %d to %d"
DISORDER = "--low %d --high %d: the least price is above the greatest"

Limits = namedtuple("Limits", "max_quantity low high")


def number_in(word, least, most):
    """The number that a word spells as hm reads it, or None where it spells none from the least to the most."""
    found = re.fullmatch(r"\+?0*([0-9]{1,20})", word, re.ASCII)
    return int(found[1]) if found and least <= int(found[1]) <= most else None


class Once(argparse.Action):
    """An option with a number in its range, which is given at most once."""

    def __call__(self, parser, found, word, option=None):
        least, most, _ = OPTIONS[option]
        number = number_in(word, least, most)
        if number is None:
            parser.error("%s %s: %s" % (option, ascii(word), RANGE % (least, most)))
        if getattr(found, self.dest) is not None:
            parser.error("%s: the option is given twice" % option)
        setattr(found, self.dest, number)


def add_option(parser, name, told):
    """An option of a script that has the range of hm's."""
    least, most, default = OPTIONS[name]
    parser.add_argument(name, metavar="N", action=Once, help="%s: from %d to %d; else %d" % (
        told, least, most, default))


def limits_of(words):
    """The limits among the words of a script, or Bad where no price is between the least and the greatest."""
    given = zip(LIMITS, (words.max_quantity, words.low, words.high))
    limits = Limits(*(OPTIONS[name][2] if number is None else number for name, number in given))
    if limits.low > limits.high:
        raise Bad(DISORDER % (limits.low, limits.high))
    return limits


def admits(limits, order):
    """Whether the limits admit an order: all cancels, a market order by its quantity, and others by their price too."""
    if order.kind == "C":
        return True
    return order.quantity <= limits.max_quantity and (order.kind == "M" or limits.low <= order.price <= limits.high)
