"""How a picture tells the fates apart: by colour, also in grey, by the shape of a tick, and by an area's pattern."""
from collections import namedtuple

from drawing import bar, hover
from formats import FATES

# The colour, the upright pieces of a tick (from 0, the top of its lane, to 1), and the lines of the pattern, on a tile
# of 8 by 8 pixels.
Look = namedtuple("Look", "colour pieces ink lines")
LOOKS = dict(zip(FATES, (
    Look("#1d66bd", ((0, 1),), "#fff", ""),
    Look("#e8a020", ((.5, 1),), "#222", "M-2 2l4-4M0 8l8-8M6 10l4-4"),
    Look("#878787", ((.36, .64),), "#fff", "M0 2h8M0 6h8"),
    Look("#3d0f62", ((0, .5),), "#fff", "M-2 6l4 4M0 0l8 8M6-2l4 4"),
    Look("#98d8fa", ((0, .4), (.6, 1)), "#222", "M1 2h2M5 6h2"),
    Look("#7a3200", ((0, .22), (.78, 1)), "#fff", "M0 4h8M4 0v8"),
    Look("#000000", ((0, .14), (.29, .43), (.57, .71), (.86, 1)), "#fff", "M1 1l3 3M4 1l-3 3M5 5l3 3M8 5l-3 3"),
)))


def style(is_gathered):
    """How the marks of each fate are filled: an area has its pattern, and a tick, which has its shape, is plain."""
    return "".join(".%s{fill:%s%s}" % (fate, "url(#%s) " % fate if is_gathered and look.lines else "", look.colour)
                   for fate, look in LOOKS.items()) + ".tick{shape-rendering:crispEdges}"


def patterns():
    """The patterns of the areas."""
    tile = '<pattern id="%s" width="8" height="8" patternUnits="userSpaceOnUse"><path fill="%s" d="M0 0h8v8h-8z"/>' \
        '<path fill="none" stroke="%s" stroke-width="1.2" d="%s"/></pattern>'
    return "<defs>%s</defs>" % "".join(tile % (fate, look.colour, look.ink, look.lines)
                                       for fate, look in LOOKS.items() if look.lines)


def tick(fate, x, y, width, height, told=""):
    """One order: its pieces show its fate also where the tick is narrow."""
    pieces = "".join("M%.2f %.2fh%.2fv%.2fh%.2fz" % (x, y + top * height, width, (bottom - top) * height, -width)
                     for top, bottom in LOOKS[fate].pieces)
    return '<path class="tick %s" d="%s">%s</path>' % (fate, pieces, hover(told))


def sample(fate, x, y, is_gathered):
    """What a legend shows of a fate."""
    if is_gathered:
        return bar(x - 2, y - 12, 16, 16, fate)
    return bar(x - 2, y - 13, 16, 18, "lane") + tick(fate, x + 1.5, y - 12, 9, 16)
