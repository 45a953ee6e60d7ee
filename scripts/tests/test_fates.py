"""report_svg: how its pictures tell the fates of orders apart."""
import itertools

from common import content, path
from fates import LOOKS
from formats import FATES
from picture import SVG, Picture

# What who lacks the receptors for green, red or blue sees of linear red, green and blue.
SIGHTS = [((.367, .861, -.228), (.280, .673, .047), (-.012, .043, .969)),
          ((.152, 1.053, -.205), (.115, .786, .099), (-.004, -.048, 1.052)),
          ((1.256, -.077, -.179), (-.078, .931, .148), (.005, .691, .304)),
          ((1, 0, 0), (0, 1, 0), (0, 0, 1))]


def told_of(fates):
    """A report of orders with these fates, each filled or dropped one with a fill."""
    lines, resting, fills = [], [], 0
    for root, fate in enumerate(fates, 1):
        lines.append("order %d 1 %d %s" % (root, root, fate))
        if fate in ("filled", "dropped"):
            fills += 1
            lines.append("fill %d %d %d 4294967295 4294967295" % (fills, root, resting.pop()))
        resting += [root] if fate == "rested" else []
    resting = len(resting) - fates.count("cancelled")
    lines += ["board %d" % len(fates), "end %d %d %d" % (len(fates), fills, resting)]
    return "".join(line + "\n" for line in lines).encode()


def seen(colour, sight):
    """Where a colour lies among those that somebody tells apart; a distance of 2 or 3 is just seen."""
    red, green, blue = ((int(colour[at:at + 2], 16) / 255) ** 2.2 for at in (1, 3, 5))
    red, green, blue = (max(a * red + b * green + c * blue, 0) for a, b, c in sight)
    x, y, z = ((a * red + b * green + c * blue) ** (1 / 3) for a, b, c in (
        (.434, .376, .190), (.213, .715, .072), (.018, .109, .873)))
    return 116 * y, 500 * (x - y), 200 * (y - z)


class Fates(Picture):
    def test_the_legend_of_seven_fates_of_thousands_each_is_on_the_page(self):
        order = ("rested",) * 4 + ("filled", "dropped", "cancelled", "repeated", "unknown", "denied")
        report = told_of(order * 1200)
        texts = self.texts(self.picture(report))
        for fate in FATES:
            self.assertIn("%s (%s)" % (fate, "4,800" if fate == "rested" else "1,200"), texts)
        self.assertIn("in the end 1,200 of the 4,800 rested orders still rest", texts[0])

    def test_colours_of_fates_are_told_apart_also_without_red_against_green_and_in_grey(self):
        colours = [LOOKS[fate].colour for fate in FATES]
        for sight, (one, other) in itertools.product(SIGHTS, itertools.combinations(colours, 2)):
            apart = [a - b for a, b in zip(seen(one, sight), seen(other, sight))]
            self.assertGreater(sum(a * a for a in apart) ** .5, 20, (one, other))
            self.assertGreater(abs(apart[0]), 8, (one, other))

    def test_fates_are_told_apart_without_colour(self):
        patterns = {look.lines for look in LOOKS.values()}
        # The pixels of a tick in the lowest lane that there is.
        ticks = {tuple(any(top * 15 < row + .5 < bottom * 15 for top, bottom in look.pieces) for row in range(15))
                 for look in LOOKS.values()}
        self.assertEqual((list(LOOKS), len(patterns), len(ticks)), (list(FATES), len(FATES), len(FATES)))

    def test_areas_have_patterns_where_orders_are_gathered(self):
        report = told_of(("rested", "cancelled", "unknown", "denied") * 400)
        found = self.picture(report)
        for fate in ("rested", "cancelled", "unknown", "denied"):
            (pattern,) = [it for it in found.iter(SVG + "pattern") if it.get("id") == fate]
            self.assertEqual(pattern[1].get("d"), LOOKS[fate].lines)
            self.assertIn(".%s{fill:url(#%s) %s}" % (fate, fate, LOOKS[fate].colour), self.picture_text)
            self.assertTrue(self.marks(found, "rect", fate))
        self.picture(told_of(("rested", "cancelled", "unknown") * 100))
        self.assertNotIn("pattern", self.picture_text)

    def test_each_tick_has_the_shape_of_its_fate_and_tells_its_row(self):
        report = content("demo", "kinds.report")
        found = self.picture(report, path("demo", "kinds.csv"))
        self.assertNotIn("denied", self.picture_text.split("</style>")[1])
        ticks = [it for it in found.iter(SVG + "path") if it.get("class", "").startswith("tick ") and len(it)]
        self.assertEqual(len(ticks), report.count(b"order "))
        for tick, line in zip(ticks, report.decode().split("order ")[1:]):
            fate = line.split()[3]
            self.assertEqual(tick.get("class"), "tick " + fate)
            self.assertEqual(tick.get("d").count("M"), len(LOOKS[fate].pieces))
            self.assertTrue(tick[0].text.endswith(", " + fate))
        self.assertEqual([ticks[at][0].text for at in (13, 16)], [
            "order 14: file 1, row 14, market sell of 10, id 14, filled",
            "order 17: file 1, row 17, cancel of id 11, cancelled"])
        self.picture(report)
        self.assertIn(">order 17: file 1, row 17, cancelled<", self.picture_text)
