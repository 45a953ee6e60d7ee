"""Elements of a picture in SVG, legends, and round numbers for axes."""

STYLE = "text{font:13px sans-serif;fill:#222}.title{font-size:17px;font-weight:bold}.back{fill:#fff}" \
    ".end{text-anchor:end}.mid{text-anchor:middle}.axis{stroke:#444}.grid{stroke:#ddd}.lane{fill:#f3f3f3}" \
    "rect{shape-rendering:crispEdges}.fill{fill:#5b2a86}circle{fill-opacity:.5;stroke:#fff;stroke-width:.8}" \
    ".under,.bid,.ask{fill:none;stroke:#fff;stroke-width:3}.bid,.ask{stroke-width:1.5}.bid{stroke:#1f6fc0}" \
    ".ask{stroke:#b35900;stroke-dasharray:5 2}"
LETTER = 8  # how wide a letter is at most, more or less


def page(width, height, title, style, parts):
    """The whole picture, with a style for its marks besides that of all pictures."""
    head = '<svg xmlns="http://www.w3.org/2000/svg" width="%d" height="%d" viewBox="0 0 %d %d">' % (
        width, height, width, height)
    told = "<title>%s</title>\n<style>%s</style>" % (title, STYLE + style)
    return "\n".join([head, told, bar(0, 0, width, height, "back")] + parts + ["</svg>"])


def drawn(tag, kind="", inside="", **numbers):
    """One element of the picture."""
    numbers = "".join(' %s="%.2f"' % (name.replace("_", "-"), number) for name, number in numbers.items())
    return '<%s class="%s"%s>%s</%s>' % (tag, kind, numbers, inside, tag)


def hover(words):
    """The text of an element on hover."""
    return "<title>%s</title>" % words if words else ""


def text(x, y, words, kind=""):
    return drawn("text", kind, words, x=x, y=y)


def upwards(x, y, words):
    """A text along a vertical axis."""
    return '<g transform="rotate(-90 %.1f %.1f)">%s</g>' % (x, y, text(x, y, words, "mid"))


def line(x, y, to_x, to_y, kind):
    return drawn("line", kind, x1=x, y1=y, x2=to_x, y2=to_y)


def bar(x, y, width, height, kind, told=""):
    return drawn("rect", kind, hover(told), x=x, y=y, width=width, height=height)


def cell(x, y, size, shade, told=""):
    """A square that is the darker the nearer its shade is to 1."""
    return drawn("rect", "fill", hover(told), x=x, y=y, width=size, height=size, fill_opacity=shade)


def circle(x, y, radius, told=""):
    return drawn("circle", "fill", hover(told), cx=x, cy=y, r=radius)


def stairs(points, right, kind):
    """A line that keeps the height of each point until the next one, and is broken where there is no height."""
    moves, last = [], None
    for x, y in points + [(right, None)]:
        if last is not None:
            moves.append("H%.1f" % x)
        if y is not None and y != last:
            moves.append("M%.1f %.1f" % (x, y) if last is None else "V%.1f" % y)
        last = y
    return '<path class="%s" d="%s"/>' % (kind, "".join(moves))


def legend(items, left, right, y):
    """Marks with their words in rows from left to right: how each mark is drawn at x and y, and its words."""
    parts, x = [], left
    for mark, words in items:
        wide = 20 + LETTER * len(words) + 14
        if x > left and x + wide > right:
            x, y = left, y + 19
        parts += [mark(x, y), text(x + 20, y, words)]
        x += wide
    return parts


def many(number, word):
    """A number of things, in words."""
    return "%s %s%s" % (format(number, ","), word, "" if number == 1 else "s")


def marks(low, high, most):
    """Some round numbers from low to high, at most so many."""
    step = 1
    while high // step - (low - 1) // step > most:
        step = step * 5 // 2 if str(step)[0] == "2" else step * 2
    return [mark * step for mark in range(-(-low // step), high // step + 1)]
