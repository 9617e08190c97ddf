"""A plot of lines, as SVG."""

import math
from xml.sax.saxutils import escape

WIDTH, HEIGHT = 800, 500
LEFT, RIGHT, TOP, BOTTOM = 80, 30, 50, 70
COLOURS = ["#0060a8", "#c44e00", "#3a7d34"]
MARKERS = ['<circle cx="{x:.1f}" cy="{y:.1f}" r="4" {style}/>',
           '<rect x="{l:.1f}" y="{t:.1f}" width="8" height="8" {style}/>',
           '<path d="M {x:.1f} {t:.1f} l 5 9 h -10 z" {style}/>']


def text(x, y, content, anchor="middle", more=""):
    return '<text x="%.1f" y="%.1f" text-anchor="%s" %s>%s</text>' % (x, y, anchor, more, escape(content))


def line(x1, y1, x2, y2, colour):
    return '<line x1="%.1f" y1="%.1f" x2="%.1f" y2="%.1f" stroke="%s"/>' % (x1, y1, x2, y2, colour)


def marker(kind, x, y):
    return MARKERS[kind].format(x=x, y=y, l=x - 4, t=y - 4, style='fill="%s"' % COLOURS[kind])


def step_of(most):
    """The distance of the ticks from 0 to `most`: 1, 2 or 5 times a power of ten, at most ten of them."""
    power = 10 ** math.floor(math.log10(most / 10))
    return next(power * factor for factor in (1, 2, 5, 10) if most <= 10 * power * factor)


class Axes:
    """Both axes begin at 0 and end at a tick."""

    def __init__(self, most_x, step_x, most_y):
        self.step_x, self.step_y = step_x, step_of(most_y)
        self.end_x, self.end_y = (math.ceil(most / step) * step for most, step in ((most_x, step_x), (most_y, self.step_y)))

    def x(self, value):
        return LEFT + (WIDTH - LEFT - RIGHT) * value / self.end_x

    def y(self, value):
        return HEIGHT - BOTTOM - (HEIGHT - TOP - BOTTOM) * value / self.end_y

    def drawn(self, label_x, label_y):
        for at in range(round(self.end_x / self.step_x) + 1):
            x = self.x(at * self.step_x)
            yield line(x, TOP, x, HEIGHT - BOTTOM, "#dddddd")
            yield text(x, HEIGHT - BOTTOM + 20, "{:,}".format(at * self.step_x))
        for at in range(round(self.end_y / self.step_y) + 1):
            y = self.y(at * self.step_y)
            yield line(LEFT, y, WIDTH - RIGHT, y, "#dddddd")
            yield text(LEFT - 8, y + 5, "%g" % (at * self.step_y), "end")
        yield line(LEFT, TOP, LEFT, HEIGHT - BOTTOM, "black")
        yield line(LEFT, HEIGHT - BOTTOM, WIDTH - RIGHT, HEIGHT - BOTTOM, "black")
        yield text((LEFT + WIDTH - RIGHT) / 2, HEIGHT - 20, label_x)
        middle = (TOP + HEIGHT - BOTTOM) / 2
        yield text(22, middle, label_y, more='transform="rotate(-90 22 %.1f)"' % middle)


def curve(axes, kind, points):
    places = [(axes.x(x), axes.y(y)) for x, y in points]
    joined = " ".join("%.1f,%.1f" % place for place in places)
    yield '<polyline points="%s" fill="none" stroke="%s" stroke-width="2"/>' % (joined, COLOURS[kind])
    yield from (marker(kind, *place) for place in places)


def legend(names):
    """The names with their marks, in the corner that growing lines leave free."""
    yield '<rect x="%d" y="%d" width="310" height="%d" fill="white" stroke="#999999"/>' % (LEFT + 15, TOP + 15, 12 + 24 * len(names))
    for kind, name in enumerate(names):
        y = TOP + 33 + 24 * kind
        yield line(LEFT + 25, y, LEFT + 55, y, COLOURS[kind])
        yield marker(kind, LEFT + 40, y)
        yield text(LEFT + 65, y + 5, name, "start")


def svg(title, label_x, label_y, step_x, lines):
    """A plot of at most three lines: a name and points each."""
    points = [point for _, found in lines for point in found]
    axes = Axes(max(x for x, _ in points), step_x, max(y for _, y in points))
    parts = ['<svg xmlns="http://www.w3.org/2000/svg" width="%d" height="%d" viewBox="0 0 %d %d" font-family="sans-serif" font-size="14">'
             % (WIDTH, HEIGHT, WIDTH, HEIGHT), '<rect width="100%" height="100%" fill="white"/>',
             text(WIDTH / 2, 28, title, more='font-size="17"')]
    parts.extend(axes.drawn(label_x, label_y))
    for kind, (_, found) in enumerate(lines):
        parts.extend(curve(axes, kind, found))
    parts.extend(legend([name for name, _ in lines]))
    return "\n".join(parts + ["</svg>"]) + "\n"
