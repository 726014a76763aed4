"""Line charts as SVG, in the style of docs/pictures. Lines differ by dashes and marks, and have
their names beside them, so a chart can be read in grey."""
import math
import typing
from html import escape

FONT = "ui-monospace,Menlo,Consolas,'DejaVu Sans Mono',monospace"
LETTER = 6.03  # the width of a letter of this font
STYLE = f"""svg text{{font:10px {FONT};fill:#333;paint-order:stroke;stroke:#fff;stroke-width:2.5px;
stroke-linejoin:round}}svg .e{{text-anchor:end}}svg .m{{text-anchor:middle}}svg .g{{fill:#666}}
svg .title{{font-size:12px;font-weight:bold}}svg .rule{{stroke:#ddd}}svg .axis{{stroke:#999}}"""
# The colour, the dashes and the mark of each line, in their order.
LINES = [("#111111", "", "disc"), ("#2f6ccb", "6 3", "square"), ("#96491c", "2 2", "triangle"),
         ("#217a30", "9 2 2 2", "diamond")]
LEFT, TOP, BOTTOM = 64, 44, 44  # beside the plot
HEIGHT = 320
NAME = 13  # the height of a name beside a line


class Line(typing.NamedTuple):
    """A name, and for each place of the axis the value, with the least and the greatest."""

    name: str
    values: list


class Panel(typing.NamedTuple):
    """A chart: its title, what the axis counts, its places, and the lines; a logarithmic one may
    have values that its axis must show too."""

    title: str
    along: str
    places: list
    lines: list
    is_log: bool = False
    also: tuple = ()


def number(value):
    return f"{value:.1f}".removesuffix(".0")


def ticks(low, high, is_log):
    """Round numbers from one below the least value to one above the greatest."""
    if is_log:
        steps = [it * 10**power for power in range(-6, 12) for it in (1, 2, 5)]
        first = max(it for it in steps if it <= low)
        last = min(it for it in steps if it >= high)
        return [it for it in steps if first <= it <= last]
    rough = max(high, 1e-9) / 5
    power = 10 ** math.floor(math.log10(rough))
    step = next(it * power for it in (1, 2, 2.5, 5, 10) if it * power >= rough)
    return [step * it for it in range(math.ceil(high / step - 1e-9) + 1)]


def apart(wanted, least, most):
    """Places for names near the wanted ones, each with room for itself."""
    order = sorted(range(len(wanted)), key=lambda it: wanted[it])
    found, last = {}, least - NAME
    for it in order:
        last = found[it] = max(wanted[it], last + NAME)
    below = most + NAME
    for it in reversed(order):
        below = found[it] = min(found[it], below - NAME)
    return [found[it] for it in range(len(wanted))]


def mark(kind, x, y, colour):
    """A mark of a line: full or hollow, and of a shape of its own."""
    x, y = round(x, 1), round(y, 1)
    if kind == "disc":
        return f'<circle cx="{x}" cy="{y}" r="3.5" fill="{colour}"/>'
    shape = {"square": f"M{x - 3.5:.1f} {y - 3.5:.1f}h7v7h-7z",
             "triangle": f"M{x} {y - 4.5:.1f}l4.5 8h-9z",
             "diamond": f"M{x} {y - 5:.1f}l5 5l-5 5l-5 -5z"}[kind]
    inside = colour if kind == "triangle" else "#fff"
    return f'<path d="{shape}" fill="{inside}" stroke="{colour}" stroke-width="1.4"/>'


class Drawn:
    """A panel, drawn with its left edge at `left`."""

    def __init__(self, panel, left, width):
        self.panel, self.out = panel, []
        every = [it for line in panel.lines for value in line.values for it in value]
        every += panel.also
        # A logarithmic axis has no 0.
        low = min((it for it in every if it > 0), default=1)
        self.ticks = ticks(low, max(*every, low), panel.is_log)
        names = LETTER * max(len(line.name) for line in panel.lines) + 18
        self.left, self.right = left + LEFT, left + width - names
        self.edge = left

    def x(self, at):
        count = len(self.panel.places)
        return self.left + (self.right - self.left) * (at + 0.5) / count

    def y(self, value):
        low, high = self.ticks[0], self.ticks[-1]
        if self.panel.is_log:
            value, low, high = (math.log(it) for it in (max(value, low), low, high))
        part = (value - low) / (high - low)
        return HEIGHT - BOTTOM - part * (HEIGHT - BOTTOM - TOP)

    def text(self, x, y, text, classes=""):
        place = f'x="{number(x)}" y="{number(y)}"'
        self.out.append(f'<text {place} class="{classes}">{escape(text)}</text>')

    def path(self, lines, more):
        self.out.append(f'<path d="{lines}" fill="none" {more}/>')

    def draw(self):
        self.text(self.edge + 8, 18, self.panel.title, "title")
        for tick in self.ticks:
            y = self.y(tick)
            self.path(f"M{number(self.left)} {number(y)}H{number(self.right)}", 'class="rule"')
            self.text(self.left - 6, y + 3.5, f"{tick:,.10g}", "e g")
        base = number(HEIGHT - BOTTOM)
        self.path(f"M{number(self.left)} {base}H{number(self.right)}", 'class="axis"')
        for at, place in enumerate(self.panel.places):
            self.text(self.x(at), HEIGHT - BOTTOM + 16, str(place), "m")
        self.text((self.left + self.right) / 2, HEIGHT - BOTTOM + 32, self.panel.along, "m g")
        for line, style in zip(self.panel.lines, LINES):
            self.draw_line(line, *style)
        self.draw_names()
        return self.out

    def draw_line(self, line, colour, dashes, kind):
        points = [(self.x(at), self.y(value[0])) for at, value in enumerate(line.values)]
        lines = "M" + "L".join(f"{number(x)} {number(y)}" for x, y in points)
        dashed = f'stroke-dasharray="{dashes}" ' if dashes else ""
        self.path(lines, f'stroke="{colour}" stroke-width="1.6" {dashed}')
        for (x, y), (_, low, high) in zip(points, line.values):
            ends = f"M{number(x)} {number(self.y(low))}V{number(self.y(high))}"
            self.path(ends, f'stroke="{colour}" stroke-width="1"')
            self.out.append(mark(kind, x, y, colour))

    def draw_names(self):
        ends = [self.y(line.values[-1][0]) + 3.5 for line in self.panel.lines]
        places = apart(ends, TOP, HEIGHT - BOTTOM)
        x = self.x(len(self.panel.places) - 1)
        for line, style, end, place in zip(self.panel.lines, LINES, ends, places):
            leader = f"M{number(x + 6)} {number(end - 3.5)}L{number(self.right + 9)} "
            leader += number(place - 3.5)
            self.path(leader, f'stroke="{style[0]}" stroke-width=".6"')
            self.text(self.right + 13, place, line.name)


def draw(panels, width):
    """Panels beside each other."""
    each = width / len(panels)
    out = [line for at, it in enumerate(panels) for line in Drawn(it, at * each, each).draw()]
    size = f'width="{width}" height="{HEIGHT}"'
    head = f'<svg xmlns="http://www.w3.org/2000/svg" {size} viewBox="0 0 {width} {HEIGHT}">'
    body = [head, f"<style>{STYLE}</style>", f'<rect {size} fill="#fff"/>', *out, "</svg>"]
    return "\n".join([*body, ""])
