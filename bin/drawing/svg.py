"""A picture of events as SVG: a lane for each caller, and the current-transaction word below."""
from html import escape

from .history import open_transaction
from .kinds import KINDS
from .rows import Item, Rows, Scale
from .trace import answer, sequence_of

FONT = "ui-monospace,Menlo,Consolas,'DejaVu Sans Mono',monospace"
LETTER = 6.03  # the width of a letter of this font
GUTTER, EDGE = 70, 16  # left and right of the rows
TOP, HEAD, BAR, LANE, BAND = 22, 13, 27, 49, 14  # heights
SCALE = Scale([18, 15, 12, 10, 8, 6, 5], 2400, 2, 200, LETTER)
BAND_TINTS = ["#cfe3ff", "#ffe2b8", "#d5f0cf", "#f3d3e6", "#dcd6f7", "#fbf0ae"]
BANDS = [("current", "current", "the current-transaction word"),
         ("durable", "durable current", "the durable current-transaction word")]
MOST_FINDINGS = 6  # lines of what recovery finds
STYLE = f"""svg text{{font:10px {FONT};fill:#333;paint-order:stroke;stroke:#fff;stroke-width:2.5px;
stroke-linejoin:round}}svg .e{{text-anchor:end}}svg .m{{text-anchor:middle}}svg .g{{fill:#666}}
svg .p{{stroke:none}}svg .b{{font-weight:bold}}svg .title{{font-size:12px;font-weight:bold}}
svg .raise{{fill:#37474f}}svg .helps{{fill:#7439bf;stroke:#7439bf}}
svg .end{{fill:#1b5e20}}svg .bad{{fill:#c00000}}"""


def clip(text, width, letter=LETTER):
    """The text, or as much of it as there is room for."""
    room = int(width / letter)
    return text if len(text) <= room else text[:room - 1] + "…" if room > 3 else ""


def number(value):
    """A number for SVG, to a tenth."""
    return f"{value:.1f}".removesuffix(".0")


def offset(event):
    """How far right of its place an event has its effect; None for the middle of its step."""
    if event.step == "exchange current":
        return 12
    return 7 if event.kind == "evict" else 2


def band_items(history, first):
    """What the words of the two bands need, from each change to the next."""
    for _, word, _ in BANDS:
        changed = [it for it in history.between(first) if it.word == word and it.changes]
        stops = [it.at for it in changed[1:]] + [history.stop]
        for event, stop in zip(changed, stops):
            width = LETTER * len(event.left) + 8 + offset(event)
            yield Item(event.at, stop, width + 12, event.at)


def items(history, first):
    """What needs room in the rows."""
    for bar in history.bars:
        more = 26 if bar.kind == "commit" else 9
        yield Item(bar.start, bar.stop, LETTER * len(bar.label) + more, bar.events[-1].at)
    for call in history.calls:
        letters = min(len(call.text), 16) + min(len(call.outcome), 22)
        yield Item(call.start, call.stop, LETTER * letters + 24, call.stop - 1)
    for event in history.between(first):
        if event.kind == "evict":
            yield Item(event.at, event.at + 1, 15, event.at)
    yield from band_items(history, first)


class Picture:
    """The events from `first` on, as lanes in rows."""

    def __init__(self, history, first, width, title=""):
        self.history, self.plan, self.first, self.full = history, history.plan, first, width
        self.title, self.head = title, 32 if title else 10
        self.events = history.between(first)
        self.evictions = [it for it in self.events if it.kind == "evict"]
        inner = width - GUTTER - EDGE
        self.rows = Rows(first, history.stop, items(history, first), inner, SCALE).rows
        self.lanes_end = TOP + LANE * self.plan.callers
        self.bands = self.lanes_end + (16 if self.evictions else 2)
        self.row_height = self.bands + 2 * BAND + 26
        self.out, self.late = [], []  # `late` is drawn over all else of a row

    # shapes

    def path(self, lines, more, title=""):
        self.out.append(f'<path d="{lines}" {more}' + ending("path", title))

    def rect(self, left, top, size, more, title=""):
        width, height = size
        place = f'x="{number(left)}" y="{number(top)}"'
        size = f'width="{number(max(width, .8))}" height="{number(height)}"'
        self.out.append(f"<rect {place} {size} {more}" + ending("rect", title))

    def text(self, left, base, text, classes=""):
        if text:
            place = f'x="{number(left)}" y="{number(base)}"'
            self.late.append(f'<text {place} class="{classes}">{escape(text)}</text>')

    def plate(self, left, top, width):
        """A white plate under a text, over what crosses it."""
        place = f'x="{number(left)}" y="{number(top)}" width="{number(width)}"'
        self.late.append(f'<rect {place} height="11" fill="#fff" opacity=".9"/>')

    # the whole

    def draw(self):
        for row, (top, _) in zip(self.rows, self.row_places()):
            self.out.append(f'<g transform="translate({GUTTER},{top})">')
            self.draw_row(row)
            self.out += [*self.late, "</g>"]
            self.late = []
        below = self.draw_findings(self.head + len(self.rows) * self.row_height)
        height = self.draw_legend(below)
        size = f'width="{self.full}" height="{height}"'
        begin = (f'<svg xmlns="http://www.w3.org/2000/svg" {size} '
                 f'viewBox="0 0 {self.full} {height}">\n<style>{self.style()}</style>\n'
                 f'<defs>{self.hatches()}</defs>\n<rect {size} fill="#fff"/>\n')
        if self.title:
            shown = escape(clip(self.title, self.full - 16, LETTER * 1.2))
            begin += f'<text x="8" y="18" class="title">{shown}</text>\n'
        return begin + "\n".join(self.out) + "\n</svg>\n"

    def row_places(self):
        """Where each row begins, and how high it is."""
        return [(self.head + place * self.row_height, self.row_height - 18)
                for place in range(len(self.rows))]

    def kinds(self):
        used = {bar.kind for bar in self.history.bars if bar.stop > self.first}
        return [name for name in KINDS if name in used]

    def style(self):
        kinds = [(name, KINDS[name]) for name in self.kinds()]
        return STYLE + "".join(
            f"\nsvg .{name}{{fill:{kind.colour};stroke:none}}svg text.{name}{{stroke:{kind.tint};"
            f"stroke-width:2.5px}}svg .{name}-tint{{fill:{kind.tint}}}" for name, kind in kinds)

    def hatches(self):
        square = 'width="6" height="6" patternUnits="userSpaceOnUse"'
        return "".join(
            f'<pattern id="{name}-hatch" {square}><path d="{KINDS[name].hatch}" fill="none" '
            f'stroke="{KINDS[name].colour}" stroke-width=".8" opacity=".55"/></pattern>'
            for name in self.kinds() if KINDS[name].hatch)

    # a row

    def draw_row(self, row):
        self.row, self.arrows = row, []
        self.text(-8, 12, f"event {row.first}" if row.first < 10000 else str(row.first), "e g")
        for caller in range(self.plan.callers):
            self.text(-8, TOP + caller * LANE + HEAD + 17, f"caller {caller}", "e b")
        shown = [bar for bar in self.history.bars if row.meets(bar.start, bar.stop)]
        for bar in shown:
            if bar.kind == "help" and row.has(bar.start):
                self.draw_arrow(bar)
        for bar in shown:
            self.draw_bar(bar)
        for call in self.history.calls:
            if row.meets(call.start, call.stop):
                self.draw_call(call)
        self.draw_evictions()
        for place in range(len(BANDS)):
            self.draw_band(place)
        for event in self.history.between(row.first, row.stop):
            if event.is_commit:
                self.draw_commit(event)
        if row is self.rows[-1] and self.history.ends_with_crash:
            self.draw_crash()

    def effect(self, event):
        """Where in the row an event has its effect."""
        return self.row.place(event.at) + offset(event)

    def draw_arrow(self, bar):
        """From the lane of the caller whose log is copied to the helper's bar."""
        left, is_down = self.row.place(bar.start) + 4, bar.caller > bar.owner
        begin = TOP + bar.owner * LANE + HEAD + (BAR + 2 if is_down else 0)
        end = TOP + bar.caller * LANE + HEAD + (0 if is_down else BAR)
        tip = 5 if is_down else -5
        place = number(left)
        self.path(f"M{place} {begin}V{end - tip}",
                  'class="helps" stroke-width="1.4" stroke-dasharray="3 2"')
        self.path(f"M{number(left - 3.5)} {end - tip}h7l-3.5 {tip}z", 'class="helps"')
        self.out.append(f'<circle cx="{place}" cy="{begin}" r="2.2" class="helps"/>')
        low, high = sorted((bar.caller, bar.owner))
        self.arrows.append((left, low + is_down, high))

    def draw_bar(self, bar):
        kind, top = KINDS[bar.kind], TOP + bar.caller * LANE + HEAD
        left, right = self.row.place(bar.start), self.row.place(bar.stop)
        steps = [it for it in bar.events if self.row.has(it.at)]
        self.rect(left + .4, top, (right - left - .8, BAR),
                  f'rx="2" class="{bar.kind}-tint"', bar_title(bar))
        if bar.kind == "commit":
            self.draw_exchange(bar, steps, top)
            return
        if kind.hatch:
            self.rect(left + .4, top + 13, (right - left - .8, BAR - 14),
                      f'fill="url(#{bar.kind}-hatch)" pointer-events="none"')
        self.draw_marks([it for it in steps if not it.is_raise], top + 14, 7, bar.kind)
        self.draw_marks([it for it in steps if it.is_raise], top + 21, 5, "raise")
        label = ("…" if bar.start < self.row.first else "") + bar.label
        if right - left >= len(label) * LETTER + 6:
            self.text(left + 4, top + 10.5, label, bar.kind)

    def draw_exchange(self, bar, steps, top):
        """The exchange of the current-transaction word: full if it is won, hollow if it is lost."""
        for event in steps:
            look = 'fill="#fff"' if event.is_lost else f'fill="{KINDS["commit"].colour}"'
            place = number(self.effect(event) - 6.5)
            self.path(f"M{place} {top + 13.5}l6.5 -6.5l6.5 6.5l-6.5 6.5z",
                      f'{look} stroke="{KINDS["commit"].colour}" stroke-width="1.6"', event.line)
            self.text(self.row.place(event.at) + 22, top + 17, bar.label, "p " + bar.kind)

    def draw_marks(self, steps, top, height, kind):
        """A mark for each step; if they are too narrow, one for all that touch."""
        spans = []
        for event in steps:
            left, right = self.row.place(event.at), self.row.place(event.at + 1)
            if event.is_lost:
                self.rect(left + 1.1, top + .5, (max(right - left - 2.2, 1.5), height - 1),
                          f'style="fill:#fff;stroke:{KINDS[event.kind].colour}"')
            elif right - left >= 3:
                spans.append([left + .6, right - .6])
            elif spans and left - spans[-1][1] < 1.3:
                spans[-1][1] = right
            else:
                spans.append([left, right])
        shapes = [f"M{number(left)} {top}h{number(right - left)}v{height}H{number(left)}z"
                  for left, right in spans]
        if shapes:
            self.path("".join(shapes), f'class="{kind}"')

    def draw_call(self, call):
        """The script and the reply over the bars, and a line below them while the call is open."""
        top, ends = TOP + call.caller * LANE, call.stop <= self.row.stop
        left, right = self.row.place(call.start), self.row.place(call.stop)
        line = top + HEAD + BAR + 2.5
        outcome = clip(call.outcome, right - left - 10) if ends else ""
        title = f"caller {call.caller}, script {call.text}" + (f"\n{call.outcome}" if ends else "")
        dashes = "" if call.is_answered else ' stroke-dasharray="2 2"'
        self.path(f"M{number(left)} {line}H{number(right)}", f'stroke="#888"{dashes}', title)
        if ends and call.is_answered:
            self.path(f"M{number(right - 1)} {top + HEAD - 1}v{BAR + 4}",
                      'stroke="#1b5e20" stroke-width="2"', title)
        text = ("…" if call.start < self.row.first else "") + call.text
        place = self.right_of_arrows(call, left, right, len(text) + len(outcome))
        text = clip(text, right - place - len(outcome) * LETTER - 14)
        for at, shown in (place, text), (right - 6 - LETTER * len(outcome), outcome):
            if shown:
                self.plate(at, top + 1, LETTER * len(shown) + 2)
        self.text(place + 1, top + 9.5, text, "g")
        self.text(right - 5, top + 9.5, outcome, "e end" if call.is_answered else "e bad")

    def right_of_arrows(self, call, left, right, letters):
        """Where a call's text begins: right of an arrow that would go through it."""
        place, wide = left, LETTER * letters
        for at, low, high in sorted(self.arrows):
            crosses = low <= call.caller <= high and place - 2 < at < place + wide + 4
            if crosses and at + wide + 20 < right:
                place = at + 6
        return place

    def draw_evictions(self):
        if self.evictions:
            self.text(-8, self.lanes_end + 9, "evict", "e g")
        for event in self.evictions:
            if self.row.has(event.at):
                fill = "#455a64" if event.changes else "#fff"
                self.path(f"M{number(self.effect(event) - 4.5)} {self.lanes_end + 1}h9l-4.5 8.5z",
                          f'fill="{fill}" stroke="#455a64"', event.line)

    def draw_band(self, place):
        """A word as a band, tinted by its sequence."""
        label, word, title = BANDS[place]
        top, left = self.bands + place * (BAND + 2), 0
        self.text(-8, top + 10.5, label, "e g")
        value = self.history.words(self.row.first).get(word, "(0,0)")
        changes = [(it.left, self.effect(it)) for it in
                   self.history.between(self.row.first, self.row.stop)
                   if it.word == word and it.changes]
        for after, right in [*changes, ("", self.row.width)]:
            sequence = sequence_of(value)
            tint = BAND_TINTS[sequence % len(BAND_TINTS)] if sequence else "#e7e7e7"
            self.rect(left, top, (right - left, BAND), f'fill="{tint}"', f"{title}: {value}")
            if left:
                self.path(f"M{number(left)} {top}v{BAND}", 'stroke="#555"')
            self.text(left + 4, top + 10.5, clip(value, right - left - 5), "p")
            value, left = after, right

    def draw_commit(self, event):
        """A line across all lanes; dashed and hollow if the crash loses the transaction."""
        sequence, place, is_lost = event.sequence, self.effect(event), not self.is_kept(event)
        batch = ", ".join(f"{it.caller}.{it.index}" for it in self.history.report.batch(sequence))
        title = f"transaction {sequence}, committed by caller {event.caller}"
        title += "; the crash loses it" if is_lost else f": calls {batch}"
        colour, wide = KINDS["commit"].colour, LETTER * len(str(sequence)) + 12
        dashes = ' stroke-dasharray="4 3"' if is_lost else ""
        self.path(f"M{number(place)} 16V{self.bands}",
                  f'stroke="{colour}" stroke-width="1.3" opacity=".6"{dashes}', title)
        fill = "#fff" if is_lost else colour
        self.rect(place - wide / 2, 1, (wide, 15),
                  f'rx="7.5" stroke="{colour}" fill="{fill}"{dashes}', title)
        self.late.append(f'<text x="{number(place)}" y="12" class="m p b" '
                         f'style="fill:{colour if is_lost else "#fff"}">{sequence}</text>')

    def is_kept(self, event):
        """Whether recovery finds the transaction of a commit."""
        return event.sequence <= self.history.report.seq

    def draw_crash(self):
        bolts = (self.bands + 2 * BAND) // 8
        lines = "".join(f"l{4 if place % 2 else -4} 8" for place in range(bolts))
        self.path(f"M{number(self.row.width + 6)} 2{lines}",
                  'fill="none" stroke="#c00000" stroke-width="2"', "the schedule ends: a crash")
        self.text(self.row.width + 10, self.row_height - 12, "crash", "e b bad")

    # below the rows

    def draw_findings(self, top):
        """What recovery finds after the crash, as lines of words."""
        if not self.history.ends_with_crash:
            return top
        lines, room = [""], int((self.full - 16) / LETTER)
        for phrase in findings(self.history):
            if len(lines[-1]) + len(phrase) > room:
                lines.append("    ")
            lines[-1] += clip(phrase, (room - 4) * LETTER) + "  "
        if len(lines) > MOST_FINDINGS:
            lines = [*lines[:MOST_FINDINGS - 1], "    .."]
        for line in lines:
            indent = len(line) - len(line.lstrip())
            self.text(8 + LETTER * indent, top + 6, line.strip())
            top += 15
        return top + 4

    def draw_legend(self, top):
        used = [(name, KINDS[name].meaning) for name in self.kinds()]
        used.append(("raise", "write back: raise a durable word"))
        if any(it.is_lost for it in self.events):
            used.append(("lost", "hollow: a lost exchange"))
        if any(it.is_commit and not self.is_kept(it) for it in self.events):
            used.append(("gone", "dashed: the crash loses it"))
        if self.evictions:
            used.append(("evict", "an eviction (hollow: changes nothing)"))
        used.append(("", "current: the last committed; durable: the last that a crash keeps"))
        left = 8
        for name, meaning in used:
            width = len(meaning) * LETTER + 40
            if left + width > self.full and left > 8:
                left, top = 8, top + 17
            self.draw_sample(name, left, top)
            self.text(left + (24 if name else 0), top + 9, meaning, "g")
            left += width
        self.out += self.late
        return top + 22

    def draw_sample(self, name, left, top):
        """What stands for a kind in the legend."""
        if name == "evict":
            self.path(f"M{left + 5} {top + 1}h9l-4.5 8.5z", 'fill="#455a64"')
        elif name in ("lost", "commit"):
            fill = "#fff" if name == "lost" else KINDS["commit"].colour
            self.path(f"M{left + 4} {top + 5}l5 -5l5 5l-5 5z",
                      f'fill="{fill}" stroke="{KINDS["commit"].colour}" stroke-width="1.4"')
        elif name == "gone":
            self.path(f"M{left} {top + 5}h20", f'stroke="{KINDS["commit"].colour}" '
                      'stroke-width="1.3" stroke-dasharray="4 3"')
        elif name == "raise":
            self.rect(left + 4, top + 3, (12, 5), 'class="raise"')
        elif name:
            self.rect(left, top - 1, (20, 12), f'class="{name}-tint"')
            if KINDS[name].hatch:
                self.rect(left, top - 1, (20, 12), f'fill="url(#{name}-hatch)"')
            self.rect(left + 5, top + 2, (8, 6), f'class="{name}"')


def ending(tag, title):
    return f"><title>{escape(title)}</title></{tag}>" if title else "/>"


def bar_title(bar):
    """The steps of a bar, or its first and last ones."""
    lines = [it.line for it in bar.events]
    if len(lines) > 8:
        lines = [*lines[:4], f".. {len(lines) - 6} more ..", *lines[-2:]]
    return "\n".join(lines)


def findings(history):
    """What `recover` prints of the image that the crash leaves, as phrases."""
    printed = answer(answer(history.plan.cut(history.stop), "image"), "recover")
    sequence, owner = open_transaction(history.words(history.stop))
    lines = [line.split() for line in printed.splitlines()[1:-1]]
    yield f"Recovery finds sequence {lines[0][1]}:"
    yield (f"transaction {sequence} is open, so it is finished from the log of caller {owner};"
           if sequence else "no transaction is open;")
    named = [f"{name} {'of caller ' * (name == 'ticket')}{which}: {' '.join(values)}"
             for name, which, *values in lines[1:]]
    yield from [f"{it};" for it in named[:-1]]
    yield named[-1] + "." if named else "the store is empty."
