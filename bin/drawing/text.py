"""Lanes in characters, for a terminal."""
import os
import sys
import textwrap

from .rows import Item, Rows, Scale
from .svg import BANDS, clip, findings

GUTTER = 11
SCALE = Scale([2, 1, .75, .5, .25], 260, .3, 30, 1)
WIDTH = 80  # if the text doesn't go to a terminal
BLANK = " .-_"  # what a line of a commit or a help may cross
KEY = """In a bar: = a step, ~ a write-back, x a lost exchange, . a pause
(S) transaction S is committed, (S)? and the crash loses it
> and : lead from the owner of a log to the helper that copies it
v an eviction, o an eviction that changes nothing
"""


def items(history, first):
    """What needs room in the rows, in characters."""
    for bar in history.bars:
        yield Item(bar.start, bar.stop, len(bar.label) + 4, bar.events[-1].at)
    for call in history.calls:
        letters = min(len(call.text), 16) + min(len(call.outcome), 22)
        yield Item(call.start, call.stop, letters + 4, call.stop - 1)
    for event in history.between(first):
        if event.kind == "evict":
            yield Item(event.at, event.at + 1, 2, event.at)
    for _, word in [band[:2] for band in BANDS]:
        changed = [it for it in history.between(first) if it.word == word and it.changes]
        for event, stop in zip(changed, [it.at for it in changed[1:]] + [history.stop]):
            yield Item(event.at, stop, len(event.left) + 4, event.at)


class Line:
    """A line of the text; what is written last is seen."""

    def __init__(self, label, width):
        self.label, self.letters = label, [" "] * (width + 2)

    def write(self, place, text):
        for at, letter in enumerate(text, place):
            if 0 <= at < len(self.letters):
                self.letters[at] = letter

    def cross(self, place, letter):
        """Writes a letter, unless it would hide another one."""
        if self.letters[place] in BLANK:
            self.letters[place] = letter

    def __str__(self):
        return f"{self.label:<{GUTTER}}{''.join(self.letters)}".rstrip()


class Lines:
    """The events from `first` on, as lanes in rows of lines."""

    def __init__(self, history, first):
        self.history, self.callers = history, history.plan.callers
        self.full = os.get_terminal_size().columns if sys.stdout.isatty() else WIDTH
        self.width = max(self.full - GUTTER - 2, 40)
        self.evictions = [it for it in history.between(first) if it.kind == "evict"]
        self.rows = Rows(first, history.stop, items(history, first), self.width, SCALE).rows

    def draw(self, title):
        texts = [*textwrap.wrap(title, self.full), ""]
        for row in self.rows:
            texts += [*map(str, self.row_lines(row)), ""]
        if self.history.ends_with_crash:
            texts += wrapped(findings(self.history), self.full) + [""]
        return "\n".join([*texts, KEY])

    def place(self, at):
        return int(self.row.place(at) + .001)

    def row_lines(self, row):
        self.row = row
        self.head = Line(f"event {row.first}", self.width)
        self.texts = [Line("", self.width) for _ in range(self.callers)]
        self.lanes = [Line(f"caller {caller}", self.width) for caller in range(self.callers)]
        for call in self.history.calls:
            if row.meets(call.start, call.stop):
                self.write_call(call)
        shown = [bar for bar in self.history.bars if row.meets(bar.start, bar.stop)]
        for bar in shown:
            self.write_bar(bar)
        below = [self.eviction_line()] * bool(self.evictions) + list(map(self.band_line, BANDS))
        for bar in shown:
            if bar.kind == "help" and row.has(bar.start):
                self.write_arrow(bar)
        lanes = [line for pair in zip(self.texts, self.lanes) for line in pair]
        for event in self.history.between(row.first, row.stop):
            if event.is_commit:
                self.write_commit(event, lanes)
        if row is self.rows[-1] and self.history.ends_with_crash:
            for line in [self.head, *lanes, *below]:
                line.write(self.place(row.stop), "!")
            self.head.write(self.place(row.stop) - 5, "crash!")
        return [self.head, *lanes, *below]

    def write_call(self, call):
        left, right = self.place(call.start), self.place(call.stop)
        line, lane = self.texts[call.caller], self.lanes[call.caller]
        lane.write(left, "_" * (right - left))
        outcome = clip(call.outcome, right - left - 2, 1) if call.stop <= self.row.stop else ""
        text = ("…" if call.start < self.row.first else "") + call.text
        line.write(left, clip(text, right - left - len(outcome) - 2, 1))
        line.write(right - len(outcome) - 1, outcome)

    def write_bar(self, bar):
        """`[label marks]`, with a mark for each column in which the bar has steps."""
        left, right = self.place(bar.start), self.place(bar.stop)
        inner = right - left - 2
        lane = self.lanes[bar.caller]
        if inner < 1:
            lane.write(left, bar.label[:max(1, right - left)])
            return
        label = ("…" if bar.start < self.row.first else "") + bar.label
        lane.write(left, "[" + "." * inner + "]")
        for event in bar.events:
            if self.row.has(event.at):
                self.write_mark(lane, event, left + 1, right - 2)
        shown = label if len(label) <= inner else bar.label[:inner]
        lane.write(left + 1, shown + " " * (len(shown) < inner))

    def write_mark(self, lane, event, low, high):
        """The marks of a step; a lost exchange hides a step, and a step hides a write-back."""
        mark = "x" if event.is_lost else "~" if event.is_raise else "="
        begin = self.place(event.at)
        for at in range(begin, max(self.place(event.at + 1), begin + 1)):
            at = min(max(at, low), high)
            if ".~=x".index(lane.letters[at]) < ".~=x".index(mark):
                lane.letters[at] = mark

    def write_arrow(self, bar):
        """From the lane of the owner to that of the helper, at the beginning of its bar."""
        place = self.place(bar.start)
        low, high = sorted((2 * bar.owner + 1, 2 * bar.caller + 1))
        lines = [line for pair in zip(self.texts, self.lanes) for line in pair]
        for line in lines[low + 1:high]:
            line.cross(place, ":")
        lines[2 * bar.owner + 1].cross(place, ">")

    def write_commit(self, event, lanes):
        place, sequence = self.place(event.at), event.sequence
        is_lost = sequence > self.history.report.seq
        self.head.write(max(place - 1, 0), f"({sequence})" + "?" * is_lost)
        for line in lanes:
            line.cross(place, "|")

    def eviction_line(self):
        line = Line("evict", self.width)
        for event in self.evictions:
            if self.row.has(event.at):
                line.write(self.place(event.at), "v" if event.changes else "o")
        return line

    def band_line(self, band):
        label, word, _ = band
        line = Line(label, self.width)
        line.write(0, self.history.words(self.row.first).get(word, "(0,0)"))
        for event in self.history.between(self.row.first, self.row.stop):
            if event.word == word and event.changes:
                line.write(self.place(event.at), " " * self.width)
                line.write(self.place(event.at), "|" + event.left)
        return line


def wrapped(phrases, width):
    """Phrases as lines of at most this many characters."""
    lines = [""]
    for phrase in phrases:
        if lines[-1] and len(lines[-1]) + 1 + len(phrase) > width:
            lines.append("   ")
        lines[-1] += (" " if lines[-1] else "") + phrase
    return lines
