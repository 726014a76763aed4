"""Rows of events, as music is written: each row has the next events, in all lanes.

Events are not equally wide. Columns lie between the events at which something begins or ends; what
is narrower than its text makes the columns under it wider.
"""
import bisect
import typing


class Item(typing.NamedTuple):
    """What needs room from one event to another, in the row that has the event `shown`."""

    start: int
    stop: int
    width: float
    shown: int


class Row:
    """The events from `first` to `stop`, and the place where each begins."""

    def __init__(self, marks):
        self.marks = marks
        self.first, self.stop, self.width = marks[0][0], marks[-1][0], marks[-1][1]

    def place(self, at):
        """Where an event begins; an event of another row is at the edge."""
        at = min(max(at, self.first), self.stop)
        right = bisect.bisect_right(self.marks, at, 1, len(self.marks) - 1, key=lambda it: it[0])
        (low, low_place), (high, high_place) = self.marks[right - 1], self.marks[right]
        return low_place + (high_place - low_place) * (at - low) / (high - low)

    def has(self, at):
        return self.first <= at < self.stop

    def meets(self, start, stop):
        return start < self.stop and stop > self.first


class Rows:
    """Lays events out in as few rows as it can, and then as widely as these rows allow."""

    def __init__(self, first, stop, items, width, scale):
        self.width, self.scale = width, scale
        self.items = [it for it in items if it.stop > first and it.start < stop]
        self.cuts = sorted({first, stop} | {
            min(max(at, first), stop) for item in self.items for at in item[:2]})
        self.ending = {}
        for item in self.items:
            self.ending.setdefault(item.stop, []).append(item)
        least = min(scale.units[-1], scale.most / (stop - first))
        fewest = len(self.laid(least))
        tries = (self.laid(unit) for unit in [*scale.units, least])
        self.rows = [Row(marks) for marks in next(it for it in tries if len(it) <= fewest)]

    def laid(self, unit):
        """The rows as lists of events and places, if an event is this wide."""
        rows, row = [], [(self.cuts[0], 0.0)]
        for start, stop in zip(self.cuts, self.cuts[1:]):
            wider = self.with_column(row, stop, unit)
            if wider[-1][1] > self.width and len(row) > 1:
                rows.append(scaled(row, self.width / row[-1][1]))
                wider = self.with_column([(start, 0.0)], stop, unit)
            row = wider
        grow = self.width / row[-1][1]
        fills = grow < 1 or grow < 2.2 and not rows
        return rows + [scaled(row, grow if fills else 1)]

    def with_column(self, row, stop, unit):
        """The row with one more column, and then all that ends there as wide as it needs."""
        last, place = row[-1]
        wide = min(unit * (stop - last), self.scale.widest)
        row = [*row, (stop, place + max(self.scale.narrowest, wide))]
        for item in self.ending.get(stop, []):
            left = next(place for at, place in row if at >= item.start)
            now = row[-1][1] - left
            wanted = item.width + self.scale.letter * (item.start < row[0][0])
            if now < wanted and item.shown >= row[0][0]:
                row = [(at, place if place <= left else left + (place - left) * wanted / now)
                       for at, place in row]
        return row


class Scale(typing.NamedTuple):
    """How wide events may be: the widths that are tried, and what all of them may take at least."""

    units: list
    most: float
    narrowest: float
    widest: float
    letter: float


def scaled(row, factor):
    return [(at, place * factor) for at, place in row]
