"""Reports, and what recovery finds in an image."""
import collections
import re
import typing

NUMBER = "(0|[1-9][0-9]*)"
IMAGE = re.compile(
    rf"onefile image 2\ncallers {NUMBER}\nblocks {NUMBER}\n"
    rf"(?:cell {NUMBER} {NUMBER} {NUMBER}\n)*end\n"
)


class Bad(Exception):
    """A text that isn't spelled as it should be."""


class Entry(typing.NamedTuple):
    """An entry of a history; `announced` if its kind is `run`, `reply` has the words."""

    seq: int
    caller: int
    index: int
    announced: bool
    reply: list

    def line(self):
        kind = "run" if self.announced else "read"
        return " ".join(["entry", *map(str, self[:3]), kind, *self.reply])


class Line(typing.NamedTuple):
    """A caller's line: how it ended, its answered calls and entries, the steps of its longest."""

    state: str
    answered: int
    entries: int
    longest: int


class Report:
    """A report, as it is printed."""

    def __init__(self, text):
        self.entries, self.callers, self.seq, self.store = [], [], None, []
        try:
            for line in text.split("\n")[1:-2]:
                self.add(*line.split(" "))
        except (ValueError, IndexError, TypeError) as error:
            raise Bad(f"a line of the report: {error}") from None
        if self.text() != text:
            raise Bad("the report is spelled otherwise")

    def add(self, word, *rest):
        if word == "entry":
            self.entries.append(Entry(*map(int, rest[:3]), rest[3] == "run", list(rest[4:])))
        elif word == "caller":
            self.callers.append(Line(rest[1], *map(int, rest[2:])))
        elif word == "seq":
            self.seq = int(rest[0])
        else:
            self.store.append(" ".join([word, *rest]))

    def text(self):
        lines = ["onefile report 1", *(it.line() for it in self.entries)]
        lines += [" ".join(["caller", str(c), *map(str, it)]) for c, it in enumerate(self.callers)]
        return "\n".join([*lines, f"seq {self.seq}", *self.store, "end", ""])

    def own(self, caller):
        return [it for it in self.entries if it.caller == caller]

    def entry(self, caller, index):
        """The entry of a call, or None."""
        return next((it for it in self.own(caller) if it.index == index), None)

    def batch(self, seq):
        """The announced entries of a batch."""
        return [it for it in self.entries if it.announced and it.seq == seq]


class Recovered:
    """What `recover` prints: a sequence, the tickets, and the lines of a store."""

    def __init__(self, text="onefile recovered 1\nseq 0\nend\n"):
        self.seq, self.tickets, self.store = None, collections.Counter(), []
        for line in text.split("\n")[1:-2]:
            word, *rest = line.split(" ")
            if word == "seq":
                self.seq = int(rest[0])
            elif word == "ticket":
                self.tickets[int(rest[0])] = int(rest[1])
            else:
                self.store.append(line)
        if self.text() != text:
            raise Bad("what recovery finds is spelled otherwise")

    def text(self):
        tickets = [f"ticket {caller} {self.tickets[caller]}" for caller in sorted(self.tickets)]
        lines = ["onefile recovered 1", f"seq {self.seq}", *tickets, *self.store]
        return "\n".join([*lines, "end", ""])

    def is_end_of(self, report):
        """Whether it has the sequence and the store that a report ends with."""
        return (self.seq, self.store) == (report.seq, report.store)


def printed_sizes(text):
    """The callers and the blocks of an image as it is printed, or None if this isn't one."""
    found = IMAGE.fullmatch(text)
    return tuple(map(int, found.group(1, 2))) if found else None


def empty_image(callers, blocks):
    return f"onefile image 2\ncallers {callers}\nblocks {blocks}\nend\n"


def cut(text):
    """The two parts of a text: up to its first line `end`, and the rest."""
    first, end, second = text.partition("\nend\n")
    return first + end, second
