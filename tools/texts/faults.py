"""What is wrong first in the text of a plan or of an image, as docs/TEXTS.md has it.

A text is read once, line by line and each line from left to right. The answer is a `Fault`, or
None for a text of the grammar. Nothing here comes from the program or its sources.
"""
import typing

from .layout import INSTRS, QUEUES, REGISTERS, Layout
from .store import GREATEST

WORD = 2**32 - 1
MOST_CALLERS, MOST_BLOCKS, MOST_SCRIPTS, MOST_TURNS = 16, 512, 20000, 10000000
MISSING = "a number is missing here"
NOT_A_NUMBER = "not a number: digits alone, no 0 before others"
EXTRA = "a word too many"
ZERO = "a number below 1"
AFTER_END = "a line after `end`"
NO_END = "the text ends before `end`"

# The numbers of each instruction: how great each may be.
R, Q, V = REGISTERS - 1, QUEUES - 1, GREATEST
NUMBERS = {
    "load": [R], "store": [R, V], "add": [R, V], "sub": [R, V], "get": [V], "put": [V, V],
    "del": [V], "need": [V, V], "push": [Q, V], "pop": [Q], "len": [Q], "count": [],
    "drop-below": [V], "first": [], "next": [V],
}


class Fault(typing.NamedTuple):
    """The number of a line, where the piece at fault begins and ends, and why."""

    line: int
    start: int
    end: int
    reason: str


class Wrong(Exception):
    """A piece of a line that is wrong: where it begins and ends, and why."""


def pieces(line):
    """Where each word of a line begins and ends; a semicolon is one of its own."""
    found, start = [], None
    for at, byte in enumerate(line):
        if byte in b" ;":
            if start is not None:
                found.append((start, at))
            start = None
            if byte == ord(";"):
                found.append((at, at + 1))
        elif start is None:
            start = at
    return found + ([(start, len(line))] if start is not None else [])


def is_numeral(word):
    return word.isdigit() and word.isascii() and (word == b"0" or word[:1] != b"0")


class Line:
    """A line that is read word by word."""

    def __init__(self, data):
        self.data, self.pieces, self.at = data, pieces(data), 0

    @property
    def is_skipped(self):
        return not self.pieces or self.data[self.pieces[0][0]] == ord("#")

    @property
    def place(self):
        """The word that comes next, or the end of the line."""
        if self.at < len(self.pieces):
            return self.pieces[self.at]
        return len(self.data), len(self.data)

    @property
    def word(self):
        start, end = self.place
        return self.data[start:end]

    def refuse(self, reason, back=0):
        """The next word is wrong, or the one that is so far back."""
        self.at -= back
        raise Wrong(*self.place, reason)

    def take(self, *wanted, otherwise):
        if self.word not in wanted:
            self.refuse(otherwise)
        self.at += 1
        return self.pieces[self.at - 1]

    def number(self, most):
        word = self.word
        if word in (b"", b";"):
            self.refuse(MISSING)
        if not is_numeral(word):
            self.refuse(NOT_A_NUMBER)
        if len(word) > 20 or int(word) > most:
            self.refuse(f"a number above {most}")
        self.at += 1
        return int(word)

    def count(self, most):
        value = self.number(most)
        if value == 0:
            self.refuse(ZERO, back=1)
        return value

    def end(self):
        if self.word:
            self.refuse(EXTRA)


def hidden(line, is_first):
    """The first byte of a line that looks like nothing: where it is, and what."""
    if is_first and line.startswith(b"\xef\xbb\xbf"):
        return 0, 3, "a byte order mark at the start of the text"
    tab = line.find(b"\t")
    if tab >= 0:
        return tab, tab + 1, "a tab, where only spaces part words"
    if line.endswith(b"\r"):
        return len(line) - 1, len(line), "a carriage return at the end of the line"
    return None


class PlanReader:
    """A plan, as far as it is read."""

    TITLE = "the first line of a plan is `onefile plan 1`"
    CALLERS = "the second line of a plan is `callers N`, N from 1 to 16"
    BLOCKS = "the third line of a plan is `blocks B`, B from 0 to 512"
    OVER = "this line comes once, in the heading of a plan"

    def __init__(self):
        self.stage, self.callers, self.blocks = "title", 0, 0
        self.scripts, self.turns, self.stops, self.number = 0, 0, {}, 0

    def read(self, line, number):
        self.number = number
        getattr(self, f"in_{self.stage}")(line)

    def in_title(self, line):
        for word in (b"onefile", b"plan", b"1"):
            line.take(word, otherwise=self.TITLE)
        line.end()
        self.stage = "callers"

    def in_callers(self, line):
        line.take(b"callers", otherwise=self.CALLERS)
        self.callers = line.count(MOST_CALLERS)
        line.end()
        self.stage = "blocks"

    def in_blocks(self, line):
        line.take(b"blocks", otherwise=self.BLOCKS)
        self.blocks = line.number(MOST_BLOCKS)
        line.end()
        self.stage = "limit"

    def in_limit(self, line):
        if line.word != b"limit":
            return self.in_body(line)
        line.at = 1
        line.count(WORD - 1)
        line.end()
        self.stage = "body"

    def in_body(self, line):
        word = line.word
        if word in (b"onefile", b"callers", b"blocks", b"limit"):
            line.refuse(self.OVER)
        if word not in (b"script", b"stop", b"turns", b"evict", b"end"):
            line.refuse("no line of a plan begins with this word")
        if word == b"script" and self.scripts >= MOST_SCRIPTS:
            line.refuse(f"a plan has at most {MOST_SCRIPTS} scripts")
        line.at = 1
        getattr(self, f"read_{word.decode()}")(line)
        self.stage = "end" if word == b"end" else "body"

    def in_end(self, line):
        line.refuse(AFTER_END)

    def caller(self, line):
        caller = line.number(WORD)
        if caller >= self.callers:
            told = f"caller {caller} of a plan with {self.callers}; the first is 0"
            line.refuse(told, back=1)
        return caller

    def read_script(self, line):
        self.caller(line)
        count = 0
        while True:
            if line.word in (b"", b";"):
                line.refuse("an instruction is missing here")
            most = NUMBERS.get(line.word.decode("latin-1"))
            if most is None:
                line.refuse("no instruction has this name")
            line.at, count = line.at + 1, count + 1
            for each in most:
                line.number(each)
            if not line.word:
                break
            if line.word != b";":
                line.refuse(EXTRA)
            if count == INSTRS:
                line.refuse(f"a script has at most {INSTRS} instructions")
            line.at += 1
        self.scripts += 1

    def read_stop(self, line):
        caller = self.caller(line)
        if caller in self.stops:
            told = f"this caller has a stop already, in line {self.stops[caller]}"
            line.refuse(told, back=1)
        line.number(WORD)
        line.end()
        self.stops[caller] = self.number

    def read_turns(self, line):
        self.caller(line)
        turns = line.count(MOST_TURNS)
        if self.turns + turns > MOST_TURNS:
            line.refuse(f"a plan has at most {MOST_TURNS} turns in all", back=1)
        line.end()
        self.turns += turns

    def read_evict(self, line):
        cell, cells = line.number(WORD), Layout(self.callers, self.blocks).durable
        if cell >= cells:
            line.refuse(f"cell {cell} of a plan with {cells}; the first is 0", back=1)
        line.end()

    def read_end(self, line):
        line.end()


class ImageReader:
    """An image of a version, as far as it is read."""

    CALLERS = "the second line of an image is `callers N`, N from 1 to 16"
    BLOCKS = "the third line of an image is `blocks B`, B from 0 to 512"

    def __init__(self, version=2):
        self.version, self.stage = version, "title"
        self.callers, self.blocks, self.cells, self.number = 0, 0, [], 0

    def read(self, line, number):
        self.number = number
        getattr(self, f"in_{self.stage}")(line)

    def in_title(self, line):
        for word in (b"onefile", b"image"):
            told = f"the first line of an image is `onefile image {self.version}`"
            line.take(word, otherwise=told)
        found = line.number(WORD)
        if found != self.version:
            told = f"an image of version {found}; version {self.version} is read"
            line.refuse(told, back=1)
        line.end()
        self.stage = "callers"

    def in_callers(self, line):
        line.take(b"callers", otherwise=self.CALLERS)
        self.callers = line.count(MOST_CALLERS)
        line.end()
        self.stage = "blocks"

    def in_blocks(self, line):
        line.take(b"blocks", otherwise=self.BLOCKS)
        self.blocks = line.number(MOST_BLOCKS)
        line.end()
        self.stage = "body"

    @property
    def durable(self):
        """How many cells there are: the scripts of version 1 have eight instructions at most."""
        instrs = INSTRS if self.version == 2 else 8
        data = self.callers * (instrs + 2) + 63 + 3 * self.blocks
        return 1 + self.callers + data + self.callers * (2 * data + 1)

    def in_body(self, line):
        word = line.word
        if word in (b"onefile", b"callers", b"blocks"):
            line.refuse("this line comes once, in the heading of an image")
        if word not in (b"cell", b"end"):
            line.refuse("no line of an image begins with this word")
        line.at = 1
        if word == b"cell":
            self.read_cell(line)
        line.end()
        self.stage = "end" if word == b"end" else "body"

    def read_cell(self, line):
        cell = line.number(WORD)
        if cell >= self.durable:
            line.refuse(f"this image has {self.durable} cells, from cell 0 on", back=1)
        above = [number for number, other in self.cells if other >= cell]
        if above:
            told = f"cells ascend, and line {above[0]} has this one or a later one"
            line.refuse(told, back=1)
        seq = line.number(WORD)
        if seq == line.number(WORD) == 0:
            line.refuse("a cell of sequence 0 and payload 0 has no line", back=1)
        line.end()
        self.cells.append((self.number, cell))

    def in_end(self, line):
        line.refuse(AFTER_END)


def fault(reader, text):
    """What is wrong first in a text, or None if it is in the grammar."""
    lines = text.split(b"\n")
    for number, data in enumerate(lines, 1):
        line = Line(data)
        if line.is_skipped:
            continue
        try:
            reader.read(line, number)
        except Wrong as wrong:
            start, end, reason = wrong.args
            byte = hidden(data, number == 1)
            return Fault(number, *(byte if byte and byte[0] < end else (start, end, reason)))
    if reader.stage != "end":
        return Fault(len(lines), len(lines[-1]), len(lines[-1]), NO_END)
    return None


def signs(data):
    """Bytes as they are shown."""
    return "".join(chr(byte) if 32 <= byte <= 126 else "?" for byte in data)


def pointed(line, fault):
    """What is said of a fault of a line: the line, 100 bytes of it near the piece, and carets."""
    first = 0 if len(line) <= 100 else max(fault.start - 60, 0)
    last = min(len(line), first + 100)
    front, behind = "." * 2 * (first > 0), "." * 2 * (last < len(line))
    carets = "^" * max(min(fault.end, last) - fault.start, 1)
    return (f"line {fault.line}, column {fault.start + 1}: {fault.reason}\n"
            f"    {front}{signs(line[first:last])}{behind}\n"
            f"    {' ' * (len(front) + fault.start - first)}{carets}\n")


def told(text, fault):
    """What is said of the fault of a text."""
    return pointed(text.split(b"\n")[fault.line - 1], fault)
