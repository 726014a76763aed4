"""The trace of a plan: what the program prints of its events, and what follows from these lines."""
import os
import pathlib
import re
import subprocess
import sys

from .kinds import KIND_OF
from .shown import shown

TOP = pathlib.Path(__file__).resolve().parent.parent.parent
MOST_LINES = 10_000  # of one trace
MOST_SECONDS = float(os.environ.get("DRAW_SECONDS", "600"))  # of one run of the program
MOST_SHOWN = 100  # characters of a line that is no line of a trace


def answer(text, *words, errors=subprocess.PIPE):
    """What the program prints of this text; an end with an error ends this script too.

    What it says on standard error is shown if it fails, or at once if `errors` is None.
    """
    path = os.environ.get("ONEFILE") or str(TOP / "bin/onefile")
    try:
        done = subprocess.run([path, *words], input=text, stdout=subprocess.PIPE, stderr=errors,
                              encoding="utf-8", errors="surrogateescape", timeout=MOST_SECONDS)
    except subprocess.TimeoutExpired:
        sys.exit(f"bin/draw: onefile {' '.join(words)}: no end in {MOST_SECONDS:g} seconds")
    if done.returncode:
        sys.stderr.write(done.stderr or "")
        sys.exit(f"bin/draw: onefile {' '.join(words)}: {shown(done.stdout.strip())}")
    return done.stdout


class Event:
    """A line of the trace. `owner` is the caller whose word it is on, or whose log is applied;
    `parts` is what the line says after the change, between semicolons."""

    FORM = re.compile(
        r"(?P<at>\d+) (?:(?P<idle>\d+) nothing|"
        r"(?:evict|(?P<caller>\d+) (?P<script>\d+) (?P<step>[a-z ]+)), "
        r"(?P<word>.+?): (?P<found>\S+) -> (?P<left>\(\d+,\d+\)|\d+)(?:, (?P<end>[^;]+))?"
        r"(?:; (?P<parts>.+))?)$"
    )

    def __init__(self, line):
        parts = self.FORM.match(line)
        if parts is None:
            sys.exit(f"bin/draw: no line of a trace: {shown(line)[:MOST_SHOWN]}")
        self.line, self.at, self.step = line, int(parts["at"]), parts["step"]
        self.word, self.found, self.left = parts["word"], parts["found"], parts["left"]
        self.end, self.parts = parts["end"], (parts["parts"] or "").split("; ")
        caller = parts["caller"] or parts["idle"]
        self.caller = int(caller) if caller else None
        self.script = int(parts["script"]) if parts["script"] else None
        if self.step and self.step not in KIND_OF:
            sys.exit(f"bin/draw: no step of the program: {shown(self.step)[:MOST_SHOWN]}")
        self.kind = KIND_OF[self.step] if self.step else "nothing" if caller else "evict"
        self.owner = self.find_owner()

    def find_owner(self):
        """Whose word the step is on; of a step that applies a log, whose log it is."""
        helped = self.part("helps")
        if self.kind == "apply":
            self.kind = "assist" if helped else "apply"
            return int(helped or self.caller)
        if not self.word or self.step in ("load cell", "try cell"):
            return None
        named = re.search(r"(\d+)\)?$", self.word)
        return int(named[1]) if named else None

    def part(self, name):
        """What follows this word in a part, or None; an empty text if nothing follows."""
        found = [it for it in self.parts if re.split("[ ,]", it)[0] == name]
        return found[0][len(name):].lstrip(", ") if found else None

    @property
    def is_raise(self):
        """Whether the step writes a word back."""
        return bool(self.step) and self.step.startswith("raise")

    @property
    def changes(self):
        return self.found != self.left

    @property
    def is_lost(self):
        """Whether it is an exchange that found another word than it expected."""
        return self.part("lost") is not None

    @property
    def is_commit(self):
        return self.step == "exchange current" and not self.is_lost

    @property
    def sequence(self):
        return sequence_of(self.left)


def sequence_of(word):
    """The first number of a word such as (3,1)."""
    return int(word[1:].split(",")[0])


def read_trace(text, first, stop):
    """The events of a plan from `first` to before `stop`. The program runs all that come before."""
    events = []
    for at in range(first, stop, MOST_LINES):
        count = min(MOST_LINES, stop - at)
        events += map(Event, answer(text, "trace", str(at), str(count)).splitlines())
    if [it.at for it in events] != [*range(first, stop)]:
        sys.exit("bin/draw: the trace has other events than were asked for")
    return events
