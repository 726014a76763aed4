"""Plans: callers with scripts and stops, and a schedule."""
import copy

from .layout import Layout

MOST_LIMIT = 4294967294


def script_of(text):
    """The instructions of a script: of each its name and its numbers."""
    instrs = [part.split() for part in text.split(";")]
    return [(name, [int(it) for it in numbers]) for name, *numbers in instrs]


def script_text(script):
    return "; ".join(" ".join([name, *map(str, numbers)]) for name, numbers in script)


class Plan:
    """What a plan says. `schedule` has the `turns` and `evict` lines: the word, the caller or the
    cell, and how many events the line is. `title` is the first comment of the text."""

    def __init__(self, callers, blocks, limit=MOST_LIMIT):
        self.callers, self.blocks, self.limit, self.title = callers, blocks, limit, ""
        self.scripts, self.stops = [[] for _ in range(callers)], [None] * callers
        self.schedule = []

    @property
    def layout(self):
        return Layout(self.callers, self.blocks)

    @property
    def events(self):
        return sum(count for _, _, count in self.schedule)

    def evict(self, cells):
        self.schedule += [("evict", cell, 1) for cell in cells]

    def text(self):
        """The printed plan."""
        lines = ["onefile plan 1", f"callers {self.callers}", f"blocks {self.blocks}"]
        lines.append(f"limit {self.limit}")
        for caller, scripts in enumerate(self.scripts):
            lines += [f"script {caller} {script_text(it)}" for it in scripts]
        lines += [f"stop {c} {steps}" for c, steps in enumerate(self.stops) if steps is not None]
        for word, which, count in self.schedule:
            lines.append(f"{word} {which} {count}" if word == "turns" else f"{word} {which}")
        return "\n".join([*lines, "end", ""])

    def cut(self, events):
        """The text of the plan whose schedule ends after this many events."""
        other, other.schedule = copy.copy(self), []
        for word, which, count in self.schedule:
            count = min(count, events)
            events -= count
            if count:
                other.schedule.append((word, which, count))
        return other.text()


def read_plan(text):
    """The plan of a text, which must be one that the program takes for a plan."""
    sizes, plan, title = {"limit": MOST_LIMIT}, None, ""
    for line in text.split("\n"):
        words = line.replace(";", " ; ").split()
        if not words or words[0].startswith("#"):
            title = title or line.strip().lstrip("# ")
        elif words[0] in ("callers", "blocks", "limit"):
            sizes[words[0]] = int(words[1])
            if "blocks" in sizes:
                plan = Plan(**sizes)
        elif words[0] == "script":
            plan.scripts[int(words[1])].append(script_of(" ".join(words[2:])))
        elif words[0] == "stop":
            plan.stops[int(words[1])] = int(words[2])
        elif words[0] in ("turns", "evict"):
            count = int(words[2]) if words[0] == "turns" else 1
            plan.schedule.append((words[0], int(words[1]), count))
    plan.title = title
    return plan
