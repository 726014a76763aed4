"""The runs of one process that are measured: what each reads, and what its cost is divided by.

`part` divides the sizes: 1 for what is measured, more if bench/run itself is only tried.
"""
import re
import typing

from texts.layout import Layout

CALLERS = (1, 2, 4, 8, 16)
KEYS = (1, 8, 64, 512)
# The greatest number of a register or key, and the greatest payload and sequence of a cell.
GREATEST, GREATEST_SEQ = 2**31 - 1, 2**32 - 2
# The kinds of scripts that are drawn by callers.
KINDS = {"add": "add to 16 registers", "put": "put and get, 512 keys"}


class Run(typing.NamedTuple):
    """A run, and what its instructions are divided by. `text` gives what it reads, and is handed a
    function that gives what a command of the program prints. `less` is a run whose instructions
    are taken off first: its words and its text."""

    name: str
    words: list
    text: typing.Callable
    units: int
    unit: str
    less: tuple = None


def plan(callers, blocks, scripts, turns=()):
    """The text of a plan; script i is caller i's, modulo the callers."""
    lines = ["onefile plan 1", f"callers {callers}", f"blocks {blocks}"]
    lines += [f"script {i % callers} {script}" for i, script in enumerate(scripts)]
    lines += [f"turns {caller} {count}" for caller, count in turns]
    return "\n".join([*lines, "end", ""]).encode()


def in_rows(callers, row, rows):
    """The callers in turn, each with a row of turns."""
    return [(i % callers, row) for i in range(rows)]


def puts(count, keys=512):
    return [f"put {i % keys} {i}; get {5 * i % keys}" for i in range(count)]


def adds(count):
    return [f"add {i % 16} 1" for i in range(count)]


def mixed(count):
    return [
        f"put {i % 512} {i}; get {5 * i % 512}; put {7 * i % 512} 1; get {11 * i % 512}; "
        f"put {3 * i % 512} 1; get {13 * i % 512}; add 1 1; len 0"
        for i in range(count)
    ]


def played(name, text, turns):
    return Run(f"play, {name}", ["play"], lambda _: text, turns, "turn")


def six_plans(part):
    """In the third and the last two every caller comes to its end, and some turns are idle."""
    def lone(count):
        return ["store 3 7"] * count

    def keyed(count):
        return [f"put {i % 512} {i}" for i in range(count)]

    def shared(name, callers, blocks, scripts, row, rows):
        text = plan(callers, blocks, scripts, in_rows(callers, row, rows))
        return played(name, text, row * rows)

    turns = 960000 // part
    yield played("plan 1: one caller, store", plan(1, 0, lone(20000 // part), [(0, turns)]), turns)
    turns = 1000000 // part
    yield played("plan 2: one caller, put", plan(1, 512, keyed(6000 // part), [(0, turns)]), turns)
    many = "sixteen callers"
    yield shared(f"plan 3: {many}, add, long rows", 16, 0, adds(20000 // part), 1000, 1552 // part)
    yield shared(f"plan 4: {many}, add, short rows", 16, 0, adds(20000 // part), 16, 40000 // part)
    yield shared(f"plan 5: {many}, put and get", 16, 512, puts(8000 // part), 1000, 1056 // part)
    name = "plan 6: four callers, eight instructions"
    yield shared(name, 4, 512, mixed(3000 // part), 1000, 860 // part)


def idle_turns(part):
    """A schedule that goes on after its one caller is done. Its 48 turns are not idle."""
    turns = 8_000_000 // part
    text, without = (plan(1, 0, ["store 3 7"], [(0, count)]) for count in (48 + turns, 48))
    less = ["play"], lambda _: without
    return Run("play, idle turns", ["play"], lambda _: text, turns, "turn", less)


def by_callers(kind, callers):
    """The name of a run that is drawn by its number of callers."""
    return f"play, {kind}, callers {callers}"


def plays_by_callers(part):
    """Schedules of rows of 16 turns in which no caller comes to its end. What the program takes
    without turns is taken off."""
    turns = 320_000 // part
    for kind, scripts, blocks in ("add", adds, 0), ("put", puts, 512):
        for callers in CALLERS:
            lists = callers, blocks, scripts(8000 // part)
            text = plan(*lists, in_rows(callers, 16, turns // 16))
            less = ["play"], lambda _, it=plan(*lists): it
            name = by_callers(kind, callers)
            yield Run(name, ["play"], lambda _, it=text: it, turns, "turn", less)


def checked(name, text, count):
    return Run(name, ["check"], lambda program: text + program(["serial"], text), count, "entry")


def serials(part):
    for count in (5000, 10000, 20000):
        text = plan(16, 512, puts(count // part))
        name = f"serial, {count} scripts"
        yield Run(name, ["serial"], lambda _, it=text: it, count // part, "script")
        yield checked(f"check, {count} entries", text, count // part)


def by_keys(keys):
    """The name of a run that is drawn by its number of keys."""
    return f"check, keys {keys}"


def checks_by_keys(part):
    count = 5000 // part
    for keys in KEYS:
        yield checked(by_keys(keys), plan(16, 512, puts(count, keys)), count)


def image_of(part):
    """What makes the image that plan 5 leaves."""
    text = plan(16, 512, puts(8000 // part), in_rows(16, 1000, 1056 // part))
    return lambda program: program(["image"], text)


def with_every_cell(image):
    """The image with a line for each cell: the log cells that it lacks have the longest line, data
    cells and requests that it lacks the sequence of the current transaction and 0."""
    callers, blocks = (int(re.search(rb"^%s (\d+)$" % it, image, re.M)[1]) for it in
                       (b"callers", b"blocks"))
    found = {int(it[1]): it[0] for it in re.finditer(rb"^cell (\d+) \d+ \d+$", image, re.M)}
    layout = Layout(callers, blocks)
    seq = int(found[0].split()[2])
    lines = image.splitlines()[:3]
    for cell in range(layout.durable):
        other = (seq, 0) if cell < layout.first_log else (GREATEST_SEQ, GREATEST)
        lines.append(found.get(cell, b"cell %d %d %d" % (cell, *other)))
    return b"\n".join([*lines, b"end", b""])


def recoveries(part):
    image = image_of(part)
    yield Run("recover, the image of plan 5", ["recover"], image, 1, "image")
    every = (lambda program: with_every_cell(image(program)))
    yield Run("recover, an image with every cell", ["recover"], every, 1, "image")


def starts():
    """What a run costs in which no caller has a script."""
    text = plan(16, 512, [])
    yield Run("run, 16 callers, 512 blocks, no script", ["run"], lambda _: text, 1, "run")


def loads(part):
    """A call of one caller that is alone. On more threads instructions differ from run to run."""
    calls = 16000 // part
    less = ["load", "1", "0"], lambda _: b""
    words = ["load", "1", str(calls)]
    yield Run("load, a call of one caller", words, lambda _: b"", calls, "call", less)


def reading(part):
    """Reading a plan of just under 1 MiB, of which nothing is run."""
    less = ["play"], lambda _: plan(16, 512, [])
    scripts = [f"put {i % 512} {GREATEST - i}; get {5 * i % 512}; push 3 {GREATEST - i}"
               for i in range(18500 // part)]
    text = plan(16, 512, scripts)
    return Run("reading a plan", ["play"], lambda _: text, len(text), "byte", less)


def printing(part):
    """Printing replies of ten digits in the place of one, and all events of a schedule in the place
    of its last; the rest of the work is the same."""
    count = 2000 // part
    long, short = (plan(1, 0, [f"store 1 {it}", *["; ".join(["load 1"] * 16)] * count])
                   for it in (GREATEST, 0))
    less = ["serial"], lambda _: short
    # The register's line at the end is a few bytes more.
    yield Run("printing numbers", ["serial"], lambda _: long, 9 * 16 * count, "byte", less)
    events = 10_000 // part
    text = plan(1, 0, ["store 3 7"] * events, [(0, events)])
    less = ["trace", str(events - 1), "1"], lambda _: text
    words = ["trace", "0", str(events)]
    yield Run("printing a trace", words, lambda _: text, events - 1, "event", less)


def all_runs(part):
    yield from six_plans(part)
    yield idle_turns(part)
    yield from plays_by_callers(part)
    yield from serials(part)
    yield from checks_by_keys(part)
    yield from recoveries(part)
    yield from starts()
    yield from loads(part)
    yield reading(part)
    yield from printing(part)
