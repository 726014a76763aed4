"""The results as lines, as the tables of docs/BENCH.md, and as its pictures."""
import re

from . import chart, from_c, hot, keys, sizes, threads
from .runs import CALLERS, KEYS, KINDS, by_callers, by_keys

LACKING = "-"
COMMAND = "`bench/run --write`"


def short(count):
    """A count of instructions."""
    return LACKING if count is None else f"{count / 1e6:,.1f} M"


def each(run):
    """The instructions of a run for each of its units."""
    if run["instructions"] is None:
        return None
    return run["instructions"] / run["units"]


def each_text(run):
    if run["instructions"] is None:
        return LACKING
    return f"{each(run):,.1f} {'an' if run['unit'][0] in 'aeiou' else 'a'} {run['unit']}"


def memory(run):
    return LACKING if run["megabytes"] is None else f"{run['megabytes']:.1f} MB"


def run_line(name, run):
    line = f"{name:48}{1e3 * run['seconds'][0]:7.1f} ms {memory(run):>8} {run['faults']:5d} faults"
    if run["instructions"] is not None:
        line += f" {short(run['instructions']):>9} instructions, {each_text(run)}"
    return line


def spread(values):
    middle, low, high = (f"{round(it):,}" for it in values)
    return f"{middle} ({low}-{high})"


def thread_lines(what, names, found):
    for name, by in found.items():
        for callers, spent in by.items():
            line = f"{what}, callers {callers}: {names[name]}"
            yield f"{line:48} processor {spread(spent['processor'])} ns a call, by the clock " \
                  f"{spread(spent['clock'])}"


def size_value(row, values):
    """The median of a row of sizes."""
    return f"{values[0] / row.size:,.{row.decimals}f}" if values else LACKING


def size_lines(found, every):
    """A line for each of these rows, with the median of each size, and how the last is to the
    first."""
    for name, row in every.items() if found else ():
        medians = [by.get(name) for by in found.values()]
        values = "".join(f"{size_value(row, it):>11}" for it in medians)
        growth = medians[-1][0] / (medians[0][0] or 1) if all(medians) else 1
        yield f"{row.name + ', ' + row.unit:45}{values}{growth:11,.2f}"


def table(head, rows):
    rows = [head, ["---"] * len(head), *rows]
    return "\n".join("| " + " | ".join(row) + " |" for row in rows)


def about(results):
    it = results["about"]
    program = "the proved program" if it["proved"] else "a build without proofs, which is slower"
    return (f"Taken on {it['date']} of {program} at commit {it['commit']}, on "
            f"{it['processors']} processors \"{it['processor']}\"; times are medians of "
            f"{it['rounds']}.")


def runs_table(results, wanted):
    """The runs whose names begin so, but for those that a picture shows."""
    head = ["What", "Instructions", "Processor time", "Memory"]
    shown = {it for name, drawn in IN_PICTURES.items() if has(results, name) for it in drawn}
    rows = []
    for name, run in results["runs"].items():
        if name.startswith(wanted) and name not in shown:
            name = f"{name}, {run['read']:,} bytes" if name.startswith("recover") else name
            took = f"{1e3 * run['seconds'][0]:,.1f} ms"
            rows.append([name, each_text(run), took, memory(run)])
    return table(head, rows)


def threads_table(found, names):
    head = ["Callers", *[names[name] for name in found]]
    rows = [[str(it), *[spread(by[str(it)]["clock"]) for by in found.values()]] for it in CALLERS]
    return table(head, rows)


def sizes_table(found, what, every, wanted):
    """Those of the rows that have these names, with a column for each number of cells or keys."""
    if not found:
        return ""
    head = [what, *[f"{int(it):,}" for it in found]]
    rows = [[f"{row.name}, {row.unit}", *[size_value(row, by.get(name)) for by in found.values()]]
            for name, row in every.items() if name in wanted]
    return table(head, rows)


def exact(value):
    """What doesn't change from run to run is its own least and greatest."""
    return value, value, value


def turns_picture(results):
    lines = [chart.Line(name, [exact(each(results["runs"][by_callers(kind, it)]))
                               for it in CALLERS]) for kind, name in KINDS.items()]
    return [chart.Panel("Instructions a turn of play", "callers", CALLERS, lines)]


def check_picture(results):
    line = chart.Line("check", [exact(each(results["runs"][by_keys(it)])) for it in KEYS])
    return [chart.Panel("Instructions an entry of check", "keys", KEYS, [line])]


def threads_picture(results):
    titles = {"processor": "Processor nanoseconds a call",
              "clock": "Nanoseconds a call, by the clock"}
    # Both have one axis.
    every = [it for by in results["threads"].values() for spent in by.values()
             for values in spent.values() for it in values]
    for kind, title in titles.items():
        lines = [chart.Line(threads.NAMES[name], [by[str(it)][kind] for it in CALLERS])
                 for name, by in results["threads"].items()]
        yield chart.Panel(title, "callers", CALLERS, lines, True, every)


def sizes_picture(results):
    """Times a call, and times of the whole memory, by its cells."""
    found = results["sizes"]
    titles = {"ns": "Nanoseconds", "ms": "Milliseconds"}
    for unit, title in titles.items():
        lines = [chart.Line(row.name, [[it / row.size for it in by[name]] for by in found.values()])
                 for name, row in sizes.ROWS.items() if row.unit == unit and name != "visit"]
        yield chart.Panel(title, "thousands of cells", [f"{int(it) // 1000:,}" for it in found],
                          lines, True)


# Each picture: its file, its width, what draws it, and its text for who doesn't see it.
PICTURES = {
    "turns": ("bench_turns.svg", 620, turns_picture, "Instructions a turn, by callers"),
    "check": ("bench_check.svg", 620, check_picture, "Instructions an entry, by keys"),
    "threads": ("bench_threads.svg", 1100, lambda it: [*threads_picture(it)],
                "Processor time and time by the clock a call, by callers"),
    "sizes": ("bench_sizes.svg", 1100, lambda it: [*sizes_picture(it)],
              "Time a call, and to open and to close a memory, by its cells"),
}


# The runs that a picture shows, one by one.
IN_PICTURES = {
    "turns": [by_callers(kind, it) for kind in KINDS for it in CALLERS],
    "check": [by_keys(it) for it in KEYS],
}


def has(results, name):
    """Whether there is what a picture shows."""
    if name in ("threads", "sizes"):
        return bool(results.get(name))
    found = results["runs"]
    return all(it in found and found[it]["instructions"] is not None for it in IN_PICTURES[name])


def draw(results, folder):
    """Writes the pictures, and gives the names of those that it has written."""
    for name, (file, width, panels, _) in PICTURES.items():
        if has(results, name):
            (folder / file).write_text(chart.draw(panels(results), width))
            yield name


def race_text(found, names, calls):
    """The table of a race, by the clock; none if it was not run."""
    if not found:
        return ""
    return f"Nanoseconds a call, {calls:,} calls a burst:\n\n{threads_table(found, names)}"


PARTS = {
    "about": about,
    "plays": lambda it: runs_table(it, "play"),
    "commands": lambda it: runs_table(it, ("serial", "check", "recover", "run", "load")),
    "texts": lambda it: runs_table(it, ("reading", "printing")),
    "threads": lambda it: race_text(it["threads"], threads.NAMES, threads.CALLS),
    "calls": lambda it: race_text(it.get("calls"), from_c.NAMES, from_c.CALLS),
    **{f"hot {work}": lambda it, work=work, calls=calls: race_text(it.get(f"hot {work}"), hot.NAMES,
                                                                   calls)
       for work, calls in hot.WORKS.items()},
    "sizes": lambda it: sizes_table(it.get("sizes"), "Cells", sizes.ROWS, sizes.TIMES),
    "memory": lambda it: sizes_table(it.get("sizes"), "Cells", sizes.ROWS, sizes.MEMORY),
    "keys": lambda it: sizes_table(it.get("keys"), "Keys", keys.ROWS, keys.ROWS),
}


def filled(text, results, drawn):
    """The page with its parts between `<!-- results NAME -->` and `<!-- end -->` made anew."""
    def part(found):
        name = found[1]
        if name.startswith("picture "):
            name = name.removeprefix("picture ")
            file, _, _, words = PICTURES[name]
            made = f"![{words}](pictures/{file})" if name in drawn else ""
        else:
            made = PARTS[name](results)
        body = f"{made}\n" if made else ""
        return f"<!-- results {found[1]} -->\n{body}<!-- end -->"

    return re.sub(r"<!-- results ([\w ]+) -->\n.*?<!-- end -->", part, text, flags=re.S)


def write(results, path, pictures):
    """Draws the pictures, and writes the tables into a page."""
    drawn = [*draw(results, pictures)]
    path.write_text(filled(path.read_text(), results, drawn))
