"""A memory by the number of its cells: what the parts of its life take. crates/example_accounts goes
through them if it is given a number of accounts. It tells how long each took, and waits after each,
so that its memory can be looked at. A look goes through all pages of the program, and what comes
next finds the caches full of that, the more so the larger the memory is: so times are of runs that
nobody looks at."""
import os
import pathlib
import re
import subprocess
import typing

from .program import CHECKED_BUILD, middle

CRATE = "example_accounts"
SIZES = (1_000, 10_000, 100_000, 1_000_000, 4_000_000)
# The cells that are no accounts: eighteen of each of sixteen callers. And the fewest accounts.
OWN_CELLS, FEWEST = 16 * 18, 2
# The last part that the program tells of.
LAST = "at once"
# How often transfers go round four accounts.
ROUNDS = 25_000


class Row(typing.NamedTuple):
    """What is measured: its name, and the unit that it is shown in with its size and its decimals.
    Times are in nanoseconds, and memory is in bytes."""

    name: str
    unit: str
    size: float
    decimals: int


ROWS = {
    "round": Row("a transfer", "ns", 1, 0),
    "far": Row("a transfer, accounts far apart", "ns", 1, 0),
    "at once": Row("a transfer, four callers at once", "ns", 1, 0),
    "first": Row("first call of a handle", "ns", 1, 0),
    "visit": Row("enrol and leave", "ns", 1, 0),
    "open": Row("open", "ms", 1e6, 2),
    "close": Row("close", "ms", 1e6, 2),
    "reopen": Row("reopen", "ms", 1e6, 2),
    "words": Row("the words of the table", "MB", 1e6, 2),
    "memory": Row("memory after open", "MB", 1e6, 2),
    "most": Row("the most memory of all", "MB", 1e6, 2),
    "handle": Row("a handle after its first call", "kB", 1e3, 1),
    "busy": Row("a handle after transfers far apart", "kB", 1e3, 1),
}
TIMES = [name for name, it in ROWS.items() if it.unit in ("ns", "ms")]
MEMORY = [name for name in ROWS if name not in TIMES]


def built(program):
    """The program of the accounts that stands beside the measured one."""
    ending = ".unproved" if program.path.suffix == ".unproved" else ""
    return program.path.parents[2] / CRATE / "out" / f"{CRATE}{ending}"


def bytes_of(process, file, name):
    """A line of what the system says of a process, in bytes."""
    said = pathlib.Path(f"/proc/{process.pid}/{file}").read_text()
    return 1024 * int(re.search(rf"^{name}:\s+(\d+) kB$", said, re.M)[1])


class Part(typing.NamedTuple):
    """What a part of the life of a memory took: how often it was done, the nanoseconds of all of
    that, and, if it was looked at, the memory after it. That is what the program has touched: no
    code, and nothing that is only reserved."""

    count: int
    spent: int
    memory: int
    most: int


def memory_of(process):
    """The memory of the program, and the most that it had."""
    return bytes_of(process, "smaps_rollup", "Anonymous"), bytes_of(process, "status", "VmHWM")


def parts(words, looks):
    """The parts by their names, and the status of the program."""
    pipes = {"stdin": subprocess.PIPE, "stdout": subprocess.PIPE, "stderr": subprocess.DEVNULL}
    environment = {**os.environ, "ASAN_OPTIONS": CHECKED_BUILD}
    found = {}
    with subprocess.Popen(words, text=True, env=environment, **pipes) as process:
        for line in process.stdout:
            told = re.fullmatch(r"(.+) (\d+) (\d+)\n", line)
            if not told:
                continue
            name, count, spent = told.groups()
            memory = memory_of(process) if looks else (0, 0)
            found[name] = Part(int(count), int(spent), *memory)
            process.stdin.write("\n")
            process.stdin.flush()
    return found, process.returncode


def taken(timed, looked):
    """What is shown of the parts: the times of one run, and the memory of another."""
    spent = {name: it.spent / it.count for name, it in timed.items() if name in ROWS}
    after = {name: it.memory for name, it in looked.items()}
    return spent | {
        "words": 8 * looked["words"].count,
        "memory": after["open"] - after["words"],
        "most": max(it.most for it in looked.values()),
        "handle": (after["first"] - after["visit"]) / looked["first"].count,
        "busy": after["far"] - after["first"],
    }


def measured(program, part, rounds):
    """What each size takes, by its number of cells, and what has failed. Sizes take turns."""
    samples = {it: [] for it in SIZES}
    # A build without proofs takes a millisecond a call: it is only tried.
    times = max(1, ROUNDS // part**2)
    for _ in range(rounds):
        for size, its in samples.items():
            accounts = max(FEWEST, size // part - OWN_CELLS)
            words = [*program, str(accounts), str(times)]
            runs = [parts(words, looks) for looks in (False, True)]
            for found, status in runs:
                if status or LAST not in found:
                    return {}, [f"{size:,} cells: status {status}"]
            its.append(taken(*(found for found, _ in runs)))
    return {str(size): {name: middle([it[name] for it in found]) for name in ROWS}
            for size, found in samples.items()}, []
