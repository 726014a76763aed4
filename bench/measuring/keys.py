"""A memory by its keys, by the library for C: what calls take, and for each key what it takes to fill
the memory, to open and to close it, and the bytes of its table. bench/peers/keys.c goes through
that, and tells of each part how often it was done and what it took in all."""
import re

from .from_c import compiled
from .program import middle, run
from .sizes import Row

# A memory of the fewest keys runs the instructions on keys in their order, too.
KEYS = (512, 1_000, 10_000, 100_000, 1_000_000)
CALLS = 200_000
ROWS = {
    "get": Row("a get", "ns", 1, 0),
    "get at once": Row("a get, four callers at once", "ns", 1, 0),
    "put": Row("a put at a key that is there", "ns", 1, 0),
    "put at once": Row("such a put, four callers at once", "ns", 1, 0),
    "first": Row("a first", "ns", 1, 0),
    "open": Row("open, for each key", "ns", 1, 0),
    "fill": Row("fill, for each key", "ns", 1, 0),
    "close": Row("close, for each key", "ns", 1, 0),
    "reopen": Row("reopen, for each key", "ns", 1, 0),
    "table": Row("the table, for each key", "bytes", 1, 0),
}
# The part that a memory has only if its keys are few.
ORDERED = "first"
TOLD = re.compile(r"(.+) (\d+) (\d+)")


def parts(words):
    """What each part took for each time that it was done, and the status of the program."""
    done = run(words)
    told = [TOLD.fullmatch(it) for it in done.out.decode().splitlines()]
    return {it[1]: int(it[3]) / int(it[2]) for it in told if it}, done.status


def all_parts(keys, found):
    """Whether each part of a memory of so many keys was found."""
    return set(found) >= {name for name in ROWS if name != ORDERED or keys == KEYS[0]}


def measured(program, part, rounds):
    """What each number of keys takes, and what has failed. The numbers take turns."""
    samples = {it: [] for it in KEYS}
    for _ in range(rounds):
        for keys, its in samples.items():
            words = [*program, str(max(1, keys // part)), str(CALLS // part)]
            found, status = parts(words)
            if status or not all_parts(keys, found):
                return {}, [f"{keys:,} keys: status {status}"]
            its.append(found)
    return {str(keys): {name: middle([it[name] for it in found]) for name in ROWS
                        if all(name in it for it in found)}
            for keys, found in samples.items()}, []


def words(folder):
    """The words that run the program, and why there are none."""
    made, why = compiled(("keys",), folder)
    return [made["keys"]] if made else [], why
