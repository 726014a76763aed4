"""Calls from C on a memory that is in the caches, beside locks around plain arrays and beside the
least that such a call costs: its atomic steps without any logic."""
from .from_c import compiled

# What is measured side by side, in the order of the tables, and what each is.
NAMES = {
    "memory": "onefile",
    "mutex": "mutex",
    "rwlock": "rwlock",
    "floor": "the steps alone",
}
# The calls of a burst, by what they do: a sub and an add, a read of a register, a read of four
# keys. Each number of callers divides them.
WORKS = {"transfer": 80_000, "read": 800_000, "gets": 800_000}


def words(work, _, folder):
    """The words that run each on such calls, by name, and why there are none."""
    made, why = compiled(("hot", "floor"), folder)
    if why:
        return {}, why
    return {name: [made["floor"], work] if name == "floor" else [made["hot"], name, work]
            for name in NAMES}, []
