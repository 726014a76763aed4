"""Plans and scripts that are drawn at random."""
from .layout import INSTRS
from .plan import MOST_LIMIT, Plan
from .store import GREATEST


def random_script(rng, greatest=False, most=INSTRS):
    """A script of at most so many of all fifteen instructions; three in ten scripts only read."""
    register = lambda: rng.choice([rng.randint(0, 3), rng.randint(0, 15)])
    key, few = lambda: rng.randint(0, 99 if greatest else 9), lambda: rng.randint(0, 3)
    value = lambda: rng.choice([0, 1, 2, 3, GREATEST])
    reads = [
        lambda: ("load", [register()]), lambda: ("get", [key()]),
        lambda: ("need", [key(), value()]), lambda: ("len", [few()]), lambda: ("count", []),
        lambda: ("first", []), lambda: ("next", [key()]),
    ]
    writes = [
        lambda: ("store", [register(), value()]), lambda: ("add", [register(), value()]),
        lambda: ("sub", [register(), few()]), lambda: ("put", [key(), value()]),
        lambda: ("del", [key()]), lambda: ("push", [few(), value()]), lambda: ("pop", [few()]),
        lambda: ("drop-below", [key()]),
    ]
    forms = reads if rng.random() < 0.3 else reads + writes + writes[:4]
    count = most if greatest else rng.choice([1, 2, 3, rng.randint(1, most)])
    return [rng.choice(forms)() for _ in range(count)]


def random_plan(rng, greatest=False):
    """A plan for `run`. The greatest has sixteen callers, all blocks and the longest scripts."""
    sizes = (16, 512) if greatest else (rng.randint(1, 16), rng.choice([0, 1, 8, 64, 512]))
    plan = Plan(*sizes, rng.choice([MOST_LIMIT, MOST_LIMIT, rng.randint(1, 20)]))
    for scripts in plan.scripts:
        scripts += [random_script(rng, greatest) for _ in range(rng.randint(0, 6))]
    most = 30000 if greatest else 3000
    plan.stops = [rng.choice([None, None, rng.randint(0, 60), rng.randint(0, most)])
                  for _ in plan.stops]
    plan.evict(rng.randrange(plan.layout.durable) for _ in range(rng.randint(0, 40)))
    plan.evict(rng.randrange(plan.layout.first_data) for _ in range(rng.randint(0, 40)))
    return plan
