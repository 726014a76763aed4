"""The rules of a legal report of a plan, from what recovery found before it: docs/TEXTS.md.

These are written from the page, over the plain store of this package. A rule asserts what it asks.
"""
from .store import READS, Store

MOST_SEQ = 2**32 - 1


def in_order(plan, start, report):
    """The entries of a caller are its scripts from the first that isn't done, each once."""
    assert all(it.caller < plan.callers for it in report.entries)
    for caller, scripts in enumerate(plan.scripts):
        own, done = [it.index for it in report.own(caller)], start.tickets[caller]
        assert own == list(range(done, done + len(own))) and done + len(own) <= len(scripts)


def open_calls(plan, start, report):
    """Each caller has a line with the number of its entries, at most its open call unanswered."""
    assert len(report.callers) == plan.callers
    for caller, line in enumerate(report.callers):
        assert line.entries == len(report.own(caller))
        assert line.answered <= line.entries <= line.answered + (line.state == "stopped")


def by_sequence(plan, start, report):
    """Entries are by sequence, and each batch after the start has an announced one of a caller."""
    keys = [(it.seq, not it.announced, it.caller, it.index) for it in report.entries]
    assert keys == sorted(keys)
    announced = [(it.seq, it.caller) for it in report.entries if it.announced]
    assert len(set(announced)) == len(announced)
    assert {seq for seq, _ in announced} == set(range(start.seq + 1, report.seq + 1))
    assert start.seq <= report.seq <= MOST_SEQ
    for it in report.entries:
        assert start.seq <= it.seq <= report.seq
        assert it.announced or all(name in READS for name, _ in plan.scripts[it.caller][it.index])


def replies_and_store(plan, start, report):
    """Each reply is that of the store after the entries before it, and the last store is theirs."""
    store = Store(plan.blocks, start.store)
    for it in report.entries:
        store, words = store.run(plan.scripts[it.caller][it.index])
        assert words == it.reply
    assert store.lines() == report.store


def endings(plan, start, report):
    """A caller is done if all its scripts are answered, and spent only at the limit."""
    for caller, line in enumerate(report.callers):
        left = len(plan.scripts[caller]) - start.tickets[caller]
        assert line.state in ("done", "stopped", "spent")
        assert line.answered == left if line.state == "done" else line.answered < left
        assert line.state != "spent" or report.seq == plan.limit


def within_bound(plan, start, report):
    """No answered call took more steps than the bound of the plan."""
    for line in report.callers:
        assert line.longest <= plan.layout.bound and (line.answered or line.longest == 0)


LEGAL = [in_order, open_calls, by_sequence, replies_and_store, endings, within_bound]


def open_calls_announced(plan, start, report):
    """The sequence is within the limit, and an entry beyond a caller's answers is announced."""
    assert report.seq <= plan.limit
    for caller, line in enumerate(report.callers):
        assert all(it.announced for it in report.own(caller)[line.answered :])


def allowances(plan, start, report):
    """A caller is stopped only by its own stop, and makes no more steps than that."""
    for caller, line in enumerate(report.callers):
        own = report.own(caller)[: line.answered]
        least = [len(plan.scripts[caller][it.index]) + 5 if it.announced else 3 for it in own]
        stop = plan.stops[caller]
        assert all(steps <= line.longest for steps in least)
        if stop is None:
            assert line.state != "stopped"
        else:
            assert sum(least) <= stop and line.longest <= stop
            most = line.answered * line.longest + plan.layout.bound
            assert line.state != "stopped" or stop < most


# What `run` promises besides.
OF_RUN = [*LEGAL, open_calls_announced, allowances]


def broken(rules, plan, start, report):
    """The name of the first of these rules that a report breaks, or None."""
    for rule in rules:
        try:
            rule(plan, start, report)
        except AssertionError:
            return rule.__name__
    return None
