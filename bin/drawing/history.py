"""What the events of a plan make up: bars, calls, commits, and what a crash leaves of them."""
import concurrent.futures
import os

from texts.plan import script_text
from texts.report import Report

from .kinds import KINDS
from .trace import answer, read_trace, sequence_of


class Bar:
    """Steps of one caller that are drawn as one: a phase of its call."""

    def __init__(self, event):
        self.caller, self.kind, self.owner = event.caller, event.kind, event.owner
        self.start, self.events = event.at, [event]

    def goes_on_with(self, event):
        before = self.events[-1]
        if event.step in ("load current", "try current") or before.end:
            return False
        same_owner = event.kind != "assist" or event.owner == self.owner
        return (before.script, self.kind) == (event.script, event.kind) and same_owner

    @property
    def stop(self):
        return self.events[-1].at + 1

    @property
    def label(self):
        label, count = KINDS[self.kind].label, len(self.events)
        if self.kind == "commit":
            return "lost" if self.events[0].is_lost else label
        return f"{label} {self.owner}'s {count}" if self.is_help else f"{label} {count}"

    @property
    def is_help(self):
        return self.kind in ("help", "assist")


class Call:
    """A call, from its first step to its last; `outcome` is how it ended."""

    def __init__(self, event, script):
        self.caller, self.script, self.start, self.stop = event.caller, event.script, event.at, None
        self.text, self.outcome, self.is_answered = f"{event.script}: {script}", "", False


class History:
    """The events of a plan from `since` to before `stop`, and the report of what its whole schedule
    leaves. What began before these events is taken to begin with them."""

    def __init__(self, plan, stop, since=0):
        self.plan, self.stop, self.since = plan, stop, since
        whole = plan.cut(plan.events)
        self.events = read_trace(whole, since, stop)
        self.report = Report(answer(whole, "play"))
        self.bars, self.calls = self.find_bars(), self.find_calls()

    @property
    def ends_with_crash(self):
        return self.stop == self.plan.events

    def between(self, first, stop=None):
        """The events from `first` on, to before `stop`."""
        return self.events[first - self.since : None if stop is None else stop - self.since]

    def find_bars(self):
        bars, last = [], {}
        for event in self.events:
            if event.kind == "evict":
                continue
            bar = last.get(event.caller)
            if bar and bar.goes_on_with(event):
                bar.events.append(event)
            else:
                last[event.caller] = Bar(event)
                bars.append(last[event.caller])
        return bars

    def find_calls(self):
        calls, open_calls = [], {}
        for event in self.events:
            if event.script is None:
                continue
            if event.caller not in open_calls:
                script = self.plan.scripts[event.caller][event.script]
                open_calls[event.caller] = Call(event, script_text(script))
                calls.append(open_calls[event.caller])
            if event.end:
                self.end_call(open_calls.pop(event.caller), event)
        for call in open_calls.values():
            self.leave_call(call)
        return calls

    def end_call(self, call, event):
        """A call ends with this event: `answered at S in T steps`, `read at ..` or `spent at S`."""
        how, _, sequence = event.end.split()[:3]
        words = [] if how == "answered" else [how]
        if how != "spent":
            words.append(event.part("reply"))
        call.stop, call.is_answered = event.at + 1, True
        call.outcome = " ".join([*words, "at", sequence])

    def leave_call(self, call):
        """A call is open after the last event."""
        call.stop = self.stop
        if self.ends_with_crash:
            entry = self.report.entry(call.caller, call.script)
            call.outcome = f"open, kept at {entry.seq}" if entry else "open, not kept"

    def words(self, done):
        """The words that are not as at the start after this many events, by name."""
        return {event.word: event.left for event in self.events[:done] if event.word}


def crash_reports(history, first):
    """The different reports that crashes leave, and which of them each number of events has.

    The first is that of a crash after `first` events. A report can change only if a call ends or a
    durable word changes that recovery reads.
    """
    words, asked, place_of = history.words(first), [first], [0]
    for done in range(first + 1, history.stop + 1):
        event = history.events[done - 1]
        if event.end or is_recovered(event, words):
            asked.append(done)
        if event.word:
            words[event.word] = event.left
        place_of.append(len(asked) - 1)
    with concurrent.futures.ThreadPoolExecutor(os.cpu_count()) as pool:
        answers = list(pool.map(lambda done: answer(history.plan.cut(done), "play"), asked))
    reports = list(dict.fromkeys(answers))
    return reports, [reports.index(answers[place]) for place in place_of]


def is_recovered(event, words):
    """Whether the event changes a durable word that recovery reads.

    It reads a log only if the durable words say that its owner's transaction is open.
    """
    if not event.changes or not (event.word or "").startswith("durable "):
        return False
    if not event.word.startswith("durable log "):
        return True
    sequence, owner = open_transaction(words)
    return sequence > 0 and owner == int(event.word.split()[-1])


def open_transaction(words):
    """The open transaction that recovery finds in durable words, and its owner; 0 if none."""
    current = words.get("durable current", "(0,0)")
    owner = int(current[1:-1].split(",")[1])
    sequence = sequence_of(current)
    is_open = words.get(f"durable request {owner}") == f"({sequence},0)"
    return (sequence, owner) if sequence and is_open else (0, owner)
