"""Why a text is no legal report of a plan: its first line that is wrong, and the rule it breaks.

The rules and their order are those of docs/TEXTS.md, over the plain store of this package. Nothing
here comes from the program or its sources.
"""
import re

from .faults import WORD, Fault, is_numeral, pieces, pointed
from .judge import READS
from .store import Store

SPELLED = "not as a report prints it"
RULE = "the report breaks rule {}: {}"
CALLER_OF_PLAN = RULE.format(1, "the plan has no such caller")
SCRIPT_LEFT = RULE.format(1, "its caller has no script left")
TURN = RULE.format(1, "it is another script's turn")
PLACE = RULE.format(3, "its sequence or caller cannot come after the entry before it")
WRITES = RULE.format(3, "it is a `read`, and its script writes")
MISSING = RULE.format(2, "the line of a caller is missing")
ANSWERED = RULE.format(2, "its entries are not its answered calls and at most one open call")
ENDING = RULE.format(6, "it cannot have ended so with this number of answered calls")
STEPS = RULE.format(7, "its longest call has too many steps, or none was answered")
ANOTHER = RULE.format(2, "the line of another caller")
ENTRIES = RULE.format(2, "another number of entries than the caller has")
TOO_MANY = RULE.format(2, "a line of a caller too many")
SEQUENCE = RULE.format(3, "another sequence than that of the last entry")
REPLY = RULE.format(4, "another reply than the script gives")
STORE = RULE.format(5, "another store than the scripts leave")
AFTER_END = "nothing comes after the line `end`"


class Broken(Exception):
    """A rule that a line breaks: the number of words before the one at fault, and what is said."""


def words(line):
    return [line[start:end] for start, end in pieces(line)]


def numbers(found):
    """The numbers that words are, or None if one is none."""
    good = all(is_numeral(it) and len(it) < 12 and int(it) <= WORD for it in found)
    return [int(it) for it in found] if good else None


def entry_claim(line):
    """The sequence, the caller, the index and the kind of an entry, however it is spaced."""
    found = words(line)
    if found[:1] != [b"entry"] or len(found) < 5 or found[4] not in (b"run", b"read"):
        return None
    claim = numbers(found[1:4])
    return claim and (*claim, found[4] == b"run")


def end_claim(line):
    """The state, the answered calls and the longest one of the line of a caller."""
    found = words(line)
    if found[:1] != [b"caller"] or len(found) < 6:
        return None
    claim = numbers([found[3], found[5]])
    if claim is None or found[2] not in (b"done", b"stopped", b"spent"):
        return None
    return found[2].decode(), *claim


def front(lines, claim):
    """What the first lines claim, up to one that claims nothing."""
    found = []
    for line in lines:
        if claim(line) is None:
            break
        found.append(claim(line))
    return found


class Replay:
    """The entries that have come, from a start: what recovery found before them."""

    def __init__(self, plan, start):
        self.plan, self.start = plan, start
        self.counts = [start.tickets[it] for it in range(plan.callers)]
        self.last, self.store = (start.seq, True, None, None), Store(plan.blocks, start.store)

    def follows(self, seq, caller, index, announced):
        """Within a sequence the announced ones come first, by caller, then the reads."""
        last_seq, last_announced, last_caller, last_index = self.last
        if seq == last_seq + 1:
            return announced and seq <= WORD
        if seq != last_seq:
            return False
        if last_caller is None:
            return not announced
        if announced:
            return last_announced and caller > last_caller
        return last_announced or (caller, index) > (last_caller, last_index)

    def entry(self, seq, caller, index, announced):
        """The line of an entry that may come next."""
        if caller >= self.plan.callers:
            raise Broken(2, CALLER_OF_PLAN)
        if self.counts[caller] >= len(self.plan.scripts[caller]):
            raise Broken(2, SCRIPT_LEFT)
        if index != self.counts[caller]:
            raise Broken(3, TURN)
        if not self.follows(seq, caller, index, announced):
            raise Broken(1, PLACE)
        script = self.plan.scripts[caller][index]
        if not announced and any(name not in READS for name, _ in script):
            raise Broken(4, WRITES)
        self.counts[caller] += 1
        self.last = seq, announced, caller, index
        self.store, reply = self.store.run(script)
        kind = "run" if announced else "read"
        return " ".join(["entry", str(seq), str(caller), str(index), kind, *reply])

    def end(self, caller, state, answered, longest):
        """The line of a caller that may have ended so."""
        done = self.start.tickets[caller]
        entries, left = self.counts[caller] - done, len(self.plan.scripts[caller]) - done
        if not answered <= entries <= answered + (state == "stopped"):
            raise Broken(3, ANSWERED)
        at_limit = self.last[0] == self.plan.limit
        if answered > left or (answered == left) != (state == "done"):
            raise Broken(2, ENDING)
        if state == "spent" and not at_limit:
            raise Broken(2, ENDING)
        if longest > self.plan.layout.bound or (longest and not answered):
            raise Broken(5, STEPS)
        return f"caller {caller} {state} {answered} {entries} {longest}"


def other(found, wanted):
    """The piece in which a line is another than is wanted, and what is said of it."""
    pairs = zip(found.split(b" "), wanted.split(b" "))
    same = next((it for it, (one, two) in enumerate(pairs) if one != two), None)
    if same is None:
        same = min(found.count(b" "), wanted.count(b" ")) + 1
    start = min(len(found), sum(len(it) + 1 for it in found.split(b" ")[:same]))
    if same > found.count(b" "):
        start = len(found)
    elif same > wanted.count(b" "):
        start = len(wanted)
    return start, same


def reason_of(found, wanted, same):
    name, rest = wanted.split(b" ")[0], found.split(b" ")[same:]
    stored = b"register", b"key", b"queue"
    if rest[:1] == [b""] and (len(rest) > 1 or same > wanted.count(b" ")) and found:
        return SPELLED
    if not wanted:
        return AFTER_END
    if name in stored or (wanted == b"end" and found.split(b" ")[0] in stored and b" " in found):
        return STORE
    if name == b"entry" and same >= 5:
        return REPLY
    if not rest or not rest[0]:
        return SPELLED
    if name == b"caller" and same in (1, 4):
        return ANOTHER if same == 1 else ENTRIES
    if name == b"seq" and same == 1:
        return SEQUENCE
    if name == b"seq" and found.startswith(b"caller "):
        return TOO_MANY
    return SPELLED


def word_end(line, start):
    space = line.find(b" ", start)
    return len(line) if space < 0 else space


def difference(lines, at, wanted):
    """What is said of a line that is another than is wanted."""
    if at == len(lines) and not wanted:
        size = len(lines[-1])
        return pointed(lines[-1], Fault(at, size, size, "the last line has no newline"))
    found = lines[at] if at < len(lines) else b""
    if not found and wanted and at >= len(lines) - 1:
        expected = pointed(wanted, Fault(at + 1, 0, word_end(wanted, 0), "expected"))
        return pointed(found, Fault(at + 1, 0, 0, "the report stops here")) + expected
    start, same = other(found, wanted)
    reason = reason_of(found, wanted, same)
    said = pointed(found, Fault(at + 1, start, word_end(found, start), reason))
    if wanted:
        said += pointed(wanted, Fault(at + 1, start, word_end(wanted, start), "expected"))
    return said


class Texts:
    """The lines of a text, and the ones that must come."""

    def __init__(self, text):
        self.lines, self.at = text.split(b"\n"), 0

    def line(self):
        return self.lines[self.at] if self.at < len(self.lines) else b""

    def take(self, wanted):
        """None if the next line is this one, or what is said of it."""
        if self.at < len(self.lines) and self.lines[self.at] == wanted.encode():
            self.at += 1
            return None
        return difference(self.lines, self.at, wanted.encode())

    def broken(self, before, reason):
        line = self.line()
        found = pieces(line)
        start = found[before][0] if before < len(found) else len(line)
        if before == 0:
            start = 0
        return pointed(line, Fault(self.at + 1, start, word_end(line, start), reason))


def steps(plan, start, texts):
    """Each next line that must come, as far as one can be said; what is said of a broken rule."""
    replay = Replay(plan, start)
    yield "onefile report 1"
    entries = front(texts.lines[1:], entry_claim)
    for claim in entries:
        yield lambda: replay.entry(*claim)
    ends = front(texts.lines[1 + len(entries) :], end_claim)
    for caller in range(plan.callers):
        if caller >= len(ends):
            yield lambda: missing(texts.line(), caller)
        yield lambda: replay.end(caller, *ends[caller])
    yield f"seq {replay.last[0]}"
    yield from replay.store.lines()
    yield "end"
    yield ""


def missing(line, caller):
    is_one = line.startswith(b"caller ") or (caller == 0 and line.startswith(b"entry "))
    raise Broken(0, SPELLED if is_one else MISSING)


def report_told(plan, start, text):
    """What is said of a text that is no legal report of a plan from a start, or None of one."""
    texts = Texts(text)
    for step in steps(plan, start, texts):
        try:
            wanted = step if isinstance(step, str) else step()
        except Broken as rule:
            return texts.broken(*rule.args)
        said = texts.take(wanted)
        if said:
            return said
    return difference(texts.lines, texts.at, b"") if texts.at < len(texts.lines) else None
