"""What recovery finds in an image, by the program, and why a life is not legal: docs/TEXTS.md."""
import re
import sys

from .causes import report_told
from .faults import ImageReader, PlanReader, fault, pieces, told
from .plan import read_plan
from .report import Recovered, Report, printed_sizes

BAD_PLAN, BAD_IMAGE, ILLEGAL, MISFIT = 5, 7, 8, 9

# The causes of aborts, by the numbers that cells have for them.
CAUSES = {"overflow": 1, "short": 2, "noroom": 3, "differs": 4, "badop": 5}


class Image:
    """What recovery finds in an image, and the image's sizes."""

    def __init__(self, program, text):
        run = program.run(["recover"], text.encode("latin-1"))
        self.status, self.told = run.returncode, run.stderr.decode("latin-1")
        if self.status not in (0, 7):
            sys.exit(f"recover: status {self.status}")
        self.found = Recovered(run.stdout.decode()) if self.status == 0 else None
        self.sizes = printed_sizes(text)
        self.is_printed = self.sizes is not None
        if self.found and not self.sizes:
            sizes = [re.search(rf"{word} +([0-9]+)", text) for word in ("callers", "blocks")]
            self.sizes = tuple(int(it[1]) for it in sizes)


def recovered_cells(program, text):
    """The numbers of an image's cells after recovery: beginning its sequences anew keeps them."""
    lines = program.answer("renumber", text)[1].split("\n")
    found = (line.split() for line in lines if line.startswith("cell "))
    return {int(words[1]): int(words[3]) for words in found}


def holds_reply(cells, ticket, reply):
    """Whether the own cells of a caller, from its ticket's on, hold a reply."""
    shape = cells.get(ticket + 1, 0)
    if reply[0] == "abort":
        place, many = int(reply[1]), shape >> 16 & 31
        return place < many and shape == (many << 16) + (place << 21) + (CAUSES[reply[2]] << 26)
    numbers = [(y, int(word)) for y, word in enumerate(reply) if word != "none"]
    marks = sum(1 << y for y, _ in numbers)
    same = all(cells.get(ticket + 2 + y, 0) == number for y, number in numbers)
    return same and shape == marks + (len(reply) << 16)


def cut(text):
    """A text up to its first line whose only word is `end`, and what is after it."""
    at = 0
    while (end := text.find(b"\n", at)) >= 0:
        line = text[at:end]
        if [line[start:stop] for start, stop in pieces(line)] == [b"end"]:
            return text[: end + 1], text[end + 1 :]
        at = end + 1
    return text, b""


def misfit(plan, image):
    """Why a plan does not fit an image, or None."""
    (callers, blocks), start = image.sizes, image.found
    if callers != plan.callers:
        return f"callers: {callers} in the image, and {plan.callers} in the plan\n"
    if blocks != plan.blocks:
        return f"blocks: {blocks} in the image, and {plan.blocks} in the plan\n"
    if start.seq > plan.limit:
        return f"the image's sequence is {start.seq}, above the plan's limit {plan.limit}\n"
    for caller, scripts in enumerate(plan.scripts):
        made = start.tickets[caller]
        if made > len(scripts):
            there = f"{made} calls made in the image, and {len(scripts)} scripts in the plan"
            return f"caller {caller}: {there}\n"
    return None


def wrong_end(program, plan, start, report, text, left):
    """The rule that an image breaks which is not where a report ends, or None."""
    if left.sizes[0] != plan.callers:
        return "not the plan's callers"
    if left.sizes[1] != plan.blocks:
        return "not the plan's blocks"
    if left.found.seq != report.seq:
        return "not the report's sequence"
    last = {it.caller: it for it in report.entries if it.announced}
    cells = recovered_cells(program, text)
    for caller in range(plan.callers):
        entry = last.get(caller)
        ticket = entry.index + 1 if entry else start.tickets[caller]
        if left.found.tickets[caller] != ticket:
            return f"the ticket of caller {caller} is another"
        if entry and not holds_reply(cells, plan.layout.ticket(caller), entry.reply):
            return f"the last reply of caller {caller} is another"
    return None if left.found.store == report.store else "not the report's store"


def left_told(program, plan, start, report, text):
    """What is said of the image after a report, or None where the report ends there."""
    found = fault(ImageReader(), text)
    if found:
        return f"after the report: bad image, line {found.line}\n"
    left = Image(program, text.decode("latin-1"))
    if left.status != 0:
        cell = re.match(r"cell (\d+): ", left.told)[1]
        return f"after the report: unlawful image, cell {cell}\n"
    if not left.is_printed:
        return "after the report: an image, not as a command prints it\n"
    wrong = wrong_end(program, plan, start, report, text.decode(), left)
    return wrong and f"the image after the report: {wrong}\n"


def life_told(program, text):
    """The status of `check-life`, and what is said."""
    first, rest = cut(text)
    second, others = cut(rest)
    report, left = cut(others)
    found = fault(PlanReader(), second)
    if found:
        return BAD_PLAN, told(second, found)
    found = fault(ImageReader(), first)
    if found:
        return BAD_IMAGE, told(first, found)
    image, plan = Image(program, first.decode("latin-1")), read_plan(second.decode("latin-1"))
    if image.status != 0:
        return BAD_IMAGE, image.told
    said = misfit(plan, image)
    if said:
        return MISFIT, said
    said = report_told(plan, image.found, report)
    said = said or left_told(program, plan, image.found, Report(report.decode()), left)
    return (ILLEGAL, said) if said else (0, "")
