"""The page that steps through events: the picture, and the data from which its script fills it."""
import json
import pathlib
import re
from html import escape

from texts.plan import script_text

from .history import crash_reports
from .kinds import KIND_OF, KINDS
from .svg import GUTTER, Picture

FOLDER = pathlib.Path(__file__).resolve().parent
WIDTH = 822  # of the picture in the page
EVICTION_COLOUR = "#455a64"


def page(history, first, title):
    """The page as one text, which needs no other file."""
    picture = Picture(history, first, WIDTH)
    parts = {
        "@TITLE@": escape(title), "@HEADING@": escape(title),
        "@PICTURE@": picture.draw(),
        "@DATA@": json.dumps(data(history, first, picture), separators=(",", ":"))
        .replace("<", "\\u003c"),
        "@SCRIPT@": (FOLDER / "page.js").read_text(encoding="utf-8"),
    }
    text = (FOLDER / "page.html").read_text(encoding="utf-8")
    # At once: a mark in what is put in is none.
    return re.sub("|".join(parts), lambda mark: parts[mark[0]], text)


def data(history, first, picture):
    """What the script of the page knows."""
    plan, names = history.plan, sorted({it.word for it in history.events if it.word})
    steps, place = list(KIND_OF), {name: at for at, name in enumerate(names)}
    reports, report_of = crash_reports(history, first)
    logged = logged_cells(history)
    cells = {it: f"cell {1 + plan.callers + it} ({name})" for it, name in logged.items()}
    return {
        "first": first, "stop": history.stop, "planned": plan.events, "callers": plan.callers,
        "scripts": [[*map(script_text, own)] for own in plan.scripts],
        "words": names, "steps": steps, "start": history.words(first),
        "events": [event_data(it, place, steps) for it in history.between(first)],
        "holding": logged,
        "store": [cells[it] for it, name in logged.items() if not is_own(name)],
        "own": [cells[it] for it, name in logged.items() if is_own(name)],
        "reports": reports, "reportOf": report_of,
        "rows": row_data(picture), "gutter": GUTTER,
        "commits": [it.at + 1 for it in picture.events if it.is_commit],
        "begun": [[call.start for call in history.calls if call.caller == caller]
                  for caller in range(plan.callers)],
    }


def event_data(event, place, steps):
    """An event as a list: only its caller, if it has nothing to do."""
    if event.kind == "nothing":
        return [event.caller]
    is_eviction = event.kind == "evict"
    colour = EVICTION_COLOUR if is_eviction else KINDS[event.kind].colour
    caller, step = (-1, -1) if is_eviction else (event.caller, steps.index(event.step))
    return [caller, event.script, step, place[event.word], event.found, event.left,
            event.end or 0, event.owner, colour]


def logged_cells(history):
    """The data cells that logs name, by address; a log has addresses at its odd places."""
    stored = [it for it in history.events if it.step == "store log"]
    return dict(sorted((int(it.left[1:-1].split(",")[1]), it.parts[-1]) for it in stored
                       if int(it.word.split()[1]) % 2))


def is_own(name):
    """Whether this is a cell of a caller: its ticket, or the shape or a number of its reply."""
    return name.split()[0] in ("ticket", "shape", "reply")


def row_data(picture):
    """Of each row its top, its height, and where its events begin."""
    return [[top, height, [[at, round(place, 1)] for at, place in row.marks]]
            for row, (top, height) in zip(picture.rows, picture.row_places())]
