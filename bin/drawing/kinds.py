"""The kinds of steps: how each is called, coloured and hatched."""
import typing


class Kind(typing.NamedTuple):
    """A phase of a call. `hatch` is a path in a square of six, so that no kind needs its colour."""

    label: str
    tint: str
    colour: str
    hatch: str
    meaning: str
    steps: str


KINDS = {
    "try": Kind("try", "#d5efec", "#0d766d", "M1 1h1M4 4h1", "try a read",
                "try current, try request, try cell"),
    "announce": Kind("announce", "#fcebc8", "#a86908", "M0 6L6 0", "announce the script",
                     "store script, store announcement"),
    "scan": Kind("scan", "#dce8fb", "#2f6ccb", "", "begin a round, scan callers",
                 "load current, load request, load own ticket, load announcement, load ticket, "
                 "load script, load cell"),
    "log": Kind("log", "#f2dfd0", "#96491c", "M0 1.5h6M0 4.5h6",
                "store the log and the request",
                "raise old, store log, raise log, store request, raise request"),
    "commit": Kind("commit", "#fbdcdc", "#c62828", "",
                   "exchange the current-transaction word", "exchange current"),
    "apply": Kind("apply", "#d8f1db", "#217a30", "M0 0L6 6", "apply one's own log",
                  "raise current, load target, exchange target, reload target, raise target, "
                  "close request, raise closed"),
    "help": Kind("help", "#e8dbf9", "#7439bf", "M1.5 0v6M4.5 0v6", "help: copy another's log",
                 "copy log, look again"),
    "assist": Kind("apply", "#f3daf3", "#a1309b", "M0 0L6 6M0 6L6 0",
                   "help: apply another's log", ""),
    "reply": Kind("reply", "#d3ecf6", "#0e6e95", "M0 3L3 0L6 3", "load one's own reply",
                  "load shape, load reply"),
    "nothing": Kind("nothing", "#f1f1f1", "#a5a5a5", "", "nothing to do", ""),
}
KIND_OF = {step: name for name, kind in KINDS.items() for step in kind.steps.split(", ") if step}
