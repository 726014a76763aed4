"""What `rt check` says of each function of a crate.

All that the trial of wrong bodies knows of the words of a check is here, and tests/wrong_trial tries
it on a crate of its own: if another kit words its lines otherwise, that test says so.
"""
import enum
import os
import re
import subprocess
import sys

# `fn PATH: proved`; of one that is refused by itself `not proved` or `no proof: expected answers in
# ..`, also if `; it calls ..` comes after that.
LINE = re.compile(r"^(?:fn|impl|struct) (\S+): (.*)$", re.M)
UNPROVED = re.compile(r"not proved|no proof")
# `no proof: it calls ..` is of a function, `not proved; it waits for ..` of the impl that it is in.
CALLS = re.compile(r"no proof: (it calls|it passes|a call of)|not proved; it waits for the proof")
# Its last line but for advice: of all functions, or of those that `--only` names and their callees.
ENDED = re.compile(r"^logic=(proved|not-proved)\b|^only=\d+ proved=\d+$", re.M)
# An error in a text that holds no proof: a name or a form that the check cannot read. An error that
# begins with the name of a declaration says that it is not so, unless it is one of those below.
PLACE = r"^\S+?:\d+:\d+: error"
ERROR = re.compile(
    r"^(?:\./)?(?:src|specs)/\S+?:\d+:\d+: error(\[[\w-]+\])?: (`[^`]*`: )?(.*)", re.M
)
UNREAD = re.compile(
    "is not in scope|has no field|is no name|operand is missing|expected the end|cannot continue"
)
# What it says of lemmas: one is rejected, and those that cite it are not looked at.
LEMMA = re.compile(rf"{PLACE}: `([^`]*)`: ", re.M)
CITERS = r"\d+ declarations? that depends? on .*? not checked: (.*)$"
CITING = re.compile(rf"{PLACE}: {CITERS}", re.M)
# The checks that run now, and the signals that came to end them.
RUNNING, ENDING = set(), []


class Verdict(enum.Enum):
    """What a check says of a function."""

    PROVED = "is proved"
    REFUSED = "is refused"
    # its own proof is not at fault
    BY_CALLEE = "is only refused because of a function that it calls"


def verdict(said):
    if not UNPROVED.search(said):
        return Verdict.PROVED
    return Verdict.BY_CALLEE if CALLS.match(said) else Verdict.REFUSED


def unread(text):
    """Why a check came to no verdicts: the first error, or its last line; or None if it did."""
    for mark, named, said in ERROR.findall(text):
        if re.match(CITERS, said):
            continue
        if mark or not named or UNREAD.search(re.sub(r"`[^`]*`", "", said)):
            return f"the check cannot read it: {said}"
    if ENDED.search(text):
        return None
    lines = [it for it in text.splitlines() if it] or ["it said nothing"]
    last = next((it for it in lines if ": error" in it), lines[-1])
    return f"the check came to no verdict: {last}"


def is_proved(text):
    """Whether a check found all of the crate proved."""
    return "proved" in ENDED.findall(text)


def verdicts(text):
    """The verdict on each function, impl and struct that a check names, by its path."""
    return {path: verdict(said) for path, said in LINE.findall(text)}


def rejected(text):
    """The lemmas and definitions that a check has rejected, or not looked at for these."""
    citing = (it.split()[0] for line in CITING.findall(text) for it in line.split(", "))
    return {*LEMMA.findall(text), *citing}


def check(folder, only=(), jobs=None):
    """What `rt check` prints of the crate in this folder, and how many processor seconds it took.

    If paths of functions are given, it checks these and what they call.
    """
    words = ["rt", "check", *(word for path in only for word in ("--only", path))]
    words += ["--jobs", str(jobs)] if jobs else []
    pipes = {"stdin": subprocess.DEVNULL, "stdout": subprocess.PIPE, "stderr": subprocess.STDOUT}
    with subprocess.Popen(words, cwd=folder, text=True, errors="replace", **pipes) as process:
        RUNNING.add(process)
        if ENDING:
            process.terminate()
        text = process.stdout.read()
        _, status, used = os.wait4(process.pid, 0)
        process.returncode = os.waitstatus_to_exitcode(status)
        RUNNING.discard(process)
    if ENDING:
        raise InterruptedError("the trial was ended")
    return text, used.ru_utime + used.ru_stime


def end(number, _):
    """Ends all checks, and this program, at a signal."""
    ENDING.append(number)
    for process in list(RUNNING):
        process.terminate()
    sys.exit(128 + number)
