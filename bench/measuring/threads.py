"""Callers at once: `load` of the program beside peers that do the same behind a lock. And how any
programs race."""
import pathlib
import shutil
import subprocess
import time

from .program import middle, run
from .runs import CALLERS

PEERS = pathlib.Path(__file__).resolve().parent.parent / "peers"
# What is measured side by side, in the order of the tables, and what each is.
NAMES = {
    "onefile": "onefile",
    "mutex": "mutex",
    "mutex_log": "mutex, log",
    "mutex_flush": "mutex, log, clwb",
}
# The most calls that `load` makes is 20,000; each number of callers divides this.
CALLS = 20_000
# A pause before each burst, so that one doesn't pay for the one before.
PAUSE = 0.05
NO_SUCH_INSTRUCTION = 3


def build_peers(folder):
    """The peers that can be built and run here, by name, and why others are left out."""
    rustc = shutil.which("rustc")
    if not rustc:
        return {}, ["no rustc, so there are no peers"]
    made, why = {}, []
    for name in list(NAMES)[1:]:
        path = folder / name
        words = [rustc, "-O", "--edition", "2021", "-o", path, PEERS / f"{name}.rs"]
        done = subprocess.run(words, stdout=subprocess.PIPE, stderr=subprocess.STDOUT, text=True)
        status = done.returncode or run([path, "1", "1"]).status
        if status == 0:
            made[name] = path
        elif status == NO_SUCH_INSTRUCTION:
            why.append(f"{name}: the processor has no clwb")
        else:
            why.append(f"{name}: status {status} {done.stdout.strip()}")
    return made, why


def words(program, folder):
    """The words that run each, by name, and why others are left out."""
    peers, why = build_peers(folder)
    return {"onefile": [program.path, "load"], **{name: [it] for name, it in peers.items()}}, why


class Race:
    """Bursts of all programs, in turns. All must print what the first one does."""

    def __init__(self, words, calls):
        self.words = words
        self.calls = calls
        self.samples = {}
        self.failed = []

    def burst(self, name, callers):
        """The nanoseconds a call of one burst: of processor, and by the clock. What a run without
        calls takes is taken off: the program's start, its threads and its table."""
        scripts = self.calls // callers
        taken = []
        for count in (0, scripts):
            time.sleep(PAUSE)
            done = run([*self.words[name], str(callers), str(count)])
            if done.status != 0:
                self.failed.append(f"{name} {callers} {count}: status {done.status}")
            taken.append(done)
        start, whole = taken
        calls = callers * scripts
        spent = whole.processor - start.processor, whole.clock - start.clock
        return [max(0, seconds) / calls * 1e9 for seconds in spent], whole.out

    def round(self, number):
        """A burst of each program with each number of callers. The order of the programs changes
        from round to round."""
        names = list(self.words)
        first = number % len(names)
        for callers in CALLERS:
            printed = {}
            for name in names[first:] + names[:first]:
                spent, printed[name] = self.burst(name, callers)
                self.samples.setdefault((name, callers), []).append(spent)
            for name, text in printed.items():
                if text != printed[next(iter(self.words))]:
                    self.failed.append(f"{name} {callers}: it prints another summary")

    def results(self):
        found = {}
        for (name, callers), samples in self.samples.items():
            processor, clock = (middle(it) for it in zip(*samples))
            found.setdefault(name, {})[str(callers)] = {"processor": processor, "clock": clock}
        return found
