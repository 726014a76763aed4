"""A built program: runs of it, what they take, and how many instructions they are."""
import os
import pathlib
import shutil
import subprocess
import sys
import tempfile
import time
import typing

TOP = pathlib.Path(__file__).resolve().parent.parent.parent
# As bin/program runs a build without proofs.
CHECKED_BUILD = "detect_leaks=0:allocator_may_return_null=1"


class Taken(typing.NamedTuple):
    """What a run took: seconds of processor and by the clock, page faults; and what it wrote."""

    status: int
    processor: float
    clock: float
    faults: int
    out: bytes


def middle(values):
    """The median, the least and the greatest of an odd number of values."""
    values = sorted(values)
    return [values[len(values) // 2], values[0], values[-1]]


def run(words, text=b""):
    """Runs a program on a text. Files, not pipes, so that only the program is measured."""
    with tempfile.TemporaryFile() as given, tempfile.TemporaryFile() as written:
        given.write(text)
        given.seek(0)
        files = [(os.POSIX_SPAWN_DUP2, given.fileno(), 0)]
        files += [(os.POSIX_SPAWN_DUP2, written.fileno(), 1)]
        files += [(os.POSIX_SPAWN_OPEN, 2, os.devnull, os.O_WRONLY, 0)]
        environment = {**os.environ, "ASAN_OPTIONS": CHECKED_BUILD}
        begun = time.perf_counter()
        child = os.posix_spawn(words[0], words, environment, file_actions=files)
        _, ended, usage = os.wait4(child, 0)
        clock = time.perf_counter() - begun
        written.seek(0)
        status = os.waitstatus_to_exitcode(ended)
        processor = usage.ru_utime + usage.ru_stime
        return Taken(status, processor, clock, usage.ru_minflt, written.read())


def built(path):
    """The file that runs if `path` is run, which may be bin/onefile, and whether it is proved."""
    if path.resolve() != TOP / "bin/onefile":
        return path.resolve(), path.suffix != ".unproved"
    environment = {"ONEFILE_PROVED": "1", **os.environ}
    how = {"stdin": subprocess.DEVNULL, "stdout": subprocess.DEVNULL, "stderr": subprocess.PIPE}
    done = subprocess.run([path, "--version"], env=environment, text=True, **how)
    if done.returncode != 0:
        sys.exit(done.stderr.strip())
    is_proved = "onefile: not proved" not in done.stderr
    return TOP / "crates/onefile/out" / ("onefile" if is_proved else "onefile.unproved"), is_proved


class Program:
    """What bench/run measures."""

    def __init__(self, path):
        self.path, self.is_proved = built(path)
        if not self.path.exists():
            sys.exit(f"{self.path} isn't built: bin/prove proves and builds it")
        # A build without proofs has checks of its own that valgrind can't run.
        self.valgrind = shutil.which("valgrind") if self.is_proved else None
        self.time = shutil.which("time")
        said = run([self.path, "--help"]).out.decode()
        self.commands = {line.split()[0] for line in said.splitlines() if line.strip()}

    def run(self, words, text):
        return run([self.path, *words], text)

    def answer(self, words, text):
        """What it prints."""
        done = self.run(words, text)
        if done.status != 0:
            sys.exit(f"{' '.join(words)}: status {done.status}")
        return done.out

    def megabytes(self, words, text):
        """The most memory of a run, or None without GNU time. What the system says of a child that
        Python starts is no less than what Python has."""
        if not self.time:
            return None
        words = [self.time, "-f", "%M", self.path, *words]
        how = {"stdout": subprocess.DEVNULL, "stderr": subprocess.PIPE}
        environment = {**os.environ, "ASAN_OPTIONS": CHECKED_BUILD}
        said = subprocess.run(words, input=text, env=environment, **how).stderr.decode()
        return int(said.split()[-1]) / 1024

    def instructions(self, words, text):
        """How many instructions a run is, or None without valgrind."""
        if not self.valgrind:
            return None
        with tempfile.TemporaryDirectory() as folder:
            out = f"--callgrind-out-file={pathlib.Path(folder) / 'out'}"
            words = [self.valgrind, "--tool=callgrind", out, self.path, *words]
            how = {"stdout": subprocess.DEVNULL, "stderr": subprocess.PIPE}
            said = subprocess.run(words, input=text, **how).stderr.decode()
        counts = [line.split()[-1] for line in said.splitlines() if "Collected" in line]
        return int(counts[0]) if counts else None

    def measured(self, it, rounds):
        """What a run takes, for the results; None if it fails or there is no such command."""
        if it.words[0] not in self.commands:
            return None
        text = it.text(self.answer)
        taken = [self.run(it.words, text) for _ in range(rounds)]
        if any(one.status for one in taken):
            return None
        count = self.instructions(it.words, text)
        if count is not None and it.less:
            count -= self.instructions(it.less[0], it.less[1](self.answer))
        return {
            "units": it.units,
            "unit": it.unit,
            "instructions": count,
            "seconds": middle([one.processor for one in taken]),
            "megabytes": self.megabytes(it.words, text),
            "faults": middle([one.faults for one in taken])[0],
            "read": len(text),
        }
