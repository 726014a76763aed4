"""The trial of a crate's wrong bodies: all of different functions in one copy, and one check.

A contract is modular: the verdict on a function rests on its own body and on the contracts of what
it calls. So wrong bodies of different functions do not disturb each other, and each must be refused
at its own function.

- A function that is only refused because of one that it calls has not been tried: its wrong body
  goes to a later round, as does a second one of the same function.
- An edit of a definition or of a contract may change what other functions have to prove. It is
  tried alone, by a check of the functions that its line `refused by` names: one must be refused.
  If the line names none of the crate, a lemma that it names must be rejected.
- First the crate is checked as it is, in its own place: all of it must be proved. In each round
  only edited functions may be refused by themselves.
- A round that the check cannot read, or that breaks more than it should, counts for nothing. It is
  halved until the edit that does so is alone.
"""
import contextlib
import os
import pathlib
import shutil
import tempfile
import typing

import repository
from wrong_bodies import checks, places
from wrong_bodies.checks import Verdict

WRONG = repository.TOP / "tests/wrong"
PARTS = ("src", "specs", "proofs")


class Body(typing.NamedTuple):
    """A wrong body: its edit, the functions that it changes, whether it changes nothing else."""

    edit: repository.Edit
    functions: frozenset
    is_modular: bool


class Result(typing.NamedTuple):
    """What the trial of a wrong body came to: where it was refused, or why that is not so."""

    name: str
    refused: str
    fault: str | None = None


def body(crate, edit):
    """The wrong body of an edit, by the places of what it replaces. Unfit if it does not apply."""
    edit.applied(crate.folder)
    texts, found = {}, []
    for file, old, new in edit.changes:
        text = texts.setdefault(file, (crate.folder / file).read_text())
        found.append(places.function(file, text, text.index(old)))
        texts[file] = text.replace(old, new)
    return Body(edit, frozenset(found) - {None}, None not in found)


def link(source, target):
    """A second name for a file, or a copy on another disk."""
    try:
        os.link(source, target)
    except OSError:
        shutil.copy2(source, target)


@contextlib.contextmanager
def room(crate, every):
    """A copy of the crate and of those below it, with what checks have kept of them in out/."""
    with tempfile.TemporaryDirectory(prefix="wrong-") as name:
        top = pathlib.Path(name)
        used = [it for it in every if it in repository.below(crate.name, every)] + [crate.name]
        lines = (f"{' '.join([it, *every[it].flags])}: {' '.join(every[it].uses)}" for it in used)
        (top / "crates.txt").write_text("".join(f"{it}\n" for it in lines))
        if (repository.TOP / "HANDLES").exists():
            shutil.copy(repository.TOP / "HANDLES", top)
        for it in used:
            for part in PARTS:
                if (every[it].folder / part).exists():
                    shutil.copytree(every[it].folder / part, top / "crates" / it / part)
            # (another check may be at work there: what it takes away in the meantime is not needed)
            with contextlib.suppress(OSError, shutil.Error):
                kept = top / "crates" / it / "out"
                shutil.copytree(every[it].folder / "out", kept, copy_function=link)
        yield top / "crates" / crate.name


def chosen(folder, bodies):
    """Applies as many of these to a copy as go together, and gives those and the others."""
    now, later, taken = [], [], set()
    for it in bodies:
        try:
            texts = {} if taken & it.functions else it.edit.applied(folder)
        except repository.Unfit:
            texts = {}
        for path, text in texts.items():
            path.write_text(text)
        taken |= it.functions if texts else set()
        (now if texts else later).append(it)
    return now, later


class Trial:
    """Tries wrong bodies of a crate. Each check has so many jobs, or as many as it likes."""

    def __init__(self, crate, every, jobs, say):
        self.crate, self.every, self.jobs, self.say = crate, every, jobs, say
        self.rounds, self.results = 0, []

    def run(self, edits):
        """The results of these edits, by their names."""
        bodies = []
        for edit in edits:
            try:
                bodies.append(body(self.crate, edit))
            except repository.Unfit as why:
                self.note(edit, fault=f"BAD EDIT: it {why}")
        text = self.checked("as it is", self.crate.folder)
        if checks.is_proved(text):
            self.try_together([it for it in bodies if it.is_modular])
            for it in bodies:
                if not it.is_modular:
                    self.try_alone(it, checks.verdicts(text))
        for it in bodies if not checks.is_proved(text) else []:
            self.note(it.edit, fault=f"not tried: {self.crate.name} is not proved as it is")
        return sorted(self.results)

    def note(self, edit, refused=(), fault=None):
        self.results.append(Result(edit.name, ", ".join(sorted(refused)), fault))

    def checked(self, what, folder, only=()):
        text, seconds = checks.check(folder, only, self.jobs)
        self.say(f"{self.crate.name}: {what}, {seconds:.0f} s")
        return text

    def try_together(self, bodies):
        """Tries wrong bodies of functions, in as many rounds as they need."""
        while bodies:
            with room(self.crate, self.every) as folder:
                now, bodies = chosen(folder, bodies)
                self.rounds += 1
                what = f"round {self.rounds}, {len(now)} wrong bodies"
                text = self.checked(what, folder)
            fault = checks.unread(text)
            if fault and len(now) == 1:
                self.note(now[0].edit, fault=f"BAD EDIT: {fault}")
                continue
            again = now if fault else self.judged(now, checks.verdicts(text))
            if len(again) < len(now):
                bodies = again + bodies
            else:
                half = len(again) // 2
                self.try_together(again[:half])
                self.try_together(again[half:])

    def judged(self, now, found):
        """Notes what a round came to, and gives the wrong bodies that it did not try."""
        at = {it: it.paths(found) for body in now for it in body.functions}
        edited = {path for paths in at.values() for path in paths}
        broken = sorted(it for it in found if found[it] == Verdict.REFUSED and it not in edited)
        if broken and len(now) == 1:
            some = ", ".join(broken)
            self.note(now[0].edit, fault=f"NOT REFUSED at its own function, but at {some}")
        if broken:
            return now if len(now) > 1 else []
        return [it for it in now if not self.is_judged(it, at, found, len(now) == 1)]

    def is_judged(self, it, at, found, is_alone):
        """Notes what came of a wrong body of functions. False if they were not all tried."""
        unclear = [str(function) for function in it.functions if len(at[function]) != 1]
        if unclear:
            self.note(it.edit, fault=f"no function, or several, that the check calls {unclear[0]}")
            return True
        said = {str(function): found[at[function][0]] for function in it.functions}
        refused = {name for name in said if said[name] == Verdict.REFUSED}
        proved = sorted(name for name in said if said[name] == Verdict.PROVED)
        if proved:
            self.note(it.edit, fault=f"NOT REFUSED: {proved[0]} is proved")
        elif refused and (is_alone or len(refused) == len(said)):
            self.note(it.edit, refused)
        elif is_alone:
            self.note(it.edit, fault="NOT REFUSED at its own function, but at one that it calls")
        else:
            return False
        return True

    def try_alone(self, it, found):
        """Tries an edit of definitions or contracts, by what its line `refused by` names."""
        named = it.edit.named()
        paths = sorted(path for path in found if any(path.endswith(f"::{own}") for own in named))
        with room(self.crate, self.every) as folder:
            chosen(folder, [it])
            text = self.checked(f"{it.edit.name} alone", folder, paths)
        said = checks.verdicts(text)
        refused = [it for it in paths if said.get(it) not in (None, Verdict.PROVED)]
        if not paths:
            refused = checks.rejected(text) & set(named)
        if fault := checks.unread(text):
            self.note(it.edit, fault=f"BAD EDIT: {fault}")
        elif refused:
            self.note(it.edit, {path.removeprefix(f"{self.crate.name}::") for path in refused})
        else:
            some = ", ".join(paths or named)
            self.note(it.edit, fault=f"NOT REFUSED by what its edit names: {some}")
