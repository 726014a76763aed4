"""What trials came to, kept in tests/wrong/CRATE/VERDICT with a sum of what it rests on.

A refusal rests on the crate's sources, definitions and proofs, and on its edits; of the crates
below it on their definitions and on the contracts of their sources, since nothing above sees a body;
and on the lines of crates.txt. Comments and the attributes `inline` and `cold` don't count: no proof
sees them. The sum does not name the kit: another one may prove more or less.
"""
import hashlib

import repository
from wrong_bodies import places, trial

# the sum's line in the file
SUM = "sum: "


def edits(name):
    """The edits of a crate that a trial tries: `rt ci` tries those of must-fail."""
    return list(repository.edits(trial.WRONG / name).values())


def parts(crate, every):
    """What the verdict on a crate rests on, piece by piece."""
    own = [it for part in ("src", "specs", "proofs") for it in crate.files(part, "*")]
    for file in own:
        if file.is_file():
            yield str(file.relative_to(repository.TOP)), places.seen(file.read_text())
    for file in sorted((trial.WRONG / crate.name).glob("*.edit")):
        yield str(file.relative_to(repository.TOP)), file.read_text()
    for name in [crate.name, *sorted(repository.below(crate.name, every))]:
        yield name, " ".join(every[name].flags + every[name].uses)
    for name in sorted(repository.below(crate.name, every)):
        for file in every[name].files("specs", "antt"):
            yield str(file.relative_to(repository.TOP)), places.seen(file.read_text())
        for file in every[name].files("src", "rt"):
            yield str(file.relative_to(repository.TOP)), places.contracts(file.read_text())


def sum_of(crate, every):
    found = hashlib.sha256()
    for name, text in parts(crate, every):
        found.update(f"{name} {len(text)}\n{text}".encode())
    return found.hexdigest()


def file_of(crate):
    return trial.WRONG / crate.name / "VERDICT"


def is_kept(crate, every):
    """Whether the crate's verdict is the one of its files as they are."""
    file = file_of(crate)
    return file.exists() and file.read_text().startswith(f"{SUM}{sum_of(crate, every)}\n")


def keep(crate, at, results):
    """Keeps the results of a crate whose wrong bodies are all refused, with its sum."""
    lines = [f"{SUM}{at}", *(f"{it.name}: refused at {it.refused}" for it in results)]
    file_of(crate).write_text("".join(f"{it}\n" for it in lines))
