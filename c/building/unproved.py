"""The functions that crates/of_c exports, as an object that nobody has proved.

A library cannot be built without proofs, and a program can. So of_c is made a program, in a copy
of the crates that it stands on. `rt try` builds it, and its functions are taken from there.
"""
import shutil
import subprocess

import kit
import repository

from .exports import exports, program


class NotBuilt(Exception):
    """Why there is no object."""


def copy_as_program(folder):
    """Copies what a build reads, with of_c as a program. Gives the folder of that crate."""
    every = repository.crates()
    lines = []
    for name in [*repository.below("of_c", every), "of_c"]:
        lines.append(f"{name}: {' '.join(every[name].uses)}\n")
        shutil.copytree(every[name].folder / "src", folder / "crates" / name / "src")
    (folder / "crates.txt").write_text("".join(lines))
    crate = folder / "crates/of_c"
    (crate / "src/main.rt").write_text(program(crate))
    (crate / "src/lib.rt").unlink()
    return crate


def last_lines(log):
    return "\n".join(log.read_text(errors="replace").splitlines()[-12:])


def make_object(room, made):
    """Makes the object, in a folder for what is needed meanwhile."""
    crate = copy_as_program(room)
    caught = room / "caught"
    if status := kit.catch(crate, caught, ["module.bc"]):
        raise NotBuilt(f"{last_lines(caught / 'log')}\n`rt try` builds no module: status {status}")
    names = [it.name for it in exports(repository.CRATES / "of_c")]
    try:
        kit.object_of(caught / "module.bc", names, made)
    except (OSError, ValueError, subprocess.SubprocessError) as error:
        raise NotBuilt(f"{error}\nthe kit is not as tools/kit.py expects; tests/kit says what differs")
