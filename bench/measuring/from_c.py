"""Calls from C on threads: the library for C beside locks around a plain struct."""
import shutil
import subprocess

from .program import TOP

# What is measured side by side, in the order of the tables, and what each is.
NAMES = {
    "memory": "onefile",
    "file": "onefile, in a file",
    "mutex": "mutex",
    "log": "mutex, log",
}
CALLS = 20_000


def compiled(names, folder):
    """Programs of bench/peers over the library, by name, and why there are none."""
    library = TOP / "c/out/libonefile.a"
    if not shutil.which("cc"):
        return {}, ["no cc, so there are no calls from C"]
    if not library.exists():
        return {}, ["no c/out/libonefile.a: c/build makes it"]
    made = {}
    for name in names:
        made[name] = folder / name
        command = ["cc", "-std=c11", "-O2", f"-I{library.parent}", TOP / f"bench/peers/{name}.c",
                   library, "-o", made[name], "-lpthread"]
        done = subprocess.run(command, stdout=subprocess.PIPE, stderr=subprocess.STDOUT, text=True)
        if done.returncode:
            return {}, [f"{name}.c: status {done.returncode} {done.stdout.strip()}"]
    return made, []


def words(_, folder):
    """The words that run each, by name, and why there are none."""
    made, why = compiled(("calls",), folder)
    return {name: [made["calls"], name] for name in NAMES if made}, why
