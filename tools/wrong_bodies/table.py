"""The table of wrong bodies: makes docs/REFUSED.md, and compares docs/WRONG.md with what there is.

docs/REFUSED.md has a row for each edit of tests/wrong and of crates/*/must-fail, made of the edit's
first two lines: what the wrong body does, and `refused by` with calls and clauses. docs/WRONG.md,
written by hand, has what no clause refuses.

- each edit has these two lines, and can be applied: what it replaces is there once in the file that
  it names (`rt ci` passes one that cannot)
- each row has three cells: the body, what refuses it, and what shows that: an edit, a test, a case,
  a script, or the words `by reading`
- what a row names exists: edits, tests, cases and scripts, and in its second cell the calls,
  clauses and definitions of its crates: that of its edit, those that the row names, as in
  `of_mem::Work::run_on`, and if there is none of these, any
- a row names a clause, or the checker, or says that **no clause** refuses the body
"""
import functools
import re
import typing

import repository

PAGE = repository.TOP / "docs/WRONG.md"
MADE = repository.TOP / "docs/REFUSED.md"
HEAD = """# Wrong bodies that a check refuses

Each row is an edit: what the changed body does, and the call and clause that refuse it. Edits are in `tests/wrong`, in the folder of their crate; those with a star are in the crate's `must-fail`, and each `rt ci` tries them. `tools/wrong --write` makes this page from the first lines of the edits; [WRONG.md](WRONG.md) has what no clause refuses, and how edits are tried.
"""
CRATES = {it.name for it in repository.CRATES.iterdir()}
SHOWN = re.compile(r"\b(edit|test|case|script) `([^`]+)`")
SPAN = re.compile(r"`([^`]+)`")


class Row(typing.NamedTuple):
    """A row: where it is, and its cells."""

    where: str
    cells: list

    def edits(self):
        """The edits that its last cell names, as CRATE::NAME."""
        return [name for kind, name in SHOWN.findall(self.cells[-1]) if kind == "edit"]

    def crates(self):
        """The crates that it names, and those of its edits; all, if there is none."""
        parts = {part for cell in self.cells for it in SPAN.findall(cell) for part in it.split("::")}
        named = parts | {it.partition("::")[0] for it in self.edits()}
        return named & CRATES or CRATES


def rows():
    """The rows of the tables of docs/WRONG.md, and those of the edits."""
    inside = False
    for number, line in enumerate(PAGE.read_text().splitlines(), 1):
        if inside and line.startswith("| "):
            yield Row(f"docs/WRONG.md, line {number}", line.strip("| ").split(" | "))
        inside = line.startswith("| The body |") or inside and line.startswith("|")
    for name, (file, edit) in edits().items():
        where = str(file.relative_to(repository.TOP))
        yield Row(where, [edit.does, edit.refused, f"edit `{name}`"])


def shown(file, edit):
    """An edit's name on the page, with a star if each `rt ci` tries it."""
    return f"`{edit.name}`" + (" *" if file.parent.name == "must-fail" else "")


@functools.cache
def edits():
    """The edits by CRATE::NAME, each with its file."""
    found = {}
    for pattern, up in (("tests/wrong/*", 0), ("crates/*/must-fail", 1)):
        for folder in repository.TOP.glob(pattern):
            crate = folder.parent.name if up else folder.name
            for name, edit in repository.edits(folder).items():
                found[f"{crate}::{name}"] = folder / f"{name}.edit", edit
    return dict(sorted(found.items()))


def page():
    """The text of docs/REFUSED.md, in the order of crates.txt."""
    parts = [HEAD]
    for crate in repository.crates():
        own = [(file, it) for name, (file, it) in edits().items() if name.startswith(f"{crate}::")]
        lines = [f"| {it.does} | {it.refused} | {shown(file, it)} |" for file, it in own]
        if lines:
            head = ["| The body | Refused by | Edit |", "|---|---|---|"]
            parts.append("\n".join([f"## {crate}\n", *head, *lines]) + "\n")
    return "\n".join(parts)


def unfit(name, edit):
    """Why an edit cannot be applied, or None."""
    try:
        edit.applied(repository.CRATES / name.partition("::")[0])
    except repository.Unfit as why:
        return str(why)


@functools.cache
def names(crate):
    """The words that the sources and definitions of a crate declare."""
    found = set()
    for file in (repository.CRATES / crate / "src").rglob("*.rt"):
        found |= repository.declared(file.read_text())
    for file in (repository.CRATES / crate / "specs").rglob("*.antt"):
        found |= repository.members(file.read_text())
    return found


def is_test(path):
    """Whether a test has this path: crate, module, name."""
    crate, *module, name = path.split("::")
    file = repository.CRATES / crate / "src" / "/".join(module)
    file = file.with_name(file.name + ".rt")
    return file.exists() and repository.has_test(file.read_text(), name)


def exists(kind, name):
    if kind == "edit":
        return name in edits()
    if kind == "test":
        return is_test(name)
    folders = "tests/cases/" if kind == "case" else ("tools/", "tests/")
    return name.startswith(folders) and (repository.TOP / name).exists()


def undeclared(row):
    """The names in a row's second cell that no source declares."""
    parts = [part for span in SPAN.findall(row.cells[1]) for part in span.split("::")]
    known = {"laws", "text", *CRATES}.union(*map(names, row.crates()))
    return [it for it in parts if it not in known]


def faults(row):
    """What is wrong with a row."""
    if len(row.cells) != 3:
        yield f"{len(row.cells)} cells, and not three"
        return
    does, refused, shown = row.cells
    if not does or not refused:
        yield f"it does not begin with `# ` and what the body does, and `{repository.Edit.REFUSED}`"
        return
    said = SHOWN.findall(shown)
    if not said and "by reading" not in shown:
        yield "it is shown by nothing"
    for kind, name in said:
        if not exists(kind, name):
            yield f"no {kind} {name}"
    if not re.search(r"`|the checker|\*\*no clause\*\*", refused):
        yield "it names no clause, and does not say that there is none"
    where = "no crate" if row.crates() == CRATES else " or ".join(sorted(row.crates()))
    for name in undeclared(row):
        yield f"{where} declares no {name}"


def tries():
    """The page that is made, each row and each edit, and what is wrong with it or None."""
    is_made = MADE.exists() and MADE.read_text() == page()
    yield "docs/REFUSED.md", None if is_made else "is not what tools/wrong --write makes of the edits"
    told = {}
    for row in rows():
        wrong = list(faults(row))
        yield from ((row.where, it) for it in wrong or [None])
        for edit in row.edits():
            told.setdefault(edit, []).append(row.where)
    for name, (file, edit) in edits().items():
        wrong, places = unfit(name, edit), told.get(name, [])
        if len(places) != 1:
            wrong = f"has {len(places)} rows: {'; '.join(places)}" if places else "has no row"
        yield str(file.relative_to(repository.TOP)), wrong
