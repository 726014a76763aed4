"""In which function a place of a .rt file is. The files are in the layout of `rt fmt`."""
import re
import typing

HEAD = re.compile(r"^( *)(?:pub(?:\([^)]*\))? )?(?:unsafe |async |const |extern \"C\" )*fn (\w+)")
HOLDER = re.compile(r"^( *)(?:pub(?:\([^)]*\))? )?(?:unsafe )?(?:impl\b|trait )")
NAME = re.compile(r"\w+(?=\W*$)")
# A line that no proof sees: a comment, or whether calls of a function are compiled in line.
UNSEEN = re.compile(r"\s*(//|--|#\[(inline(\(\w+\))?|cold)\]$)")


class Function(typing.NamedTuple):
    """A function: its module, as in `machine::helping`, its impl's type and trait, its name."""

    module: str
    holder: str
    trait: str
    name: str

    def paths(self, named):
        """Those of these paths, as a check names functions, that are this one's.

        A function is `CRATE::MODULE::NAME`. A method is `CRATE::MODULE::TYPETRAIT::NAME`, with the
        type in all its words, and the module that of the type, which may not be the impl's.
        """
        found = [it for it in named if self.is_like(it.split("::")[1:])]
        here = [it for it in found if it.split("::")[1:-2] == self.module.split("::")]
        return here if len(found) > 1 and here else found

    def is_like(self, words):
        if words[-1] != self.name:
            return False
        if not self.holder:
            return "::".join(words[:-1]) == self.module
        held = words[-2] if len(words) > 1 else ""
        return held.startswith(self.holder) and held.endswith(self.trait or self.holder)

    def __str__(self):
        held = f"{self.holder}{self.trait}" if self.holder else ""
        return "::".join(it for it in (self.module, held, self.name) if it)


def module_of(file):
    """The module of a file of src/, such as `machine::helping` of src/machine/helping.rt."""
    words = file.removeprefix("src/").removesuffix(".rt").split("/")
    return "::".join(words[:-1] if words[-1] in ("lib", "main") else words)


def bare(text):
    """A piece of a head without what is in angle brackets."""
    while (shorter := re.sub(r"<[^<>]*>", "", text)) != text:
        text = shorter
    return text


def held(lines, at):
    """The type and the trait of the impl, or the trait, whose head begins in this line."""
    head = ""
    for line in lines[at:]:
        head += " " + line.strip()
        if "{" in line:
            break
    # (an arrow's bracket closes nothing)
    head = bare(head.replace("->", "").partition("{")[0].partition(" where ")[0])
    if "trait " in head:
        return re.search(r"trait (\w+)", head)[1], ""
    trait, _, holder = head.partition("impl")[2].rpartition(" for ")
    return NAME.search(holder)[0], NAME.search(trait)[0] if trait else ""


def body(lines, head):
    """The first and the last line of the body whose function's head is in this line, or None."""
    indent, depth = HEAD.match(lines[head])[1], 0
    for first in range(head, len(lines)):
        line = lines[first]
        if not line.startswith(indent + " "):
            if line.endswith("{}"):
                return first, first
            if line.endswith("{"):
                return first, lines.index(indent + "}", first)
        depth += line.count("{") - line.count("}")
        if depth == 0 and line.endswith(";"):
            return None
    return None


def bodies(text):
    """Of the functions of a text the head's line, and the first and last line of the body."""
    lines = text.split("\n")
    heads = [at for at, line in enumerate(lines) if HEAD.match(line)]
    return [(it, *span) for it in heads if (span := body(lines, it))]


def function(file, text, at):
    """The function in whose body this place is, or None: in a contract, or outside of functions."""
    lines, line = text.split("\n"), text.count("\n", 0, at)
    found = [it for it in bodies(text) if it[1] <= line <= it[2]]
    if not file.startswith("src/") or not found:
        return None
    # (the innermost)
    head = found[-1][0]
    indent, name = HEAD.match(lines[head]).groups()
    holders = [(it, HOLDER.match(lines[it])) for it in range(head)]
    above = [it for it, found in holders if found and len(found[1]) < len(indent)]
    holder, trait = held(lines, above[-1]) if above else ("", "")
    return Function(module_of(file), holder, trait, name)


def seen(text):
    """A .rt or .antt file without the lines that no proof sees."""
    return "\n".join(it for it in text.split("\n") if not UNSEEN.match(it))


def contracts(text):
    """What callers may rest on of a .rt file: what a proof sees of it, but for functions' bodies."""
    lines, gone = text.split("\n"), set()
    for _, first, last in bodies(text):
        gone |= set(range(first + 1, last + 1))
    return seen("\n".join(line for at, line in enumerate(lines) if at not in gone))
