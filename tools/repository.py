"""What the scripts read of this repository: crates.txt, sources, definitions, edits and cases.

A script in another folder than tools/ finds this module so:

    TOP = pathlib.Path(__file__).resolve().parent.parent
    sys.path.insert(0, str(TOP / "tools"))
"""
import pathlib
import re
import typing

TOP = pathlib.Path(__file__).resolve().parent.parent
CRATES = TOP / "crates"

# -- crates.txt

GROUP = re.compile(r"# -- (.*?)\.?$")


class Crate(typing.NamedTuple):
    """A line of crates.txt: the words after the name, the crates used, the group's heading."""

    name: str
    flags: list
    uses: list
    group: str

    @property
    def folder(self):
        return CRATES / self.name

    def files(self, part, ending):
        """The files with this ending in a folder of the crate, such as specs, in their order."""
        return sorted((self.folder / part).rglob(f"*.{ending}"))


def read_crates(text):
    """The crates of a text such as crates.txt, by name, in its order."""
    found, group = {}, "Crates"
    for line in text.splitlines():
        heading = GROUP.match(line)
        group = heading[1] if heading else group
        head, _, used = line.partition("#")[0].partition(":")
        if head.strip():
            name, *flags = head.split()
            found[name] = Crate(name, flags, used.split(), group)
    return found


def crates():
    """The crates of the repository, by name, in the order of crates.txt."""
    return read_crates((TOP / "crates.txt").read_text())


def below(start, every):
    """The names of the crates among these that one stands on, each after those that it uses."""
    found = {}

    def visit(name):
        for used in every[name].uses:
            if used in every and used not in found:
                visit(used)
                found[used] = True

    visit(start)
    return list(found)


# -- sources: what the files of src/ declare

DECLARED = re.compile(
    r"\bfn (\w+)|\b(?:ensures|requires)\*? (\w+) \{|\bghost (\w+)[ :]"
    r"|\b(?:struct|enum|trait) (\w+)"
)


def declared(text):
    """The names that a .rt file declares: functions, named clauses, ghost members and types."""
    return {it for groups in DECLARED.findall(text) for it in groups if it}


def has_test(text, name):
    """Whether a .rt file has a test of this name."""
    return re.search(rf"#\[test\]\s+fn {re.escape(name)}\(", text) is not None


# -- definitions: what the files of specs/ define

MODIFIER = r"(?:abbrev|pub|unfoldable|opaque|record|data|instance|class)\s+"
HEAD = re.compile(rf"((?:{MODIFIER})*)([^\s:({{)}}]+)")
MEMBER = re.compile(rf"^\s*(?:{MODIFIER})*([\w?']+) (?:[({{].*)?:", re.M)
CONSTRUCTOR = re.compile(r"\s+(?:pub )?([^\s:]+)\s*:")
IMPORT = re.compile(r"(?:pub )?use ([\w.◌']+)\.\{(.*)\}")
LONG_IMPORT = re.compile(r"(?m)^((?:pub )?use [^{}\n]*\{[^}\n]*\n[^}]*\})")
COMMENT = re.compile(r"(^|\s)--(\s.*)?$")


def members(text):
    """The names that an .antt file declares at any depth: definitions, fields and constructors."""
    return set(MEMBER.findall(text))


def logical_lines(text):
    """The lines of an .antt file without comments, an import of several lines as one."""
    bare = "\n".join(COMMENT.sub("", line).rstrip() for line in text.splitlines())
    joined = LONG_IMPORT.sub(lambda it: it[1].replace("\n", " "), bare)
    return [line for line in joined.split("\n") if line.strip()]


class Definition(typing.NamedTuple):
    """All lines of an .antt file that begin with a name, and what is indented below them."""

    name: str
    lines: list

    @property
    def modifiers(self):
        return HEAD.match(self.lines[0])[1].split()

    @property
    def is_type(self):
        return "record" in self.modifiers or "data" in self.modifiers

    @property
    def is_declared(self):
        """Whether it has a type; a heading such as `pub mod` has none."""
        rest = self.lines[0][HEAD.match(self.lines[0]).end() :]
        return self.is_type or rest.startswith(" : ")

    def constructors(self):
        found = map(CONSTRUCTOR.match, self.lines[1:] if "data" in self.modifiers else [])
        return [it[1] for it in found if it]


class Module:
    """An .antt file: its definitions, and where the names come from that it imports."""

    def __init__(self, file):
        self.name = str(file.relative_to(CRATES).with_suffix(""))
        self.definitions, self.imports = {}, {}
        current = None
        for line in logical_lines(file.read_text()):
            imported = IMPORT.match(line)
            if imported:
                self.add_imports(*imported.groups())
                current = None
            elif line.startswith("unfolding "):
                # It stands between the type of a definition and what it is.
                pass
            elif head := HEAD.match(line):
                current = self.definitions.setdefault(head[2], Definition(head[2], []))
            if current:
                current.lines.append(line)
        found = self.definitions.values()
        self.holders = {it: holder.name for holder in found for it in holder.constructors()}

    def add_imports(self, path, names):
        module = path.removeprefix("Rattle.").replace(".", "/")
        for item in names.split(","):
            name, _, here = item.strip().partition(" as ")
            self.imports[(here or name).strip()] = (module, name.strip())


# -- edits: wrong bodies, each as lines `file: PATH`, `old: TEXT` and `new: TEXT`


class Unfit(Exception):
    """An edit that cannot be applied; the text says why, after the edit's name."""


class Change(typing.NamedTuple):
    """What an edit replaces in a file, and by what."""

    file: str
    old: str
    new: str


class Edit:
    """An edit. Lines before the first `file:` are for readers: the first one says what the wrong body
    does, and the second, which begins with REFUSED, by what it is refused."""

    REFUSED = "# refused by "

    def __init__(self, path):
        self.name, self.changes = path.stem, []
        lines = path.read_text().splitlines()
        first, second, *_ = [*lines, "", ""]
        self.does = first[2:] if first.startswith("# ") else ""
        is_told = second.startswith(self.REFUSED)
        self.refused = second.removeprefix(self.REFUSED) if is_told else ""
        file = old = None
        for line in lines:
            word, _, rest = line.partition(": ")
            if word == "file":
                file = rest
            elif word == "old":
                old = rest
            elif word == "new":
                self.changes.append(Change(file, old, rest))

    def named(self):
        """The calls, clauses and definitions by which it is refused."""
        return re.findall(r"`([^`]+)`", self.refused)

    def applied(self, folder):
        """The new texts of the files in a folder that it changes."""
        texts = {}
        for file, old, new in self.changes:
            path = folder / file
            if not path.exists():
                raise Unfit(f"names no file: {file}")
            text = texts.setdefault(path, path.read_text())
            # What it replaces must be there once.
            if text.count(old) != 1:
                raise Unfit(f"replaces what stands {text.count(old)} times: {old.strip()}")
            texts[path] = text.replace(old, new)
        if not texts:
            raise Unfit("replaces nothing")
        return texts


def edits(folder):
    """The edits in a folder, by name."""
    return {it.stem: Edit(it) for it in sorted(folder.glob("*.edit"))}


# -- worked cases: the folders of tests/cases, as docs/TESTING.md says


class Case(typing.NamedTuple):
    """A run of the program: its words, what it reads, and what it must print and end with."""

    name: str
    folder: pathlib.Path
    words: list
    given: bytes
    stdout: bytes
    status: int


def given(folder):
    """What the case in a folder reads: a text, or one that is repeated."""
    repeat = folder / "stdin.repeat"
    if not repeat.exists():
        return (folder / "stdin").read_bytes()
    text, count = repeat.read_bytes().rstrip(b"\n").rsplit(b" ", 1)
    return text * int(count)


def cases_in(folder):
    """The case in a folder, or those of its table `each`: a line has the numbers `FIRST-LAST` that
    stand in the input for NUMBER, and the ending of the file with the output."""
    words, status = (folder / "args").read_text().split(), int((folder / "status").read_text())
    text, table = given(folder), folder / "each"
    if not table.exists():
        return [Case(folder.name, folder, words, text, (folder / "stdout").read_bytes(), status)]
    found = []
    for line in table.read_text().splitlines():
        first, last, ending = re.fullmatch(r"(\d+)-(\d+) (\w+)", line).groups()
        stdout = (folder / f"stdout.{ending}").read_bytes()
        for number in range(int(first), int(last) + 1):
            own = text.replace(b"NUMBER", b"%d" % number)
            found.append(Case(f"{folder.name} {number}", folder, words, own, stdout, status))
    return found


def cases():
    """All worked cases."""
    folders = sorted(it.parent for it in (TOP / "tests/cases").glob("*/*/args"))
    return [case for folder in folders for case in cases_in(folder)]
