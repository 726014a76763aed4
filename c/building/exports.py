"""What crates/of_c exports, as its sources declare it, and a program that has it all."""
import pathlib
import re
import typing

EXPORT = re.compile(r'pub extern "C" fn (\w+)\((.*?)\) -> u32', re.S)

# A value for each type of a parameter. No call is made with one: see `program`.
VALUES = {
    "u32": "0",
    "u64": "0",
    "usize": "0",
    "Global": "alloc",
    "&[u64]": "&[0]",
    "&[u8]": "&[0]",
    "&mut [u8]": "&mut [0]",
}


class Export(typing.NamedTuple):
    """A function that the crate exports: its module, its name, and its parameters' types."""

    module: str
    name: str
    types: list


def exports(crate):
    """The functions that the crate in a folder exports."""
    found = []
    for file in sorted((crate / "src").glob("*.rt")):
        for name, parameters in EXPORT.findall(file.read_text()):
            split = filter(None, re.split(r",\s*", " ".join(parameters.split())))
            found.append(Export(file.stem, name, [it.split(": ", 1)[1] for it in split]))
    return found


def value(kind):
    """What a call is given for a parameter of this type."""
    return VALUES.get(kind) or f"unsafe {{ &mut *(at as *mut {kind.removeprefix('&mut ')}) }}"


def program(crate):
    """The root file of the crate as a program that has each export.

    Its `main` names each of them in a call, so that the compiler keeps it. The calls are after a
    test that never holds, so no value that they are given matters.
    """
    root = (crate / "src/lib.rt").read_text()
    calls = [
        f"        let _ = {it.module}::{it.name}({', '.join(map(value, it.types))});\n"
        for it in exports(crate)
    ]
    return (
        f"{root}use std::alloc::Global;\nuse std::ptr::null_mut;\n\n"
        "fn main(rt: HostRuntime) {\n"
        "    let alloc: Global = rt.alloc();\n"
        "    let at: *mut u8 = null_mut();\n"
        f"    if !at.is_null() {{\n{''.join(calls)}    }}\n}}\n"
    )
