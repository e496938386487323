"""Writes the program payload_vectors, and the library of programs over lines, as plain Rust in tools/lines."""
import os
import re

from erasing import erase
from layout import PROGRAM, PROGRAM_LIBRARY
from output import check_root
from tokens import Token, joined

# Roots of crates: they are written by hand, since they read and print by other handles, or hold macros.
ROOTS = {"lib.rt", "main.rt"}


def use_macros(f):
    """`write!` and `writeln!` to a text become macros whose fault is that of the sources."""
    if "use std::fmt::Write;" not in joined(f.ts):
        return
    names = {"write": "put", "writeln": "put_line"}
    for i, t in enumerate(f.ts):
        if t.text in names and f.ts[i + 1].text == "!":
            t.text = f"{PROGRAM_LIBRARY}::{names[t.text]}"


def move_hex(f):
    """The crate `hex` becomes a module of the library."""
    for i in reversed(range(len(f.ts))):
        t = f.ts[i]
        if t.kind == "word" and t.text == "hex" and f.ts[i + 1].text == "::" and f.ts[i - 1].text != "::":
            pre, t.pre = t.pre, ""
            f.ts[i:i] = [Token(pre, "crate", "word", t.line), Token("", "::", "p", t.line)]


def place(crate, rel):
    """The path of a file in tools/lines."""
    folder = "" if crate == PROGRAM_LIBRARY else f"bin/{crate}/"
    return f"src/{folder}{rel[:-3]}.rs"


def program_files(sources, passed_on):
    """Path, source and text of each generated file."""
    for (crate, rel), f in sources.items():
        if rel in ROOTS:
            continue
        use_macros(f)
        move_hex(f)
        erase(f, None, None, passed_on)
        yield place(crate, rel), f.path, joined(f.ts)


def check_roots(folder, sources):
    """Refuses a root that does not name the modules of its crate."""
    for crate, rel in sources:
        if rel in ROOTS:
            modules = set(re.findall(r"\bmod (\w+);", joined(sources[crate, rel].ts)))
            check_root(os.path.join(folder, place(crate, rel)), modules)
