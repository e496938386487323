"""Writes the crates of the library for C as plain Rust in rust-c, with an export for each of their calls."""
import os
import re

from erasing import erase
from layout import C_LIBRARY
from output import check_root
from source import item_start
from tokens import Token, close, elements, joined, plain

# Files whose place in rust-c is taken by code that is written by hand, since only these turn pointers into boxes.
BY_HAND = {("handle", "handle.rt"), ("handle", "loose.rt"), ("c_path", "handle.rt"), ("c_path", "loose.rt")}
# Modules that are not there, since a module that is written by hand does without them.
LEFT_OUT = {("handle", "loose"), ("c_path", "loose")}
HEAD = "use core::slice::{from_raw_parts, from_raw_parts_mut};\n"
DOC = """\
//! The calls that `c/src/calls.c` makes: for each one the bytes and items at a pointer become a slice.
//!
//! # Safety
//!
//! Each pointer is valid, also with a length of 0, and no argument that a call writes overlaps another one: the rules of the header,
//! with which `calls.c` replaces each `NULL`. A `bool` is 0 or 1, and a handle is one that these calls wrote, or all zeros.
#![allow(clippy::missing_safety_doc, clippy::too_many_arguments)]
"""


def name_crates(f, crate):
    """Makes the paths of the crates of the library for C paths below the root of rust-c."""
    i = 0
    while i < len(f.ts):
        t = f.ts[i]
        of = t.text.removeprefix("codec_payload_") if t.kind == "word" else ""
        module = C_LIBRARY[crate] if of == "crate" else C_LIBRARY.get(of) if of != t.text else None
        if module and f.ts[i + 1].text == "::":
            t.text = "crate"
            f.ts[i + 1:i + 1] = [Token("", "::", "p", t.line), Token("", module, "word", t.line)]
            i += 2
        i += 1


def rewrite_calls(f):
    """Gives calls that may fail to allocate, and that the library has nowhere else, names of the traits in rust-c."""
    i = 0
    while i < len(f.ts):
        if plain(f.ts[i:i + 5]) == ". collect ( alloc )":
            f.ts[i + 1].text = "try_gather"
            f.needs.add("TryGather")
        elif plain(f.ts[i:i + 9]) == ". clone ( ) . ok ( ) ?":  # of a value that allocates nothing
            del f.ts[i + 4:i + 9]
        i += 1


def parameter(f, a, b):
    """The name of a parameter, its type in Rust, and the type of the items if it is a slice."""
    name, text = f.ts[a].text, plain(f.ts[a + 2:b])
    items = re.fullmatch(r"& (?:mut )?\[ (\w+) \]", text)
    return name, text, items and items.group(1)


def export(f, module, i):
    """The text of the export for the function at `i`, and the names of structs that it has."""
    name = f.ts[i + 1].text
    opening = i + 2
    params = [parameter(f, a, b) for a, b in elements(f.ts, opening)[0]]
    params = [it for it in params if it[1] != "Global"]
    behind = close(f.ts, opening) + 1
    answer = f" -> {f.ts[behind + 1].text}" if f.ts[behind].text == "->" else ""
    given, passed = [], []
    for one, kind, items in params:
        pointer = "*mut" if kind.startswith("& mut") else "*const"
        made = "from_raw_parts_mut" if pointer == "*mut" else "from_raw_parts"
        given.append(f"{one}: {pointer} {items}, {one}_len: usize" if items else f"{one}: {kind}")
        passed.append(f"unsafe {{ {made}({one}, {one}_len) }}" if items else one)
    used = {word for _, kind, _ in params for word in re.findall(r"\b[A-Z]\w+", kind)}
    text = (f"#[unsafe(export_name = \"proved_{name}\")]\nunsafe extern \"C\" fn {name}({', '.join(given)}){answer} {{\n"
            f"    crate::calls::{module}::{name}({', '.join(passed)})\n}}\n")
    return text, used


def take_exports(f, module):
    """Makes the exports of a file plain functions; returns what `export` gives for each."""
    found, i = [], 0
    while i < len(f.ts):
        t = f.ts[i]
        if t.text == "extern" and f.ts[i + 1].text == '"C"' and f.ts[i + 2].text == "fn":
            found.append(export(f, module, i + 2))
            start = item_start(f, i)
            if plain(f.ts[start:start + 7]) != "# [ unsafe ( no_mangle ) ]":
                f.refuse(t, "an export that is not no_mangle")
            pre = f.ts[start].pre
            del f.ts[i:i + 2]
            del f.ts[start:start + 7]
            f.ts[start].pre = pre
            i = start
        i += 1
    return found


def homes(f, module):
    """The path of each type that a file of the calls declares or imports, by its name."""
    found = {name: f"crate::calls::{module}::{name}" for name in re.findall(r"\bstruct (\w+)", plain(f.ts))}
    for path, names in re.findall(r"\buse (crate ::[^;{]*?) :: (\{[^}]*\}|\w+) ;", plain(f.ts)):
        for name in re.findall(r"\w+", names):
            found[name] = f"{path} :: {name}".replace(" ", "")
    return found


def drop_left_out(f, crate):
    """Drops the modules that are left out."""
    i = 0
    while i < len(f.ts):
        if f.ts[i].text == "mod" and (crate, f.ts[i + 1].text) in LEFT_OUT:
            start = item_start(f, i)
            pre = f.ts[start].pre
            del f.ts[start:i + 3]
            f.ts[start].pre = pre
            i = start
        i += 1


def make_public(f):
    """Makes the modules of the calls visible in the crate."""
    for i in range(len(f.ts) - 1, -1, -1):
        if f.ts[i].text == "mod" and f.ts[i].kind == "word" and f.ts[i - 1].text != "pub":
            pre, f.ts[i].pre = f.ts[i].pre, " "
            f.ts[i:i] = [Token(pre, "pub", "word", f.ts[i].line)]


def c_files(sources, passed_on):
    """Path, source and text of each generated file of rust-c."""
    exports, types = [], {}
    for (crate, rel), f in sources.items():
        if (crate, rel) in BY_HAND:
            continue
        name_crates(f, crate)
        rewrite_calls(f)
        if crate == "c" and rel != "lib.rt":
            found = take_exports(f, rel[:-3])
            exports += [text for text, _ in found]
            used = {it for _, names in found for it in names}
            places = homes(f, rel[:-3])
            if used - places.keys():
                f.refuse(f.ts[0], f"no import of {used - places.keys()}")
            types |= {name: places[name] for name in used}
        if rel == "lib.rt":
            drop_left_out(f, crate)
            make_public(f)
        erase(f, None, None, passed_on, has_memory=True)
        path = C_LIBRARY[crate] + ("" if rel == "lib.rt" else f"/{rel[:-3]}")
        yield f"src/{path}.rs", f.path, joined(f.ts)
    uses = "".join(f"use {path};\n" for path in sorted(types.values()))
    yield "src/exports.rs", "crates/codec_payload_c/src", "\n".join([DOC, uses + HEAD, *exports])


def check_root_of(folder):
    """Refuses a root that does not name all modules."""
    check_root(os.path.join(folder, "src/lib.rs"), {*C_LIBRARY.values(), "exports", "memory"})
