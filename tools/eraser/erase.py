#!/usr/bin/env python3
"""Writes the plain Rust crate, and over it the program payload_vectors and the library for C, from the proved sources.

  tools/eraser/erase.py                     writes the generated files of rust/, tools/lines/ and rust-c/
  tools/eraser/erase.py --check             compares them with a fresh run: status 1 and the differences if any
  option --repository FOLDER                reads crates/ of another clone, and writes those folders there

Needs Python 3.11 and rustfmt. docs/develop/PLAIN_RUST.md says what it does. It refuses, with file and line, what it does not know.
"""
import argparse
import os
import sys

import c_library
import output
import programs
from erasing import drop_theorems, erase
from heads import drop_passed_on, flatten, head_files, passed_on_modules, root_modules
from homes import bring_home, narrow
from known import Known
from layout import C_LIBRARY, FACADE, FLAT, LIBRARY, NOT_HERE, PLACES, PROGRAM, PROGRAM_LIBRARY, RENAMED_MODULES
from source import File
from tokens import Refused, joined

HERE = os.path.dirname(os.path.realpath(__file__))
PREFIX = "codec_payload_"


def read_crate(repository, crate, known):
    """The sources of a crate, by their paths below its `src`."""
    folder = os.path.join(repository, "crates", crate, "src")
    found = {}
    for at, _, names in sorted(os.walk(folder)):
        for name in sorted(names):
            if name.endswith(".rt"):
                path = os.path.join(at, name)
                with open(path, encoding="utf-8") as it:
                    found[os.path.relpath(path, folder)] = File(os.path.relpath(path, repository), it.read(), known)
    return found


def read_all(repository, known):
    """The sources of the library, and those of programs, by crate and path."""
    there = {it[len(PREFIX):] for it in os.listdir(os.path.join(repository, "crates")) if it.startswith(PREFIX)}
    wanted = {*LIBRARY, FACADE, *NOT_HERE, *C_LIBRARY}
    if there != wanted:
        raise Refused(f"layout.py and crates/ differ: {', '.join(sorted(there ^ wanted))}")
    library = {(crate, rel): f for crate in [*LIBRARY, FACADE] for rel, f in read_crate(repository, PREFIX + crate, known).items()}
    others = {(crate, rel): f for crate in [PROGRAM_LIBRARY, PROGRAM] for rel, f in read_crate(repository, crate, known).items()}
    library_for_c = {(crate, rel): f for crate in C_LIBRARY for rel, f in read_crate(repository, PREFIX + crate, Known()).items()}
    return library, others, library_for_c


def library_files(library, passed_on):
    """Path below `rust/src`, source and text of each file of the library."""
    for (crate, rel), f in library.items():
        first = rel[:-3].split("/")[0]
        erase(f, crate, first, passed_on)
    for (crate, rel), f in library.items():
        if crate == FACADE or rel == "lib.rt":
            continue
        parts = rel[:-3].split("/")
        parts[0] = RENAMED_MODULES.get((crate, parts[0]), parts[0])
        parts = [part for part in PLACES.get(crate, "").split("::") if part] + parts
        yield "/".join(parts) + ".rs", f.path, flatten(library, crate, rel) if crate in FLAT else joined(f.ts)
    yield from head_files(library, passed_on)


def read_for_c(library, library_for_c):
    """What the rules know for the library for C: what it declares itself, and what the library declares."""
    known = Known()
    for f in [*library.values(), *library_for_c.values()]:
        known.read(f)
    for f in library_for_c.values():
        f.known = known


def generated_files(repository):
    """The generated files of each folder, and how many public functions have asserted premises."""
    known = Known()
    library, others, library_for_c = read_all(repository, known)
    passed_on = passed_on_modules(library)
    del library[FACADE, "lib.rt"]
    narrow(library)
    drop_theorems(library)
    for (_, rel), f in library.items():
        if rel == "lib.rt":
            drop_passed_on(f)
    bring_home(library, passed_on)
    for f in [*library.values(), *others.values()]:
        known.read(f)
    read_for_c(library, library_for_c)
    crate, lines, for_c = (output.Output(repository, name) for name in ("rust", "tools/lines", "rust-c"))
    for path, source, text in library_files(library, passed_on):
        crate.add(f"src/{path}", source, text)
    output.check_root(os.path.join(crate.folder, "src/lib.rs"), root_modules(library))
    programs.check_roots(lines.folder, others)
    for path, source, text in programs.program_files(others, passed_on):
        lines.add(path, source, text)
    c_library.check_root_of(for_c.folder)
    for path, source, text in c_library.c_files(library_for_c, passed_on):
        for_c.add(path, source, text)
    return [crate, lines, for_c], sum(len(f.asks) for f in library.values())


def run(repository, words):
    """Does what the command line asks for; returns the status."""
    folders, asked = generated_files(repository)
    for folder in folders:
        folder.format()
    summary = f"{sum(len(it.files) for it in folders)} files, {asked} public functions whose premises are asserted"
    if words.check:
        differences = [line for it in folders for line in it.differences()]
        print("".join([*differences, f"{summary}: {len(differences)} differ from rust/, tools/lines/ and rust-c/"]))
        return 1 if differences else 0
    for folder in folders:
        folder.write()
    print(summary)
    return 0


def main():
    parser = argparse.ArgumentParser(description=__doc__, formatter_class=argparse.RawDescriptionHelpFormatter)
    parser.add_argument("--check", action="store_true")
    parser.add_argument("--repository", default=os.path.dirname(os.path.dirname(HERE)))
    words = parser.parse_args()
    try:
        return run(words.repository, words)
    except Refused as fault:
        print(f"erase.py: {fault}", file=sys.stderr)
        return 1


if __name__ == "__main__":
    sys.exit(main())
