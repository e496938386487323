"""Applies all rules to one file."""
import allocator
import calls
import contracts
import errors
import forms
import paths
import portable
from results import mark_results
from layout import CONSTANT_FUNCTIONS
from tokens import joined, plain, tokens


def erase(f, crate, module, passed_on, has_memory=False):
    """Makes a file of the library, or of another crate if `crate` is None, a file of Rust. Another crate uses the library's module
    `memory` and `std`, unless it has a module `memory` itself: then it is without `std`, as the library."""
    root = "crate" if crate else "codec_payload"
    without_std = crate is not None or has_memory
    contracts.drop_clauses(f)
    contracts.drop_ghosts(f)
    contracts.drop_models(f)
    contracts.drop_attributes(f)
    allocator.drop_bounds(f)
    write_errors(f)
    allocator.drop_memory(f)
    calls.rename_calls(f)
    calls.rename_makers(f)
    forms.put_forms(f)
    portable.be_portable(f)
    forms.default_bodies(f)
    forms.unit_literals(f)
    forms.mark_unused(f)
    if f.is_library and f.has_users:
        mark_results(f)
    paths.rename_types(f, crate, module)
    paths.move_paths(f, crate, root, passed_on)
    paths.std_paths(f, without_std)
    if without_std:
        paths.bare_imports(f)
    import_needs(f, "crate" if has_memory else root)
    contracts.refuse_leftovers(f)


def write_errors(f):
    """Writes out derives of `thiserror`, and imports what they need."""
    if "use thiserror::Error;" not in joined(f.ts):
        return
    made = errors.derive_errors(f)
    at = next(i for i in range(len(f.ts)) if plain(f.ts[i:i + 4]) == "use thiserror :: Error")
    if made:
        f.ts[at + 1:at + 4] = tokens(" std::fmt")[:-1]
    if not made or "use std::fmt;" in joined(f.ts[:at]) + joined(f.ts[at + 5:]):
        del f.ts[at:at + 5]


def import_needs(f, root):
    """Imports the traits by which calls may fail to allocate."""
    needs = sorted(f.needs)
    if needs:
        names = "{" + ", ".join(needs) + "}" if len(needs) > 1 else needs[0]
        paths.import_line(f, f"use {root}::memory::{names};\n")


def drop_theorems(sources):
    """Drops theorems (functions without a body, whose contract is all) with their files, modules, imports and calls."""
    gone = {name for f in sources.values() for name in contracts.drop_constant_functions(f)}
    if gone != CONSTANT_FUNCTIONS:
        sources_miss = ", ".join(sorted(CONSTANT_FUNCTIONS - gone))
        raise contracts.Refused(f"not found: {sources_miss}")
    empty = {}
    for (crate, rel), f in sources.items():
        names = contracts.drop_theorems(f)
        gone |= set(names)
        if names and not f.has_items():
            parent, _, name = rel.rpartition("/")
            empty.setdefault((crate, f"{parent}.rt" if parent else "lib.rt"), set()).add(name[:-3])
            f.ts = []
    for key in [key for key, f in sources.items() if not f.ts]:
        del sources[key]
    for key, names in empty.items():
        contracts.drop_modules(sources[key], names)
    for f in sources.values():
        paths.drop_uses(f, gone)
