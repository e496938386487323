"""Paths and imports: crates become modules of one crate, and `std` becomes `core` and `alloc`."""
import re

from layout import FACADE, LIBRARY, PLACES, RENAMED_MODULES, RENAMED_TYPES, place
from source import drop_item, item_start, merged
from tokens import Token, elements, joined, plain, tokens

# Links of documentation whose names are not in scope.
DOC_LINKS = {("codec/depacketizer.rt", "[`BoxedDepacketizer`]"): "[`BoxedDepacketizer`](super::BoxedDepacketizer)",
             ("codec/packetizer.rt", "[`BoxedPacketizer`]"): "[`BoxedPacketizer`](super::BoxedPacketizer)",
             ("session/src/session.rt", "(crate `codec_payload_rtcp`)"): "(module `parts::rtcp`)",
             ("base/src/interface.rt", "`codec_payload_vpx`"): "`parts::media::vp9`",
             ("base/src/interface.rt", "`codec_payload_media`"): "`parts::media`"}
CORE = {"fmt", "mem", "ops", "cmp", "str", "error", "convert", "iter", "slice"}


def path_tokens(path, line):
    """The tokens of a path."""
    return [it for place, part in enumerate(path.split("::"))
            for it in ([Token("", "::", "p", line)] if place else []) + [Token("", part, "word", line)]]


def move_paths(f, crate, root, passed_on):
    """Makes `codec_payload_X::m` and `crate::m` paths below the one root. `crate` is None in programs."""
    i = 0
    while i < len(f.ts):
        t = f.ts[i]
        m = re.fullmatch(r"codec_payload_(\w+)", t.text) if t.kind == "word" else None
        of = m.group(1) if m else crate if t.kind == "word" and t.text == "crate" and crate else None
        if of and f.ts[i + 1].text == "::":
            if of not in LIBRARY and of != FACADE:
                f.refuse(t, f"crate {of}")
            t.text = root
            behind = f.ts[i + 2]
            if behind.text == "{":
                if of != FACADE and PLACES.get(of) or any((of, f.ts[a].text) in RENAMED_MODULES for a, _ in elements(f.ts, i + 2)[0]):
                    f.refuse(behind, "several modules of a crate whose modules move")
            elif behind.kind == "word" and behind.text != "memory":
                f.ts[i + 2:i + 3] = path_tokens(place(of, behind.text, passed_on), t.line)
        elif m:
            f.refuse(t, "a crate by its name alone")
        i += 1
    for t in f.ts:
        if "//" in t.pre:
            t.pre = moved_links(f, t.pre, crate, root, passed_on)


def moved_links(f, comment, crate, root, passed_on):
    """A comment in which each path names the place below the one root."""
    def moved(m):
        of = m.group(1) or crate
        return f"{root}::{place(of, m.group(2), passed_on)}" if of else m.group(0)

    comment = re.sub(r"(?<![\w:])(?:codec_payload_(\w+)|crate)::(\w+)", moved, comment)
    for (path, old), new in DOC_LINKS.items():
        if f.path.endswith(path):
            comment = comment.replace(old, new)
    return re.sub(r"\s*(///?!?)?\s*A user names `codec_payload_\w+`[^.]*\.", "", comment)


def rename_types(f, crate, module):
    """Gives types that share their name with another type the name that they have in the one crate."""
    for (of, home, old), new in RENAMED_TYPES.items():
        if (of, home) != (crate, module) and not imports(f, crate, of, home, old):
            continue
        if not f.has_users:
            rename_import(f, home, old, new)
            continue
        skipped = foreign_uses(f, home, old)
        for place, t in enumerate(f.ts):
            if t.kind == "word" and t.text == old and place not in skipped:
                t.text = new
            if "//" in t.pre:
                t.pre = re.sub(rf"`{old}\b", f"`{new}", t.pre)


def rename_import(f, home, old, new):
    """Keeps the name of a type in a file of the library for C, which has types of its own with the new name."""
    for start, end, text in use_lines(f):
        if f":: {home} ::" in text:
            for place in range(end - 1, start, -1):
                if f.ts[place].text == old:
                    f.ts[place:place + 1] = tokens(f"{f.ts[place].pre}{new} as {old}")[:-1]
            return


def imports(f, crate, of, home, name):
    """Whether a `use` of the file imports a name from a module."""
    begins = [f"use codec_payload_{of} :: {home} ::"] + ([f"use crate :: {home} ::"] if crate == of else [])
    return any(text.startswith(it) and re.search(rf"\b{name}\b", text) for _, _, text in use_lines(f) for it in begins)


def foreign_uses(f, home, name):
    """The places of a name in `use` lines of other modules than `home`."""
    return {place for start, end, text in use_lines(f) if f":: {home} ::" not in text
            for place in range(start, end) if f.ts[place].text == name}


def use_lines(f):
    """Start, end and text of each `use` line."""
    for start, t in enumerate(f.ts):
        if t.kind == "word" and t.text == "use":
            end = next(it for it in range(start, len(f.ts)) if f.ts[it].text == ";")
            yield start, end, plain(f.ts[start:end])


def std_paths(f, in_library):
    """Imports of `std` that Rattle has and Rust has not, and, for the library without `std`, `core` and `alloc`."""
    i = 0
    while i < len(f.ts):
        t = f.ts[i]
        if t.text == "use" and t.kind == "word" and plain(f.ts[i + 1:i + 3]) == "std ::":
            start = item_start(f, i)
            end = next(j for j in range(i, len(f.ts)) if f.ts[j].text == ";")
            path = plain(f.ts[i + 3:end]).replace(" ", "")
            if path.startswith(("alloc::", "marker::Model", "process::Abort", "time::Clock")):
                names = re.findall(r"\w+", path.split("::", 1)[1])
                bad = set(names) - {"AllocError", "AllocFailed", "Global", "Model", "Abort", "Clock", "Instant"}
                if bad:
                    f.refuse(t, f"import of {bad}")
                if "AllocError" in names:
                    f.needs.add("AllocError")
                pre = f.ts[start].pre
                del f.ts[start:end + 1]
                f.ts[start].pre = merged(pre, f.ts[start].pre) if "//" not in pre else pre.rstrip() + "\n\n" + f.ts[start].pre.lstrip("\n")
                i = start
                continue
        if in_library and plain(f.ts[i:i + 4]) == "use smallvec :: SmallVec":
            f.ts[i + 1:i + 3] = path_tokens("crate::memory", t.line) + [Token("", "::", "p", t.line)]
            f.ts[i + 1].pre = " "
        if in_library and t.kind == "word" and t.text == "std" and f.ts[i + 1].text == "::":
            n = f.ts[i + 2].text
            if n in CORE:
                t.text = "core"
            elif n == "collections" and plain(f.ts[i + 3:i + 5]) == ":: VecDeque":
                t.text = "alloc"
            else:
                f.refuse(t, f"std::{n}")
        i += 1


def import_line(f, line):
    """Puts an import in front of the first item."""
    first = f.ts[0]
    # the comments of the file end in front of what documents the first item
    at = 0
    for m in re.finditer(r"^//![^\n]*\n", first.pre, re.M):
        at = m.end()
    head, rest = first.pre[:at], first.pre[at:]
    more = tokens(line)[:-1]
    more[0].pre = head + ("\n" if head else "")
    first.pre = ("\n" if first.text == "use" else "\n\n") + rest.lstrip("\n")
    f.ts[0:0] = more


def bare_imports(f):
    """Imports what `no_std` lacks: `Vec`, `Box`, `String`, `vec!` and `format!`."""
    words = {t.text for t in f.ts if t.kind == "word"}
    imported = " ".join(t.text for t in f.ts)  # without comments
    for name, path in (("Vec", "alloc::vec::Vec"), ("Box", "alloc::boxed::Box"), ("String", "alloc::string::String")):
        if name in words and not re.search(r"\buse [^;]*\b%s\b[^;]*;" % name, imported):
            import_line(f, f"use {path};\n")
    for mac in ("vec", "format"):
        if any(t.text == mac and f.ts[i + 1].text == "!" for i, t in enumerate(f.ts)):
            import_line(f, f"use alloc::{mac};\n")


def drop_uses(f, names):
    """Names that went are not imported, passed on or called."""
    i = 0
    while i < len(f.ts):
        if f.ts[i].kind == "word" and f.ts[i].text in names and plain(f.ts[i + 1:i + 4]) == "( ) ;" and f.ts[i - 1].text in ("{", ";", "}"):
            del f.ts[i:i + 4]
            continue
        i += 1
    i = 0
    while i < len(f.ts):
        if f.ts[i].text == "use" and f.ts[i].kind == "word":
            end = next(j for j in range(i, len(f.ts)) if f.ts[j].text == ";")
            if f.ts[end - 1].text == "}":
                k = next(j for j in range(i, end) if f.ts[j].text == "{")
                found, stop = elements(f.ts, k)
                left = [plain(f.ts[a:b]) for a, b in found if plain(f.ts[a:b]) not in names]
                if not left:
                    i = drop_item(f, i)
                    continue
                if len(left) < len(found):
                    f.ts[k:stop + 1] = tokens("{" + ", ".join(left) + "}")[:-1]
                    end = next(j for j in range(i, len(f.ts)) if f.ts[j].text == ";")
            elif f.ts[end - 1].text in names:
                i = drop_item(f, i)
                continue
            i = end
        i += 1


