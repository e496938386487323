"""The files that name the modules of a crate: hidden modules, and what they hold in the module above them."""
import re

from layout import HOMES, KEPT_MODULES, LIBRARY, PARTLY_USED_MODULES, PLACES, RENAMED_MODULES, UNDOCUMENTED_MODULES, UNNAMED_MODULES
from source import drop_item
from tokens import OPEN, close, elements, joined, plain, tokens

KINDS = ("struct", "enum", "trait", "fn", "const", "type")


def passed_on_modules(sources):
    """Which modules a crate names again for another crate: (crate, module) -> the other crate."""
    found = {}
    for (crate, rel), f in sources.items():
        if rel != "lib.rt":
            continue
        text = plain(f.ts)
        for of, names in re.findall(r"pub use codec_payload_(\w+) :: \{ ([^}]*) \} ;", text):
            found.update({(crate, name.strip()): of for name in names.split(",") if name.strip()})
        for of, name in re.findall(r"pub use codec_payload_(\w+) :: (\w+) ;", text):
            found[crate, name] = of
    return found


def public_names(f):
    """The names that a file makes public, its modules aside."""
    names, i = [], 0
    while i < len(f.ts):
        t = f.ts[i]
        if t.kind == "p" and t.text in OPEN:
            i = close(f.ts, i)
        elif t.text == "pub" and t.kind == "word" and f.ts[i + 1].text != "(":
            names += names_behind(f.ts, i + 1)
        i += 1
    return names


def names_behind(ts, i):
    """The names that the item at `i`, behind its `pub`, declares."""
    if ts[i].text in KINDS:
        return [ts[i + 2 if ts[i + 1].text in ("fn", "mut") else i + 1].text]
    if ts[i].text != "use":
        return []
    end = next(it for it in range(i, len(ts)) if ts[it].text == ";")
    if ts[end - 1].text != "}":
        return [ts[end - 1].text]
    start = next(it for it in range(i, end) if ts[it].text == "{")
    return [ts[b - 1].text for _, b in elements(ts, start)[0]]


def flatten(sources, crate, rel):
    """Hides the public modules of a file, and makes what they hold public in the file itself."""
    f = sources[crate, rel]
    folder = "" if rel == "lib.rt" else rel[:-3] + "/"
    uses, i = [], 0
    while i < len(f.ts):
        if plain(f.ts[i:i + 2]) == "pub mod" and f.ts[i + 3].text == ";":
            name = f.ts[i + 2].text
            f.ts[i + 2].text = RENAMED_MODULES.get((crate, name), name)
            if (crate, name) not in KEPT_MODULES:
                if (crate, name) not in UNNAMED_MODULES:
                    uses.append((f.ts[i + 2].text, public_names(sources[crate, f"{folder}{name}.rt"])))
                attributes = hidden(f.ts[i], (crate, name) in PARTLY_USED_MODULES)
                f.ts[i:i] = attributes
                i += len(attributes)
        i += 1
    lines, named = [], set()
    for name, names in uses:
        lines.append(passing_on(name, set(names) - named))
        named |= set(names)
    return joined(f.ts).rstrip() + "\n" + "".join(lines)


def passing_on(module, names):
    """The line that makes names of a hidden module public beside it."""
    return f"\n#[doc(inline)]\npub use {module}::{{{', '.join(sorted(names))}}};\n" if names else ""


def hidden(first, partly_used):
    """`#[doc(hidden)]` in front of an item. In a module that is used in part, the compiler would report the unused functions."""
    made = tokens("#[allow(dead_code)]\n#[doc(hidden)]\n" if partly_used else "#[doc(hidden)]\n")[:-1]
    made[0].pre, first.pre = first.pre, "\n"
    return made


def drop_passed_on(f):
    """Drops `pub use` of whole modules of other crates: those have a place of their own."""
    i = 0
    while i < len(f.ts):
        if plain(f.ts[i:i + 2]) == "pub use" and f.ts[i + 2].text.startswith("codec_payload_"):
            i = drop_item(f, i + 1)
        else:
            i += 1


def of_media(sources, passed_on):
    """The lines of `media` for the crate whose modules it names again."""
    modules = [module for (crate, module), of in passed_on.items() if (crate, of) == ("media", "vpx")]
    names = []
    for module in modules:
        kept = ("vpx", module) in KEPT_MODULES
        names += [module] if kept else public_names(sources["vpx", f"{module}.rt"])
    return "\n#[doc(hidden)]\npub mod vpx;\n" + passing_on("vpx", set(names))


def below(module):
    """The items that name the modules directly below a module of a crate's own."""
    found = [path for path in PLACES.values() if path.startswith(f"{module}::")]
    return "".join(f"{undocumented(path)}pub mod {path.rsplit('::', 1)[1]};\n" for path in found)


def undocumented(path):
    """The attribute in front of a module that is left out of the documentation."""
    return "#[doc(hidden)]\n" if path in UNDOCUMENTED_MODULES else ""


def named_below(module):
    """The same after other text."""
    found = below(module)
    return f"\n{found}" if found else ""


def of_facade(sources, crate, module):
    """The file of a module of the facade: its documentation, the modules of the crate that it is of, and what it names."""
    text = joined(sources["core", f"{module}.rt"].ts)
    documentation = "".join(f"{line}\n" for line in text.split("\n") if line.startswith("//!"))
    inside = re.findall(r"(?:pub )?mod (\w+);", joined(sources[crate, "lib.rt"].ts))
    modules = "".join(f"#[doc(hidden)]\npub mod {name};\n" for name in inside)
    return f"{documentation}\n{below(module)}{modules}\n{text.replace(documentation, '')}"


def head_files(sources, passed_on):
    """Path below `rust/src`, source and text of each file that names modules."""
    for crate in LIBRARY:
        if crate in ("payloader", "buffer_runs"):
            module = PLACES[crate]
            yield f"{module}.rs", f"crates/codec_payload_core/src/{module}.rt", of_facade(sources, crate, module)
        elif crate in PLACES:
            text = flatten(sources, crate, "lib.rt") + (of_media(sources, passed_on) if crate == "media" else named_below(PLACES[crate]))
            yield PLACES[crate].replace("::", "/") + ".rs", sources[crate, "lib.rt"].path, text


def root_modules(sources):
    """The modules that `lib.rs` has to name."""
    found = {path.split("::")[0] for path in PLACES.values()}
    for crate in LIBRARY:
        if crate not in PLACES and crate not in HOMES:
            found |= set(re.findall(r"\bmod (\w+);", joined(sources[crate, "lib.rt"].ts)))
    return found
