"""Modules that stand, in the one crate, among those of a crate above or below theirs, and what they have for it alone."""
from layout import HOMES, LIBRARY, WITHIN_CRATE
from source import item_start
from tokens import tokens

PREFIX = "codec_payload_"


def bring_home(sources, passed_on):
    """Gives each such module to that crate. It is public there if that crate names it again for its users, or is below."""
    for crate, homes in HOMES.items():
        for key in [key for key in sources if key[0] == crate]:
            f = sources.pop(key)
            if key[1] != "lib.rt":
                name_crate(f, crate)
                sources[homes[key[1][:-3].split("/")[0]], key[1]] = f
        for module, home in homes.items():
            is_below = LIBRARY.index(home) < LIBRARY.index(crate)
            add_module(sources[home, "lib.rt"], module, is_below or (home, module) in passed_on)


def name_crate(f, crate):
    """Names the lower crate where the file says `crate`."""
    for t, behind in zip(f.ts, [*f.ts[1:], None]):
        if t.kind == "word" and t.text == "crate" and behind.text == "::":
            t.text = PREFIX + crate
        if "//" in t.pre:
            t.pre = t.pre.replace("`crate::", f"`{PREFIX}{crate}::")


def add_module(f, module, is_public):
    """Adds an item that names a module, in the order of the names."""
    names = [i for i, t in enumerate(f.ts) if t.kind == "word" and t.text == "mod" and f.ts[i + 2].text == ";"]
    later = next((i for i in names if f.ts[i + 1].text > module), None)
    at = len(f.ts) - 1 if later is None else item_start(f, later)
    made = tokens(f"{'pub ' if is_public else ''}mod {module};\n")[:-1]
    made[0].pre, f.ts[at].pre = f.ts[at].pre, "\n"
    f.ts[at:at] = made


def narrow(sources):
    """Makes names that are public for the crates above alone visible in the one crate only."""
    for key, names in WITHIN_CRATE.items():
        f, missing = sources[key], set(names.split())
        for i in range(len(f.ts) - 1, -1, -1):
            if f.ts[i].kind == "word" and f.ts[i].text == "pub" and (name := name_behind(f, i)) in names.split():
                f.ts[i + 1:i + 1] = tokens("(crate) ")[:-1]
                missing.discard(name)
        if missing:
            f.refuse(f.ts[0], f"no public {', '.join(sorted(missing))}")


def name_behind(f, i):
    """The name of the item or field whose `pub` is at `i`."""
    i += 1
    while f.ts[i].text in ("const", "unsafe", "fn", "struct", "enum"):
        i += 1
    return f.ts[i].text
