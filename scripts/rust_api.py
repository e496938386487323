#!/usr/bin/env python3
"""The public interface of the Rust crate as text, so that each change of it shows.

  scripts/rust_api.py                   writes rust/API.txt from rust/src
  scripts/rust_api.py --check           fails if rust/API.txt is not what this writes
  scripts/rust_api.py --against COMMIT  prints what that commit's rust/API.txt has and this one lacks: a program that uses it no longer
                                        compiles, unless a line of the same name says that more is accepted

A line is one item: the path of its module, and its signature without names of `crate`. Types have their derived traits, structs their public
fields, enums their variants, traits their methods. Only items that the documentation shows are there: those that rust/src/lib.rs and
rust/src/parts.rs name, and the module `sdp`. Needs nothing but Python 3 and git. The status is 0 if nothing differs.
"""
import os
import re
import subprocess
import sys

ROOT = os.path.dirname(os.path.dirname(os.path.realpath(__file__)))
SOURCE, PAGE = f"{ROOT}/rust/src", f"{ROOT}/rust/API.txt"
HEAD = "# The public interface of the Rust crate, written by scripts/rust_api.py. Do not edit.\n"
ITEM = re.compile(r"pub (?:const |unsafe )*(?:fn|struct|enum|trait|const|static|type|union|use|mod)\b")
ENDS = re.compile(r"(?:[{;,]|\{.*\})\s*(?://.*)?$")
IMPL = re.compile(r"(?:unsafe )?impl\b")


def module_of(path):
    """The path of the module that a file of the crate holds."""
    parts = os.path.relpath(path, SOURCE)[:-3].split(os.sep)
    return "::".join(part for part in parts if part not in ("lib", "mod"))


def statements(lines, indent):
    """The items of these lines at this indentation: attributes, signature, and the lines of the body."""
    attributes, i = [], 0
    while i < len(lines):
        text = lines[i]
        own = text[len(indent):]
        if not text.startswith(indent) or own[:1] in (" ", "", "}") or own.startswith("//"):
            if not own.startswith("//"):
                attributes = attributes if text.startswith(indent + " ") else []
            i += 1
            continue
        begin = i
        if own.startswith("#"):
            while lines[begin:i + 1] and "".join(lines[begin:i + 1]).count("[") > "".join(lines[begin:i + 1]).count("]"):
                i += 1
            attributes.append(" ".join(line.strip() for line in lines[begin:i + 1]))
            i += 1
            continue
        # a parameter or a bound in a line of its own ends with a comma too
        while i + 1 < len(lines) and (not ENDS.search(lines[i]) or (lines[i].rstrip().endswith(",") and balance(lines[begin:i + 1]) > 0)):
            i += 1
        signature = " ".join(line.strip() for line in lines[begin:i + 1])
        body, i = body_of(lines, i, indent)
        yield attributes, signature, body
        attributes = []


def balance(lines):
    text = re.sub(r"->|=>", "", " ".join(lines))
    return sum(text.count(it) for it in "([<") - sum(text.count(it) for it in ")]>")


def body_of(lines, i, indent):
    """The lines of the braces that open at the end of line `i`, and the place behind them."""
    if not lines[i].rstrip().endswith("{"):
        return [], i + 1
    end = i + 1
    while end < len(lines) and lines[end].rstrip() not in (indent + "}", indent + "},", indent + "};"):
        end += 1
    return lines[i + 1:end], end + 1


def plain(signature):
    """A signature without the brace or the semicolon that ends it, and without `crate::`."""
    text = re.sub(r"\s*[{;,]\s*$", "", signature).replace("crate::", "")
    return re.sub(r"\( ", "(", re.sub(r",? \)", ")", text))


def parts(body, kind):
    """What a type's body shows: public fields, variants with what they hold, methods."""
    for attributes, signature, inner in statements(body, "    "):
        if any("doc(hidden)" in it for it in attributes):
            continue
        if kind == "struct" and not signature.startswith("pub ") or signature.startswith("pub("):
            continue
        held = " ".join(line.strip() for line in inner if not line.strip().startswith(("//", "#")))
        yield plain(signature) + (f" {{ {held} }}" if inner and kind == "enum" else "")


def marks(attributes):
    """The derived traits of a type, and whether later versions may extend it."""
    derived = sorted({name.strip() for it in attributes if it.startswith("#[derive(") for name in it[9:-2].split(",")})
    grows = any("non_exhaustive" in it for it in attributes)
    return (f" [{', '.join(derived)}]" if derived else "") + (" [may grow]" if grows else "")


def items(path):
    """The lines of a file."""
    with open(path, encoding="utf-8") as file:
        lines = file.read().split("\n")
    module = module_of(path)
    for attributes, signature, body in statements(lines, ""):
        if any("doc(hidden)" in it or it == "#[cfg(test)]" for it in attributes):
            continue
        here = f"{module}: " if module else ""
        if IMPL.match(signature):
            yield from implemented(here, signature, body)
        elif ITEM.match(signature) and not signature.startswith("pub mod"):
            kind = re.search(r"\b(struct|enum|trait)\b", signature)
            yield f"{here}{plain(signature)}{marks(attributes)}"
            if kind and body:
                name = re.search(r"(?:struct|enum|trait) (\w+)", signature)[1]
                yield from (f"{here}{name}: {it}" for it in parts(body, kind[1]))


def implemented(here, signature, body):
    """The line of a trait that a type has, or the public functions of a type."""
    head = plain(signature)
    if re.search(r" for \S", head) and not head.startswith("impl<F: for"):
        yield here + head
        return
    for attributes, inner, _ in statements(body, "    "):
        if inner.startswith("pub ") and not any("doc(hidden)" in it for it in attributes):
            yield f"{here}{head}: {plain(inner)}"


def documented():
    """The names that the documentation shows: of `pub use` without `doc(hidden)`."""
    names = set()
    for file in ("lib", "parts"):
        with open(f"{SOURCE}/{file}.rs", encoding="utf-8") as it:
            found = re.finditer(r"((?:^\s*#\[[^\n]*\]\n)*)^\s*pub use ([^;]*);", it.read(), re.M)
            names.update(name for one in found if "hidden" not in one[1] for name in re.findall(r"\w+", re.sub(r"^.*::\{?", "", one[2].split("{")[-1], flags=re.S)))
    return names


def is_shown(line, names):
    """Whether a line of `items` is of an item that the documentation shows."""
    if line.startswith("sdp"):
        return True
    if ": impl" in line:
        head = line.partition(": impl")[2].split(": pub ")[0].split(" where ")[0]
        type_name = re.sub(r"<[^<>]*(?:<[^<>]*>[^<>]*)*>", "", head).split(" for ")[-1]
        return bool(set(re.findall(r"\w+", type_name)) & names)
    item = re.match(r"(?:[\w:]+: )?pub .*?(?:fn|struct|enum|trait|const|static|type|union) (\w+)", line)
    part = re.match(r"(?:[\w:]+: )?(\w+): ", line)
    owner = item or part
    return bool(owner) and owner[1] in names


def text():
    files = sorted(os.path.join(at, name) for at, _, names in os.walk(SOURCE) for name in names if name.endswith(".rs"))
    names = documented()
    return HEAD + "".join(line + "\n" for path in files for line in sorted(items(path)) if is_shown(line, names))


def main(words):
    now = text()
    if words == ["--check"]:
        with open(PAGE, encoding="utf-8") as file:
            same = file.read() == now
        print("rust/API.txt has the interface" if same else "rust/API.txt is old: scripts/rust_api.py writes it again. Say in CHANGELOG what changed")
        return 0 if same else 1
    if len(words) == 2 and words[0] == "--against":
        before = subprocess.run(["git", "show", f"{words[1]}:rust/API.txt"], cwd=ROOT, capture_output=True, text=True, check=True).stdout
        gone = sorted(set(before.splitlines()) - set(now.splitlines()))
        print("\n".join(gone) or "nothing is gone")
        return 1 if gone else 0
    if words:
        print(__doc__.strip().split("\n\n")[1], file=sys.stderr)
        return 2
    with open(PAGE, "w", encoding="utf-8") as file:
        file.write(now)
    print(f"{now.count(chr(10)) - 1} items")
    return 0


if __name__ == "__main__":
    sys.exit(main(sys.argv[1:]))
