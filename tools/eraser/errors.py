"""Writes out the derive of `thiserror`, so that the crate needs neither that crate nor `std`."""
import re

from layout import may_grow
from source import type_behind
from tokens import close, elements, plain, tokens

# Errors of the port: a `match` may name all of their variants, as in `str0m`. A later version may add variants to all others.
CLOSED = {"PacketError", "Vp8DescriptorError", "Vp8PatchError"}


def derive_errors(f):
    """Replaces `Error` among what enums derive by impls of `Display` and `Error`; returns the names of these enums."""
    i, made = 0, []
    while i < len(f.ts):
        if f.ts[i].text == "#" and plain(f.ts[i + 1:i + 3]) == "[ derive":
            end = close(f.ts, i + 1)
            names = [plain(f.ts[a:b]) for a, b in elements(f.ts, i + 3)[0]]
            if "Error" in names:
                names.remove("Error")
                more = "" if type_behind(f, end) in CLOSED else f"\n{may_grow(f)}"
                f.ts[i + 3:end + 1] = tokens(f"({', '.join(names)})]{more}")[:-1]
                made.append(write_error(f, i))
        i += 1
    return made


def write_error(f, i):
    """Writes the impls behind the enum that is declared behind `i`; returns its name."""
    k = i
    while f.ts[k].text != "enum":
        k += 1
    name, at = f.ts[k + 1].text, k + 2
    if f.ts[at].text != "{":
        f.refuse(f.ts[i], "an error that is not a plain enum")
    arms, causes, j = [], [], at + 1
    while j < close(f.ts, at):
        message, variant, fields, j = take_variant(f, j)
        if f.ts[j - 1 - (f.ts[j - 1].text == ",")].text == "}":
            arms.append(named_arm(f, j, name, variant, message, [field.split(" ")[0] for field in fields]))
            continue
        arms.append(arm(f, j, name, variant, message, len(fields)))
        if len(fields) == 1 and fields[0].endswith("Error"):
            causes.append(f"{name}::{variant}(cause) => Some(cause),")
    end = close(f.ts, at)
    f.ts[end + 1:end + 1] = tokens(impls(name, arms, causes))[:-1]
    return name


def take_variant(f, j):
    """Takes the message from the variant at `j`: message, name, types of its fields, and the place behind the variant."""
    if plain(f.ts[j:j + 3]) != "# [ error":
        f.refuse(f.ts[j], "a variant without a message")
    stop = close(f.ts, j + 1)
    message = f.ts[j + 4].text
    if stop != j + 6 or f.ts[j + 4].kind != "text":
        f.refuse(f.ts[j], "a message of another form")
    f.ts[stop + 1].pre = f.ts[j].pre
    del f.ts[j:stop + 1]
    variant, fields = f.ts[j].text, []
    j += 1
    if f.ts[j].text in ("(", "{"):
        fields = [plain(f.ts[a:b]) for a, b in elements(f.ts, j)[0]]
        j = close(f.ts, j) + 1
    return message, variant, fields, j + (f.ts[j].text == ",")


def arm(f, j, name, variant, message, count):
    """The arm of `Display` for a variant with `count` fields."""
    if count and "{" in message:
        places = ", ".join(f"f{place}" for place in range(count))
        placed = re.sub(r"\{(\d+)\}", r"{f\1}", message)
        return f"{name}::{variant}({places}) => write!(f, {placed}),"
    if "{" in message:
        f.refuse(f.ts[j], "a message with a value that the variant lacks")
    return f"{name}::{variant}{'(..)' if count else ''} => f.write_str({message}),"


def named_arm(f, j, name, variant, message, fields):
    """The arm of `Display` for a variant whose fields have these names."""
    shown = [field for field in fields if f"{{{field}}}" in message]
    if message.count("{") != len(shown):
        f.refuse(f.ts[j], "a message with a value that the variant lacks")
    if not shown:
        return f"{name}::{variant} {{ .. }} => f.write_str({message}),"
    rest = ", .." if len(shown) < len(fields) else ""
    return f"{name}::{variant} {{ {', '.join(shown)}{rest} }} => write!(f, {message}),"


def impls(name, arms, causes):
    """The text of both impls. `causes` has the arms of variants that hold the error that caused them."""
    source = ""
    if causes:
        source = ("\n    fn source(&self) -> Option<&(dyn std::error::Error + 'static)> {\n        match self {\n            "
                  + "\n            ".join([*causes, "_ => None,"]) + "\n        }\n    }\n")
    return (f"\n\nimpl fmt::Display for {name} {{\n    fn fmt(&self, f: &mut fmt::Formatter<'_>) -> fmt::Result {{\n"
            "        match self {\n            " + "\n            ".join(arms) + "\n        }\n    }\n}\n"
            f"\nimpl std::error::Error for {name} {{{source}}}\n")
