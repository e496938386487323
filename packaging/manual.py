#!/usr/bin/env python3
"""Writes a manual page for each call of the headers, from its declaration and its comment.

  packaging/manual.py FOLDER    writes FOLDER/NAME.3 for each call, and prints how many they are

A comment that begins with "Does the same" follows that of the call in front of it, whose comment the page then has too. Calls without a
blank line between them share the comment of the first one. Structs and enums are in the pages of the headers. Needs Python 3 alone.
"""
import os
import re
import sys
import textwrap

ROOT = os.path.dirname(os.path.dirname(os.path.realpath(__file__)))
HEADERS = ["codec_payload", "codec_payload_media", "codec_payload_sdp", "codec_payload_bindings"]
FREES = "Frees the object in a handle, and leaves the handle empty. NULL and an empty handle are allowed."
CALL = re.compile(r"(?:/\*\*((?:[^*]|\*(?!/))*)\*/\n)?((?:CPAY_CHECKED )?(?:const )?\w+ \*?(cpay_\w+)\([^;{}]*\));")


def read(name):
    with open(f"{ROOT}/include/{name}.h", encoding="utf-8") as it:
        return re.sub(r"#if 0\n.*?#endif\n", "", it.read(), flags=re.S)


def paragraphs(comment):
    """The paragraphs and items of a comment."""
    lines = [re.sub(r"^ \* ?", "", line).strip() for line in comment.strip().splitlines()]
    text = "\n".join(lines)
    text = re.sub(r"\n(?!\n|- )", " ", text)
    return [it.strip() for it in re.split(r"\n+", text) if it.strip()]


def roff(text):
    """Text as roff reads it."""
    text = text.replace("\\", "\\e").replace("-", "\\-")
    return re.sub(r"^([.'])", r"\\&\1", text, flags=re.M)


def described(comment):
    """A comment in roff: each error is an item of a list."""
    made = []
    for part in paragraphs(comment):
        part = part.replace(" [m]", " It may allocate memory.") if part.endswith("[m]") else part
        if part.startswith("- "):
            made.append(f".IP \\(bu 2\n{roff(part[2:])}")
            continue
        sentences = re.split(r"(?<=\.) (?=CPAY_\w+(?:, CPAY_\w+)*: )", part)
        for place, one in enumerate(sentences):
            status = re.match(r"(CPAY_\w+): (.*)", one, re.S)
            made.append(f".TP\n.B {status[1]}\n{roff(status[2])}" if status else f"{'.PP' if made or place else ''}\n{roff(one)}".lstrip())
    return "\n".join(made)


def calls(header):
    """Name, declaration and comments of each call of a header."""
    last, text = "", read(header)
    for found in CALL.finditer(text):
        comment = found[1] or ""
        follows = text[:found.start()].endswith(";\n")  # calls without a blank line between them share the comment of the first
        kept = f"{last}\n\n{comment}" if comment.strip().startswith("Does the same") else comment or (last if follows else "")
        last = kept or last
        yield found[3], found[2].removeprefix("CPAY_CHECKED "), kept


def page(header, name, declaration, comment, version):
    """The manual page of a call."""
    text = FREES if name.endswith("_free") else comment
    summary = textwrap.shorten(re.split(r"(?<=[a-z0-9)])[.:;](?: |$)", " ".join(paragraphs(text)))[0], 150, placeholder=" ...")
    return "\n".join([
        f'.TH {name} 3 "" "codec-payload {version}" "codec-payload"', ".SH NAME", f"{name} \\- {roff(summary[:1].lower() + summary[1:])}",
        ".SH SYNOPSIS", ".nf", f"#include <{header}.h>", "", roff(declaration) + ";", ".fi", ".SH DESCRIPTION", described(text),
        ".SH NOTES", "A status is 0 (CPAY_OK) or says why the call failed. The rules for handles, memory, output buffers, pointers and threads are in",
        ".BR codec_payload.h (3).", ".SH SEE ALSO", f".BR {header}.h (3)", ""])


def main():
    folder, count = sys.argv[1], 0
    text = read("codec_payload")
    version = ".".join(re.search(rf"#define CPAY_VERSION_{it} (\d+)", text)[1] for it in ("MAJOR", "MINOR", "PATCH"))
    os.makedirs(folder, exist_ok=True)
    for header in HEADERS:
        for name, declaration, comment in calls(header):
            if not comment and not name.endswith("_free"):
                sys.exit(f"manual.py: {name} has no comment")
            with open(f"{folder}/{name}.3", "w", encoding="utf-8") as it:
                it.write(page(header, name, declaration, comment, version))
            count += 1
    print(f"manual: {count} pages")


if __name__ == "__main__":
    main()
