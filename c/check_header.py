#!/usr/bin/env python3
"""Compares the header, include/codec_payload.h with codec_payload_media.h, with the exports of codec_payload_c.

  c/check_header.py            compares all that stands below
  c/check_header.py --calls    prints c/src/calls.c, as the header says
  c/check_header.py --bindings prints c/src/objects.c, the calls *_create and *_destroy of include/codec_payload_bindings.h
  c/check_header.py --names    writes packaging/codec_payload.def and packaging/debian/libcodec-payload0.symbols, the calls by their names

The header is written by hand. This script reads both and compares every function: its name, its result, and the name and type of
each parameter; every struct that crosses: its fields in order with their types; and the numbers of the statuses and of the codecs.
In C each type has its own struct around a handle, so that the compiler distinguishes them. The example in the header, and in
docs/use/C.md, is the text of examples/first.c. The last line says how many functions and structs are the same; the status is 0 if all are.

packaging/codec_payload.map has each call of the headers, below the version of the release that has it first: a release that adds
calls adds a version to the file. The two other lists of names come from it. All three are compared.

c/src/calls.c, which accepts NULL with a length of 0, is the output of `check_header.py --calls`, and is compared too.
c/tests/beyond.c calls each function that takes memory. For each *_new there is a *_create with the same parameters, and a *_destroy. The
header for C++ has each call on a handle.
"""
import os
import re
import sys

CRATES = ["codec_payload_c", "codec_payload_c_packets", "codec_payload_c_path", "codec_payload_c_fec", "codec_payload_c_receiving",
          "codec_payload_handle"]
ROOT = os.path.dirname(os.path.dirname(os.path.realpath(__file__)))
NUMBERS = {
    **{f"u{bits}": f"uint{bits}_t" for bits in (8, 16, 32, 64)},
    **{f"i{bits}": f"int{bits}_t" for bits in (8, 16, 32, 64)},
    "usize": "size_t",
    "bool": "bool",
}
# The pointers in structs: a handle's, which C sees as a pointer to an unknown type, and to bytes that C reads.
FLAT = {"*mut u8": "void *", "*const u8": "const uint8_t *"}
# The struct of the header for each type that a handle of the library can hold. Each has its own call to free it.
KINDS = [
    "cpay_packetizer", "cpay_buffer", "cpay_depacketizer", "cpay_red_sender", "cpay_sender", "cpay_history", "cpay_forwarder",
    "cpay_receiver", "cpay_adaptive_wait", "cpay_freezes", "cpay_transport_reporter", "cpay_sent_packets", "cpay_session",
]
# The same for the handles of codec_payload_c_path, which have another call to free them.
PATH_KINDS = [
    "cpay_path", "cpay_resend_limit", "cpay_rate_offer", "cpay_packet_store", "cpay_fec_receiver", "cpay_fec_port", "cpay_fec_sender",
]
ALL_KINDS = [*KINDS[:-1], *PATH_KINDS, KINDS[-1]]
# Types of handles that are the same in C.
SAME = {"PathHandle": "Handle"}
# The enums of the header.
ENUMS = set()
# Outputs that may be NULL: the call, and the parameter.
OPTIONAL = {("cpay_history_keep", "kept")}
HANDLE = [("cpay_handle", "handle")]
WIDTH = 132
VERSION = "cpay_version"
EXPORT = re.compile(
    r'#\[unsafe\(no_mangle\)\]\s*pub extern "C" fn (\w+)\((.*?)\)(?: -> (\w+))?\s*(?:requires|ensures|\{)', re.S
)


OBJECTS_BEGIN = """\
/* Objects that the library allocates: codec_payload_bindings.h. Written by c/check_header.py --bindings. */
#include "codec_payload_bindings.h"

#include <stdlib.h>
"""
CALLS_BEGIN = """\
/* The calls of codec_payload.h over the proved calls, which accept a handle of any type and no NULL. Here NULL with a length of 0
 * becomes a valid pointer; NULL with another length is refused. Written by c/check_header.py --calls. */
#include "codec_payload.h"

typedef char status_is_four_bytes[sizeof(cpay_status) == 4 ? 1 : -1];

/* Bytes of length 0 begin here. Nothing reads or writes it. */
static uint64_t nothing[2];

uint32_t cpay_version(void) { return CPAY_VERSION; }

void proved_cpay_free(cpay_handle *handle);
void proved_cpay_path_object_free(cpay_handle *handle);
"""


def read(path):
    with open(f"{ROOT}/{path}", encoding="utf-8") as it:
        return it.read()


def split(text):
    """The parts between commas outside of brackets."""
    parts, depth, last = [], 0, 0
    for at, one in enumerate(text):
        depth += (one in "<([{") - (one in ">)]}")
        if one == "," and depth == 0:
            parts.append(text[last:at])
            last = at + 1
    return [it.strip() for it in [*parts, text[last:]] if it.strip()]


def c_name(rust):
    return "cpay_" + re.sub(r"(?<=[a-z0-9])([A-Z])", r"_\1", SAME.get(rust, rust)).lower()


def c_type(rust):
    """The type of C for one of Rattle that crosses by value or in a struct."""
    rust = rust.strip()
    return NUMBERS.get(rust) or FLAT.get(rust) or c_name(rust)


def c_params(name, rust):
    """The parameters of C for one of Rattle, each as its type and name."""
    if rust == "Global":
        return []
    borrowed = re.fullmatch(r"&(mut )?(.*)", rust, re.S)
    if not borrowed:
        return [(c_type(rust), name)]
    const = "" if borrowed[1] else "const "
    slice_of = re.fullmatch(r"\[(.*)\]", borrowed[2].strip())
    if slice_of:
        return [(f"{const}{c_type(slice_of[1])} *", name), ("size_t", f"{name}_len")]
    return [(f"{const}{c_type(borrowed[2])} *".replace("* *", "**"), name)]


def rattle():
    """Functions and structs that cross, as C has them, by the library's sources."""
    functions, structs, consts = {}, {}, {}
    sources = [f"crates/{crate}/src/{file}" for crate in CRATES for file in sorted(os.listdir(f"{ROOT}/crates/{crate}/src"))]
    for source in sources:
        text = re.sub(r"//[^\n]*", "", read(source))
        for found in EXPORT.finditer(text):
            params = [it.split(":", 1) for it in split(found[2])]
            flat = [one for name, kind in params for one in c_params(name.strip(), kind.strip())]
            functions[found[1]] = (c_type(found[3]) if found[3] else "void", flat)
        for found in re.finditer(r"#\[repr\(C\)\]\s*(?:#\[[^\n]*\]\s*)*pub struct (\w+) \{(.*?)\n\}", text, re.S):
            fields = []
            for field in split(found[2]):
                if field.startswith("ghost "):
                    continue
                name, kind = re.sub(r"^pub(\(crate\))? ", "", field).split(":", 1)
                array = re.fullmatch(r"\[(\w+); (\d+)\]", kind.strip())
                fields.append((c_type(array[1]), f"{name.strip()}[{array[2]}]") if array else (c_type(kind), name.strip()))
            structs[c_name(found[1])] = fields
        if source.endswith("/status.rt"):
            for found in re.finditer(r"const (\w+): u32 = (\d+);", text):
                consts[found[1]] = int(found[2])
    codecs = dict(re.findall(r"(\d+) => Codec::(\w+),", read("crates/codec_payload_handle/src/settings.rt")))
    return functions, structs, consts, {name.lower(): int(number) for number, name in codecs.items()}


def spaced(kind, name):
    """A type and a name as the header may write them, in one way."""
    stars = len(name) - len(name.lstrip("*"))
    return (" ".join(kind.split()) + (" " + "*" * stars if stars else ""), name.lstrip("*"))


def c_declared(text):
    """One declaration, as `const cpay_spec *spec`, as its type and name."""
    kind, stars, name = re.fullmatch(r"(.*?)(\**)(\w+(?:\[\d+\])?)", " ".join(text.split()), re.S).groups()
    return spaced(kind, stars + name)


def header():
    """Functions, structs and numbers by the header."""
    text = read("include/codec_payload.h") + read("include/codec_payload_media.h")
    text = re.sub(r"#if 0\n.*?#endif\n", "", re.sub(r"/\*.*?\*/", "", text, flags=re.S), flags=re.S)
    structs, functions = {}, {}
    ENUMS.update(re.findall(r"typedef enum \{[^}]*\} (\w+);", text))
    for found in re.finditer(r"typedef struct \{(.*?)\} (\w+);", text, re.S):
        structs[found[2]] = [c_declared(it) for it in found[1].split(";") if it.strip()]
    rest = re.sub(r"typedef struct \{.*?\} \w+;", "", text, flags=re.S)
    for found in re.finditer(r"^(?:CPAY_CHECKED )?(\w+) (cpay_\w+)\(([^)]*)\);", rest, re.M | re.S):
        functions[found[2]] = (found[1], [c_declared(it) for it in split(found[3]) if it != "void"])
    numbers = {name: int(value) for name, value in re.findall(r"\b(CPAY_\w+) = (\d+)", rest)}
    return functions, structs, numbers


def number(kind):
    """A type of the header with numbers instead of its enums, which have the values of the library's numbers of 32 bits."""
    return re.sub(r"\w+", lambda word: "uint32_t" if word[0] in ENUMS else word[0], kind)


def plain(functions, structs):
    """The header's functions and structs with handles and numbers instead of its types and enums."""
    frees = {f"{kind}_free" for kind in ALL_KINDS}
    free = ("void", [("cpay_handle *", "handle")])
    plain_functions = {"cpay_free": free, "cpay_path_object_free": free} if frees <= functions.keys() else {}
    for name, (answer, params) in functions.items():
        if name not in {*frees, VERSION}:
            params = [
                ("cpay_handle *", one if place else "handle") if kind.removesuffix(" *") in ALL_KINDS else (number(kind), one)
                for place, (kind, one) in enumerate(params)
            ]
            plain_functions[name] = (number(answer), params)
    plain_structs = {name: [(number(kind), one) for kind, one in fields] for name, fields in structs.items() if name not in ALL_KINDS}
    return plain_functions, plain_structs


def differences(what, wanted, found):
    for name in sorted({*wanted, *found}):
        if wanted.get(name) != found.get(name):
            yield f"{what} {name}: the library has {wanted.get(name)}, and here is {found.get(name)}"


def wrapped(start, parts, end, indent):
    """One call or declaration, in lines of at most 128 characters."""
    lines, line = [], start
    for place, part in enumerate(parts):
        piece = part + (end if place + 1 == len(parts) else ",")
        if len(line) + 1 + len(piece) > 128:
            lines.append(line)
            line = " " * (indent - 1)
        line += piece if line.endswith("(") else " " + piece
    return "\n".join([*lines, line if parts else line + end])


def calls(functions):
    """The text of c/src/calls.c."""
    text = [CALLS_BEGIN]
    for kind in ALL_KINDS:
        free = "cpay_path_object_free" if kind in PATH_KINDS else "cpay_free"
        text.append(f"void {kind}_free({kind} *{kind.split('_')[-1]}) {{\n    if ({kind.split('_')[-1]}) "
                    f"proved_{free}(&{kind.split('_')[-1]}->handle);\n}}\n")
    for name, (answer, params) in functions.items():
        if name.endswith("_free") or name == VERSION:
            continue
        lengths = {one for _, one in params}
        given, refused, declared, unused = [], [], [], []
        for kind, one in params:
            declared.append((("cpay_handle *" if kind.removesuffix(" *") in ALL_KINDS else kind) + " " + one).replace("* ", "*"))
            if kind.removesuffix(" *") in ALL_KINDS:
                given.append(f"&{one}->handle")
            elif f"{one}_len" in lengths:
                refused.append(f"(!{one} && {one}_len)")
                given.append(f"{one} ? {one} : ({kind})nothing")
            elif (name, one) in OPTIONAL:
                unused.append(f"    {kind.removesuffix(' *')} no_{one} = ({kind.removesuffix(' *')})0;")
                given.append(f"{one} ? {one} : &no_{one}")
            else:
                given.append(one)
        proved = f"{answer} proved_{name}("
        text.append(wrapped(proved, declared, ");", len(proved)))
        signature = f"{answer} {name}("
        text.append(wrapped(signature, [f"{kind} {one}".replace("* ", "*") for kind, one in params], ") {", len(signature)))
        text += unused
        if refused:
            text.append(f"    if ({' || '.join(refused) if len(refused) > 1 else refused[0][1:-1]}) "
                        f"return {'CPAY_INVALID' if answer == 'cpay_status' else 'false'};")
        call = f"    proved_{name}(" if answer == "void" else f"    return proved_{name}("
        text.append(wrapped(call, given, ");", len(call)) + "\n}\n")
    return "\n".join(text)


def created():
    """For each type of handle: its name, the declaration of *_create as the header has it, and the name of the handle."""
    for kind in ALL_KINDS:
        _, params = header()[0][f"{kind}_new"]
        name, start = kind.split("_")[-1], f"cpay_status {kind}_create("
        rest = [f"{of} {one}".replace("* ", "*") for of, one in params[1:]]
        yield kind, name, start, [f"{kind} **{name}", *rest], [one for _, one in params[1:]]


def objects():
    """The text of c/src/objects.c."""
    text = [OBJECTS_BEGIN]
    for kind, name, start, parts, given in created():
        call = f"    const cpay_status status = {kind}_new("
        text.append("\n".join([
            wrapped(start, parts, ") {", len(start)), f"    {kind} *made = malloc(sizeof *made);", "    if (!made) return CPAY_OUT_OF_MEMORY;",
            f"    *made = ({kind})CPAY_INIT;", wrapped(call, ["made", *given], ");", len(call)), f"    if (status) free(made);\n    else *{name} = made;",
            "    return status;\n}\n", f"void {kind}_destroy({kind} *{name}) {{\n    {kind}_free({name});\n    free({name});\n}}\n"]))
    return "\n".join(text)


def wrong_bindings():
    """What the headers for other languages and for C++ lack."""
    text, plus = " ".join(read("include/codec_payload_bindings.h").split()), read("include/codec_payload.hpp")
    for kind, name, start, parts, _ in created():
        if f"CPAY_CHECKED {start}{', '.join(parts)});" not in text or f"void {kind}_destroy({kind} *{name});" not in text:
            yield f"include/codec_payload_bindings.h: no {kind}_create and {kind}_destroy as {kind}_new asks for"
    for call, (_, params) in header()[0].items():
        if params and params[0][0].removesuffix(" *") in ALL_KINDS and not re.search(rf"\b{call}\b", plus):
            yield f"include/codec_payload.hpp: no {call}"


def taking_memory():
    """The functions of the header whose comment says [m]."""
    marked = False
    for line in read("include/codec_payload.h").splitlines():
        name = re.search(r"\b(cpay_\w+)\(", line)
        if line.startswith(("/*", " *")):
            marked = "[m]" in line or marked and not line.startswith("/*")
        elif marked and name:
            yield name[1]
            marked = False


def exported():
    """The calls that the headers declare, those for session descriptions among them."""
    text = "".join(read(f"include/{name}.h") for name in ("codec_payload", "codec_payload_media", "codec_payload_sdp", "codec_payload_bindings"))
    text = re.sub(r"#if 0\n.*?#endif\n", "", re.sub(r"/\*.*?\*/", "", text, flags=re.S), flags=re.S)
    return sorted(re.findall(r"^(?:CPAY_CHECKED )?(?:const )?\w+ \*?(cpay_\w+)\([^)]*\);", text, re.M))


def versions():
    """The symbol versions of packaging/codec_payload.map, oldest first: name, release, and its calls."""
    found = []
    for name, body in re.findall(r"^(\w[\w.]*) \{(.*?)\n\}", read("packaging/codec_payload.map"), re.M | re.S):
        release = "0.1.0" if name == "CODEC_PAYLOAD_0" else name.removeprefix("CODEC_PAYLOAD_")
        found.append((name, release, re.findall(r"^\s+(cpay_\w+);", body, re.M)))
    return found


def names():
    """The text of each list of names that is made from packaging/codec_payload.map, by its path."""
    calls_of = [(version, release, name) for version, release, found in versions() for name in found]
    definition = "".join(f"    {name}\n" for name in sorted(name for _, _, name in calls_of))
    symbols = "".join(f" {name}@{version} {release}\n" for version, release, name in sorted(calls_of, key=lambda it: it[2]))
    marks = "".join(f" {version}@{version} {release}\n" for version, release, _ in versions())
    return {"packaging/codec_payload.def": f"LIBRARY codec_payload-0\nEXPORTS\n{definition}",
            "packaging/debian/libcodec-payload0.symbols": f"libcodec_payload.so.0 libcodec-payload0 #MINVER#\n{marks}{symbols}"}


def wrong_names():
    """What is wrong with the lists of names."""
    listed = sorted(name for _, _, found in versions() for name in found)
    wrong = [f"packaging/codec_payload.map: {name} is listed twice" for name in {it for it in listed if listed.count(it) > 1}]
    wrong += [f"packaging/codec_payload.map: {name} is there or in the headers, and not in both" for name in set(listed) ^ set(exported())]
    return wrong + [f"{path} is not what check_header.py --names writes" for path, text in names().items() if read(path) != text]


def too_wide():
    """The lines of the headers that are longer than WIDTH."""
    for path in sorted(os.listdir(f"{ROOT}/include")):
        for number, line in enumerate(read(f"include/{path}").split("\n"), 1):
            if len(line) > WIDTH:
                yield f"include/{path}:{number}: {len(line)} characters"


def main():
    if sys.argv[1:] == ["--calls"]:
        print(calls(header()[0]), end="")
        return 0
    if sys.argv[1:] == ["--bindings"]:
        print(objects(), end="")
        return 0
    if sys.argv[1:] == ["--names"]:
        for path, text in names().items():
            with open(f"{ROOT}/{path}", "w", encoding="utf-8") as it:
                it.write(text)
        return 0
    functions, structs, statuses, codecs = rattle()
    as_written, written_structs, numbers = header()
    of_header, its_structs = plain(as_written, written_structs)
    in_c = {f"CPAY_{name.replace('amrwb', 'amr_wb')}".upper(): value for name, value in codecs.items()}
    in_c |= {f"CPAY_{name}": value for name, value in statuses.items()}
    wrong = [
        *differences("header: function", functions, of_header),
        *differences("header: struct", structs, its_structs),
        *(f"header: {name} is not {value}" for name, value in in_c.items() if numbers.get(name) != value),
    ]
    if f"#if 0\n{read('examples/first.c')}#endif\n" not in read("include/codec_payload.h"):
        wrong.append("header: the example is not that of examples/first.c")
    if f"```c\n{read('examples/first.c')}```\n" not in read("docs/use/C.md"):
        wrong.append("docs/use/C.md: the example is not that of examples/first.c")
    wrong += [f"header: {kind} is not one handle" for kind in ALL_KINDS if written_structs.get(kind) != HANDLE]
    if read("c/src/calls.c") != calls(as_written):
        wrong.append("c/src/calls.c is not what check_header.py --calls prints")
    wrong += [f"c/tests/beyond.c does not call {name}" for name in taking_memory() if f"{name}(" not in read("c/tests/beyond.c")]
    wrong += too_wide()
    wrong += [*wrong_names(), *wrong_bindings()]
    if read("c/src/objects.c") != objects():
        wrong.append("c/src/objects.c is not what check_header.py --bindings prints")
    if not functions or not structs:
        wrong.append("no function, or no struct, was found")
    counts = f"{len(functions)} functions and {len(structs)} structs"
    print("\n".join([*wrong, f"{counts}: {'NOT the same' if wrong else 'all the same'}"]))
    return 1 if wrong else 0


if __name__ == "__main__":
    sys.exit(main())
