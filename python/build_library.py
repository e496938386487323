"""Builds the extension module codec_payload._c: the C library, linked in from its archive, behind cffi in API mode.

The compiler reads the header, so no struct is described twice. cffi cannot read the header as it is, which has inline functions and
attributes: the preprocessor removes the attributes, and `declarations` the bodies. Needs a C compiler ($CC or cc) and make, and the
repository around this folder, or its path in CODEC_PAYLOAD_ROOT.
"""
import os
import re
import subprocess

from cffi import FFI

HERE = os.path.dirname(os.path.abspath(__file__))
# A copy of this folder names the repository.
ROOT = os.environ.get("CODEC_PAYLOAD_ROOT", os.path.dirname(HERE))
HEADER = '#include "codec_payload_sdp.h"\n'
# Constants that are macros. The compiler gives their values.
MACROS = ("CPAY_MAX_HISTORY", "CPAY_NO_HOLD_BACK", "CPAY_NO_MAX_UNIT", "CPAY_TELEPHONE")


def without_bodies(text):
    """Inline functions become declarations."""
    out, at = [], 0
    for found in re.finditer(r"static inline ([^;{]*)\{", text):
        if found.start() < at:
            continue
        depth, end = 1, found.end()
        while depth:
            depth += {"{": 1, "}": -1}.get(text[end], 0)
            end += 1
        out += [text[at:found.start()], found[1].strip(), ";\n"]
        at = end
    return "".join([*out, text[at:]])


def declarations():
    """What the header declares, as cffi reads it."""
    words = [os.environ.get("CC", "cc"), "-E", "-P", "-xc", "-D__attribute__(x)=", f"-I{ROOT}/include", "-"]
    text = subprocess.run(words, input=HEADER, capture_output=True, text=True, check=True).stdout
    text = text[text.index("uint32_t cpay_version"):]
    text = re.sub(r"\b_Bool\b", "bool", without_bodies(text))
    return text + "".join(f"#define {name} ...\n" for name in MACROS)


subprocess.run(["make", "-s", "-C", ROOT, "c/out/libcodec_payload.a"], check=True)
ffi = FFI()
ffi.cdef(declarations())
ffi.set_source("codec_payload._c", HEADER, include_dirs=[f"{ROOT}/include"], extra_objects=[f"{ROOT}/c/out/libcodec_payload.a"],
               extra_link_args=["-Wl,--gc-sections", "-Wl,--exclude-libs,ALL"])
