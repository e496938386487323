#!/usr/bin/env python3
"""Builds and runs the recipes of docs/use/RECIPES.md, for C over the library and for Rust over rust/, and compares their output.

  scripts/examples.py [ARCHIVE]    the archive of the library, by default c/out/libcodec_payload.a

Each recipe of SIMULATED fails by itself if its network shows a fault, and must print the same in both languages, and the line that
docs/use/RECIPES.md has. The recorders write the VP8 capture of tools/rtp_record under each condition of its tests. The frames in their
files must be the encoder's, by their MD5s: the frames of which every packet arrived. The stream over UDP in C is run by
scripts/bindings.sh, all examples for Rust by scripts/rust.sh, and the examples for Rattle by rt ci.

Needs make, a C compiler with sanitizers, $CC or cc, and cargo of 1.85 or later.
The last line says what passed; the status is 0 if all passed.
"""
import hashlib
import os
import struct
import subprocess
import sys
import tempfile

ROOT = os.path.dirname(os.path.dirname(os.path.realpath(__file__)))
ARCHIVE = f"{ROOT}/c/out/libcodec_payload.a"
sys.path.insert(0, f"{ROOT}/tools/rtp_record/tests")

import capture  # noqa: E402  (the folder is known only now)
import conditions  # noqa: E402

SIMULATED = ["nack", "keyframe", "sfu", "gateway", "sdp", "waits"]
NAMES = [*SIMULATED, "recorder"]
CAPTURES = f"{ROOT}/tools/rtp_record/captures"
PORT, PAYLOAD_TYPE = "15004", "96"
# An option of ffmpeg's encoder in tools/rtp_record/live.sh.
KEYFRAMES_EACH = 30
C_FLAGS = ["-std=c99", "-pedantic", "-Wall", "-Wextra", "-Wconversion", "-Werror", "-O1", "-g", "-fsanitize=address,undefined",
           "-fno-sanitize-recover=all"]


def built(folder, archive):
    """The programs, by name and language."""
    programs = {}
    for name in NAMES:
        programs[name, "C"] = f"{folder}/{name}"
        subprocess.run([os.environ.get("CC", "cc"), *C_FLAGS, f"-I{ROOT}/include", f"{ROOT}/examples/{name}.c",
                        archive, "-o", programs[name, "C"]], check=True)
        subprocess.run(["cargo", "build", "--offline", "--quiet", "--example", name], cwd=f"{ROOT}/rust",
                       env={**os.environ, "CARGO_TARGET_DIR": f"{folder}/target"}, check=True)
        programs[name, "Rust"] = f"{folder}/target/debug/examples/{name}"
    return programs


def frames_in(path):
    """The MD5 of each frame of an IVF file of VP8; none of an empty one."""
    with open(path, "rb") as file:
        data = file.read()
    if not data:
        return []
    signature, version, at, codec, width, height = struct.unpack_from("<4sHH4sHH", data)
    assert (signature, version, at, codec) == (b"DKIF", 0, 32, b"VP80") and width and height, data[:32]
    found = []
    while at < len(data):
        size, _ = struct.unpack_from("<IQ", data, at)
        found.append(hashlib.md5(data[at + 12 : at + 12 + size]).hexdigest())
        at += 12 + size
    return found


def wanted(packets, there):
    """The encoder's MD5s of the frames all of whose packets are there, from the first such keyframe on."""
    with open(f"{CAPTURES}/vp8.md5", encoding="ascii") as lines:
        given = [line.split(",")[5].strip() for line in lines if line[0] != "#"]
    frames = capture.frames_of(packets)
    assert given and len(given) == len(frames), f"{len(given)} frames of the encoder, {len(frames)} in the capture"
    whole = [place for place, frame in enumerate(frames) if set(frame) <= there]
    first = next(place for place in whole if place % KEYFRAMES_EACH == 0)
    return [given[place] for place in whole if place >= first]


def simulated(programs):
    """A line for each recipe that fails, or prints something else than the other language or the page."""
    with open(f"{ROOT}/docs/use/RECIPES.md", encoding="utf-8") as it:
        page = it.read()
    for name in SIMULATED:
        printed = {}
        for language in ("C", "Rust"):
            ran = subprocess.run([programs[name, language]], capture_output=True, text=True, check=False)
            printed[language] = ran.stdout
            if ran.returncode:
                yield f"{name} in {language}: status {ran.returncode}: {ran.stdout}{ran.stderr}"
        if printed["C"] != printed["Rust"]:
            yield f"{name} prints {printed['C']!r} in C and {printed['Rust']!r} in Rust"
        if printed["Rust"] not in page:
            yield f"docs/use/RECIPES.md lacks the output of {name}: {printed['Rust']!r}"


def recorders(programs, folder):
    packets = capture.media_of(capture.read(f"{CAPTURES}/vp8.pcap"))
    for condition in conditions.ALL:
        come, there = condition(packets)
        frames = wanted(packets, there)
        given, path = f"{folder}/given.pcap", f"{folder}/frames.ivf"
        capture.write(given, come)
        for language in ("C", "Rust"):
            words = [programs["recorder", language], given, PORT, PAYLOAD_TYPE, path]
            ran = subprocess.run(words, capture_output=True, text=True, check=False)
            found = [] if ran.returncode else frames_in(path)
            if found != frames or ran.stdout != f"{len(frames)} frames\n":
                yield (f"the recorder in {language}, {condition.__name__}: expected {len(frames)} frames, and it wrote "
                       f"{len(found)}: {ran.stdout}{ran.stderr}")


def main(words):
    archive = os.path.realpath(words[0]) if words else ARCHIVE
    if not words:
        subprocess.run(["make", "-s", "-C", ROOT], check=True, stdout=subprocess.DEVNULL)
    with tempfile.TemporaryDirectory() as folder:
        programs = built(folder, archive)
        wrong = [*simulated(programs), *recorders(programs, folder)]
    tested = f"examples: {len(SIMULATED)} recipes, and the recorders under {len(conditions.ALL)} conditions, in C and Rust"
    print("\n".join([*wrong, f"{tested}: {f'{len(wrong)} faults' if wrong else 'all passed'}"]))
    return 1 if wrong else 0


if __name__ == "__main__":
    sys.exit(main(sys.argv[1:]))
