#!/usr/bin/env python3
"""Captures that are cut or changed: no crash, no hang, and of a capture that is cut what came before.

  tests/test_hostile.py [PROGRAM]     a program built with sanitizers (make sanitized); ./rtp_record-sanitized where none is named

Each of 200 captures is cut at another place, and of each of 1,000 one to eight bytes are changed, of headers too. Every second round
over the captures has their SDPs, which name RED and retransmissions. The last line is `N passed, N failed`."""

import os
import random
import subprocess
import sys
import tempfile


HERE = os.path.dirname(os.path.realpath(__file__))
CAPTURES = os.path.join(HERE, "..", "captures")
CUTS, CHANGES, SECONDS = 200, 1000, 20


def fault_of(program, path, out, words):
    """What is wrong with a run: it ends with 0 or 1, in time, and no sanitizer speaks."""
    try:
        ran = subprocess.run([program, *words, path, "-o", out], capture_output=True, check=False, timeout=SECONDS)
    except subprocess.TimeoutExpired:
        return f"no end after {SECONDS} seconds"
    if ran.returncode not in (0, 1):
        return f"status {ran.returncode}: {ran.stderr.decode(errors='replace')[-400:]}"
    if b"Sanitizer" in ran.stderr or b"runtime error" in ran.stderr:
        return ran.stderr.decode(errors="replace")[-400:]
    return None


def frames_in(folder):
    """The MD5 of each frame of the only file."""
    files = [f"{folder}/{file}" for file in os.listdir(folder) if not file.endswith(".json")]
    if not files:
        return []
    command = ["ffmpeg", "-v", "error", "-i", files[0], "-c", "copy", "-f", "framemd5", "-"]
    lines = subprocess.run(command, capture_output=True, check=False).stdout.decode().splitlines()
    return [line.split(",")[5].strip() for line in lines if not line.startswith("#")]


def cut(data, folder):
    """Captures that end too early."""
    for case in range(CUTS):
        size = len(data) * case // CUTS
        path = f"{folder}/cut-{case}.pcap"
        with open(path, "wb") as file:
            file.write(data[:size])
        yield f"cut at {size}", path, []


def changed(names, folder):
    """Captures of which some bytes are others."""
    chance = random.Random(4)
    for case in range(CHANGES):
        name = names[case % len(names)]
        with open(f"{CAPTURES}/{name}", "rb") as file:
            data = bytearray(file.read())
        for _ in range(chance.randint(1, 8)):
            data[chance.randrange(len(data))] = chance.randrange(256)
        path = f"{folder}/changed-{case}.pcap"
        with open(path, "wb") as file:
            file.write(data)
        sdp = f"{CAPTURES}/{name.removesuffix('.pcap')}.sdp"
        has_sdp = case // len(names) % 2 == 1 and os.path.exists(sdp)
        yield f"{name} changed, {case}", path, ["--sdp", sdp] if has_sdp else []


def main():
    program = os.path.abspath(sys.argv[1] if len(sys.argv) > 1 else f"{HERE}/../rtp_record-sanitized")
    names = sorted(file for file in os.listdir(CAPTURES) if file.endswith(".pcap"))
    passed = failed = 0
    with tempfile.TemporaryDirectory() as folder:
        with open(f"{CAPTURES}/vp8.pcap", "rb") as file:
            data = file.read()
        whole = [line.split(",")[5].strip() for line in open(f"{CAPTURES}/vp8.md5", encoding="ascii") if line[0] != "#"]
        before = 0
        for what, path, words in [*cut(data, folder), *changed(names, folder)]:
            out = path.removesuffix(".pcap")
            os.mkdir(out)
            fault = fault_of(program, path, out, words)
            if not fault and what.startswith("cut"):
                found = frames_in(out)
                if found != whole[: len(found)] or len(found) < before:
                    fault = f"{len(found)} frames, which are not the first ones, or fewer than of a shorter capture"
                before = len(found)
            if fault:
                print(f"{what}: {fault}")
            passed, failed = passed + (not fault), failed + bool(fault)
            os.remove(path)
    print(f"{passed} passed, {failed} failed")
    return 1 if failed else 0


if __name__ == "__main__":
    sys.exit(main())
