#!/usr/bin/env python3
"""Recordings that end too early: a full disk, an interruption, a capture that is damaged. What came before plays, and it is said.

  tests/test_ends.py [PROGRAM]

A full disk is a limit of the file's size (RLIMIT_FSIZE), and for root a small tmpfs too. The last line is `N passed, N failed`."""

import json
import os
import resource
import signal
import subprocess
import sys
import tempfile
import time

import capture
from checks import PROGRAM, check, status_of_checks
from recorded import all_streams
from test_captures import faults_of_file, found_in, md5s_in
from test_links import ETHERNET, TYPE_IPV4, ethernet, ipv4, pcapng, udp

STREAMS = {stream.title: stream for stream in all_streams()}
ENDINGS = {
    "vp8": ["webm", "mkv", "ivf"], "vp9": ["webm", "ivf"], "chromium-av1 video": ["webm", "obu", "ivf"], "opus": ["webm", "ogg"],
    "pcmu": ["mka", "wav"], "g722": ["mka"], "amrwb": ["awb"],
}


def is_beginning(stream, path, what):
    """The file plays, and has the first frames of the stream, some of them at least."""
    wanted, found = stream.all_wanted(), found_in(stream.codec, path)
    check(0 < len(found) <= len(wanted) and found == wanted[: len(found)], f"{what}: {len(found)} of {len(wanted)}, from the first on")
    for fault in faults_of_file(path):
        check(False, f"{what}: {fault}")
    return len(found)


def record(stream, path, out, **other):
    return subprocess.run([PROGRAM, *stream.words, "--json", path, "-o", out], capture_output=True, check=False, **other)


def limited(size):
    return lambda: resource.setrlimit(resource.RLIMIT_FSIZE, (size, size))


def full_disks(folder):
    """Where a file may not grow: the status says it, the file and the stream are named, and the beginning plays."""
    for title, endings in ENDINGS.items():
        stream = STREAMS[title]
        source = f"{folder}/{stream.name}.pcap"
        capture.write(source, stream.packets())
        for ending in endings:
            out = f"{folder}/full.{ending}"
            ran = record(stream, source, out)
            check(ran.returncode == 0, f"{title} as {ending}: {ran.stderr}")
            size = os.path.getsize(out)
            for limit in (size // 2, size - 200):
                what = f"{title} as {ending} of {size} bytes where {limit} are allowed"
                ran = record(stream, source, out, preexec_fn=limited(limit))
                named = out.encode() in ran.stderr and f"{stream.ssrc:08x}".encode() in ran.stderr
                check(ran.returncode == 1 and named, f"{what}: status {ran.returncode}, {ran.stderr}")
                check(os.path.getsize(out) <= limit, f"{what}: {os.path.getsize(out)} bytes")
                is_beginning(stream, out, what)
            ran = record(stream, source, out, preexec_fn=limited(0))
            check(ran.returncode == 1 and not os.path.exists(out), f"{title} as {ending}: no byte is allowed, and no file left")
    tmpfs = f"{folder}/small"
    os.mkdir(tmpfs)
    if os.geteuid() != 0 or subprocess.run(["mount", "-t", "tmpfs", "-o", "size=32k", "tmpfs", tmpfs], check=False).returncode:
        print("a tmpfs can not be mounted here: the size limit alone was tested")
        return
    try:
        stream = STREAMS["vp8"]
        ran = record(stream, f"{folder}/vp8.pcap", f"{tmpfs}/x.webm")
        check(ran.returncode == 1 and b"No space left" in ran.stderr, f"a full tmpfs: status {ran.returncode}, {ran.stderr}")
        is_beginning(stream, f"{tmpfs}/x.webm", "a full tmpfs")
    finally:
        subprocess.run(["umount", tmpfs], check=True)


def fed(stream, out, number, folder):
    """A run that gets the capture by a pipe, and then that signal: its status, its list and what it said."""
    path = f"{folder}/fed.pcap"
    if os.path.exists(out):
        os.remove(out)
    capture.write(path, stream.packets())
    with open(path, "rb") as file:
        data = file.read()
    run = subprocess.Popen([PROGRAM, *stream.words, "--json", "-", "-o", out],
                           stdin=subprocess.PIPE, stdout=subprocess.PIPE, stderr=subprocess.PIPE)
    run.stdin.write(data)
    run.stdin.flush()
    for _ in range(100):  # until the file is there and grows no more
        before = os.path.getsize(out) if os.path.exists(out) else 0
        time.sleep(0.05)
        if before and os.path.getsize(out) == before:
            break
    run.send_signal(number)
    told, said = run.communicate(timeout=10)
    return run.returncode, told, said


def interruptions(folder):
    for title, endings in ENDINGS.items():
        stream = STREAMS[title]
        for ending in endings:
            out = f"{folder}/interrupted.{ending}"
            for number in (signal.SIGINT, signal.SIGTERM):
                status, told, said = fed(stream, out, number, folder)
                check(status == 1 and b"interrupted" in said, f"{title} as {ending}: status {status}, {said}")
                # stdio reads a pipe in pieces, so that the last of the packets may not have been seen
                seen = json.loads(told)["streams"][0]["packets"]
                count = is_beginning(stream, out, f"{title} as {ending}, interrupted")
                wanted = stream.wanted(stream.packets(), set(range(seen)))
                check(count == len(wanted), f"{title} as {ending}: all frames of the {seen} packets that were read, not {count}")
            os.remove(out)


def kills(folder):
    """Without a chance to end the file, it plays up to a second before."""
    for title, ending in [("vp8", "webm"), ("vp9", "ivf"), ("opus", "ogg"), ("pcmu", "wav"), ("amrwb", "awb")]:
        stream, out = STREAMS[title], f"{folder}/killed.{ending}"
        status, _, _ = fed(stream, out, signal.SIGKILL, folder)
        check(status == -signal.SIGKILL, f"{title} as {ending}: it was killed")
        is_beginning(stream, out, f"{title} as {ending}, killed")


def damages(folder):
    """A capture that is cut, or has a damaged block: what came before is written, and it is said."""
    stream = STREAMS["vp8"]
    frames = [(packet.time, ethernet(ipv4(udp(packet.payload)), TYPE_IPV4)) for packet in stream.packets()]
    pcapng(f"{folder}/good.pcapng", ETHERNET, frames)
    pcapng(f"{folder}/half.pcapng", ETHERNET, frames[:70])
    capture.write(f"{folder}/good.pcap", stream.packets())
    capture.write(f"{folder}/half.pcap", stream.packets()[:70])
    wanted = stream.wanted(stream.packets(), set(range(70)))
    for kind in ("pcap", "pcapng"):
        with open(f"{folder}/good.{kind}", "rb") as file:
            data = file.read()
        middle = os.path.getsize(f"{folder}/half.{kind}")
        length = middle + (8 if kind == "pcap" else 4)
        for what, bad in {
            "cut inside a packet": data[: middle + 100],
            "cut inside a header": data[: middle + 7],
            "with a length that is too large": data[:length] + b"\xff\xff\xff\x7f" + data[length + 4 :],
        }.items():
            path, out = f"{folder}/bad.{kind}", f"{folder}/bad.webm"
            with open(path, "wb") as file:
                file.write(bad)
            ran = record(stream, path, out)
            check(ran.returncode == 1 and path.encode() in ran.stderr, f"{kind} {what}: status {ran.returncode}, {ran.stderr}")
            check(json.loads(ran.stdout)["streams"][0]["packets"] == 70, f"{kind} {what}: the packets before")
            check(md5s_in(out) == wanted, f"{kind} {what}: the frames before")
            check(not list(faults_of_file(out)), f"{kind} {what}: the file plays")


def main():
    with tempfile.TemporaryDirectory() as folder:
        for test in [full_disks, interruptions, kills, damages]:
            test(folder)
    return status_of_checks()


if __name__ == "__main__":
    sys.exit(main())
