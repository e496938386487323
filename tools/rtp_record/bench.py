#!/usr/bin/env python3
"""Measures how many packets of VP8 the recorder takes in a second, at 1,200 bytes a packet, and how much memory.

  ./bench.py [MEGABYTES [FOLDER]]      by default 1000 megabytes in a temporary folder

The capture has the frames of captures/vp8.pcap, fragmented into packets of a payload descriptor and 1,199 bytes (RFC 7741): ten
packets a frame, 30 frames a second. It is copied by cp, which shows the share of the file system, listed and written, five times
each in turn. The least time counts, as user and system time of the process and as wall time. Status 1: more than 100 MB of memory."""

import json
import os
import resource
import struct
import subprocess
import sys
import tempfile
import time

HERE = os.path.dirname(os.path.realpath(__file__))
sys.path.insert(0, f"{HERE}/tests")
import capture  # noqa: E402

RUNS, PACKETS_A_FRAME, MEDIA, MOST_MEMORY = 5, 10, 1199, 100
SSRC = 0x1234ABCD


def frames():
    """VP8 frames of ten packets each: those of the capture, filled up with zeros, which VP8 decoders ignore."""
    packets = capture.media_of(capture.read(f"{HERE}/captures/vp8.pcap"))
    for places in capture.frames_of(packets):
        media = b"".join(packets[place].media[4:] for place in places)  # ffmpeg's descriptor: 15 bits of PictureID
        yield media[: MEDIA * PACKETS_A_FRAME].ljust(MEDIA * PACKETS_A_FRAME, b"\0")


def write(path, megabytes):
    """Writes a capture of about this size. Returns the number of its packets."""
    given, count = list(frames()), 0
    packet = capture.media_of(capture.read(f"{HERE}/captures/vp8.pcap"))[0]
    headers = bytearray(packet.headers)
    struct.pack_into(">H", headers, 16, 28 + 12 + 1 + MEDIA)
    struct.pack_into(">HH", headers, 38, 8 + 12 + 1 + MEDIA, 0)
    size = len(headers) + 13 + MEDIA
    with open(path, "wb") as file:
        file.write(struct.pack("<IHHiIII", capture.MAGIC_NANO, 2, 4, 0, 0, 262144, 1))
        for number in range(megabytes * 1000000 // (size + 16) // PACKETS_A_FRAME):
            frame = given[number % len(given)]
            for part in range(PACKETS_A_FRAME):
                at = number * 10**9 // 30 + part * 10000
                last = part == PACKETS_A_FRAME - 1
                file.write(struct.pack("<IIII", at // 10**9, at % 10**9, size, size) + headers)
                file.write(struct.pack(">BBHII", 0x80, 96 | (0x80 if last else 0), count % 65536, number * 3000 % 2**32, SSRC))
                file.write((b"\x10" if part == 0 else b"\x00") + frame[part * MEDIA : part * MEDIA + MEDIA])
                count += 1
    return count


def measured(words):
    """Runs a command. Returns its output, its user time, system time and wall time in seconds."""
    before, began = resource.getrusage(resource.RUSAGE_CHILDREN), time.monotonic()
    output = subprocess.run(words, check=True, stdout=subprocess.PIPE).stdout
    wall = time.monotonic() - began
    after = resource.getrusage(resource.RUSAGE_CHILDREN)
    return output, (after.ru_utime - before.ru_utime, after.ru_stime - before.ru_stime, wall)


def check(output, count, written):
    found = json.loads(output)["streams"][0]
    assert found["packets"] == count and found.get("frames", 0) * PACKETS_A_FRAME == (count if written else 0), found


def main():
    megabytes = int(sys.argv[1]) if len(sys.argv) > 1 else 1000
    with tempfile.TemporaryDirectory(dir=sys.argv[2] if len(sys.argv) > 2 else None) as folder:
        path = f"{folder}/vp8.pcap"
        count = write(path, megabytes)
        print(f"{count} packets, {os.path.getsize(path) / 1e6:.0f} MB")
        recorder = [f"{HERE}/rtp_record", "--json", "--map", "96=VP8/90000", path]
        commands = {"copied": ["cp", path, f"{folder}/copy.pcap"], "listed": recorder, "written": [*recorder, "-o", f"{folder}/out.webm"]}
        times = {what: [] for what in commands}
        for _ in range(RUNS):
            for what, words in commands.items():
                output, taken = measured(words)
                times[what].append(taken)
                if what != "copied":
                    check(output, count, what == "written")
        for what, taken in times.items():
            user, system, _ = min(taken, key=lambda it: it[0] + it[1])
            wall = min(it[2] for it in taken)
            print(f"{what}: {count / (user + system):,.0f} packets a second of processor time ({user:.2f} s of the program, {system:.2f} s "
                  f"of the system), {count / wall:,.0f} of wall time ({wall:.2f} s)")
        memory = resource.getrusage(resource.RUSAGE_CHILDREN).ru_maxrss / 1000
        print(f"{memory:.0f} MB of memory")
    return 1 if memory > MOST_MEMORY else 0


if __name__ == "__main__":
    sys.exit(main())
