#!/usr/bin/env python3
"""Writes first inputs of the fuzz targets, made of the test vectors of the repository.

  tools/fuzz/seeds.py FOLDER

FOLDER gets a folder for each target. A seed is laid out as the target reads its bytes.
"""
import os
import re
import sys

ROOT = os.path.dirname(os.path.dirname(os.path.dirname(os.path.realpath(__file__))))
sys.path.insert(0, f"{ROOT}/tests/vectors")

import datagram_vectors  # noqa: E402  (the folder is known only now)
import program_vectors  # noqa: E402

# The places of codecs in `CODECS` of src/formats.rs.
CODECS = {"opus": 0, "pcmu": 1, "pcma": 2, "g722": 3, "cn": 4, "amrwb": 5, "amrwb-octet": 0x85, "tele": 6, "vp8": 7,
          "vp8-id": 7, "vp9": 8, "vp9-flex": 8, "av1": 9, "null": 10}
# A receiver with a limit of 4,096 and no other setting.
PLAIN = bytes([0, 0, 0])
# A session of VP8 that requests packets and keyframes, with at most 4 streams: settings of src/session.rs, and time 0.
SESSION = bytes([0x59, 0, 7, 0, 100, 0, 200, 0x75, 0x30, 200, 0, 0x0c, 10, 100, 20, 200, 255, 99, 7, 208, 0])
# Dependency descriptors of calls of Chromium, each with a structure first: VP9 and AV1 in two spatial layers.
DESCRIPTORS = ("810001800514853abfaaa18f04304302a02a006001001b934515e082704608c0c7870043216511115432768077805980ef80b380 860002 830003",
               "8000018003187aaaf130a0a014d141382304600864222226500ef00b301df01670 830002 8500071a68004020 8300081a201810")
# A packet of media, and FEC over it and the lost one behind it.
FEC = bytes([5, 220, 0x10, 0, 3]) + b"abc" + bytes([0x24, 0, 17, 0, 0, 0, 1, 0, 0, 0, 0, 0, 0, 0, 3, 0xc0, 0, 5, 7, 5])
# The same in RED, for a port.
PORT = bytes([5, 220, 0, 0x12, 0, 1, 4, 96]) + b"abc" + bytes([0x22, 0, 1, 18, 117, 0, 0, 0, 1, 0, 0, 0, 0, 0, 0, 0, 3, 0xc0, 0, 5, 7, 5])
# For a path: a packet of media is pushed and leaves, and feedback comes, each 10 ms later, ten times.
PATH = bytes([6, 64]) + 10 * (bytes([50, 0, 2, 4, 0xb0, 50, 2]) + bytes([50, 4, 1, 0, 0, 0]) + 64 * bytes([5]) + bytes([0, 100]))
# A packet arrives each 10 ms, 2,621 units of abs-send-time later, ten times.
OFFER = b"".join(bytes([50, 0]) + (place * 2621).to_bytes(3, "big") + bytes([4, 0xb0, 40]) for place in range(10))
# Calls of a session: polls, a poll at the next deadline, and a BYE of SSRC 1.
POLL, DEADLINE, BYE = bytes([0]), bytes([7 << 3]), bytes([10 << 3, 0, 0x80, 1, 1, 0])


def some(data):
    """Bytes with their length in front, as `Input::some` reads them."""
    return bytes([len(data)]) + data if len(data) < 64 else bytes([0xf0]) + (len(data) % 2048).to_bytes(2, "big") + data[:2047]


def texts(rows):
    return [row.given for row in rows if isinstance(row.given, str)]


def words(text, name):
    return [bytes.fromhex(it) for it in re.findall(rf"^{name}(?: \S+)*? ((?:[0-9a-f]{{2}})+)$", text, re.M)]


def captured():
    with open(f"{ROOT}/tests/vectors/captured_packets.txt", encoding="utf-8") as it:
        return [bytes.fromhex(field) for field in re.findall(r"\b(?:[0-9a-f]{2}){12,}\b", it.read())]


def vp8(ssrc, step, is_key):
    """A call of a session: a packet of VP8 whose number is `step` above the latest one of its SSRC."""
    payload = bytes([0x10, 0x10, 0, 0, 0x9d, 1, 0x2a, 0x10, 0, 0x10, 0] if is_key else [0x10, 0x11, 0, 0])
    return bytes([105 + ssrc, step + 22 if step > 1 else 255, 1]) + some(payload)


def sessions():
    """Sessions with losses, requests and ends: their settings and calls."""
    frames = [vp8(ssrc, 2 if place % 5 == 3 else 1, place == 0) for place in range(20) for ssrc in (0, 1, 3)]
    yield SESSION + b"".join(frame + POLL for frame in frames)
    yield SESSION + b"".join(frame + POLL + DEADLINE * 2 for frame in frames)
    yield SESSION + b"".join(frames) + BYE + POLL + DEADLINE * 9
    for text in texts(datagram_vectors.ROWS):
        yield SESSION + b"".join(bytes([9 << 3]) + some(packet) + POLL for packet in words(text, "datagram"))


def seeds():
    """Target and bytes of each seed."""
    for text in texts(program_vectors.ROWS):
        codec = bytes([CODECS.get(text.split(" ")[1] if " " in text else "", 0)])
        for frame in words(text, "sample"):
            yield "units", codec + bytes([3, 0, 7, 4, 0xb0]) + frame
            yield "media", bytes([0]) + frame
        for line in words(text, "sample"):
            yield "depacketize", codec + bytes([0]) + some(line)
    packets = [it for text in texts(datagram_vectors.ROWS) for it in words(text, "datagram")] + captured()
    for packet in packets:
        yield "packets", bytes(3) + packet
        payload = packet[12:]
        yield "red", bytes(16) + payload
        yield "vp8", bytes([7, 0, 5, 1, 1]) + payload
        for place in range(11):
            yield "depacketize", bytes([place, 0]) + some(payload)
    for text in texts(datagram_vectors.ROWS):
        calls = b"".join(bytes([5]) + some(packet) + bytes([0]) for packet in words(text, "datagram"))
        yield "receiver", PLAIN + bytes(2) + calls
    for data in sessions():
        yield "session", data
    for stream in DESCRIPTORS:
        yield "descriptor", b"".join(bytes([len(it)]) + it for it in map(bytes.fromhex, stream.split()))
    yield "fec", FEC
    yield "ports", PORT
    yield "paths", PATH
    yield "offers", OFFER
    yield "buffer", bytes([1, 4, 0x80, 1, 0x80, 3, 0x80, 2, 0, 0, 0, 0])


def main(folder):
    for place, (target, data) in enumerate(seeds()):
        os.makedirs(f"{folder}/{target}", exist_ok=True)
        with open(f"{folder}/{target}/seed-{place:05}", "wb") as it:
            it.write(data)
    print(place + 1)


if __name__ == "__main__":
    if len(sys.argv) != 2:
        sys.exit(__doc__)
    main(sys.argv[1])
