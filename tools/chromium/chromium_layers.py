#!/usr/bin/env python3
"""Captures the calls of tools/rtp_record/captures/layers: Chromium sends VP8 in temporal layers, and in two sizes.

    tools/chromium/chromium_layers.py [CALL ...]     all of them, or those named; each replaces its files

A call is one of tools/chromium/chromium_peer.py over a network without losses. CALL.pcap gets its packets of video, as the relay
passed them. Beside it CALL-SSRC.md5 has a line for each frame that the encoder gave to the packetizer of this SSRC: its RTP time,
whether it is a keyframe, its size, its MD5. Padding and retransmissions have another SSRC, and are left out. Needs Chromium and cargo.
"""

import argparse
import collections
import hashlib
import pathlib
import struct
import sys
import tempfile

import chromium_peer
import capture  # of tools/rtp_record/tests, which chromium_peer has added to the path

FOLDER = chromium_peer.ROOT / "tools/rtp_record/captures/layers"
# The query of the page for each call.
CALLS = {
    "l1t2": "video=VP8,rtx&layers=L1T2&width=160",
    "l1t3": "video=VP8,rtx&layers=L1T3&width=160",
    "simulcast": "video=VP8,rtx&simulcast=1&width=640",
}
SECONDS = 5
# How many frames each of its streams has at least: on a busy machine Chromium encodes fewer.
FRAMES_WANTED = 40
# Ethernet, IPv4 and UDP from one port of loopback to another; capture.write sets the lengths.
LOOPBACK = 0x7F000001
ADDRESSES = struct.pack(">BBHHHBBHII", 0x45, 0, 0, 0, 0x4000, 64, 17, 0, LOOPBACK, LOOPBACK)
HEADERS = bytes(12) + b"\x08\x00" + ADDRESSES + struct.pack(">HHHH", 5004, 5006, 0, 0)


def write(name, call):
    """The files of a call that has ended; how many bytes of packets they have."""
    if call.failure:
        sys.exit(f"{name}: {call.failure}")
    frames = collections.defaultdict(list)
    for frame in call.frames:
        frames[frame.ssrc].append(frame)
    sent = [it for it in call.relay.journal.packets.values() if it.packet.ssrc in frames]
    if any(not it.packet.payload for it in sent):
        sys.exit(f"{name}: padding under the SSRC of the video")
    if not frames or min(map(len, frames.values())) < FRAMES_WANTED:
        sys.exit(f"{name}: too few frames")
    packets = [capture.Packet(round((it.arrived - sent[0].arrived) * 1e9), HEADERS, it.packet.data) for it in sent]
    for old in FOLDER.glob(f"{name}[.-]*"):
        old.unlink()
    capture.write(FOLDER / f"{name}.pcap", packets)
    for ssrc, of_ssrc in frames.items():
        times = {it.packet.timestamp for it in sent if it.packet.ssrc == ssrc}
        lines = [f"{it.time} {it.kind} {len(it.data)} {hashlib.md5(it.data).hexdigest()}\n" for it in of_ssrc if it.time in times]
        pathlib.Path(FOLDER, f"{name}-{ssrc:08x}.md5").write_text("".join(lines), encoding="ascii")
    return sum(len(packet.payload) for packet in packets)


def main(words):
    parser = argparse.ArgumentParser(description=__doc__.splitlines()[0])
    parser.add_argument("calls", nargs="*", metavar="call", help=f"{', '.join(CALLS)}; all by default")
    names = parser.parse_args(words).calls or list(CALLS)
    settings = chromium_peer.settings_of(["--loss", "0", "--round-trip", "10", "--seconds", str(SECONDS)])
    settings.network.jitter = 0
    FOLDER.mkdir(exist_ok=True)
    with tempfile.TemporaryDirectory() as folder:
        program = chromium_peer.built(folder)
        for name in names:
            call = chromium_peer.made(name, CALLS[name], settings, program, folder)
            print(f"{name}: {len(call.frames)} frames, {write(name, call)} bytes of packets", flush=True)


if __name__ == "__main__":
    main(sys.argv[1:])
