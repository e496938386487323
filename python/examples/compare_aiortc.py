#!/usr/bin/env python3
"""The receiver beside aiortc's jitter buffer, over the same packets of VP8 at 0, 2 and 10 % loss.

   compare_aiortc.py [FRAMES]    1,500 frames by default; a line for each loss, and a summary

Some packets are swapped with the next one. A frame is wrong if it is none of those that were sent, byte for byte. The times are user time
of this process for a packet. The status is 1 if a frame of the receiver is wrong or out of order, or if without a loss one is missing.
"""
import random
import resource
import struct
import sys

from aiortc.codecs.vpx import VpxPayloadDescriptor
from aiortc.jitterbuffer import JitterBuffer
from aiortc.rtp import RtpPacket
from codec_payload import Receiver

# The share of packets that are lost, and of those that are swapped with the next one.
NETWORKS = ((0, 0), (0.02, 0.05), (0.1, 0.1))


def packets(frames, seed, loss, swap):
    """The frames by their bytes, and the packets that arrive, with times in milliseconds: 3 of 1,000 bytes for a frame."""
    rng, number, sent, out = random.Random(seed), 65_000, {}, []
    for frame in range(frames):
        body = bytes([0x10, 2, 0, 0x9D, 1, 0x2A]) + rng.randbytes(2_994)
        sent[body] = frame
        for part in range(3):
            head = struct.pack("!BBHII", 0x80, 96 | (128 if part == 2 else 0), number & 0xFFFF, frame * 3_000 & 0xFFFFFFFF, 7)
            out.append((frame * 33, head + bytes([0x10 if part == 0 else 0]) + body[part * 1_000:(part + 1) * 1_000]))
            number += 1
    kept = [it for it in out if rng.random() >= loss]
    for place in range(len(kept) - 1):
        if rng.random() < swap:
            (early, first), (late, second) = kept[place:place + 2]
            kept[place:place + 2] = (early, second), (late, first)
    return sent, kept


def by_receiver(kept):
    receiver, found = Receiver("VP8", 96, 90_000, ssrc=7), []
    for now, datagram in kept:
        receiver.receive(now, datagram)
        found += [it.data for it in receiver.frames(now)]
    receiver.finish()
    return found + [it.data for it in receiver.frames(1 << 40)]


def by_aiortc(kept):
    buffer, found = JitterBuffer(capacity=128, is_video=True), []
    for _, datagram in kept:
        packet = RtpPacket.parse(datagram)
        packet._data = VpxPayloadDescriptor.parse(packet.payload)[1]
        _, frame = buffer.add(packet)
        if frame is not None:
            found.append(frame.data)
    return found


def timed(call, kept):
    began = resource.getrusage(resource.RUSAGE_SELF).ru_utime
    found = call(kept)
    return found, resource.getrusage(resource.RUSAGE_SELF).ru_utime - began


def main(frames):
    failed, wrong, times = False, {"receiver": 0, "aiortc": 0}, {"receiver": 0.0, "aiortc": 0.0}
    for loss, swap in NETWORKS:
        sent, kept = packets(frames, 1, loss, swap)
        row = []
        for name, call in (("receiver", by_receiver), ("aiortc", by_aiortc)):
            found, spent = timed(call, kept)
            places = [sent[it] for it in found if it in sent]
            wrong[name] += len(found) - len(places)
            times[name] += spent
            is_bad = len(places) < len(found) or places != sorted(set(places)) or (not loss and len(places) < frames)
            failed |= name == "receiver" and is_bad
            row.append(f"{name} {len(found)} frames, {len(found) - len(places)} wrong, {spent / len(kept) * 1e6:.1f} us a packet")
        print(f"loss {loss}, swapped {swap}: {'; '.join(row)}")
    print(f"beside aiortc: {wrong['receiver']} wrong frames, aiortc {wrong['aiortc']}; {times['receiver'] / times['aiortc']:.2f} of its time")
    return 1 if failed else 0


if __name__ == "__main__":
    sys.exit(main(int(sys.argv[1]) if len(sys.argv) > 1 else 1_500))
