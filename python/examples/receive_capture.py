#!/usr/bin/env python3
"""Receives the streams of a capture, as its session description says.

   receive_capture.py CAPTURE.pcap DESCRIPTION.sdp    prints a line for each stream
"""
import struct
import sys

from codec_payload import EventKind, sdp


def datagrams(path):
    """Times in milliseconds and payloads of the UDP datagrams over IPv4 in a capture of Ethernet (tcpdump's format)."""
    with open(path, "rb") as it:
        order = "<" if it.read(24)[:4] == b"\xd4\xc3\xb2\xa1" else ">"
        while head := it.read(16):
            seconds, micros, size, _ = struct.unpack(f"{order}IIII", head)
            packet = it.read(size)
            start = 14 + packet[14] % 16 * 4
            if packet[12:14] == b"\x08\x00" and packet[14 + 9] == 17:
                yield seconds * 1_000 + micros // 1_000, packet[start + 8:start + struct.unpack("!H", packet[start + 4:start + 6])[0]]


def is_media(datagram):
    """RTP and RTCP begin with 128 to 191; STUN and DTLS on the same port do not (RFC 7983, section 7)."""
    return len(datagram) > 0 and 128 <= datagram[0] <= 191


def frames(capture, description):
    """The frames of each stream of a capture, by payload type and SSRC."""
    with open(description, encoding="utf-8") as it:
        session = sdp.session(sdp.read(it.read()))
    found, now = {}, 0

    def take():
        for event in session.events(now):
            if event.kind is EventKind.UNIT:
                found.setdefault((event.payload_type, event.ssrc), []).append(event.frame)

    for now, datagram in filter(lambda it: is_media(it[1]), datagrams(capture)):
        session.receive(now, datagram)
        take()
    session.finish(now)
    take()
    return found


if __name__ == "__main__":
    for (payload_type, ssrc), units in frames(*sys.argv[1:3]).items():
        gaps = sum(not it.contiguous for it in units)
        print(f"payload type {payload_type}, SSRC {ssrc}: {len(units)} frames, {sum(len(it.data) for it in units)} bytes, {gaps} gaps")
