"""Captures of RTP over UDP on loopback, as lists of packets that tests change and write again.

It reads pcap files of Ethernet and IPv4 without options, as live.sh makes them, and knows nothing of the library: it looks at RTP
headers alone (RFC 3550, section 5.1), and at which datagrams are RTP (RFC 7983, section 7, and RFC 5761, section 4)."""

import struct
from dataclasses import dataclass, replace

MAGIC = 0xA1B2C3D4
MAGIC_NANO = 0xA1B23C4D


@dataclass(frozen=True)
class Packet:
    """A UDP datagram: when it came, in nanoseconds, the headers in front of it, and its payload."""

    time: int
    headers: bytes
    payload: bytes

    @property
    def is_rtp(self):
        return len(self.payload) >= 12 and self.payload[0] >> 6 == 2 and not 192 <= self.payload[1] <= 223

    @property
    def payload_type(self):
        return self.payload[1] & 0x7F

    @property
    def number(self):
        return struct.unpack_from(">H", self.payload, 2)[0]

    @property
    def timestamp(self):
        return struct.unpack_from(">I", self.payload, 4)[0]

    @property
    def ssrc(self):
        return struct.unpack_from(">I", self.payload, 8)[0]

    @property
    def media(self):
        """The payload behind the header, its CSRCs and its extension."""
        start = 12 + 4 * (self.payload[0] & 0x0F)
        if self.payload[0] & 0x10:
            start += 4 + 4 * struct.unpack_from(">H", self.payload, start + 2)[0]
        padding = self.payload[-1] if self.payload[0] & 0x20 else 0
        return self.payload[start : len(self.payload) - padding]

    def changed(self, number=None, timestamp=None, ssrc=None):
        head = bytearray(self.payload)
        if number is not None:
            struct.pack_into(">H", head, 2, number % 65536)
        if timestamp is not None:
            struct.pack_into(">I", head, 4, timestamp % 2**32)
        if ssrc is not None:
            struct.pack_into(">I", head, 8, ssrc)
        return replace(self, payload=bytes(head))


def read(path):
    """The datagrams of a capture."""
    with open(path, "rb") as file:
        data = file.read()
    magic, _, _, _, _, _, link = struct.unpack_from("<IHHiIII", data)
    assert magic in (MAGIC, MAGIC_NANO) and link == 1, "a pcap file of Ethernet"
    unit = 1000 if magic == MAGIC else 1
    packets, at = [], 24
    while at < len(data):
        seconds, fraction, size, _ = struct.unpack_from("<IIII", data, at)
        frame = data[at + 16 : at + 16 + size]
        packets.append(Packet(seconds * 10**9 + fraction * unit, frame[:42], frame[42:]))
        at += 16 + size
    return packets


def write(path, packets):
    """A capture with these datagrams, each with the lengths of its headers made right and without a checksum."""
    with open(path, "wb") as file:
        file.write(struct.pack("<IHHiIII", MAGIC_NANO, 2, 4, 0, 0, 262144, 1))
        for packet in packets:
            headers = bytearray(packet.headers)
            struct.pack_into(">H", headers, 16, 28 + len(packet.payload))
            struct.pack_into(">HH", headers, 38, 8 + len(packet.payload), 0)
            frame = bytes(headers) + packet.payload
            file.write(struct.pack("<IIII", packet.time // 10**9, packet.time % 10**9, len(frame), len(frame)) + frame)


def media_of(packets, ssrc=None):
    """The RTP packets of an SSRC, or of that of the first one."""
    rtp = [packet for packet in packets if packet.is_rtp]
    return [packet for packet in rtp if packet.ssrc == (rtp[0].ssrc if ssrc is None else ssrc)]


def frames_of(packets):
    """Which packets, by their places, make each frame: those of one timestamp, in the order of the clean capture."""
    frames = []
    for place, packet in enumerate(packets):
        if frames and packets[frames[-1][0]].timestamp == packet.timestamp:
            frames[-1].append(place)
        else:
            frames.append([place])
    return frames
