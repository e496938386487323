#!/usr/bin/env python3
"""What stands in front of RTP, and what comes beside it: links, VLAN tags, IPv4 and IPv6, fragments, and datagrams of other protocols.

  tests/test_links.py [PROGRAM]

The datagrams of captures/pcmu.pcap get other headers, which are written here by the standards that each function names; all of their
packets have to be counted, and the audio to be whole. The last line is `N passed, N failed`."""

import json
import os
import struct
import subprocess
import sys
import tempfile

import capture
from checks import PROGRAM, check, status_of_checks
from recorded import CAPTURES, all_streams
from test_captures import found_in

STREAM = next(stream for stream in all_streams() if stream.title == "pcmu")
PACKETS = STREAM.packets()

# https://www.tcpdump.org/linktypes.html
ETHERNET, NULL, RAW, LOOP, LINUX_SLL, IPV4_ONLY, IPV6_ONLY, LINUX_SLL2 = 1, 0, 101, 108, 113, 228, 229, 276
TYPE_IPV4, TYPE_IPV6 = 0x0800, 0x86DD


def udp(payload, source=5004, destination=6004):
    """RFC 768."""
    return struct.pack(">HHHH", source, destination, 8 + len(payload), 0) + payload


def ipv4(payload, protocol=17, fragment=0, options=b""):
    """RFC 791, section 3.1; `fragment` is the word of flags and offset."""
    words = 5 + len(options) // 4
    head = struct.pack(">BBHHHBBH", 0x40 | words, 0, 4 * words + len(payload), 1, fragment, 64, protocol, 0)
    return head + bytes([10, 0, 0, 1, 10, 0, 0, 2]) + options + payload


def ipv6(payload, next_header=17):
    """RFC 8200, section 3."""
    source, destination = bytes([0x20, 1, 0xD, 0xB8]) + bytes(11) + b"\x01", bytes([0x20, 1, 0xD, 0xB8]) + bytes(11) + b"\x02"
    return struct.pack(">IHBB", 6 << 28, len(payload), next_header, 64) + source + destination + payload


def extended(payload, next_header=17):
    """Hop-by-hop and destination options in front (RFC 8200, sections 4.3 and 4.6), each of padding alone."""
    padding = bytes([1, 4, 0, 0, 0, 0])
    return ipv6(bytes([60, 0]) + padding + bytes([next_header, 0]) + padding + payload, 0)


def ipv6_fragment(payload):
    """RFC 8200, section 4.5: the first fragment of more."""
    return ipv6(struct.pack(">BBHI", 17, 0, 1, 7) + payload, 44)


def ethernet(packet, kind, tags=()):
    """IEEE 802.3, with the tags of 802.1Q and 802.1ad: pairs of a type and a number."""
    return bytes(12) + b"".join(struct.pack(">HH", tag, number) for tag, number in tags) + struct.pack(">H", kind) + packet


def sll(packet, kind):
    """LINKTYPE_LINUX_SLL: packet type, ARPHRD, length of the address, address, protocol."""
    return struct.pack(">HHH8sH", 0, 1, 6, bytes(8), kind) + packet


def sll2(packet, kind):
    """LINKTYPE_LINUX_SLL2: protocol, reserved, interface, ARPHRD, packet type, length of the address, address."""
    return struct.pack(">HHIHBB8s", kind, 0, 1, 1, 0, 6, bytes(8)) + packet


LINKS = {
    "Ethernet, IPv4": (ETHERNET, lambda data: ethernet(ipv4(udp(data)), TYPE_IPV4)),
    "Ethernet, IPv4 with options": (ETHERNET, lambda data: ethernet(ipv4(udp(data), options=bytes([1, 1, 1, 0])), TYPE_IPV4)),
    "Ethernet, bytes behind the packet": (ETHERNET, lambda data: ethernet(ipv4(udp(data)), TYPE_IPV4) + bytes(6)),
    "Ethernet, IPv6": (ETHERNET, lambda data: ethernet(ipv6(udp(data)), TYPE_IPV6)),
    "Ethernet, IPv6 with extension headers": (ETHERNET, lambda data: ethernet(extended(udp(data)), TYPE_IPV6)),
    "802.1Q": (ETHERNET, lambda data: ethernet(ipv4(udp(data)), TYPE_IPV4, [(0x8100, 7)])),
    "802.1ad, two tags": (ETHERNET, lambda data: ethernet(ipv6(udp(data)), TYPE_IPV6, [(0x88A8, 7), (0x8100, 8)])),
    "loopback of BSD, IPv4": (NULL, lambda data: struct.pack("<I", 2) + ipv4(udp(data))),
    "loopback of BSD, IPv6": (NULL, lambda data: struct.pack("<I", 30) + ipv6(udp(data))),
    "loopback of OpenBSD": (LOOP, lambda data: struct.pack(">I", 2) + ipv4(udp(data))),
    "raw IP, IPv4": (RAW, lambda data: ipv4(udp(data))),
    "raw IP, IPv6": (RAW, lambda data: ipv6(udp(data))),
    "IPv4 alone": (IPV4_ONLY, lambda data: ipv4(udp(data))),
    "IPv6 alone": (IPV6_ONLY, lambda data: ipv6(udp(data))),
    "Linux cooked, version 1": (LINUX_SLL, lambda data: sll(ipv4(udp(data)), TYPE_IPV4)),
    "Linux cooked, version 1, IPv6": (LINUX_SLL, lambda data: sll(ipv6(udp(data)), TYPE_IPV6)),
    "Linux cooked, version 2": (LINUX_SLL2, lambda data: sll2(ipv4(udp(data)), TYPE_IPV4)),
    "Linux cooked, version 2, IPv6": (LINUX_SLL2, lambda data: sll2(ipv6(udp(data)), TYPE_IPV6)),
}


def pcap(path, link, frames, cut=None):
    """A capture of (time, bytes), of which at most `cut` bytes each were kept."""
    with open(path, "wb") as file:
        file.write(struct.pack("<IHHiIII", capture.MAGIC_NANO, 2, 4, 0, 0, 262144, link))
        for time, frame in frames:
            kept = frame[:cut]
            file.write(struct.pack("<IIII", time // 10**9, time % 10**9, len(kept), len(frame)) + kept)


def pcapng(path, link, frames):
    """The same as pcapng (draft-ietf-opsawg-pcapng): a section, an interface with a resolution of nanoseconds, enhanced packets."""

    def block(kind, body):
        body += bytes(-len(body) % 4)
        return struct.pack("<II", kind, len(body) + 12) + body + struct.pack("<I", len(body) + 12)

    with open(path, "wb") as file:
        file.write(block(0x0A0D0D0A, struct.pack("<IHHq", 0x1A2B3C4D, 1, 0, -1)))
        file.write(block(1, struct.pack("<HHI", link, 0, 262144) + struct.pack("<HHB3xHH", 9, 1, 9, 0, 0)))
        for time, frame in frames:
            head = struct.pack("<IIIII", 0, time >> 32, time & 0xFFFFFFFF, len(frame), len(frame))
            file.write(block(6, head + frame))


def listed(path, *words, data=None):
    ran = subprocess.run([PROGRAM, "--json", *words, path], capture_output=True, check=False, input=data)
    check(ran.returncode == 0, f"{path}: status {ran.returncode} {ran.stderr.decode()}")
    return json.loads(ran.stdout)


def is_whole(told, what):
    streams = told["streams"]
    check(len(streams) == 1 and streams[0]["packets"] == len(PACKETS) and streams[0]["lost"] == 0, f"{what}: {told}")


def links(folder):
    for place, (name, (link, dress)) in enumerate(LINKS.items()):
        frames = [(packet.time, dress(packet.payload)) for packet in PACKETS]
        path, out = f"{folder}/{place}.pcap", f"{folder}/{place}"
        pcap(path, link, frames)
        told = listed(path, "-o", out)
        is_whole(told, name)
        end = "[2001:db8::1]:5004" if "IPv6" in name or "802.1ad" in name else "10.0.0.1:5004"
        check(told["streams"][0]["from"] == end, f"{name}: from {told['streams'][0]['from']}")
        found = found_in("pcmu", f"{out}/{STREAM.ssrc:08x}.mka")
        check(found == b"".join(packet.media for packet in PACKETS), f"{name}: the audio")
    is_whole(listed(f"{folder}/0.pcap", "--filter", "udp port 6004"), "a filter that lets all through")
    check(not listed(f"{folder}/0.pcap", "--filter", "udp port 6005")["streams"], "a filter that lets none through")


def containers(folder):
    frames = [(packet.time, ethernet(ipv4(udp(packet.payload)), TYPE_IPV4)) for packet in PACKETS]
    pcapng(f"{folder}/a.pcapng", ETHERNET, frames)
    told = listed(f"{folder}/a.pcapng")
    is_whole(told, "pcapng")
    check(abs(told["streams"][0]["first"] - PACKETS[0].time / 1e9) < 1e-5, "pcapng: the time of the first packet")
    with open(f"{folder}/a.pcapng", "rb") as file:
        is_whole(listed("-", data=file.read()), "pcapng of a pipe")


def fragments(folder):
    first, rest = PACKETS[:10], PACKETS[10:]
    for name, dress in {
        "a first fragment": lambda data: ethernet(ipv4(udp(data), fragment=0x2000), TYPE_IPV4),
        "a later fragment": lambda data: ethernet(ipv4(data, fragment=0x0010), TYPE_IPV4),
        "a fragment of IPv6": lambda data: ethernet(ipv6_fragment(udp(data)), TYPE_IPV6),
    }.items():
        frames = [(packet.time, dress(packet.payload)) for packet in first]
        frames += [(packet.time, ethernet(ipv4(udp(packet.payload)), TYPE_IPV4)) for packet in rest]
        pcap(f"{folder}/f.pcap", ETHERNET, frames)
        told = listed(f"{folder}/f.pcap")
        check(told["fragments"] == 10 and told["streams"][0]["packets"] == len(rest), f"{name}: {told['fragments']}")


def cut(folder):
    frames = [(packet.time, ethernet(ipv4(udp(packet.payload)), TYPE_IPV4)) for packet in PACKETS]
    pcap(f"{folder}/c.pcap", ETHERNET, frames, cut=60)
    told = listed(f"{folder}/c.pcap")
    check(told["cut"] == len(PACKETS) and not told["streams"], f"packets of which the capture has the first bytes: {told}")


def malformed(folder):
    """Headers that contradict one another are counted, and what stands beside them is read."""
    good = [(packet.time, ethernet(ipv4(udp(packet.payload)), TYPE_IPV4)) for packet in PACKETS]
    data = PACKETS[0].payload
    bad = {
        "an IPv4 header of 16 bytes": b"\x44" + ipv4(udp(data))[1:],
        "a total length below the header's": ipv4(udp(data))[:2] + b"\x00\x13" + ipv4(udp(data))[4:],
        "a UDP length below 8": ipv4(udp(data)[:4] + b"\x00\x07" + udp(data)[6:]),
        "a UDP length past the packet": ipv4(udp(data)[:4] + b"\xff\xff" + udp(data)[6:]),
        "a version that is none": b"\x55" + ipv4(udp(data))[1:],
    }
    for name, packet in bad.items():
        pcap(f"{folder}/m.pcap", ETHERNET, [(PACKETS[0].time, ethernet(packet, TYPE_IPV4)), *good])
        told = listed(f"{folder}/m.pcap")
        check(told["malformed"] == 1, f"{name}: {told}")
        is_whole(told, name)


# RFC 7983, section 7: the meaning of the first byte, at both ends of each range; and RFC 5761, section 4, of the second
PROTOCOLS = {
    "stun": [bytes([0]), bytes([3])],
    "zrtp": [bytes([16]), bytes([19])],
    "dtls": [bytes([20]), bytes([63])],
    "others": [bytes([4]), bytes([15]), bytes([64]), bytes([79]), bytes([80]), bytes([127]), bytes([192]), bytes([255])],
    "rtcp": [bytes([0x80, 192]), bytes([0x80, 200]), bytes([0x80, 223]), bytes([0xBF, 201])],
}


def protocols(folder):
    for name, heads in PROTOCOLS.items():
        beside = [(PACKETS[0].time, ethernet(ipv4(udp(head + bytes(40))), TYPE_IPV4)) for head in heads]
        frames = [(packet.time, ethernet(ipv4(udp(packet.payload)), TYPE_IPV4)) for packet in PACKETS]
        pcap(f"{folder}/p.pcap", ETHERNET, beside + frames)
        told = listed(f"{folder}/p.pcap")
        is_whole(told, name)
        counts = {key: told[key] for key in PROTOCOLS}
        check(counts == {key: len(heads) if key == name else 0 for key in PROTOCOLS}, f"{name}: {counts}")
    for second in (191, 224):
        frames = [(0, ethernet(ipv4(udp(bytes([0x80, second]) + bytes(40))), TYPE_IPV4))]
        pcap(f"{folder}/p.pcap", ETHERNET, frames)
        told = listed(f"{folder}/p.pcap")
        check(told["rtp"] == 1 and told["rtcp"] == 0, f"RTP with a second byte of {second}: {told}")


def encrypted(folder):
    """A stream that the SDP describes as SRTP is listed as SRTP; its codec is not guessed, and no file is written."""
    frames = [(packet.time, ethernet(ipv4(udp(packet.payload)), TYPE_IPV4)) for packet in PACKETS]
    pcap(f"{folder}/s.pcap", ETHERNET, frames)
    crypto = "a=crypto:1 AES_CM_128_HMAC_SHA1_80 inline:WVNfX19zZW1jdGwgKCkgewkyMjA7fQp9CnVubGVz\n"
    fingerprint = f"a=fingerprint:sha-256 {':'.join(['AA'] * 32)}\n"
    for name, sdp in {
        "a protocol of SRTP (RFC 3711)": "m=audio 6004 RTP/SAVP 0\n",
        "DTLS-SRTP (RFC 5764)": f"m=audio 6004 UDP/TLS/RTP/SAVPF 0\n{fingerprint}",
        "keys (RFC 4568)": f"m=audio 6004 RTP/AVP 0\n{crypto}",
        "keys ahead of the media": f"{fingerprint}m=audio 6004 RTP/AVP 0\n",
    }.items():
        with open(f"{folder}/s.sdp", "w", encoding="ascii") as file:
            file.write(f"v=0\no=- 0 0 IN IP4 10.0.0.1\ns=-\nc=IN IP4 10.0.0.2\nt=0 0\n{sdp}")
        out = f"{folder}/srtp"
        stream = listed(f"{folder}/s.pcap", "--sdp", f"{folder}/s.sdp", "-o", out)["streams"][0]
        check(stream["codec"] == "SRTP" and not stream["guessed"] and "file" not in stream, f"{name}: {stream}")
        check(not os.path.exists(out) or not os.listdir(out), f"{name}: nothing is written")


def unread(folder):
    """A link type that is not read is said to be none, and fails."""
    pcap(f"{folder}/u.pcap", 105, [])
    ran = subprocess.run([PROGRAM, f"{folder}/u.pcap"], capture_output=True, check=False)
    check(ran.returncode == 1 and b"link type 105" in ran.stderr, f"a link type that is not read: {ran.stderr}")


def main():
    with tempfile.TemporaryDirectory() as folder:
        for test in [links, containers, fragments, cut, malformed, protocols, encrypted, unread]:
            test(folder)
    return status_of_checks()


if __name__ == "__main__":
    sys.exit(main())
