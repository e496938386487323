"""The network between a browser and a program that receives RTP: answers to session descriptions, ICE, and a lossy relay.

The browser sees an ICE-lite agent (RFC 8445, section 2.5) on a port of 127.0.0.1. The relay answers its connectivity checks, and
passes RTP and RTCP both ways, late and with losses. tools/chromium/chromium_peer.py uses it.
"""

import binascii
import collections
import dataclasses
import hashlib
import heapq
import hmac
import itertools
import random
import re
import secrets
import select
import socket
import struct
import threading
import time

LOOPBACK = "127.0.0.1"
RECEIVE_BUFFER = 1 << 22  # bytes that a socket is to hold; the system may give less
STUN_COOKIE = 0x2112A442
BINDING_REQUEST, BINDING_SUCCESS = 0x0001, 0x0101
XOR_MAPPED_ADDRESS, MESSAGE_INTEGRITY, FINGERPRINT = 0x0020, 0x0008, 0x8028
# Attributes of an offer that an answer repeats: what the session answers to. REMB is not among them.
REPEATED = re.compile(r"a=(mid|rtpmap|fmtp|rtcp-mux|rtcp-rsize|extmap:|rtcp-fb:\d+ (nack|ccm fir|transport-cc))")


# ---- session descriptions (RFC 8829) ----


def sections_of(description):
    """What is in front of the first section of a description, and the sections."""
    head, *sections = re.split(r"(?m)^(?=m=)", description.replace("\r\n", "\n"))
    return head, sections


def answer_to(offer, port, user, password, plain_from):
    """An answer that receives every section of an offer on one port; from the section `plain_from` on without RFC 4588."""
    head, sections = sections_of(offer)
    bundle = re.search(r"(?m)^a=group:BUNDLE.*$", head).group()
    lines = ["v=0", "o=- 1 1 IN IP4 127.0.0.1", "s=-", "t=0 0", "a=ice-lite", bundle]
    for place, section in enumerate(sections):
        refused = re.findall(r"a=rtpmap:(\d+) rtx/", section) if place >= plain_from else []
        lines += answer_to_section(section.splitlines(), port, user, password, refused)
    return "\r\n".join(lines) + "\r\n"


def answer_to_section(lines, port, user, password, refused):
    medium, _, protocol, *types = lines[0].split()
    taken = [number for number in types if number not in refused]
    yield " ".join([medium, str(port), protocol, *taken])
    yield f"c=IN IP4 {LOOPBACK}"
    yield f"a=ice-ufrag:{user}"
    yield f"a=ice-pwd:{password}"
    if any(line.startswith("a=simulcast:") for line in lines):
        # Enough for the larger size: nothing here reports to the browser what the network can carry.
        yield f"a=fmtp:{taken[0]} x-google-start-bitrate=1500"
    for line in lines[1:]:
        number = re.match(r"a=(?:rtpmap|fmtp|rtcp-fb):(\d+)", line)
        if REPEATED.match(line) and not (number and number[1] not in taken):
            yield line
        elif line.startswith(("a=rid:", "a=simulcast:")):
            yield line.replace(" send", " recv").replace(":send", ":recv")
    yield "a=recvonly"
    yield f"a=candidate:1 1 udp 2130706431 {LOOPBACK} {port} typ host"
    yield "a=end-of-candidates"


# ---- STUN (RFC 8489) ----


def attribute(kind, value):
    return struct.pack(">HH", kind, len(value)) + value + bytes(-len(value) % 4)


def with_length(message, extra):
    """The message with the length that it has with `extra` more bytes."""
    return message[:2] + struct.pack(">H", len(message) - 20 + extra) + message[4:]


def stun_answer(request, address, password):
    """The success response to a binding request from an address, or None for another message."""
    if len(request) < 20 or struct.unpack_from(">H", request)[0] != BINDING_REQUEST:
        return None
    host, port = address
    cookie = struct.pack(">I", STUN_COOKIE)
    mapped = bytes(one ^ other for one, other in zip(socket.inet_aton(host), cookie))
    message = struct.pack(">HH", BINDING_SUCCESS, 0) + request[4:20]
    message += attribute(XOR_MAPPED_ADDRESS, struct.pack(">BBH", 0, 1, port ^ STUN_COOKIE >> 16) + mapped)
    digest = hmac.new(password.encode(), with_length(message, 24), hashlib.sha1).digest()
    message += attribute(MESSAGE_INTEGRITY, digest)
    check = binascii.crc32(with_length(message, 8)) ^ 0x5354554E
    return with_length(message + attribute(FINGERPRINT, struct.pack(">I", check)), 0)


# ---- RTP and RTCP (RFC 3550) ----


@dataclasses.dataclass
class Packet:
    """An RTP packet: its bytes, its fields, its payload, and how many bytes of padding it has."""

    data: bytes
    payload_type: int
    number: int
    timestamp: int
    ssrc: int
    payload: bytes
    padding: int


def is_stun(data):
    return data[:1] < b"\x04"


def is_rtcp(data):
    return 192 <= data[1] <= 223


def rtp_packet(data):
    first, second, number, timestamp, ssrc = struct.unpack_from(">BBHII", data)
    start = 12 + 4 * (first & 15)
    if first & 0x10:
        start += 4 + 4 * struct.unpack_from(">H", data, start + 2)[0]
    padding = data[-1] if first & 0x20 else 0
    return Packet(data, second & 0x7F, number, timestamp, ssrc, data[start : len(data) - padding], padding)


def rtcp_packets(data):
    """The packets of a compound packet: count or format, type, bytes."""
    at = 0
    while at + 4 <= len(data):
        first, kind, words = struct.unpack_from(">BBH", data, at)
        yield first & 31, kind, data[at : at + 4 + 4 * words]
        at += 4 + 4 * words


def nack_numbers(packet):
    """The numbers that a generic NACK names (RFC 4585, section 6.2.1)."""
    for number, bits in struct.iter_unpack(">HH", packet[12:]):
        yield number
        yield from ((number + 1 + bit) & 0xFFFF for bit in range(16) if bits >> bit & 1)


# ---- the relay ----


@dataclasses.dataclass
class Network:
    """What the relay does to datagrams: losses in percent, milliseconds each way, and up to how many more at random. None is lost in
    the first `clean` seconds of media."""

    loss: float = 5
    delay: float = 40
    jitter: float = 5
    seed: int = 1
    clean: float = 0


class Chances:
    """What happens to the datagrams of one way of a call."""

    def __init__(self, network, seed):
        self.network, self.chance, self.began = network, random.Random(seed), None

    def arrival(self, now):
        """When a datagram arrives that is sent now; None: never."""
        self.began = now if self.began is None else self.began
        network = self.network
        lost, more = self.chance.uniform(0, 100) < network.loss, self.chance.uniform(0, network.jitter)
        return None if lost and now >= self.began + network.clean else now + (network.delay + more) / 1000


@dataclasses.dataclass
class Sent:
    """A packet of media that the browser sent, whether it was lost, and when it, or a retransmission of it, was delivered."""

    packet: Packet
    lost: bool
    arrived: float | None = None


class Journal:
    """What passed the relay. Numbers, times and SSRCs are the browser's."""

    def __init__(self, retransmissions):
        self.retransmissions = retransmissions  # the SSRC of each SSRC of retransmissions
        self.packets = {}  # by SSRC and number
        self.latest = {}  # the payload type of each SSRC
        # by SSRC and payload type
        self.requests, self.keyframe_requests = collections.Counter(), collections.Counter()

    def media(self, packet, lost):
        """Takes a packet from the browser, and returns the packet of media that it is or repeats."""
        if packet.ssrc in self.retransmissions:
            if len(packet.payload) < 2:
                return None  # padding that probes the network
            number = struct.unpack_from(">H", packet.payload)[0]
            return self.packets.get((self.retransmissions[packet.ssrc], number))
        self.latest[packet.ssrc] = packet.payload_type
        # A retransmission can be under the SSRC of the stream.
        return self.packets.setdefault((packet.ssrc, packet.number), Sent(packet, lost))

    def feedback(self, data):
        """Feedback from the program."""
        for form, kind, packet in rtcp_packets(data):
            if (form, kind) not in ((1, 205), (1, 206)):
                continue
            ssrc = struct.unpack_from(">I", packet, 8)[0]
            if kind == 206:
                self.keyframe_requests[ssrc, self.latest.get(ssrc)] += 1
                continue
            for number in nack_numbers(packet):
                sent = self.packets.get((ssrc, number))
                self.requests[ssrc, sent and sent.packet.payload_type] += 1


class Restart:
    """Lets the sender of one SSRC begin again, from the first packet of a frame after a moment: its numbers and times jump, or its
    SSRC changes, and so does the SSRC of its retransmissions."""

    def __init__(self, ssrc, retransmission, moment, numbers=0, times=0, ssrc_change=0):
        self.ssrc, self.retransmission, self.moment = ssrc, retransmission, moment
        self.numbers, self.times, self.ssrc_change = numbers, times, ssrc_change
        self.first = self.first_time = self.latest = None

    def is_after(self, number):
        return self.first is not None and (number - self.first) & 0xFFFF < 0x8000

    def forth(self, packet, now):
        """The datagram as the program gets it."""
        if packet.ssrc == self.retransmission and len(packet.payload) >= 2:
            return self.resent_forth(packet)
        if packet.ssrc != self.ssrc:
            return packet.data
        if self.first is None and now >= self.moment and self.latest not in (None, packet.timestamp) and packet.payload:
            self.first, self.first_time = packet.number, packet.timestamp
        self.latest = packet.timestamp
        return self.changed(packet, packet.number + self.numbers) if self.is_after(packet.number) else packet.data

    def resent_forth(self, packet):
        number = struct.unpack_from(">H", packet.payload)[0]
        if not self.is_after(number):
            return packet.data
        data = self.changed(packet, packet.number)
        at = len(data) - packet.padding - len(packet.payload)
        return data[:at] + struct.pack(">H", (number + self.numbers) & 0xFFFF) + data[at + 2 :]

    def changed(self, packet, number):
        fields = number & 0xFFFF, (packet.timestamp + self.times) & 0xFFFFFFFF, packet.ssrc ^ self.ssrc_change
        return packet.data[:2] + struct.pack(">HII", *fields) + packet.data[12:]

    def back(self, data):
        """Feedback of the program as the browser gets it."""
        return b"".join(self.feedback_back(form, kind, packet) for form, kind, packet in rtcp_packets(data))

    def feedback_back(self, form, kind, packet):
        if kind not in (205, 206) or self.first is None:
            return packet
        ssrc = struct.unpack_from(">I", packet, 8)[0]
        if ssrc not in (self.ssrc, self.ssrc ^ self.ssrc_change):
            return packet
        head = packet[4:8] + struct.pack(">I", self.ssrc)
        if (form, kind) != (1, 205):
            return packet[:4] + head + packet[12:]
        numbers = [self.number_back(number) for number in nack_numbers(packet)]
        pairs = b"".join(struct.pack(">HH", number, 0) for number in numbers)
        return packet[:2] + struct.pack(">H", 2 + len(numbers)) + head + pairs

    def number_back(self, number):
        old = (number - self.numbers) & 0xFFFF
        return old if self.is_after(old) else number

    def unit_back(self, ssrc, timestamp):
        """The browser's SSRC and RTP time of a unit."""
        if self.first is None or ssrc not in (self.ssrc, self.ssrc ^ self.ssrc_change):
            return ssrc, timestamp
        old = (timestamp - self.times) & 0xFFFFFFFF
        return self.ssrc, old if (old - self.first_time) & 0xFFFFFFFF < 1 << 31 else timestamp


class Relay(threading.Thread):
    """Passes datagrams between a browser and a program. It runs until `stop`."""

    def __init__(self, network):
        super().__init__(daemon=True)
        self.network, self.program = network, None
        self.user, self.password = secrets.token_hex(4), secrets.token_hex(16)
        self.outside, self.inside = (socket.socket(socket.AF_INET, socket.SOCK_DGRAM) for _ in range(2))
        for one in (self.outside, self.inside):
            one.setsockopt(socket.SOL_SOCKET, socket.SO_RCVBUF, RECEIVE_BUFFER)
            one.bind((LOOPBACK, 0))
        self.port, self.inner_port = self.outside.getsockname()[1], self.inside.getsockname()[1]
        self.browser = None
        self.chances = [Chances(network, network.seed), Chances(network, network.seed + 1)]
        self.pending, self.order = [], itertools.count()
        self.journal, self.restart, self.running = Journal({}), None, True

    def run(self):
        while self.running:
            left = self.pending[0][0] - time.monotonic() if self.pending else 0.1
            for ready in select.select([self.outside, self.inside], [], [], min(max(left, 0), 0.1))[0]:
                data, address = ready.recvfrom(2048)
                if ready is self.outside:
                    self.from_browser(data, address)
                else:
                    self.from_program(data)
            self.deliver()

    def stop(self):
        """Ends the relay, and tells the program that nothing more comes."""
        self.running = False
        if self.is_alive():
            self.join()
            self.inside.sendto(b"", (LOOPBACK, self.program))
        self.outside.close()
        self.inside.close()

    def from_browser(self, data, address):
        if is_stun(data):
            if answer := stun_answer(data, address, self.password):
                self.browser = address
                self.outside.sendto(answer, address)
            return
        now, sent = time.monotonic(), None
        arrival = self.arrival(0, now)
        if not is_rtcp(data):
            packet = rtp_packet(data)
            sent = self.journal.media(packet, arrival is None)
            data = self.restart.forth(packet, now) if self.restart else data
        self.later(arrival, self.inside, data, (LOOPBACK, self.program), sent)

    def from_program(self, data):
        data = self.restart.back(data) if self.restart else data
        self.journal.feedback(data)
        self.later(self.arrival(1, time.monotonic()), self.outside, data, self.browser)

    def arrival(self, way, now):
        """When a datagram arrives that is sent now; None: never."""
        return self.chances[way].arrival(now)

    def later(self, arrival, through, data, address, sent=None):
        if arrival is not None and address is not None:
            heapq.heappush(self.pending, (arrival, next(self.order), through, data, address, sent))

    def deliver(self):
        while self.pending and self.pending[0][0] <= time.monotonic():
            *_, through, data, address, sent = heapq.heappop(self.pending)
            through.sendto(data, address)
            if sent and sent.arrived is None:
                sent.arrived = time.monotonic()
