#!/usr/bin/env python3
"""Makes tests/vectors/feedback_packets.txt: transport-wide feedback, and what two peers read in each packet.

    tests/vectors/feedback.py             writes the file again; Chromium's packets are other ones each time
    tests/vectors/feedback.py --check     reads the packets of the file again, and captures nothing

A line has a packet of RTCP as hexadecimal digits, the SSRCs of sender and media, the number of the first packet, the reference time in
units of 64 ms, the count of the feedback, and a word for each packet: `-`, or how many quarters of a millisecond it came after the
one before it. The packets are written by the interceptor of pion, by libwebrtc (the receiver of a call of Chromium to itself, whose
network loses and reorders packets), and by this library (rust/tests/feedback_peers.rs). The words are what pion's RTCP reads; tshark
must read the same.

Needs Debian's golang-go, golang-github-pion-interceptor-dev, golang-github-pion-rtcp-dev, tshark and chromium, and cargo. `--check`
needs the first four, and says so if one is absent.
"""

import os
import pathlib
import re
import shutil
import struct
import subprocess
import sys
import tempfile

HERE = pathlib.Path(__file__).resolve().parent
ROOT = HERE.parent.parent
OUT = HERE / "feedback_packets.txt"
GO = "/usr/share/gocode"
PION = f"{GO}/src/github.com/pion/interceptor"
PORT = 5005
# How many packets of each writer are kept.
KEPT = 40
NUMBER = re.compile(r"Recv Delta: 0x[0-9a-f]+ \w+ Delta: \[seq: (\d+)\] (-?[0-9.]+) ms")
FIELD = re.compile(r"(Sender SSRC|Media source SSRC|Base Sequence Number|Packet Status Count|Reference Time|Feedback Packets Count): (.*)")


def go(words, lines=()):
    """The lines that the program of pion prints."""
    environment = {"GO111MODULE": "off", "GOPATH": GO, **os.environ}
    ran = subprocess.run(["go", "run", HERE / "feedback_peers.go", *words], input="\n".join(lines), env=environment,
                         stdout=subprocess.PIPE, text=True, check=True)
    return ran.stdout.split("\n")[:-1]


def capture_of(packets, path):
    """A capture (raw IP) of datagrams to a port."""
    with open(path, "wb") as file:
        file.write(struct.pack("<IHHiIII", 0xA1B2C3D4, 2, 4, 0, 0, 65_535, 101))
        for packet in packets:
            datagram = struct.pack(">HHHH", PORT, PORT, 8 + len(packet), 0) + packet
            head = struct.pack(">BBHHHBBH4s4s", 0x45, 0, 20 + len(datagram), 0, 0, 64, 17, 0, b"\x7f\0\0\1", b"\x7f\0\0\1")
            file.write(struct.pack("<IIII", 0, 0, len(head + datagram), len(head + datagram)) + head + datagram)


def as_tshark_reads(text):
    """The words of a packet, from the text that tshark prints."""
    if "Malformed" in text:
        sys.exit(f"tshark: malformed\n{text}")
    fields = {name: value for name, value in FIELD.findall(text)}
    number = lambda name: int(re.sub(r"\(.*\)", "", fields[name]), 0)
    first, count = number("Base Sequence Number"), number("Packet Status Count")
    words = ["-"] * count
    for at, delta in NUMBER.findall(text):
        words[(int(at) - first) & 0xFFFF] = f"{round(float(delta) * 4)}"
    head = [number(name) for name in ("Sender SSRC", "Media source SSRC")], [first, number("Reference Time") & 0xFFFFFF]
    return " ".join([*map(str, head[0] + head[1]), str(number("Feedback Packets Count")), *words])


def tshark(packets):
    """What tshark reads in each packet."""
    with tempfile.TemporaryDirectory() as folder:
        path = f"{folder}/packets.pcap"
        capture_of([bytes.fromhex(packet) for packet in packets], path)
        ran = subprocess.run(["tshark", "-r", path, "-d", f"udp.port=={PORT},rtcp", "-O", "rtcp"], capture_output=True, text=True,
                             check=True)
    frames = re.split(r"(?m)^Frame \d+:", ran.stdout)[1:]
    return [as_tshark_reads(frame) for frame in frames]


def of_chromium():
    """The packets of libwebrtc's receiver, from a call of a page to itself: as many from each part of the call."""
    sys.path.insert(0, str(ROOT / "tools" / "chromium"))
    import chromium_rates  # pylint: disable=import-outside-toplevel
    from peer_relay import Network, is_rtcp, is_stun, rtcp_packets  # pylint: disable=import-outside-toplevel

    found = []

    class Listening(chromium_rates.DirectRelay):
        """Keeps the feedback of the receiver."""

        def pass_on(self, side, data):
            if side == 1 and not is_stun(data) and is_rtcp(data):
                found.extend(packet.hex() for form, kind, packet in rtcp_packets(data) if (form, kind) == (15, 205))
            super().pass_on(side, data)

    network = Network(loss=5, delay=20, jitter=40)
    call = chromium_rates.Call(network)
    call.relay.stop()
    call.relay = Listening(network)
    chromium_rates.rates_of(call, 10)
    return [found[len(found) * place // KEPT] for place in range(KEPT)]


def of_this_library():
    """The packets of the test in Rust."""
    ran = subprocess.run(["cargo", "test", "--offline", "--quiet", "--test", "feedback_peers", "--", "--ignored", "--nocapture"],
                         cwd=ROOT / "rust", stdout=subprocess.PIPE, text=True, check=True)
    return re.findall(r"(?m)^8fcd[0-9a-f]+$", ran.stdout)


def both(packets):
    """What both peers read in each packet; fails if they differ."""
    told = go(["read"], packets)
    for packet, one, other in zip(packets, told, tshark(packets), strict=True):
        if one != other:
            sys.exit(f"the peers differ about {packet}:\n{one}\n{other}")
    return told


def version(*words):
    return re.search(r"\d+(\.\d+)+", subprocess.run(words, capture_output=True, text=True, check=True).stdout)[0]


def package(name):
    return version("dpkg-query", "-W", "-f", "${Version}", name)


def main(words):
    if words == ["--check"]:
        if not (shutil.which("go") and shutil.which("tshark") and pathlib.Path(PION).is_dir()):
            print("feedback: skipped, there is no go, tshark, or pion's interceptor")
            return 0
        lines = [line.split(" ", 1) for line in OUT.read_text(encoding="ascii").splitlines() if not line.startswith("#")]
        if both([packet for packet, _ in lines]) != [told for _, told in lines]:
            sys.exit("feedback: the peers read something else than the file has")
        print(f"feedback: {len(lines)} packets are read as the file has them")
        return 0
    interceptor, chromium = package("golang-github-pion-interceptor-dev"), version("chromium", "--version")
    readers = f"read by pion/rtcp {package('golang-github-pion-rtcp-dev')} and tshark {version('tshark', '--version')}"
    text = [f"# Transport-wide feedback, {readers}: made by tests/vectors/feedback.py"]
    for name, packets in [(f"pion/interceptor {interceptor}", go(["write"])[:KEPT]), (f"libwebrtc, Chromium {chromium}", of_chromium()),
                          ("this library", of_this_library())]:
        text += [f"# {name}", *(f"{packet} {told}" for packet, told in zip(packets, both(packets), strict=True))]
    OUT.write_text("\n".join(text) + "\n", encoding="ascii")
    print(f"feedback: {sum(not line.startswith('#') for line in text)} packets")
    return 0


if __name__ == "__main__":
    sys.exit(main(sys.argv[1:]))
