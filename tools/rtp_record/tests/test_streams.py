#!/usr/bin/env python3
"""Streams of one capture: the list and its counts, one file for all, events, and the statuses of the program.

  tests/test_streams.py [PROGRAM]

All captures of captures/ come together in one, from one port to another. What is counted is compared with what the conditions did.
The last line is `N passed, N failed`."""

import json
import struct
import subprocess
import sys
import tempfile
from dataclasses import replace
from fractions import Fraction

import capture
import conditions
from checks import PROGRAM, check, status_of_checks
from recorded import CAPTURES, all_streams
from test_captures import md5s_in, words

STREAMS = {stream.title: stream for stream in all_streams()}


def run(*words, data=None):
    return subprocess.run([PROGRAM, *words], capture_output=True, check=False, input=data)


def together(folder, names, condition=conditions.clean):
    """One capture of several, each from its first moment on, on the ports of the first."""
    packets, headers = [], None
    for name in names:
        clean = packets_of(name)
        headers = headers or clean[0].headers
        come, _ = condition(clean)
        packets += [replace(packet, time=packet.time - clean[0].time + 10**18, headers=headers) for packet in come]
    path = f"{folder}/{'-'.join(names)}-{condition.__name__}.pcap"
    capture.write(path, sorted(packets, key=lambda packet: packet.time))
    return path


def listed(path, *words):
    ran = run("--json", *words, path)
    check(ran.returncode == 0, f"{path}: status {ran.returncode} {ran.stderr.decode()}")
    return {stream["ssrc"]: stream for stream in json.loads(ran.stdout)["streams"]}


def ssrc_of(name):
    return f"{STREAMS[name].ssrc:08x}"


def packets_of(name):
    return STREAMS[name].packets()


def lists(folder):
    names = ["vp8", "opus", "pcmu"]
    streams = listed(together(folder, names))
    check(set(streams) == {ssrc_of(name) for name in names}, "the streams of one port are told apart")
    for name in names:
        stream = streams[ssrc_of(name)]
        check(stream["packets"] == len(packets_of(name)) and stream["lost"] == 0, f"{name}: all packets, none lost")
    check([streams[ssrc_of(name)]["codec"] for name in names] == ["VP8", "opus", "PCMU"], "codecs by a guess and by RFC 3551")
    check([streams[ssrc_of(name)]["guessed"] for name in names] == [True, True, False], "a guess is said to be one")


def counts(folder):
    for name in ["vp8", "opus"]:
        packets, ssrc = packets_of(name), ssrc_of(name)
        _, there = conditions.lossy(packets)
        inside = [place for place in range(min(there), max(there)) if place not in there]
        check(listed(together(folder, [name], conditions.lossy))[ssrc]["lost"] == len(inside), f"{name}: lost packets")
        twice = len(conditions.repeated(packets)[0]) - len(packets)
        found = listed(together(folder, [name], conditions.repeated))[ssrc]
        check(found["duplicates"] + found["late"] == twice, f"{name}: packets that came twice: {found}")
        check(listed(together(folder, [name], conditions.restarted))[ssrc]["restarts"] == 1, f"{name}: a restart")


def jitter_of(packets, rate):
    """The interarrival jitter in milliseconds (RFC 3550, section 6.4.1), in fractions as they are."""
    jitter = 0.0
    for before, packet in zip(packets, packets[1:]):
        times = (packet.timestamp - before.timestamp + 2**31) % 2**32 - 2**31
        apart = (packet.time - before.time) * Fraction(rate, 10**9) - times
        jitter += (abs(float(apart)) - jitter) / 16
    return 1000 * jitter / rate


def headers(folder):
    """What headers tell, counted here: packets behind one with a greater number, and the jitter."""
    for name, rate in [("vp8", 90000), ("opus", 48000), ("pcmu", 8000)]:
        for condition in [conditions.clean, conditions.swapped, conditions.wrapping, conditions.lossy]:
            come, there = condition(packets_of(name))
            capture.write(f"{folder}/h.pcap", come)
            found = listed(f"{folder}/h.pcap")[ssrc_of(name)]
            what = f"{name}, {condition.__name__}: {found}"
            check(abs(found["jitter_ms"] - jitter_of(come, rate)) < 0.002, f"jitter of {jitter_of(come, rate)}: {what}")
            behind, greatest = 0, come[0].number
            for packet in come[1:]:
                ahead = (packet.number - greatest + 2**15) % 2**16 - 2**15
                behind += ahead < 0
                greatest = packet.number if ahead > 0 else greatest
            check(found["reordered"] == behind and found["late"] == 0, f"{behind} reordered: {what}")
            check(found["lost"] == max(there) - min(there) + 1 - len(there), f"lost: {what}")
            check(found["duplicates"] == found["restarts"] == 0, f"no more: {what}")
    come = packets_of("pcmu")
    late = replace(come[0], time=come[80].time + 1)
    capture.write(f"{folder}/h.pcap", come[1:81] + [late] + come[81:])
    found = listed(f"{folder}/h.pcap")[ssrc_of("pcmu")]
    check(found["late"] == found["reordered"] == 1 and found["lost"] == 0, f"80 packets late: {found}")
    # a stray number is ignored, and two in a row are a restart (RFC 3550, appendix A.1)
    stray = come[40].changed(number=come[40].number + 20000)
    capture.write(f"{folder}/h.pcap", come[:40] + [stray] + come[40:])
    found = listed(f"{folder}/h.pcap")[ssrc_of("pcmu")]
    check(found["restarts"] == 0 and found["lost"] == 0, f"a stray number: {found}")


def muxes(folder):
    names = ["vp8", "opus"]
    out = f"{folder}/both.webm"
    ran = run("--mux", out, together(folder, names))
    check(ran.returncode == 0, f"mux: status {ran.returncode} {ran.stderr.decode()}")
    check(ran.stdout.decode().count(f"{out}: ") == 2, f"mux: what was written is told of both: {ran.stdout.decode()}")
    for track, name in zip(["v", "a"], names):
        stream = STREAMS[name]
        wanted = stream.wanted(stream.packets(), set(range(len(stream.packets()))))
        check(md5s_in(out, f"0:{track}:0") == wanted, f"mux: the frames of {name}")


def event(number, timestamp, code, end, duration):
    """A telephone event of RFC 4733 beside the audio of pcmu."""
    clean = packets_of("pcmu")[0]
    header = bytes([0x80, 101]) + struct.pack(">HI", number % 65536, timestamp % 2**32) + clean.payload[8:12]
    return replace(clean, payload=header + bytes([code, (0x80 if end else 0) | 10]) + struct.pack(">H", duration))


def events(folder):
    audio = packets_of("pcmu")
    at, number = 20, audio[20].number
    reports = [event(number + i, audio[at].timestamp, 5, i == 3, 400 * (i + 1)) for i in range(4)]
    reports = [replace(report, time=audio[at].time + i) for i, report in enumerate(reports)]
    packets = audio[:at] + reports + [packet.changed(number=packet.number + 4) for packet in audio[at:]]
    path, out = f"{folder}/events.pcap", f"{folder}/events"
    capture.write(path, packets)
    ran = run("--map", "101=telephone-event/8000", path, "-o", out)
    check(ran.returncode == 0, f"events: status {ran.returncode} {ran.stderr.decode()}")
    with open(f"{out}/{ssrc_of('pcmu')}.events.json", encoding="ascii") as file:
        found = json.load(file)
    check(len(found) == 1 and found[0]["name"] == "5" and found[0]["ended"], f"events: {found}")
    check(found[0]["duration"] == 0.2 and found[0]["volume"] == -10, f"events: {found}")
    raw = ["ffmpeg", "-v", "error", "-i", f"{out}/{ssrc_of('pcmu')}.mka", "-c", "copy", "-f", "mulaw", "-"]
    found = subprocess.run(raw, capture_output=True, check=False).stdout
    check(found == b"".join(packet.media for packet in audio), "events: the audio beside them is whole")


def statuses(folder):
    check(run().returncode == 2, "no capture is wrong use")
    check(run("--nothing", "x").returncode == 2, "an option that is not there is wrong use")
    check(run(f"{folder}/none.pcap").returncode == 1, "a capture that is not there fails")
    check(run("--help").returncode == 0, "help")
    with open(f"{CAPTURES}/vp8.pcap", "rb") as file:
        data = file.read()
    ran = run("--json", "-", data=data)
    check(ran.returncode == 0 and json.loads(ran.stdout)["rtp"] == len(packets_of("vp8")), "a capture of the standard input")
    with open(f"{folder}/half.pcap", "wb") as file:
        file.write(data[: len(data) // 2])
    ran = run("--json", f"{folder}/half.pcap")
    check(ran.returncode == 1 and json.loads(ran.stdout)["rtp"] > 0, "a capture that is cut gives what came before, with a status")


def main():
    with tempfile.TemporaryDirectory() as folder:
        for test in [lists, counts, headers, muxes, events, statuses]:
            test(folder)
    return status_of_checks()


if __name__ == "__main__":
    sys.exit(main())
