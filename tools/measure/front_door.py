#!/usr/bin/env python3
"""Prints what a datagram takes in Rust and in C, in a receiver and in a session: instructions by callgrind, and times.

  tools/measure/front_door.py             prints the two tables of docs/use/PERFORMANCE.md, and a line about the recorder
  tools/measure/front_door.py --wanted    the same, with the figure that was aimed at beside each
  tools/measure/front_door.py --counts    the table of instructions alone

In Rust `receive` and `pop_unit`, or `receive` and `poll_into`; in C `cpay_receiver_receive` and `cpay_receiver_pop` (beside ffmpeg,
whose demuxer lends its packets, `cpay_receiver_lend`), or `cpay_session_receive` and `cpay_session_poll`, over the library as `make`
builds it. What makes the datagrams does not count. The programs are session.rs, hostile.rs and call.rs of tools/speed/src/bin,
receive.c and sessions.c of tools/bench, and ffmpeg.c of tools/measure/peers. Times are processor time, the least of some runs that
take turns: compare within a table. Needs cargo, make, a C compiler and valgrind; for ffmpeg and the recorder the packages of
tools/rtp_record/install.sh, else their figures are left out.
"""
import os
import resource
import struct
import subprocess
import sys
import tempfile
from concurrent.futures import ThreadPoolExecutor

import peers
import receiving
import rust_speed

BUILT = f"{rust_speed.SPEED}/target/release"
CALL = [f"{receiving.CAPTURE}.sdp", f"{receiving.CAPTURE}.pcap"]
RECORDER = f"{receiving.ROOT}/tools/rtp_record"
# The streams of a session of Opus, and how many datagrams of each are counted.
STREAMS = {1: 2_048, 64: 32, 1_000: 3}
# The kinds of tools/speed/src/bin/hostile.rs, each with how many datagrams its two runs have: whole frames.
GAP, FRAMES = ("gap", 1_024, (40, 80)), ("frames", 1_000, (1_000, 2_000))
SENDERS, PACKETS, SIZE = 1_024, 102_400, 120
# What was aimed at, in Rust and in C: instructions, then nanoseconds.
WANTED = {
    "receiver": (1_400, 1_700), "streams 1": (1_900, 2_300), "streams 1000": (None, 2_400), "batch": (2_600, 3_000),
    "call": (2_600, 3_000), "ns streams": (1_000, 1_500), "ns gap": (600, None), "ns frames": (500, None),
}


def of_each(call, *words):
    """The instructions of a datagram of a program that prints first how many it counted."""
    count, said = receiving.counted(call, words)
    return count / int(said.split()[0])


def of_hostile(program, kind, size, counts):
    """The instructions of a datagram of these kinds in C: the difference of two runs, as rust_speed.py counts them in Rust."""
    few, many = (receiving.counted("counted", [program, kind, size, count])[0] for count in counts)
    return (many - few) / (counts[1] - counts[0])


def receiver_in_c(program):
    """A packet of Opus in order: what it takes to receive, and to pop."""
    return sum(receiving.instructions(program, call, "opus", 64) for call in ("receive", "pop"))


def counts(receive, sessions):
    """The rows of instructions, each with a key, a name, and what counts it in Rust and in C."""
    def rust(way, streams, count, kind="audio"):
        return lambda: rust_speed.of_datagram(way, kind, streams, count)

    def in_c(*words):
        return lambda: of_each("counted", sessions, *words)

    yield "receiver", "a receiver of Opus", rust("once", 1, 2_048), lambda: receiver_in_c(receive)
    for streams, count in STREAMS.items():
        name = f"a session with {streams:,} stream{'s' if streams > 1 else ''} of Opus"
        yield f"streams {streams}", name, rust("into", streams, count), in_c("streams", streams, count, 1)
    name = "the same, polled after each 32 datagrams"
    yield "batch", name, rust("batch", 1_000, 3), in_c("streams", 1_000, 3, 32)
    yield "report", "with 1,000 streams: a sender report", rust("into", 1_000, 1, "reports"), None
    yield "call", "a session of a call of Chromium", lambda: of_each("call::counted", f"{BUILT}/call", *CALL), in_c("call", *CALL)
    name = "a session with requests: one lost packet, 1,024 held"
    yield "gap", name, lambda: rust_speed.of_hostile(*GAP), lambda: of_hostile(sessions, *GAP)
    name = "VP8 of 1,000 packets a frame, nothing lost"
    yield "frames", name, lambda: rust_speed.of_hostile(*FRAMES), lambda: of_hostile(sessions, *FRAMES)


def printed(place, *words):
    """The number at a place of what a program prints."""
    return float(subprocess.run([*map(str, words)], capture_output=True, text=True, check=True).stdout.split()[place])


def least(runs, *calls):
    """The least of so many figures of each call, which take turns."""
    figures = [[call() for call in calls] for _ in range(runs)]
    return [min(column) for column in zip(*figures)]


def times(receive, sessions, ffmpeg):
    """The rows of times: a key, a name, and nanoseconds in Rust and in C."""
    yield "ns ring", "a ring of slots without promises, Opus", None, least(3, lambda: receiving.time_of(receive, "time", "ring", 64))[0]
    name, words = "a session with 10,000 streams of Opus", ("streams", 10_000, 30, 1)
    pair = least(1, lambda: printed(1, f"{BUILT}/session", "into", "audio", 10_000, 30), lambda: printed(1, sessions, *words))
    yield "ns streams", name, *pair
    for (kind, size, (_, count)), name in (GAP, "one lost packet, 1,024 held"), (FRAMES, "VP8 of 1,000 packets a frame, nothing lost"):
        def rust(kind=kind, size=size, count=count):
            return printed(0, f"{BUILT}/hostile", kind, size, count)

        def in_c(kind=kind, size=size, count=count):
            return printed(1, sessions, kind, size, count)
        yield f"ns {kind}", f"a session with requests: {name}", *least(9, rust, in_c)
    calls = [lambda: receiving.time_of(receive, "time-lend", "vp8", 64)] + ([lambda: printed(0, ffmpeg, "vp8", 12)] if ffmpeg else [])
    in_c, *peer = least(5, *calls)
    yield "ns vp8", "a receiver of VP8, 17 packets of 1,200 bytes a frame, lent", None, in_c
    if peer:
        yield "ns ffmpeg", "the same packets in ffmpeg's demuxer", None, peer[0]


def print_table(head, rows, has_wanted):
    print(f"| {head} | Rust | C |" + (" wanted: Rust | C |" if has_wanted else ""))
    print("|---" * (5 if has_wanted else 3) + "|", flush=True)
    for key, name, *cells in rows:
        cells += WANTED.get(key, (None, None)) if has_wanted else ()
        print(f"| {name} | " + " | ".join("" if it is None else f"{it:,.0f}" for it in cells) + " |", flush=True)


def write_capture(path):
    """Packets of Opus of many senders in turn, from one port to one port, over IPv4 without a link."""
    with open(path, "wb") as file:
        file.write(struct.pack("<IHHiIII", 0xA1B2C3D4, 2, 4, 0, 0, 65536, 101))
        for place in range(PACKETS):
            number, sender = divmod(place, SENDERS)
            at = number * 20_000 + sender * 10
            size = 20 + 8 + 12 + SIZE
            file.write(struct.pack("<IIII", at // 10**6, at % 10**6, size, size))
            file.write(struct.pack(">BBHIBBH4s4s", 0x45, 0, size, 0, 64, 17, 0, bytes([10, 0, 0, 1]), bytes([10, 0, 0, 2])))
            file.write(struct.pack(">HHHH", 5004, 5004, size - 20, 0) + struct.pack(">BBHII", 0x80, 96, number, number * 960, sender + 1))
            file.write(b"\xfc".ljust(SIZE, b"\0"))


def recorded(path, folder):
    """The seconds of processor time in which the recorder writes the capture."""
    before = resource.getrusage(resource.RUSAGE_CHILDREN)
    words = [f"{RECORDER}/rtp_record", "--map", "96=opus/48000/2", path, "-o", folder]
    subprocess.run(words, check=True, stdout=subprocess.DEVNULL)
    after = resource.getrusage(resource.RUSAGE_CHILDREN)
    if len(os.listdir(folder)) != SENDERS:
        sys.exit(f"front_door: the recorder wrote {len(os.listdir(folder))} files")
    return after.ru_utime - before.ru_utime + after.ru_stime - before.ru_stime


def print_recorder(receive, sessions, folder):
    """What the recorder takes, and what a session in place of its receivers adds, by the difference of a datagram."""
    if subprocess.run(["make", "-s", "-C", RECORDER, "rtp_record"], capture_output=True, check=False).returncode:
        print("\nrtp_record is left out: see tools/rtp_record/install.sh")
        return
    path = f"{folder}/senders.pcap"
    write_capture(path)
    taken = recorded(path, f"{folder}/recorded")
    alone, session = least(3, lambda: receiving.time_of(receive, "time-cold", "opus", SENDERS), lambda: printed(1, sessions, "streams", SENDERS, 12, 1))
    print(f"\nrtp_record writes {PACKETS:,} packets of {SENDERS:,} senders on one port in {taken:.2f} s of processor time. A datagram takes "
          f"{alone:,.0f} ns in {SENDERS:,} receivers, and {session:,.0f} in a session of as many streams: {(session - alone) * PACKETS / 1e9:+.2f} s.")


def main(words):
    if words not in ([], ["--wanted"], ["--counts"]):
        sys.exit(__doc__.strip())
    has_wanted = words == ["--wanted"]
    subprocess.run(["cargo", "build", "--offline", "--quiet", "--release"], cwd=rust_speed.SPEED, check=True)
    with tempfile.TemporaryDirectory() as folder, ThreadPoolExecutor(os.cpu_count()) as pool:
        receive, sessions = receiving.built(folder, "receive"), receiving.built(folder, "sessions")
        begun = [(key, name, [it and pool.submit(it) for it in calls]) for key, name, *calls in counts(receive, sessions)]
        rows = ((key, name, *(it and it.result() for it in calls)) for key, name, calls in begun)
        print_table("a datagram, instructions", rows, has_wanted)
        if words == ["--counts"]:
            return
        print()
        ffmpeg = peers.c_peer(folder, "ffmpeg", "libavformat", "libavcodec", "libavutil")
        print_table("a datagram, ns", times(receive, sessions, ffmpeg), has_wanted)
        print_recorder(receive, sessions, folder)


if __name__ == "__main__":
    main(sys.argv[1:])
