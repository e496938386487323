#!/usr/bin/env python3
"""Prints what calls of rust/ take: instructions by callgrind, and times as ratios to a copy of the same frame.

  tools/measure/rust_speed.py [--fallible]
  tools/measure/rust_speed.py [--fallible] --sessions
  tools/measure/rust_speed.py [--fallible] --orders
  tools/measure/rust_speed.py [--fallible] --buffer
  tools/measure/rust_speed.py [--fallible] --receiver
  tools/measure/rust_speed.py [--fallible] --hostile
  tools/measure/rust_speed.py [--fallible] --forward
  tools/measure/rust_speed.py [--fallible] --ports
  tools/measure/rust_speed.py [--fallible] --fec

With --buffer it prints the instructions of a push and a pop (tools/speed/src/bin/buffer.rs), with --receiver those of a datagram in a
receiver. With --sessions it prints what a datagram takes in a session beside a receiver alone (tools/speed/src/bin/session.rs). With
--orders it prints times of packets in orders of arrival, and the memory of held packets (tools/speed/src/bin/orders.rs). With
--hostile it prints what a datagram takes where the peer chooses the numbers (tools/speed/src/bin/hostile.rs), with --forward what a
packet takes for a viewer (tools/speed/src/bin/forward.rs), with --ports what a datagram takes in a port with FEC
(tools/speed/src/bin/ports.rs), with --fec what it takes in a stream with FEC, and what a sender of FEC takes
(tools/speed/src/bin/fec.rs). These four fail if a row is above its bound.
Needs cargo, and valgrind for instructions. Times depend on the machine and on what else runs on it; instructions do not.
"""
import os
import re
import shutil
import subprocess
import sys
from concurrent.futures import ThreadPoolExecutor

ROOT = os.path.dirname(os.path.dirname(os.path.dirname(os.path.realpath(__file__))))
SPEED = f"{ROOT}/tools/speed"
CASES = [("opus", 120), ("VP8", 1_000), ("VP8", 20_000), ("VP9", 1_000), ("VP9", 20_000), ("AV1", 1_000), ("AV1", 20_000)]
CALLS = ["packetize", "packetize_into", "depacketize"]
# The orders and ways of tools/speed/src/bin/buffer.rs.
ARRIVALS = {"opus": "Opus, in order", "rows": "Opus, ranges of 32 in reverse", "vp8": "VP8, 17 packets a frame"}
WAYS = {"unit": "`push`, `pop_unit`", "packed": "`store_packed`, `pop_unit`"}
# The rounds of tools/speed, each with this many calls.
ROUNDS = 12
# The streams and the hostile datagrams of tools/speed/src/bin/session.rs.
KINDS = {"audio": "Opus", "video": "VP8", "requests": "VP8, requests"}
POPS = {"bare": "`pop`", "unit": "`pop_unit`", "once": "one `pop_unit`"}
# Settings of a build, as variables for cargo.
BUILDS = {"as cargo builds it": {}, "`codegen-units = 1`": {"CODEGEN_UNITS": "1"}, "and `lto = \"fat\"`": {"CODEGEN_UNITS": "1", "LTO": "fat"}}
# The kinds of tools/speed/src/bin/hostile.rs, each with its largest number of instructions.
CHOSEN = {
    ("frames", 4): ("VP8 of 4 packets a frame, nothing lost", 2_850),
    ("frames", 64): ("of 64 packets", 3_700),
    ("frames", 1_000): ("of 1,000 packets", 2_750),
    ("gap", 1_024): ("1,024 packets held behind a lost one", 3_150),
    ("gaps", 1_024): ("1,024 packets held, each behind a lost one", 22_500),
    ("opens", 1_024): ("the same, and each datagram comes behind one more lost packet", 22_500),
    ("fills", 1_024): ("the same, and each datagram is a packet that was lost", 109_000),
    ("no_media", 1_024): ("1,024 numbers without media, each behind a lost packet", 22_500),
    ("jumps", 64): ("a packet whose number is far ahead of all others", 22_500),
    ("repeats", 64): ("a packet that is held", 2_900),
    ("times", 1): ("a frame whose time is anywhere", 3_600),
    ("blocks", 32): ("RED with 32 blocks, all of lost packets", 50_000),
    ("requests", 350): ("RTCP: a NACK with 350 pairs", 1_350),
    ("reports", 1): ("RTCP: a receiver report of 31 blocks", 1_300),
    ("goodbyes", 11): ("RTCP: BYE of 341 SSRCs", 15_500),
    ("numbered", 4_000): ("a packet with a transport-wide number, behind 4,000 of them", 4_050),
    ("strays", 1_000): ("a packet of a new SSRC, all 64 places taken by senders of one packet", 38_000),
}
# The kinds of tools/speed/src/bin/forward.rs, each with the viewers of a counted packet, and its largest number of instructions.
FORWARDED = {
    ("write", 0): ("the next packet, 1,100 bytes", 32, 450),
    ("late", 0): ("a late packet", 1, 550),
    ("late", 4_096): ("a late packet, 4,096 left out after it", 1, 800),
    ("again", 0): ("a request", 1, 600),
    ("again", 4_096): ("a request for a number behind 4,096 that were left out", 1, 1_050),
    ("leave", 4_096): ("the next packet is left out, 4,096 left out before", 1, 300),
}
# The kinds of tools/speed/src/bin/ports.rs, each with the datagrams of a counted one, and its largest number of instructions.
PORTS = {
    ("plain",): ("a packet without RED, of a stream without FEC", 1, 1_050),
    ("media",): ("media in RED, of the first of 64 streams", 1, 2_700),
    ("last",): ("of the last of them", 1, 3_700),
    ("fec",): ("FEC over 4 packets that came, and those packets, each", 5, 2_700),
    ("rebuild",): ("the same with one of them lost, all together", 1, 17_000),
    ("stranger",): ("the first packet of a stream, in a port that is full of streams with one packet", 1, 22_000),
}
# The kinds of tools/speed/src/bin/fec.rs, each with the counted function, what it counts for each COUNT, and its largest number of instructions.
FEC = {
    ("media", 5): ("media", "counted", 1, 1_200),
    ("whole", 5): ("FEC while all packets came", "counted", 1, 2_000),
    ("rebuild", 5): ("FEC that rebuilds one of 5 packets", "counted", 1, 6_000),
    ("rebuild", 16): ("FEC that rebuilds one of 16 packets", "counted", 1, 12_000),
    ("marks", 10): ("media that 64 packets of FEC with 48 bits protect, each of which misses two", "counted", 1, 9_000),
    ("rebuild", 48): ("FEC that rebuilds one of 48 packets of 1,500 bytes", "counted", 1, 34_000),
    ("beside", 48): ("that, while 64 packets of FEC protect the same packets", "counted", 1, 43_000),
    ("window", 512): ("the first of another window, after 512 packets of media", "counted", 1, 1_500),
    ("push", 5): ("a packet is sent in RED", "counted_push", 5, 1_700),
    ("finish", 5): ("the FEC of a frame of 5 packets: two", "counted_finish", 1, 13_000),
    ("finish", 30): ("the FEC of a frame of 30 packets: ten", "counted_finish", 1, 78_000),
}
HOSTILE = {"goodbyes": "300 BYEs of nobody, 1,200 bytes", "strays": "a packet of a new SSRC, all places taken"}


def counted(*words, within=None):
    """The instructions of a run of a program, or of one of its functions with all that it calls, and what it printed."""
    only = [f"--toggle-collect={within}"] if within else []
    ran = subprocess.run(["valgrind", "--tool=callgrind", "--callgrind-out-file=/dev/null", *only, *map(str, words)],
                         capture_output=True, text=True, check=True)
    return int(re.search(r"Collected : (\d+)", ran.stderr)[1]), ran.stdout


def collected(*words, within=None):
    return counted(*words, within=within)[0]


def instructions(program, codec, size, call):
    """Instructions of one call: the difference of two runs, so that start and end do not count."""
    few, many = (collected(program, codec, size, call, count) for count in (10, 30))
    return (many - few) / (20 * ROUNDS)


def of_datagram(way, kind, streams, count=60):
    """What a datagram takes in a session of so many streams, each of which gets `count` of them."""
    taken, said = counted(f"{SPEED}/target/release/session", way, kind, streams, count, within="session::Load::counted")
    return taken / int(said.split()[0])


def print_sessions():
    print("| streams | receiver | `receive`, `poll` | ratio | and `next_deadline` | ratio | `receive`, `poll_into` | ratio |")
    print("|---" * 8 + "|")
    for kind, name in KINDS.items():
        for streams in (1, 8, 64):
            bare, *others = (of_datagram(way, kind, streams) for way in ("bare", "poll", "deadline", "into"))
            cells = " | ".join(f"{other:,.0f} | {other / bare:.2f}" for other in others)
            print(f"| {streams} of {name} | {bare:,.0f} | {cells} |", flush=True)
    print("\n| `receive` of | 1 stream | 8 streams | 64 streams |")
    print("|---" * 4 + "|")
    for kind, name in HOSTILE.items():
        cells = (of_datagram("receive", kind, streams, 4) for streams in (1, 8, 64))
        print(f"| {name} | " + " | ".join(f"{cell:,.0f}" for cell in cells) + " |", flush=True)


def of_hostile(kind, size, counts=(40, 80)):
    few, many = (collected(f"{SPEED}/target/release/hostile", kind, size, count, within="hostile::Load::receive") for count in counts)
    return (many - few) / (counts[1] - counts[0])


def of_forwarded(kind, left, counts=(40, 80)):
    viewers = FORWARDED[kind, left][1]
    few, many = (collected(f"{SPEED}/target/release/forward", kind, left, count, within=f"forward::{kind}") for count in counts)
    return (many - few) / (counts[1] - counts[0]) / viewers


def of_fec(kind, packets, counts=(20, 40)):
    _, function, times, _ = FEC[kind, packets]
    few, many = (collected(f"{SPEED}/target/release/fec", kind, packets, count, within=f"fec::{function}") for count in counts)
    return (many - few) / (counts[1] - counts[0]) / times


def print_bounded(title, rows, of_row):
    """Prints a table, and returns whether each row is within its bound."""
    print(f"| {title} | instructions | bound |")
    print("|---" * 3 + "|")
    within = True
    with ThreadPoolExecutor(os.cpu_count()) as pool:
        for (name, *_, bound), taken in zip(rows.values(), pool.map(lambda it: of_row(*it), rows)):
            within = within and taken <= bound
            print(f"| {name} | {taken:,.0f} | {bound:,} |", flush=True)
    print(f"rust_speed: {'each row is' if within else 'not each row is'} within its bound")
    return within


def print_hostile():
    return print_bounded("a datagram of a session that requests what it misses", CHOSEN, of_hostile)


def of_port(kind, counts=(20, 60)):
    few, many = (collected(f"{SPEED}/target/release/ports", kind, count, within="ports::pass") for count in counts)
    return (many - few) / (counts[1] - counts[0]) / PORTS[kind,][1]


def print_ports():
    return print_bounded("a datagram in a port with 64 streams", PORTS, of_port)


def print_forwarded():
    return print_bounded("a packet of VP8 for a viewer", FORWARDED, of_forwarded)


def print_fec():
    return print_bounded("a datagram of a stream with FEC", FEC, of_fec)


def of_packet(way, order, held, counts=(6_528, 13_056)):
    """The instructions of a push and a pop of a packet, with so many held."""
    few, many = (collected(f"{SPEED}/target/release/buffer", way, order, held, count) for count in counts)
    return (many - few) / (counts[1] - counts[0])


def print_buffer():
    print("| packets | held | " + " | ".join(WAYS.values()) + " |")
    print("|---" * (2 + len(WAYS)) + "|")
    for order, name in ARRIVALS.items():
        for held in 64, 4_096:
            print(f"| {name} | {held:,} | " + " | ".join(f"{of_packet(way, order, held):,.0f}" for way in WAYS) + " |", flush=True)


def print_receiver(features):
    print("| packets | build | " + " | ".join(POPS.values()) + " |")
    print("|---" * (2 + len(POPS)) + "|")
    for build, variables in BUILDS.items():
        settings = {f"CARGO_PROFILE_RELEASE_{name}": value for name, value in variables.items()}
        subprocess.run(["cargo", "build", "--offline", "--quiet", "--release", *features], cwd=SPEED, check=True, env=os.environ | settings)
        for kind in "audio", "video":
            cells = " | ".join(f"{of_datagram(way, kind, 1):,.0f}" for way in POPS)
            print(f"| {KINDS[kind]} | {build} | {cells} |", flush=True)


def print_orders():
    print("| order | held | copy, ns | buffer, ns | over a copy | map, ns |")
    print("|---" * 6 + "|", flush=True)
    for held, rounds in (64, 9), (4_096, 9), (65_000, 2):
        subprocess.run([f"{SPEED}/target/release/orders", str(held), str(rounds)], check=True)
    print(flush=True)
    subprocess.run([f"{SPEED}/target/release/orders", "memory"], check=True)
    print(flush=True)
    subprocess.run([f"{SPEED}/target/release/orders", "spike"], check=True)


def time_of(program, codec, size, call):
    count = 2_000_000 // (size + 400)
    return float(subprocess.run([program, codec, str(size), call, str(count)], capture_output=True, text=True, check=True).stdout)


def main(words):
    features = ["--features", "codec-payload/fallible"] if "--fallible" in words else []
    subprocess.run(["cargo", "build", "--offline", "--quiet", "--release", *features], cwd=SPEED, check=True)
    if "--hostile" in words:
        return 0 if print_hostile() else 1
    if "--forward" in words:
        return 0 if print_forwarded() else 1
    if "--ports" in words:
        return 0 if print_ports() else 1
    if "--fec" in words:
        return 0 if print_fec() else 1
    if "--receiver" in words:
        print_receiver(features)
        return 0
    for word, prints in ("--sessions", print_sessions), ("--orders", print_orders), ("--buffer", print_buffer):
        if word in words:
            prints()
            return 0
    program = f"{SPEED}/target/release/speed"
    counts = shutil.which("valgrind")
    print("| frame | copy, ns | " + " | ".join(f"{call}: instructions | ratio to the copy" for call in CALLS) + " |")
    print("|---" * (2 + 2 * len(CALLS)) + "|")
    for codec, size in CASES:
        copy = time_of(program, codec, size, "copy")
        cells = []
        for call in CALLS:
            count = f"{instructions(program, codec, size, call):.0f}" if counts else "-"
            cells.append(f"{count} | {time_of(program, codec, size, call) / copy:.2f}")
        print(f"| {codec}, {size} bytes | {copy:.0f} | {' | '.join(cells)} |", flush=True)
    return 0


if __name__ == "__main__":
    sys.exit(main(sys.argv[1:]))
