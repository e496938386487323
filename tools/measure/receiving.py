#!/usr/bin/env python3
"""Prints what a received packet takes through the library for C, as `make` builds it: instructions by callgrind, and times.

  tools/measure/receiving.py           instructions of a packet, with 64 held, and with 4,096; of a datagram of a session, with its polls.
                                 Fails if a packet of Opus in order, with 64 held, takes more than BOUND in a receiver, or a datagram
                                 of a session more than its bound
  tools/measure/receiving.py --times   nanoseconds too, over a ring in C that makes no promises, and of 10,000 receivers in turn

The programs are tools/bench/receive.c and sessions.c. Needs make, a C compiler, $CC or cc, and valgrind. Times depend on the machine and on what
else runs on it; instructions do not.
"""
import os
import re
import subprocess
import sys
import tempfile

ROOT = os.path.dirname(os.path.dirname(os.path.dirname(os.path.realpath(__file__))))
ROUNDS = 2176
BOUND = 1_700
# What each row calls, and the functions that are counted for it.
KINDS = {"opus": "Opus, in order", "ranges": "Opus, ranges of 32 in reverse", "vp8": "VP8, 17 packets a frame"}
CAPTURE = f"{ROOT}/tools/rtp_record/captures/chromium-vp8"
# What each row of sessions is, its arguments, and the most instructions of a datagram.
SESSIONS = [
    ("1 stream of Opus", ["streams", "1", "4096", "1"], 2_300),
    ("1,000 streams of Opus", ["streams", "1000", "5", "1"], 2_450),
    ("a call of Chromium: audio, video, retransmissions, RTCP", ["call", f"{CAPTURE}.sdp", f"{CAPTURE}.pcap"], 3_200),
]
CALLS = {"cpay_receiver_receive": "receive", "cpay_receiver_pop": "pop", "cpay_buffer_push": "push", "cpay_buffer_pop": "pop_buffer"}


def built(folder, name):
    """A program, over the library that `make` builds."""
    subprocess.run(["make", "-s", "-C", ROOT], stdout=subprocess.DEVNULL, check=True)
    program = f"{folder}/{name}"
    source, library = f"{ROOT}/tools/bench/{name}.c", f"{ROOT}/c/out/libcodec_payload.a"
    subprocess.run([os.environ.get("CC", "cc"), "-std=c99", "-O2", f"-I{ROOT}/include", source, library, "-o", program], check=True)
    return program


def counted(call, words):
    """The instructions inside one function of a program, and what it printed."""
    tool = ["valgrind", "--tool=callgrind", "--callgrind-out-file=/dev/null", f"--toggle-collect={call}"]
    ran = subprocess.run([*tool, *map(str, words)], capture_output=True, text=True, check=True)
    return int(re.search(r"Collected : (\d+)", ran.stderr)[1]), ran.stdout


def instructions(program, call, kind, held):
    """The instructions of a packet inside one function."""
    return counted(call, [program, call, kind, held])[0] / ROUNDS


def time_of(program, call, kind, held):
    return float(subprocess.run([program, call, kind, str(held)], capture_output=True, text=True, check=True).stdout)


def print_instructions(program):
    """Prints a table, and returns what a packet of Opus in order takes in a receiver, with 64 held."""
    first = None
    print("| packets | held | " + " | ".join(f"`{it}`" for it in CALLS) + " | receiver, both |")
    print("|---" * (len(CALLS) + 3) + "|")
    for held in 64, 4_096:
        for kind, name in KINDS.items():
            counts = [instructions(program, call, kind, held) for call in CALLS.values()]
            first = first or sum(counts[:2])
            print(f"| {name} | {held:,} | " + " | ".join(f"{it:,.0f}" for it in [*counts, sum(counts[:2])]) + " |", flush=True)
    ring = [instructions(program, call, "ring", 64) for call in ("put", "take")]
    print(f"\nA ring of slots that makes no promises takes {sum(ring):,.0f} instructions of Opus.")
    return first


def print_sessions(program):
    """Prints a table, and returns whether each row is within its bound."""
    print("\n| session | datagrams | instructions of a datagram, with its polls | bound |\n|---|---|---|---|")
    fit = True
    for name, words, bound in SESSIONS:
        count, said = counted("counted", [program, *words])
        datagrams = int(said.split()[0])
        each = count / datagrams
        fit = fit and each <= bound
        print(f"| {name} | {datagrams:,} | {each:,.0f} | {bound:,} |", flush=True)
    return fit


def print_times(program):
    print("\n| packets | held | receiver, ns | buffer, ns | ring, ns | receiver over ring |")
    print("|---" * 6 + "|")
    for held in 64, 4_096:
        for kind, name in list(KINDS.items())[:2]:
            receiver, ring = time_of(program, "time", kind, held), time_of(program, "time", "ring", held)
            buffer = time_of(program, "time-buffer", kind, held)
            print(f"| {name} | {held:,} | {receiver:,.0f} | {buffer:,.0f} | {ring:,.0f} | {receiver / ring:.1f} |", flush=True)
    print(f"\n10,000 receivers of Opus in turn take {time_of(program, 'time-cold', 'opus', 0):,.0f} ns a packet.")


def main(words):
    if words not in ([], ["--times"]):
        sys.exit(__doc__.strip())
    with tempfile.TemporaryDirectory() as folder:
        program = built(folder, "receive")
        taken = print_instructions(program)
        fit = print_sessions(built(folder, "sessions"))
        if words:
            print_times(program)
    print(f"receiving: {taken:,.0f} instructions of a packet of Opus, at most {BOUND:,} wanted; sessions within their bounds: {fit}")
    return 0 if taken <= BOUND and fit else 1


if __name__ == "__main__":
    sys.exit(main(sys.argv[1:]))
