#!/usr/bin/env python3
"""How many frames of a call a decoder behind a session can show, beside those that Chromium's own receiver shows.

    tools/chromium/chromium_frames.py                         three runs each: 0, 2, 5 and 10 % lost, 20 and 80 ms each way
    tools/chromium/chromium_frames.py --losses 10 --delays 80 --runs 5

In each run a headless Chromium sends VP8 for `--seconds` to a session of this library (rust/examples/port_peer.rs), which requests
lost packets and keyframes, and then to a second peer connection of its page; in every other run in the other order. Both calls go
through the same network: the same losses, delay and jitter each way, from the same seeds. A cell has the frames that were shown of
those that were sent, and the keyframe requests (PLI) that reached the sender; the sums of the runs. Of the session a frame counts if
its unit came as decodable. Fails if a row of the session has a smaller share than the other receiver less 1 %.
"""

import argparse
import shutil
import signal
import sys
import tempfile

from chromium_rates import Call, Network, built, rates_of


def counts_of(call, seconds):
    """Sent, shown, and keyframe requests."""
    rates_of(call, seconds)
    sent, requests = call.frames["framesSent"], call.frames["pliCount"]
    shown = call.frames["framesDecoded"] if call.program is None else call.decodable
    return [sent, shown, requests]


def cell(counts):
    sent, shown, requests = counts
    return f"{shown:,} of {sent:,} ({100 * shown / sent:.1f} %); {requests}"


def main(words):
    parser = argparse.ArgumentParser(description=__doc__.splitlines()[0])
    parser.add_argument("--losses", default="0,2,5,10", help="percent, each way")
    parser.add_argument("--delays", default="20,80", help="milliseconds each way")
    parser.add_argument("--jitter", type=float, default=5, help="milliseconds; 5 by default")
    parser.add_argument("--seconds", type=int, default=20)
    parser.add_argument("--seed", type=int, default=1)
    parser.add_argument("--runs", type=int, default=3)
    settings = parser.parse_args(words)
    if not shutil.which("chromium"):
        print("chromium_frames: skipped, there is no chromium")
        return 0
    signal.signal(signal.SIGTERM, lambda *_: sys.exit("terminated"))
    faults = []
    print("| loss, each way | session: decodable of sent; PLIs | Chromium: decoded of sent; PLIs |\n|---|---|---|", flush=True)
    with tempfile.TemporaryDirectory() as folder:
        program = built(folder)
        for delay in map(float, settings.delays.split(",")):
            for loss in map(float, settings.losses.split(",")):
                sums = [[0, 0, 0], [0, 0, 0]]
                for run in range(settings.runs):
                    network = Network(loss, delay, settings.jitter, settings.seed + 2 * run)
                    calls = [Call(network, program, (), folder), Call(network)]
                    order = -1 if run % 2 else 1
                    for total, call in list(zip(sums, calls))[::order]:
                        total[:] = map(sum, zip(total, counts_of(call, settings.seconds)))
                name = f"{loss:g} %, {delay:g} ms"
                print(f"| {name} | {cell(sums[0])} | {cell(sums[1])} |", flush=True)
                (sent, shown, _), (others, seen, _) = sums
                if shown / sent < seen / others - 0.01:
                    faults.append(f"{name}: {shown} of {sent}, where Chromium shows {seen} of {others}")
    print("\n".join([*faults, f"chromium_frames: {len(faults)} faults"]))
    return 1 if faults else 0


if __name__ == "__main__":
    sys.exit(main(sys.argv[1:]))
