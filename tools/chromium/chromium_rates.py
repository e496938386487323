#!/usr/bin/env python3
"""Which bitrate Chromium gives its encoder of VP8, beside the bitrate that libwebrtc's own receiver makes it give.

    tools/chromium/chromium_rates.py                      five runs for each loss: 0, 2 and 5 %
    tools/chromium/chromium_rates.py --losses 5 --runs 3 --intervals 50,100
    tools/chromium/chromium_rates.py --clean 5 --intervals 50,100 --grains 1,1000

In each run a headless Chromium sends for `--seconds` to a session of this library (rust/examples/port_peer.rs), which reports the
arrivals of its transport, and then to a second peer connection of its page; in every other run in the other order. Both go through
the same network: the same losses, delay and jitter, from the same seeds. Prints kbit/s after 5 s and after 10 s, each the mean of
three seconds, and the mean of the second half; then the medians of the runs. In the first `--clean` seconds nothing is lost:
Chromium measures the network by one probe at the start, and a loss in it decides the rates of the first half minute. With
`--grains` the session also gets times of arrival rounded down to that many microseconds. Fails unless by the medians the session reaches 95 % of
the largest bitrate within 10 s without losses, and in the second half 80 % of what the other receiver has with losses.

If other programs keep the cores busy, packets and frames are late, and both bitrates fall: run it by `chrt -r 1`, which gives all
that it starts real-time priority.
"""

import argparse
import contextlib
import heapq
import itertools
import json
import os
import pathlib
import re
import select
import shutil
import signal
import socket
import statistics
import subprocess
import sys
import tempfile
import threading
import time

from chromium_peer import ROOT, SWITCHES, browse, server_of
from peer_relay import LOOPBACK, Chances, Network, Relay, answer_to, is_stun, sections_of

# A description of a browser that is not to be sent further: its addresses.
CANDIDATE = re.compile(r"a=(candidate:.*|end-of-candidates)\r\n")


class DirectRelay(threading.Thread):
    """Two ports between two peer connections: what comes to one goes out of the other, late and with losses."""

    def __init__(self, network):
        super().__init__(daemon=True)
        self.network, self.running, self.addresses = network, True, [None, None]
        self.ports = [socket.socket(socket.AF_INET, socket.SOCK_DGRAM) for _ in range(2)]
        for port in self.ports:
            port.bind((LOOPBACK, 0))
        self.chances = [Chances(network, network.seed), Chances(network, network.seed + 1)]
        self.pending, self.order = [], itertools.count()

    def description(self, side, text):
        """The description of a side for the other one, with the port of the relay, which learns the side's own."""
        port = re.search(rf"a=candidate:\S+ 1 udp \d+ {re.escape(LOOPBACK)} (\d+)", text)
        self.addresses[side] = (LOOPBACK, int(port[1]))
        mine = self.ports[1 - side].getsockname()[1]
        lines = f"a=candidate:1 1 udp 2130706431 {LOOPBACK} {mine} typ host\r\na=end-of-candidates\r\n"
        return re.sub(r"(a=ice-ufrag)", lambda it: lines + it[1], CANDIDATE.sub("", text))

    def run(self):
        while self.running:
            left = self.pending[0][0] - time.monotonic() if self.pending else 0.1
            for port in select.select(self.ports, [], [], min(max(left, 0), 0.1))[0]:
                side = self.ports.index(port)
                data, self.addresses[side] = port.recvfrom(2048)
                self.pass_on(side, data)
            while self.pending and self.pending[0][0] <= time.monotonic():
                _, _, to, data = heapq.heappop(self.pending)
                self.ports[to].sendto(data, self.addresses[to])

    def pass_on(self, side, data):
        """What peer_relay.Relay does to datagrams; those of ICE pass at once."""
        if is_stun(data):
            self.ports[1 - side].sendto(data, self.addresses[1 - side])
            return
        arrival = self.chances[side].arrival(time.monotonic())
        if arrival is not None:
            heapq.heappush(self.pending, (arrival, next(self.order), 1 - side, data))

    def stop(self):
        self.running = False
        if self.is_alive():
            self.join()
        for port in self.ports:
            port.close()


class Call:
    """A call of a page: to the session, or with `direct` to a second connection of the page."""

    def __init__(self, network, program=None, words=(), folder=None):
        self.program, self.words, self.folder = program, words, folder
        self.rates, self.frames, self.failure, self.process = [], {}, None, None
        self.video_type, self.decodable = None, 0  # the payload type of VP8, and how many of its units a decoder can show
        self.relay = DirectRelay(network) if program is None else Relay(network)
        self.ended = threading.Event()

    def post(self, path, text):
        if path == "/offer":
            return self.relay.description(0, text) if self.program is None else self.answer(text)
        if path == "/answer":
            answer = self.relay.description(1, text)
            self.relay.start()
            return answer
        if path == "/frames":
            self.frames = json.loads(text)
            return ""
        self.rates, self.failure = (json.loads(text), None) if path == "/rates" else ([], text)
        self.ended.set()
        return ""

    def answer(self, offer):
        """Starts the program and the relay, and returns the answer."""
        self.video_type = re.search(r"a=rtpmap:(\d+) VP8/90000", offer)[1]
        path = pathlib.Path(self.folder, "offer.sdp")
        path.write_text(offer, encoding="ascii")
        words = [self.program, path, f"{LOOPBACK}:{self.relay.inner_port}", *map(str, self.words)]
        self.process = subprocess.Popen(words, stdout=subprocess.PIPE, text=True)
        self.relay.program = int(self.process.stdout.readline().split()[1])
        self.reader = threading.Thread(target=self.read, daemon=True)
        self.reader.start()
        self.relay.start()
        return answer_to(offer, self.relay.port, self.relay.user, self.relay.password, len(sections_of(offer)[1]))

    def read(self):
        """Counts the units of the program: `unit SSRC PAYLOAD_TYPE TIME DECODABLE ..`."""
        for line in self.process.stdout:
            kind, _, *fields = line.split(maxsplit=5)
            if kind == "unit":
                self.decodable += (fields[0], fields[2]) == (self.video_type, "1")

    def finish(self):
        self.relay.stop()
        if self.process:
            with contextlib.suppress(subprocess.TimeoutExpired):
                self.process.wait(5)
            self.process.kill()
            self.process.wait()
            self.reader.join()


def rates_of(call, seconds):
    """The bitrate of each second."""
    server = server_of(call)
    threading.Thread(target=server.serve_forever, daemon=True).start()
    query = f"seconds={seconds}" + ("&direct=1" if call.program is None else "")
    try:
        browse(call, f"http://{LOOPBACK}:{server.server_address[1]}/chromium_rates.html?{query}")
    finally:
        server.shutdown()
        server.server_close()
        call.finish()
    if call.failure:
        raise SystemExit(f"chromium_rates: {call.failure}")
    return call.rates


def figures_of(rates):
    """After 5 s, after 10 s, and in the second half."""
    return [round(statistics.mean(part)) for part in (rates[2:5], rates[7:10], rates[len(rates) // 2 :])]


def row(name, figures):
    return f"| {name} | " + " | ".join(", ".join(map(str, each)) for each in figures) + " |"


def faults_of(loss, names, medians):
    """What is slower than it should be."""
    largest, (*sessions, other) = max(map(max, medians)), medians
    for name, each in zip(names, sessions):
        place, wanted = (1, 0.95 * largest) if loss == 0 else (2, 0.8 * other[2])
        if each[place] < wanted:
            yield f"{name} at {loss:g} %: {each[place]} and not {wanted:.0f} kbit/s"


def built(folder):
    target = os.environ.get("CARGO_TARGET_DIR", f"{folder}/target")
    subprocess.run(["cargo", "build", "--offline", "--quiet", "--release", "--example", "port_peer"], cwd=ROOT / "rust",
                   env={**os.environ, "CARGO_TARGET_DIR": target}, check=True)
    return f"{target}/release/examples/port_peer"


def main(words):
    parser = argparse.ArgumentParser(description=__doc__.splitlines()[0])
    parser.add_argument("--losses", default="0,2,5", help="percent, each way")
    parser.add_argument("--round-trip", type=float, default=80, help="milliseconds; 80 by default")
    parser.add_argument("--jitter", type=float, default=5, help="milliseconds; 5 by default")
    parser.add_argument("--seconds", type=int, default=20)
    parser.add_argument("--seed", type=int, default=1)
    parser.add_argument("--runs", type=int, default=5)
    parser.add_argument("--intervals", default="100", help="milliseconds between two feedbacks; 100, as by default in the settings")
    parser.add_argument("--grains", default="1", help="microseconds to which times of arrival are rounded; 1 by default")
    parser.add_argument("--clean", type=float, default=0, help="seconds without losses at the start; 0 by default")
    settings = parser.parse_args(words)
    if not shutil.which("chromium"):
        print("chromium_rates: skipped, there is no chromium")
        return 0
    signal.signal(signal.SIGTERM, lambda *_: sys.exit("terminated"))
    ways = list(itertools.product(*([int(word) for word in words.split(",")] for words in (settings.intervals, settings.grains))))
    names = [f"session, {interval} ms" + (f", to {grain} us" if grain > 1 else "") for interval, grain in ways]
    head = f"| loss | {' | '.join(names)} | Chromium to Chromium |\n|---{'|---' * len(names)}|---|"
    print(head, flush=True)
    faults, rows = [], []
    with tempfile.TemporaryDirectory() as folder:
        program = built(folder)
        for loss in map(float, settings.losses.split(",")):
            runs = []
            for run in range(settings.runs):
                network = Network(loss, settings.round_trip / 2, settings.jitter, settings.seed + 2 * run, settings.clean)
                calls = [Call(network, program, way, folder) for way in ways] + [Call(network)]
                order = -1 if run % 2 else 1
                runs.append([figures_of(rates_of(call, settings.seconds)) for call in calls[::order]][::order])
                print(row(f"{loss:g} %", runs[-1]), flush=True)
            medians = [[round(statistics.median(each)) for each in zip(*figures)] for figures in zip(*runs)]
            rows.append(row(f"{loss:g} %", medians))
            faults += faults_of(loss, names, medians)
    print("\n".join([f"medians of {settings.runs} runs:", head, *rows, *faults, f"chromium_rates: {len(faults)} faults"]))
    return 1 if faults else 0


if __name__ == "__main__":
    sys.exit(main(sys.argv[1:]))
