#!/usr/bin/env python3
"""Chromium sends to the library over a network that loses packets, and the released units are compared with its encoder's frames.

    tools/chromium/chromium_peer.py                  all calls; the last line counts them
    tools/chromium/chromium_peer.py vp9 restart      these calls
    tools/chromium/chromium_peer.py --loss 20 --round-trip 150 --seconds 20 vp8

For each call a headless Chromium without encryption sends its fake camera and microphone (tools/chromium/chromium_peer.html) to
rust/examples/port_peer.rs on 127.0.0.1. tools/chromium/peer_relay.py is the network between them, and answers for ICE. The program
requests missing packets and keyframes, which Chromium answers. A call fails unless

- each released unit is the encoder's frame of its SSRC and RTP time, byte for byte; of AV1 without temporal delimiters, and each
  OBU with its size;
- no frame is released twice, and the frames of each stream are in the encoder's order;
- `keyframe` is what the encoder says, and a unit is only `decodable` if all frames to which the encoder refers are;
- at least 99 % of the frames whose packets arrived in time, at first or again, are released; and 99 % of the frames that follow a
  keyframe without a gap are decodable. A frame of VP8 above the base layer counts only if the frame before it is released: else the
  buffer skips it. The calls `temporal` and `simulcast` have such frames: Chromium gives each size of a simulcast three layers;
- in the calls that end in `-layers`, 99 % of the released frames all of whose references were decodable are decodable, also after a
  gap. They are by the dependency descriptor, which the answer accepts, or in `vp9-plain-layers` by the P_DIFFs of VP9 without it;
- at least half of the lost packets of video arrive again, and a keyframe is requested if a gap stays; in the call `fec`, whose
  video has forward error correction (ULPFEC), some packets are rebuilt instead, and a row says how many;
- Chromium reads the receiver reports: it has the relay's round trip, and no more losses than the relay made.

A busy machine can drop datagrams at a full socket of the relay or of the program. Then the relay does not know what arrived: such a
call is not judged by its shares, and a line says so.

It prints a row for each sender. Needs Chromium of a distribution (Chrome's stable builds encrypt always) and cargo, and no
network. The seed fixes the relay's chances; Chromium's times differ from run to run.
"""

import argparse
import collections
import contextlib
import dataclasses
import http.server
import json
import math
import os
import pathlib
import re
import shutil
import signal
import subprocess
import sys
import tempfile
import threading
import time

from peer_relay import Network, Relay, Restart, answer_to, sections_of

ROOT = pathlib.Path(__file__).resolve().parent.parent.parent
sys.path += [str(ROOT / "tools/rtp_record/live"), str(ROOT / "tools/rtp_record/tests")]

from chromium import without_delimiters  # noqa: E402  (the folders are known only now)
from recorded import offsets_of, primary_of  # noqa: E402

SWITCHES = [
    "--headless=new", "--no-sandbox", "--disable-gpu", "--no-first-run", "--disable-webrtc-encryption",
    "--autoplay-policy=no-user-gesture-required", "--disable-features=WebRtcHideLocalIpsWithMdns",
    "--allow-loopback-in-peer-connection", "--use-fake-device-for-media-stream", "--use-fake-ui-for-media-stream",
]
# The query of the page for each call.
CALLS = {
    "vp8": "video=VP8,rtx&audio=opus",
    "vp9": "video=VP9,rtx&audio=red,opus",
    "av1": "video=AV1,rtx&audio=red,opus",
    "change": "video=VP8,VP9,rtx&then=VP9",
    "fec": "video=VP8,rtx,red,ulpfec",
    "second": "video=VP8,rtx&second=1",
    "restart": "video=VP8,rtx",
    "swap": "video=VP8,rtx",
    "layers": "video=VP9,rtx&layers=L2T2",
    "temporal": "video=VP8,rtx&layers=L1T3",
    "simulcast": "video=VP8&simulcast=1&width=640",
    "vp9-layers": "video=VP9,rtx&layers=L1T3",
    "vp9-spatial-layers": "video=VP9,rtx&layers=L3T3_KEY&width=640",
    "av1-layers": "video=AV1,rtx&layers=L1T3",
    "vp9-plain-layers": "video=VP9,rtx&layers=L1T3",
}
# The calls whose offers must have the dependency descriptor (AV1 RTP specification, appendix A), and the one that refuses it.
DESCRIBED = {"vp9-layers", "vp9-spatial-layers", "av1-layers"}
PLAIN = "vp9-plain-layers"
DESCRIPTOR = re.compile(r"(?m)^a=extmap:\d+ https://aomediacodec\.github\.io/av1-rtp-spec/#dependency-descriptor.*\r?\n")
# What the relay changes in the middle of a call.
RESTARTS = {"restart": {"numbers": 20_000, "times": 1_000_000_000}, "swap": {"ssrc_change": 0x10}}
TIME_LIMIT = 60
SHARE_WANTED = 0.99
AGAIN_WANTED = 0.5
# How long a complete frame waits for missing packets at least (rust/examples/port_peer.rs), less what a busy machine takes.
VIDEO_WAIT, AUDIO_WAIT = 0.18, 0.08


@dataclasses.dataclass
class Frame:
    """A frame as the encoder gave it to the packetizer."""

    ssrc: int
    payload_type: int
    time: int
    kind: str
    ids: set  # of its layers, if the encoder gives them
    references: set  # to frames before it
    data: bytes


@dataclasses.dataclass
class Unit:
    """A unit that the library released."""

    ssrc: int
    payload_type: int
    time: int
    decodable: bool
    keyframe: bool
    data: bytes
    at: int  # when it was released, in ms


# ---- the call ----


class Call:
    """A call: what the page posts, and the program and the relay that its offer starts."""

    def __init__(self, name, settings, program, folder):
        self.name, self.settings, self.program, self.folder = name, settings, program, folder
        self.frames, self.lines, self.statistics = [], [], []
        self.offer = self.relay = self.process = self.reader = self.failure = None
        self.dropped = 0  # datagrams at full sockets
        self.ended = threading.Event()

    def post(self, path, text):
        """Takes a post of the page, and returns the answer."""
        if path == "/offer":
            return self.answer(text)
        if path == "/frames":
            self.frames += [frame_of(line) for line in text.splitlines()]
        elif path == "/end":
            self.statistics = json.loads(text)
            self.ended.set()
        elif path == "/failed":
            self.failure = text
            self.ended.set()
        return ""

    def answer(self, offer):
        if self.name == PLAIN:
            offer = DESCRIPTOR.sub("", offer)
        if self.offer is None:
            self.offer = offer
            self.start()
        relay = self.relay
        return answer_to(offer, relay.port, relay.user, relay.password, len(sections_of(self.offer)[1]))

    def start(self):
        """Starts the program and the relay. The program also knows the SSRCs that the relay will change to."""
        self.relay = Relay(self.settings.network)
        pairs = [tuple(map(int, pair)) for pair in re.findall(r"a=ssrc-group:FID (\d+) (\d+)", self.offer)]
        self.relay.journal.retransmissions = {resent: ssrc for ssrc, resent in pairs}
        known = self.offer
        if change := RESTARTS.get(self.name):
            self.relay.restart = Restart(*pairs[0], time.monotonic() + self.settings.seconds / 2, **change)
            other = [ssrc ^ self.relay.restart.ssrc_change for ssrc in pairs[0]]
            known += "a=ssrc-group:FID {} {}\r\n".format(*other) if other != list(pairs[0]) else ""
        path = pathlib.Path(self.folder, f"{self.name}.sdp")
        path.write_text(known, encoding="ascii")
        words = [self.program, path, f"127.0.0.1:{self.relay.inner_port}"]
        self.process = subprocess.Popen(words, stdout=subprocess.PIPE, text=True)
        self.relay.program = int(self.process.stdout.readline().split()[1])
        self.reader = threading.Thread(target=lambda: self.lines.extend(self.process.stdout), daemon=True)
        self.reader.start()
        self.relay.start()

    def finish(self):
        """Ends the program and the relay."""
        if self.relay:
            self.dropped = dropped_at({self.relay.port, self.relay.inner_port, self.relay.program})
            self.relay.stop()
        if self.reader is None:
            self.failure = self.failure or "the program does not start"
            return
        with contextlib.suppress(subprocess.TimeoutExpired):
            self.process.wait(5)
        self.process.kill()
        self.reader.join(5)
        if self.process.wait() and not self.failure:
            self.failure = f"port_peer: status {self.process.returncode}"


def dropped_at(ports):
    """How many datagrams the system has dropped at the full sockets of these ports. Linux alone says it."""
    with contextlib.suppress(FileNotFoundError):
        rows = [line.split() for line in pathlib.Path("/proc/net/udp").read_text(encoding="ascii").splitlines()[1:]]
        return sum(int(row[-1]) for row in rows if int(row[1].split(":")[1], 16) in ports)
    return 0


def frame_of(line):
    """A line of the page."""
    ssrc, payload_type, at, kind, own, references, data = line.split(" ")
    ids, references = ({int(word) for word in words.split(",") if word != "-"} for words in (own, references))
    return Frame(int(ssrc), int(payload_type), int(at), kind, ids, references, bytes.fromhex(data))


def unit_of(line):
    """A line of the program."""
    _, ssrc, payload_type, time, decodable, keyframe, data, at = line.rstrip("\n").split(" ")
    return Unit(int(ssrc), int(payload_type), int(time), decodable == "1", keyframe == "1", bytes.fromhex(data), int(at))


class Server(http.server.ThreadingHTTPServer):
    """A server whose browser may leave at any time."""

    def handle_error(self, request, client_address):
        if not isinstance(sys.exception(), ConnectionError):
            super().handle_error(request, client_address)


def server_of(call):
    class Handler(http.server.SimpleHTTPRequestHandler):
        protocol_version = "HTTP/1.1"

        def __init__(self, *words):
            super().__init__(*words, directory=ROOT / "tools/chromium")

        def do_POST(self):
            text = self.rfile.read(int(self.headers["Content-Length"])).decode()
            answer = call.post(self.path, text).encode()
            self.send_response(200)
            self.send_header("Content-Length", str(len(answer)))
            self.end_headers()
            self.wfile.write(answer)

        def log_message(self, *_):
            pass

    return Server(("127.0.0.1", 0), Handler)


def browse(call, address):
    """Opens the page, and waits for its end."""
    with tempfile.TemporaryDirectory(ignore_cleanup_errors=True) as profile:
        browser = subprocess.Popen(
            ["nice", "-n", "10", "chromium", *SWITCHES, f"--user-data-dir={profile}", address],
            stdout=subprocess.DEVNULL, stderr=subprocess.DEVNULL, start_new_session=True)
        try:
            if not call.ended.wait(TIME_LIMIT):
                call.failure = "the page does not end"
        finally:
            os.killpg(browser.pid, signal.SIGTERM)
            browser.wait()


def made(name, page_query, settings, program, folder):
    """A call that has ended."""
    call = Call(name, settings, program, folder)
    server = server_of(call)
    threading.Thread(target=server.serve_forever, daemon=True).start()
    query = f"{page_query}&seconds={settings.seconds}"
    try:
        browse(call, f"http://127.0.0.1:{server.server_address[1]}/chromium_peer.html?{query}")
    finally:
        server.shutdown()
        server.server_close()
        call.finish()
    return call


# ---- the comparison ----


def vp8_layer(payload):
    """The temporal layer in a payload of VP8 (RFC 7741, section 4.2), or 0."""
    if not payload[0] & 0x80 or not payload[1] & 0x20:
        return 0
    picture_id = (1 + (payload[2] >> 7)) if payload[1] & 0x80 else 0
    return payload[2 + picture_id + (payload[1] >> 6 & 1)] >> 6


@dataclasses.dataclass
class Row:
    """The figures of one sender of a call."""

    call: str
    codec: str
    counts: collections.Counter


def joined(frames):
    """The pictures: frames of one RTP time are the spatial layers of one. It is a keyframe if its first layer is."""
    pictures = {}
    for frame in frames:
        first = pictures.setdefault((frame.ssrc, frame.time), dataclasses.replace(frame, ids=set(), references=set(), data=b""))
        first.data += frame.data
        first.ids |= frame.ids
        first.references |= frame.references
    return list(pictures.values())


class Comparison:
    """The units of a call beside its frames."""

    def __init__(self, call):
        self.call, self.faults, self.remarks, self.frames = call, [], [], joined(call.frames)
        self.codecs = {int(number): codec.lower() for number, codec in re.findall(r"a=rtpmap:(\d+) ([^/]+)/", call.offer or "")}
        self.units = [unit_of(line) for line in call.lines if line.startswith("unit ")]
        self.by_frame = {self.sent_as(unit): unit for unit in self.units}
        self.packets = collections.defaultdict(list)
        self.recovered = {}  # when RED repeated a frame
        for sent in call.relay.journal.packets.values() if call.relay else ():
            self.add(sent)

    def add(self, sent):
        """Keeps a packet with its frame, and notes which frames it repeats."""
        packet = sent.packet
        if not packet.payload or self.is_fec(packet):
            return
        self.packets[packet.ssrc, packet.timestamp].append(sent)
        if sent.arrived and self.codecs[packet.payload_type] == "red":
            for offset in offsets_of(packet.payload):
                self.recovered.setdefault((packet.ssrc, packet.timestamp - offset & 0xFFFFFFFF), sent.arrived)

    def is_fec(self, packet):
        """Whether it is error correction in RED."""
        return self.codecs[packet.payload_type] == "red" and self.codecs.get(packet.payload[0]) == "ulpfec"

    def fault(self, what):
        self.faults.append(f"{self.call.name}: {what}")

    def sent_as(self, unit):
        """The SSRC and the RTP time that the browser gave."""
        low, restart = unit.time & 0xFFFFFFFF, self.call.relay.restart
        return restart.unit_back(unit.ssrc, low) if restart else (unit.ssrc, low)

    def codec(self, frame):
        return self.codecs[frame.payload_type]

    def wanted(self, frame):
        """What a unit of the frame holds."""
        if self.codec(frame) == "red":
            return primary_of(frame.data)
        return without_delimiters(frame.data) if self.codec(frame) == "av1" else frame.data

    def complete_at(self, frame):
        """When all packets of the frame had come through, or RED that repeats it."""
        key = frame.ssrc, frame.time
        times = [sent.arrived or math.inf for sent in self.packets[key]]
        return min(max(times), self.recovered.get(key, math.inf))

    def arrivals(self, frames):
        """For each frame whether it was complete before a later frame of its sender had waited for long enough. Nothing waits for
        frames from before a restart."""
        wait = VIDEO_WAIT if frames[0].kind in ("key", "delta") else AUDIO_WAIT
        until, found = math.inf, []
        for frame in reversed(frames):
            complete = self.complete_at(frame)
            found.append(complete < until)
            until = min(until, complete + (0 if self.restarts(frame) else wait))
        return found[::-1]

    def restarts(self, frame):
        """Whether the relay lets the sender begin again with this frame."""
        restart = self.call.relay.restart
        return restart is not None and restart.first_time == frame.time

    def is_above_base(self, frame):
        """Whether the frame is one of VP8 above the base layer."""
        return self.codec(frame) == "vp8" and vp8_layer(self.packets[frame.ssrc, frame.time][0].packet.payload) > 0

    def rows(self):
        """The figures of each sender that sent something. Faults are kept."""
        if self.call.failure or not self.units:
            self.fault(self.call.failure or "no unit is released")
            return
        if self.call.name in DESCRIBED and not DESCRIPTOR.search(self.call.offer):
            self.fault("the offer has no dependency descriptor")
        if self.call.dropped:
            self.remarks.append(f"{self.call.name}: not judged by shares, {self.call.dropped} datagrams were dropped at full sockets")
        self.check_units()
        self.check_counts()
        self.check_reports()
        senders = collections.defaultdict(list)
        for frame in self.frames:
            if (frame.ssrc, frame.time) in self.packets:
                senders[frame.ssrc, frame.payload_type].append(frame)
        for (ssrc, payload_type), frames in senders.items():
            row = Row(self.call.name, self.codecs[payload_type], self.figures(frames))
            self.note_delays(row, frames[0])
            journal = self.call.relay.journal
            in_red = [number for number, codec in self.codecs.items() if codec == "red" and self.call.name == "fec"]
            row.counts["requested"] = sum(journal.requests[ssrc, number] for number in [payload_type, *in_red])
            row.counts["keyframes requested"] = journal.keyframe_requests[ssrc, payload_type]
            if not self.call.dropped:
                self.check_shares(row)
            if self.call.name == "fec":
                self.check_fec()
            elif frames[0].kind in ("key", "delta"):
                self.check_requests(row)
            yield row

    def check_units(self):
        """Each unit is the encoder's frame, once and in order."""
        places = {(frame.ssrc, frame.time): place for place, frame in enumerate(self.frames)}
        latest = {}
        for unit in self.units:
            at = f"unit of SSRC {unit.ssrc} at {unit.time}"
            sent_as, stream = self.sent_as(unit), (unit.ssrc, unit.payload_type)
            if sent_as not in places:
                self.fault(f"{at}: the encoder made no such frame")
                continue
            frame = self.frames[places[sent_as]]
            if unit.data != self.wanted(frame):
                self.fault(f"{at}: {len(unit.data)} bytes differ from the encoder's {len(frame.data)}")
            if frame.kind in ("key", "delta") and unit.keyframe != (frame.kind == "key"):
                self.fault(f"{at}: keyframe is {unit.keyframe}, and the encoder says {frame.kind}")
            if latest.get(stream, -1) >= places[sent_as]:
                self.fault(f"{at}: released twice, or too late")
            latest[stream] = places[sent_as]
        if len(self.by_frame) < len(self.units):
            self.fault("a frame is released twice")

    def check_counts(self):
        """The program knows each datagram, and pops have no faults."""
        counts = dict(re.findall(r"(\w+): (\d+)", self.call.lines[-1]))
        for name in ("malformed", "unknown", "refused"):
            if counts.get(name) != "0":
                self.fault(f"{counts.get(name)} datagrams are counted as {name}")
        for line in self.call.lines:
            if line.startswith("fault"):
                self.fault(line.strip())

    def check_reports(self):
        """Chromium understands the receiver reports: it has the relay's round trip, and no more losses than the relay."""
        lost = collections.Counter(sent.packet.ssrc for sent in self.call.relay.journal.packets.values() if sent.lost)
        for report in self.call.statistics:
            if report["type"] != "remote-inbound-rtp":
                continue
            # A packet that another one overtakes is lost for some milliseconds.
            if report["packetsLost"] > lost[report["ssrc"]] + 2:
                self.fault(f"{report['packetsLost']} of {lost[report['ssrc']]} losses are reported")
            if report.get("roundTripTime", 1) < 2 * self.call.settings.network.delay / 1000:
                self.fault(f"a round trip of {report['roundTripTime']} s is reported")

    def figures(self, frames):
        """Counts of frames and packets of one sender. A chain of video begins with a keyframe, and ends at a frame that did not
        arrive, or where the sender began again."""
        counts, chained, shown, shown_ids, follows = collections.Counter(frames=len(frames)), False, False, set(), True
        for frame, arrived in zip(frames, self.arrivals(frames)):
            packets, unit = self.packets[frame.ssrc, frame.time], self.by_frame.get((frame.ssrc, frame.time))
            begins = frame.kind != "delta"
            goes_on = not self.restarts(frame)
            can_show = frame.references - frame.ids <= shown_ids if frame.ids else begins or shown
            shown = unit is not None and unit.decodable
            shown_ids |= frame.ids if shown else set()
            if shown and not can_show:
                self.fault(f"frame of SSRC {frame.ssrc} at {frame.time}: decodable, and a frame that it refers to is missing")
            chained = arrived and (begins or chained and goes_on)
            due = arrived and (follows or not self.is_above_base(frame))
            follows = unit is not None
            counts += collections.Counter({
                "packets": len(packets), "lost": sum(sent.lost for sent in packets), "arrived": arrived, "chained": chained,
                "again": sum(sent.lost and sent.arrived is not None for sent in packets),
                "released": unit is not None, "decodable": shown, "due": due, "due, released": due and unit is not None,
                "chained, decodable": chained and shown, "referring": unit is not None and can_show,
                "referring, decodable": can_show and shown})
        return counts

    def check_shares(self, row):
        parts = [("due", "due, released"), ("chained", "chained, decodable")]
        if self.call.name.endswith("-layers"):
            parts.append(("referring", "referring, decodable"))
        for of, part in parts:
            if row.counts[part] < SHARE_WANTED * row.counts[of]:
                self.fault(f"{row.codec}: {row.counts[part]} of {row.counts[of]} frames: {part}")

    def note_delays(self, row, first):
        """How much later than the fastest one the decodable units of video came, by their RTP times, and how often none came."""
        units = [unit for unit in self.units if unit.ssrc == first.ssrc and unit.decodable]
        if first.kind not in ("key", "delta") or len(units) < 2 or self.call.relay.restart:
            return
        late = [unit.at - unit.time / 90 for unit in units]
        pauses = [after.at - before.at for before, after in zip(units, units[1:]) if after.at - before.at > PAUSE]
        self.remarks.append(f"{self.call.name}: {row.codec}: {sum(late) / len(late) - min(late):.0f} ms of delay in the mean; "
                            f"{len(pauses)} pauses above {PAUSE} ms, {sum(pauses) / 1000:.1f} s in all")

    def check_fec(self):
        """Packets are rebuilt."""
        rebuilt = [int(it) for line in self.call.lines for it in re.findall(r"^fec .*rebuilt: (\d+)", line)]
        self.remarks.append(f"{self.call.name}: {sum(rebuilt)} packets are rebuilt")
        if not sum(rebuilt):
            self.fault("no packet is rebuilt")

    def check_requests(self, row):
        """Most lost packets of video are sent again, and gaps that stay end with a keyframe."""
        counts = row.counts
        if counts["again"] < AGAIN_WANTED * counts["lost"]:
            self.fault(f"{row.codec}: {counts['again']} of {counts['lost']} lost packets arrived again")
        # At the end of a stream a keyframe would come too late.
        if counts["decodable"] < 0.9 * counts["released"] and not counts["keyframes requested"]:
            shares = f"{counts['decodable']} of {counts['released']} units are decodable"
            self.fault(f"{row.codec}: {shares}, and no keyframe is requested")


# A longer time in ms without a decodable unit is a pause.
PAUSE = 150
# The columns of the table.
COLUMNS = ["frames", "packets", "lost", "requested", "again", "keyframes requested", "arrived", "released", "decodable"]


def printed(row):
    """A row of the table."""
    return f"| {row.call}: {row.codec} | " + " | ".join(str(row.counts[name]) for name in COLUMNS) + " |"


# ---- the command ----


def settings_of(words):
    parser = argparse.ArgumentParser(description=__doc__.splitlines()[0])
    parser.add_argument("calls", nargs="*", metavar="call", help=f"{', '.join(CALLS)}; all by default")
    parser.add_argument("--loss", type=float, default=5, help="percent, each way; 5 by default")
    parser.add_argument("--round-trip", type=float, default=80, help="milliseconds; 80 by default")
    parser.add_argument("--seconds", type=int, default=10, help="how long each call sends; 10 by default")
    parser.add_argument("--seed", type=int, default=1)
    settings = parser.parse_args(words)
    settings.network = Network(settings.loss, settings.round_trip / 2, seed=settings.seed)
    if unknown := set(settings.calls) - set(CALLS):
        parser.error(f"no such call: {', '.join(sorted(unknown))}")
    return settings


def built(folder):
    """The program."""
    target = os.environ.get("CARGO_TARGET_DIR", f"{folder}/target")
    subprocess.run(["cargo", "build", "--offline", "--quiet", "--example", "port_peer"], cwd=ROOT / "rust",
                   env={**os.environ, "CARGO_TARGET_DIR": target}, check=True)
    return f"{target}/debug/examples/port_peer"


def main(words):
    settings = settings_of(words)
    if not shutil.which("chromium"):
        print("chromium_peer: skipped, there is no chromium")
        return 0
    # The browser and the program end with this script.
    signal.signal(signal.SIGTERM, lambda *_: sys.exit("terminated"))
    faults, remarks, compared, names = [], [], 0, settings.calls or list(CALLS)
    print(f"| call: codec | {' | '.join(COLUMNS)} |\n{'|---' * (len(COLUMNS) + 1)}|")
    with tempfile.TemporaryDirectory() as folder:
        program = built(folder)
        for name in names:
            comparison = Comparison(made(name, CALLS[name], settings, program, folder))
            for row in comparison.rows():
                print(printed(row), flush=True)
            compared += len(comparison.units)
            faults += comparison.faults
            remarks += comparison.remarks
    print("\n".join([*remarks, *faults, f"chromium_peer: {len(names)} calls, {compared} units compared, {len(faults)} faults"]))
    return 1 if faults else 0


if __name__ == "__main__":
    sys.exit(main(sys.argv[1:]))
