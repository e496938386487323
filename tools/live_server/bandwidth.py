#!/usr/bin/env python3
"""What viewers behind narrow links see, by Chromium on this machine: the table of README.md and docs/use/BANDWIDTH.md.

    ./bandwidth.py [ROW..]                    all rows of the table, as Markdown, or these rows
    ./bandwidth.py --before FOLDER [ROW..]    the same of the live_server that is built in this folder: another state of it
    ./bandwidth.py --seconds [ROW..]          each second of these rows, too
    ./bandwidth.py --codec VP9 [ROW..]        the same with two spatial layers of one stream of VP9
    ./bandwidth.py --two [RATE..]             two viewers on one link of these rates in kbit/s, by default 700, 1,000 and 2,000
    ./bandwidth.py --janus SIZE [ROW..]       the same of janus, with the small size (0) or the large one (1): it chooses none itself

A publisher sends two sizes, of VP8. Each viewer is behind a link of its own: a rate, or steps of 20 s each, with a queue that drops what
does not fit, 20 ms each way, and losses. The links are simulated by a relay (relay.py), so no right of root is needed. Server, browsers
and links have real-time priority, if this user may give it. Needs what test.py needs.
"""

import argparse
import contextlib
import os
import pathlib
import sys
import time

from browsers import Failed, wait_for
from janus import Janus
from relay import Link, Narrow, Side
from servers import Server, real_time

STEPS = (3000, 300, 1000, 3000)
# Name: rates in kbit/s, the queue in ms, the loss in percent.
ROWS = {f"{rate}-{queue}": ((rate,), queue, 0) for rate in (300, 500, 1000, 2000) for queue in (50, 300, 1000)}
ROWS |= {f"{rate}-300-5": ((rate,), 300, 5) for rate in (300, 500, 1000, 2000)}
ROWS |= {f"steps-{queue}": (STEPS, queue, 0) for queue in (50, 300, 1000)} | {"steps-300-5": (STEPS, 300, 5)}
ALONE, STEP = 40, 20  # seconds of a row with one rate, and of a step
SETTLES, LATEST = 5, 2  # seconds until freezes count, and after a change until the choice does
FREEZE = 250  # ms
# What a server that says nothing about choices could send, in bit/s: a quarter, half and all of the frames of the small size, half and all of
# those of the large one. So much they take in the runs of the others.
TYPICAL = (130_000, 180_000, 277_000, 345_000, 635_000, 950_000)

# The times of the frames that a page shows, with their widths: a track delivers each of them.
FRAMES = """(() => {
  const times = window.frameTimes = [];
  window.readFrames = async (track) => {
    if (track.kind !== "video") return;
    const reader = new MediaStreamTrackProcessor({ track }).readable.getReader();
    for (let next; !(next = await reader.read()).done; next.value.close()) times.push([performance.timeOrigin + performance.now(), next.value.displayWidth]);
  };
  const add = RTCPeerConnection.prototype.addTransceiver;
  RTCPeerConnection.prototype.addTransceiver = function (...all) {
    if (!this.watched) this.addEventListener("track", ({ track }) => window.readFrames(track));
    this.watched = true;
    return add.apply(this, all);
  };
})();"""


class Viewer:
    """A viewer behind a link."""

    def __init__(self, it, name, row, step, link=None):
        self.name, (self.rates, queue, loss), self.step = name, row, step
        self.it, self.seconds = it, step * len(self.rates) if len(self.rates) > 1 else ALONE
        steps = [(self.seconds / len(self.rates), 1000 * rate) for rate in self.rates]
        self.link, self.seen = Narrow(steps, queue / 1000, loss, seed=len(name) + queue, link=link), []
        self.open()

    def open(self):
        """Watches from live_server."""
        known = {each["number"] for each in self.it.stats()["viewers"]}
        self.page = self.it.page("watch", script=self.link.to_server(self.it.udp) + FRAMES)
        self.number = wait_for("viewer", lambda: next((each["number"] for each in self.it.stats()["viewers"] if each["number"] not in known), None))

    def look(self, stats):
        """Notes what the server says about the viewer now."""
        mine = next((each for each in stats["viewers"] if each["number"] == self.number), None)
        video = mine and next((each for each in mine["streams"] if each["kind"] == "video"), None)
        if video:
            self.seen.append((time.monotonic(), mine | {"video": video}))

    def fits(self, at, rates):
        """The place of the best choice that the link carries with a tenth to spare. -1: the link has just changed."""
        passed = at - self.link.began
        if passed < SETTLES or any(0 <= passed - self.step * i < LATEST for i in range(len(self.rates)) if len(self.rates) > 1):
            return -1
        kept = self.link.kept * self.link.rate(at) / 1.1
        return max((place for place, rate in enumerate(rates[:-1]) if rate <= kept), default=0)

    def figures(self):
        began = self.link.began
        times = [(at / 1000 - self.offset, width) for at, width in self.page.evaluate("window.frameTimes")]
        inside = [at for at, _ in times if began + SETTLES <= at <= began + self.seconds]
        gaps = [1000 * (late - early) for early, late in zip(inside, inside[1:])] + ([1000 * (began + self.seconds - inside[-1])] if inside else [1000 * self.seconds])
        noted = [each for each in self.link.noted if began <= each[0] <= began + self.seconds]
        waits = sorted(1000 * wait for _, wait, _ in noted if wait is not None)
        carried = sum(size for _, wait, size in noted if wait is not None) * 8
        could = sum(1000 * rate * self.seconds / len(self.rates) for rate in self.rates)
        counted = [(self.fits(at, each.get("rates") or TYPICAL), each) for at, each in self.seen if at < began + self.seconds]
        at_best = [each.get("choice", 4 if each["video"]["layer"] == "full" else 2) >= best for best, each in counted if best >= 0]
        latest = self.seen[-1][1]["video"] if self.seen else {"resent": "", "switches": ""}
        return {
            "frames": sum(began <= at <= began + self.seconds for at, _ in times), "freezes": sum(gap > FREEZE for gap in gaps), "longest": max(gaps, default=0),
            "queue": [waits[int(len(waits) * part / 100)] if waits else 0 for part in (95, 99)], "used": 100 * carried / could,
            "best": 100 * sum(at_best) / len(at_best) if at_best else None, "dropped": sum(wait is None for _, wait, _ in noted),
            "resent": latest["resent"], "switches": latest["switches"], "times": times, "gaps": [(late - began, 1000 * (late - early)) for early, late in zip(inside, inside[1:]) if 1000 * (late - early) > FREEZE]}

    def each_second(self, figures):
        """What happened in each second."""
        times = figures["times"]
        for second in range(int(self.seconds)):
            since = self.link.began + second
            mine = [each for at, each in self.seen if since <= at < since + 1]
            waits = [1000 * wait for at, wait, _ in self.link.noted if since <= at < since + 1 and wait is not None]
            lost = sum(wait is None for at, wait, _ in self.link.noted if since <= at < since + 1)
            widths = [width for at, width in times if since <= at < since + 1]
            each = mine[-1] if mine else {"video": {}}
            print(f"{self.name} {second:3d} s: link {self.link.rate(since) / 1000:.0f}, estimate {each.get('estimate', 0) / 1000:.0f}, choices {[one.get('choice') for one in mine]}, "
                  f"rates {[round(rate / 1000) for rate in each.get('rates', [])]}, queued {each.get('queued')}, layer {each['video'].get('layer')} T{each['video'].get('temporal')}, "
                  f"{len(widths)} frames of {max(widths, default=0)}, queue at most {max(waits, default=0):.0f} ms, {lost} dropped, padding {each.get('padding', 0)}, "
                  f"round trip {each.get('pathRoundTrip')}, stands {each.get('standing')} ms, lost usually {each.get('usualLosses')} of 1000, trial {each.get('trial', 0) / 1000:.0f}, requested {each['video'].get('requested')}, refused {each['video'].get('refused')}", flush=True)
        print(f"{self.name}: freezes at {[(round(at, 1), round(gap)) for at, gap in figures['gaps']]}", flush=True)


def row(name, it):
    rates, queue, loss = ROWS[name]
    best = "" if it["best"] is None else f"{it['best']:.0f}"
    return (f"| {', '.join(map(str, rates))} | {queue} | {loss} | {it['frames']} | {it['freezes']} ({it['longest']:.0f}) | {it['queue'][0]:.0f} | {it['queue'][1]:.0f} | "
            f"{it['used']:.0f} | {best} | {it['switches']} | {it['resent']} | {it['dropped']} |")


HEADS = ("link, kbit/s", "queue, ms", "lost, %", "frames shown", "freezes (longest, ms)", "queue 95 %, ms", "99 %, ms", "link used, %", "best choice, %", "switches", "resent", "dropped")


def watched(it, viewers):
    """Waits for the end of all links, and returns what each viewer saw."""
    for viewer in viewers:
        with contextlib.suppress(Failed):
            wait_for("picture", lambda viewer=viewer: viewer.page.evaluate("window.frameTimes.length"), 10)
        viewer.offset = viewer.page.evaluate("performance.timeOrigin + performance.now()") / 1000 - time.monotonic()
    until = max(viewer.link.began + viewer.seconds for viewer in viewers)
    while time.monotonic() < until:
        stats = it.stats()
        for viewer in viewers:
            viewer.look(stats)
        time.sleep(0.1)
    found = {viewer.name: (viewer, viewer.figures()) for viewer in viewers}
    for viewer in viewers:
        viewer.link.stopped = True
    return found


SIZES = {"VP8": 2, "VP9": 1}  # the streams of a publisher with several sizes


def measure(rows, folder=None, step=STEP, codec="VP8"):
    """Viewers behind links, beside one another, and what they saw. A link: rates in kbit/s, each for `step` seconds, the queue in ms,
    the loss in percent. The publisher sends two sizes: in VP8 two streams, in VP9 two spatial layers of one."""
    program = pathlib.Path(folder) / "live_server" if folder else "live_server"
    with real_time(), Server(*(["--page", str(program.parent / "page.html")] if folder else []), program=program) as it:
        it.page(f"publish=camera&layers&codec={codec}")
        wait_for("all streams", lambda: sum(stream["frames"] > 200 for stream in it.streams()) == SIZES[codec], 60)
        return watched(it, [Viewer(it, name, each, step) for name, each in rows.items()])


TOGETHER = 60  # seconds of two viewers


def two(rate):
    """Two viewers on one link of this rate, with a queue of 300 ms, the second from 10 s later on: what each of them gets in kbit/s, from
    10 s after that on, frames a second, freezes, and the wait of 95 % of the packets in ms."""
    found, link = [], Link()
    with real_time(), Server() as it:
        it.page("publish=camera&layers")
        wait_for("all streams", lambda: sum(stream["frames"] > 200 for stream in it.streams()) == 2, 60)
        viewers = [Viewer(it, "first", ((rate,), 300, 0), TOGETHER, link)]
        wait_for("picture", lambda: viewers[0].page.evaluate("window.frameTimes.length"), 10)
        time.sleep(10)
        viewers.append(Viewer(it, "second", ((rate,), 300, 0), TOGETHER, link))
        wait_for("picture", lambda: viewers[1].page.evaluate("window.frameTimes.length"), 10)
        begin = time.monotonic() + 10
        time.sleep(10 + TOGETHER)
        for viewer in viewers:
            offset = viewer.page.evaluate("performance.timeOrigin + performance.now()") / 1000 - time.monotonic()
            times = [at / 1000 - offset for at, _ in viewer.page.evaluate("window.frameTimes") if at / 1000 - offset >= begin]
            noted = [(wait, size) for at, wait, size in viewer.link.noted if begin <= at < begin + TOGETHER and wait is not None]
            waits = sorted(1000 * wait for wait, _ in noted)
            found.append((sum(size for _, size in noted) * 8 / 1000 / TOGETHER, len(times) / TOGETHER,
                          sum(1000 * (late - early) > FREEZE for early, late in zip(times, times[1:])), waits[int(0.95 * len(waits))]))
            viewer.link.stopped = True
    return found


def print_two(rates):
    print("| link, kbit/s | kbit/s of the first | of the second | ratio | frames a second | freezes | queue 95 %, ms |\n|---|---|---|---|---|---|---|")
    for rate in rates:
        first, second = two(rate)
        ratio = max(first[0], second[0]) / min(first[0], second[0])
        print(f"| {rate} | {first[0]:.0f} | {second[0]:.0f} | {ratio:.1f} | {first[1]:.0f}, {second[1]:.0f} | {first[2]}, {second[2]} | {max(first[3], second[3]):.0f} |", flush=True)


class Subscriber(Viewer):
    """A viewer of janus. Its page comes from live_server, for its origin."""

    def open(self):
        self.page = Side(self.it.browser(), f"http://127.0.0.1:{self.it.http}/?quiet", FRAMES)
        wait_for("page", lambda: self.page.evaluate("typeof window.readFrames") == "function")
        self.janus.watch(self.page, self.link, self.size)


def measure_janus(rows, size):
    """The same of janus."""
    with real_time(), Server() as it, Janus() as janus:
        publisher = Side(it.browser(), f"http://127.0.0.1:{it.http}/?quiet")
        wait_for("page", lambda: publisher.evaluate("typeof window.report") == "function")
        janus.publish(publisher)
        time.sleep(10)  # until the bitrate has risen
        Subscriber.janus, Subscriber.size = janus, size
        return watched(it, [Subscriber(it, name, each, STEP) for name, each in rows.items()])


def main():
    reader = argparse.ArgumentParser(description=__doc__, formatter_class=argparse.RawDescriptionHelpFormatter)
    reader.add_argument("rows", nargs="*", default=[])
    reader.add_argument("--two", action="store_true")
    reader.add_argument("--before", metavar="FOLDER")
    reader.add_argument("--janus", metavar="SIZE", type=int, choices=(0, 1))
    reader.add_argument("--seconds", action="store_true")
    reader.add_argument("--codec", choices=list(SIZES), default="VP8")
    reader.add_argument("--beside", type=int, default=4, help="viewers that are measured beside one another (4)")
    arguments = reader.parse_args()
    if arguments.two:
        print_two([int(rate) for rate in arguments.rows] or (700, 1000, 2000))
        return 0
    names = arguments.rows or list(ROWS)
    if unknown := [name for name in names if name not in ROWS]:
        reader.error(f"no such row: {', '.join(unknown)}; the rows are {', '.join(ROWS)}")
    print(f"| {' | '.join(HEADS)} |\n{'|---' * len(HEADS)}|")
    for at in range(0, len(names), arguments.beside):
        busy = os.getloadavg()[0]
        rows = {name: ROWS[name] for name in names[at:at + arguments.beside]}
        found = measure(rows, arguments.before, codec=arguments.codec) if arguments.janus is None else measure_janus(rows, arguments.janus)
        for name, (viewer, figures) in found.items():
            print(row(name, figures), flush=True)
            if arguments.seconds:
                viewer.each_second(figures)
        print(f"load {busy:.1f} to {os.getloadavg()[0]:.1f}", file=sys.stderr, flush=True)
    return 0


if __name__ == "__main__":
    sys.exit(main())
