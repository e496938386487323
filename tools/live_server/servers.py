"""A server of the tests of live_server, with the browsers that use it, and calls over it."""

import contextlib
import json
import os
import pathlib
import resource
import signal
import socket
import subprocess
import tempfile
import time
import urllib.error
import urllib.request

from browsers import Chromium, Failed, Page, require, wait_for
from relay import Relay

HERE = pathlib.Path(__file__).resolve().parent


def free_port(kind):
    """A port that nobody uses now."""
    with socket.socket(socket.AF_INET, kind) as it:
        it.bind(("127.0.0.1", 0))
        return it.getsockname()[1]


class Recording:
    """A file as ffmpeg reads it."""

    def __init__(self, path):
        run = subprocess.run(["ffmpeg", "-v", "warning", "-xerror", "-i", path, "-fps_mode", "vfr", "-f", "null", "-"], capture_output=True, text=True)
        probe = ["ffprobe", "-v", "error", "-count_frames", "-select_streams", "v", "-show_entries", "stream=nb_read_frames", "-of", "csv=p=0", path]
        frames = subprocess.run(probe, capture_output=True, text=True).stdout.strip()
        self.faults = run.stderr.strip() or ("" if run.returncode == 0 else f"status {run.returncode}")
        self.frames = int(frames) if frames.isdigit() else 0


class Server:
    """A server and its browsers, until the end of the block."""

    def __init__(self, *options, program="live_server", largest_file=None):
        self.options, self.program, self.largest_file = options, program, largest_file
        self.log, self.recordings, self.browsers = "", [], {}
        self.http, self.udp = free_port(socket.SOCK_STREAM), free_port(socket.SOCK_DGRAM)

    def __enter__(self):
        self.folder = tempfile.TemporaryDirectory(ignore_cleanup_errors=True)
        self.file = open(f"{self.folder.name}/server.log", "w+")
        self.run()
        return self

    def run(self):
        words = [HERE / self.program, "--http", str(self.http), "--udp", str(self.udp), "--folder", self.folder.name, "--page", HERE / "page.html", *self.options]
        limit = self.largest_file and (lambda: resource.setrlimit(resource.RLIMIT_FSIZE, (self.largest_file, self.largest_file)))
        begun = pathlib.Path(self.file.name).read_bytes().count(b"http://")
        self.process = subprocess.Popen(words, stdout=self.file, stderr=self.file, preexec_fn=limit)
        wait_for("server", lambda: self.process.poll() is not None or pathlib.Path(self.file.name).read_bytes().count(b"http://") > begun)

    def kill(self):
        """The server ends without a word, and can run again on its ports."""
        self.process.kill()
        self.process.wait()

    def browser(self, kind=Chromium):
        if kind not in self.browsers:
            self.browsers[kind] = kind(self.folder.name)
        return self.browsers[kind]

    def page(self, query, kind=Chromium, script=None):
        return Page(self.browser(kind), f"http://127.0.0.1:{self.http}/?{query}", script)

    def request(self, method, path, body="", headers=None):
        """The status, the body and the headers of a reply."""
        asked = urllib.request.Request(f"http://127.0.0.1:{self.http}{path}", body.encode() or None, headers or {}, method=method)
        try:
            with urllib.request.urlopen(asked, timeout=10) as reply:
                return reply.status, reply.read().decode(), reply.headers
        except urllib.error.HTTPError as fault:
            return fault.code, fault.read().decode(), fault.headers

    def stats(self):
        return json.loads(self.request("GET", "/stats")[1])

    def streams(self, side="publishers", kind="video"):
        return [stream for peer in self.stats()[side] for stream in peer["streams"] if stream["kind"] == kind]

    def network(self, loss=0, reorder=0, delay=0):
        require(self.request("PUT", "/network", f"loss={loss} reorder={reorder} delay={delay}")[0] == 200, "the network changes")

    def __exit__(self, *failure):
        for browser in self.browsers.values():
            browser.close()
        self.process.send_signal(signal.SIGTERM)
        status = self.process.wait(60)
        self.file.seek(0)
        self.log = self.file.read()
        self.file.close()
        if failure[0]:
            print(self.log[-3000:])
        else:
            self.recordings = [Recording(path) for path in sorted(pathlib.Path(self.folder.name).glob("*.webm"))]
            require(status == 0, f"the server ends with status {status}: {self.log[-500:]}")
            require("runtime error" not in self.log and "Sanitizer" not in self.log, self.log[-3000:])
        self.folder.cleanup()


@contextlib.contextmanager
def real_time():
    """Programs that are started here have real-time priority, if this user may give it: other work on the machine takes them no
    time then."""
    policy, parameter = os.sched_getscheduler(0), os.sched_getparam(0)
    with contextlib.suppress(PermissionError):
        os.sched_setscheduler(0, os.SCHED_RR, os.sched_param(1))
    try:
        yield
    finally:
        os.sched_setscheduler(0, policy, parameter)


# ---- calls ----


def publisher_of(it, query="publish=camera", kind=Chromium, script=None):
    before = len(it.streams())
    page = it.page(query, kind, script)
    wait_for("frame at the server", lambda: len(it.streams()) > before and all(stream["frames"] > 0 for stream in it.streams()))
    return page


def viewer_of(it, query="watch", kind=Chromium, script=None):
    page = it.page(query, kind, script)
    wait_for("picture", page.frames)
    return page


CAMERA = 20  # frames a second of Chromium's fake camera


def measured(sends, gets, seconds):
    """What a publisher sends and a viewer shows from now on: frames, freezes, and kbit/s of video that is sent, without what is sent
    again: for a loss, or to probe the network. `busy`: the machine let the publisher's browser send too few frames for the figures
    to say something about the network."""
    def now():
        sent, got = sends.statistic("publish"), gets.statistic("watch")
        size = sent.get("bytesSent", 0) - sent.get("retransmittedBytesSent", 0)
        return sent.get("timestamp", 0), sent.get("framesSent", 0), size, *(got.get(name, 0) for name in ("framesDecoded", "freezeCount", "totalFreezesDuration"))

    before = now()
    time.sleep(seconds)
    passed, sent, size, shown, freezes, frozen = (after - earlier for after, earlier in zip(now(), before))
    return {"sent": sent, "shown": shown, "freezes": freezes, "frozen": frozen, "rate": size * 8 / passed, "busy": sent < 0.9 * CAMERA * passed / 1000}


def call(codec, loss, seconds, *options, relay_loss=None, program="live_server"):
    """One call: its figures. The server loses packets, or with `relay_loss` a relay in front of it, for each of both browsers."""
    with Server("--loss", str(loss), *options, program=program) as it:
        through = [relay_loss is not None and Relay(relay_loss, seed=seed).to_server(it.udp) for seed in (1, 2)]
        sends = publisher_of(it, f"publish=camera&codec={codec}", script=through[0])
        gets = viewer_of(it, script=through[1])
        figures = measured(sends, gets, seconds)
        audio, first = gets.statistic("watch", "audio"), gets.report()["first"]
        video, sound, resent = it.streams()[0], it.streams(kind="audio")[0], it.streams("viewers")[0]["resent"]
        sends.close()
        time.sleep(0.5)
    figures |= {name: video[name] for name in ("packets", "lost", "requested", "recovered", "undecodable", "frames", "longestWait", "late", "duplicates", "probes")} | {
        "first": first, "resent": resent, "audio lost": sound["lost"], "audio recovered": sound["recovered"],
        "concealed": 100 * audio.get("concealedSamples", 0) / max(1, audio.get("totalSamplesReceived", 1)), "recorded": it.recordings[0].frames}
    require(it.recordings[0].faults == "", f"the recording: {it.recordings[0].faults}")
    require(abs(figures["recorded"] - video["frames"]) < 60, f"{figures['recorded']} of {video['frames']} frames are recorded")
    return figures


def idle(figures, tries=5):
    """The figures of the first call for which the machine had time, or None."""
    for _ in range(tries):
        with contextlib.suppress(Failed):
            found = figures()
            if not found["busy"]:
                return found
    return None
