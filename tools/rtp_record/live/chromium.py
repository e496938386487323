#!/usr/bin/env python3
"""Makes a capture of a call between two peer connections of Chromium, which sends without encryption here.

  live/chromium.py FOLDER NAME 'video=VP8&audio=opus&seconds=4'

FOLDER/NAME.pcap gets what the sender sent over loopback, NAME.sdp its offer, and NAME.video.md5 and NAME.audio.md5 the frames as
the encoder gave them to the packetizer, in the form of ffmpeg's framemd5 with two more columns, which mark keyframes and name the
codec; of AV1 without temporal delimiters and with a size in each OBU, as files have them. Needs Chromium and tcpdump, as root. Chromium of a
distribution takes --disable-webrtc-encryption, which Chrome's stable builds do not."""

import hashlib
import http.server
import os
import signal
import subprocess
import sys
import tempfile
import threading
import time

HERE = os.path.dirname(os.path.realpath(__file__))
SWITCHES = [
    "--headless=new", "--no-sandbox", "--disable-gpu", "--no-first-run", "--disable-webrtc-encryption",
    "--autoplay-policy=no-user-gesture-required", "--disable-features=WebRtcHideLocalIpsWithMdns",
    "--allow-loopback-in-peer-connection",
]
TEMPORAL_DELIMITER = 2


class Call:
    """The posts of the page: its frames by their medium, each with its place, and its offer."""

    def __init__(self):
        self.frames, self.sdp, self.failure, self.ended = {}, None, None, threading.Event()

    def take(self, path, body):
        words = path.strip("/").split("/")
        if words[0] == "frame":
            self.frames.setdefault(words[1], []).append((int(words[2]), words[3], words[4], words[5], body))
        elif words[0] == "sdp":
            self.sdp = body.decode()
        elif words[0] == "failed":
            self.failure = body.decode()
        if words[0] in ("end", "failed"):
            self.ended.set()


def server_of(call):
    class Handler(http.server.SimpleHTTPRequestHandler):
        def __init__(self, *words):
            super().__init__(*words, directory=HERE)

        def do_POST(self):
            call.take(self.path, self.rfile.read(int(self.headers.get("Content-Length", 0))))
            self.send_response(204)
            self.end_headers()

        def log_message(self, *_):
            pass

    return http.server.ThreadingHTTPServer(("127.0.0.1", 0), Handler)


def leb128(data, at):
    """A number of groups of seven bits (AV1, section 4.10.5), and where it ends."""
    value = shift = 0
    while True:
        value |= (data[at] & 0x7F) << shift
        shift, at = shift + 7, at + 1
        if not data[at - 1] & 0x80:
            return value, at


def as_leb128(value):
    groups = bytearray()
    while value > 0x7F:
        groups.append(value & 0x7F | 0x80)
        value >>= 7
    return bytes(groups) + bytes([value])


def without_delimiters(unit):
    """A temporal unit of AV1 (section 5.3) as files have it: each OBU with its size, and no temporal delimiter."""
    at, obus = 0, b""
    while at < len(unit):
        header = unit[at : at + (2 if unit[at] & 4 else 1)]
        start, size = at + len(header), len(unit) - at - len(header)
        if header[0] & 2:
            size, start = leb128(unit, start)
        if header[0] >> 3 & 15 != TEMPORAL_DELIMITER:
            obus += bytes([header[0] | 2]) + header[1:] + as_leb128(size) + unit[start : start + size]
        at = start + size
    return obus


def run_browser(port, wanted, call):
    with tempfile.TemporaryDirectory(ignore_cleanup_errors=True) as profile:
        browser = subprocess.Popen(
            ["chromium", *SWITCHES, f"--user-data-dir={profile}", f"http://localhost:{port}/chromium.html?{wanted}"],
            stdout=subprocess.DEVNULL, stderr=subprocess.DEVNULL, start_new_session=True)
        ended = call.ended.wait(60)
        os.killpg(browser.pid, signal.SIGTERM)
        browser.wait()
    if not ended or call.failure:
        sys.exit(call.failure or "the page does not end")


def joined(frames):
    """The pictures: consecutive frames with one RTP time are the spatial layers of one picture. A picture is a keyframe if its first
    layer is."""
    pictures = []
    for _, kind, codec, time, frame in sorted(frames):
        if pictures and pictures[-1][2] == time:
            pictures[-1][3] += frame
        else:
            pictures.append([kind, codec, time, frame])
    return pictures


def write_md5(path, frames):
    with open(path, "w", encoding="ascii") as file:
        for place, (kind, codec, _, frame) in enumerate(joined(frames)):
            md5 = hashlib.md5(frame).hexdigest()
            file.write(f"0, {place:10}, {place:10}, {1:8}, {len(frame):8}, {md5}, {kind}, {codec}\n")


def main():
    folder, name, wanted = sys.argv[1:]
    call = Call()
    server = server_of(call)
    threading.Thread(target=server.serve_forever, daemon=True).start()
    dump = subprocess.Popen(
        ["tcpdump", "-q", "-i", "lo", "-U", "-w", f"{folder}/{name}.pcap", "udp and not net 127.0.0.0/8"],
        stderr=subprocess.DEVNULL)
    time.sleep(1)
    try:
        run_browser(server.server_address[1], wanted, call)
    finally:
        time.sleep(1)
        dump.terminate()
        dump.wait()
        server.shutdown()
    with open(f"{folder}/{name}.sdp", "w", encoding="ascii") as file:
        file.write(call.sdp)
    for kind, frames in call.frames.items():
        if kind == "audio" and ("red" in wanted or "keys" in wanted):
            continue  # the page sees RED and not what is in it, and frames that keys take the place of
        if "video=AV1" in wanted and kind == "video":
            frames = [(place, key, codec, at, without_delimiters(frame)) for place, key, codec, at, frame in frames]
        write_md5(f"{folder}/{name}.{kind}.md5", frames)


if __name__ == "__main__":
    main()
