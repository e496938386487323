#!/usr/bin/env python3
"""A browser without a screen publishes to ./live_server and watches from it, over a network that the server makes worse.

    ./test.py [TEST..]           all tests, some ten minutes, or these; the last line counts them

A call fails unless its viewer shows nearly all frames that the publisher sent, its recording decodes without a word and has the
frames that the library released, and the server ends without a message of a sanitizer. Needs chromium, ffmpeg, ffprobe and Python's
standard library, and only this machine; Firefox is tested where it is installed. measure.py has the tables and the picture of the
documents, soak.py a call of an hour.
"""

import argparse
import contextlib
import hashlib
import hmac
import json
import os
import random
import re
import shutil
import signal
import socket
import struct
import subprocess
import sys
import tempfile
import threading
import time
import urllib.request

from bandwidth import measure
from browsers import Chromium, Failed, Firefox, Page, firefox, require, wait_for
from relay import Narrow
from servers import HERE, Server, call, free_port, publisher_of, real_time, viewer_of

sys.path.append(str(HERE.parent / "chromium"))

from peer_relay import STUN_COOKIE, attribute, with_length  # noqa: E402  (the folder is known only now)

CODECS, LOSSES = ("VP8", "VP9", "AV1"), (0, 2, 5, 10)


class Skipped(Exception):
    """What a test needs is not installed."""


def test_call(codec, loss):
    """Nearly all frames are shown; without loss nothing is requested."""
    figures = call(codec, loss, 8)
    require(figures["shown"] > (0.9 if loss < 10 else 0.75) * figures["sent"], figures)
    require(figures["sent"] > 60, figures)
    if loss == 0:
        require(figures["undecodable"] == figures["requested"] == figures["late"] == figures["duplicates"] == 0, figures)
    elif figures["lost"] > 20:
        require(figures["recovered"] > 0.8 * figures["lost"], figures)
    return f"{figures['shown']} of {figures['sent']} frames shown, {figures['freezes']} freezes, {figures['lost']} lost, {figures['recovered']} recovered"


def test_reordered():
    """Packets that others overtake, and a delay of 60 ms each way, cost no frame."""
    figures = call("VP8", 0, 8, "--reorder", "5", "--delay", "60")
    require(figures["shown"] > 0.9 * figures["sent"] and figures["undecodable"] == 0, figures)
    return f"{figures['shown']} of {figures['sent']} frames shown, longest wait {figures['longestWait']} ms"


def test_viewers(count=10, seconds=10):
    """Ten viewers of one publisher show nearly all frames each. The picture is small: a browser decodes all ten."""
    with Server("--loss", "2") as it:
        sends = publisher_of(it, "publish=camera&size=160&fps=10&quiet")
        watch = [viewer_of(it, "watch&quiet") for _ in range(count)]
        sent, before = sends.statistic("publish")["framesSent"], [page.frames() for page in watch]
        time.sleep(seconds)
        shown = [page.frames() - frames for page, frames in zip(watch, before)]
        sent, freezes = sends.statistic("publish")["framesSent"] - sent, [page.statistic("watch")["freezeCount"] for page in watch]
    figures = f"{min(shown)} to {max(shown)} of {sent} frames shown, at most {max(freezes)} freezes"
    require(min(shown) > 0.85 * sent, figures)
    return figures


# A page of the conference watches others beside what its buttons do, and says what it got of each: a time in ms, frames, freezes.
WATCH = """(async (names) => {
  window.others = {};
  for (const name of names) {
    const connection = window.others[name] = new RTCPeerConnection({ bundlePolicy: "max-bundle" });
    const video = Object.assign(document.createElement("video"), { autoplay: true, muted: true, playsInline: true });
    const stream = video.srcObject = new MediaStream();
    connection.ontrack = ({ track }) => stream.addTrack(track);
    for (const kind of ["audio", "video"]) connection.addTransceiver(kind, { direction: "recvonly" });
    document.querySelector(".videos").append(video);
    await negotiate(connection, `/whep/${name}`, true);
  }
})(NAMES)"""
WATCHED = """(async () => {
  const found = {};
  for (const name in window.others) {
    const all = [...(await window.others[name].getStats()).values()];
    const { timestamp = 0, framesDecoded = 0, freezeCount = 0 } = all.find(({ type, kind }) => type === "inbound-rtp" && kind === "video") ?? {};
    found[name] = [timestamp, framesDecoded, freezeCount];
  }
  return found;
})()"""


def test_conference(count=10, others=9, seconds=10):
    """A conference of ten: each page publishes under a name of its own, and watches all others, so there are 90 viewers. The pictures
    are small, 160 pixels wide with 10 frames a second, since one browser sends and shows them all. For ten seconds each page sends at
    least 9 frames a second, each viewer shows more than nine tenths of the frames a second that its publisher sends, and no picture
    freezes. Server and browser have real-time priority, if this user may give it."""
    with contextlib.ExitStack() as stack:
        with real_time():
            it = stack.enter_context(Server())
            it.browser()
        pages = [it.page(f"publish=camera&size=160&fps=10&quiet&name=n{i}") for i in range(count)]
        wait_for("frame of each page", lambda: len(it.streams()) == count and all(stream["frames"] > 0 for stream in it.streams()), 90)
        for i, page in enumerate(pages):
            page.evaluate(WATCH.replace("NAMES", json.dumps([f"n{(i + 1 + more) % count}" for more in range(others)])))
        wait_for("picture of each viewer", lambda: all(got[1] > 10 for page in pages for got in page.evaluate(WATCHED).values()), 90)
        time.sleep(5)  # until the bitrates of all have risen

        def now():
            sends = [page.statistic("publish") for page in pages]
            require(all(sends), "a page has lost its connection: the machine is too busy")
            return [(one["timestamp"], one["framesSent"]) for one in sends], [page.evaluate(WATCHED) for page in pages]

        before = now()
        time.sleep(seconds)
        after = now()
        peers = it.stats()
    sent = [rate(early, late) for early, late in zip(before[0], after[0])]
    got = [(sent[int(name[1:])], rate(early[name], late[name]), late[name][2] - early[name][2])
           for early, late in zip(before[1], after[1]) for name in early]
    shown, freezes = [one for _, one, _ in got], sum(one for _, _, one in got)
    figures = (f"{len(peers['publishers'])} publishers, each watched by {others} of the others: {min(sent):.1f} to {max(sent):.1f} frames a second "
               f"sent, {min(shown):.1f} to {max(shown):.1f} shown, {freezes} freezes")
    require(len(peers["publishers"]) == count and len(peers["viewers"]) == len(got) == count * others, figures)
    require(min(sent) >= 9, f"the machine is too busy: {figures}")
    require(all(here > 0.9 * there for there, here, _ in got) and freezes == 0, figures)
    require(len(it.recordings) == count and not any(each.faults for each in it.recordings), [each.faults for each in it.recordings])
    return figures


def rate(early, late):
    """Frames a second between two times in ms with counts of frames."""
    return (late[1] - early[1]) * 1000 / max(1, late[0] - early[0])


def test_feedback():
    """REMB in place of transport-wide feedback."""
    figures = call("VP8", 2, 6, "--feedback", "remb")
    require(figures["shown"] > 0.9 * figures["sent"], figures)
    return f"{figures['shown']} of {figures['sent']} frames shown"


# The page of a browser that does not offer abs-send-time.
WITHOUT_SEND_TIME = """{
  const set = RTCPeerConnection.prototype.setLocalDescription;
  RTCPeerConnection.prototype.setLocalDescription = async function () {
    const { sdp } = await this.createOffer();
    return set.call(this, { type: "offer", sdp: sdp.replace(/a=extmap:\\d+ \\S+abs-send-time\\r\\n/g, "") });
  };
}"""


def offered(script="", narrow=500, wide=3000):
    """What a publisher with REMB sends behind a link of 500 kbit/s and then of 3,000, with a queue of 300 ms: for each rate the kbit/s that
    come to the link, the wait of 95 % of the packets in ms, how many packets are dropped, and the freezes of a viewer that has another
    link. The first 7 s and 10 s do not count."""
    with real_time(), Server("--feedback", "remb") as it:
        link, found = Narrow([(22, 1000 * narrow), (60, 1000 * wide)], 0.3, narrow=0), []
        publisher_of(it, script=link.to_server(it.udp) + script)
        viewer = viewer_of(it)
        for begin, end in ((7, 22), (32, 40)):
            time.sleep(max(0, link.began + begin - time.monotonic()))
            freezes = viewer.statistic("watch")["freezeCount"]
            time.sleep(max(0, link.began + end - time.monotonic()))
            noted = [each for each in link.noted if begin <= each[0] - link.began < end]
            waits = sorted(1000 * wait for _, wait, _ in noted if wait is not None)
            found.append((sum(size for *_, size in noted) * 8 / 1000 / (end - begin), waits[int(0.95 * len(waits))], sum(wait is None for _, wait, _ in noted),
                          viewer.statistic("watch")["freezeCount"] - freezes))
        link.stopped = True
    return found


def test_offer():
    """A publisher with REMB sends what its link carries, and more when the link carries more: with abs-send-time, and by RTP times."""
    said = []
    for name, script in (("abs-send-time", ""), ("RTP times", WITHOUT_SEND_TIME)):
        (sent, queue, dropped, freezes), (later, *_) = offered(script)
        said.append(f"by {name} {sent:.0f} kbit/s, queue {queue:.0f} ms, {dropped} dropped, {freezes} freezes, then {later:.0f} kbit/s")
        require(300 < sent <= 505 and queue < 150 and dropped == 0 and freezes <= 1 and later > 1.08 * sent, said[-1])
    return "; ".join(said)


def test_firefox(publisher, viewer, codec, loss, seconds=8):
    """A call with Firefox on one side or on both."""
    if not firefox():
        raise Skipped("Firefox is not installed")
    with Server("--loss", str(loss)) as it:
        sends = publisher_of(it, f"publish=camera&codec={codec}", publisher)
        gets = viewer_of(it, "watch", viewer)
        before, began = gets.frames(), it.streams()[0]["frames"]
        time.sleep(seconds)
        shown, released = gets.frames() - before, it.streams()[0]["frames"] - began
        video, freezes = it.streams()[0], gets.statistic("watch").get("freezeCount", "no count of")
        require(sends.report()["failed"] is None and gets.report()["failed"] is None, "a page fails")
    figures = f"{shown} of {released} released frames shown, {freezes} freezes, {video['lost']} lost, {video['recovered']} recovered"
    require(released > 8 * seconds and shown > 0.85 * released, figures)
    require(it.recordings[0].faults == "" and it.recordings[0].frames > released, f"the recording: {it.recordings[0].faults}")
    return figures


def test_layers():
    """A viewer goes over to the other layer of simulcast and back without a freeze, and gets fewer temporal layers without a NACK."""
    widths, frames = [], []
    with Server() as it:
        it.page("publish=camera&layers")
        wait_for("both layers", lambda: sum(stream["frames"] > 10 for stream in it.streams()) == 2)
        viewer = viewer_of(it)
        for layer, width in (("half", 320), ("full", 640), ("half", 320), ("full", 640)):
            began = time.monotonic()
            viewer.choose("layer", layer)
            wait_for(layer, lambda: viewer.statistic("watch").get("frameWidth") == width, 10)
            widths.append(round(1000 * (time.monotonic() - began)))
            time.sleep(1.5)
        wait_for("path that carries all frames", lambda: it.streams("viewers")[0]["temporal"] >= 2)
        for temporal in ("T3", "T1", "T0", "T3"):
            viewer.choose("frames", temporal)
            time.sleep(1)
            before = viewer.frames()
            time.sleep(3)
            frames.append(viewer.frames() - before)
        counts = viewer.statistic("watch")
    require(frames[0] > 1.4 * frames[1] > 1.9 * frames[2] and frames[3] > 1.4 * frames[1], f"frames of the temporal layers: {frames}")
    require(counts["nackCount"] == 0, f"{counts['nackCount']} NACKs")
    return f"switches within {widths} ms, frames of the temporal layers in 3 s {frames}, {counts['freezeCount']} freezes"


def test_fits():
    """With two sizes a page gets the one that fits its window, and the one that a person chose."""
    with Server() as it:
        it.page("publish=camera&layers")
        wait_for("both layers", lambda: sum(stream["frames"] > 10 for stream in it.streams()) == 2)
        viewer = viewer_of(it)

        def gets(width, why):
            wait_for(f"picture of a width of {width} {why}", lambda: viewer.statistic("watch").get("frameWidth") == width)

        def window(width):
            viewer.browser.call("Emulation.setDeviceMetricsOverride", viewer.place[1], width=width, height=900, deviceScaleFactor=1, mobile=False)

        for width, picture in ((1100, 640), (400, 320), (1100, 640)):
            window(width)
            gets(picture, f"in a window of {width}")
        for layer, picture in (("half", 320), ("full", 640)):
            viewer.choose("layer", layer)
            gets(picture, f"of the layer {layer}")
        words = "document.getElementById('carries').textContent"
        said = wait_for("sentence about the path", lambda: re.match(r"The path carries \d+ kbit/s: the large size is sent", viewer.evaluate(words)), 5)[0]
    return f"by the window and by choice; {said!r}"


def seen(found, name):
    """What a viewer behind a link saw, in words."""
    it = found[name][1]
    return (f"{it['frames']} frames, {it['freezes']} of them after more than 250 ms, at most {it['longest']:.0f} ms, queue {it['queue'][0]:.0f} ms, "
            f"best choice {it['best']:.0f} % of the time, {it['switches']} switches, {it['resent']} resent")


def test_narrow():
    """Viewers behind 300 kbit/s with a queue of 300 ms, one of them with losses of 5 %: the picture goes on, and the queue stays short. With
    losses a packet may be lost with its retransmission, which is seen as a freeze."""
    found = measure({"whole": ((300,), 300, 0), "lossy": ((300,), 300, 5)})
    figures = "; ".join(f"{name}: {seen(found, name)}" for name in found)
    for name, (_, it) in found.items():
        most = 6 if name == "lossy" else 1
        require(it["frames"] > 300 and it["longest"] < 600 and it["freezes"] <= most and it["queue"][0] < 100 and it["best"] >= 60, figures)
    return figures


def test_steps():
    """A link of 3,000, 300 and 1,000 kbit/s, 12 s each: no freeze of 600 ms, a short queue, and the best choice most of the time."""
    found = measure({"steps": ((3000, 300, 1000), 300, 0)}, step=12)
    figures, it = seen(found, "steps"), found["steps"][1]
    require(it["longest"] < 600 and it["freezes"] <= 2 and it["queue"][0] < 100 and it["best"] >= 60 and it["switches"] >= 3, figures)
    return figures


def test_spatial():
    """Viewers of a publisher with spatial layers of VP9 (L3T3_KEY, of which Chromium sends two for 640 x 480): one behind 300 kbit/s
    gets the lower layer; one behind 3,000, 300 and 1,000 kbit/s, 12 s each, falls to it and rises again."""
    found = measure({"whole": ((300,), 300, 0), "steps": ((3000, 300, 1000), 300, 0)}, step=12, codec="VP9")
    figures = "; ".join(f"{name}: {seen(found, name)}" for name in found)
    for name, (viewer, it) in found.items():
        widths = [width for at, width in it["times"] if at > viewer.link.began + 5]
        fell = [width for at, width in it["times"] if 20 < at - viewer.link.began < 24]
        require(it["frames"] > 300 and it["longest"] < 600 and it["freezes"] <= 2 and it["queue"][0] < 100 and it["best"] >= 60, figures)
        require(set(fell) == {320} and set(widths) == ({320} if name == "whole" else {320, 640}) and widths[-1] == (320 if name == "whole" else 640), widths)
    return figures


def test_longer():
    """The way to a viewer takes 40 ms more from a moment on: that is no queue, and all frames of the large size come again within 6 s."""
    with Server() as it:
        it.page("publish=camera&layers")
        wait_for("both layers", lambda: sum(stream["frames"] > 100 for stream in it.streams()) == 2)
        viewer = viewer_of(it)

        def gets_all():
            return it.streams("viewers")[0]["layer"] == "full" and it.streams("viewers")[0]["temporal"] >= 2

        wait_for("large size", gets_all)
        time.sleep(5)
        it.network(delay=40)
        time.sleep(6)
        require(gets_all(), it.streams("viewers")[0])
        before = viewer.frames()
        time.sleep(3)
        shown, peer = viewer.frames() - before, it.stats()["viewers"][0]
    require(shown > 45, f"{shown} frames in 3 s")
    return f"{shown} frames in 3 s, {peer['estimate'] // 1000} kbit/s"


def test_reload():
    """A viewer waits for a publisher, stays when its page is loaded again, and comes back for another codec. DELETE ends a call at once."""
    with Server() as it:
        viewer = it.page("watch")
        time.sleep(1)
        sends = publisher_of(it)
        wait_for("picture", lambda: viewer.frames() > 20)
        before = viewer.frames()
        sends.evaluate("(location.reload(), 0)")
        wait_for("picture of the loaded page", lambda: viewer.frames() > before + 30)
        require(len(it.stats()["publishers"]) == 1, "one publisher is left")
        sends.close()
        wait_for("end of the publisher", lambda: not it.stats()["publishers"], 20)
        other = publisher_of(it, "publish=camera&codec=VP9")
        wait_for("picture of VP9", lambda: viewer.frames() > 20 and "VP9" in json.dumps(it.streams("viewers")), 30)
        other.click("publish")
        wait_for("end by DELETE", lambda: not it.stats()["publishers"], 2)
    require(len(it.recordings) == 3 and not any(each.faults for each in it.recordings), f"{[each.faults for each in it.recordings]}")
    return f"{len(it.recordings)} recordings of {[each.frames for each in it.recordings]} frames"


OFFER = """v=0\r\no=- 1 1 IN IP4 127.0.0.1\r\ns=-\r\nt=0 0\r\na=group:BUNDLE 0\r\nm=video 9 UDP/TLS/RTP/SAVPF 96\r\nc=IN IP4 0.0.0.0\r\na=mid:0\r
a=rtpmap:96 {codec}/90000\r\na=rtcp-mux\r\na=ice-ufrag:abcd\r\na=ice-pwd:abcdefghijklmnopqrstuvwx\r
a=fingerprint:sha-256 {finger}\r\na=setup:actpass\r\na=sendonly\r\n""".replace("{finger}", ":".join(["AB"] * 32))
SDP = {"Content-Type": "application/sdp"}


def test_refusals():
    """What the server refuses, it refuses with a status and a sentence."""
    offer = OFFER.replace("{codec}", "VP8")
    with Server() as it:
        for wanted, *request in [
            (406, "POST", "/whip/live", OFFER.replace("{codec}", "H264"), SDP), (415, "POST", "/whip/live", offer),
            (400, "POST", "/whip/live", "hello", SDP), (409, "POST", "/whep/live", offer, SDP), (404, "POST", "/whip/a%20b", offer, SDP),
            (404, "DELETE", "/session/" + 32 * "0"), (404, "PATCH", "/session/" + 32 * "0"), (413, "POST", "/whip/live", 70000 * "x", SDP),
            (400, "PUT", "/network", "loss=101 reorder=0 delay=0"), (404, "GET", "/other"), (201, "POST", "/whip/live", offer, SDP),
        ]:
            answers(it, wanted, *request)
        status, text, _ = it.request("POST", "/whip/live", OFFER.replace("{codec}", "H264"), SDP)
        require("H.264" in text, text)
        for option, http, udp in (("--http", it.http, free_port(socket.SOCK_DGRAM)), ("--udp", free_port(socket.SOCK_STREAM), it.udp)):
            words = [HERE / "live_server", "--http", str(http), "--udp", str(udp), "--folder", it.folder.name]
            used = subprocess.run(words, capture_output=True, text=True, cwd=HERE)
            require(used.returncode == 1 and option in used.stderr, used.stderr)
        for _ in range(40):
            status, text, _ = it.request("POST", "/whip/live", offer, SDP)
        require(status == 503, f"the 40th publisher: {status}")
    with Server("--token", "secret") as it:
        require(it.request("GET", "/")[0] == 200 and it.request("GET", "/stats")[0] == 401, "the token guards the counts")
        require(it.request("POST", "/whip/live", offer, SDP)[0] == 401, "the token guards WHIP")
        require(it.request("POST", "/whip/live", offer, SDP | {"Authorization": "Bearer secrets"})[0] == 401, "another token")
        require(it.request("POST", "/whip/live", offer, SDP | {"Authorization": "Bearer secret"})[0] == 201, "the token")
    return "all"


def answers(it, wanted, *request, text=False):
    """The headers of a reply with the wanted status, or its text."""
    status, body, headers = it.request(*request)
    require(status == wanted, f"{request[0]} {request[1]}: {status} {body}, and not {wanted}")
    return body if text else headers


def test_sessions():
    """Requests about a session, of a publisher and of a viewer whose browser lacks its codec or has it."""
    offer = OFFER.replace("{codec}", "VP8")
    with Server() as it:
        publisher = answers(it, 201, "POST", "/whip/live", offer, SDP)["Location"]
        answers(it, 406, "POST", "/whep/live", OFFER.replace("{codec}", "VP9"), SDP)
        viewer = answers(it, 201, "POST", "/whep/live", offer, SDP)["Location"]
        for wanted, *request in [
            (405, "PATCH", publisher), (404, "PUT", publisher + "/other"), (409, "PUT", publisher + "/layer", "T1"),
            (200, "PUT", viewer + "/layer", "T1"), (409, "PUT", viewer + "/layer", "T4"), (409, "PUT", viewer + "/layer", "half"),
            (404, "DELETE", viewer + "x"), (404, "DELETE", viewer[:-1]), (404, "GET", viewer), (404, "GET", viewer + "/end"),
            (200, "DELETE", viewer), (200, "DELETE", publisher),
        ]:
            answers(it, wanted, *request)
        require(answers(it, 200, "OPTIONS", viewer)["Access-Control-Allow-Origin"] == "*", "pages of others may publish and watch")
        require(answers(it, 200, "OPTIONS", "/stats")["Access-Control-Allow-Origin"] is None, "pages of others may not read the counts")
        wait_for("end of both", lambda: not it.stats()["publishers"] and not it.stats()["viewers"], 5)
        answers(it, 404, "DELETE", viewer)
        answers(it, 404, "GET", viewer)
        require(it.request("GET", viewer + "/end")[:2] == (200, "It said goodbye.\n"), "why a session ended")
    return "all"


def test_token():
    """A page that has the token publishes. One without it, or with another one, says so."""
    with Server("--token", "secret") as it:
        page = it.page("publish=camera&token=secret")
        wait_for("frame", lambda: page.statistic("publish").get("framesSent", 0) > 30)
        said = [reads(it.page(f"watch&{query}"), words, 5) for query, words in (("", "asks for a token"), ("token=other", "token is wrong"))]
    return f"published; {said}"


def handshake(it, name, port, key, certificate, finger):
    """A publisher without a browser: an offer, a request of STUN and DTLS by openssl, from this port. Returns the process and how long it
    took until the server had its keys."""
    answer = answers(it, 201, "POST", f"/whip/{name}", OFFER.replace("{codec}", "VP8").replace(":".join(["AB"] * 32), finger), SDP, text=True)
    user, password = (re.search(rf"a=ice-{word}:(\S+)", answer)[1] for word in ("ufrag", "pwd"))
    with socket.socket(socket.AF_INET, socket.SOCK_DGRAM) as to:
        to.bind(("127.0.0.1", port))
        to.settimeout(5)
        to.sendto(stun_request(user, password), ("127.0.0.1", it.udp))
        require(to.recv(200)[:2] == b"\1\1", "the request of STUN is answered")
    words = ["openssl", "s_client", "-dtls1_2", "-connect", f"127.0.0.1:{it.udp}", "-bind", f"127.0.0.1:{port}", "-key", key, "-cert", certificate,
             "-use_srtp", "SRTP_AES128_CM_SHA1_80"]
    began = time.monotonic()
    process = subprocess.Popen(words, stdin=subprocess.PIPE, stdout=subprocess.DEVNULL, stderr=subprocess.DEVNULL)
    wait_for(f"keys of {name}", lambda: any(each["name"] == name and each["connected"] for each in it.stats()["publishers"]), 8)
    return process, time.monotonic() - began


def test_reused():
    """A browser ends without a word, and the system gives its port to the next one at once: its handshake ends as soon as any."""
    took = []
    with Server() as it:
        key, certificate = f"{it.folder.name}/key.pem", f"{it.folder.name}/certificate.pem"
        make = ["openssl", "req", "-x509", "-newkey", "ec", "-pkeyopt", "ec_paramgen_curve:P-256", "-nodes", "-subj", "/CN=test", "-keyout", key, "-out", certificate]
        subprocess.run(make, check=True, capture_output=True)
        printed = subprocess.run(["openssl", "x509", "-in", certificate, "-noout", "-fingerprint", "-sha256"], check=True, capture_output=True, text=True)
        port = free_port(socket.SOCK_DGRAM)
        for name in ("first", "second", "third"):
            process, seconds = handshake(it, name, port, key, certificate, printed.stdout.strip().split("=")[1])
            took.append(round(seconds, 1))
            process.kill()
            process.communicate()
        require(len(it.stats()["publishers"]) == 3, "all three are in the table")
    require(max(took) < 0.9, f"handshakes took {took} s")
    return f"three handshakes from one port, each within {max(took)} s"


def test_protect():
    """What leaves is encrypted as libsrtp does it: numbers that come to 0 again, come late or come twice."""
    subprocess.run(["make", "-s", "protect_test"], cwd=HERE, check=True)
    ran = subprocess.run([HERE / "protect_test"], capture_output=True, text=True)
    require(ran.returncode == 0, ran.stdout + ran.stderr)
    return ran.stdout.strip()


def test_full():
    """A server that is full takes the place of a browser that ended without a word."""
    with Server("--peers", "2") as it:
        offer = OFFER.replace("{codec}", "VP8")
        answers(it, 201, "POST", "/whip/one", offer, SDP)
        answers(it, 201, "POST", "/whip/two", offer, SDP)
        answers(it, 503, "POST", "/whip/three", offer, SDP)
        time.sleep(4.5)
        answers(it, 201, "POST", "/whip/three", offer, SDP)
        names = sorted(each["name"] for each in it.stats()["publishers"])
    require(names == ["three", "two"], names)
    return "the silent one left"


# ---- what a person reads ----


def reads(page, words, limit):
    """The sentence of a page, once it has these words. How long that took is checked."""
    return wait_for(f"{words!r} on the page, which says {page.said()!r}", lambda: words in page.said() and page.said(), limit)


def goes_on(viewer, what, limit=30):
    """A viewer shows more frames."""
    before = viewer.frames()
    wait_for(f"frame {what}", lambda: viewer.frames() > before + 10 or viewer.frames() + 10 < before and viewer.frames() > 10, limit)


def next_publisher(it):
    """A page that publishes after others, once the server has a frame of it."""
    latest = max((each["number"] for each in it.stats()["publishers"]), default=0)
    page = it.page("publish=camera")
    wait_for("frame of the next publisher", lambda: any(each["number"] > latest and any(stream["frames"] > 0 for stream in each["streams"] if stream["kind"] == "video")
                                                        for each in it.stats()["publishers"]))
    return page


def test_left():
    """A publisher stops, closes its page, is killed: the viewer reads it within 2 s, or 5 s, and goes on with the next one."""
    took = []
    with Server() as it:
        other = Chromium(tempfile.mkdtemp(dir=it.folder.name))
        publisher = publisher_of(it)
        viewer = viewer_of(it)

        def left(how, limit):
            began = time.monotonic()
            how()
            reads(viewer, "The publisher left.", limit)
            took.append(round(time.monotonic() - began, 1))

        left(lambda: publisher.click("publish"), 2)
        publisher.click("publish")
        goes_on(viewer, "after it stopped")
        reads(viewer, "Watching: connected", 2)
        left(publisher.close, 2)
        Page(other, f"http://127.0.0.1:{it.http}/?publish=camera")
        goes_on(viewer, "after it was closed")
        reads(viewer, "Watching: connected", 2)
        left(lambda: os.killpg(other.process.pid, signal.SIGKILL), 5.5)
        other.process.wait()
        next_publisher(it)
        goes_on(viewer, "after it was killed")
    return f"read after {took} s"


def test_restart():
    """The server is killed and started again: both pages say that it does not answer, and go on without a click."""
    with Server() as it:
        publisher, viewer = publisher_of(it), viewer_of(it)
        it.kill()
        for page in (publisher, viewer):
            reads(page, "The server does not answer.", 3)
        time.sleep(2)
        it.run()
        began = time.monotonic()
        wait_for("publisher again", lambda: it.streams() and it.streams()[0]["frames"] > 0)
        goes_on(viewer, "after the restart")
        took = time.monotonic() - began
        for page in (publisher, viewer):
            require("does not answer" not in page.said(), page.said())
    return f"both go on after {took:.1f} s"


def test_blocked():
    """No media gets through: within 5 s both pages name the port, the firewall and --candidate."""
    with Server("--candidate", "192.0.2.1") as it:
        page = it.page("publish=camera")
        said = reads(page, "--candidate", 8)
        require(str(it.udp) in said and "192.0.2.1" in said and "firewall" in said, said)
        wait_for("end", lambda: page.evaluate("window.state.publish === null"), 40)
        require("--candidate" in page.said(), page.said())
    return said


def test_taken():
    """A second publisher of the name: the first page says who took it, and stops."""
    with Server() as it:
        first, viewer = publisher_of(it), viewer_of(it)
        next_publisher(it)
        said = reads(first, "took the name live", 10)
        number = it.stats()["publishers"][0]["number"]
        require(f"Publisher {number} " in said and len(it.stats()["publishers"]) == 1, said)
        goes_on(viewer, "of the second publisher")
    return said


def test_camera():
    """A browser without a camera, or that may not use it, offers the test picture."""
    said = []
    with Server() as it:
        for name in ("NotFoundError", "NotAllowedError", "NotReadableError"):
            script = f"navigator.mediaDevices.getUserMedia = () => Promise.reject(new DOMException('', '{name}'));"
            said.append(reads(it.page("publish=camera", script=script), "You can take the test picture.", 5))
    require(len(set(said)) == 3, said)
    return "; ".join(said)


def test_elsewhere():
    """The program finds its page beside itself, or says how to name it."""
    ports = ["--http", str(free_port(socket.SOCK_STREAM)), "--udp", str(free_port(socket.SOCK_DGRAM))]
    with tempfile.TemporaryDirectory() as folder:
        process = subprocess.Popen([HERE / "live_server", *ports], cwd=folder, stdout=subprocess.PIPE, stderr=subprocess.DEVNULL)
        require(process.stdout.readline().startswith(b"http://"), "no address")
        page = urllib.request.urlopen(f"http://127.0.0.1:{ports[1]}/", timeout=10).read()
        process.terminate()
        process.wait(10)
        process.stdout.close()
        require(page == (HERE / "page.html").read_bytes(), "another page")
        shutil.copy(HERE / "live_server", folder)
        alone = subprocess.run([f"{folder}/live_server", *ports], cwd=folder, capture_output=True, text=True, timeout=10)
    require(alone.returncode == 1 and "--page" in alone.stderr, alone.stderr)
    return alone.stderr.strip()


def test_disk():
    """A recording that cannot grow ends there, says why, and plays up to there. The viewer sees nothing of it."""
    with Server(largest_file=300_000) as it:
        publisher_of(it)
        viewer = viewer_of(it)
        fault = wait_for("message", lambda: it.stats()["publishers"][0]["recordingFault"], 40)
        before = viewer.frames()
        wait_for("frame after it", lambda: viewer.frames() > before + 20)
    require(it.recordings[0].frames > 10, "the recording plays up to there")
    return f"{fault!r}, {it.recordings[0].frames} frames recorded"


def test_phone():
    """The page fits a phone's screen, with streams of a publisher and of a viewer on it."""
    with Server() as it:
        page = it.page("publish=camera&size=320&watch")
        page.browser.call("Emulation.setDeviceMetricsOverride", page.place[1], width=390, height=844, deviceScaleFactor=2, mobile=True)
        wait_for("picture", lambda: page.frames() > 20)
        width, cards = page.evaluate("[document.documentElement.scrollWidth, document.querySelectorAll('.card b:not(:empty)').length]")
    require(width <= 390, f"the page has a width of {width}")
    require(cards > 15, f"{cards} numbers are shown")
    return f"{cards} numbers within {width} pixels"


def test_picture(path=None):
    """The page publishes and watches over a bad network, and draws the last minute of each count. Its picture is that of the documents:
    `--picture ../../docs/pictures/live_server.webp` writes it there, and beside it `live_server_phone.webp`: on a phone, dark."""
    with Server() as it:
        page = it.page("publish=pattern&layers&watch")
        wait_for("picture", lambda: page.frames() > 60)
        time.sleep(12)
        it.network(loss=5, reorder=2, delay=40)
        time.sleep(25)
        drawn, plots = page.evaluate(PLOTS)
        path = path or f"{it.folder.name}/page.webp"
        page.shot(path)
        size = os.path.getsize(path)
        page.browser.call("Emulation.setEmulatedMedia", page.place[1], features=[{"name": "prefers-color-scheme", "value": "dark"}])
        page.browser.call("Emulation.setDeviceMetricsOverride", page.place[1], width=390, height=844, deviceScaleFactor=1, mobile=True)
        page.shot(path.replace(".webp", "_phone.webp"))
        named = page.evaluate("[...document.querySelectorAll('.card')].filter((each) => each.title && /now .*, at most /.test(each.querySelector('canvas').ariaLabel)"
                              " && Number(each.querySelector('small').textContent) > 0).length")
    require(drawn == plots >= 20, f"{drawn} of {plots} plots have a line")
    require(named == plots, f"{named} of {plots} plots have a name, an explanation and a scale")
    require(size > 20000, f"a picture of {size} bytes")
    return f"{plots} plots have a line; a picture of {size} bytes"


# How many plots have a line, and how many plots there are.
PLOTS = """(() => {
  const all = [...document.querySelectorAll("canvas")];
  const drawn = all.filter((each) => each.getContext("2d").getImageData(0, 0, each.width, each.height).data.some((value) => value));
  return [drawn.length, all.length];
})()"""


def test_aiortc(seconds=20):
    """aiortc publishes: its sections give one id to different header extensions. Without STUN its stream lives on by its media."""
    python = "/usr/bin/python3"
    if subprocess.run([python, "-c", "import aiortc"], capture_output=True).returncode:
        raise Skipped("aiortc is not installed")
    with Server() as it:
        words = [python, HERE / "aiortc_publisher.py", f"http://127.0.0.1:{it.http}/whip/live", str(seconds), "silent"]
        sends = subprocess.Popen(words, stdout=subprocess.PIPE, stderr=subprocess.DEVNULL, text=True)
        wait_for("frame of aiortc", lambda: it.streams() and it.streams()[0]["frames"] > 0)
        number, viewer = it.stats()["publishers"][0]["number"], viewer_of(it)
        time.sleep(seconds - 5)
        publishers = it.stats()["publishers"]
        require([each["number"] for each in publishers] == [number] and not publishers[0]["silent"], publishers)
        shown = viewer.frames()
        said, _ = sends.communicate(timeout=30)
    require(said.split() == ["201", "connected"], said)
    require(shown > 10 * seconds, f"{shown} frames shown")
    return f"{shown} frames shown, no STUN for {seconds} s"


# ---- strangers ----


def stun_request(user, password):
    """A binding request that the server answers (RFC 8489): USERNAME, USE-CANDIDATE, MESSAGE-INTEGRITY."""
    message = struct.pack(">HHI", 1, 0, STUN_COOKIE) + os.urandom(12) + attribute(6, f"{user}:abcd".encode()) + attribute(0x25, b"")
    mac = hmac.new(password.encode(), with_length(message, 24), hashlib.sha1).digest()
    return with_length(message + attribute(8, mac), 0)


class Strangers(threading.Thread):
    """Datagrams and requests of all kinds, until they are stopped. Some come from an address that ICE has checked."""

    def __init__(self, it, seed=1):
        super().__init__(daemon=True)
        self.it, self.chance, self.datagrams, self.requests, self.stopped = it, random.Random(seed), 0, 0, False

    def damaged(self, data):
        data = bytearray(data)
        for _ in range(self.chance.randrange(1, 4)):
            data[self.chance.randrange(len(data))] = self.chance.randrange(256)
        return bytes(data[: self.chance.randrange(1, len(data) + 1)] if self.chance.random() < 0.3 else data)

    def some_datagram(self, user, password):
        kind, noise = self.chance.randrange(6), self.chance.randbytes(self.chance.randrange(0, 1600))
        if kind == 0:
            return noise
        if kind == 1:
            return self.damaged(stun_request(user, password))
        if kind == 2:  # DTLS: a ClientHello, of which only the beginning is right
            return self.damaged(bytes.fromhex("16feff0000000000000000") + len(noise).to_bytes(2, "big") + b"\1" + noise)
        if kind == 3:
            return bytes([20 + self.chance.randrange(44), 254, 253]) + noise
        return bytes([128 + self.chance.randrange(64), self.chance.randrange(256)]) + noise

    def one_request(self):
        offer = self.damaged(OFFER.replace("{codec}", "VP8").encode()).decode("latin-1")
        method = self.chance.choice(["POST", "POST", "PUT", "DELETE", "PATCH", "GET", "OPTIONS", "BREW"])
        path = self.chance.choice(["/whip/noise", "/whep/live", "/session/" + 32 * "a", "/session/" + 32 * "a" + "/layer", "/", "/" + 300 * "x"])
        with contextlib.suppress(OSError):
            self.it.request(method, path, offer, SDP)
        self.requests += 1

    def run(self):
        to = socket.socket(socket.AF_INET, socket.SOCK_DGRAM)
        user = password = "none"
        while not self.stopped:
            if self.datagrams % 5000 == 0:  # a peer that ICE has checked, and that never ends its handshake
                status, answer, _ = self.it.request("POST", "/whip/stranger", OFFER.replace("{codec}", "VP8"), SDP)
                if status == 201:
                    user, password = (re.search(rf"a=ice-{name}:(\S+)", answer)[1] for name in ("ufrag", "pwd"))
                    to.sendto(stun_request(user, password), ("127.0.0.1", self.it.udp))
            with contextlib.suppress(OSError):
                to.sendto(self.some_datagram(user, password), ("127.0.0.1", self.it.udp))
            self.datagrams += 1
            if self.datagrams % 50 == 0:
                self.one_request()
                time.sleep(0.002)
        to.close()


def test_hostile(seconds=60):
    """A call goes on while strangers send all kinds of datagrams and requests for a minute, with sanitizers."""
    with Server(program="live_server-sanitized") as it:
        publisher_of(it)
        viewer = viewer_of(it)
        strangers = Strangers(it)
        before, counted = viewer.frames(), it.stats()["publishers"][0]
        strangers.start()
        time.sleep(seconds)
        strangers.stopped = True
        strangers.join()
        after = next(each for each in it.stats()["publishers"] if each["number"] == counted["number"])
        shown = viewer.frames() - before
    require(shown > 5 * seconds, f"{shown} frames shown in {seconds} s")
    require(after["malformed"] == counted["malformed"] and after["unknown"] == counted["unknown"], "a stranger reached the session")
    return f"{strangers.datagrams} datagrams and {strangers.requests} requests; {shown} frames shown"


def test_damaged():
    """A peer whose keys are right sends damaged packets, with sanitizers: nothing is asked of the picture."""
    with Server("--damage", "20", "--loss", "2", program="live_server-sanitized") as it:
        it.page("publish=camera&layers")
        wait_for("frame", lambda: any(stream["packets"] > 200 for stream in it.streams()))
        viewer = it.page("watch")
        time.sleep(12)
        packets = sum(stream["packets"] for stream in it.streams())
        require(viewer.report()["failed"] is None, "the viewer fails")
    return f"{packets} packets of video"


# ---- the tests ----

TESTS = {f"{codec}-{loss}": (lambda codec=codec, loss=loss: test_call(codec, loss)) for codec in CODECS for loss in LOSSES}
TESTS |= {f"firefox-{name}": (lambda words=words: test_firefox(*words)) for name, words in {
    "publishes": (Firefox, Chromium, "VP8", 0), "watches": (Chromium, Firefox, "VP8", 0), "VP8-5": (Firefox, Firefox, "VP8", 5),
    "VP9-2": (Firefox, Firefox, "VP9", 2), "AV1-2": (Firefox, Firefox, "AV1", 2)}.items()}
TESTS |= {name: globals()[f"test_{name}"] for name in ("refusals", "sessions", "token", "reused", "full", "protect", "disk", "phone", "picture", "reordered", "viewers", "conference", "feedback", "offer", "layers", "fits", "narrow", "steps", "spatial", "longer", "reload",
                                                      "left", "restart", "blocked", "taken", "camera", "elsewhere", "aiortc", "damaged", "hostile")}


def main():
    reader = argparse.ArgumentParser(description=__doc__, formatter_class=argparse.RawDescriptionHelpFormatter)
    reader.add_argument("names", nargs="*", choices=[[], *TESTS], default=[])
    reader.add_argument("--picture", metavar="FILE.webp", help="where the test `picture` writes what it shows")
    arguments = reader.parse_args()
    TESTS["picture"] = lambda: test_picture(arguments.picture)
    missing = [name for name in ("chromium", "ffmpeg", "ffprobe") if not shutil.which(name)]
    if missing:
        print(f"skipped: {', '.join(missing)} not installed")
        return 0
    passed = skipped = failed = 0
    for name in arguments.names or TESTS:
        try:
            print(f"{name}: {TESTS[name]()}", flush=True)
            passed += 1
        except Skipped as why:
            skipped += 1
            print(f"{name}: skipped: {why}", flush=True)
        except (Failed, OSError, KeyError, IndexError) as fault:
            failed += 1
            print(f"{name} FAILED: {type(fault).__name__} {fault}", flush=True)
    print(f"{passed} passed, {skipped} skipped, {failed} failed")
    return 1 if failed else 0


if __name__ == "__main__":
    sys.exit(main())
