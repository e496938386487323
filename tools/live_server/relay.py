"""A network between browsers, or between a browser and live_server: a relay of datagrams that loses a part of the SRTP."""

import contextlib
import heapq
import itertools
import json
import os
import random
import re
import select
import socket
import threading
import time

from browsers import Page, wait_for

# Browsers get the address of a relay in place of the one in the description.
CANDIDATE = re.compile(r"a=candidate:\S+ 1 udp \d+ (\S+) (\d+).*\r\n")
THROUGH = """{
  const set = RTCPeerConnection.prototype.setRemoteDescription;
  RTCPeerConnection.prototype.setRemoteDescription = function ({ type, sdp }) {
    return set.call(this, { type, sdp: sdp.replace(/(a=candidate:\\S+ 1 udp \\d+) \\S+ \\d+/g, "$1 127.0.0.1 PORT") });
  };
}"""


class Relay(threading.Thread):
    """Two ports: what comes to one goes out of the other. Each hop loses that many percent of the SRTP, each way."""

    def __init__(self, loss, hops=1, seed=1):
        super().__init__(daemon=True)
        self.kept, self.chance, self.stopped, self.addresses = (1 - loss / 100) ** hops, random.Random(seed), False, [None, None]
        self.ports = [socket.socket(socket.AF_INET, socket.SOCK_DGRAM) for _ in range(2)]
        for port in self.ports:
            port.bind(("127.0.0.1", 0))

    def run(self):
        while not self.stopped:
            for port in select.select(self.ports, [], [], 0.2)[0]:
                data, self.addresses[self.ports.index(port)] = port.recvfrom(2048)
                to = 1 - self.ports.index(port)
                lost = 128 <= data[0] < 192 and self.chance.random() >= self.kept
                if self.addresses[to] and not lost:
                    self.ports[to].sendto(data, self.addresses[to])

    def to_server(self, udp):
        """The script of a page whose calls go through the relay to a server."""
        self.addresses[1] = ("127.0.0.1", udp)
        self.start()
        return THROUGH.replace("PORT", str(self.ports[0].getsockname()[1]))

    def description(self, side, text):
        """The description of a browser for the other one. The relay learns its address."""
        self.addresses[side] = next((host, int(port)) for host, port in CANDIDATE.findall(text) if host == "127.0.0.1")
        mine = self.ports[1 - side].getsockname()[1]
        return re.sub(r"(a=ice-ufrag)", f"a=candidate:1 1 udp 2130706431 127.0.0.1 {mine} typ host\r\n\\1", CANDIDATE.sub("", text))


class Link:
    """What the relays on one link share: when it has sent all that came to it, in seconds."""

    def __init__(self):
        self.free, self.lock = 0, threading.Lock()


class Narrow(Relay):
    """A relay whose second side, or the one with the number `narrow`, sends to the other one over a narrow link: a rate in bit/s, or steps
    of (seconds, rate), with a queue of so many seconds that drops what does not fit, and 20 ms each way. It notes for each datagram
    of this side when it came, how long it waited, and its bytes; None in place of the wait: it was dropped. With `link` it is on the
    same link as other relays."""

    def __init__(self, rate, longest, loss=0, seed=1, narrow=1, link=None):
        super().__init__(loss, seed=seed)
        self.narrow, self.link = narrow, link or Link()
        self.steps = rate if isinstance(rate, list) else [(float("inf"), rate)]
        self.longest, self.waiting, self.began, self.noted = longest, [], None, []

    def rate(self, now):
        """The rate now, in bit/s. The first step begins with the first SRTP."""
        passed = now - (self.began or now)
        for seconds, rate in self.steps:
            passed -= seconds
            if passed < 0:
                return rate
        return self.steps[-1][1]

    def due(self, side, data):
        """When a datagram of this side is delivered. None: it is lost or dropped."""
        now = time.monotonic()
        lost = 128 <= data[0] < 192 and self.chance.random() >= self.kept
        if side != self.narrow:
            return None if lost else now + 0.02
        if self.began is None and 128 <= data[0] < 192:
            self.began = now
        with self.link.lock:
            begin = max(now, self.link.free)
            if begin - now > self.longest:
                self.noted.append((now, None, len(data) + 28))
                return None
            self.noted.append((now, begin - now, len(data) + 28))
            self.link.free = free = begin + (len(data) + 28) * 8 / self.rate(begin)
        return None if lost else free + 0.02

    def run(self):
        with contextlib.suppress(PermissionError):  # a link does not wait for a processor
            os.sched_setscheduler(0, os.SCHED_RR, os.sched_param(2))
        for count in itertools.count():
            if self.stopped:
                return
            wait = self.waiting[0][0] - time.monotonic() if self.waiting else 0.1
            for port in select.select(self.ports, [], [], min(max(wait, 0), 0.1))[0]:
                side = self.ports.index(port)
                data, self.addresses[side] = port.recvfrom(2048)
                if due := self.due(side, data):
                    heapq.heappush(self.waiting, (due, count, side, 1 - side, data))
            while self.waiting and self.waiting[0][0] <= time.monotonic():
                *_, to, data = heapq.heappop(self.waiting)
                if self.addresses[to]:
                    self.ports[to].sendto(data, self.addresses[to])


# ---- a call from browser to browser ----

GATHERED = "new Promise((done) => { const look = () => c.iceGatheringState === 'complete' ? done(c.localDescription.sdp) : setTimeout(look, 50); look(); })"
SENDS = """(async () => {
  const stream = await navigator.mediaDevices.getUserMedia({ video: { width: 640, height: 480 }, audio: true });
  const c = window.c = new RTCPeerConnection({ bundlePolicy: "max-bundle" });
  for (const track of stream.getTracks()) {
    const sender = c.addTransceiver(track, { direction: "sendonly", streams: [stream] });
    const known = RTCRtpSender.getCapabilities("video").codecs;
    if (track.kind === "video") sender.setCodecPreferences(known.filter(({ mimeType }) => ["video/CODEC", "video/rtx"].includes(mimeType)));
  }
  await c.setLocalDescription();
  return GATHERED;
})()""".replace("GATHERED", GATHERED)
GETS = """(async () => {
  await navigator.mediaDevices.getUserMedia({ audio: true }); // or its addresses are hidden
  const c = window.c = new RTCPeerConnection({ bundlePolicy: "max-bundle" });
  const stream = new MediaStream();
  c.ontrack = ({ track }) => stream.addTrack(track);
  document.getElementById("theirs").srcObject = stream;
  await c.setRemoteDescription({ type: "offer", sdp: OFFER });
  await c.setLocalDescription();
  return GATHERED;
})()""".replace("GATHERED", GATHERED)
COUNTS = "(async () => [...(await c.getStats()).values()].find(({ type, kind }) => type === 'WANTED' && kind === 'video') ?? {})()"


class Side(Page):
    """A page of a call without a server."""

    def statistic(self, key, kind="video"):
        return self.evaluate(COUNTS.replace("WANTED", "outbound-rtp" if key == "publish" else "inbound-rtp"))


def direct_call(it, codec, loss):
    """Both sides of a call from Chromium to Chromium, over as many losses as through a server: those of two hops. Its pages come
    from the server, for their origin."""
    url = f"http://127.0.0.1:{it.http}/"
    sends, gets, relay = Side(it.browser(), url), Side(it.browser(), url), Relay(loss, hops=2)
    wait_for("pages", lambda: all(page.evaluate("typeof window.report") == "function" for page in (sends, gets)))
    offer = relay.description(0, sends.evaluate(SENDS.replace("CODEC", codec)))
    answer = relay.description(1, gets.evaluate(GETS.replace("OFFER", json.dumps(offer))))
    relay.start()
    sends.evaluate(f"c.setRemoteDescription({{ type: 'answer', sdp: {json.dumps(answer)} }})")
    wait_for("picture", lambda: gets.statistic("watch").get("framesDecoded", 0) > 0)
    return sends, gets
