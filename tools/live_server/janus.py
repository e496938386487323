"""janus beside live_server, for bandwidth.py: a room whose publisher sends two sizes of VP8. Needs Debian's janus."""

import json
import pathlib
import re
import subprocess
import tempfile
import time
import urllib.request
import uuid

from browsers import require, wait_for
from relay import CANDIDATE, GATHERED
from servers import free_port
import socket

LIBRARIES = "/usr/lib/x86_64-linux-gnu/janus"
CONFIGURATION = {
    "janus.jcfg": """general: { configs_folder = "FOLDER" plugins_folder = "LIBRARIES/plugins" transports_folder = "LIBRARIES/transports" events_folder = "FOLDER"
  loggers_folder = "FOLDER" debug_level = 3 session_timeout = 0 }
media: { rtp_port_range = "21000-21999" }
nat: { ice_lite = true full_trickle = false }
plugins: { disable = "libjanus_audiobridge.so,libjanus_duktape.so,libjanus_echotest.so,libjanus_lua.so,libjanus_nosip.so,libjanus_recordplay.so,libjanus_sip.so,libjanus_streaming.so,libjanus_textroom.so,libjanus_videocall.so,libjanus_voicemail.so" }
transports: { disable = "libjanus_mqtt.so,libjanus_nanomsg.so,libjanus_pfunix.so,libjanus_rabbitmq.so,libjanus_websockets.so" }
""",
    "janus.transport.http.jcfg": 'general: { json = "plain" base_path = "/janus" http = true port = PORT ip = "127.0.0.1" https = false }\nadmin: { admin_http = false }\n',
    "janus.plugin.videoroom.jcfg": 'room-1: { description = "room" publishers = 2 bitrate = 2500000 fir_freq = 0 audiocodec = "opus" videocodec = "vp8" }\n',
}
PUBLISHES = """(async () => {
  const stream = await navigator.mediaDevices.getUserMedia({ video: { width: 640, height: 480, frameRate: 30 }, audio: true });
  const c = window.c = new RTCPeerConnection({ bundlePolicy: "max-bundle" });
  for (const track of stream.getTracks()) {
    const two = [{ rid: "half", scaleResolutionDownBy: 2 }, { rid: "full" }];
    const sender = c.addTransceiver(track, { direction: "sendonly", streams: [stream], sendEncodings: track.kind === "video" ? two : [{}] });
    const known = RTCRtpSender.getCapabilities("video").codecs;
    if (track.kind === "video") sender.setCodecPreferences(known.filter(({ mimeType }) => ["video/VP8", "video/rtx"].includes(mimeType)));
  }
  await c.setLocalDescription();
  return GATHERED;
})()""".replace("GATHERED", GATHERED)
WATCHES = """(async () => {
  const c = window.c = new RTCPeerConnection({ bundlePolicy: "max-bundle" }), stream = new MediaStream();
  c.ontrack = ({ track }) => { stream.addTrack(track); window.readFrames(track); };
  document.getElementById("theirs").srcObject = stream;
  await c.setRemoteDescription({ type: "offer", sdp: OFFER });
  await c.setLocalDescription();
  return GATHERED;
})()""".replace("GATHERED", GATHERED)


class Handle:
    """A handle of the room's plugin, in a session of its own."""

    def __init__(self, port):
        self.url = f"http://127.0.0.1:{port}/janus"
        self.session = self.post("", janus="create")["data"]["id"]
        self.handle = self.post(f"/{self.session}", janus="attach", plugin="janus.plugin.videoroom")["data"]["id"]

    def post(self, path, **body):
        body["transaction"] = uuid.uuid4().hex
        asked = urllib.request.Request(self.url + path, json.dumps(body).encode(), {"Content-Type": "application/json"})
        with urllib.request.urlopen(asked, timeout=10) as reply:
            return json.loads(reply.read())

    def say(self, request, jsep=None, **body):
        """A message to the plugin, and the event that answers it."""
        self.post(f"/{self.session}/{self.handle}", janus="message", body={"request": request, **body}, **({"jsep": jsep} if jsep else {}))
        until = time.monotonic() + 20
        while time.monotonic() < until:
            with urllib.request.urlopen(f"{self.url}/{self.session}?maxev=1", timeout=60) as reply:
                event = json.loads(reply.read())
            if event.get("janus") == "event":
                require("error" not in event["plugindata"]["data"], event)
                return event
        raise TimeoutError(request)


class Janus:
    """janus, until the end of the block."""

    def __enter__(self):
        self.folder, self.port = tempfile.TemporaryDirectory(), free_port(socket.SOCK_STREAM)
        for name, text in CONFIGURATION.items():
            text = text.replace("FOLDER", self.folder.name).replace("LIBRARIES", LIBRARIES).replace("PORT", str(self.port))
            pathlib.Path(self.folder.name, name).write_text(text)
        self.log = open(f"{self.folder.name}/log", "w")
        self.process = subprocess.Popen(["janus", "-F", self.folder.name], stdout=self.log, stderr=self.log)
        wait_for("janus", self.answers)
        return self

    def answers(self):
        try:
            return urllib.request.urlopen(f"http://127.0.0.1:{self.port}/janus/info", timeout=2).status == 200
        except OSError:
            return False

    def publish(self, page):
        handle = Handle(self.port)
        self.feed = handle.say("join", room=1, ptype="publisher")["plugindata"]["data"]["id"]
        answer = handle.say("publish", jsep={"type": "offer", "sdp": page.evaluate(PUBLISHES)})["jsep"]
        page.evaluate(f"c.setRemoteDescription({json.dumps(answer)})")

    def watch(self, page, link, size):
        """A page watches over a link: the small size (0), or the large one (1), which is the second one of the description and so the lowest
        substream of janus."""
        handle = Handle(self.port)
        offer = handle.say("join", room=1, ptype="subscriber", streams=[{"feed": self.feed}])["jsep"]["sdp"]
        host, port = next((host, int(port)) for host, port in CANDIDATE.findall(offer) if ":" not in host)
        link.ports[1].close()
        link.ports[1] = socket.socket(socket.AF_INET, socket.SOCK_DGRAM)
        link.ports[1].bind((host, 0))  # janus does not use 127.0.0.1
        link.addresses[1] = (host, port)
        link.start()
        mine = f"a=candidate:1 1 udp 2130706431 127.0.0.1 {link.ports[0].getsockname()[1]} typ host\r\n"
        offer = re.sub(r"(a=ice-ufrag)", mine + r"\1", CANDIDATE.sub("", offer))
        answer = CANDIDATE.sub("", page.evaluate(WATCHES.replace("OFFER", json.dumps(offer))))  # janus learns the address of the relay alone
        handle.say("start", jsep={"type": "answer", "sdp": answer})
        mid = re.search(r"m=video.*?a=mid:(\S+)", offer, re.S)[1]
        handle.say("configure", streams=[{"mid": mid, "substream": 1 - size, "temporal": 2}])

    def __exit__(self, *_):
        self.process.terminate()
        self.process.wait(20)
        self.log.close()
        self.folder.cleanup()
