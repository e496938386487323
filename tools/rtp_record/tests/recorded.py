"""The streams of captures/, and the expected frames of each: those of its encoder, or the payloads of its packets.

A capture of ffmpeg or GStreamer has one stream; one of Chromium those of its SDP (RFC 8866, and RFC 5576 for the SSRCs)."""

import hashlib
import os
import re
from dataclasses import dataclass

import capture
import references

HERE = os.path.dirname(os.path.realpath(__file__))
CAPTURES = os.path.join(HERE, "..", "captures")
VIDEO = ["vp8", "vp9", "av1"]
FRAMES = ["vp8", "vp9", "av1", "opus"]
KEYFRAMES_EACH = 30  # of ffmpeg's encoders, by live.sh


@dataclass(frozen=True)
class Recorded:
    """A stream: of captures/NAME.pcap, whose `kind` is that of its medium in a call, with the payload types of its media."""

    name: str
    kind: str
    codec: str
    ssrc: int
    types: tuple
    in_red: bool

    @property
    def title(self):
        return f"{self.name} {self.kind}".strip()

    @property
    def words(self):
        """How the program is told what was signalled."""
        return ["--map", "97=AMR-WB/16000/1;octet-align=1"] if self.codec == "amrwb" else ["--sdp", f"{CAPTURES}/{self.name}.sdp"]

    @property
    def repeats(self):
        """Whether packets have payloads before them with them."""
        return self.in_red and self.codec == "opus"

    def packets(self):
        """All packets of its SSRC."""
        return capture.media_of(capture.read(f"{CAPTURES}/{self.name}.pcap"), self.ssrc)

    def all_wanted(self):
        """What has to come of the clean capture."""
        packets = self.packets()
        return self.wanted(packets, set(range(len(packets))))

    def is_media(self, packet):
        return packet.payload_type in self.types and packet.media

    def units(self, packets):
        """Of each frame the places of its packets, and what it is in a file: an MD5, or bytes."""
        frames = capture.frames_of([packet for packet in packets if self.is_media(packet)])
        places = [place for place, packet in enumerate(packets) if self.is_media(packet)]
        frames = [[places[place] for place in frame] for frame in frames]
        if self.repeats:
            return [(frame, md5(primary_of(packets[frame[0]].media))) for frame in frames]
        if self.codec == "opus" and not os.path.exists(self.encoder_path):
            return [(frame, md5(packets[frame[0]].media)) for frame in frames]
        if self.codec in FRAMES:
            given = [line[5] for line in self.of_encoder()]
            assert len(given) == len(frames), f"{self.title}: {len(given)} frames of the encoder, {len(frames)} in the capture"
            return list(zip(frames, given))
        if self.codec == "amrwb":
            with open(f"{CAPTURES}/{self.name}.frames", "rb") as file:
                data = file.read()
            size = len(data) // len(frames)
            return [(frame, data[place * size : place * size + size]) for place, frame in enumerate(frames)]
        return [(frame, packets[frame[0]].media) for frame in frames]

    @property
    def encoder_path(self):
        return f"{CAPTURES}/{self.name}.{self.kind}.md5" if self.kind else f"{CAPTURES}/{self.name}.md5"

    def of_encoder(self):
        """The lines on the frames that the encoder gave: the MD5 stands in the sixth column."""
        with open(self.encoder_path, encoding="ascii") as lines:
            return [[word.strip() for word in line.split(",")] for line in lines if line[0] != "#"]

    def keyframes(self):
        """The places of keyframes among the frames."""
        lines = self.of_encoder()
        return {place for place, line in enumerate(lines) if (line[6] == "key" if self.kind else place % KEYFRAMES_EACH == 0)}

    def recovered(self, packets, there):
        """The places of packets whose media others have with them (RFC 2198): they are found by their times."""
        places = {packet.timestamp: place for place, packet in enumerate(packets) if self.is_media(packet)}
        carriers = [packets[place] for place in there if self.repeats and self.is_media(packets[place])]
        times = [packet.timestamp - offset for packet in carriers for offset in offsets_of(packet.media)]
        return {places[time] for time in times if time in places}

    def said(self, packets):
        """Of each frame, which numbers its packets give it and to which they say that it refers, or None."""
        units = [[packets[place] for place in places] for places, _ in self.units(packets)]
        if wanted := self.descriptor_id():
            return references.by_descriptors([[packet.payload for packet in unit] for unit in units], wanted)
        if self.codec == "vp9":
            return references.by_pictures([[packet.media for packet in unit] for unit in units])
        return [None] * len(units)

    def descriptor_id(self):
        """The id of the dependency descriptor, if the stream has it."""
        if "--sdp" not in self.words:
            return None
        with open(self.words[1], encoding="ascii") as lines:
            return next((int(line[9:].split()[0]) for line in lines if line.startswith("a=extmap:") and references.DESCRIPTOR in line), None)

    def decodable(self, packets, whole, there, restart):
        """The frames among the whole ones that a decoder can show: keyframes, and each whose references were shown since the latest
        keyframe, which replaces what came before it. A frame that names no references follows such a frame without a gap. There a
        lost packet of padding is a gap too: a receiver cannot know what was in it. So is a restart: no stream here has both picture
        ids of VP8, which could show that no frame is missing."""
        keyframes, shown, numbers, start = self.keyframes(), [], None, 0
        units, said = self.units(packets), self.said(packets)
        for place in whole:
            first = units[place][0][0]
            between = range(units[place - 1][0][-1] + 1, first) if place else []
            follows = shown[-1:] == [place - 1] and there.issuperset(between) and first != restart
            if place in keyframes:
                follows, numbers = True, set() if said[place] else None
                start = min(said[place][0]) if said[place] else 0
            elif numbers is not None:
                follows = said[place] is not None and numbers.issuperset(it for it in said[place][1] if it >= start)
            if follows:
                shown.append(place)
                if numbers is not None:
                    numbers |= said[place][0]
        return shown

    def wanted(self, packets, there, only_decodable=False, restart=None):
        """The expected content of the file if the packets at some places arrived: the MD5s of the frames, or bytes. With
        only_decodable the frames of video that a decoder can show, else all whole frames from the first keyframe on. The sender
        restarts with the packet at the place `restart`."""
        units = self.units(packets)
        there = there | self.recovered(packets, there)
        whole = [place for place, (places, _) in enumerate(units) if set(places) <= there]
        if self.codec in VIDEO:
            first = min(set(whole) & self.keyframes())
            whole = self.decodable(packets, whole, there, restart) if only_decodable else [place for place in whole if place >= first]
        found = [units[place][1] for place in whole]
        return found if self.codec in FRAMES else b"".join(found)


def md5(data):
    return hashlib.md5(data).hexdigest()


def primary_of(payload):
    """The media of a packet in RED itself (RFC 2198, section 3): it is behind the headers and the older blocks."""
    at = older = 0
    while payload[at] & 0x80:
        older += (payload[at + 2] & 3) << 8 | payload[at + 3]
        at += 4
    return payload[at + 1 + older :]


def offsets_of(payload):
    """How much older than a packet in RED the payloads are that it repeats."""
    at = 0
    while payload[at] & 0x80:
        yield payload[at + 1] << 6 | payload[at + 2] >> 2
        at += 4


def of_sdp(name):
    with open(f"{CAPTURES}/{name}.sdp", encoding="ascii") as file:
        media = file.read().split("\nm=")[1:]
    for medium in media:
        names = {}
        for number, codec in re.findall(r"a=rtpmap:(\d+) ([^/]+)/", medium):
            names.setdefault(codec.lower(), int(number))
        # the first codec of the list that carries media is what Chromium sends, in RED where that is in the list
        codec = next(codec for codec in names if codec in ("vp8", "vp9", "av1", "opus", "g722"))
        types = (names[codec], names["red"]) if "red" in names else (names[codec],)
        ssrc = int(re.search(r"a=ssrc:(\d+)", medium)[1])
        yield Recorded(name, medium.split()[0], codec, ssrc, types, "red" in names)


def all_streams():
    """Each stream of captures/ that has one codec: that of test_change.py changes."""
    for name in sorted(file[:-5] for file in os.listdir(CAPTURES) if file.endswith(".pcap") and file != "chromium-change.pcap"):
        if name.startswith(("chromium-", "gstreamer-")):
            yield from of_sdp(name)
        else:
            first = capture.media_of(capture.read(f"{CAPTURES}/{name}.pcap"))[0]
            yield Recorded(name, "", name, first.ssrc, (first.payload_type,), False)
