#!/usr/bin/env python3
"""What options change: the file that is named, --mux by sender reports, --all, --decodable, --fill, --map, and RED,
retransmissions and events of Chromium; a sender that comes back.

  tests/test_options.py [PROGRAM]

What has to come is counted over the clean captures. The last line is `N passed, N failed`."""

import json
import os
import struct
import subprocess
import sys
import tempfile
from dataclasses import replace

import capture
import conditions
from checks import PROGRAM, check, status_of_checks
from recorded import CAPTURES, all_streams, primary_of
from test_captures import AMR_WB_MAGIC, faults_of_file, found_in, md5s_in, words

STREAMS = {stream.title: stream for stream in all_streams()}


def run(*words_, wanted=0):
    ran = subprocess.run([PROGRAM, "--json", *words_], capture_output=True, check=False)
    check(ran.returncode == wanted, f"{' '.join(words_)}: status {ran.returncode} {ran.stderr.decode()}")
    return json.loads(ran.stdout) if ran.stdout else None


def source_of(stream, folder, packets=None):
    path = f"{folder}/{stream.name}.pcap"
    capture.write(path, packets or stream.packets())
    return path


def named_files(folder):
    """-o with the name of a file: the ending tells the format, and a second stream gets a name beside it."""
    for title, ending in [("vp8", "webm"), ("vp8", "mkv"), ("vp8", "ivf"), ("vp9", "ivf"), ("chromium-av1 video", "obu"),
                          ("chromium-av1 video", "ivf"), ("opus", "ogg"), ("opus", "opus"), ("pcmu", "wav"), ("pcma", "wav"),
                          ("amrwb", "awb"), ("amrwb", "mka"), ("g722", "mka")]:
        stream, out = STREAMS[title], f"{folder}/named.{ending}"
        run(*stream.words, source_of(stream, folder), "-o", out)
        if title == "amrwb" and ending == "mka":
            found = words("ffmpeg", "-v", "error", "-i", out, "-map", "0", "-c", "copy", "-f", "data", "-").stdout
        else:
            found = found_in(stream.codec, out)
        check(found == stream.all_wanted(), f"{title} as {ending}")
        check(not list(faults_of_file(out)), f"{title} as {ending} plays: {list(faults_of_file(out))}")
    call = f"{CAPTURES}/chromium-vp8.pcap"
    told = run("--sdp", f"{CAPTURES}/chromium-vp8.sdp", call, "-o", f"{folder}/call.mkv")
    files = sorted(stream["file"] for stream in told["streams"] if "file" in stream)
    second = next(stream for stream in told["streams"] if stream.get("file", "").startswith(f"{folder}/call-"))
    check(files == sorted([f"{folder}/call.mkv", f"{folder}/call-{second['ssrc']}.mkv"]), f"two streams: {files}")
    ran = subprocess.run([PROGRAM, source_of(STREAMS["pcmu"], folder), "-o", f"{folder}/no.webm"], capture_output=True, check=False)
    check(ran.returncode == 1 and b"does not take" in ran.stderr, f"WebM takes no G.711: {ran.stderr}")


def two_flows(folder):
    """The same SSRC between other ends is a stream of its own, with a file of its own."""
    stream = STREAMS["pcmu"]
    other = []
    for packet in stream.packets():
        headers = bytearray(packet.headers)
        struct.pack_into(">H", headers, 34, 7777)
        other.append(replace(packet, headers=bytes(headers)))
    path = source_of(stream, folder, sorted(stream.packets() + other, key=lambda packet: packet.time))
    told = run(path, "-o", f"{folder}/two")
    check(len(told["streams"]) == 2, "two streams")
    check(sorted(os.listdir(f"{folder}/two")) == [f"{stream.ssrc:08x}-2.mka", f"{stream.ssrc:08x}.mka"], "two files")
    for name in os.listdir(f"{folder}/two"):
        check(found_in("pcmu", f"{folder}/two/{name}") == stream.all_wanted(), f"{name} is whole")


def sender_report(packet, moment):
    """An RTCP sender report (RFC 3550, section 6.4.1): the moment of a packet by the sender's clock, in seconds since 1900."""
    ntp = round(moment * 2**32)
    body = struct.pack(">BBHIQIII", 0x80, 200, 6, packet.ssrc, ntp, packet.timestamp, 1, 1)
    return replace(packet, payload=body)


def starts(path):
    """When the tracks of a file begin, in seconds: video, and audio."""
    return [float(words("ffprobe", "-v", "error", "-select_streams", kind, "-show_entries", "packet=pts_time", "-read_intervals",
                        "%+#1", "-of", "csv=p=0", path).stdout.split()[0].strip(b",")) for kind in ("v:0", "a:0")]


def reports(folder):
    """Two streams whose first packets came at once are put together by what their senders say."""
    video, audio = STREAMS["vp8"], STREAMS["opus"]
    base = 10**18
    pairs = []
    for stream in (video, audio):
        packets = stream.packets()
        pairs.append([replace(packet, time=base + packet.time - packets[0].time) for packet in packets])

    def merged(extra):
        return sorted(extra + pairs[0] + pairs[1], key=lambda packet: packet.time)

    capture.write(f"{folder}/sr.pcap", merged([sender_report(pairs[0][0], 1000.0), sender_report(pairs[1][0], 1000.25)]))
    run("--sdp", f"{CAPTURES}/vp8.sdp", "--sdp", f"{CAPTURES}/opus.sdp", f"{folder}/sr.pcap", "--mux", f"{folder}/sr.mkv")
    first, second = starts(f"{folder}/sr.mkv")
    check(abs(second - first - 0.25) < 0.002, f"the sound begins a quarter of a second behind the picture: {first}, {second}")
    check(md5s_in(f"{folder}/sr.mkv", "0:v:0") == video.all_wanted() and md5s_in(f"{folder}/sr.mkv", "0:a:0") == audio.all_wanted(), "frames")
    capture.write(f"{folder}/sr.pcap", merged([sender_report(pairs[0][0], 1000.0), sender_report(pairs[1][0], 9000.0)]))
    run("--sdp", f"{CAPTURES}/vp8.sdp", "--sdp", f"{CAPTURES}/opus.sdp", f"{folder}/sr.pcap", "--mux", f"{folder}/sr.mkv")
    first, second = starts(f"{folder}/sr.mkv")
    check(abs(second - first) < 0.002, f"clocks that are hours apart are two clocks: {first}, {second}")


def call(folder):
    """Sound and picture of a call of Chromium, in one file by its own sender reports: they began within a quarter of a second."""
    run("--sdp", f"{CAPTURES}/chromium-vp8.sdp", f"{CAPTURES}/chromium-vp8.pcap", "--mux", f"{folder}/call.webm")
    check(md5s_in(f"{folder}/call.webm", "0:v:0") == STREAMS["chromium-vp8 video"].all_wanted(), "the picture of a call")
    check(md5s_in(f"{folder}/call.webm", "0:a:0") == STREAMS["chromium-vp8 audio"].all_wanted(), "the sound of a call")
    check(not list(faults_of_file(f"{folder}/call.webm")), "the file plays")


def keyframe_lost(folder):
    """Where the first keyframe is lost, the file begins at the next one; with --all the frames before it are written too."""
    for name in ("vp8", "vp9"):
        stream = STREAMS[name]
        packets = stream.packets()
        units = stream.units(packets)
        without = packets[1:]
        there = set(range(1, len(packets)))
        told = run(*stream.words, source_of(stream, folder, without), "-o", f"{folder}/k.webm")["streams"][0]
        check(md5s_in(f"{folder}/k.webm") == stream.wanted(packets, there), f"{name}: from the next keyframe on")
        check(told["left_out"] == min(stream.keyframes() - {0}) - 1, f"{name}: frames left out: {told}")
        told = run("--all", *stream.words, source_of(stream, folder, without), "-o", f"{folder}/k.webm")["streams"][0]
        check(md5s_in(f"{folder}/k.webm") == [unit for _, unit in units[1:]], f"{name}: --all has all but the first")
        check(told["left_out"] == 0 and told["damaged"] == min(stream.keyframes() - {0}) - 1, f"{name}: and says which are damaged")
        said = [fault for fault in faults_of_file(f"{folder}/k.webm") if "Not all references are available" not in fault]
        check(not said, f"{name}: --all plays, but for what a decoder says of references that lack: {said}")


def nothing(folder):
    """Without a whole keyframe nothing is written: a message and the list say so, and the status is 1."""
    for name in ("vp8", "vp9"):
        stream = STREAMS[name]
        packets = stream.packets()
        units = stream.units(packets)
        firsts = {units[place][0][0] for place in stream.keyframes()}
        path = source_of(stream, folder, [packet for place, packet in enumerate(packets) if place not in firsts])
        found = run(*stream.words, path, "-o", f"{folder}/n.webm", wanted=1)["streams"][0]
        check(found["file"] is None and found["frames"] == 0, f"{name}: no file: {found}")
        check(found["left_out"] == len(units) - len(firsts), f"{name}: frames left out: {found}")
        check(not os.path.exists(f"{folder}/n.webm"), f"{name}: no empty file")
        ran = subprocess.run([PROGRAM, *stream.words, path, "-o", f"{folder}/n.webm"], capture_output=True, check=False)
        check(b"nothing was written" in ran.stdout and b"no whole keyframe" in ran.stderr, f"{name}: a message: {ran.stderr.decode()}")


def undecodable(folder):
    """Frames after a lost one are written and counted; with --decodable they are left out up to the next keyframe."""
    for name in ("vp8", "vp9", "chromium-vp8 video", "chromium-av1 video", "chromium-layers video", "chromium-av1-layers video"):
        stream = STREAMS[name]
        packets = stream.packets()
        come, there = conditions.lossy(packets)
        shown, kept = stream.wanted(packets, there, only_decodable=True), stream.wanted(packets, there)
        path = source_of(stream, folder, come)
        found = run("--decodable", *stream.words, path, "-o", f"{folder}/u.webm")["streams"][0]
        check(0 < len(shown) < len(kept) and md5s_in(f"{folder}/u.webm") == shown, f"{name}: {len(shown)} decodable frames")
        # a unit that lacks its lower layers is one more frame that is left out
        check(found["undecodable"] >= len(kept) - len(shown) and found["damaged"] == 0, f"{name}: counted: {found}")
        table = subprocess.run([PROGRAM, "--decodable", *stream.words, path, "-o", f"{folder}/u.webm"], capture_output=True, check=False).stdout.decode()
        check(f"({found['undecodable']} undecodable), 0 damaged" in table, f"{name}: the table reports them")
        found = run(*stream.words, path, "-o", f"{folder}/u.webm")["streams"][0]
        written = md5s_in(f"{folder}/u.webm")
        check([md5 for md5 in written if md5 in kept] == kept, f"{name}: the file has all {len(kept)} whole frames")
        check(found["damaged"] == len(written) - len(shown) and found["undecodable"] == 0, f"{name}: counted without an option: {found}")


def malformed(folder):
    """A VP8 frame whose first partition is longer than the frame (RFC 6386, section 9.1) is left out like a lost frame."""
    stream = STREAMS["vp8"]
    packets = stream.packets()
    units, place = stream.units(packets), 5
    places = units[place][0]
    packet = packets[places[0]]
    frame = len(packet.payload) - len(packet.media) + 4  # after ffmpeg's descriptor: 15 bits of PictureID
    tag = bytes([packet.payload[frame] | 0xE0, 0xFF, 0xFF])
    payload = packet.payload[:frame] + tag + packet.payload[frame + 3 :]
    packets[places[0]] = replace(packet, payload=payload)
    found = run("--decodable", *stream.words, source_of(stream, folder, packets), "-o", f"{folder}/m.webm")["streams"][0]
    wanted = stream.wanted(stream.packets(), set(range(len(packets))) - set(places), only_decodable=True)
    left_out = min(key for key in stream.keyframes() if key > place) - place - 1
    check(md5s_in(f"{folder}/m.webm") == wanted and len(wanted) == len(units) - 1 - left_out, "malformed: frames up to the next keyframe")
    check((found["refused"], found["undecodable"]) == (1, left_out), f"malformed: counted: {found}")


def layers(folder):
    """Without the first packet of a picture with spatial layers, the rest of the picture is not written as a frame."""
    for name in ("chromium-layers video", "chromium-av1-layers video"):
        stream = STREAMS[name]
        packets = stream.packets()
        media = [place for place, packet in enumerate(packets) if stream.is_media(packet)]
        first = next(places[0] for places, _ in stream.units(packets)[1:] if len(places) > 2)
        check(first in media, f"{name}: a picture of several packets")
        come = packets[:first] + packets[first + 1 :]
        there = set(range(len(packets))) - {first}
        found = run("--decodable", *stream.words, source_of(stream, folder, come), "-o", f"{folder}/l.webm")["streams"][0]
        check(md5s_in(f"{folder}/l.webm") == stream.wanted(packets, there, only_decodable=True), f"{name}: only whole pictures that a decoder can show")
        check(found["gaps"] >= 1 and found["damaged"] == 0, f"{name}: {found}")


def fill(folder):
    """With --fill what is lost becomes silence of the same length (G.711: the code of 0; AMR-WB: RFC 4867, 5.3, type 15)."""
    for name, silence in [("pcmu", b"\xff"), ("pcma", b"\xd5")]:
        stream = STREAMS[name]
        packets = stream.packets()
        there = set(range(len(packets))) - {20, 21, 50}
        path = source_of(stream, folder, [packets[place] for place in sorted(there)])
        told = run("--fill", path, "-o", f"{folder}/f.wav")["streams"][0]
        found = found_in(name, f"{folder}/f.wav")
        size = len(packets[0].media)
        lost = {20: 2 * size, 50: size}
        wanted, filled = b"", 0
        for place, packet in enumerate(packets):
            wanted += packet.media if place in there else b""
            if place in lost:
                filled += lost[place] // 160
                wanted += silence * (lost[place] // 160 * 160)  # frames of 20 ms
        check(found == wanted and told["filled"] == filled, f"{name}: --fill: {told['filled']} of {filled} frames")
    stream = STREAMS["amrwb"]
    packets = stream.packets()
    there = set(range(len(packets))) - {20, 21, 50}
    path = source_of(stream, folder, [packets[place] for place in sorted(there)])
    run("--fill", *stream.words, path, "-o", f"{folder}/f.awb")
    units = [unit for _, unit in stream.units(packets)]
    wanted = b"".join(unit if place in there else bytes([15 << 3 | 4]) for place, unit in enumerate(units))
    check(found_in("amrwb", f"{folder}/f.awb") == wanted, "amrwb: --fill")


def red(folder):
    """What packets in RED repeat goes in where it is missing, and is counted."""
    stream = STREAMS["chromium-red audio"]
    packets = stream.packets()
    media = [place for place, packet in enumerate(packets) if stream.is_media(packet)]
    lost = set(media[10:180:7])
    there = set(range(len(packets))) - lost
    told = run(*stream.words, source_of(stream, folder, [packets[place] for place in sorted(there)]), "-o", f"{folder}/r.webm")
    check(md5s_in(f"{folder}/r.webm") == stream.all_wanted(), "RED: all frames are there, though one packet in seven is lost")
    check(told["streams"][0]["recovered"] == len(lost), f"RED: recovered {told['streams'][0]['recovered']} of {len(lost)}")
    # 19 packets of padding only have RED's payload type: they leave no gap, and no unit
    padding = [packet for packet in packets if packet.payload_type == 63 and not packet.media]
    told = run(*stream.words, source_of(stream, folder), "-o", f"{folder}/r.webm")["streams"][0]
    check(len(padding) == 19 and (told["frames"], told["gaps"], told["refused"]) == (len(media), 0, 0), f"padding under RED's type: {told}")
    # an SDP that names RED without the codec inside: the packets decide
    told = run("--map", "63=red/48000", "--map", "111=opus/48000/2", source_of(stream, folder), "-o", f"{folder}/r.webm")
    check(md5s_in(f"{folder}/r.webm") == stream.all_wanted(), "RED whose inner type is not signalled")


def red_later(folder):
    """A sender that begins without RED and then goes over to it: all frames are in one file, and later losses are filled in."""
    stream = STREAMS["chromium-red audio"]
    packets = stream.packets()
    media = [place for place, packet in enumerate(packets) if stream.is_media(packet)]
    begun = [in_opus(packet) if packet.media else packet for packet in packets[:40]] + packets[40:]
    lost = set(media[60:180:7])
    come = [packet for place, packet in enumerate(begun) if place not in lost]
    told = run(*stream.words, source_of(stream, folder, come), "-o", f"{folder}/r.webm")["streams"]
    check(len(told) == 1 and told[0]["recovered"] == len(lost), f"RED that begins later: {told}")
    check(md5s_in(f"{folder}/r.webm") == stream.all_wanted(), "RED that begins later: all frames are there")


def in_opus(packet):
    """The packet of Opus that a packet in RED is without the blocks that it repeats."""
    head = packet.payload[: len(packet.payload) - len(packet.media)]
    return replace(packet, payload=head[:1] + bytes([head[1] & 0x80 | 111]) + head[2:] + primary_of(packet.media))


def retransmissions(folder):
    """Lost packets that are retransmitted (RFC 4588) under the SSRC and the payload type of the SDP go in where they are missing."""
    stream = STREAMS["chromium-vp8 video"]
    packets = stream.packets()
    media = [place for place, packet in enumerate(packets) if stream.is_media(packet)]
    lost = set(media[3::5])
    again = [retransmitted(packets[place], number) for number, place in enumerate(sorted(lost))]
    come = [packet for place, packet in enumerate(packets) if place not in lost]
    path = source_of(stream, folder, sorted(come + again, key=lambda packet: packet.time))
    told = {it["ssrc"]: it for it in run(*stream.words, path, "-o", f"{folder}/again.webm")["streams"]}
    check(md5s_in(f"{folder}/again.webm") == stream.all_wanted(), "retransmissions: all frames are there")
    found, beside = told[f"{stream.ssrc:08x}"], told[f"{RTX_SSRC:08x}"]
    check((found["retransmitted"], found["undecodable"]) == (len(lost), 0), f"retransmissions: counted: {found}")
    check(beside["codec"] == "rtx" and beside["packets"] == len(lost) and "file" not in beside, f"retransmissions: listed: {beside}")
    found = run("--map", "96=VP8/90000", path, "-o", f"{folder}/again.webm", wanted=1)["streams"][0]  # the keyframe lost a packet
    check(found["frames"] == 0, f"retransmissions: not known without an SDP: {found}")


RTX_SSRC, RTX_TYPE = 1915424868, 97  # of captures/chromium-vp8.sdp


def retransmitted(packet, number):
    """A packet again, a tenth of a second later (RFC 4588, section 4): the payload is its number, and what it had."""
    head = struct.pack(">BBHII", 0x80, packet.payload[1] & 0x80 | RTX_TYPE, number, packet.timestamp, RTX_SSRC)
    return replace(packet, time=packet.time + 10**8, payload=head + struct.pack(">H", packet.number) + packet.media)


def comes_back(folder):
    """A sender that says BYE (RFC 3550, section 6.6), is silent for a minute, and comes back under its SSRC continues in its file."""
    stream = STREAMS["opus"]
    packets = stream.packets()
    goodbye = replace(packets[100], payload=struct.pack(">BBHI", 0x81, 203, 1, stream.ssrc))
    later = [replace(packet, time=packet.time + 60 * 10**9) for packet in packets[100:]]
    told = run(*stream.words, source_of(stream, folder, [*packets[:100], goodbye, *later]), "-o", f"{folder}/back.webm")
    check(len(told["streams"]) == 1 and told["rtcp"] == 1, f"a sender that comes back is one stream: {told}")
    check(md5s_in(f"{folder}/back.webm") == stream.all_wanted(), "a sender that comes back: all frames are in its file")


def keys(folder):
    """The keys that the page pressed, one behind the other, each for a tenth of a second."""
    for name, pressed in [("chromium-keys", "1234#"), ("chromium-g722", "19")]:
        run("--sdp", f"{CAPTURES}/{name}.sdp", f"{CAPTURES}/{name}.pcap", "-o", f"{folder}/{name}")
        path = f"{folder}/{name}/{STREAMS[f'{name} audio'].ssrc:08x}.events.json"
        with open(path, encoding="ascii") as file:
            found = json.load(file)
        check("".join(key["name"] for key in found) == pressed, f"{name}: keys {found}")
        check(all(key["ended"] and abs(key["duration"] - 0.1) < 0.03 for key in found), f"{name}: durations {found}")
        check(all(before["time"] < after["time"] for before, after in zip(found, found[1:])), f"{name}: times rise")


def guesses(folder):
    """Without an SDP the codecs of video and Opus are guessed, and the files are the same."""
    for title in ["vp8", "vp9", "opus", "chromium-vp8 video", "chromium-vp9 video", "chromium-av1 video", "chromium-vp8 audio"]:
        stream = STREAMS[title]
        told = run(source_of(stream, folder), "-o", f"{folder}/g.webm")["streams"][0]
        check(told["guessed"] and told["codec"].lower() == stream.codec, f"{title}: a guess at {told['codec']}")
        check(md5s_in(f"{folder}/g.webm") == stream.all_wanted(), f"{title}: the frames of a guess")
        table = subprocess.run([PROGRAM, source_of(stream, folder)], capture_output=True, check=False).stdout.decode()
        check(f"?{told['codec']}" in table, f"{title}: the table marks a guess")


def main():
    with tempfile.TemporaryDirectory() as folder:
        for test in [named_files, two_flows, reports, call, keyframe_lost, nothing, undecodable, malformed, layers, fill, red, red_later,
                     retransmissions, comes_back, keys, guesses]:
            test(folder)
    return status_of_checks()


if __name__ == "__main__":
    sys.exit(main())
