#!/usr/bin/env python3
"""Compares what the recorder writes with what GStreamer's jitter buffer and depayloader give of the same packets.

  live/gstreamer.py [NAME..]      all streams of captures/, or those of the captures named

Prints a table in Markdown: of each stream and condition the packets, the frames that the recorder wrote and those that GStreamer
gave, and whether they are the same, by the MD5 of each (of audio in PCM: by all bytes together). GStreamer's frames that are not
among the recorder's are counted apart. Needs GStreamer with its good and bad plugins, and ffmpeg. The last line is
`N compared, N the same`."""

import difflib
import os
import subprocess
import sys
import tempfile

HERE = os.path.dirname(os.path.realpath(__file__))
sys.path.insert(0, f"{HERE}/../tests")
import capture  # noqa: E402
import conditions  # noqa: E402
from recorded import FRAMES, all_streams, md5  # noqa: E402
from test_captures import found_in  # noqa: E402

PROGRAM = f"{HERE}/../rtp_record"
DEPAYLOADERS = {
    "vp8": ("video", "VP8", 90000, "rtpvp8depay"),
    "vp9": ("video", "VP9", 90000, "rtpvp9depay"),
    "opus": ("audio", "OPUS", 48000, "rtpopusdepay"),
    "pcmu": ("audio", "PCMU", 8000, "rtppcmudepay"),
    "pcma": ("audio", "PCMA", 8000, "rtppcmadepay"),
    "g722": ("audio", "G722", 8000, "rtpg722depay"),
    "amrwb": ("audio", "AMR-WB", 16000, "rtpamrdepay"),
}


def pipeline(stream, path, folder):
    media, name, rate, depayloader = DEPAYLOADERS[stream.codec]
    payload_type = stream.types[-1]  # that of RED, where the stream is in RED
    caps = f"application/x-rtp,media={media},clock-rate={rate},encoding-name={name},payload={payload_type}"
    if stream.codec == "amrwb":
        caps += ",octet-align=(string)1,encoding-params=(string)1"
    red = []
    if stream.in_red:
        red = ["!", "rtpreddec", f"pt={payload_type}", "!", "capssetter", f"caps=application/x-rtp,payload={stream.types[0]}"]
    return ["gst-launch-1.0", "-q", "filesrc", f"location={path}", "!", "pcapparse", "ts-offset=0", f"caps={caps}", "!",
            "rtpjitterbuffer", "mode=none", *red, "!", depayloader, "!", "multifilesink", f"location={folder}/%06d", "sync=false"]


def of_gstreamer(stream, path, folder):
    """The frames that GStreamer gives, one buffer each, or None where its pipeline does not run."""
    os.mkdir(folder)
    if subprocess.run(pipeline(stream, path, folder), capture_output=True, check=False, timeout=60).returncode:
        return None
    frames = []
    for name in sorted(os.listdir(folder)):
        with open(f"{folder}/{name}", "rb") as file:
            frames.append(file.read())
    return frames


def of_recorder(stream, path, folder):
    subprocess.run([PROGRAM, *stream.words, path, "-o", folder], check=True, stdout=subprocess.DEVNULL)
    files = [name for name in os.listdir(folder) if not name.endswith(".json")]
    return found_in(stream.codec, f"{folder}/{files[0]}")


def compared(stream, condition, folder):
    """A row: packets, the recorder's frames, GStreamer's, and how they go together."""
    come, _ = condition(stream.packets())
    path = f"{folder}/c.pcap"
    # without what has no media: each depayloader would take it for some
    capture.write(path, [packet for packet in come if packet.payload_type in stream.types])
    ours, theirs = of_recorder(stream, path, f"{folder}/ours"), of_gstreamer(stream, path, f"{folder}/theirs")
    if theirs is None:
        return len(come), len(ours), "-", "its pipeline does not run"
    if stream.codec in FRAMES:
        theirs = [md5(frame) for frame in theirs]
        matcher = difflib.SequenceMatcher(None, ours, theirs, autojunk=False)
        common = sum(block.size for block in matcher.get_matching_blocks())
        told = "the same" if ours == theirs else f"{common} the same, {len(ours) - common} ours alone, {len(theirs) - common} theirs alone"
        return len(come), len(ours), len(theirs), told
    theirs = b"".join(theirs)
    told = "the same" if ours == theirs else f"{len(ours)} bytes and {len(theirs)}"
    return len(come), f"{len(ours)} bytes", f"{len(theirs)} bytes", told


def main():
    count = same = 0
    print("| stream | condition | packets | frames out | GStreamer's | |\n|---|---|---|---|---|---|")
    for stream in all_streams():
        if (sys.argv[1:] and stream.name not in sys.argv[1:]) or stream.codec not in DEPAYLOADERS:
            continue
        for condition in conditions.ALL:
            with tempfile.TemporaryDirectory() as folder:
                packets, ours, theirs, told = compared(stream, condition, folder)
            print(f"| {stream.title} | {condition.__name__} | {packets} | {ours} | {theirs} | {told} |", flush=True)
            count, same = count + 1, same + (told == "the same")
    print(f"{count} compared, {same} the same")


if __name__ == "__main__":
    main()
