#!/usr/bin/env python3
"""Records each stream of captures/ under each condition, and compares the files with the frames that the encoders gave.

  tests/test_captures.py [PROGRAM]     by default ./rtp_record

The expected frames are computed here from the packets of the clean capture, without the library. Of video they are the frames of
which every packet arrived and which a decoder can show: keyframes, and each frame that follows such a frame without a gap. Of audio
they are each packet's media. ffprobe and ffmpeg read each file without an error, and no time falls. Needs ffmpeg. The last line is `N passed, N failed`."""

import hashlib
import os
import subprocess
import sys
import tempfile

import capture
import conditions
from recorded import CAPTURES, FRAMES, HERE, all_streams

RAW = {"pcmu": "mulaw", "pcma": "alaw", "g722": "g722"}
AMR_WB_MAGIC = b"#!AMR-WB\n"


def words(*command):
    return subprocess.run(command, capture_output=True, check=False)


def is_av1(path):
    return b"av1" in words("ffprobe", "-v", "error", "-show_entries", "stream=codec_name", "-of", "csv=p=0", path).stdout


def md5s_in(path, track="0"):
    """The MD5 of each frame of a track."""
    # IVF and OBU files have temporal delimiters, which are not part of the frames
    bare = ["-bsf:v", "av1_metadata=td=remove"] if is_av1(path) else []
    lines = words("ffmpeg", "-v", "error", "-i", path, "-map", track, "-c", "copy", "-copyinkf", *bare, "-f", "framemd5", "-").stdout.decode()
    return [line.split(",")[5].strip() for line in lines.splitlines() if line[0] != "#"]


def found_in(codec, path):
    """What is in a file, as Recorded.wanted has it."""
    if codec == "amrwb":
        with open(path, "rb") as file:
            data = file.read()
        assert data.startswith(AMR_WB_MAGIC)
        return data[len(AMR_WB_MAGIC) :]
    if codec in FRAMES:
        return md5s_in(path)
    return words("ffmpeg", "-v", "error", "-i", path, "-c", "copy", "-f", RAW[codec], "-").stdout


def told(value):
    return f"{len(value)} frames" if isinstance(value, list) else f"{len(value)} bytes {hashlib.md5(value).hexdigest()}"


def faults_of_file(path):
    """What ffmpeg says against a file, and whether a time falls."""
    read = words("ffmpeg", "-v", "error", "-i", path, "-c", "copy", "-f", "null", "-")
    if read.returncode or read.stderr:
        yield f"ffmpeg: {read.stderr.decode().strip()}"
    times = words("ffprobe", "-v", "error", "-show_entries", "packet=pts", "-of", "csv=p=0", path).stdout.split()
    times = [int(time.strip(b",")) for time in times if time.strip(b",").isdigit()]
    if any(after < before for before, after in zip(times, times[1:])):
        yield "a time falls"


def faults_of(program, stream, path, there, restart, folder):
    """Writes a capture into a folder, without frames that a decoder cannot show, and compares the stream's file."""
    os.mkdir(folder)
    ran = words(program, "--decodable", *stream.words, path, "-o", folder)
    if ran.returncode:
        yield f"status {ran.returncode}: {ran.stderr.decode().strip()}"
    files = [name for name in os.listdir(folder) if name.startswith(f"{stream.ssrc:08x}.") and not name.endswith(".json")]
    if len(files) != 1:
        yield f"{len(files)} files: {ran.stderr.decode().strip()}"
        return
    file = f"{folder}/{files[0]}"
    wanted, found = stream.wanted(stream.packets(), there, only_decodable=True, restart=restart), found_in(stream.codec, file)
    if wanted != found:
        yield f"expected {told(wanted)}, found {told(found)}"
    yield from faults_of_file(file)


def runs(folder):
    """Each stream under each condition: its title, the stream, a capture, the places of the packets that arrive, and the place of a
    restart. The first capture is the recorded one, with everything that sender and receiver sent."""
    for stream in all_streams():
        packets = stream.packets()
        yield f"{stream.title}, as it came", stream, f"{CAPTURES}/{stream.name}.pcap", set(range(len(packets))), None
        for condition in conditions.ALL:
            if condition is conditions.restarted and stream.repeats:
                continue  # a sender that begins anew has nothing to repeat; this one does
            come, there = condition(packets)
            path = f"{folder}/{stream.title.replace(' ', '-')}-{condition.__name__}.pcap"
            capture.write(path, come)
            restart = conditions.middle(packets) if condition is conditions.restarted else None
            yield f"{stream.title}, {condition.__name__}", stream, path, there, restart


def main():
    program = os.path.abspath(sys.argv[1] if len(sys.argv) > 1 else f"{HERE}/../rtp_record")
    passed = failed = 0
    with tempfile.TemporaryDirectory() as folder:
        for place, (title, stream, path, there, restart) in enumerate(runs(folder)):
            faults = list(faults_of(program, stream, path, there, restart, f"{folder}/{place}"))
            for fault in faults:
                print(f"{title}: {fault}")
            passed, failed = passed + (not faults), failed + bool(faults)
    print(f"{passed} passed, {failed} failed")
    return 1 if failed else 0


if __name__ == "__main__":
    sys.exit(main())
