#!/usr/bin/env python3
"""A call of Chromium whose sender goes from VP8 to VP9 in the middle, on one SSRC: each format is a file of its own, and a track of
its own with --mux, and holds the frames that the encoder gave of it.

  tests/test_change.py [PROGRAM]

Needs ffmpeg. The last line is `N passed, N failed`."""

import json
import sys
import tempfile

from checks import PROGRAM, check, status_of_checks
from recorded import CAPTURES
from test_captures import md5s_in, words

NAME = f"{CAPTURES}/chromium-change"
SSRC = "decd26fd"
GIVEN = [PROGRAM, "--sdp", f"{NAME}.sdp", f"{NAME}.pcap"]


def of_encoder(codec):
    """The MD5 of each frame that the encoder gave of a codec."""
    with open(f"{NAME}.video.md5", encoding="ascii") as lines:
        columns = [[word.strip() for word in line.split(",")] for line in lines]
    return [line[5] for line in columns if line[7] == codec]


def files_of_their_own(folder):
    ran = words(*GIVEN, "-o", folder, "--json")
    check(ran.returncode == 0, f"status {ran.returncode}: {ran.stderr.decode()}")
    listed = [it for it in json.loads(ran.stdout)["streams"] if it["ssrc"] == SSRC]
    check([it["codec"] for it in listed] == ["VP8", "VP9"], "the list has a line for each format")
    check([it["payload_types"] for it in listed] == [{"96": 41}, {"98": 28}], "each line counts the packets of its format")
    check([(it["lost"], it["gaps"], it["left_out"]) for it in listed] == [(0, 0, 0)] * 2, "nothing is lost or left out")
    check(md5s_in(f"{folder}/{SSRC}.webm") == of_encoder("vp8"), "the first file has the frames of VP8")
    check(md5s_in(f"{folder}/{SSRC}-2.webm") == of_encoder("vp9"), "the second file has the frames of VP9")


def tracks_of_their_own(folder):
    path = f"{folder}/all.mkv"
    ran = words(*GIVEN, "--mux", path)
    check(ran.returncode == 0, f"--mux: status {ran.returncode}: {ran.stderr.decode()}")
    check(md5s_in(path, "0:0") == of_encoder("vp8"), "the first track has the frames of VP8")
    check(md5s_in(path, "0:1") == of_encoder("vp9"), "the second track has the frames of VP9")


with tempfile.TemporaryDirectory() as home:
    files_of_their_own(f"{home}/files")
    tracks_of_their_own(home)
sys.exit(status_of_checks())
