#!/usr/bin/python3
"""Compares frames in a folder, a file each, with a list of the sender's: frames.py NAME LIST FOLDER. The list is of ffmpeg's framemd5."""
import hashlib
import os
import sys

name, listed, folder = sys.argv[1:]
with open(listed, encoding="utf-8") as it:
    rows = [line.split(",") for line in it if line.strip() and line[0] != "#"]
wanted = [(int(row[4]), row[5].strip()) for row in rows]
found = []
for entry in sorted(os.listdir(folder)):
    with open(f"{folder}/{entry}", "rb") as it:
        frame = it.read()
    # AV1 in GStreamer begins with a temporal delimiter, which RTP does not carry.
    frame = frame[2:] if "av1" in name and frame[:2] == b"\x12\0" else frame
    found.append((len(frame), hashlib.md5(frame).hexdigest()))
print(f"{name}: {len(found)} of {len(wanted)} frames, {'equal' if found == wanted else 'DIFFERENT'}")
sys.exit(found != wanted)
