#!/usr/bin/env python3
"""Calls of VP8 in layers, each with every single frame lost: what is written as decodable is decoded, and each picture is compared
with the picture that the same frame has in the whole call.

  tests/test_pictures.py [PROGRAM]

The calls are those of captures/layers, by Chromium. For each frame its packets are taken out, and `--decodable` writes the frames
that a decoder can show. ffmpeg decodes them by libvpx. Each frame must be one of the encoder's, and each picture the same as without
a loss. And no frame is withheld that libwebrtc would show, by its rule, which is here in Python. One exception: a frame above the
base layer is skipped if the frame before it is not there (docs/use/LIMITS.md), so it counts as lost for libwebrtc too. Decoded
without `--decodable`, some pictures must differ: else the comparison would show nothing. Needs ffmpeg with libvpx. The last line is
`N passed, N failed`."""

import collections
import concurrent.futures
import dataclasses
import glob
import os
import subprocess
import sys
import tempfile

import capture
from checks import PROGRAM, check, status_of_checks
from recorded import CAPTURES

LAYERS = f"{CAPTURES}/layers"
TYPE_OF_VP8 = 96
# Which losses are also decoded without `--decodable`: each of so many.
OF_ALL_EACH = 7


@dataclasses.dataclass(frozen=True)
class Frame:
    """A frame of the encoder: the MD5 of its bytes, and what its payload descriptor says of its layer (RFC 7741, section 4.2)."""

    md5: str
    is_key: bool
    packets: tuple
    picture: int
    base: int
    layer: int
    is_sync: bool


def layer_of(media):
    """PictureID, TL0PICIDX, TID and Y of a payload that has all of them."""
    assert media[0] & 0x80 and media[1] & 0xE0 == 0xE0, "a payload with I, L and T"
    wide = media[2] >> 7
    picture = (media[2] & 0x7F) << 8 | media[3] if wide else media[2]
    return picture, media[3 + wide], media[4 + wide] >> 6, bool(media[4 + wide] & 0x20)


def unwrapped(numbers, period):
    """Numbers without their wraps."""
    found = numbers[:1]
    for number in numbers[1:]:
        found.append(found[-1] + (number - found[-1] + period // 2) % period - period // 2)
    return found


def frames_of(ssrc, path):
    """The frames of an SSRC, in the encoder's order."""
    with open(path, encoding="ascii") as file:
        lines = [line.split() for line in file]
    packets = collections.defaultdict(list)
    for packet in capture.media_of(capture.read(f"{LAYERS}/{os.path.basename(path).split('-')[0]}.pcap"), ssrc):
        packets[packet.timestamp].append(packet)
    assert list(packets) == [int(line[0]) for line in lines], f"{path}: the frames are those of the capture"
    layers = [layer_of(of_frame[0].media) for of_frame in packets.values()]
    pictures, bases = unwrapped([it[0] for it in layers], 1 << 15), unwrapped([it[1] for it in layers], 1 << 8)
    return [
        Frame(line[3], line[1] == "key", tuple(of_frame), picture, base, layer, sync)
        for line, of_frame, picture, base, (_, _, layer, sync) in zip(lines, packets.values(), pictures, bases, layers)
    ]


class Libwebrtc:
    """The rule of libwebrtc for VP8 (RtpVp8RefFinder::ManageFrameInternal, modules/video_coding/rtp_vp8_ref_finder.cc): to which
    frames one refers. A frame is withheld if it has to wait for another one, or if one of its references is withheld."""

    def __init__(self):
        self.layers = {}  # for each TL0PICIDX the latest picture of each layer
        self.missing, self.latest, self.shown = set(), None, set()

    def update(self, frame):
        base = frame.base
        while base in self.layers and self.layers[base].get(frame.layer, -1) < frame.picture:
            self.layers[base][frame.layer] = frame.picture
            base += 1

    def references(self, frame):
        """The pictures to which the frame refers; None if it has to wait."""
        if frame.is_key:
            self.layers[frame.base] = {}
            return []
        latest = self.layers.get(frame.base - 1 if frame.layer == 0 else frame.base)
        if latest is None:
            return None
        if frame.layer == 0:
            self.layers[frame.base] = dict(latest)
            return [latest[0]]
        if frame.is_sync:
            return [latest[0]]
        found = [latest.get(layer) for layer in range(frame.layer + 1)]
        if None in found or any(found[layer] < missing < frame.picture for layer in range(len(found)) for missing in self.missing):
            return None
        return found

    def take(self, frame):
        """Whether the frame is shown."""
        if self.latest is not None:
            self.missing |= set(range(self.latest + 1, frame.picture))
        self.latest = frame.picture
        references = self.references(frame)
        if references is None:
            self.missing.add(frame.picture)
            return False
        self.update(frame)
        if not self.shown.issuperset(references):
            return False
        self.shown.add(frame.picture)
        return True


def shown_by_libwebrtc(frames):
    rule = Libwebrtc()
    return {frame.md5 for frame in frames if rule.take(frame)}


def released(frames):
    """The frames that stay where one above the base layer is skipped if the frame before it is not there."""
    found = []
    for frame in frames:
        if frame.layer == 0 or found and found[-1].picture == frame.picture - 1:
            found.append(frame)
    return found


def decoded(path):
    """The MD5s of the frames of a file and of their pictures."""
    words = ["ffmpeg", "-v", "error", "-c:v", "libvpx", "-i", path]
    words += ["-map", "0:v", "-c", "copy", "-copyinkf", "-f", "framemd5", f"{path}.frames"]
    words += ["-map", "0:v", "-fps_mode", "passthrough", "-f", "framemd5", f"{path}.pictures"]
    ran = subprocess.run(words, capture_output=True, check=False)
    assert ran.returncode == 0, ran.stderr.decode()
    found = []
    for kind in ("frames", "pictures"):
        with open(f"{path}.{kind}", encoding="ascii") as lines:
            found.append([line.split(",")[5].strip() for line in lines if line[0] != "#"])
    return found


def written(packets, folder, *words):
    """The MD5s of the frames that the program writes of these packets, and of their pictures."""
    os.mkdir(folder)
    capture.write(f"{folder}/call.pcap", packets)
    out, given = f"{folder}/out.webm", ["-p", f"{TYPE_OF_VP8}=VP8/90000", f"{folder}/call.pcap"]
    ran = subprocess.run([PROGRAM, *words, *given, "-o", out], capture_output=True, check=False)
    # Without the keyframe nothing can be shown, and the status is 1.
    return decoded(out) if ran.returncode == 0 else ([], [])


@dataclasses.dataclass
class Loss:
    """What came of a call without one of its frames. The frames that libwebrtc shows are with and without the skipped ones."""

    place: int
    left: int
    frames: list
    wrong: int
    wrong_of_all: int
    by_libwebrtc: set
    by_libwebrtc_of_released: set


class Stream:
    """A stream of a call, with the pictures of the whole call."""

    def __init__(self, path, folder):
        self.name, self.folder = os.path.basename(path)[:-4], folder
        self.frames = frames_of(int(self.name.split("-")[1], 16), path)
        md5s, pictures = written([packet for frame in self.frames for packet in frame.packets], f"{folder}/{self.name}")
        check(md5s == [frame.md5 for frame in self.frames], f"{self.name}: the frames of the encoder, without a loss")
        check(len(set(md5s)) == len(md5s) == len(pictures), f"{self.name}: each frame is a picture, and differs from the others")
        self.pictures = dict(zip(md5s, pictures))

    def wrong(self, frames, pictures):
        """How many frames have other pictures than without a loss."""
        return sum(self.pictures.get(frame) != picture for frame, picture in zip(frames, pictures)) + abs(len(frames) - len(pictures))

    def without(self, place):
        folder = f"{self.folder}/{self.name}-{place}"
        left = self.frames[:place] + self.frames[place + 1 :]
        packets = [packet for frame in left for packet in frame.packets]
        frames, pictures = written(packets, folder, "--decodable")
        wrong_of_all = 0 if place % OF_ALL_EACH else self.wrong(*written(packets, f"{folder}-all"))
        by_libwebrtc = shown_by_libwebrtc(left), shown_by_libwebrtc(released(left))
        return Loss(place, len(left), frames, self.wrong(frames, pictures), wrong_of_all, *by_libwebrtc)


def check_loss(stream, loss):
    what = f"{stream.name} without frame {loss.place} of layer {stream.frames[loss.place].layer}"
    check(not set(loss.frames) - set(stream.pictures), f"{what}: a frame that the encoder did not make")
    check(loss.wrong == 0, f"{what}: {loss.wrong} of {len(loss.frames)} decodable frames have another picture")
    more = loss.by_libwebrtc_of_released - set(loss.frames)
    check(not more, f"{what}: {len(more)} frames are withheld that libwebrtc shows")


def check_stream(stream, losses):
    for loss in losses:
        check_loss(stream, loss)
    check(any(loss.wrong_of_all for loss in losses), f"{stream.name}: without --decodable all pictures are the same")
    ours = sum(loss.left - len(loss.frames) for loss in losses)
    theirs = sum(loss.left - len(loss.by_libwebrtc) for loss in losses)
    print(f"{stream.name}: {len(losses)} frames, each lost once: {ours} withheld or skipped, {theirs} withheld by libwebrtc")


def main():
    with tempfile.TemporaryDirectory() as folder, concurrent.futures.ThreadPoolExecutor(os.cpu_count()) as pool:
        paths = sorted(glob.glob(f"{LAYERS}/*.md5"))
        check(len(paths) >= 4, "the streams of the calls are there")
        for path in paths:
            stream = Stream(path, folder)
            check_stream(stream, list(pool.map(stream.without, range(len(stream.frames)))))
    return status_of_checks()


if __name__ == "__main__":
    sys.exit(main())
