"""What this library and other stacks do with the same losses and restarts: the packets of a run, and what its units say."""
import random
import struct
import subprocess

SSRC, OTHER_OFFSET = 7, 1_234_567_890
KEYFRAMES_EACH, PACKETS = 60, 3
TAIL = 3_000  # ms at the end of a run, whose units may still wait


def frame_of(kind, number):
    """The bytes of a frame: each is different, and a keyframe of VP8 each two seconds."""
    noise = random.Random(number)
    if kind == "opus":
        return b"\xf8" + struct.pack(">I", number) + noise.randbytes(115)
    head = b"\x10\x02\x00\x9d\x01\x2a\x40\x01\xf0\x00" if number % KEYFRAMES_EACH == 0 else b"\x11\x02\x00"
    return head + struct.pack(">I", number) + noise.randbytes(1_200 - 4 - len(head))


class Sender:
    """Packets of RFC 3550 with Opus of 20 ms, or with VP8 of 30 frames a second, three packets each (RFC 7741, PictureID of 15 bits)."""

    def __init__(self, kind, first, offset):
        self.kind, self.number, self.offset = kind, first, offset

    def packets(self, frame, picture):
        """The packets of a frame with this place in the run, `picture` frames after the sender began."""
        data = frame_of(self.kind, picture)
        if self.kind == "opus":
            parts, time, tick = [data], 20 * frame, 960 * frame
        else:
            size = len(data) // PACKETS
            pieces = [data[size * i:size * (i + 1)] for i in range(PACKETS)]
            head = [bytes([0x80 | (0x10 if i == 0 else 0), 0x80]) + struct.pack(">H", 0x8000 | picture % 0x8000) for i in range(PACKETS)]
            parts, time, tick = [a + b for a, b in zip(head, pieces)], 100 * frame // 3, 3_000 * frame
        made = []
        for place, payload in enumerate(parts):
            mark = 0x80 if self.kind == "vp8" and place == len(parts) - 1 else 0
            header = struct.pack(">BBHII", 0x80, 96 | mark, self.number % 65_536, (tick + self.offset) % 2**32, SSRC)
            made.append((time + place, header + payload))
            self.number += 1
        return made


def rate(kind):
    return 50 if kind == "opus" else 30


def steady(kind, seconds):
    """The frames of one sender: pairs of a frame's bytes and its packets."""
    sender = Sender(kind, 1_000, 0)
    return [(frame_of(kind, it), sender.packets(it, it)) for it in range(rate(kind) * seconds)]


def one_lost(kind):
    """Ten seconds, of which one packet is lost after five: of VP8 the second one of a delta frame, 29 frames before a keyframe."""
    frames = steady(kind, 10)
    del frames[5 * rate(kind)][1][1 if kind == "vp8" else 0]
    return frames


def restarted(kind, step):
    """Five seconds, and five of another sender under the same SSRC: its first number is `step` above that of the last packet."""
    half = 5 * rate(kind)
    first = Sender(kind, 30_000, 0)
    frames = [(frame_of(kind, it), first.packets(it, it)) for it in range(half)]
    second = Sender(kind, first.number - 1 + step, OTHER_OFFSET)
    # The second sender begins with a keyframe; its frames are others than those of the first one.
    start = KEYFRAMES_EACH * 100
    return frames + [(frame_of(kind, start + it), second.packets(half + it, start + it)) for it in range(half)]


def lossy(kind):
    """A minute, of which each packet is lost with a probability of 10 %."""
    chance = random.Random(1)
    return [(data, [it for it in packets if chance.random() >= 0.1]) for data, packets in steady(kind, 60)]


LOSSY = "10 % lost"
RUNS = {
    "one packet lost": one_lost,
    "restart, 20,000 numbers lower": lambda kind: restarted(kind, -20_000),
    "restart, 20,000 numbers higher": lambda kind: restarted(kind, 20_000),
    LOSSY: lossy,
}


def units_of(words, kind, frames):
    """The units of a program that reads this schedule: pairs of a millisecond and bytes."""
    arrivals = sorted((it for _, packets in frames for it in packets), key=lambda it: it[0])
    given = "".join(f"{at} {data.hex()}\n" for at, data in arrivals)
    ran = subprocess.run([*words, kind], input=given, capture_output=True, text=True, check=True)
    return [(int(at), bytes.fromhex(data)) for at, data in (it.split(" ") for it in ran.stdout.splitlines())]


def result(kind, run, words):
    """What came of a run, without its last seconds: the longest time between two units in ms, how many frames arrived whole, how many
    of these were not released, and how many units are no frame that was sent."""
    frames = RUNS[run](kind)
    last = max(at for _, packets in frames for at, _ in packets)
    whole = PACKETS if kind == "vp8" else 1
    counted = [data for data, packets in frames if len(packets) == whole and packets[-1][0] <= last - TAIL]
    units, sent = units_of(words, kind, frames), {data for data, _ in frames}
    times = [at for at, _ in units] + [last]
    released = {data for _, data in units}
    return {
        "longest": max(later - time for time, later in zip(times, times[1:])) if units else last,
        "arrived": len(counted),
        "missing": sum(it not in released for it in counted),
        "damaged": sum(data not in sent for _, data in units),
    }


def cell(kind, run, words):
    """The longest time between two units, the frames that are missing, and the damaged ones if there are any."""
    it = result(kind, run, words)
    missing = f"{it['missing']:,}" if run != LOSSY else f"{100 * (it['arrived'] - it['missing']) / it['arrived']:.0f} %"
    return f"{it['longest']:,}; {missing}" + (f"; {it['damaged']} damaged" if it["damaged"] else "")
