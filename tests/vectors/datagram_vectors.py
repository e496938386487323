"""Inputs of the program payload_datagrams, each with its output and status.

The outputs are worked out by RFC 3550, RFC 2198, RFC 4588 and the rules in docs/use/DATAGRAMS.md, by hand or by the few lines of Python
here that follow the RFCs. tests/vectors/process.py runs them through the program.
"""
import os
import struct

from program_vectors import Row, bad

OPUS = "stream opus 48000 96\n"
OPEN = f"{OPUS}wait 1000 0 50\n"
WAITS = f"{OPEN}ssrc 7\n"
FIRST = 65_536
# After a restart numbers begin at the second multiple of 65,536 above the highest.
RESTARTED = 3 * FIRST


def rtp(number, payload="", kind=96, time=0, ssrc=7, marker=0, padding=0, csrcs=(), extension=None):
    """An RTP packet as hexadecimal digits (RFC 3550, section 5.1). An extension is a profile and its data."""
    first = 0x80 | (0x20 if padding else 0) | (0x10 if extension else 0) | len(csrcs)
    fixed = struct.pack(">BBHII", first, marker << 7 | kind, number % 65_536, time % 2**32, ssrc)
    words = b"".join(struct.pack(">I", csrc) for csrc in csrcs)
    if extension:
        profile, data = extension
        words += struct.pack(">HH", profile, len(data) // 4) + data
    tail = bytes(padding - 1) + bytes([padding]) if padding else b""
    return (fixed + words + bytes.fromhex(payload) + tail).hex()


def came(now, *fields, **named):
    return f"datagram {now} {rtp(*fields, **named)}\n"


def unit(number, payload, contiguous=1, time=0):
    """A unit of one packet. The first unit's time has 2^32 on top."""
    return f"unit {number} {number} {contiguous} {2**32 + time} {payload}\n"


def red(primary, *older, kind=96):
    """A RED payload: older blocks are a payload type, an offset and bytes (RFC 2198, section 3)."""
    heads = b"".join(struct.pack(">BHB", 128 | k, offset << 2 | len(data) // 2 >> 8, len(data) // 2 % 256) for k, offset, data in older)
    return (heads + bytes([kind])).hex() + "".join(data for _, _, data in older) + primary


DEATHS = [
    Row(
        "the first packet is 0, and the second 65535",
        WAITS + "receive\n" + came(0, 0, "00") + came(0, 65_535, "01") + came(0, 1, "02") + "pop 0\n" * 4,
        "held\n" * 3 + unit(FIRST - 1, "01") + unit(FIRST, "00") + unit(FIRST + 1, "02") + "none\n",
    ),
    Row(
        "50000, and then 30000 and on",
        WAITS + "receive\n" + came(0, 50_000, "00") + "pop 0\n" + came(1, 30_000, "01") + came(2, 30_001, "02") + came(3, 30_002, "03")
        + "pop 51\n" * 3 + "deadline\npop 52\npop 53\ncounters\n",
        "held\n" + unit(FIRST + 50_000, "00") + "suspect\nrestarted\nheld\n" + unit(RESTARTED + 30_000, "01", 0)
        + unit(RESTARTED + 30_001, "02") + unit(RESTARTED + 30_002, "03") + "deadline -\nnone\nnone\n"
        "counters received 4 released 4 restarts 1 units 4\n",
    ),
    Row(
        "padding alone each tenth packet",
        WAITS + "receive\n" + "".join(came(0, n, "", padding=4) if n % 10 == 9 else came(0, n, f"{n:02x}") for n in range(21))
        + "pop 0\n" * 20,
        ("held\n" * 9 + "no media\n") * 2 + "held\n"
        + "".join(unit(FIRST + n, f"{n:02x}") for n in range(21) if n % 10 != 9) + "none\n",
    ),
    Row(
        "telephone events beside the audio",
        f"{WAITS}no_media 101\nreceive\n" + came(0, 10, "00") + came(0, 11, "058a0320", kind=101) + came(0, 12, "058a0320", kind=101)
        + came(0, 13, "01") + "pop 0\npop 0\npop 0\n",
        "held\nno media\nno media\nheld\n" + unit(FIRST + 10, "00") + unit(FIRST + 13, "01") + "none\n",
    ),
    Row(
        "the first two packets are swapped",
        f"{OPUS}wait 1000 1 50\nssrc 7\nreceive\n" + came(0, 11, "01") + "pop 0\ndeadline\n" + came(1, 10, "00") + "pop 1\npop 1\n",
        "held\nnone\ndeadline 50\nheld\n" + unit(FIRST + 10, "00") + unit(FIRST + 11, "01"),
    ),
    Row(
        "the end of a stream with a gap",
        WAITS + "receive\n" + came(0, 10, "00") + "pop 0\n" + came(0, 12, "02") + came(0, 14, "04") + "pop 0\nfinish\n" + "pop 0\n" * 3,
        "held\n" + unit(FIRST + 10, "00") + "held\nheld\nnone\n" + unit(FIRST + 12, "02", 0) + unit(FIRST + 14, "04", 0) + "none\n",
    ),
    # Of 16 places 2 are kept free: with 15 packets held the frame after the gap is due, though it waits by number alone.
    Row(
        "a gap never outlives the buffer",
        f"{OPUS}wait - 0 -\nlimit 16\nssrc 7\nreceive\n" + came(0, 10, "00") + "pop 0\n"
        + "".join(came(n, n, f"{n:02x}") + f"pop {n}\n" for n in range(12, 27)) + "pop 26\n" * 15 + "counters\n",
        "held\n" + unit(FIRST + 10, "00") + "held\nnone\n" * 14 + "held\n" + unit(FIRST + 12, "0c", 0)
        + "".join(unit(FIRST + n, f"{n:02x}") for n in range(13, 27)) + "none\ncounters received 16 released 16 units 16\n",
    ),
    # 23 frames of type 15, which have no speech, are 0.46 s in a packet: 30 of such packets are 14 s, and max_wait is 100 ms.
    Row(
        "AMR-WB with 23 frames a packet behind a gap",
        "stream amrwb-octet 16000 96\nwait 30 0 100\nssrc 7\nreceive\n" + came(0, 0, "f0" + "fc" * 22 + "7c") + "pop 0\n"
        + came(460, 2, "f0" + "fc" * 22 + "7c", time=14_720) + "pop 559\ndeadline\npop 560\n",
        "held\n" + f"unit {FIRST} {FIRST} 1 {2**32} " + "7c" * 23 + "\nheld\nnone\ndeadline 560\n"
        + f"unit {FIRST + 2} {FIRST + 2} 0 {2**32 + 14_720} " + "7c" * 23 + "\n",
    ),
]

OUTCOMES = [
    Row(
        "each outcome, and the sum",
        f"{WAITS}limit 2\nreceive\n" + came(0, 10, "00") + came(0, 10, "00") + "pop 0\n" + came(0, 9, "00") + came(0, 40_000, "00")
        + came(0, 11, "00", ssrc=8) + came(0, 11, "00", kind=97) + "datagram 0 80c80000\ndatagram 0 00\n" + came(0, 12, "02")
        + came(0, 13, "03") + came(0, 14, "04") + "counters\n",
        "held\nduplicate\n" + unit(FIRST + 10, "00") + "late\nsuspect\nother stream\nother stream\nrtcp\n"
        "malformed: RTP packet is shorter than its fixed header\nheld\nheld\nevicted\n"
        "counters received 11 rtcp 1 malformed 1 other 2 duplicates 1 late 1 suspect 1 evicted 1 held 2 released 1 units 1\n",
    ),
    Row(
        "strays whose numbers do not follow one another do not restart a stream",
        WAITS + "receive\n" + "".join(came(0, n, "00") for n in (10, 40_000, 11, 40_002, 20_000, 40_003, 12)) + "counters\n",
        "held\nsuspect\nheld\nsuspect\nsuspect\nsuspect\nheld\ncounters received 7 suspect 4 held 3\n",
    ),
    Row(  # RFC 3550, appendix A.1: a packet within the windows does not clear bad_seq
        "a suspect packet stays over a packet within the windows",
        WAITS + "receive\n" + "".join(came(0, n, "00") for n in (10, 40_000, 11, 40_001)) + "counters\n",
        "held\nsuspect\nheld\nrestarted\ncounters received 4 held 4 restarts 1\n",
    ),
    Row(
        "a restart that the caller tells, with another SSRC",
        OPEN + "receive\n" + came(0, 10, "00") + "finish\npop 0\n" + came(0, 11, "01", ssrc=8) + "restart\n" + came(0, 5, "02", ssrc=8)
        + came(0, 11, "03") + came(0, 6, "04", ssrc=8) + "pop 0\npop 50\npop 50\ncounters\n",
        "undecided\n" + unit(FIRST + 10, "00") + "other stream\nundecided\nundecided\nheld\nnone\n" + unit(RESTARTED + 5, "02", 0)
        + unit(RESTARTED + 6, "04") + "counters received 5 other 2 released 3 restarts 1 units 3\n",
    ),
    Row(
        "packets that wait are counted, and the first of them comes out at the end",
        OPEN + "receive\n" + came(0, 10, "00") + came(0, 5, "01", ssrc=8) + "counters\nfinish\ncounters\npop 0\ncounters\n",
        "undecided\nundecided\ncounters received 2 undecided 2\ncounters received 2 other 1 held 1\n" + unit(FIRST + 10, "00")
        + "counters received 2 other 1 released 1 units 1\n",
    ),
    Row(
        "the SSRC that is set stays over a restart",
        f"{WAITS}ssrc 7\nreceive\n" + came(0, 5, "00", ssrc=8) + came(0, 10, "00") + "restart\n" + came(0, 11, "00", ssrc=8)
        + came(0, 11, "01"),
        "other stream\nheld\nother stream\nrestarted alone\n",
    ),
    Row(
        "no restart is found behind the end of a stream",
        WAITS + "receive\n" + came(0, 10, "00") + "finish\n" + "".join(came(0, n, "00") for n in (40_000, 40_001, 40_002)),
        "held\nsuspect\nsuspect\nsuspect\n",
    ),
    Row(
        "times go on over the wrap of 32 bits, and one before the first is below it",
        WAITS + "receive\n" + came(0, 10, "00", time=2**32 - 960) + came(0, 11, "01", time=0) + came(0, 12, "02", time=960)
        + came(0, 13, "03", time=2**32 - 1_920) + "pop 0\n" * 4,
        "held\n" * 4 + unit(FIRST + 10, "00", time=2**32 - 960) + unit(FIRST + 11, "01", time=2**32) + unit(FIRST + 12, "02", time=2**32 + 960)
        + unit(FIRST + 13, "03", time=2**32 - 1_920),
    ),
]

MISSING = [
    Row(
        "what is missing, and what comes again under its own number",
        WAITS + "receive\nmissing 9\n" + "".join(came(0, n, "00") for n in (10, 12, 15)) + "missing 9\nmissing 2\nmissing 0\n"
        + came(0, 13, "", padding=4) + "missing 9\npop 0\npop 0\nmissing 9\n",
        f"missing\nheld\nheld\nheld\nmissing {FIRST + 11} {FIRST + 13} {FIRST + 14}\nmissing {FIRST + 11} {FIRST + 13}\nmissing\n"
        f"no media\nmissing {FIRST + 11} {FIRST + 14}\n" + unit(FIRST + 10, "00") + f"none\nmissing {FIRST + 11} {FIRST + 14}\n",
    ),
]


def sent_again(now, number, payload, **named):
    """A retransmission: its original number precedes its payload (RFC 4588, section 4)."""
    return came(now, named.pop("own", 500), f"{number:04x}{payload}", kind=97, ssrc=9, **named)


AGAIN = f"{WAITS}again 9 97\nreceive\n"
RETRANSMISSIONS = [
    Row(
        "a packet that is sent again, and again",
        AGAIN + came(0, 10, "00") + came(0, 12, "02") + sent_again(5, 11, "01", time=960) + sent_again(6, 11, "01", own=501, time=960)
        + "pop 6\n" * 3 + sent_again(7, 11, "01", own=502) + "missing 9\ncounters\n",
        "held\nheld\nheld\nduplicate\n" + unit(FIRST + 10, "00") + unit(FIRST + 11, "01", time=960) + unit(FIRST + 12, "02") + "late\nmissing\n"
        "counters received 5 duplicates 1 late 1 released 3 retransmitted 1 units 3\n",
    ),
    Row(
        "nothing in it, one byte, and a number alone",
        AGAIN + came(0, 10, "00") + came(0, 1, "", kind=97, ssrc=9) + came(0, 2, "", kind=97, ssrc=9, padding=200)
        + came(0, 3, "00", kind=97, ssrc=9) + sent_again(0, 11, "") + "counters\n",
        "held\nno media\nno media\nmalformed: the retransmission has no original sequence number\nheld\n"
        "counters received 5 malformed 1 no_media 2 held 2 retransmitted 1\n",
    ),
    Row(
        "of another SSRC, of another type, and far from all others: no restart is found",
        AGAIN + came(0, 10, "00") + came(0, 1, "000b01", kind=97, ssrc=10) + came(0, 2, "000b01", kind=98, ssrc=9)
        + sent_again(0, 40_000, "00") + sent_again(0, 40_001, "00") + came(0, 40_002, "00") + "counters\n",
        "held\nother stream\nother stream\nlate\nlate\nsuspect\ncounters received 6 other 2 late 2 suspect 1 held 1\n",
    ),
    Row(
        "before any other packet",
        AGAIN + sent_again(0, 11, "01") + came(0, 12, "02") + "pop 0\npop 0\n",
        "held\nheld\n" + unit(FIRST + 11, "01") + unit(FIRST + 12, "02"),
    ),
]

RED = f"{WAITS}red 63 960\nreceive\n"


def in_red(now, number, payload, time, **named):
    return came(now, number, payload, kind=63, time=time, **named)


REDS = [
    Row(
        "two packets are lost, and the next carries both",
        RED + in_red(0, 10, red("00"), 0) + in_red(0, 13, red("03", (96, 1_920, "01"), (96, 960, "02")), 2_880) + "pop 0\n" * 5
        + "missing 9\ncounters\n",
        "held\nheld\n" + "".join(unit(FIRST + 10 + n, f"0{n}", time=960 * n) for n in range(4)) + "none\nmissing\n"
        "counters received 2 recovered 2 released 4 units 4\n",
    ),
    Row(
        "what came already is not recovered, nor is what is late",
        RED + in_red(0, 10, red("00"), 0) + "pop 0\n" + in_red(0, 11, red("01", (96, 960, "ff")), 960)
        + in_red(0, 12, red("02", (96, 1_920, "ff"), (96, 960, "ff")), 1_920) + "pop 0\npop 0\npop 0\ncounters\n",
        "held\n" + unit(FIRST + 10, "00") + "held\nheld\n" + unit(FIRST + 11, "01", time=960) + unit(FIRST + 12, "02", time=1_920) + "none\n"
        "counters received 3 released 3 units 3\n",
    ),
    Row(
        "the packet before the first is recovered, over the wrap of numbers and times",
        RED + in_red(0, 0, red("01", (96, 960, "00")), 480) + "pop 0\npop 0\n",
        f"held\nunit {FIRST - 1} {FIRST - 1} 1 {2**33 - 480} 00\nunit {FIRST} {FIRST} 1 {2**33 + 480} 01\n",
    ),
    Row(
        "a primary block of another type: the older block goes in, and no frame waits for the packet",
        f"{WAITS}red 63 960\nno_media 101\nreceive\n" + in_red(0, 10, red("00"), 0)
        + in_red(0, 12, red("058a0320", (96, 960, "01"), kind=101), 1_920) + in_red(0, 13, red("03"), 2_880) + "pop 0\n" * 4 + "counters\n",
        "held\nno media\nheld\n" + unit(FIRST + 10, "00") + unit(FIRST + 11, "01", time=960) + unit(FIRST + 13, "03", time=2_880)
        + "none\ncounters received 3 recovered 1 no_media 1 released 3 units 3\n",
    ),
    Row(
        "blocks of another type, of no whole step, and too far back are none",
        RED + in_red(0, 10, red("00"), 0) + in_red(0, 20, red("0a", (96, 8_640, "01"), (101, 960, "02"), (96, 961, "03"), (96, 0, "04")), 9_600)
        + "missing 20\ncounters\n",
        "held\nheld\nmissing" + "".join(f" {FIRST + n}" for n in range(11, 20)) + "\ncounters received 2 held 2\n",
    ),
    Row(
        "payloads that are no RED: empty, cut in a header, cut in a block",
        RED + in_red(0, 10, red("00"), 0) + in_red(0, 11, "", 960) + in_red(0, 11, "e00f00", 960) + in_red(0, 11, "e00f000260ff", 960)
        + "missing 9\ncounters\n",
        "held\n" + "malformed: invalid RED payload\n" * 3 + "missing\ncounters received 4 malformed 3 held 1\n",
    ),
    Row(
        "padding alone under the type of RED, and the media's own type beside it",
        RED + in_red(0, 10, red("00"), 0) + in_red(0, 11, "", 960, padding=7) + came(0, 12, "02", time=1_920) + "pop 0\npop 0\n",
        "held\nno media\nheld\n" + unit(FIRST + 10, "00") + unit(FIRST + 12, "02", time=1_920),
    ),
    # Number 11 is padding that is lost, so the block of 12 seems to be of number 11. Its time came with number 10.
    Row(
        "padding is lost: a block of a time that came is not stored under the number of the padding",
        RED + in_red(0, 10, red("00"), 0) + in_red(0, 12, red("01", (96, 960, "00")), 960) + "pop 0\n" * 2 + "pop 50\n" * 2 + "counters\n",
        "held\nheld\n" + unit(FIRST + 10, "00") + "none\n" + unit(FIRST + 12, "01", 0, 960) + "none\ncounters received 2 released 2 units 2\n",
    ),
    # The same, and number 11 is late: its block is stored under 12, and the packet itself repeats it.
    Row(
        "padding is lost: a late packet does not repeat the block that was stored for it, and is not waited for",
        RED + in_red(0, 10, red("00"), 0) + in_red(0, 13, red("02", (96, 960, "01")), 1_920)
        + in_red(0, 11, red("01", (96, 960, "00")), 960) * 2 + "pop 0\n" * 4 + "counters\n",
        "held\nheld\nno media\nno media\n" + unit(FIRST + 10, "00") + unit(FIRST + 12, "01", time=960)
        + unit(FIRST + 13, "02", time=1_920) + "none\ncounters received 4 recovered 1 no_media 2 released 3 units 3\n",
    ),
    Row(
        "the packet of a recovered block is a duplicate where it has the block's number",
        RED + in_red(0, 10, red("00"), 0) + in_red(0, 12, red("02", (96, 960, "01")), 1_920) + in_red(0, 11, red("01", (96, 960, "00")), 960)
        + "pop 0\n" * 4 + "counters\n",
        "held\nheld\nduplicate\n" + unit(FIRST + 10, "00") + unit(FIRST + 11, "01", time=960) + unit(FIRST + 12, "02", time=1_920)
        + "none\ncounters received 3 recovered 1 duplicates 1 released 3 units 3\n",
    ),
    Row(
        "a number without media takes no block: the frame before the padding is not released again",
        RED + in_red(0, 10, red("00"), 0) + in_red(0, 11, "", 0, padding=7) + in_red(0, 12, red("01", (96, 960, "00")), 960) + "pop 0\n" * 3
        + "counters\n",
        "held\nno media\nheld\n" + unit(FIRST + 10, "00") + unit(FIRST + 12, "01", time=960)
        + "none\ncounters received 3 no_media 1 released 2 units 2\n",
    ),
    Row(
        "a suspect packet carries nothing; the one that confirms a restart does",
        RED + in_red(0, 10, red("00"), 0) + in_red(0, 30_000, red("05", (96, 960, "04")), 960_000)
        + in_red(0, 30_001, red("06", (96, 1_920, "04"), (96, 960, "05")), 960_960) + "finish\n" + "pop 0\n" * 5 + "counters\n",
        "held\nsuspect\nrestarted\n" + unit(FIRST + 10, "00") + unit(RESTARTED + 29_999, "04", 0, time=959_040)
        + unit(RESTARTED + 30_000, "05", time=960_000) + unit(RESTARTED + 30_001, "06", time=960_960) + "none\n"
        "counters received 3 recovered 1 released 4 restarts 1 units 4\n",
    ),
]


class Reported:
    """What RFC 3550 counts of one source, as the code of its sections A.1, A.3 and A.8 has it, of numbers within the windows."""

    def __init__(self):
        self.base = self.max = self.transit = None
        self.received = self.expected_prior = self.received_prior = self.jitter = 0

    def packet(self, number, time, arrival):
        if self.base is None:
            self.base = self.max = number
        self.max = max(self.max, number)
        self.received += 1
        transit = arrival - time
        if self.transit is not None:
            self.jitter += abs(transit - self.transit) - ((self.jitter + 8) >> 4)
        self.transit = transit

    def report(self):
        expected = self.max - self.base + 1
        lost = max(-0x800000, min(0x7FFFFF, expected - self.received))
        expected_interval = expected - self.expected_prior
        lost_interval = expected_interval - (self.received - self.received_prior)
        self.expected_prior, self.received_prior = expected, self.received
        fraction = 0 if expected_interval == 0 or lost_interval <= 0 else (lost_interval << 8) // expected_interval
        return f"report {fraction} {lost} {self.max - self.base // 65_536 * 65_536} {self.jitter >> 4}\n"


def reported(name, packets, every):
    """A test vector of packets, as extended numbers and arrivals in milliseconds, with a report after each `each`."""
    source, given, output = Reported(), WAITS + "limit 65536\nreceive\nreport\n", "report -\n"
    for place, (number, now) in enumerate(packets):
        time = number * 960
        source.packet(number, time, now * 48)
        given += came(now, number, "00", time=time)
        output += "held\n"
        if place % every == every - 1:
            given += "report\n"
            output += source.report()
    return Row(name, given, output)


REPORTS = [
    reported("reports: a clean stream", [(100 + n, 20 * n) for n in range(20)], 5),
    reported("reports: each tenth packet is lost, over the wrap of numbers", [(65_500 + n, 20 * n) for n in range(100) if n % 10], 25),
    reported("reports: packets come late, by no rule", [(7 + n, 20 * n + n * n * 7 % 31) for n in range(200)], 40),
    reported("reports: swapped pairs", [(1_000 + (n ^ 1), 20 * n) for n in range(64)], 7),
    reported("reports: burst losses", [(3 + n, 20 * n) for n in range(400) if n % 50 < 20], 10),
    Row(
        "reports: a packet that comes twice is counted twice, and what is recovered not",
        RED + in_red(0, 10, red("00"), 0) + in_red(0, 10, red("00"), 0) + in_red(40, 12, red("02", (96, 960, "01")), 1_920) + "report\nrestart\nreport\n",
        "held\nduplicate\nheld\nreport 0 0 12 0\nreport -\n",
    ),
]


def fault_of(packet):
    """Why bytes are not an RTP packet, in reading order, or None (RFC 3550, section 5.1)."""
    if len(packet) < 12:
        return "RTP packet is shorter than its fixed header"
    if packet[0] >> 6 != 2:
        return "RTP version is not 2"
    end = 12 + 4 * (packet[0] & 15)
    if len(packet) < end:
        return "RTP packet ends inside its CSRCs"
    if packet[0] & 0x10:
        if len(packet) < end + 4:
            return "RTP packet ends inside the header of its extension"
        end += 4 + 4 * struct.unpack(">H", packet[end + 2 : end + 4])[0]
        if len(packet) < end:
            return "RTP packet ends inside its extension"
    if packet[0] & 0x20:
        if end == len(packet) or packet[-1] > len(packet) - end:
            return "RTP padding exceeds the payload"
        if packet[-1] == 0:
            return "RTP padding length is 0"
    return None


def elements_of(profile, data):
    """The elements of an extension, as lines (RFC 8285, sections 4.2 and 4.3)."""
    lines, one_byte = "", profile == 0xBEDE
    while (one_byte or profile >> 4 == 0x100) and data:
        if data[0] == 0:
            data = data[1:]
        elif one_byte:
            id, size = data[0] >> 4, (data[0] & 15) + 1
            lines += f"element {id} {data[1 : 1 + size].hex()}\n"
            data = data[1 + size :]
        else:
            lines += f"element {data[0]} {data[2 : 2 + data[1]].hex() or '-'}\n"
            data = data[2 + data[1] :]
    return lines


def told(packet):
    """The printed form of a packet: its fault, or its parts. Its elements are whole, and none has the id 15."""
    fault = fault_of(packet)
    if fault:
        return f"malformed: {fault}\n"
    _, second, number, time, ssrc = struct.unpack(">BBHII", packet[:12])
    lines = f"rtp {second & 127} {second >> 7} {number} {time} {ssrc}\n"
    end = 12 + 4 * (packet[0] & 15)
    lines += "".join(f"csrc {csrc}\n" for (csrc,) in struct.iter_unpack(">I", packet[12:end]))
    if packet[0] & 0x10:
        profile, words = struct.unpack(">HH", packet[end : end + 4])
        data = packet[end + 4 : end + 4 + 4 * words]
        lines += f"extension {profile} {data.hex() or '-'}\n" + elements_of(profile, data)
        end += 4 + 4 * words
    padding = packet[-1] if packet[0] & 0x20 else 0
    return f"{lines}payload {packet[end : len(packet) - padding].hex() or '-'} {padding}\n"


def packet_rows(name, packets):
    """A row of packets, as bytes."""
    return Row(name, "".join(f"packet {it.hex() or '-'}\n" for it in packets), "".join(told(it) for it in packets))


def beginnings(name, packet):
    """Each beginning of a packet, and all of it."""
    return packet_rows(name, [packet[:end] for end in range(len(packet) + 1)])


WHOLE = bytes.fromhex(rtp(4_660, "0102030405", time=1, csrcs=(1, 2, 3), extension=(0xBEDE, bytes.fromhex("10aa220bbbcc0000"))))
PACKETS = [
    beginnings("each beginning of a packet with CSRCs and an extension", WHOLE),
    beginnings("each beginning of a padded packet", bytes.fromhex(rtp(1, "0102", padding=9, csrcs=(1,)))),
    Row(
        "all numbers of CSRCs",
        "".join(f"packet {rtp(n, 'ab', csrcs=range(n))}\n" for n in range(16)),
        "".join(f"rtp 96 0 {n} 0 7\n" + "".join(f"csrc {k}\n" for k in range(n)) + "payload ab 0\n" for n in range(16)),
    ),
    packet_rows(
        "extensions of 0 to 260 words and of 16,000, and the same with a byte less",
        [
            whole[: len(whole) - short]
            for words in (*range(261), 16_000)
            for whole in [bytes.fromhex(rtp(words, extension=(4_660, bytes(4 * words))))]
            for short in (0, 1)
        ],
    ),
    packet_rows(
        "each last byte of a padded packet of 0 to 260 bytes behind its header",
        [bytes.fromhex(rtp(0, padding=1))[:12] + bytes(size - 1) + bytes([last]) for size in (1, 2, 255, 256, 260) for last in range(256)],
    ),
    # The figures of RFC 8285, sections 4.2 and 4.3, with padding between elements and at the end.
    Row(
        "elements of both forms",
        f"packet {rtp(1, '', extension=(0xBEDE, bytes.fromhex('10aa21bbbb000033cccccccc')))}\n"
        f"packet {rtp(1, '', extension=(0x1000, bytes.fromhex('01000201bb000304cccccccc')))}\npacket 80c80000\n",
        "rtp 96 0 1 0 7\nextension 48862 10aa21bbbb000033cccccccc\nelement 1 aa\nelement 2 bbbb\nelement 3 cccccccc\npayload - 0\n"
        "rtp 96 0 1 0 7\nextension 4096 01000201bb000304cccccccc\nelement 1 -\nelement 2 bb\nelement 3 cccccccc\npayload - 0\nrtcp\n",
    ),
]

SENT = [
    Row(
        "a sample in two datagrams, received again",
        "send vp8 90000 96 7 65535 3\nsample 4294967296 0 909090\nsample 4294970296 0 91\nsample 0 0 -\n",
        f"sent 2\ndatagram {rtp(65_535, '109090')}\ndatagram {rtp(0, '0090', marker=1)}\n"
        f"sent 1\ndatagram {rtp(1, '1091', marker=1, time=3_000)}\nsent 0\n",
    ),
    Row("an MTU that is too small", f"send amrwb 16000 96 7 0 1\nsample 0 0 04{'00' * 17}\n", "refused 2\n"),
    Row("a payload type of 8 bits", "send opus 48000 128 7 0 1200\n", "refused: the payload type is above 127\n"),
]

REFUSED = [
    Row(f"settings out of range: {text}", f"{setup}receive\n", f"refused: {text}\n")
    for setup, text in [
        ("stream opus 48000 128\n", "the payload type is above 127"),
        (f"{OPUS}limit 0\n", "the limit of held packets is not 1 to 65536"),
        (f"{OPUS}limit 65537\n", "the limit of held packets is not 1 to 65536"),
        (f"{OPUS}windows 0 0\n", "forward window must be 1 to 32768"),
        (f"{OPUS}windows 32769 0\n", "forward window must be 1 to 32768"),
        (f"{OPUS}windows 100 100\n", "backward window must be less than the forward window"),
        (f"{OPUS}red 128 960\n", "RED payload type exceeds 127 or equals the media payload type"),
        (f"{OPUS}red 96 960\n", "RED payload type exceeds 127 or equals the media payload type"),
        (f"{OPUS}red 63 0\n", "RED step must be 1 to 16383"),
        (f"{OPUS}red 63 16384\n", "RED step must be 1 to 16383"),
        (f"{OPUS}again 9 128\n", "retransmission payload type exceeds 127"),
    ]
]

BAD_LINES = [
    "",
    "pop\n",
    "pop x\n",
    "pop 0 0\n",
    "pop 18446744073709551616\n",
    "receive\n",
    "finish \n",
    "datagram 0\n",
    "datagram 0 0\n",
    "datagram -1 00\n",
    "datagram 0 0g\n",
    "stream opus 0 96\n",
    "stream opus 48000 256\n",
    "stream speex 8000 96\n",
    "wait 0 0 x\n",
    "windows 65536 0\n",
    "red 63\n",
    "sample 0 0 00\n",
    "send opus 48000 96 4294967296 0 1200\n",
    "packet 0\n",
    "missing -1\n",
]
BAD = (
    [bad(f"bad line of datagrams {place}", f"{OPUS}receive\nfinish\n{line}\n", 4) for place, line in enumerate(BAD_LINES)]
    + [bad(f"without a receiver: {line}", f"{line}\n", 1) for line in ("pop 0", "datagram 0 00", "counters", "receive", "limit 1", "sample 0 0 00")]
    + [bad("a byte that is no text, of datagrams", OPUS.encode() + b"\xff\n", 2)]
)


def captured():
    """The packets of real senders, by their names, with what tshark tells of each: tests/vectors/captured_packets.txt, made by
    tests/vectors/capture.sh."""
    path = os.path.join(os.path.dirname(os.path.realpath(__file__)), "captured_packets.txt")
    senders = {}
    with open(path, encoding="utf-8") as lines:
        for line in lines:
            if line.startswith("# "):
                packets = senders.setdefault(line[2:].strip(), [])
            elif line.strip():
                packet, *told_parts = line.rstrip("\n").split("\t")
                packets.append((packet, told_parts))
    return senders


def played(sender, stream, packets):
    """A row that plays a sender's audio: each packet of the stream is a unit with the payload that tshark tells, and so is the
    primary block of each packet in RED (RFC 2198, section 3), here behind at most one older block. No SSRC is named, so the first
    packet waits for the second."""
    codec, rate, kind, *red_kind = stream.split()
    setup = f"stream {codec} {rate} {kind}\nwait 1000 0 50\n" + (f"red {red_kind[0]} 960\n" if red_kind else "")
    given = outcomes = units = ""
    first = None
    for packet, parts in packets:
        given += f"datagram 0 {packet}\n"
        _, its_kind, _, number, time, ssrc = parts[0].split()
        if its_kind not in (kind, *red_kind):
            outcomes += "other stream\n"
            continue
        first = first or (int(number), int(time))
        payload = bytes.fromhex(parts[-1].split()[1])
        if its_kind in red_kind:
            older = int.from_bytes(payload[2:4], "big") % 1_024 if payload[0] & 0x80 else None
            payload = payload[1:] if older is None else payload[5 + older :]
        outcomes += "held\n" if units else "undecided\n"
        place = FIRST + first[0] + (int(number) - first[0]) % 65_536
        units += unit(place, payload.hex(), time=first[1] + (int(time) - first[1]) % 2**32)
    return Row(f"played: {sender}", setup + "receive\n" + given + "pop 0\n" * (len(packets) + 1), outcomes + units + "none\n" * (
        len(packets) + 1 - units.count("\n")))


AUDIO = {
    "GStreamer, Opus with the level of the audio": "opus 48000 96",
    "GStreamer, Opus in RED": "opus 48000 96 63",
    "GStreamer, G.711": "pcmu 8000 0",
    "ffmpeg, Opus": "opus 48000 97",
    "ffmpeg, G.711": "pcma 8000 8",
    "Chromium, audio and video": "opus 48000 111",
}
CAPTURED = [
    Row(
        f"captured: {sender}",
        "".join(f"packet {packet}\n" for packet, _ in packets),
        "".join("".join(f"{part}\n" for part in parts) for _, parts in packets),
    )
    for sender, packets in captured().items()
] + [played(sender, stream, captured()[sender]) for sender, stream in AUDIO.items()]

ROWS = DEATHS + OUTCOMES + MISSING + RETRANSMISSIONS + REDS + REPORTS + PACKETS + SENT + REFUSED + BAD + CAPTURED
