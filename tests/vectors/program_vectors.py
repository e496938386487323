"""Inputs of the program payload_vectors, each with its output and status.

The outputs are worked out by the RFCs of the formats and of the buffer (docs/use/FORMATS.md, BUFFER.md). tests/vectors/process.py runs them
through the program, and c/tests/inputs.py gives the same inputs to the library for C.
"""
from typing import NamedTuple

OPUS = "codec opus 48000 0 10 0\n"
FIRST_RUN = f"{OPUS}sample 960 0 909090\nsend 0 2\npush 0\npush 1\npop\npop\npop\n"
FIRST_OUTPUT = "sent 2\npacket 10 0 9090\npacket 11 0 90\nunit 10 10 1 9090\nunit 11 11 1 90\nnone\n"


class Row(NamedTuple):
    """An input, its standard output, its exit status and its standard error."""

    name: str
    given: str | bytes
    output: str = ""
    status: int = 0
    message: str = ""


def bad(name, given, line):
    """An input that ends with a bad line with that number and prints nothing else."""
    return Row(name, given, "", 2, f"bad line {line}\n")


RUNS = [
    Row("the first run", FIRST_RUN, FIRST_OUTPUT),
    Row("a script without steps", OPUS, ""),
    Row(
        "telephone events: an MTU below two reports refuses them",
        "codec tele 8000 0 1 0\nsample 0 1 058a0320060a0140\nsend 0 7\nsend 0 8\npush 0\npop\n",
        "refused 2\nsent 1\npacket 1 1 058a0320060a0140\nunit 1 1 1 058a0320\n",
    ),
    Row(
        "telephone events: five bytes are sent, and are no report",
        "codec tele 8000 0 1 0\nsample 0 0 058a032006\nsend 0 1200\npush 0\npop\npop\n",
        "sent 1\npacket 1 0 058a032006\nfault 15\nnone\n",
    ),
    # At an MTU below 9 the second frame is skipped. It has used a TL0PICIDX, so the unit after it is not contiguous with the
    # first.
    Row(
        "VP9: a frame that is skipped",
        "codec vp9 90000 0 1 0\nsample 0 0 824983\nsample 3000 0 8600\nsend 0 1200\nsend 1 8\nsend 1 1200\npush 0\npush 1\n"
        "pop\npop\n",
        "sent 1\npacket 1 1 ae8000100100824983\nsent 0\nsent 1\npacket 2 1 ec800110038600\nunit 1 1 1 824983\n"
        "unit 2 2 0 8600\n",
    ),
    Row(
        "VP8 with picture ids",
        "codec vp8-id 90000 0 1 32\nsample 0 0 909090\nsample 3000 0 9191\nsend 0 5\nsend 1 5\npush 0\npush 1\npush 2\npop\npop\n",
        "sent 2\npacket 1 0 9080209090\npacket 2 1 80802090\nsent 1\npacket 3 1 9080219191\nunit 1 2 1 909090\n"
        "unit 3 3 1 9191\n",
    ),
    Row(
        "VP8 without picture ids",
        "codec vp8 90000 0 1 32\nsample 0 0 909090\nsample 3000 0 9191\nsend 0 2\nsend 1 2\n",
        "sent 3\npacket 1 0 1090\npacket 2 0 0090\npacket 3 1 0090\nsent 2\npacket 4 0 1091\npacket 5 1 0091\n",
    ),
    Row(
        "VP8: the picture id wraps",
        "codec vp8-id 90000 0 1 32767\nsample 0 0 90\nsend 0 5\nsend 0 5\n",
        "sent 1\npacket 1 1 9080ffff90\nsent 1\npacket 2 1 90800090\n",
    ),
    Row(
        "VP9 in two packets",
        "codec vp9 90000 0 1 4660\nsample 0 0 824983\nsend 0 10\npush 0\npush 1\npop\n",
        "sent 2\npacket 1 0 aa92341001008249\npacket 2 1 a49234100183\nunit 1 2 1 824983\n",
    ),
    Row(
        "VP9 in the flexible mode",
        "codec vp9-flex 90000 0 1 4660\nsample 0 0 824983\nsend 0 5\npush 0\npush 1\npop\n",
        "sent 2\npacket 1 0 9892348249\npacket 2 1 94923483\nunit 1 2 1 824983\n",
    ),
    Row(
        "comfort noise: one packet, no marker",
        "codec cn 8000 0 1 0\nsample 0 1 2a8040\nsend 0 1200\npush 0\npop\n",
        "sent 1\npacket 1 0 2a8040\nunit 1 1 1 2a8040\n",
    ),
    Row(
        "AMR-WB: a frame of type 14, in the bandwidth-efficient layout",
        "codec amrwb 16000 0 1 0\nsample 0 1 74\nsend 0 1200\npush 0\npop\n",
        "sent 1\npacket 1 1 f740\nunit 1 1 1 74\n",
    ),
    Row(
        "AMR-WB: the same octet-aligned",
        "codec amrwb-octet 16000 0 1 0\nsample 0 0 74\nsend 0 1200\npush 0\npop\n",
        "sent 1\npacket 1 0 f074\nunit 1 1 1 74\n",
    ),
    Row("AMR-WB: the greatest fault", "codec amrwb 16000 0 1 0\nsample 0 0 50\nsend 0 1200\n", "refused 16\n"),
    Row(
        "null: an empty frame is one packet",
        "codec null 8000 0 1 0\nsample 5 1 -\nsend 0 0\nsend 7 9\npush 0\npush 0\npush 9\npop\npop\n",
        "sent 1\npacket 1 0 -\nunit 1 1 1 -\nnone\n",
    ),
    Row(
        "numbers above 65,535 are printed whole",
        "codec opus 48000 0 70000 0\nsample 960 0 9090\nsend 0 2\npush 0\npop\n",
        "sent 1\npacket 70000 0 9090\nunit 70000 70000 1 9090\n",
    ),
    Row("1,500 steps", OPUS + "pop\n" * 1_500, "none\n" * 1_500),
]

# Packet 11 is missing: with a hold-back of 1, packet 12 waits until packet 13 is there too, and with 0 it does not wait. Packet
# 11 then comes too late.
HELD_BACK = (
    "sample 0 0 0a\nsample 960 0 0b\nsample 1920 0 0c\nsample 2880 0 0d\n"
    "send 0 9\nsend 1 9\nsend 2 9\nsend 3 9\npush 0\npop\npush 2\npop\npush 3\npop\npush 1\npop\n"
)
FOUR_SENT = "".join(f"sent 1\npacket {10 + place} 0 0{letter}\n" for place, letter in enumerate("abcd"))
HOLD_BACKS = [
    Row(f"a hold-back of {hold_back}", f"codec opus 48000 {hold_back} 10 0\n{HELD_BACK}", FOUR_SENT + units)
    for hold_back, units in [
        (1, "unit 10 10 1 0a\nnone\nunit 12 12 0 0c\nunit 13 13 1 0d\n"),
        (0, "unit 10 10 1 0a\nunit 12 12 0 0c\nunit 13 13 1 0d\nnone\n"),
    ]
]

# The three packets of a frame. A buffer of two evicts the first, wherever the line with the limit stands.
LIMITS = [
    Row(
        f"a limit: {before or behind or 'none'}".strip(),
        f"codec vp8 90000 0 1 0\n{before}sample 0 0 909090\nsend 0 2\npush 0\npush 1\npush 2\npop\n{behind}",
        f"sent 3\npacket 1 0 1090\npacket 2 0 0090\npacket 3 1 0090\n{popped}",
    )
    for before, behind, popped in [
        ("limit 2\n", "", "none\n"),
        ("", "limit 2\n", "none\n"),
        ("limit 3\n", "", "unit 1 3 1 909090\n"),
        ("", "limit 065536\n", "unit 1 3 1 909090\n"),
        ("", "", "unit 1 3 1 909090\n"),
    ]
]

# Three units of two packets each; packet 11 arrives after 12, and packet 13 is lost. docs/use/PROGRAM.md has it, and
# scripts/pictures.py draws it.
UNDER_LOSS = Row(
    "three units, a packet lost and one late",
    "codec vp8 90000 0 10 0\nsample 0 0 909090\nsample 3000 0 919191\nsample 6000 0 929292\nsend 0 3\nsend 1 3\nsend 2 3\n"
    "push 0\npop\npush 2\npop\npush 1\npop\npush 4\npop\npush 5\npop\npop\n",
    "sent 2\npacket 10 0 109090\npacket 11 1 0090\nsent 2\npacket 12 0 109191\npacket 13 1 0091\n"
    "sent 2\npacket 14 0 109292\npacket 15 1 0092\nnone\nnone\nunit 10 11 1 909090\nnone\nunit 14 15 0 929292\nnone\n",
)

# Two packets of three and two bytes, 960 ticks apart; the second arrives. With the first inside, it has 10 bytes. The step
# gives the number of the first.
FIRST_ALONE = "sent 1\npacket 7 0 60010203\nsent 1\npacket 8 0 600405\n"
WITH_FIRST = "sent 1\npacket 7 0 60010203\nsent 1\npacket 8 0 e00f0003600102030405\n"
REDS = [
    Row(
        "RED: the second of three packets repeats the first, which is lost",
        f"{OPUS}red 960 1200 1\nsample 960 0 0102\nsample 1920 0 0304\nsample 2880 0 05\nsend 0 1200\nsend 1 1200\nsend 2 1200\n"
        "push 1\npush 2\npop\npop\npop\npop\n",
        "sent 1\npacket 10 0 600102\nsent 1\npacket 11 0 e00f00026001020304\nsent 1\npacket 12 0 e00f000260030405\n"
        "unit 10 10 1 0102\nunit 11 11 1 0304\nunit 12 12 1 05\nnone\n",
    )
] + [
    Row(
        line,
        f"codec opus 48000 0 7 0\nsample 0 0 010203\nsample 960 0 0405\nsend 0 1200\nsend 1 1200\npush 1\npop\npop\n{line}\n",
        sent + units,
    )
    for line, sent, units in [
        ("red 960 10 1", WITH_FIRST, "unit 7 7 1 010203\nunit 8 8 1 0405\n"),
        ("red 960 9 1", FIRST_ALONE, "unit 8 8 1 0405\nnone\n"),
        ("red 960 1200 -", FIRST_ALONE, "unit 8 8 1 0405\nnone\n"),
        ("red 480 1200 1", WITH_FIRST, "unit 6 6 1 010203\nunit 8 8 0 0405\n"),
        ("red 961 1200 1", WITH_FIRST, "unit 8 8 1 0405\nnone\n"),
        ("red 960 1200 2", FIRST_ALONE, "unit 8 8 1 0405\nnone\n"),
        ("red 00960 1200 1,3,8", WITH_FIRST, "unit 7 7 1 010203\nunit 8 8 1 0405\n"),
        ("red 960 1200 1,2,3,4,5,6,7,8", WITH_FIRST, "unit 7 7 1 010203\nunit 8 8 1 0405\n"),
    ]
]

ACCEPTED = [
    Row(
        "zeros in front of numbers",
        "codec opus 0048000 00 10 000\nsample 0960 0 9090\nsend 00 002\n",
        "sent 1\npacket 10 0 9090\n",
    ),
    Row("capitals in bytes", f"{OPUS}sample 960 0 aBCd\nsend 0 2\n", "sent 1\npacket 10 0 abcd\n"),
    Row("a sample behind its step", f"{OPUS}send 0 2\nsample 960 0 9090\n", "sent 1\npacket 10 0 9090\n"),
    Row(
        "the greatest numbers",
        "codec null 1 18446744073709551615 4611686018427387904 32767\nsample 18446744073709551615 0 00\n"
        "send 0 18446744073709551615\n",
        "sent 1\npacket 4611686018427387904 0 00\n",
    ),
    Row("the greatest rate, and steps without their samples", "codec null 4294967295 0 1 0\nsend 0 1\npush 0\n", ""),
    Row("G.711 by the mu law", "codec pcmu 8000 0 1 0\npop\n", "none\n"),
    Row("G.711 by the A law", "codec pcma 8000 0 1 0\npop\n", "none\n"),
    Row("G.722", "codec g722 8000 0 1 0\npop\n", "none\n"),
    Row("as long as an input may be", "codec opus " + "0" * 1_048_552 + "48000 0 10 0\n", ""),
]

BAD_SETUPS = [
    "",
    "\n",
    "pop\n",
    "sample 960 0 9090\ncodec opus 48000 0 10 0\n",
    "limit 2\ncodec opus 48000 0 10 0\n",
    "red 960 1200 1\ncodec opus 48000 0 10 0\n",
    "codec opus 48000 0 10 0",
    "codec speex 48000 0 10 0\n",
    "codec Opus 48000 0 10 0\n",
    "codec opus 0 0 10 0\n",
    "codec opus 4294967296 0 10 0\n",
    "codec opus 48000 18446744073709551616 10 0\n",
    "codec opus 48000 0 4611686018427387905 0\n",
    "codec opus 48000 0 10 32768\n",
    "codec opus +48000 0 10 0\n",
    "codec opus 48000 0 10\n",
    "codec opus 48000 0 10 0 0\n",
    "codec opus 48000 0 10 0\r\n",
    "codec vp8-ids 90000 0 10 0\n",
    "codec vp9-id 90000 0 10 0\n",
    "codec vp9-flex 90000 0 10 32768\n",
]

# After the line with the codec; a line without a newline at its end is bad as well.
BAD_SECOND_LINES = [
    "codec opus 48000 0 10 0\n",
    "pop",
    "push 0",
    "send 0 1",
    "sample 0 0 90",
    "pull\nshove\n",
    "pop \n",
    " pop\n",
    "send  0 1\n",
    "send 0 -1\n",
    "send 0 18446744073709551616\n",
    "push\n",
    "push 0x1\n",
    "push" + " 2" * 175_000 + "\n",
    "sample 18446744073709551616 0 90\n",
    "sample 0 2 90\n",
    "sample 0 00 90\n",
    "sample 0 0 909\n",
    "sample 0 0 9g\n",
    "sample 0 0 --\n",
    "sample 0 0 \n",
    "sample 0 0 é\n",
    "limit 0\n",
    "limit 65537\n",
    "limit -1\n",
    "limit\n",
    "limit 2 2\n",
    "red 0 1200 1\n",
    "red 16384 1200 1\n",
    "red -1 1200 1\n",
    "red 960 1200 0\n",
    "red 960 1200 9\n",
    "red 960 1200 2,1\n",
    "red 960 1200 1,1\n",
    "red 960 1200 1,\n",
    "red 960 1200 ,1\n",
    "red 960 1200 \n",
    "red 960 1200 -,1\n",
    "red 960 1200 4294967297\n",
    "red 960 1200\n",
    "red 960 x 1\n",
    "red 960 1200 1,2,3,4,5,6,7,8,9\n",
    "red 960 1200 1" + "".join(f",{place + 2}" for place in range(20_000)) + "\n",
    "red 960 1200 1" + ",2" * 175_000 + "\n",
]

BAD = (
    [bad(f"bad setup {place}", given, 1) for place, given in enumerate(BAD_SETUPS)]
    + [bad(f"bad line {place}", OPUS + given, 2) for place, given in enumerate(BAD_SECOND_LINES)]
    + [
        bad("an empty line behind a step", f"{OPUS}pop\n\n", 3),
        bad("a second RED line", f"{OPUS}red 960 1200 1\nred 960 1200 1\n", 3),
        bad("a second limit", f"{OPUS}limit 2\npop\nlimit 2\n", 4),
        bad("a byte that is no text", OPUS.encode() + b"\xff\n", 2),
        Row("longer by a byte", "codec opus " + "0" * 1_048_553 + "48000 0 10 0\n", "", 2, "input too long\n"),
        Row("two million newlines", "\n" * 2_000_000, "", 2, "input too long\n"),
        Row("zeros", b"\0" * 1_048_577, "", 2, "input too long\n"),
    ]
)

ROWS = [*RUNS, *HOLD_BACKS, *LIMITS, UNDER_LOSS, *REDS, *ACCEPTED, *BAD]
