#!/usr/bin/env python3
"""Writes scripts for the program payload_vectors into a folder, one per file.

  c/tests/inputs.py FOLDER

They are its stored input, the inputs of tests/vectors/program_vectors.py, and two hundred that a fixed generator makes for all codecs,
with lost, repeated and late packets. The generator is part of this script, so its numbers are the same everywhere.
"""
import os
import sys

ROOT = os.path.dirname(os.path.dirname(os.path.dirname(os.path.realpath(__file__))))
VECTORS = f"{ROOT}/crates/payload_vectors"
sys.path.insert(0, f"{ROOT}/tests/vectors")

from program_vectors import ROWS  # noqa: E402  (the folder is known only now)

GENERATED = 200
CODECS = ["opus", "pcmu", "pcma", "g722", "cn", "amrwb", "amrwb-octet", "tele", "vp8", "vp8-id", "vp9", "vp9-flex", "av1", "null"]
# The length of the speech of an AMR-WB frame in bytes, by its type (RFC 4867, section 3.6).
SPEECH = {0: 17, 1: 23, 2: 32, 3: 36, 4: 40, 5: 46, 6: 50, 7: 58, 8: 60, 9: 5, 14: 0, 15: 0}


def stored():
    """The program's stored input, and the inputs of its test vectors."""
    with open(f"{VECTORS}/stdin", encoding="utf-8") as it:
        yield it.read()
    for row in ROWS:
        yield row.given


class Numbers:
    """A linear congruential generator of 64 bits, of which the high bits are used."""

    def __init__(self, seed):
        self.state = seed

    def below(self, bound):
        self.state = (self.state * 6364136223846793005 + 1442695040888963407) % 2**64
        return (self.state >> 33) % bound

    def one_of(self, choices):
        return choices[self.below(len(choices))]

    def bytes(self, count):
        return bytes(self.below(256) for _ in range(count))


def leb128(number):
    return bytes([number]) if number < 128 else bytes([number % 128 + 128, number // 128])


def frame_of(codec, numbers):
    if codec == "av1" and numbers.below(12):
        obus = [(numbers.one_of([1, 3, 6, 6, 2]), numbers.bytes(numbers.below(200))) for _ in range(1 + numbers.below(4))]
        return b"".join(bytes([kind << 3 | 2]) + leb128(len(body)) + body for kind, body in obus)
    if codec.startswith("amrwb") and numbers.below(12):
        kind = numbers.one_of(list(SPEECH))
        return bytes([kind << 3 | 4 * numbers.below(2)]) + numbers.bytes(SPEECH[kind])
    if codec == "tele" and numbers.below(12):
        return numbers.bytes(4 * (1 + numbers.below(3)))
    if codec.startswith("vp9") and numbers.below(3) == 0:
        return bytes([0x82]) + numbers.bytes(numbers.below(300))
    return numbers.bytes(numbers.below(300))


def generated(seed):
    numbers = Numbers(seed)
    codec = CODECS[seed % len(CODECS)]
    rate = numbers.one_of([8000, 16000, 48000, 90000])
    first = numbers.one_of([0, 100, 65530, 2**32 - 3, 2**62])
    lines = [f"codec {codec} {rate} {numbers.below(4)} {first} {numbers.one_of([0, 126, 32766, numbers.below(32768)])}"]
    if numbers.below(3) == 0:
        lines.append(f"limit {1 + numbers.below(12)}")
    if numbers.below(3) == 0:
        budget = numbers.one_of([0, 40, 300, 1200, 2**64 - 1])
        lines.append(f"red {numbers.one_of([960, 960, 960, 480, 700])} {budget} {numbers.one_of(['-', '1', '1,3', '2,5,8'])}")
    count = 2 + numbers.below(9)
    for place in range(count):
        time = 960 * place if numbers.below(8) else 2**64 - 1 - numbers.below(2000)
        lines.append(f"sample {time} {numbers.below(2)} {frame_of(codec, numbers).hex() or '-'}")
    mtus = [0, 1, 3, 9, 20, 60, 100, 1200]
    samples = [place if numbers.below(10) else numbers.below(count + 2) for place in range(count)]
    sends = [f"send {sample} {numbers.one_of(mtus)}" for sample in samples]
    rest = [f"push {numbers.below(30)}" for _ in range(40)] + [f"push {place}" for place in range(24)] + ["pop"] * 12
    for place in range(len(rest) - 1, 0, -1):
        other = place - numbers.below(min(place + 1, 1 + numbers.below(20)))
        rest[place], rest[other] = rest[other], rest[place]
    # Sends come before the pushes, and some among them.
    early = numbers.below(count + 1)
    for send in sends[early:]:
        rest.insert(numbers.below(len(rest)), send)
    return "\n".join([*lines, *sends[:early], *rest, *["pop"] * 8]) + "\n"


def main(folder):
    os.makedirs(folder, exist_ok=True)
    texts = [*((f"stored-{place:03}", it) for place, it in enumerate(stored()))]
    texts += [(f"generated-{seed:03}", generated(seed)) for seed in range(GENERATED)]
    for name, text in texts:
        with open(f"{folder}/{name}", "wb") as to:
            to.write(text if isinstance(text, bytes) else text.encode())
    print(len(texts))


if __name__ == "__main__":
    if len(sys.argv) != 2:
        sys.exit(__doc__)
    main(sys.argv[1])
