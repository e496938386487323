"""What packets of video say of the frames to which theirs refer: dependency descriptors (AV1 RTP specification, appendix A), and VP9's
payload descriptors in the flexible mode (RFC 9628, section 4.2). It knows nothing of the library."""

import struct

DESCRIPTOR = "https://aomediacodec.github.io/av1-rtp-spec/#dependency-descriptor-rtp-header-extension"


def element(payload, wanted):
    """The element of a header extension with this id (RFC 8285), or None."""
    if not payload[0] & 0x10:
        return None
    at = 12 + 4 * (payload[0] & 0x0F)
    profile, words = struct.unpack_from(">HH", payload, at)
    rest = payload[at + 4 : at + 4 + 4 * words]
    while rest:
        if rest[0] == 0:
            rest = rest[1:]
            continue
        head, own, size = (1, rest[0] >> 4, (rest[0] & 15) + 1) if profile == 0xBEDE else (2, rest[0], rest[1])
        if own == wanted:
            return rest[head : head + size]
        rest = rest[head + size :]
    return None


class Bits:
    """Numbers of given bits, highest first."""

    def __init__(self, data):
        self.text = "".join(f"{byte:08b}" for byte in data)

    def take(self, count):
        taken, self.text = self.text[:count], self.text[count:]
        assert len(taken) == count, "a whole field"
        return int(taken or "0", 2)

    def below(self, count):
        """ns(count) of the AV1 bitstream specification, 4.10.7."""
        width = count.bit_length()
        value = self.take(width - 1)
        less = (1 << width) - count
        return value if value < less else (value << 1) - less + self.take(1)

    def differences(self, sized):
        """A list of distances: with their sizes in a frame, of 4 bits in a template."""
        found = []
        while size := self.take(2 if sized else 1):
            found.append(self.take(4 * size) + 1)
        return found


class Descriptors:
    """The dependency descriptors of a stream, in the order of its packets."""

    def __init__(self):
        self.templates, self.first, self.targets, self.latest = None, 0, 0, None

    def read_structure(self, bits):
        """Only references stay."""
        self.first, self.targets = bits.take(6), bits.take(5) + 1
        templates, spatial = 1, 0
        while (following := bits.take(2)) != 3:
            templates, spatial = templates + 1, spatial + (following == 2)
        bits.take(2 * templates * self.targets)
        self.templates = [bits.differences(False) for _ in range(templates)]
        if chains := bits.below(self.targets + 1):
            for _ in range(self.targets):
                bits.below(chains)
            bits.take(4 * chains * templates)
        if bits.take(1):
            bits.take(32 * (spatial + 1))

    def read(self, data):
        """The number of a frame and the numbers to which it refers, without wrapping; None if the packet does not start it."""
        bits = Bits(data)
        starts, _, template, number = bits.take(1), bits.take(1), bits.take(6), bits.take(16)
        differences = None
        if len(data) > 3:
            structure, active, indications, own, _ = (bits.take(1) for _ in range(5))
            if structure:
                self.read_structure(bits)
            bits.take(self.targets if active else 0)
            bits.take(2 * self.targets if indications else 0)
            differences = bits.differences(True) if own else None
        if not starts:
            return None
        if differences is None:
            differences = self.templates[(template - self.first) % 64]
        number += 0 if self.latest is None else round((self.latest - number) / 65536) * 65536
        self.latest = number
        return number, {number - difference for difference in differences}


def by_descriptors(units, wanted):
    """For each unit, which is a list of payloads, its frames and those to which they refer; None if it has no descriptor."""
    reader, said = Descriptors(), []
    for unit in units:
        frames, references = set(), set()
        for data in filter(None, (element(payload, wanted) for payload in unit)):
            if found := reader.read(data):
                frames.add(found[0])
                references |= found[1]
        said.append((frames, references - frames) if frames else None)
    return said


def picture_of(media):
    """The picture id of a payload of VP9 in the flexible mode and its P_DIFFs; None of another payload."""
    if not media[0] & 0x80 or not media[0] & 0x10:
        return None
    at = 3 if media[1] & 0x80 else 2
    picture = (media[1] & 0x7F) << 8 | media[2] if at == 3 else media[1]
    at += bool(media[0] & 0x20)
    differences = []
    while media[0] & 0x40 and (not differences or media[at - 1] & 1):
        differences.append(media[at] >> 1)
        at += 1
    return picture, differences


def by_pictures(units):
    """The same by the P_DIFFs of VP9: for each unit, which is a list of media, its picture and those to which it refers."""
    said, latest = [], None
    for unit in units:
        found = [picture_of(media) for media in unit]
        if None in found:
            said.append(None)
            continue
        number = found[0][0] + (0 if latest is None else round((latest - found[0][0]) / 32768) * 32768)
        latest = number
        said.append(({number}, {number - difference for _, differences in found for difference in differences}))
    return said
