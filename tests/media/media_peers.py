#!/usr/bin/env python3
"""Compares the facts that the library for C reads from frames with those of other readers.

    tests/media/media_peers.py             all comparisons; the last line counts them
    tests/media/media_peers.py rows        also writes some of the other readers' facts to c/tests/frames.txt, which c/tests/check.sh reads
    tests/media/media_peers.py times       the nanoseconds of one cpay_frame_info for each type of frame

The frames come from encoders (tests/media/media_frames.sh); headers of VP9 and AV1 are made field by field at random; and there are
hostile ones: beginnings, all strings of one and two bytes, and frames with a byte changed. The readers are ffmpeg's bitstream filter
`trace_headers` (VP9, AV1), ffprobe, ffmpeg's muxer of MP4 (av1C), libvpx (VP8) and libopus. If one of them refuses a frame that
the standard allows, it is left out. c/tests/frames.c queries the library, with and without the sanitizers.

Needs the library (`make`), a C compiler, and ffmpeg with libvpx, libaom and libopus.
"""

import collections
import ctypes
import ctypes.util
import pathlib
import random
import re
import struct
import subprocess
import sys
import tempfile

from media_made import av1_unit, vp9_frame

ROOT = pathlib.Path(__file__).resolve().parent.parent.parent
OPUS, AMR_WB, VP8, VP9, AV1 = 0, 5, 9, 10, 11
OK, NONE, TOO_SHORT, MARKER, RESERVED, SIZES = 0, 32, 38, 39, 40, 41
FAULTS = (TOO_SHORT, MARKER, RESERVED, SIZES)
LEAD = 40
counts = collections.Counter()
rows = collections.defaultdict(list)


def fail(message):
    sys.exit(f"media_peers: {message}")


def compare(what, frame, found, wanted):
    counts[what] += 1
    if found != wanted:
        fail(f"{what}: of {frame[:60].hex()} ({len(frame)} bytes): found {found}, expected {wanted}")


def compare_facts(what, codec, frame, found, status, key=None, size=None, duration=None):
    """Compares the result of cpay_frame_info, and keeps it as a test vector."""
    compare(what, frame, found[:4], (status, key, size, duration))
    size = "-" if size is None else "%dx%d" % size
    key = "-" if key is None else int(key)
    duration = "-" if duration is None else duration
    rows[codec, status, key, size == "-"].append(f"{codec} {frame.hex()} info={status} key={key} size={size} duration={duration}")


def write_rows(path):
    """A few for each codec and type of answer, of more than two bytes and at most about three hundred."""
    with open(path, "w") as file:
        for kind in sorted(rows, key=str):
            lines = sorted(line for line in set(rows[kind]) if 45 < len(line) < 700) or [min(rows[kind], key=len)]
            file.writelines(line + "\n" for line in random.sample(lines, min(len(lines), 8)))


# ---- the library ----

Told = collections.namedtuple("Told", "status key size duration parts records end")


def facts(text):
    fields = dict(field.split("=") for field in text.split())
    size = None if fields["size"] == "-" else tuple(map(int, fields["size"].split("x")))
    return (
        int(fields["info"]),
        None if fields["key"] == "-" else fields["key"] == "1",
        size,
        None if fields["duration"] == "-" else int(fields["duration"]),
    )


def line_facts(line):
    """The meaning of a line of the program. A part is its start, its size, its other fields, and for VP9 the facts of the frame."""
    front = re.match(r"info=\S+ key=\S+ size=\S+ duration=\S+", line).group()
    parts = []
    for start, size, rest, inner in re.findall(r"part=(\d+)\+(\d+):(\S+?)(?: record=\S+)?(?:\[(.*?)\])?(?= |$)", line):
        parts.append((int(start), int(size), tuple(map(int, rest.split(":"))), facts(inner) if inner else None))
    records = re.findall(r"record=(\d+):(\w*)", line)
    return Told(*facts(front), parts, records, int(re.search(r"end=(\d+)", line).group(1)))


def ask(program, mode, frames):
    lines = "".join(f"{codec} {frame.hex()}\n" for codec, frame in frames)
    done = subprocess.run([program, mode], input=lines, capture_output=True, text=True)
    if done.returncode:
        fail(f"frames {mode}: status {done.returncode}: {done.stderr}")
    return done.stdout.splitlines()


def facts_from(program, codec, frames):
    return [line_facts(line) for line in ask(program, "report", [(codec, frame) for frame in frames])]


def build(folder, name, flags):
    program = folder / name
    subprocess.run(
        ["cc", "-std=c99", "-O2", "-g", *flags, f"-I{ROOT}/include", ROOT / "c/tests/frames.c"]
        + [ROOT / "c/out/libcodec_payload.a", "-o", program],
        check=True,
    )
    return program


# ---- trace_headers ----

Field = collections.namedtuple("Field", "name value")
Section = collections.namedtuple("Section", "name fields")


class Packet:
    """What trace_headers prints of one packet: sections of fields, and the error that ended it."""

    def __init__(self):
        self.sections = []
        self.error = None

    def take(self, line):
        if field := re.match(r"\d+ +(\S+) +[01]* = (-?\d+)$", line):
            self.sections[-1].fields.append(Field(field.group(1), int(field.group(2))))
        elif re.search(r"out of range|nvalid|not supported|ended|ailed|nsupported|[Ee]rror|too ", line):
            self.error = self.error or line
        elif re.match(r"[A-Z][A-Za-z ]+$", line):
            self.sections.append(Section(line, []))


def trace(fourcc, frames, folder, reset):
    """The fields that trace_headers prints for each frame. Good frames precede them, so that ffmpeg opens the file."""
    path = folder / "traced.ivf"
    frames = [reset] * LEAD + frames
    with open(path, "wb") as file:
        file.write(struct.pack("<4sHH4sHHIIII", b"DKIF", 0, 32, fourcc, 64, 48, 30, 1, len(frames), 0))
        for number, frame in enumerate(frames):
            file.write(struct.pack("<IQ", len(frame), number) + frame)
    command = ["ffmpeg", "-hide_banner", "-loglevel", "repeat+info", "-nostdin", "-i", path, "-c", "copy"]
    command += ["-copyinkf", "-bsf:v", "trace_headers", "-f", "null", "-"]
    log = subprocess.run(command, capture_output=True, text=True, errors="replace").stderr
    packets = collections.defaultdict(Packet)
    packet = Packet()
    for line in log.splitlines():
        if not line.startswith("[trace_headers"):
            continue
        line = line.split("] ", 1)[-1]
        if begins := re.match(r"Packet: (\d+) bytes.* pts (\d+)", line):
            packet = packets[int(begins.group(2))]
        else:
            packet.take(line)
    if len(packets) != len(frames):
        fail(f"trace_headers reads {len(packets)} of {len(frames)} frames")
    return [packets[number] for number in range(LEAD, len(frames))]


def fault_of(error):
    """The fault for an error of trace_headers."""
    if "ended" in error:
        return TOO_SHORT
    if re.search(r"frame_marker|frame_sync_byte", error):
        return MARKER
    return RESERVED


# ---- VP9 ----


def vp9_needs(fields):
    """The last field that a reader of the front of a header needs, by those before it."""
    get = dict(fields).get
    if get("show_existing_frame"):
        return "frame_to_show_map_idx"
    if get("frame_type") == 0 or get("intra_only"):
        return "render_height_minus_1" if get("render_and_frame_size_different") else "render_and_frame_size_different"
    return "error_resilient_mode" if get("error_resilient_mode") and get("show_frame") else (
        "intra_only" if get("error_resilient_mode") else "reset_frame_context")


def vp9_wanted(section, error):
    """Status, keyframe and size of a frame. trace_headers lets any marker pass, RGB of profiles 0 and 2, and 4:2:0 of profiles
    1 and 3, which the specification forbids and libvpx refuses."""
    fields = section.fields
    names = [field.name for field in fields]
    get = dict(fields).get
    if get("frame_marker", 2) != 2:
        return (MARKER, None, None)
    if get("color_space") == 7 and not get("profile_low_bit"):
        return (RESERVED, None, None)
    if get("subsampling_x") and get("subsampling_y") and names[-1] != "subsampling_y":
        return (RESERVED, None, None)
    last = vp9_needs(fields)
    if last not in names or (error and names[-1] == last and last in error):
        return (fault_of(error), None, None)
    key = get("frame_type") == 0
    size = (get("frame_width_minus_1") + 1, get("frame_height_minus_1") + 1) if key or get("intra_only") else None
    return (OK, key, size)


def compare_vp9(what, program, frames, folder, reset):
    for frame, packet, found in zip(frames, trace(b"VP90", frames, folder, reset), facts_from(program, VP9, frames)):
        coded = [section for section in packet.sections if section.name == "Frame"]
        index = next((section.fields for section in packet.sections if section.name == "Superframe Index"), None)
        if not coded or index and [field.value for field in index[:3]] != [field.value for field in index[-3:]]:
            # It ignores a superframe whose sizes do not fit, and accepts an index whose ends differ.
            counts["not read by trace_headers"] += 1
            continue
        wanted = vp9_wanted(coded[0], packet.error if len(coded) == 1 else None)
        compare_facts(what, VP9, frame, found, *wanted)
        if not index:
            compare(what + ", one frame", frame, found.parts, [(0, len(frame), (0, 0, 0), found[:4])])
            continue
        sizes = [field.value for field in index if field.name.startswith("frame_sizes")]
        starts = [sum(sizes[:place]) for place in range(len(sizes))]
        compare(what + ", superframe", frame, [part[:2] for part in found.parts], list(zip(starts, sizes)))
        for place, section in enumerate(coded):
            wanted = vp9_wanted(section, packet.error if place == len(coded) - 1 else None)
            compare(what + ", frame of a superframe", frame, found.parts[place][3][:3], wanted)


# ---- AV1 ----

# The fields that trace_headers prints.
OBU_TYPES = (1, 2, 3, 4, 5, 6, 7, 8, 15)
# What trace_headers asks for beyond what a reader needs: values for which decoders are not made.
STRICTER = "(num_units_in_display_tick|time_scale|num_units_in_decoding_tick|chroma_sample_position) out of range"


def av1_wanted(packet):
    """Keyframe and size up to the first frame header, or a fault; None if trace_headers does not print them."""
    size, reduced = None, False
    for place, section in enumerate(packet.sections):
        error = packet.error if place == len(packet.sections) - 1 else None
        get = dict(section.fields).get
        if get("obu_has_size_field") == 0:
            return (RESERVED, None, None)
        if section.name == "Sequence Header":
            if get("film_grain_params_present") is None:
                return (fault_of(error), None, None) if error and not re.search(STRICTER, error) else None
            size = (get("max_frame_width_minus_1") + 1, get("max_frame_height_minus_1") + 1)
            reduced = get("reduced_still_picture_header") == 1
        elif section.name in ("Frame", "Frame Header"):
            if reduced:
                return (OK, True, size)
            if get("show_existing_frame") == 1:
                return (OK, False, size)
            if get("show_frame") is None:
                return (fault_of(error), None, None) if error else None
            return (OK, get("frame_type") == 0 and get("show_frame") == 1, size)
    return None if packet.error else (OK, None, size)


def record_wanted(fields):
    """The first four bytes of av1C (AV1 codec ISO media file format binding, 2.3.3) from the fields of trace_headers."""
    get = lambda name: dict(fields).get(name, 0)
    gray, profile = get("mono_chrome"), get("seq_profile")
    twelve = get("twelve_bit")
    srgb = (get("color_primaries"), get("transfer_characteristics"), get("matrix_coefficients")) == (1, 13, 0)
    half = (1, 1) if gray or profile == 0 and not srgb else (0, 0) if srgb or profile == 1 else (1, 0)
    if profile == 2 and twelve and not gray and not srgb:
        half = (get("subsampling_x"), get("subsampling_y"))
    third = get("seq_tier[0]") << 7 | get("high_bitdepth") << 6 | twelve << 5 | gray << 4
    third |= half[0] << 3 | half[1] << 2 | get("chroma_sample_position")
    return bytes([0x81, profile << 5 | get("seq_level_idx[0]"), third, 0])


def compare_av1(what, program, frames, folder, reset):
    """Between two of them stands a good unit, since trace_headers keeps the last sequence header."""
    doubled = [unit for frame in frames for unit in (reset, frame)]
    packets = trace(b"AV01", doubled, folder, reset)[1::2]
    for frame, packet, found in zip(frames, packets, facts_from(program, AV1, frames)):
        wanted = av1_wanted(packet)
        if wanted is None:
            counts["not read by trace_headers"] += 1
            continue
        compare_facts(what, AV1, frame, found, *wanted)
        header = next((section.fields for section in packet.sections if section.name == "Sequence Header"), [])
        if found.records and "film_grain_params_present" in dict(header):
            status, record = found.records[0]
            compare(what + ", av1C", frame, (int(status), bytes.fromhex(record)[:4]), (OK, record_wanted(header)))
        headers = [dict(section.fields) for section in packet.sections if section.name == "OBU header"]
        if not packet.error and all(header["obu_has_size_field"] for header in headers):
            types = [header["obu_type"] for header in headers]
            known = [part[2][0] for part in found.parts if part[2][0] in OBU_TYPES]
            # An OBU without a size ends the output here, and one of another type is not printed.
            behind = frame[sum(found.parts[-1][:2]) :]
            end = NONE if not behind or behind[0] & 2 else RESERVED
            compare(what + ", types of OBUs", frame, (known, found.end), (types, end))


def compare_record(program, ivf, units, folder):
    """The av1C that ffmpeg writes into an MP4 file."""
    path = folder / "record.mp4"
    subprocess.run(["ffmpeg", "-hide_banner", "-loglevel", "error", "-y", "-i", ivf, "-c", "copy", path], check=True)
    data = path.read_bytes()
    place = data.index(b"av1C")
    size = struct.unpack_from(">I", data, place - 4)[0]
    record = facts_from(program, AV1, units[:1])[0].records[0]
    compare("av1C in MP4", units[0], record, ("0", data[place + 4 : place - 4 + size].hex()))


# ---- VP8, Opus, AMR-WB ----


class StreamInfo(ctypes.Structure):
    _fields_ = [(name, ctypes.c_uint) for name in ("sz", "w", "h", "is_kf")]


def load(name):
    path = ctypes.util.find_library(name)
    return ctypes.CDLL(path) if path else fail(f"lib{name} is not there")


def compare_vp8(what, program, frames):
    """libvpx reads keyframes with a complete header; it checks neither a size of 0 nor whether the first partition fits."""
    vpx = load("vpx")
    vpx.vpx_codec_vp8_dx.restype = ctypes.c_void_p
    decoder = ctypes.c_void_p(vpx.vpx_codec_vp8_dx())
    for frame, found in zip(frames, facts_from(program, VP8, frames)):
        if len(frame) < 3 or not frame[0] & 1 and len(frame) < 10:
            compare_facts(what + ", cut", VP8, frame, found, TOO_SHORT)
            continue
        info = StreamInfo(ctypes.sizeof(StreamInfo))
        answer = vpx.vpx_codec_peek_stream_info(decoder, frame, len(frame), ctypes.byref(info))
        fits = int.from_bytes(frame[:3], "little") >> 5 <= len(frame) - (3 if frame[0] & 1 else 10)
        if info.is_kf and frame[3:6] != b"\x9d\x01\x2a":
            wanted = (MARKER,) if answer else (OK,)
        elif not fits:
            wanted = (SIZES,)
        elif answer and info.is_kf:
            continue  # it has a width or a height of 0
        else:
            wanted = (OK, bool(info.is_kf), (info.w, info.h) if info.is_kf else None)
        compare_facts(what, VP8, frame, found, *wanted)


def compare_opus(what, program, packets):
    opus = load("opus")
    sizes, toc, offset = (ctypes.c_int16 * 48)(), ctypes.c_ubyte(), ctypes.c_int()
    starts = (ctypes.c_void_p * 48)()
    for packet, found in zip(packets, facts_from(program, OPUS, packets)):
        count = opus.opus_packet_parse(packet, len(packet), ctypes.byref(toc), starts, sizes, ctypes.byref(offset))
        if count > 0:
            ticks = opus.opus_packet_get_nb_samples(packet, len(packet), 48000)
            compare_facts(what, OPUS, packet, found, OK, duration=ticks)
        else:
            compare(what + ", refused", packet, (found.status in FAULTS, found.duration), (True, None))


def compare_amr_wb(program, folder):
    """ffprobe's packets of a file with frames of each type."""
    bodies = [17, 23, 32, 36, 40, 46, 50, 58, 60, 5]
    frames = [bytes([kind << 3 | 4]) + random.randbytes(size) for kind, size in enumerate(bodies)]
    frames += [bytes([14 << 3]), bytes([15 << 3 | 4])]
    random.shuffle(frames)
    path = folder / "speech.awb"
    path.write_bytes(b"#!AMR-WB\n" + b"".join(frames))
    command = ["ffprobe", "-loglevel", "error", "-show_entries", "packet=size", "-of", "csv=p=0", path]
    sizes = [int(line.strip(",")) for line in subprocess.run(command, capture_output=True, text=True).stdout.split()]
    found = facts_from(program, AMR_WB, [b"".join(frames)])[0]
    compare("AMR-WB", b"".join(frames), [part[1] + 1 for part in found.parts], sizes)
    compare("AMR-WB", b"".join(frames), (found.duration, found.end), (320 * len(sizes), NONE))


# ---- frames ----


def read_hex(folder, name):
    return [bytes.fromhex(line) for line in (folder / f"{name}.hex").read_text().split()]


def probe(path):
    """ffprobe's size of the picture, and of each packet its size and whether it is a keyframe."""
    command = ["ffprobe", "-loglevel", "error", "-of", "compact"]
    command += ["-show_entries", "stream=width,height:packet=size,flags", path]
    lines = subprocess.run(command, capture_output=True, text=True, check=True).stdout
    width, height = map(int, re.search(r"width=(\d+)\|height=(\d+)", lines).groups())
    return (width, height), [(int(size), flag == "K") for size, flag in re.findall(r"size=(\d+)\|flags=(.)", lines)]


def compare_real(program, folder):
    """ffprobe's keyframes and sizes of what encoders wrote."""
    for codec, kind in ((VP8, "vp8"), (VP9, "vp9"), (AV1, "av1")):
        for path in sorted(folder.glob(f"{kind}*.ivf")):
            frames = read_hex(folder, path.stem)
            size, packets = probe(path)
            for frame, found, (length, key) in zip(frames, facts_from(program, codec, frames), packets, strict=True):
                compare("ffprobe, size of packets", frame, len(frame), length)
                compare_facts("ffprobe", codec, frame, found, OK, key, size if key else None)


def hostile(frame, reach):
    """The beginnings of a frame, and the frame with each byte of its front and its end changed."""
    for size in range(1, min(len(frame), reach) + 1):
        yield frame[:size]
    for place in {*range(min(len(frame), reach)), *range(max(0, len(frame) - 12), len(frame))}:
        for change in (1, 2, 4, 8, 16, 32, 64, 128, 255, 85):
            yield frame[:place] + bytes([frame[place] ^ change]) + frame[place + 1 :]


def short():
    """All bytes of one and two."""
    for first in range(256):
        yield bytes([first])
        yield from (bytes([first, second]) for second in range(256))


def opus_packets():
    """Packets of code 3 above all, at random, short and long."""
    for _ in range(60000):
        front = bytes([random.randrange(256) | random.choice((0, 3, 3, 3))])
        front += bytes([random.choice((0, 64, 128, 192)) | random.choice((1, 2, 3, 6, random.randrange(64)))])
        front += random.choice((b"", b"\xff\x05", b"\xfe", b"\xfc\x01"))
        yield front + random.randbytes(random.choice((0, 3, 9, 300, 1300)))


def times(program, folder):
    vp8, vp9 = read_hex(folder, "vp8"), read_hex(folder, "vp9")
    av1, opus = read_hex(folder, "av1"), read_hex(folder, "opus_120")
    header = next(part for part in facts_from(program, AV1, av1[:1])[0].parts if part[2][0] == 1)
    cases = [
        ("VP8 keyframe", VP8, vp8[0]), ("VP8 interframe", VP8, vp8[1]),
        ("VP9 keyframe", VP9, vp9[0]), ("VP9 keyframe", VP9, vp9[0][:200]), ("VP9 keyframe", VP9, vp9[0] + bytes(199000)),
        ("VP9 interframe", VP9, vp9[1]),
        ("AV1 sequence header", AV1, av1[0][: header[0] + header[1]]), ("AV1 temporal unit", AV1, av1[0]),
        ("Opus, code 0", OPUS, read_hex(folder, "opus_20")[3]), ("Opus, code 3", OPUS, opus[3]),
    ]
    for (name, _, frame), line in zip(cases, ask(program, "times", [(codec, frame) for _, codec, frame in cases])):
        print(f"{name} of {len(frame)} bytes: {line.split(': ')[1]}")


def main():
    random.seed(29)
    with tempfile.TemporaryDirectory() as name:
        folder = pathlib.Path(name)
        subprocess.run(["sh", ROOT / "tests/media/media_frames.sh", folder], check=True, stdout=subprocess.DEVNULL)
        program = build(folder, "frames", [])
        if sys.argv[1:] == ["times"]:
            return times(program, folder)
        compare_real(program, folder)
        reset = read_hex(folder, "vp9")[0]
        for kind in ("vp9", "vp9_hidden", "vp9_444", "vp9_420_10", "vp9_422_10"):
            frames = read_hex(folder, kind)
            compare_vp9("VP9", program, frames, folder, reset)
            chosen = [frames[0], frames[1], max(frames[1:], key=len)]
            compare_vp9("VP9, hostile", program, [x for frame in chosen for x in hostile(frame, 24)], folder, reset)
        compare_vp9("VP9, short", program, list(short()), folder, reset)
        compare_vp9("VP9, made", program, [vp9_frame(random) for _ in range(6000)], folder, reset)
        reset = read_hex(folder, "av1")[0]
        for kind in ("av1", "av1_odd", "av1_444", "av1_10", "av1_still"):
            frames = read_hex(folder, kind)
            compare_av1("AV1", program, frames, folder, reset)
            compare_av1("AV1, hostile", program, list(hostile(frames[0], 32)), folder, reset)
            compare_record(program, folder / f"{kind}.ivf", frames, folder)
        compare_av1("AV1, made", program, [av1_unit(random) for _ in range(6000)], folder, reset)
        for kind in ("vp8", "vp8_odd"):
            frames = read_hex(folder, kind)
            compare_vp8("VP8", program, frames + [x for frame in frames[:2] for x in hostile(frame, 16)])
        compare_vp8("VP8, short", program, list(short()))
        for path in sorted(folder.glob("opus*.hex")):
            packets = read_hex(folder, path.stem)[2:]
            compare_opus("Opus", program, packets + [x for packet in packets[:2] for x in hostile(packet, 12)])
        compare_opus("Opus, short", program, list(short()))
        compare_opus("Opus, made", program, list(opus_packets()))
        compare_amr_wb(program, folder)
        checked = build(folder, "checked", ["-fsanitize=address,undefined", "-fno-sanitize-recover=all"])
        seeds = ((VP8, "vp8", 0), (VP8, "vp8", 1), (VP9, "vp9", 0), (VP9, "vp9_hidden", 1), (AV1, "av1", 0))
        frames = [(codec, read_hex(folder, name)[place][:700]) for codec, name, place in seeds]
        print("under the sanitizers:", ask(checked, "hostile", frames)[-1])
    if sys.argv[1:] == ["rows"]:
        write_rows(ROOT / "c/tests/frames.txt")
    for what, count in sorted(counts.items()):
        print(f"{count:7} {what}")
    print(f"media_peers: {sum(counts.values())} answers compared, none differs")


if __name__ == "__main__":
    main()
