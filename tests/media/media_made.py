"""Frames of VP9 and units of AV1 at random, whose headers are written field by field as their specifications have them."""


class Bits:
    """Bit fields, the highest bit first."""

    def __init__(self, random):
        self.random = random
        self.text = ""

    def put(self, count, value):
        self.text += format(value, f"0{count}b") if count else ""
        return value

    def any(self, count):
        """A field of any value."""
        return self.put(count, self.random.getrandbits(count) if count else 0)

    def mostly(self, count, value):
        """A field that mostly has that value."""
        return self.put(count, value) if self.random.random() < 0.97 else self.any(count)

    def bytes(self):
        text = self.text + "0" * (-len(self.text) % 8)
        return bytes(int(text[place : place + 8], 2) for place in range(0, len(text), 8))


# ---- VP9 (VP9 bitstream and decoding process specification, 6.2) ----


def color_config(bits, profile):
    if profile >= 2:
        bits.any(1)  # ten_or_twelve_bit
    if bits.any(3) != 7:  # color_space
        bits.any(1)  # color_range
        if profile % 2:
            bits.any(2)  # subsampling_x, subsampling_y
            bits.mostly(1, 0)  # reserved_zero
    elif profile % 2:
        bits.mostly(1, 0)


def frame_sizes(bits):
    bits.any(32)  # frame_width_minus_1, frame_height_minus_1
    if bits.any(1):  # render_and_frame_size_different
        bits.any(32)


def vp9_frame(random):
    """A frame. About a third are intra-only, and some have a wrong marker or end in their header."""
    bits = Bits(random)
    bits.mostly(2, 2)  # frame_marker
    profile = bits.any(1) + 2 * bits.any(1)
    if profile == 3:
        bits.mostly(1, 0)
    if bits.put(1, random.random() < 0.1):  # show_existing_frame
        bits.any(3)
    else:
        inter, shown, resilient = bits.any(1), bits.put(1, random.random() < 0.3), bits.any(1)
        intra = not inter
        if inter:
            intra = not shown and bits.put(1, random.random() < 0.8)  # intra_only
            if not resilient:
                bits.any(2)  # reset_frame_context
        if intra:
            bits.mostly(24, 0x498342)  # frame_sync_code
            if not inter or profile:
                color_config(bits, profile)
            if inter:
                bits.any(8)  # refresh_frame_flags
            frame_sizes(bits)
    frame = bits.bytes()
    behind = random.randbytes(random.randrange(1, 30))
    # A last byte of the form of a superframe's index would make it one.
    frame += behind[:-1] + bytes([behind[-1] & 0x3F])
    return frame if random.random() < 0.8 else frame[: random.randrange(1, 20)]


# ---- AV1 (AV1 bitstream and decoding process specification, 5.3, 5.5 and 5.9.2) ----


def operating_points(bits):
    has_model, delay_length = False, 0
    if bits.any(1):  # timing_info_present_flag
        bits.put(32, bits.random.randrange(1, 1 << 32))  # num_units_in_display_tick
        bits.put(32, bits.random.randrange(1, 1 << 32))  # time_scale
        if bits.any(1):  # equal_picture_interval
            zeros = bits.random.choice((0, 1, 7, 31, 32, 40))  # num_ticks_per_picture_minus_1, malformed from 32 on
            bits.put(zeros + 1, 1)
            bits.any(zeros if zeros < 32 else 0)
        has_model = bits.any(1)  # decoder_model_info_present_flag
        if has_model:
            delay_length = bits.any(5) + 1  # buffer_delay_length_minus_1
            bits.put(32, bits.random.randrange(1, 1 << 32))  # num_units_in_decoding_tick
            bits.any(10)
    has_delay = bits.any(1)  # initial_display_delay_present_flag
    for _ in range(bits.put(5, bits.random.choice((0, 0, 1, 3, 31))) + 1):  # operating_points_cnt_minus_1
        bits.any(12)  # operating_point_idc
        if bits.any(5) > 7:  # seq_level_idx
            bits.any(1)  # seq_tier
        if has_model and bits.any(1):  # decoder_model_present_for_this_op
            bits.any(delay_length)
            bits.any(delay_length)
            bits.any(1)
        if has_delay and bits.any(1):  # initial_display_delay_present_for_this_op
            bits.any(4)


def tools(bits):
    bits.any(4)
    has_order = bits.any(1)  # enable_order_hint
    if has_order:
        bits.any(2)
    forced = 2 if bits.any(1) else bits.any(1)  # seq_choose_screen_content_tools, seq_force_screen_content_tools
    if forced and not bits.any(1):  # seq_choose_integer_mv
        bits.any(1)
    if has_order:
        bits.any(3)


def av1_color(bits, profile):
    high = bits.any(1)
    twelve = profile == 2 and high and bits.any(1)
    gray = profile != 1 and bits.any(1)  # mono_chrome
    srgb = False
    if bits.any(1):  # color_description_present_flag
        srgb = bits.random.random() < 0.3
        for value in (1, 13, 0):
            bits.put(8, value if srgb else bits.random.randrange(1, 12))
    if gray:
        bits.any(1)  # color_range
        return
    if not srgb:
        bits.any(1)
        half = (profile == 0, profile == 0)
        if profile == 2:
            half = (True, False)
            if twelve:
                x = bits.any(1)
                half = (x, x and bits.any(1))
        if half[0] and half[1]:
            bits.any(2)  # chroma_sample_position
    bits.any(1)  # separate_uv_delta_q


def sequence_header(random):
    """The payload of a sequence header OBU, of the short form or the long one."""
    bits = Bits(random)
    profile = bits.put(3, random.choice((0, 0, 1, 2, 2, 3 if random.random() < 0.1 else 0)))
    bits.any(1)  # still_picture
    reduced = bits.put(1, random.random() < 0.3)
    if reduced:
        bits.any(5)  # seq_level_idx
    else:
        operating_points(bits)
    width, height = bits.any(4) + 1, bits.any(4) + 1
    bits.any(width)
    bits.any(height)
    if not reduced and bits.any(1):  # frame_id_numbers_present_flag
        bits.any(7)
    bits.any(3)
    if not reduced:
        tools(bits)
    bits.any(3)
    av1_color(bits, profile)
    bits.any(1)  # film_grain_params_present
    bits.put(1, 1)  # trailing_one_bit
    return bits.bytes()


def obu(random, kind, payload):
    """An OBU with its size, with an extension or without one."""
    layers = random.random() < 0.2
    header = bytes([kind << 3 | layers << 2 | 2])
    if layers:
        header += bytes([random.randrange(32) << 3])
    size, rest = b"", len(payload)
    while rest >= 128:
        size, rest = size + bytes([rest % 128 | 128]), rest // 128
    return header + size + bytes([rest]) + payload


def av1_unit(random):
    """A temporal unit, some of them without a sequence header or a frame header, or cut off."""
    header = sequence_header(random)
    if random.random() < 0.1:
        header = header[: random.randrange(1, len(header))]
    unit = obu(random, 2, b"")
    if random.random() < 0.3:
        unit += obu(random, 15, random.randbytes(random.choice((3, 126, 127, 200))) + b"\x80")  # padding
    if random.random() < 0.95:
        unit += obu(random, 1, header)
    if random.random() < 0.9:
        frame = bytes([random.choice((0x10, 0x30, 0x90, 0x00, random.randrange(256)))])
        unit += obu(random, random.choice((3, 6)), frame + random.randbytes(20))
    return unit if random.random() < 0.9 else unit[: random.randrange(1, len(unit))]
