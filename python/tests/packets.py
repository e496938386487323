"""RTP packets as RFC 3550, section 5.1, lays them out."""
import struct


def rtp(number, payload, *, payload_type=96, time=0, ssrc=7, marker=False):
    """A packet with a fixed header alone."""
    head = struct.pack("!BBHII", 0x80, payload_type | marker << 7, number % 65_536, time % 2**32, ssrc)
    return head + payload


def vp8(number, body, *, first=True, marker=True, time=0, ssrc=7):
    """A packet of VP8: the descriptor 0x10 begins a partition, 0x00 continues it (RFC 7741, section 4.2)."""
    return rtp(number, bytes([0x10 if first else 0]) + body, time=time, ssrc=ssrc, marker=marker)


def vp8_frame(size=3, *, keyframe=True):
    """The front of a frame of VP8 (RFC 6386, section 9.1), a first partition of 0 bytes, and zeros behind it."""
    if keyframe:
        return bytes([0x10, 0, 0, 0x9D, 0x01, 0x2A, 0x40, 0, 0x30, 0]) + bytes(size)
    return bytes([0x11, 0, 0]) + bytes(size)
