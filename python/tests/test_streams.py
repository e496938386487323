"""Receivers, senders, histories and forwarders. Expected values are from RFC 3550, RFC 4588, RFC 7741 and the C header."""
import struct

import pytest
from codec_payload import (Codec, Forwarded, Forwarder, History, InvalidArgument, Keyframes, Kept, Outcome, Receiver, Red, Resent, Rtx,
                           Sender, errors)
from codec_payload._c import ffi, lib
from packets import rtp, vp8, vp8_frame

FIRST = 65_536  # what a stream adds to the number of its first packet


def opus(**settings):
    return Receiver("opus", 96, 48_000, ssrc=7, **settings)


def test_order_and_contiguity():
    receiver = opus(start=0)
    for number, at in ((1, 0), (3, 10), (2, 20), (5, 30)):
        assert receiver.receive(at, rtp(number, bytes([number]), time=960 * number)) is Outcome.HELD
    frames = list(receiver.frames(30))
    assert [(it.first - FIRST, it.data, it.contiguous) for it in frames] == [(1, b"\1", True), (2, b"\2", True), (3, b"\3", True)]
    assert [number & 0xFFFF for number in receiver.missing()] == [4]
    deadline = receiver.next_deadline()
    assert deadline == 30 + 100  # the wait for live media: 100 ms
    assert receiver.pop(deadline - 1) is None
    late = receiver.pop(deadline)
    assert (late.first - FIRST, late.contiguous, late.rtp_time) == (5, False, 2**32 + 4_800)
    assert receiver.receive(200, rtp(4, b"\4", time=3_840)) is Outcome.LATE
    assert receiver.receive(200, rtp(5, b"\5", time=4_800)) is Outcome.LATE
    assert receiver.receive(200, rtp(6, b"", time=5_760, ssrc=8)) is Outcome.OTHER_STREAM
    counts = receiver.counts()
    assert (counts.received, counts.late, counts.units, counts.other_streams) == (7, 2, 4, 1)


def test_fragments_and_finish():
    receiver = Receiver("VP8", 96, 90_000, ssrc=7, purpose="file")
    body = vp8_frame(2_000)
    for number in range(3):
        part = body[number * 1_000:(number + 1) * 1_000]
        receiver.receive(0, vp8(number + 10, part, first=number == 0, marker=number == 2, time=3_000))
    frame = receiver.pop(0)
    assert (frame.data, frame.keyframe, frame.decodable, frame.last - frame.first) == (body, True, True, 2)
    receiver.receive(0, vp8(14, vp8_frame(keyframe=False), time=9_000))
    assert receiver.pop(1 << 40) is None  # packets of a file may still come
    receiver.finish()
    frame = receiver.pop(0)
    assert (frame.data, frame.keyframe, frame.contiguous) == (vp8_frame(keyframe=False), False, False)


def test_wants_a_keyframe():
    receiver = Receiver(Codec.VP8, 96, 90_000, ssrc=7, start=0, from_keyframe=Keyframes.DROP)
    receiver.receive(0, vp8(1, vp8_frame(keyframe=False)))
    assert receiver.pop(0) is None and receiver.wants_keyframe() and receiver.counts().undecodable == 1
    receiver.receive(0, vp8(2, vp8_frame(), time=3_000))
    assert receiver.pop(0).keyframe and not receiver.wants_keyframe()


def test_report():
    receiver = opus()
    for number in (1, 2, 4, 5):
        receiver.receive(0, rtp(number, b"x", time=960 * number))
    report = receiver.report()
    # One of five is lost: 1 * 256 / 5 (RFC 3550, appendix A.3).
    assert (report.cumulative_lost, report.fraction_lost, report.highest & 0xFFFF) == (1, 51, 5)


def test_sender_and_receiver():
    sender = Sender("VP8", 96, 90_000, ssrc=7, mtu=500, first_number=65_534, picture_ids=True)
    receiver = Receiver("VP8", 96, 90_000, ssrc=7, start=0)
    frames = [vp8_frame(size, keyframe=size == 0) for size in (0, 1_200, 499)]
    for place, frame in enumerate(frames):
        datagrams = sender.send(3_000 * place, frame)
        # The descriptor of VP8 with a picture id of 7 bits has 3 bytes, of 15 bits 4.
        assert all(len(it) <= 12 + 500 for it in datagrams) and len(datagrams) == len(frame) // 497 + 1
        assert [it[1] >> 7 for it in datagrams] == [0] * (len(datagrams) - 1) + [1]
        for datagram in datagrams:
            receiver.receive(place, datagram)
    assert [it.data for it in receiver.frames(1_000)] == frames
    counts = sender.counts()
    assert (counts.packets, counts.next_number) == (6, (65_534 + 6) % 65_536)
    report = sender.report(6_000)
    assert (report.ssrc, report.rtp_time, report.packets, report.octets) == (7, 6_000, counts.packets, counts.octets)


def test_large_datagrams():
    sender = Sender("opus", 96, 48_000, ssrc=7, mtu=60_000)
    (datagram,) = sender.send(0, bytes(50_000))
    assert len(datagram) == 12 + 50_000
    with pytest.raises(errors.Av1Corrupted):
        Sender("AV1", 96, 90_000, ssrc=7).send(0, bytes([0xFF]))  # the forbidden bit of an OBU (AV1, section 5.3.2)


def test_history():
    history = History(4, interval=50, rtx=Rtx(ssrc=9, payload_type=97, first_number=500))
    packets = {number: rtp(number, bytes([number]) * 3_000, time=number) for number in range(1, 6)}
    for packet in packets.values():
        assert history.keep(packet) is Kept.STORED
    answer, datagram = history.resend(0, 3)
    # RFC 4588, section 4: its own number, type and SSRC, the same time, and the original number in front of the payload.
    assert answer is Resent.WRITTEN
    assert datagram == struct.pack("!BBHIIH", 0x80, 97, 500, 3, 9, 3) + packets[3][12:]
    assert history.resend(10, 3) == (Resent.TOO_SOON, b"")
    assert history.resend(10, 1) == (Resent.NOT_KEPT, b"")
    assert history.keep(packets[1]) is Kept.TOO_OLD
    with pytest.raises(errors.RtpVersion):
        history.keep(bytes(12))


def test_forwarder():
    forwarder = Forwarder("VP8", 100, ssrc=50, first_number=1_000, first_time=9_000)
    forwarder.want(7)
    assert (forwarder.source(), forwarder.wanted()) == (None, 7)
    assert forwarder.write(0, vp8(1, vp8_frame(keyframe=False))) == (Forwarded.NO_KEYFRAME, b"")
    assert forwarder.write(0, vp8(1, vp8_frame(), ssrc=8)) == (Forwarded.OTHER_SOURCE, b"")
    answer, datagram = forwarder.write(0, vp8(2, vp8_frame(4_000), time=77))
    head = struct.unpack("!BBHII", datagram[:12])
    assert answer is Forwarded.BEGAN and head == (0x80, 100 | 128, 1_000, 9_000, 50)
    assert datagram[12:] == vp8(2, vp8_frame(4_000))[12:]
    assert forwarder.source() == 7
    assert forwarder.leave_out(vp8(3, vp8_frame(keyframe=False), time=3_077)) == (Forwarded.LEFT_OUT, b"")
    answer, datagram = forwarder.write(0, vp8(4, vp8_frame(keyframe=False), time=6_077))
    assert answer is Forwarded.WRITTEN and struct.unpack("!HI", datagram[2:8]) == (1_001, 15_000)
    history = History(16)
    history.keep(vp8(4, vp8_frame(keyframe=False), time=6_077))
    assert forwarder.resend(history, 1_001) == (Resent.WRITTEN, datagram)
    assert forwarder.resend(history, 1_002)[0] is Resent.NOT_KEPT
    counts = forwarder.counts()
    assert (counts.packets, counts.switches, counts.left_out, counts.refused, counts.resent) == (3, 1, 1, 2, 1)


def test_settings_that_cannot_be_met():
    for settings in ({"limit": 0}, {"limit": 70_000}, {"red": Red(96, 960)}, {"from_keyframe": 7}):
        with pytest.raises(InvalidArgument):
            opus(**settings)
    for words in (("opus", 96, 0), ("opus", 128, 48_000)):
        with pytest.raises(InvalidArgument):
            Receiver(*words)
    with pytest.raises(OverflowError):
        Receiver("opus", 300, 48_000)
    for name in ("H264", "", 6):
        with pytest.raises(ValueError):
            Receiver(name, 96, 90_000)


def test_each_status_has_an_exception():
    names = ffi.typeof("cpay_status").relements
    answers = {"CPAY_OK", "CPAY_NONE", "CPAY_OUT_OF_MEMORY"}
    assert {names[name] for name in names if name not in answers} == set(errors.BY_STATUS)
    for status, kind in errors.BY_STATUS.items():
        assert str(errors.error_of(status)) == ffi.string(lib.cpay_status_text(status)).decode()
        assert type(errors.error_of(status)) is kind
    with pytest.raises(MemoryError):
        errors.check(lib.CPAY_OUT_OF_MEMORY)


@pytest.mark.parametrize("kind, prefix", [(Codec, "CPAY_"), (Outcome, "CPAY_"), (Forwarded, "CPAY_FORWARDED_"),
                                          (Kept, "CPAY_KEPT_"), (Resent, "CPAY_RESENT_"), (Keyframes, "CPAY_KEYFRAME_")])
def test_numbers_are_those_of_the_header(kind, prefix):
    assert {it.name: int(it) for it in kind} == {it.name: getattr(lib, prefix + it.name) for it in kind}
