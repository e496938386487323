"""Sessions, and session descriptions. Expected values are from RFC 3550, RFC 4585, RFC 8866 and c/tests/sdp."""
import os

import pytest
from codec_payload import (ArrivalKind, Ending, EventKind, Format, InvalidArgument, KeyframeAnswer, Outcome, Receiver, Red, Session,
                           Stage, errors, sdp)
from codec_payload._c import lib
from packets import rtp, vp8, vp8_frame

DESCRIPTIONS = os.path.join(os.path.dirname(__file__), "../../c/tests/sdp")
VIDEO = Format("VP8", 96, 90_000, nack=True, pli=True)
AUDIO = Format("opus", 111, 48_000, red=Red(63, 960))
BYE = bytes([0x81, 203, 0, 1, 0, 0, 0, 7])


def described(name):
    with open(f"{DESCRIPTIONS}/{name}.sdp", encoding="utf-8") as it:
        return it.read()


def kinds(session, now):
    return [it.kind for it in session.events(now)]


def test_two_streams_and_an_end():
    session = Session([VIDEO, AUDIO], probation=1)
    assert session.receive(0, rtp(1, b"audio", payload_type=111, ssrc=5)).outcome is Outcome.HELD
    assert session.receive(0, vp8(1, vp8_frame())).ssrc == 7
    assert session.receive(0, rtp(1, b"", payload_type=20)).kind is ArrivalKind.UNKNOWN
    assert session.receive(0, b"hello").kind is ArrivalKind.MALFORMED
    fault = session.receive(0, rtp(2, b"", payload_type=63, ssrc=5))
    assert (fault.kind, type(fault.fault)) == (ArrivalKind.STREAM, errors.RedCorrupted)
    begun = [it.ssrc for it in session.events(0) if it.kind is EventKind.BEGUN]
    assert begun == [5, 7]
    assert [(it.ssrc, it.payload_type, it.stage) for it in session.streams()] == [(5, 111, Stage.PLAYING), (7, 96, Stage.PLAYING)]
    session.finish(1_000)
    events = list(session.events(1_000))
    assert [(it.ssrc, it.frame.data) for it in events if it.kind is EventKind.UNIT] == [(5, b"audio"), (7, vp8_frame())]
    assert {(it.ssrc, it.why) for it in events if it.kind is EventKind.ENDED} == {(5, Ending.BY_CALL), (7, Ending.BY_CALL)}
    counts = session.counts()
    assert (counts.received, counts.malformed, counts.unknown, counts.streams) == (5, 1, 1, 0)


def test_feedback():
    session = Session([VIDEO], probation=1, ssrc=99, cname=b"me")
    for number in (1, 3):
        session.receive(0, vp8(number, vp8_frame(), time=3_000 * number))
    assert session.request_keyframe(7) is KeyframeAnswer.REQUESTED
    assert session.request_keyframe(8) is KeyframeAnswer.NO_STREAM
    rtcp = b"".join(it.rtcp for now in (0, 100) for it in session.events(now) if it.kind is EventKind.FEEDBACK)
    # RFC 4585, section 6.2.1: a NACK (type 205, form 1) from 99 about 7, of number 2 alone; section 6.3.1: a PLI (206, form 1).
    nack = bytes([0x81, 205, 0, 3, 0, 0, 0, 99, 0, 0, 0, 7, 0, 2, 0, 0])
    pli = bytes([0x81, 206, 0, 2, 0, 0, 0, 99, 0, 0, 0, 7])
    assert nack in rtcp and pli in rtcp
    assert [number & 0xFFFF for number in session.missing(7, 96)] == [2] and session.missing(8, 96) == []
    assert EventKind.REPORT in kinds(session, 5_000)
    assert session.streams()[0].numbers_requested == 1
    assert session.streams()[0].probes == 0


def test_bye_and_telephone_events():
    session = Session([AUDIO], probation=1, telephone=[101])
    session.receive(0, rtp(1, b"x", payload_type=111))
    event = bytes([5, 0x8A, 0, 160])  # RFC 4733, section 2.3: the key 5, its end, 10 dB, 160 ticks
    session.receive(0, rtp(2, event, payload_type=101, time=960))
    found = [it for it in session.events(0) if it.kind is EventKind.TELEPHONE]
    assert [(it.frame.data, it.frame.rtp_time, it.payload_type) for it in found] == [(event, 960, 101)]
    receiver_report = bytes([0x80, 201, 0, 1, 0, 0, 0, 7])
    assert session.receive(10, receiver_report + BYE).kind is ArrivalKind.RTCP
    ended = [it for it in session.events(60_000) if it.kind is EventKind.ENDED]
    assert [(it.ssrc, it.why) for it in ended] == [(7, Ending.BY_BYE)]


def test_wrong_settings():
    for formats, settings in (([], {"tick_rate": 0}), ([Format("VP8", 70, 90_000)], {}), ([VIDEO, VIDEO], {}),
                              ([VIDEO], {"ssrc": 1, "cname": b""}), ([VIDEO], {"no_media": [96]})):
        with pytest.raises(InvalidArgument):
            Session(formats, **settings)
    with pytest.raises(InvalidArgument, match="payload type"):
        Session([Format("VP8", 70, 90_000)])


def test_default_times_follow_the_clock():
    for rate, ticks in ((1_000, 1), (1_000_000, 1_000)):
        receiver, session = Receiver("opus", 111, 48_000, ssrc=7, tick_rate=rate), Session([AUDIO], probation=1, tick_rate=rate)
        for it in (receiver, session):
            it.receive(0, rtp(1, b"x", payload_type=111))
        assert [it.kind for it in session.events(0)] == [EventKind.BEGUN]
        assert receiver.next_deadline() == session.next_deadline() == 100 * ticks


def test_description_of_chromium():
    media = sdp.read(described("chromium"))
    formats = {it.payload_type: it for section in media for it in section.formats}
    # The table that was written by hand for the tests of Rust (rust/tests/sdp/session.rs).
    assert (formats[111].name.lower(), formats[111].clock_rate, formats[111].role) == ("opus", 48_000, sdp.Role.MEDIA)
    assert (formats[97].role, formats[97].of, formats[96].nack, formats[96].pli) == (sdp.Role.RETRANSMISSION, 96, True, True)
    assert all(it.ice_ufrag and it.ice_pwd and it.fingerprints for it in media)
    session = sdp.session(media, ssrc=1, cname=b"me")
    assert session.receive(0, rtp(1, b"x", payload_type=111)).kind is ArrivalKind.STREAM
    assert session.receive(0, rtp(1, b"x", payload_type=97)).kind is ArrivalKind.UNASSOCIATED
    audio = next(it for it in media if it.type == "audio")
    receiver = sdp.receiver(audio, 111, ssrc=9)
    assert receiver.receive(0, rtp(1, b"x", payload_type=111, ssrc=9)) is Outcome.HELD
    with pytest.raises(InvalidArgument):
        sdp.receiver(audio, 96)


def test_descriptions_outlive_their_text():
    media = [sdp.read(described("chromium") + "")[0] for _ in range(3)]
    assert [sdp.receiver(it, 111).counts().received for it in media] == [0, 0, 0]


def test_faults_of_descriptions():
    with pytest.raises(sdp.SdpError, match="line 2: not a line of SDP") as fault:
        sdp.read("v=0\nhello\n")
    assert fault.value.line == 2
    many = "v=0\n" + "m=audio 9 RTP/AVP 0\n" * 40
    assert len(sdp.read(many)) == 40
    with pytest.raises(InvalidArgument):
        sdp.session(sdp.read("v=0\nm=audio 9 RTP/AVP 127\n"))


def test_numbers_are_those_of_the_header():
    for kind, prefix in ((ArrivalKind, "CPAY_ARRIVAL_"), (EventKind, "CPAY_EVENT_"), (Ending, "CPAY_ENDED_"), (Stage, "CPAY_STREAM_"),
                         (KeyframeAnswer, "CPAY_KEYFRAME_"), (sdp.Role, "CPAY_SDP_"), (sdp.Direction, "CPAY_SDP_")):
        assert {it.name: int(it) for it in kind} == {it.name: getattr(lib, prefix + it.name) for it in kind}
