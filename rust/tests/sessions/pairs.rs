//! Sessions: pairs of SSRCs that are named while the session runs.

use crate::Fail;
use crate::datagrams::*;
use codec_payload::session::*;
use codec_payload::stream::RedSettings;
use codec_payload::*;

/// A session of VP8 with retransmissions and VP9 without, in which a stream begins with its first packet.
fn session() -> Session {
    let mut settings = SessionSettings::live();
    settings.video.start = 0;
    settings.probation = 1;
    settings.formats.push({
        let mut format = vp8_format();
        format.retransmission = Some(RTX);
        format
    });
    let vp9 = format(VP9, Codec::Vp9, Frequency::NINETY_KHZ);
    settings.formats.push(vp9);
    Session::new(settings).expect("settings that can be met")
}

/// A packet with a frame of VP8, one byte long (RFC 7741, section 4.2: the descriptor 0x10 begins a partition).
fn vp8(ssrc: u32, number: u16) -> Vec<u8> {
    let time = 3_000 * u32::from(number);
    packet(VP8, ssrc, number, time, &[0x10, number as u8])
}

/// The retransmission of that packet: its payload begins with the original number (RFC 4588, section 4).
fn again(ssrc: u32, number: u16) -> Vec<u8> {
    let time = 3_000 * u32::from(number);
    packet(RTX, ssrc, 700, time, &[0, number as u8, 0x10, number as u8])
}

/// The SSRCs and the first bytes of the units that are due.
fn units(session: &mut Session, now: u64) -> Vec<(u32, u8)> {
    let mut found = Vec::new();
    while let Some(event) = session.poll(Ticks(now)) {
        if let Event::Unit { ssrc, unit, .. } = event {
            found.push((ssrc, unit.unwrap().bytes[0]));
        }
    }
    found
}

/// The SSRC of the stream that takes a retransmission of `number` under `retransmission`.
fn taker(session: &mut Session, retransmission: u32, number: u16) -> Result<Option<u32>, Fail> {
    match session.receive(Ticks(0), &again(retransmission, number))? {
        Arrival::Stream { ssrc, .. } => Ok(Some(ssrc)),
        Arrival::Unassociated => Ok(None),
        other => Err(format!("{other:?}").into()),
    }
}

#[test]
fn a_stream_that_exists_gets_its_retransmissions() -> Result<(), Fail> {
    let mut session = session();
    for number in [1, 2, 4] {
        session.receive(Ticks(0), &vp8(5, number))?;
    }
    assert_eq!(units(&mut session, 0), [(5, 1), (5, 2)]);
    assert_eq!(taker(&mut session, 50, 3)?, None);
    session.add_pair(5, 50)?;
    assert_eq!(units(&mut session, 0), []);
    assert_eq!(taker(&mut session, 50, 3)?, Some(5));
    assert_eq!(units(&mut session, 0), [(5, 3), (5, 4)]);
    let counts = session.counts();
    assert_eq!((counts.received, counts.unassociated), (5, 1));
    Ok(())
}

#[test]
fn a_stream_that_begins_later_gets_its_retransmissions() -> Result<(), Fail> {
    let mut session = session();
    session.add_pair(5, 50)?;
    assert_eq!(taker(&mut session, 50, 2)?, None);
    session.receive(Ticks(0), &vp8(5, 1))?;
    session.receive(Ticks(0), &vp8(5, 3))?;
    assert_eq!(taker(&mut session, 50, 2)?, Some(5));
    assert_eq!(units(&mut session, 0), [(5, 1), (5, 2), (5, 3)]);
    Ok(())
}

#[test]
fn pairs_of_other_senders_stay() -> Result<(), Fail> {
    let mut session = session();
    for (ssrc, retransmission) in [(5, 50), (6, 60), (7, 70)] {
        session.add_pair(ssrc, retransmission)?;
        session.receive(Ticks(0), &vp8(ssrc, 1))?;
        session.receive(Ticks(0), &vp8(ssrc, 4))?;
    }
    for (ssrc, retransmission) in [(6, 60), (5, 50), (7, 70)] {
        assert_eq!(taker(&mut session, retransmission, 2)?, Some(ssrc));
    }
    session.remove_pair(6);
    for (ssrc, retransmission) in [(Some(5), 50), (None, 60), (Some(7), 70)] {
        assert_eq!(taker(&mut session, retransmission, 3)?, ssrc);
    }
    let found = units(&mut session, 0);
    let of = |ssrc| found.iter().filter(|unit| unit.0 == ssrc).count();
    assert_eq!((of(5), of(6), of(7)), (4, 2, 4));
    Ok(())
}

/// The same description may be read again, a sender may get another SSRC of retransmissions, and an SSRC of retransmissions another
/// sender.
#[test]
fn the_later_pair_wins() -> Result<(), Fail> {
    let mut session = session();
    for ssrc in [5, 6] {
        session.receive(Ticks(0), &vp8(ssrc, 1))?;
        session.receive(Ticks(0), &vp8(ssrc, 9))?;
    }
    session.add_pair(5, 50)?;
    session.add_pair(5, 50)?;
    assert_eq!(taker(&mut session, 50, 2)?, Some(5));
    session.add_pair(5, 51)?;
    assert_eq!(taker(&mut session, 50, 3)?, None);
    assert_eq!(taker(&mut session, 51, 3)?, Some(5));
    session.add_pair(6, 51)?;
    assert_eq!(taker(&mut session, 51, 4)?, Some(6));
    session.add_pair(5, 50)?;
    assert_eq!(taker(&mut session, 50, 4)?, Some(5));
    assert_eq!(taker(&mut session, 51, 5)?, Some(6));
    Ok(())
}

/// A stream of the same SSRC whose format has no retransmissions stays without them.
#[test]
fn a_format_without_retransmissions() -> Result<(), Fail> {
    let mut session = session();
    let vp9 = packet(VP9, 5, 100, 0, &[0x0c, 1]);
    session.receive(Ticks(0), &vp9)?;
    session.add_pair(5, 50)?;
    assert_eq!(taker(&mut session, 50, 1)?, None);
    session.receive(Ticks(0), &vp8(5, 2))?;
    assert_eq!(taker(&mut session, 50, 3)?, Some(5));
    assert_eq!(session.stream_at(0).ok_or("no stream")?.taken, 1);
    Ok(())
}

/// Nobody has to name a pair that was removed, and a pair may name one SSRC twice.
#[test]
fn pairs_at_the_edge() -> Result<(), Fail> {
    let mut session = session();
    session.remove_pair(5);
    session.add_pair(u32::MAX, u32::MAX)?;
    session.receive(Ticks(0), &vp8(u32::MAX, 1))?;
    assert_eq!(taker(&mut session, u32::MAX, 2)?, Some(u32::MAX));
    session.remove_pair(u32::MAX);
    assert_eq!(taker(&mut session, u32::MAX, 3)?, None);
    Ok(())
}

/// The settings of a caller who accepts RED of video beside error correction: the description alone does not set it.
fn settings_with_red() -> Result<SessionSettings, Fail> {
    let text = include_str!("../../../c/tests/sdp/gstreamer.sdp");
    let mut settings = codec_payload::sdp::session_settings(&codec_payload::sdp::read(text)?)?;
    assert_eq!(
        (settings.formats[0].payload_type, settings.formats[0].red),
        (96, None)
    );
    settings.formats[0].red = Some(RedSettings {
        payload_type: 98,
        step: 1_800,
        retransmission: Some(101),
    });
    Ok(settings)
}

/// Video in RED (RFC 2198), as Chromium and GStreamer send it with error correction: a retransmission of RED has another payload
/// type, whose `apt` is RED's. It goes to the stream as the RED packet that was lost, as the retransmission of the media itself does.
#[test]
fn retransmissions_of_red() -> Result<(), Fail> {
    let mut settings = settings_with_red()?;
    settings.video.start = 0;
    settings.probation = 1;
    let (vp8, red, rtx, rtx_of_red) = (96, 98, 100, 101);
    let (ssrc, again) = (1_111, 3_396_958_610);
    let mut session = Session::new(settings).expect("settings that can be met");
    for number in [1, 2, 5] {
        // One block: the last bit of its header is 0, and 7 bits are the payload type.
        let payload = [vp8, 0x10, number];
        let number = u16::from(number);
        let time = 3_000 * u32::from(number);
        session.receive(Ticks(0), &packet(red, ssrc, number, time, &payload))?;
    }
    assert_eq!(units(&mut session, 0), [(ssrc, 1), (ssrc, 2)]);
    let of_red = packet(rtx_of_red, again, 7, 9_000, &[0, 3, vp8, 0x10, 3]);
    let of_media = packet(rtx, again, 8, 12_000, &[0, 4, 0x10, 4]);
    for (of, released) in [
        (of_red, &[(ssrc, 3)][..]),
        (of_media, &[(ssrc, 4), (ssrc, 5)]),
    ] {
        let arrival = session.receive(Ticks(0), &of)?;
        let held = codec_payload::jitter::Outcome::Held;
        assert!(matches!(arrival, Arrival::Stream { outcome, .. } if outcome == held));
        assert_eq!(units(&mut session, 0), released);
    }
    Ok(())
}

/// The same without a payload type of retransmissions of the media, or under an SSRC without a pair: it is not for a stream.
#[test]
fn retransmissions_of_red_alone() -> Result<(), Fail> {
    let mut without = settings_with_red()?;
    without.formats[0].retransmission = None;
    let mut session = Session::new(without).expect("settings that can be met");
    let of_red = |ssrc| packet(101, ssrc, 7, 9_000, &[0, 3, 96, 0x10, 3]);
    let arrival = session.receive(Ticks(0), &of_red(3_396_958_610))?;
    assert_eq!(arrival, Arrival::Unknown);
    let mut session = Session::new(settings_with_red()?).expect("settings that can be met");
    assert_eq!(
        session.receive(Ticks(0), &of_red(5))?,
        Arrival::Unassociated
    );
    Ok(())
}
