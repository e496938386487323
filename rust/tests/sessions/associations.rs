//! Sessions: retransmissions whose pair of SSRCs nobody named (RFC 4588, section 5.3).

use crate::Fail;
use crate::datagrams::*;
use codec_payload::rtcp::{CompoundRule, RtcpPacket, read_compound};
use codec_payload::session::*;
use codec_payload::stream::{Receiver, ReceiverSettings};
use codec_payload::*;
use std::collections::BTreeMap;

/// Ten seconds of the RTP clock of video.
const TEN_SECONDS: u32 = 900_000;

/// A session of VP8 that requests packets and knows no pair. Its streams wait for 2 s.
fn session(change: impl Fn(&mut SessionSettings)) -> Session {
    let mut settings = SessionSettings::live();
    settings.formats = vec![answered_vp8(), answered_opus()];
    (settings.video.start, settings.video.max_wait) = (0, Some(2_000));
    settings.feedback = Some(FeedbackSettings::live(9, b"me@host".to_vec()));
    change(&mut settings);
    Session::new(settings).expect("settings that can be met")
}

/// A packet of VP8, whose frame has one packet.
fn video(ssrc: u32, number: u16, time: u32) -> Vec<u8> {
    packet(VP8, ssrc, number, time, vp8_frame(true))
}

/// The retransmission of a packet: it keeps the time, and its payload begins with the original number (RFC 4588, section 4).
fn again(ssrc: u32, number: u16, time: u32) -> Vec<u8> {
    let payload = [&number.to_be_bytes(), vp8_frame(true)].concat();
    packet(RTX, ssrc, 900, time, &payload)
}

/// The SSRCs and numbers of the requests that are due.
fn requests(session: &mut Session, now: u64) -> Result<Vec<(u32, u16)>, Fail> {
    let mut all = Vec::new();
    while let Some(event) = session.poll(Ticks(now)) {
        let Event::Feedback { packet, .. } = event else {
            continue;
        };
        for part in read_compound(CompoundRule::ReducedSize, &packet?)? {
            if let RtcpPacket::Nack(nack) = part {
                all.extend(nack.numbers().map(|number| (nack.media_ssrc, number)));
            }
        }
    }
    Ok(all)
}

/// The packets 1, 2 and 4 of a stream, whose packet 1 has this time. Each later packet comes 3,000 ticks after the one before.
fn send_with_a_gap(session: &mut Session, ssrc: u32, time: u32) -> Result<(), Fail> {
    for number in [1, 2, 4] {
        let time = time.wrapping_add(3_000 * (u32::from(number) - 1));
        session.receive(Ticks(0), &video(ssrc, number, time))?;
    }
    Ok(())
}

/// The same for several streams, which then have requested packet 3.
fn with_requests(session: &mut Session, streams: &[(u32, u32)]) -> Result<(), Fail> {
    for (ssrc, time) in streams {
        send_with_a_gap(session, *ssrc, *time)?;
    }
    assert_eq!(requests(session, 0)?, []);
    let requested: Vec<_> = streams.iter().map(|(ssrc, _)| (*ssrc, 3)).collect();
    assert_eq!(requests(session, 10)?, requested);
    Ok(())
}

/// The SSRC of the stream that takes the datagram.
fn taker(session: &mut Session, now: u64, datagram: &[u8]) -> Result<Option<u32>, Fail> {
    match session.receive(Ticks(now), datagram)? {
        Arrival::Stream { ssrc, .. } => Ok(Some(ssrc)),
        Arrival::Unassociated => Ok(None),
        other => Err(format!("{other:?}").into()),
    }
}

#[test]
fn the_answer_to_a_request_finds_its_stream() -> Result<(), Fail> {
    let mut session = session(|_| {});
    with_requests(&mut session, &[(5, 70_000), (6, 3_000_000_000)])?;
    assert_eq!(
        taker(&mut session, 50, &again(60, 3, 3_000_006_000))?,
        Some(6)
    );
    assert_eq!(taker(&mut session, 50, &again(50, 3, 76_000))?, Some(5));
    // From now on both SSRCs have a pair, also for a packet that nobody requested.
    assert_eq!(taker(&mut session, 51, &again(50, 1, 70_000))?, Some(5));
    assert_eq!(taker(&mut session, 51, &again(60, 1, 70_000))?, Some(6));
    let counts = session.counts();
    assert_eq!((counts.received, counts.unassociated), (10, 0));
    Ok(())
}

/// Chromium probes the network with retransmissions of packets that arrived, and of packets that are only late.
#[test]
fn a_packet_that_was_not_requested() -> Result<(), Fail> {
    let mut session = session(|_| {});
    send_with_a_gap(&mut session, 5, 0)?;
    assert_eq!(requests(&mut session, 0)?, []);
    // Number 3 is missing, and its first request is due at 10 ms.
    assert_eq!(taker(&mut session, 9, &again(50, 3, 6_000))?, None);
    assert_eq!(taker(&mut session, 9, &again(50, 2, 3_000))?, None);
    assert_eq!(requests(&mut session, 10)?, [(5, 3)]);
    assert_eq!(taker(&mut session, 11, &again(50, 2, 3_000))?, None);
    assert_eq!(taker(&mut session, 11, &again(50, 5, 12_000))?, None);
    assert_eq!(taker(&mut session, 11, &again(50, 3, 6_000))?, Some(5));
    assert_eq!(session.counts().unassociated, 4);
    Ok(())
}

/// Both streams have requested number 3, and their RTP times are 10 s apart or less.
#[test]
fn several_streams_fit() -> Result<(), Fail> {
    for time in [0, 9 * 90_000, 90_000_u32.wrapping_neg()] {
        let mut session = session(|_| {});
        with_requests(&mut session, &[(5, 0), (6, time)])?;
        assert_eq!(taker(&mut session, 11, &again(50, 3, 6_000))?, None);
        assert_eq!(session.counts().unassociated, 1);
        // One of them is named, so the other is the only one left.
        session.add_pair(6, 60)?;
        assert_eq!(taker(&mut session, 11, &again(50, 3, 6_000))?, Some(5));
    }
    Ok(())
}

/// The sender's clock shows 9,000 with packet 4 at 0 ms, so 9,900 at 10 ms. A retransmission fits until 10 s from there, both ways
/// round 32 bits.
#[test]
fn ten_seconds_of_the_clock() -> Result<(), Fail> {
    let clock = 9_900_u32;
    for (time, fits) in [
        (clock.wrapping_sub(TEN_SECONDS), true),
        (clock.wrapping_sub(TEN_SECONDS + 1), false),
        (clock + TEN_SECONDS, true),
        (clock + TEN_SECONDS + 1, false),
        (clock + (1 << 31), false),
    ] {
        let mut session = session(|_| {});
        with_requests(&mut session, &[(5, 0)])?;
        let taker = taker(&mut session, 10, &again(50, 3, time))?;
        assert_eq!(taker, fits.then_some(5), "{time}");
    }
    Ok(())
}

/// Ten seconds are 480,000 ticks of Opus.
#[test]
fn the_clock_of_the_format() -> Result<(), Fail> {
    for (distance, fits) in [(480_000, true), (480_001, false)] {
        let mut session = session(|s| {
            s.formats[1].retransmission = Some(VP9);
            (s.audio.start, s.audio.max_wait) = (0, Some(2_000));
        });
        for number in [1, 2, 4] {
            session.receive(Ticks(0), &opus(5, number))?;
        }
        assert_eq!(requests(&mut session, 0)?, []);
        assert_eq!(requests(&mut session, 10)?, [(5, 3)]);
        // The clock shows 3,840 with packet 4 at 0 ms.
        let answer = packet(VP9, 50, 1, 3_840 + 480 + distance, &[0, 3, 7]);
        assert_eq!(taker(&mut session, 10, &answer)?, fits.then_some(5));
    }
    Ok(())
}

#[test]
fn only_who_requests_can_associate() -> Result<(), Fail> {
    for (feedback, nack) in [(false, true), (true, false)] {
        let mut session = session(|s| {
            s.formats[0].nack = nack;
            s.feedback = feedback.then(|| FeedbackSettings::live(9, b"me@host".to_vec()));
        });
        send_with_a_gap(&mut session, 5, 0)?;
        assert_eq!(requests(&mut session, 10)?, []);
        assert_eq!(taker(&mut session, 20, &again(50, 3, 6_000))?, None);
    }
    Ok(())
}

#[test]
fn a_stream_that_leaves_gets_no_pair() -> Result<(), Fail> {
    let mut session = session(|_| {});
    with_requests(&mut session, &[(5, 0)])?;
    session.receive(Ticks(11), &bye(5))?;
    assert_eq!(taker(&mut session, 12, &again(50, 3, 6_000))?, None);
    Ok(())
}

/// A pair that the caller names stays, and replaces a pair that the session found.
#[test]
fn pairs_of_the_caller_win() -> Result<(), Fail> {
    let mut session = session(|_| {});
    session.add_pair(5, 50)?;
    with_requests(&mut session, &[(5, 0)])?;
    assert_eq!(taker(&mut session, 11, &again(51, 3, 6_000))?, None);
    assert_eq!(taker(&mut session, 11, &again(50, 3, 6_000))?, Some(5));
    session.remove_pair(5);
    session.receive(Ticks(20), &video(5, 6, 15_000))?;
    assert_eq!(requests(&mut session, 20)?, []);
    assert_eq!(requests(&mut session, 30)?, [(5, 5)]);
    assert_eq!(taker(&mut session, 31, &again(51, 5, 12_000))?, Some(5));
    session.add_pair(5, 52)?;
    assert_eq!(taker(&mut session, 32, &again(51, 5, 12_000))?, None);
    assert_eq!(taker(&mut session, 32, &again(52, 5, 12_000))?, Some(5));
    Ok(())
}

/// A retransmission of padding has no original number, and one of another format is for its streams alone.
#[test]
fn packets_without_a_stream() -> Result<(), Fail> {
    let mut session = session(|s| {
        let vp9 = format(VP9, Codec::Vp9, Frequency::NINETY_KHZ);
        s.formats.push({
            let mut format = vp9;
            format.retransmission = Some(99);
            format.nack = true;
            format
        });
    });
    with_requests(&mut session, &[(5, 0)])?;
    for payload in [&[][..], &[0]] {
        let padding = packet(RTX, 50, 1, 6_000, payload);
        assert_eq!(taker(&mut session, 11, &padding)?, None);
    }
    let of_vp9 = packet(99, 50, 1, 6_000, &[0, 3, 0x0c, 1]);
    assert_eq!(taker(&mut session, 11, &of_vp9)?, None);
    Ok(())
}

/// A packet with the time 2^32 - 1,000 arrives at 100 ms. So 10 ms later the sender's clock shows 2^32 - 100: 10 ms are 900 ticks.
#[test]
fn the_clock_of_a_sender() -> Result<(), Fail> {
    let mut settings = ReceiverSettings::live_video(VP8, Frequency::NINETY_KHZ);
    settings.ssrc = Some(5);
    let depacketizer = CodecDepacketizer::from_codec(Codec::Vp8).ok_or("no VP8")?;
    let mut receiver = Receiver::new(depacketizer, settings)?;
    assert_eq!(receiver.transit_change(Ticks(100), 0), None);
    let first = 1_000_u32.wrapping_neg();
    receiver.receive(Ticks(100), &video(5, 1, first))?;
    let clock = first.wrapping_add(900);
    for distance in [0, 1, 100, 101, 1 << 30, 1 << 31] {
        for time in [clock.wrapping_add(distance), clock.wrapping_sub(distance)] {
            assert_eq!(receiver.transit_change(Ticks(110), time), Some(distance));
        }
    }
    // A suspect packet does not count, and neither does a packet of another stream. The latest packet does.
    receiver.receive(Ticks(110), &video(5, 30_000, 77))?;
    receiver.receive(Ticks(110), &video(6, 2, 88))?;
    assert_eq!(receiver.transit_change(Ticks(110), clock), Some(0));
    receiver.receive(Ticks(110), &video(5, 2, clock.wrapping_add(7)))?;
    assert_eq!(receiver.transit_change(Ticks(110), clock), Some(7));
    Ok(())
}

/// A sender of video over a network that loses 5 % and takes 40 ms. It answers each NACK under another SSRC.
struct Sending {
    ssrc: u32,
    number: u16,
    times: BTreeMap<u16, u32>,
}

/// Two senders whose numbers and times begin at random, and no pair is named.
#[test]
fn two_videos_over_a_network_that_loses() -> Result<(), Fail> {
    let (mut answers, mut unassociated) = (0, 0);
    for seed in 0..20 {
        let mut dice = Dice(seed);
        let mut session = session(|_| {});
        let mut senders: Vec<_> = [5, 6]
            .map(|ssrc| Sending {
                ssrc,
                number: dice.below(65_536) as u16,
                times: BTreeMap::new(),
            })
            .into();
        let starts = [0, 1].map(|_| dice.below(u32::MAX));
        let mut network = BTreeMap::new();
        for now in 0..10_000_u64 {
            for (sender, start) in senders.iter_mut().zip(starts) {
                if now % 10 == 0 {
                    sender.number = sender.number.wrapping_add(1);
                    let time = start.wrapping_add(90 * now as u32);
                    sender.times.insert(sender.number, time);
                    let lost = dice.below(20) == 0;
                    let datagram = video(sender.ssrc, sender.number, time);
                    network.insert((now + 20, sender.ssrc, sender.number, lost), datagram);
                }
            }
            let later = network.split_off(&(now + 1, 0, 0, false));
            for ((_, from, _, lost), datagram) in std::mem::replace(&mut network, later) {
                if lost {
                    continue;
                }
                let (is_again, ssrc) = (from >= 50, if from >= 50 { from / 10 } else { from });
                match taker(&mut session, now, &datagram)? {
                    Some(taken) => assert_eq!(taken, ssrc),
                    None => unassociated += 1,
                }
                answers += u32::from(is_again);
            }
            for (ssrc, number) in requests(&mut session, now)? {
                let sender = &senders[ssrc as usize - 5];
                let lost = dice.below(20) == 0;
                let datagram = again(10 * ssrc, number, sender.times[&number]);
                network.insert((now + 40, 10 * ssrc, number, lost), datagram);
            }
        }
    }
    println!("{answers} answers, {unassociated} of them unassociated");
    assert!(answers > 1_500, "{answers}");
    assert_eq!(unassociated, 0);
    Ok(())
}
