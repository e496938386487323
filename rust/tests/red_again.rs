//! Retransmissions of RED packets (RFC 4588 over RFC 2198): the original number, then the RED payload.

mod random;

use codec_payload::jitter::Outcome;
use codec_payload::red::RedSender;
use codec_payload::sdp;
use codec_payload::stream::{
    ReceiveError, Receiver, ReceiverSettings, RedSettings, Retransmission,
};
use codec_payload::*;
use random::Dice;
use std::collections::BTreeMap;
use std::error::Error;

type Fail = Box<dyn Error>;

/// The payload types of RED, of Opus, and of the retransmissions of both.
const RED: u8 = 63;
const OPUS: u8 = 111;
const AGAIN: u8 = 112;
const RED_AGAIN: u8 = 113;
/// The SSRCs of the stream and of its retransmissions.
const MEDIA: u32 = 7;
const REPAIR: u32 = 8;
/// RTP ticks from frame to frame.
const STEP: u32 = 960;

fn datagram(payload_type: u8, ssrc: u32, number: u16, time: u32, payload: &[u8]) -> Vec<u8> {
    let mut datagram = vec![0x80, payload_type];
    datagram.extend(number.to_be_bytes());
    datagram.extend(time.to_be_bytes());
    datagram.extend(ssrc.to_be_bytes());
    datagram.extend(payload);
    datagram
}

fn sent(number: u16, time: u32, payload: &[u8]) -> Vec<u8> {
    datagram(RED, MEDIA, number, time, payload)
}

/// A retransmission of the packet with this number. Its own number is far from it.
fn again(number: u16, time: u32, payload: &[u8]) -> Vec<u8> {
    let whole = [&number.to_be_bytes(), payload].concat();
    datagram(RED_AGAIN, REPAIR, number.wrapping_add(20_000), time, &whole)
}

fn settings() -> ReceiverSettings {
    let mut settings = ReceiverSettings::live_audio(OPUS, Frequency::FORTY_EIGHT_KHZ);
    settings.ssrc = Some(MEDIA);
    settings.red = Some(RedSettings {
        payload_type: RED,
        step: STEP,
        retransmission: Some(RED_AGAIN),
    });
    settings.retransmission = Some(Retransmission {
        ssrc: REPAIR,
        payload_type: AGAIN,
    });
    settings
}

fn receiver_by(settings: ReceiverSettings) -> Result<Receiver, Fail> {
    let depacketizer = CodecDepacketizer::from_codec(Codec::Opus).ok_or("no depacketizer")?;
    Ok(Receiver::new(depacketizer, settings)?)
}

fn red_sender(distances: &[u32]) -> RedSender {
    RedSender::new(Pt::from(RED), Pt::from(OPUS), distances)
}

/// The first byte of each unit that is due.
fn units(receiver: &mut Receiver, now: u64) -> Result<Vec<u8>, Fail> {
    let mut units = Vec::new();
    while let Some(unit) = receiver.pop(Ticks(now)) {
        units.push(unit?.into_result()?.bytes[0]);
    }
    Ok(units)
}

/// Frames of nine bytes with blocks of the frame before, by number.
fn frames(count: u8) -> Result<Vec<(u16, u32, Vec<u8>)>, PacketError> {
    let mut red = red_sender(&[1]);
    let mut frames = Vec::new();
    for frame in 0..count {
        let time = u32::from(frame) * STEP;
        let payload = red.wrap(vec![frame; 9], time, 1_200)?;
        frames.push((10 + u16::from(frame), time, payload));
    }
    Ok(frames)
}

/// Packets 2, 3 and 4 are lost. The retransmission of 4 gives frames 4 and 3, and the one of 2 gives frame 2. Then the
/// retransmission of 3 is a duplicate, and so is a second one of 2.
#[test]
fn blocks_of_a_retransmission() -> Result<(), Fail> {
    let all = frames(7)?;
    let mut receiver = receiver_by(settings())?;
    for place in [0, 1, 6] {
        let (number, time, payload) = &all[place];
        receiver.receive(Ticks(0), &sent(*number, *time, payload))?;
    }
    assert_eq!(units(&mut receiver, 1)?, [0, 1]);
    let missing: Vec<u16> = receiver.missing(9).map(|it| it as u16).collect();
    assert_eq!(missing, [12, 13, 14]);
    for (place, outcome) in [
        (4, Outcome::Held),
        (2, Outcome::Held),
        (3, Outcome::Duplicate),
        (2, Outcome::Duplicate),
    ] {
        let (number, time, payload) = &all[place];
        let answer = receiver.receive(Ticks(2), &again(*number, *time, payload));
        assert_eq!(answer, Ok(outcome), "packet {place}");
    }
    assert_eq!(units(&mut receiver, 3)?, [2, 3, 4, 5, 6]);
    let counters = receiver.counters();
    // The blocks of packets 6 and 4 are frames 5 and 3.
    assert_eq!(counters.packets.recovered, 2);
    assert_eq!(counters.packets.retransmitted, 2);
    assert_eq!(counters.other_streams, 0);
    Ok(())
}

/// The header of a retransmission keeps time and marker; number, SSRC and payload type are those of the stream.
#[test]
fn header_of_a_unit() -> Result<(), Fail> {
    let all = frames(2)?;
    let mut receiver = receiver_by(settings())?;
    receiver.receive(Ticks(0), &sent(10, 0, &all[0].2))?;
    let mut datagram = again(11, STEP, &all[1].2);
    datagram[1] |= 0x80;
    assert_eq!(receiver.receive(Ticks(5), &datagram)?, Outcome::Held);
    let unit = receiver.pop(Ticks(5)).ok_or("no unit")??.into_result()?;
    assert_eq!(unit.bytes, [0; 9]);
    receiver.finish()?;
    let unit = receiver.pop(Ticks(5)).ok_or("no unit")??.into_result()?;
    let meta = unit.meta().first().ok_or("no packet")?;
    let header = &meta.header;
    assert_eq!(
        (header.sequence_number, header.timestamp, header.ssrc),
        (11, STEP, MEDIA)
    );
    assert_eq!((header.payload_type, header.marker), (Pt::from(OPUS), true));
    assert_eq!(unit.bytes, [1; 9]);
    Ok(())
}

/// Each fault by name. A retransmission without payload is padding, and one whose primary block is not media of the stream closes its
/// number, if the number is missing.
#[test]
fn hostile_payloads() -> Result<(), Fail> {
    let all = frames(4)?;
    let mut receiver = receiver_by(settings())?;
    let answer = |receiver: &mut Receiver, payload: &[u8]| {
        receiver.receive(Ticks(1), &datagram(RED_AGAIN, REPAIR, 77, STEP, payload))
    };
    for place in [0, 2] {
        let (number, time, _) = all[place];
        let payload = [&[OPUS], &[place as u8; 9][..]].concat();
        receiver.receive(Ticks(0), &sent(number, time, &payload))?;
    }
    assert_eq!(units(&mut receiver, 0)?, [0]);
    assert_eq!(answer(&mut receiver, &[]), Ok(Outcome::NoMedia));
    assert_eq!(
        answer(&mut receiver, &[0]),
        Err(ReceiveError::Retransmission)
    );
    assert_eq!(answer(&mut receiver, &[0, 11]), Err(ReceiveError::Red));
    assert_eq!(
        answer(&mut receiver, &[0, 11, 0x80 | OPUS]),
        Err(ReceiveError::Red)
    );
    // A block of 1,023 bytes that are missing.
    let long = [0, 11, 0x80 | OPUS, 0x0f, 3, 255, OPUS, 1];
    assert_eq!(answer(&mut receiver, &long), Err(ReceiveError::Red));
    assert_eq!(receiver.counters().malformed, 4);
    // A number outside of the windows changes nothing, with media or without: no restart, and nothing missing more.
    for far in [20_000_u16, 40_000] {
        for (payload_type, outcome) in [(OPUS, Outcome::Late), (97, Outcome::NoMedia)] {
            let [high, low] = far.to_be_bytes();
            assert_eq!(
                answer(&mut receiver, &[high, low, payload_type, 5]),
                Ok(outcome)
            );
        }
    }
    assert_eq!(receiver.missing(9).collect::<Vec<_>>().len(), 1);
    assert_eq!(receiver.counters().packets.restarts, 0);
    // A held number stays.
    assert_eq!(answer(&mut receiver, &[0, 12, 97, 5]), Ok(Outcome::NoMedia));
    assert_eq!(receiver.held(), 1);
    // The missing one has no media: frame 2 is due.
    assert_eq!(units(&mut receiver, 1)?, []);
    assert_eq!(answer(&mut receiver, &[0, 11, 97, 5]), Ok(Outcome::NoMedia));
    assert_eq!(receiver.missing(9).count(), 0);
    assert_eq!(units(&mut receiver, 1)?, [2]);
    let c = receiver.counters();
    assert_eq!(c.received, 2 + 1 + 4 + 4 + 1 + 1);
    Ok(())
}

/// Without the payload type, or without retransmissions, a retransmission of RED belongs to another stream; RED goes on.
#[test]
fn only_if_the_settings_name_it() -> Result<(), Fail> {
    let all = frames(2)?;
    let mut without_type = settings();
    without_type.red = without_type.red.map(|red| RedSettings {
        retransmission: None,
        ..red
    });
    let mut without_ssrc = settings();
    without_ssrc.retransmission = None;
    let mut other_ssrc = settings();
    other_ssrc.retransmission = Some(Retransmission {
        ssrc: 9,
        payload_type: AGAIN,
    });
    for settings in [without_type, without_ssrc, other_ssrc] {
        let mut receiver = receiver_by(settings)?;
        receiver.receive(Ticks(0), &sent(10, 0, &all[0].2))?;
        let answer = receiver.receive(Ticks(0), &again(11, STEP, &all[1].2));
        assert_eq!(answer, Ok(Outcome::OtherStream));
    }
    Ok(())
}

/// Any bytes after the header: each datagram is counted once.
#[test]
fn any_bytes() -> Result<(), Fail> {
    let mut dice = Dice(5);
    let mut receiver = receiver_by(settings())?;
    for now in 0..40_000_u64 {
        let count = dice.below(12);
        let payload: Vec<u8> = (0..count)
            .map(|at| match at {
                0 => 0,
                2 if dice.below(2) == 0 => OPUS,
                2 if dice.below(2) == 0 => 0x80 | OPUS,
                _ => dice.below(256) as u8,
            })
            .collect();
        let time = dice.below(64) as u32 * STEP;
        let number = dice.below(256) as u16;
        let bytes = match dice.below(4) {
            0 => sent(number, time, &payload),
            _ => datagram(RED_AGAIN, REPAIR, number, time, &payload),
        };
        let _ = receiver.receive(Ticks(now), &bytes);
        while receiver.pop(Ticks(now)).is_some() {}
        let (c, p) = (receiver.counters(), receiver.counters().packets);
        let sorted = c.rtcp
            + c.malformed
            + c.other_streams
            + p.no_media
            + p.duplicates
            + p.late
            + p.suspect
            + p.evicted;
        let rest = receiver.held() as u64 + p.released + p.left + c.undecided;
        assert_eq!(c.received + p.recovered, sorted + rest);
    }
    Ok(())
}

/// The released frames in order, with 40 % of the datagrams lost. Each lost datagram is retransmitted 40 ms later, and the given share
/// of the retransmissions is lost too.
fn run(distances: &[u32], lost_again: u64, seed: u64) -> Result<Vec<u32>, Fail> {
    let (mut dice, mut red) = (Dice(seed), red_sender(distances));
    let mut arriving: BTreeMap<u64, Vec<Vec<u8>>> = BTreeMap::new();
    for frame in 0..3_000_u32 {
        let (at, time, number) = (u64::from(frame) * 20, frame * STEP, frame as u16);
        let payload = red.wrap(frame.to_be_bytes().to_vec(), time, 1_200)?;
        if dice.below(1_000) >= 400 || frame == 0 {
            arriving
                .entry(at)
                .or_default()
                .push(sent(number, time, &payload));
        } else if dice.below(1_000) >= lost_again {
            let late = 40 + dice.below(20);
            arriving
                .entry(at + late)
                .or_default()
                .push(again(number, time, &payload));
        }
    }
    let mut receiver = receiver_by(settings())?;
    let mut released = Vec::new();
    for now in 0..62_000 {
        for datagram in arriving.remove(&now).unwrap_or_default() {
            receiver.receive(Ticks(now), &datagram)?;
        }
        while let Some(unit) = receiver.pop(Ticks(now)) {
            released.push(u32::from_be_bytes(
                unit?.into_result()?.bytes[..].try_into()?,
            ));
        }
    }
    Ok(released)
}

/// Every lost packet comes again: all frames are released, each once and in order.
#[test]
fn all_frames_once_in_order() -> Result<(), Fail> {
    for distances in [&[1][..], &[1, 2], &[2]] {
        for seed in 0..3 {
            let all: Vec<u32> = (0..3_000).collect();
            assert!(
                run(distances, 0, seed)? == all,
                "{distances:?}, seed {seed}"
            );
        }
    }
    Ok(())
}

/// 40 % of the retransmissions are lost too: no frame twice, all in order, and most are released.
#[test]
fn no_frame_twice() -> Result<(), Fail> {
    for distances in [&[1][..], &[1, 2], &[1, 2, 3]] {
        for seed in 0..3 {
            let released = run(distances, 400, seed)?;
            assert!(released.is_sorted_by(|one, other| one < other));
            assert!(
                released.len() > 2_800,
                "{} of {distances:?}",
                released.len()
            );
        }
    }
    Ok(())
}

/// The description of Chromium: VP8 is 96 and its retransmissions 97; RED is 98 and its retransmissions 99.
#[test]
fn by_the_session_description() -> Result<(), Fail> {
    let text = "v=0\r\no=- 1 1 IN IP4 0.0.0.0\r\ns=-\r\nt=0 0\r\nm=video 9 UDP/TLS/RTP/SAVPF 96 97 98 99 100\r\n\
        a=rtpmap:96 VP8/90000\r\na=rtpmap:97 rtx/90000\r\na=fmtp:97 apt=96\r\n\
        a=rtpmap:98 red/90000\r\na=rtpmap:99 rtx/90000\r\na=fmtp:99 apt=98\r\na=rtpmap:100 ulpfec/90000\r\n\
        a=ssrc-group:FID 7 8\r\na=ssrc:7 cname:a\r\na=ssrc:8 cname:a\r\n";
    let description = sdp::read(text)?;
    let media = description.first().ok_or("no section")?;
    let settings = media.receiver_settings(96)?.ok_or("no settings")?;
    let red = settings.red.ok_or("no RED")?;
    assert_eq!((red.payload_type, red.retransmission), (98, Some(99)));
    let plain = settings.retransmission.ok_or("no RTX")?;
    assert_eq!((plain.ssrc, plain.payload_type), (8, 97));
    // A session does not use FEC, so it does not take RED that carries it. Without FEC in the section it does.
    let format = media.session_format(96).ok_or("no format")?;
    assert_eq!((format.red, format.retransmission), (None, Some(97)));
    let without = text.replace("a=rtpmap:100 ulpfec/90000\r\n", "");
    let description = sdp::read(&without)?;
    let media = description.first().ok_or("no section")?;
    let format = media.session_format(96).ok_or("no format")?;
    assert_eq!((format.red, format.retransmission), (Some(red), Some(97)));
    Ok(())
}

/// Another sender begins at number 20, with another RTP offset, after frames 0 to 39 with the numbers 10 to 49. What still arrives of
/// the first one is dropped: its RED packets and their blocks, and its retransmissions. The report is about the second sender.
#[test]
fn former_sender() -> Result<(), Fail> {
    let former = frames(40)?;
    let mut receiver = receiver_by(settings())?;
    // The last two are lost at first.
    for (number, time, payload) in &former[..38] {
        receiver.receive(Ticks(0), &sent(*number, *time, payload))?;
    }
    assert_eq!(units(&mut receiver, 1)?.len(), 38);
    let mut red = red_sender(&[1]);
    let mut outcomes = Vec::new();
    for frame in 0..20 {
        let time = 3_000_000_000 + u32::from(frame) * STEP;
        let payload = red.wrap(vec![100 + frame; 9], time, 1_200)?;
        let number = 20 + u16::from(frame);
        outcomes.push(receiver.receive(Ticks(2), &sent(number, time, &payload))?);
        if frame < 4 {
            continue;
        }
        for place in [0, 30, 37, 38, 39] {
            let (number, time, payload) = &former[place];
            let answer = receiver.receive(Ticks(2), &sent(*number, *time, payload));
            assert_eq!(answer, Ok(Outcome::Suspect), "packet {place}");
            let answer = receiver.receive(Ticks(2), &again(*number, *time, payload));
            assert_eq!(answer, Ok(Outcome::Late), "packet {place}");
        }
    }
    assert_eq!(outcomes[0], Outcome::Suspect);
    assert_eq!(outcomes[4], Outcome::Restarted(true));
    assert!(outcomes[5..].iter().all(|it| *it == Outcome::Held));
    // The suspect packet of frame 100 is stored with frame 104, which brings frame 103 too. The three packets between were late.
    let stored = units(&mut receiver, 1_000)?;
    assert_eq!(stored[0], 100);
    assert_eq!(stored[1..], (103..120).collect::<Vec<u8>>());
    let report = receiver.report().ok_or("no report")?;
    assert_eq!(report.highest, 39);
    assert_eq!(receiver.counters().packets.suspect, 80);
    Ok(())
}
