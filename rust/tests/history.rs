//! Retransmission: packets by RFC 4588, section 4, requests by the figures of RFC 4585 and RFC 5104, and whole loops of a sender, its
//! history and a receiver.

use codec_payload::history::*;
use codec_payload::jitter::WaitLimits;
use codec_payload::rtcp::{CompoundRule, Nack, RtcpError, pack_numbers};
use codec_payload::rtp::RtpPacket;
use codec_payload::sender::{Sample, Sender, SenderSettings};
use codec_payload::stream::{Receiver, ReceiverSettings, Retransmission};
use codec_payload::*;

type Fail = Box<dyn std::error::Error>;

const STREAM: RetransmissionStream = RetransmissionStream {
    ssrc: 0x0708_090a,
    payload_type: 97,
    first_number: 0xffff,
};

/// A packet with the marker, payload type 96, number 0x1234, time 0x01020304, SSRC 0x05060708, a CSRC, an extension of one word, and
/// four bytes of padding behind the payload "abc".
const PACKET: [u8; 31] = [
    0xb1, 0xe0, 0x12, 0x34, 1, 2, 3, 4, 5, 6, 7, 8, 9, 9, 9, 9, 0xbe, 0xde, 0, 1, 0x10, 0x42, 0, 0,
    b'a', b'b', b'c', 0, 0, 0, 4,
];

/// Its retransmission: the SSRC, the payload type and the number are those of the stream of retransmissions; all other fields are the
/// packet's; the number 0x1234 is in front of the payload; the padding is gone.
const AGAIN: [u8; 29] = [
    0x91, 0xe1, 0xff, 0xff, 1, 2, 3, 4, 7, 8, 9, 10, 9, 9, 9, 9, 0xbe, 0xde, 0, 1, 0x10, 0x42, 0,
    0, 0x12, 0x34, b'a', b'b', b'c',
];

fn history(limit: usize, interval: u64, stream: Option<RetransmissionStream>) -> History {
    History::new(HistorySettings {
        limit,
        interval,
        stream,
    })
    .unwrap()
}

/// The smallest packet with that number.
fn packet(number: u16) -> [u8; 12] {
    let [high, low] = number.to_be_bytes();
    [0x80, 96, high, low, 0, 0, 0, 0, 0, 0, 0, 7]
}

#[test]
fn a_retransmission_by_the_standard() -> Result<(), Fail> {
    let mut history = history(10, 0, Some(STREAM));
    history.keep(&PACKET)?;
    let mut out = b"what was there".to_vec();
    assert_eq!(history.resend(Ticks(0), 0x1234, &mut out)?, Resent::Written);
    assert_eq!(out, AGAIN);
    // The next one has the next number, which wraps.
    assert_eq!(history.resend(Ticks(0), 0x1234, &mut out)?, Resent::Written);
    assert_eq!(RtpPacket::parse(&out)?.header.sequence_number, 0);
    Ok(())
}

#[test]
fn a_packet_as_it_was() -> Result<(), Fail> {
    let mut history = history(10, 0, None);
    history.keep(&PACKET)?;
    let mut out = Vec::new();
    assert_eq!(history.resend(Ticks(0), 0x1234, &mut out)?, Resent::Written);
    assert_eq!(out, PACKET);
    Ok(())
}

#[test]
fn the_last_packets_are_kept() -> Result<(), Fail> {
    let mut history = history(3, 0, None);
    let mut out = Vec::new();
    assert_eq!(history.resend(Ticks(0), 0, &mut out)?, Resent::NotKept);
    for number in 65_533..65_540_u32 {
        history.keep(&packet(number as u16))?;
    }
    let kept = |history: &mut History, number: u16| {
        let mut out = Vec::new();
        history
            .resend(Ticks(0), number, &mut out)
            .map(|it| (it, out))
    };
    for number in 1..=3 {
        assert_eq!(
            kept(&mut history, number)?,
            (Resent::Written, packet(number).to_vec())
        );
    }
    for number in [0, 4, 65_535, 32_770] {
        assert_eq!(kept(&mut history, number)?, (Resent::NotKept, vec![]));
    }
    // A number that is `limit` or more above the highest one begins the history again.
    history.keep(&packet(9))?;
    assert_eq!(history.len(), 1);
    assert_eq!(kept(&mut history, 3)?.0, Resent::NotKept);
    assert_eq!(kept(&mut history, 9)?.0, Resent::Written);
    Ok(())
}

/// The bytes that a history resends for a number.
fn resent(history: &mut History, number: u16) -> Option<Vec<u8>> {
    let mut out = Vec::new();
    let answer = history.resend(Ticks(0), number, &mut out).unwrap();
    (answer == Resent::Written).then_some(out)
}

#[test]
fn packets_of_a_forwarder_are_kept_in_any_order() -> Result<(), Fail> {
    let mut history = history(10, 0, None);
    for number in [1, 2, 4, 5, 3, 6] {
        assert_eq!(history.keep(&packet(number))?, Kept::Stored);
    }
    for number in 1..=6 {
        assert_eq!(resent(&mut history, number), Some(packet(number).to_vec()));
    }
    // 7 was lost on its way to the forwarder.
    history.keep(&packet(8))?;
    assert_eq!(resent(&mut history, 7), None);
    assert_eq!(history.len(), 8);
    Ok(())
}

#[test]
fn a_later_datagram_replaces_the_one_with_its_number_and_the_interval_goes_on() -> Result<(), Fail>
{
    let mut history = history(10, 100, None);
    let mut out = Vec::new();
    history.keep(&packet(7))?;
    assert_eq!(history.resend(Ticks(50), 7, &mut out)?, Resent::Written);
    let mut other = packet(7).to_vec();
    other.push(9);
    history.keep(&other)?;
    assert_eq!(history.resend(Ticks(149), 7, &mut out)?, Resent::TooSoon);
    assert_eq!(history.resend(Ticks(150), 7, &mut out)?, Resent::Written);
    assert_eq!(out, other);
    Ok(())
}

#[test]
fn a_sender_that_restarts_far_behind_is_found_at_its_second_packet() -> Result<(), Fail> {
    let mut history = history(10, 0, None);
    history.keep(&packet(40_000))?;
    assert_eq!(history.keep(&packet(39_990))?, Kept::TooOld);
    // Another kept packet: the next old one is again the first.
    assert_eq!(history.keep(&packet(39_991))?, Kept::Stored);
    assert_eq!(history.keep(&packet(20_000))?, Kept::TooOld);
    assert_eq!(history.keep(&packet(20_002))?, Kept::TooOld);
    assert_eq!(resent(&mut history, 40_000), Some(packet(40_000).to_vec()));
    assert_eq!(history.keep(&packet(20_003))?, Kept::Stored);
    assert_eq!(resent(&mut history, 40_000), None);
    assert_eq!(resent(&mut history, 20_003), Some(packet(20_003).to_vec()));
    assert_eq!(resent(&mut history, 20_002), None);
    Ok(())
}

/// Keeps packets of a stream with losses, repetitions and packets that overtake others, and compares each answer with a map from the
/// numbers without their wrap.
#[test]
fn a_history_holds_the_latest_numbers_whatever_their_order() -> Result<(), Fail> {
    for limit in [1, 2, 7, 64, 1_000, 32_768] {
        let mut history = history(limit, 0, None);
        let (mut kept, mut highest) = (std::collections::BTreeMap::new(), 0_u64);
        let mut seed = 12_345_u64 + limit as u64;
        let mut next = || {
            seed = seed.wrapping_mul(6_364_136_223_846_793_005).wrapping_add(1);
            seed >> 33
        };
        for call in 0..20_000_u64 {
            let number = match next() % 10 {
                0 => highest + 1 + next() % 5,
                1 => highest.saturating_sub(next() % (limit as u64).min(50)),
                2 if call % 97 == 0 => highest + next() % 30_000,
                _ => highest + 1,
            };
            let mut bytes = packet(number as u16).to_vec();
            bytes.push(call as u8);
            assert_eq!(history.keep(&bytes)?, Kept::Stored);
            highest = highest.max(number);
            kept.insert(number, bytes);
            kept = kept.split_off(&highest.saturating_sub(limit as u64 - 1));
            for asked in [number, highest.saturating_sub(next() % 70), highest + 1] {
                assert_eq!(
                    resent(&mut history, asked as u16).as_ref(),
                    kept.get(&asked)
                );
            }
        }
    }
    Ok(())
}

#[test]
fn not_again_within_the_interval() -> Result<(), Fail> {
    let mut history = history(3, 100, None);
    history.keep(&packet(7))?;
    let mut out = Vec::new();
    for (now, resent) in [
        (50, Resent::Written),
        (149, Resent::TooSoon),
        (150, Resent::Written),
        (249, Resent::TooSoon),
        // A clock that goes back does not count.
        (0, Resent::TooSoon),
        (250, Resent::Written),
    ] {
        assert_eq!(history.resend(Ticks(now), 7, &mut out)?, resent, "{now}");
    }
    Ok(())
}

#[test]
fn a_datagram_that_is_too_large_spends_nothing() -> Result<(), Fail> {
    let mut history = history(10, 100, Some(STREAM));
    history.keep(&PACKET)?;
    let mut out = Vec::new();
    let within = |history: &mut History, now: u64, most: usize, out: &mut Vec<u8>| {
        history.resend_within(Ticks(now), 0x1234, most, out)
    };
    for most in [0, 28] {
        assert_eq!(within(&mut history, 50, most, &mut out)?, Resent::TooLarge);
        assert_eq!(out, AGAIN);
    }
    // The same number, at the same time: neither was used.
    assert_eq!(within(&mut history, 50, 29, &mut out)?, Resent::Written);
    assert_eq!(out, AGAIN);
    assert_eq!(within(&mut history, 149, 0, &mut out)?, Resent::TooSoon);
    assert_eq!(within(&mut history, 150, 29, &mut out)?, Resent::Written);
    assert_eq!(RtpPacket::parse(&out)?.header.sequence_number, 0);
    let absent = history.resend_within(Ticks(150), 0x1235, 99, &mut out)?;
    assert_eq!(absent, Resent::NotKept);
    Ok(())
}

#[test]
fn settings_and_faults() {
    let new = |limit, stream| {
        History::new(HistorySettings {
            limit,
            interval: 0,
            stream,
        })
        .map(|_| ())
    };
    let above = Some(RetransmissionStream {
        payload_type: 128,
        ..STREAM
    });
    assert_eq!(new(0, above), Err(HistoryError::Limit));
    assert_eq!(new(32_769, None), Err(HistoryError::Limit));
    assert_eq!(new(32_768, above), Err(HistoryError::PayloadType));
    assert_eq!(new(1, Some(STREAM)), Ok(()));
    let mut history = history(1, 0, None);
    history.keep(&packet(1)).unwrap();
    assert!(matches!(history.keep(&[0x80; 11]), Err(KeepError::Rtp(_))));
    assert_eq!(history.len(), 1);
}

fn requests(ssrc: u32, bytes: &[u8]) -> Result<Vec<Request>, RtcpError> {
    Ok(read_requests(CompoundRule::ReducedSize, ssrc, bytes)?.collect())
}

/// An empty receiver report; a NACK for source 7 with PID 0xfffe and the bits of the second and the last number after it, and PID 5
/// alone; a PLI for source 7; a FIR for sources 8 and 7; a NACK and a PLI for source 8.
const FEEDBACK: [u8; 100] = [
    0x80, 201, 0, 1, 0, 0, 0, 1, // RR
    0x81, 205, 0, 4, 0, 0, 0, 1, 0, 0, 0, 7, 0xff, 0xfe, 0x80, 0x02, 0, 5, 0, 0, // NACK
    0x81, 206, 0, 2, 0, 0, 0, 1, 0, 0, 0, 7, // PLI
    0x84, 206, 0, 6, 0, 0, 0, 1, 0, 0, 0, 0, 0, 0, 0, 8, 3, 0, 0, 0, 0, 0, 0, 7, 4, 0, 0,
    0, // FIR
    0x81, 205, 0, 3, 0, 0, 0, 1, 0, 0, 0, 8, 0, 1, 0, 0, // NACK
    0x81, 206, 0, 2, 0, 0, 0, 1, 0, 0, 0, 8, // PLI
    0x80, 203, 0, 0, // BYE of nobody
];

#[test]
fn requests_by_the_standards() {
    use Request::{Keyframe, Packet};
    assert_eq!(
        requests(7, &FEEDBACK),
        Ok(vec![
            Packet(0xfffe),
            Packet(0),
            Packet(14),
            Packet(5),
            Keyframe,
            Keyframe
        ])
    );
    assert_eq!(
        requests(8, &FEEDBACK),
        Ok(vec![Keyframe, Packet(1), Keyframe])
    );
    assert_eq!(requests(9, &FEEDBACK), Ok(vec![]));
    // A packet with a fault anywhere requests nothing.
    assert_eq!(requests(7, &FEEDBACK[..99]), Err(RtcpError::HeaderTooShort));
    assert_eq!(
        read_requests(CompoundRule::Full, 7, &FEEDBACK[8..]).map(|_| ()),
        Err(RtcpError::FirstNotReport)
    );
}

fn nack(numbers: &[u16]) -> Result<Vec<u8>, Fail> {
    let (mut pairs, mut packet) = (Vec::new(), Vec::new());
    pack_numbers(numbers, &mut pairs)?;
    Nack {
        sender_ssrc: 1,
        media_ssrc: 7,
        pairs: &pairs,
    }
    .write(&mut packet)?;
    Ok(packet)
}

/// Sends 200 frames of VP8 of which every fifth packet is lost, and answers the receiver's NACKs.
fn all_frames_arrive(stream: Option<RetransmissionStream>) -> Result<(), Fail> {
    let packetizer = CodecPacketizer::from_codec(Codec::Vp8).unwrap();
    let mut settings = SenderSettings::for_stream(96, 7, Frequency::NINETY_KHZ);
    settings.first_number = 65_500;
    let mut sender: Sender = Sender::new(packetizer, settings)?;
    let mut history = history(64, 0, stream);
    let mut settings = ReceiverSettings::for_stream(96, Codec::Vp8, Frequency::NINETY_KHZ);
    settings.ssrc = Some(7);
    settings.wait_limits = WaitLimits::for_round_trip(40);
    settings.retransmission = stream.map(|it| Retransmission {
        ssrc: it.ssrc,
        payload_type: it.payload_type,
    });
    let depacketizer = CodecDepacketizer::from_codec(Codec::Vp8).unwrap();
    let mut receiver: Receiver = Receiver::new(depacketizer, settings)?;
    let (mut frames, mut count, mut again) = (0_u8, 0, Vec::new());
    for frame in 0..200_u8 {
        let now = Ticks(u64::from(frame) * 33);
        sender.send(&Sample {
            rtp_time: MediaTime::from_90khz(u64::from(frame) * 3_000),
            bytes: &[frame; 3_000],
            start_of_talk_spurt: false,
            ext_vals: ExtensionValues::default(),
        })?;
        for datagram in sender.datagrams() {
            history.keep(datagram)?;
            count += 1;
            if count % 5 != 3 {
                receiver.receive(now, datagram)?;
            }
        }
        let missing: Vec<u16> = receiver.missing(64).map(|number| number as u16).collect();
        if !missing.is_empty() {
            let nack = nack(&missing)?;
            for request in read_requests(CompoundRule::ReducedSize, 7, &nack)? {
                let Request::Packet(number) = request else {
                    return Err("a NACK requests packets".into());
                };
                assert_eq!(history.resend(now, number, &mut again)?, Resent::Written);
                receiver.receive(now, &again)?;
            }
        }
        while let Some(unit) = receiver.pop(now) {
            assert_eq!(unit?.into_result()?.bytes, [frames; 3_000]);
            frames += 1;
        }
    }
    receiver.finish()?;
    while let Some(unit) = receiver.pop(Ticks(0)) {
        assert_eq!(unit?.into_result()?.bytes, [frames; 3_000]);
        frames += 1;
    }
    assert_eq!(frames, 200);
    assert!(receiver.counters().packets.retransmitted >= 100 || stream.is_none());
    Ok(())
}

#[test]
fn lost_packets_are_resent_as_they_were() -> Result<(), Fail> {
    all_frames_arrive(None)
}

#[test]
fn lost_packets_are_resent_in_a_stream_of_their_own() -> Result<(), Fail> {
    all_frames_arrive(Some(STREAM))
}

#[test]
fn originals_by_the_standard() -> Result<(), Fail> {
    let stream = OriginalStream {
        ssrc: 0x0506_0708,
        payload_type: 96,
    };
    let mut out = b"what was there".to_vec();
    stream.write(&AGAIN, &mut out)?;
    // The packet, without its padding.
    let mut original = PACKET[..27].to_vec();
    original[0] &= !0x20;
    assert_eq!(out, original);
    let wrong = OriginalStream {
        payload_type: 128,
        ..stream
    };
    for (stream, datagram, fault) in [
        (wrong, &AGAIN[..], OriginalError::PayloadType),
        (stream, &AGAIN[..25], OriginalError::TooShort),
        (stream, &AGAIN[..24], OriginalError::TooShort),
        (
            stream,
            &AGAIN[..11],
            OriginalError::Rtp(codec_payload::rtp::RtpError::HeaderTooShort),
        ),
    ] {
        assert_eq!(stream.write(datagram, &mut out), Err(fault));
        assert!(out.is_empty());
    }
    Ok(())
}

/// The first datagram of a number is kept, and `keep` replaces it.
#[test]
fn each_number_is_kept_once() -> Result<(), Fail> {
    let mut history = history(10, 0, None);
    let other = |number| {
        let mut bytes = packet(number).to_vec();
        bytes.push(1);
        bytes
    };
    assert_eq!(history.packet(20), None);
    assert_eq!(history.keep_once(&packet(20))?, KeptOnce::New);
    assert_eq!(history.keep_once(&other(20))?, KeptOnce::Known);
    assert_eq!(history.packet(20), Some(&packet(20)[..]));
    assert_eq!(history.keep(&other(20))?, Kept::Stored);
    assert_eq!(history.packet(20), Some(&other(20)[..]));
    for number in 11..25 {
        let known = number == 20;
        let kept = if known {
            KeptOnce::Known
        } else {
            KeptOnce::New
        };
        assert_eq!(history.keep_once(&packet(number))?, kept);
    }
    assert_eq!(history.keep_once(&packet(14))?, KeptOnce::TooOld);
    // A packet that is known comes between two that are too old: the sender has not restarted.
    assert_eq!(history.keep_once(&packet(60_000))?, KeptOnce::TooOld);
    assert_eq!(history.keep_once(&packet(24))?, KeptOnce::Known);
    assert_eq!(history.keep_once(&packet(60_001))?, KeptOnce::TooOld);
    assert_eq!(history.keep_once(&packet(60_002))?, KeptOnce::New);
    assert_eq!(history.packet(24), None);
    Ok(())
}
