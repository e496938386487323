//! A forwarder between two senders and a viewer's receiver, with losses, repetitions and reordering on both hops.

use codec_payload::forward::*;
use codec_payload::history::{History, HistorySettings, KeptOnce, Resent, RetransmissionStream};
use codec_payload::rtp::RtpPacket;
use codec_payload::sender::{Sample, Sender, SenderSettings};
use codec_payload::stream::{Receiver, ReceiverSettings};
use codec_payload::{
    Codec, CodecDepacketizer, CodecPacketizer, ExtensionValues, Frequency, MediaTime, Ticks,
};
use std::collections::{BTreeMap, BTreeSet};
use std::error::Error;

type Outcome = Result<(), Box<dyn Error>>;

const VIEWER: u32 = 0x7777;

fn settings(codec: Codec) -> ForwardSettings {
    ForwardSettings {
        codec,
        ssrc: VIEWER,
        payload_type: 101,
        first_number: 65_530,
        first_time: u32::MAX - 5_000,
        retransmissions: None,
    }
}

/// A packet of RTP with a payload (RFC 3550, section 5.1), without an extension.
fn packet(number: u16, time: u32, ssrc: u32, payload: &[u8]) -> Vec<u8> {
    let mut bytes = vec![0x80, 0x80 | 96];
    bytes.extend(number.to_be_bytes());
    bytes.extend(time.to_be_bytes());
    bytes.extend(ssrc.to_be_bytes());
    bytes.extend(payload);
    bytes
}

#[test]
fn settings_are_checked() {
    let wrong = |change: fn(&mut ForwardSettings)| {
        let mut settings = settings(Codec::Vp8);
        change(&mut settings);
        Forwarder::new(settings).err()
    };
    assert_eq!(
        wrong(|s| s.payload_type = 128),
        Some(ForwardError::PayloadType)
    );
    assert_eq!(wrong(|s| s.codec = Codec::H264), Some(ForwardError::Codec));
    assert_eq!(wrong(|s| s.payload_type = 127), None);
}

#[test]
fn bytes_of_a_forwarded_packet() -> Outcome {
    let mut forwarder = Forwarder::new(settings(Codec::Opus))?;
    let mut out = vec![1];
    // With the marker, one CSRC, a header extension of one word, and two bytes of padding.
    let datagram = [
        0xb1, 0xe0, 0x12, 0x34, 0, 0, 1, 0, 0, 0, 0, 9, 1, 2, 3, 4, 0xbe, 0xde, 0, 1, 0x10, 5, 0,
        0, 42, 43, 0, 2,
    ];
    let read = RtpPacket::parse(&datagram)?;
    assert_eq!(forwarder.write(0, &read, &mut out)?, Forwarded::OtherSource);
    assert!(out.is_empty());
    forwarder.want(9);
    assert_eq!(forwarder.write(0, &read, &mut out)?, Forwarded::Began);
    let sent = [
        0xa0, 0xe5, 0xff, 0xfa, 0xff, 0xff, 0xec, 0x77, 0, 0, 0x77, 0x77, 42, 43, 0, 2,
    ];
    assert_eq!(out, sent);
    assert_eq!((forwarder.source(), forwarder.wanted()), (Some(9), Some(9)));
    assert_eq!(forwarder.time_for(9, 356), Some(u32::MAX - 4_900));
    assert_eq!(forwarder.time_for(8, 356), None);
    assert_eq!(forwarder.source_of(65_530), Some(0x1234));
    assert_eq!(forwarder.source_of(65_531), None);
    out.clear();
    assert!(forwarder.write_again(&read, &mut out)?);
    assert_eq!(out, sent);
    Ok(())
}

#[test]
fn begins_at_keyframes_only() -> Outcome {
    let cases: [(Codec, &[u8], &[u8]); 9] = [
        (Codec::Vp8, &[0x10, 0x01, 7], &[0x10, 0x00, 7]),
        (Codec::Vp8, &[0x00, 0x00, 7], &[0x10, 0x00, 7]),
        (Codec::Vp9, &[0x04, 7], &[0x08, 7]),
        // L is set, and SID is 1: alone, behind a PictureID of one byte and of two bytes; with the octet of layers missing.
        (Codec::Vp9, &[0x28, 0x13, 7], &[0x28, 0x10, 7]),
        (Codec::Vp9, &[0xa8, 5, 0x13, 7], &[0xa8, 5, 0x11, 7]),
        (Codec::Vp9, &[0xa8, 0x80, 5, 0x13], &[0xa8, 0x80, 5, 0x10]),
        (Codec::Vp9, &[0x28], &[0x28, 0x00]),
        (Codec::Vp9, &[0xa8, 0x80, 0x00], &[0xa8, 0x80, 0x00, 0x00]),
        (Codec::Av1, &[0x98, 7], &[0x18, 7]),
    ];
    for (codec, other, first) in cases {
        let mut forwarder = Forwarder::new(settings(codec))?;
        let mut out = Vec::new();
        forwarder.want(1);
        let datagram = packet(10, 0, 1, other);
        assert_eq!(
            forwarder.write(0, &RtpPacket::parse(&datagram)?, &mut out)?,
            Forwarded::NoKeyframe
        );
        let datagram = packet(11, 0, 1, first);
        assert_eq!(
            forwarder.write(0, &RtpPacket::parse(&datagram)?, &mut out)?,
            Forwarded::Began
        );
        let datagram = packet(10, 0, 1, other);
        assert_eq!(
            forwarder.write(0, &RtpPacket::parse(&datagram)?, &mut out)?,
            Forwarded::TooOld
        );
        let datagram = packet(13, 0, 1, other);
        assert_eq!(
            forwarder.write(0, &RtpPacket::parse(&datagram)?, &mut out)?,
            Forwarded::Written
        );
        assert_eq!(out[2..4], 65_532_u16.to_be_bytes());
    }
    Ok(())
}

#[test]
fn times_go_on_by_the_clock() -> Outcome {
    let mut forwarder = Forwarder::new(settings(Codec::Opus))?;
    let mut out = Vec::new();
    let time = |out: &[u8]| u32::from_be_bytes([out[4], out[5], out[6], out[7]]);
    forwarder.want(1);
    let one = packet(5, 1_000, 1, &[1]);
    forwarder.write(100, &RtpPacket::parse(&one)?, &mut out)?;
    let begun = time(&out);
    let next = packet(6, 1_960, 1, &[1]);
    forwarder.write(1_060, &RtpPacket::parse(&next)?, &mut out)?;
    assert_eq!(time(&out), begun.wrapping_add(960));
    // A packet that comes late changes neither the highest time nor the clock.
    forwarder.write(2_000, &RtpPacket::parse(&one)?, &mut out)?;
    assert_eq!(time(&out), begun);
    forwarder.want(2);
    let other = packet(60_000, 7, 2, &[1]);
    assert_eq!(
        forwarder.write(3_060, &RtpPacket::parse(&other)?, &mut out)?,
        Forwarded::Began
    );
    assert_eq!(time(&out), begun.wrapping_add(960 + 2_000));
    assert_eq!(out[2..4], 65_532_u16.to_be_bytes());
    // At least one tick, also if the clock does not move; the same source again after `mute`.
    forwarder.mute();
    assert_eq!(
        forwarder.write(3_060, &RtpPacket::parse(&other)?, &mut out)?,
        Forwarded::OtherSource
    );
    forwarder.want(2);
    assert_eq!(
        forwarder.write(3_060, &RtpPacket::parse(&other)?, &mut out)?,
        Forwarded::Began
    );
    assert_eq!(time(&out), begun.wrapping_add(960 + 2_001));
    Ok(())
}

/// Numbers by a plain model: a map from each number of the source to the one sent.
#[test]
fn numbers_follow_a_model() -> Outcome {
    let mut random = 1_u64;
    let mut next = |below: u64| {
        random = random
            .wrapping_mul(6_364_136_223_846_793_005)
            .wrapping_add(1_442_695_040_888_963_407);
        (random >> 33) % below
    };
    for run in 0..20 {
        let first = 100_000 + next(100_000);
        let mut map = Renumbering::new(first, 65_000 + run);
        let (mut highest, mut start) = (first, u64::from(65_000 + run));
        let (mut first, mut gone) = (first, BTreeSet::new());
        let mut given = BTreeMap::new();
        for _ in 0..3_000 {
            let number = (highest + 4).saturating_sub(next(30));
            let wanted = next(4) != 0;
            let before = gone.range(..number).count() as u64;
            let expected = if number < first {
                Placed::TooOld
            } else if gone.contains(&number) {
                Placed::LeftOut
            } else if wanted {
                Placed::Sent((start + number - first - before) as u16)
            } else if number > highest {
                gone.insert(number);
                Placed::LeftOut
            } else {
                Placed::Unused((start + number - first - before) as u16)
            };
            if wanted {
                assert_eq!(map.placed(number), expected);
            }
            assert_eq!(map.place(number, wanted)?, expected);
            highest = highest.max(number);
            if let Placed::Sent(sent) | Placed::Unused(sent) = expected {
                assert_eq!(map.source_of(sent), Some(number));
                // No two packets share a number.
                assert_eq!(*given.entry(sent).or_insert(number), number);
            }
            let following = start + highest + 1 - first - gone.len() as u64;
            assert_eq!(map.next_number(), following as u16);
            assert_eq!(map.source_of(following as u16), None);
            if next(1_000) == 0 {
                let number = next(1 << 20);
                map.switch(number);
                (first, highest, start) = (number, number, following);
                gone.clear();
                given.clear();
            }
        }
    }
    Ok(())
}

/// More packets are left out than are remembered: the older numbers have no place any more, and the others keep theirs.
#[test]
fn forgets_the_oldest_left_out() -> Outcome {
    let mut map = Renumbering::new(0, 0);
    let count = MAX_LEFT_OUT as u64 + 10;
    for number in 1..=2 * count {
        map.place(number, number % 2 == 0)?;
    }
    // Numbers 1, 3, .. 2 * count - 1 were left out; the lowest ten are forgotten.
    assert_eq!(map.placed(19), Placed::TooOld);
    assert_eq!(map.placed(20), Placed::Sent(10));
    assert_eq!(map.placed(2 * count), Placed::Sent(count as u16));
    assert_eq!(map.source_of(10), Some(20));
    assert_eq!(map.source_of(9), None);
    Ok(())
}

/// A datagram that is lost, or comes now, later, or twice.
fn delivered(kind: u64) -> &'static [usize] {
    match kind {
        0 => &[],
        1 => &[3],
        2 => &[0, 2],
        _ => &[0],
    }
}

/// Two simulcast layers, a forwarder that switches between them, and a viewer: it gets whole frames of VP8, in order, each layer
/// beginning with a keyframe. What the viewer misses is resent from the store of the layer.
#[test]
fn a_viewer_gets_whole_frames() -> Outcome {
    let mut random = 7_u64;
    let mut next = |below: u64| {
        random = random
            .wrapping_mul(6_364_136_223_846_793_005)
            .wrapping_add(1_442_695_040_888_963_407);
        (random >> 33) % below
    };
    let layer = |place: u32| -> Result<Sender, Box<dyn Error>> {
        Ok(Sender::new(
            CodecPacketizer::try_from(Codec::Vp8)?,
            SenderSettings {
                first_number: 65_000 - 30_000 * place as u16,
                ..SenderSettings::for_stream(96, place + 1, Frequency::NINETY_KHZ)
            },
        )?)
    };
    let mut layers = [layer(0)?, layer(1)?];
    let store = || {
        History::new(HistorySettings {
            limit: 2_048,
            interval: 0,
            stream: None,
        })
    };
    let mut stores = [store()?, store()?];
    let mut forwarder = Forwarder::new(settings(Codec::Vp8))?;
    let mut viewer = Receiver::new(
        CodecDepacketizer::try_from(Codec::Vp8)?,
        ReceiverSettings::for_stream(101, Codec::Vp8, Frequency::NINETY_KHZ),
    )?;
    let (mut out, mut kept) = (Vec::new(), Vec::new());
    let mut late: Vec<(usize, Vec<u8>)> = Vec::new();
    let (mut frames, mut switches, mut before) = (0, 0, None);
    for number in 0..600_u32 {
        let now = Ticks(u64::from(33 * number));
        let clock = 2_970 * u64::from(number);
        if number % 60 == 0 {
            forwarder.want(1 + number / 60 % 2);
        }
        let mut arrived: Vec<Vec<u8>> = Vec::new();
        for (place, layer) in layers.iter_mut().enumerate() {
            let mut frame = vec![place as u8; 3_500];
            let keyframe = number % 20 == 10 * place as u32;
            let tag = u32::from(!keyframe) | 1 << 4 | 100 << 5;
            frame[..3].copy_from_slice(&tag.to_le_bytes()[..3]);
            if keyframe {
                frame[3..10].copy_from_slice(&[0x9d, 0x01, 0x2a, 0x40, 0x01, 0xf0, 0x00]);
            }
            layer.send(&Sample {
                rtp_time: MediaTime::from_90khz(u64::from(2_970 * number) + 999_999 * place as u64),
                bytes: &frame,
                start_of_talk_spurt: false,
                ext_vals: ExtensionValues::default(),
            })?;
            for datagram in layer.datagrams() {
                // The first hop reorders and repeats; what it loses was requested and comes two frames later.
                for wait in delivered(next(12) + 1) {
                    if *wait == 0 {
                        arrived.push(datagram.to_vec());
                    } else {
                        late.push((number as usize + wait, datagram.to_vec()));
                    }
                }
            }
        }
        let due = late
            .iter()
            .filter(|l| l.0 == number as usize)
            .map(|l| l.1.clone());
        arrived.extend(due);
        late.retain(|l| l.0 != number as usize);
        let mut sent: Vec<Vec<u8>> = Vec::new();
        for datagram in &arrived {
            let packet = RtpPacket::parse(datagram)?;
            let store = &mut stores[packet.header.ssrc as usize - 1];
            if store.keep_once(datagram)? != KeptOnce::New {
                continue;
            }
            match forwarder.write(clock, &packet, &mut out)? {
                Forwarded::Began => {
                    sent.push(out.clone());
                    switches += 1;
                    // Packets of the keyframe that came before its first one.
                    for step in 1..64 {
                        let number = packet.header.sequence_number.wrapping_add(step);
                        if store.resend(Ticks(0), number, &mut kept)? == Resent::Written
                            && forwarder.write(clock, &RtpPacket::parse(&kept)?, &mut out)?
                                == Forwarded::Written
                        {
                            sent.push(out.clone());
                        }
                    }
                }
                Forwarded::Written => sent.push(out.clone()),
                _ => assert!(out.is_empty()),
            }
        }
        for datagram in sent {
            if next(20) != 0 {
                viewer.receive_any(now, &datagram)?;
            }
        }
        // The viewer's requests, answered from the store.
        let missing: Vec<u64> = viewer.missing(64).collect();
        for number in missing {
            let source = forwarder.source().ok_or("no source")?;
            let store = &stores[source as usize - 1];
            if let Some(packet) = forwarder.requested(number as u16, store) {
                assert!(forwarder.write_again(&packet, &mut out)?);
                assert_eq!(out.len(), forwarder.size_again(&packet));
                viewer.receive_any(now, &out)?;
            }
        }
        for unit in viewer.units(now) {
            let unit = unit?;
            let layer = unit.bytes[3_499];
            assert_eq!(unit.bytes.len(), 3_500);
            assert!(unit.bytes[10..].iter().all(|&b| b == layer));
            assert!(before == Some(layer) || unit.bytes[0] & 1 == 0);
            before = Some(layer);
            frames += 1;
        }
    }
    println!("{frames} frames, {switches} switches");
    assert_eq!(switches, 10);
    assert!(frames >= 560, "{frames} frames");
    Ok(())
}

/// The payload that `forwarder` writes for a packet of `ssrc`, which the viewer wants from now on.
fn written(
    forwarder: &mut Forwarder,
    ssrc: u32,
    number: u16,
    payload: &[u8],
) -> Result<Vec<u8>, Box<dyn Error>> {
    if forwarder.source() != Some(ssrc) {
        forwarder.want(ssrc);
    }
    let datagram = packet(number, 0, ssrc, payload);
    let mut out = Vec::new();
    forwarder.write(0, &RtpPacket::parse(&datagram)?, &mut out)?;
    Ok(out.get(12..).unwrap_or_default().to_vec())
}

/// The packet of a VP8 payload with a PictureID of 15 bits and TL0PICIDX, TID 1 (RFC 7741, section 4.2).
fn vp8(id: u16, tl0: u8, frame: &[u8]) -> Vec<u8> {
    let [high, low] = id.to_be_bytes();
    let mut payload = vec![0x90, 0xe0, 0x80 | high, low, tl0, 0x40];
    payload.extend(frame);
    payload
}

#[test]
fn ids_of_vp8_go_on() -> Outcome {
    let mut forwarder = Forwarder::new(settings(Codec::Vp8))?;
    let mut write =
        |ssrc: u32, number: u16, payload: &[u8]| written(&mut forwarder, ssrc, number, payload);
    // The first picture gets 0 and 0, whatever it had.
    assert_eq!(write(1, 10, &vp8(500, 77, &[0, 9]))?, vp8(0, 0, &[0, 9]));
    // Offsets stay, with gaps and late packets.
    assert_eq!(write(1, 13, &vp8(503, 79, &[1, 9]))?, vp8(3, 2, &[1, 9]));
    assert_eq!(write(1, 11, &vp8(501, 77, &[1, 9]))?, vp8(1, 0, &[1, 9]));
    // Another source goes on by one from the highest, and wraps.
    assert_eq!(
        write(2, 99, &vp8(32_767, 255, &[0, 9]))?,
        vp8(4, 3, &[0, 9])
    );
    assert_eq!(write(2, 100, &vp8(0, 0, &[1, 9]))?, vp8(5, 4, &[1, 9]));
    // A PictureID of 7 bits keeps its width; a payload without ids stays as it is.
    let short = [0x90, 0x80, 126, 0, 9];
    assert_eq!(write(3, 5, &short)?, [0x90, 0x80, 6, 0, 9]);
    assert_eq!(
        write(3, 6, &[0x90, 0x80, 127, 1, 9])?,
        [0x90, 0x80, 7, 1, 9]
    );
    assert_eq!(write(3, 7, &[0x90, 0x80, 0, 1, 9])?, [0x90, 0x80, 8, 1, 9]);
    assert_eq!(write(4, 1, &[0x10, 0, 9])?, [0x10, 0, 9]);
    Ok(())
}

/// The payload of VP9 with a PictureID, of 15 bits or of 7 (RFC 9628, section 4.2). In the non-flexible mode it has TID 1 and
/// TL0PICIDX; in the flexible mode P_DIFF 1 unless the picture is a keyframe.
fn vp9(is_flexible: bool, is_long: bool, id: u16, tl0: u8, is_key: bool) -> Vec<u8> {
    // I L, F in the flexible mode, P unless a keyframe; B and E.
    let mut payload = vec![0xac];
    if is_flexible {
        payload[0] |= 0x10;
    }
    if !is_key {
        payload[0] |= 0x40;
    }
    if is_long {
        payload.extend((0x8000 | (id % 32_768)).to_be_bytes());
    } else {
        payload.push((id % 128) as u8);
    }
    payload.push(0x20);
    if !is_flexible {
        payload.push(tl0);
    } else if !is_key {
        payload.push(1 << 1);
    }
    payload.extend([0x82, tl0, 0x55]);
    payload
}

#[test]
fn ids_of_vp9_go_on() -> Outcome {
    let mut forwarder = Forwarder::new(settings(Codec::Vp9))?;
    let mut write =
        |ssrc: u32, number: u16, payload: &[u8]| written(&mut forwarder, ssrc, number, payload);
    // The first picture gets 0 and 0. Offsets stay, with gaps and late packets. Bytes after the ids stay.
    let start = [0x8a, 0x81, 0xf4, 0x18, 3, 4];
    assert_eq!(write(1, 10, &start)?, [0x8a, 0x80, 0, 0x18, 3, 4]);
    let layered = [0xe5, 0x81, 0xf7, 0x32, 200, 9];
    assert_eq!(write(1, 13, &layered)?, [0xe5, 0x80, 3, 0x32, 200, 9]);
    let late = [0x81, 0x81, 0xf5, 7];
    assert_eq!(write(1, 11, &late)?, [0x81, 0x80, 1, 7]);
    // Another source, in the non-flexible mode with layers, follows the last ids that were sent.
    let next = [0xa8, 0xff, 0xff, 0x10, 250, 9];
    assert_eq!(write(2, 99, &next)?, [0xa8, 0x80, 4, 0x10, 201, 9]);
    let wrapped = [0xe5, 0x80, 0x00, 0x32, 0, 9];
    assert_eq!(write(2, 100, &wrapped)?, [0xe5, 0x80, 5, 0x32, 207, 9]);
    // The flexible mode has no TL0PICIDX: the byte after the layers is P_DIFF, which stays.
    let flexible = [0xf5, 0x80, 0x01, 0x20, 0x02, 9];
    assert_eq!(write(2, 101, &flexible)?, [0xf5, 0x80, 6, 0x20, 0x02, 9]);
    // Ids of 7 bits keep their width, and go on modulo 2^7; with one of 15 bits they go on from there.
    let short = [0xa8, 126, 0x10, 9, 9];
    assert_eq!(write(3, 5, &short)?, [0xa8, 7, 0x10, 208, 9]);
    assert_eq!(write(3, 6, &[0x8c, 127, 9])?, [0x8c, 8, 9]);
    assert_eq!(write(3, 7, &[0x8c, 0, 9])?, [0x8c, 9, 9]);
    let long = [0x88, 0x80, 77, 9];
    assert_eq!(write(4, 1, &long)?, [0x88, 0x80, 10, 9]);
    // Without ids, and cut off before the end of the ids: as received.
    for (number, payload) in [
        &[0x04, 9][..],
        &[0xa0],
        &[0xa0, 0x80],
        &[0xa0, 5, 0x10],
        &[],
    ]
    .into_iter()
    .enumerate()
    {
        assert_eq!(write(4, 2 + number as u16, payload)?, payload);
    }
    Ok(())
}

/// A picture of VP9 that is left out leaves a gap in the picture ids: a difference of the flexible mode counts ids, and a group of
/// pictures names a picture by its id.
#[test]
fn picture_ids_of_vp9_keep_gaps() -> Outcome {
    for (is_flexible, is_long) in [(false, true), (true, true), (false, false), (true, false)] {
        let mut forwarder = Forwarder::new(settings(Codec::Vp9))?;
        let mut out = Vec::new();
        forwarder.want(1);
        for number in 0..300_u16 {
            let payload = vp9(is_flexible, is_long, 500 + number, 7, number == 0);
            let datagram = packet(number, 0, 1, &payload);
            let read = RtpPacket::parse(&datagram)?;
            if number % 2 == 1 {
                assert_eq!(forwarder.leave_out(&read, &mut out)?, Forwarded::LeftOut);
            } else {
                forwarder.write(0, &read, &mut out)?;
                assert_eq!(out[2..4], 65_530_u16.wrapping_add(number / 2).to_be_bytes());
                assert_eq!(
                    out[12..],
                    vp9(is_flexible, is_long, number, 7, number == 0)
                        .iter()
                        .enumerate()
                        .map(|(at, byte)| {
                            let tl0 = if is_long { 4 } else { 3 };
                            if at == tl0 && !is_flexible { 0 } else { *byte }
                        })
                        .collect::<Vec<u8>>()
                );
            }
        }
    }
    Ok(())
}

/// The ids of a picture of one of three sources of VP9, by number.
struct Vp9Source {
    is_flexible: bool,
    is_long: bool,
    first_id: u64,
    first_tl0: u64,
}

impl Vp9Source {
    /// The payload of the packet with this number, two packets a picture. Every hundredth picture is a keyframe.
    fn payload(&self, number: u64, id: u64, tl0: u64) -> Vec<u8> {
        let picture = number / 2;
        let mut payload = vp9(
            self.is_flexible,
            self.is_long,
            (id % 32_768) as u16,
            (tl0 % 256) as u8,
            picture % 100 == 0,
        );
        if number % 2 == 1 {
            payload[0] &= !0x08;
        }
        let end = payload.len() - 2;
        payload[end] = picture as u8;
        payload
    }

    fn received(&self, number: u64) -> Vec<u8> {
        self.payload(
            number,
            self.first_id + number / 2,
            self.first_tl0 + number / 4,
        )
    }
}

/// Ids of VP9 against a model, with losses, reordering, repetitions, pictures left out, and switches between sources whose ids have 7
/// or 15 bits: between switches a payload has the ids received plus offsets, and at a switch the ids go on by one.
#[test]
fn ids_of_vp9_follow_a_model() -> Outcome {
    let mut random = 11_u64;
    let mut next = |below: u64| {
        random = random
            .wrapping_mul(6_364_136_223_846_793_005)
            .wrapping_add(1_442_695_040_888_963_407);
        (random >> 33) % below
    };
    let source = |is_flexible, is_long, first_id, first_tl0| Vp9Source {
        is_flexible,
        is_long,
        first_id,
        first_tl0,
    };
    let sources = [
        source(false, true, 32_000, 250),
        source(true, true, 5, 0),
        source(false, false, 100, 9),
        source(true, false, 3, 0),
    ];
    let mut forwarder = Forwarder::new(settings(Codec::Vp9))?;
    let mut out = Vec::new();
    // What is added to the ids of the source, and the ids that were sent last.
    let (mut id_offset, mut tl0_offset) = (0_u64, 0_u64);
    let (mut last_id, mut last_tl0, mut highest) = (32_767_u64, 255_u64, 0);
    let (mut written, mut switches) = (0, 0);
    let mut sent: BTreeMap<u64, Vec<u8>> = BTreeMap::new();
    for step in 0..40_000_u64 {
        if step % 3_001 == 0 {
            forwarder.want(next(4) as u32);
        }
        let number = (step + 4).saturating_sub(next(9));
        for (ssrc, source) in sources.iter().enumerate() {
            let ssrc = ssrc as u32;
            if next(10) == 0 {
                continue;
            }
            let payload = source.received(number);
            let datagram = packet((number % 65_536) as u16, 0, ssrc, &payload);
            let read = RtpPacket::parse(&datagram)?;
            let picture = number / 2;
            if forwarder.source() == Some(ssrc) && picture % 7 == 3 {
                forwarder.leave_out(&read, &mut out)?;
                continue;
            }
            let answer = forwarder.write(0, &read, &mut out)?;
            let width = if source.is_long { 32_768 } else { 128 };
            let (id, tl0) = (source.first_id + picture, source.first_tl0 + number / 4);
            match answer {
                Forwarded::Began => {
                    let (id, tl0) = (id % width, tl0 % 256);
                    id_offset = (last_id + 1 + 65_536 - id) % 65_536;
                    if !source.is_flexible {
                        tl0_offset = (last_tl0 + 1 + 256 - tl0) % 256;
                    }
                    (highest, switches) = (number, switches + 1);
                    sent.clear();
                }
                Forwarded::Written => {}
                _ => continue,
            }
            written += 1;
            let expected_id = (id % width + id_offset) % width;
            let expected_tl0 = (tl0 + tl0_offset) % 256;
            let mut expected = source.payload(number, expected_id, expected_tl0);
            // The bytes after the descriptor stay.
            let end = expected.len() - 3;
            expected[end..].copy_from_slice(&payload[payload.len() - 3..]);
            assert_eq!(out[12..], expected, "packet {number} of {ssrc}");
            if number >= highest {
                (highest, last_id) = (number, expected_id);
                if !source.is_flexible {
                    last_tl0 = expected_tl0;
                }
            }
            sent.insert(number, out.clone());
            // Written again, it is what was sent.
            let (&again, bytes) = sent.iter().next().ok_or("nothing was sent")?;
            if number < again + 30_000 {
                let payload = source.received(again);
                let datagram = packet((again % 65_536) as u16, 0, ssrc, &payload);
                let bytes = bytes.clone();
                if forwarder.write_again(&RtpPacket::parse(&datagram)?, &mut out)? {
                    assert_eq!(out, bytes);
                }
            }
        }
    }
    assert!(
        written > 20_000 && switches > 9,
        "{written} written, {switches} switches"
    );
    Ok(())
}

#[test]
fn retransmissions_are_wrapped() -> Outcome {
    let stream = RetransmissionStream {
        ssrc: 0x8888,
        payload_type: 102,
        first_number: u16::MAX,
    };
    let wrong = RetransmissionStream {
        payload_type: 128,
        ..stream
    };
    let with = |stream| ForwardSettings {
        retransmissions: Some(stream),
        ..settings(Codec::Vp8)
    };
    assert_eq!(
        Forwarder::new(with(wrong)).err(),
        Some(ForwardError::RetransmissionType)
    );
    let mut forwarder = Forwarder::new(with(stream))?;
    let mut out = Vec::new();
    assert_eq!(forwarder.source_of(65_529), None);
    forwarder.want(1);
    let first = packet(10, 7, 1, &vp8(500, 77, &[0, 9]));
    let other = packet(11, 7, 1, &vp8(501, 77, &[1, 9]));
    for datagram in [&first, &other] {
        forwarder.write(0, &RtpPacket::parse(datagram)?, &mut out)?;
    }
    for number in [u16::MAX, 0] {
        assert_eq!(forwarder.source_of(65_530), Some(10));
        assert!(forwarder.write_again(&RtpPacket::parse(&first)?, &mut out)?);
        let mut sent = vec![0x80, 0x80 | 102];
        sent.extend(number.to_be_bytes());
        sent.extend((u32::MAX - 5_000).to_be_bytes());
        sent.extend(0x8888_u32.to_be_bytes());
        sent.extend(65_530_u16.to_be_bytes());
        sent.extend(vp8(0, 0, &[0, 9]));
        assert_eq!(out, sent);
    }
    // Above the highest number, and of another source.
    for datagram in [packet(12, 7, 1, &[0]), packet(10, 7, 2, &[0])] {
        assert!(!forwarder.write_again(&RtpPacket::parse(&datagram)?, &mut out)?);
        assert!(out.is_empty());
    }
    Ok(())
}

#[test]
fn left_out_packets_close_up() -> Outcome {
    let mut forwarder = Forwarder::new(settings(Codec::Av1))?;
    let mut out = Vec::new();
    forwarder.want(1);
    let mut call = |number: u16, wanted: bool| -> Result<(Forwarded, Vec<u8>), Box<dyn Error>> {
        let datagram = packet(number, 500, 1, &[0x18, 7]);
        let read = RtpPacket::parse(&datagram)?;
        let answer = if wanted {
            forwarder.write(0, &read, &mut out)?
        } else {
            forwarder.leave_out(&read, &mut out)?
        };
        Ok((answer, out.clone()))
    };
    let number = |out: &[u8]| u16::from_be_bytes([out[2], out[3]]);
    assert_eq!(call(10, false)?, (Forwarded::OtherSource, vec![]));
    assert_eq!(call(10, true)?.0, Forwarded::Began);
    assert_eq!(call(11, false)?, (Forwarded::LeftOut, vec![]));
    let (answer, bytes) = call(12, true)?;
    assert_eq!((answer, number(&bytes)), (Forwarded::Written, 65_531));
    let (answer, bytes) = call(14, true)?;
    assert_eq!((answer, number(&bytes)), (Forwarded::Written, 65_533));
    // 13 was lost and comes late: padding under its number. 11 comes again, and is not left out now.
    let (answer, bytes) = call(13, false)?;
    assert_eq!((answer, number(&bytes)), (Forwarded::Filled, 65_532));
    assert_eq!((bytes[0], bytes.len(), bytes[12]), (0xa0, 13, 1));
    assert_eq!(call(11, true)?, (Forwarded::LeftOut, vec![]));
    assert_eq!(call(11, false)?, (Forwarded::LeftOut, vec![]));
    assert_eq!(call(9, false)?, (Forwarded::TooOld, vec![]));
    Ok(())
}

/// The viewer requests the number of padding: the packet that was left out is found, and left out again it is the same padding.
#[test]
fn padding_is_written_again() -> Outcome {
    let mut forwarder = Forwarder::new(settings(Codec::Opus))?;
    let mut store = History::new(HistorySettings {
        limit: 8,
        interval: 0,
        stream: None,
    })?;
    let (mut sent, mut again) = (Vec::new(), Vec::new());
    forwarder.want(1);
    for number in [10, 12, 11] {
        let datagram = packet(number, 0, 1, &[7; 5]);
        store.keep_once(&datagram)?;
        let read = RtpPacket::parse(&datagram)?;
        if number == 11 {
            assert_eq!(forwarder.leave_out(&read, &mut sent)?, Forwarded::Filled);
        } else {
            forwarder.write(0, &read, &mut sent)?;
        }
    }
    let number = u16::from_be_bytes([sent[2], sent[3]]);
    let found = forwarder.requested(number, &store).ok_or("kept")?;
    assert_eq!(found.header.sequence_number, 11);
    assert_eq!(forwarder.leave_out(&found, &mut again)?, Forwarded::Filled);
    assert_eq!(again, sent);
    Ok(())
}

/// Pictures of VP8 that are left out leave no gap in the PictureIDs of the others (RFC 7741, section 4.2), also in packets that are
/// late or retransmitted. An id is unused only if all packets of its picture come late.
#[test]
fn picture_ids_close_up() -> Outcome {
    let mut forwarder = Forwarder::new(settings(Codec::Vp8))?;
    let mut out = Vec::new();
    forwarder.want(1);
    // Two packets a picture: picture 500 + n has the numbers 2 n and 2 n + 1.
    let packet_of = |number: u16| {
        let start: &[u8] = if number == 0 { &[0, 9] } else { &[1, 9] };
        packet(number, 0, 1, &vp8(500 + number / 2, 7, start))
    };
    let id = |out: &[u8]| u16::from_be_bytes([out[14] & 0x7f, out[15]]);
    let mut call = |number: u16, wanted: bool| -> Result<(Forwarded, u16), Box<dyn Error>> {
        let datagram = packet_of(number);
        let read = RtpPacket::parse(&datagram)?;
        let answer = if wanted {
            forwarder.write(0, &read, &mut out)?
        } else {
            forwarder.leave_out(&read, &mut out)?
        };
        let written = matches!(answer, Forwarded::Began | Forwarded::Written);
        Ok((answer, if written { id(&out) } else { 0 }))
    };
    assert_eq!(call(0, true)?, (Forwarded::Began, 0));
    assert_eq!(call(1, true)?, (Forwarded::Written, 0));
    // Picture 501 is left out, with both packets: 502 follows 500.
    assert_eq!(call(2, false)?.0, Forwarded::LeftOut);
    assert_eq!(call(3, false)?.0, Forwarded::LeftOut);
    assert_eq!(call(4, true)?, (Forwarded::Written, 1));
    // 503 is left out, and its first packet comes late. 502's second packet is late too, and keeps its id.
    assert_eq!(call(7, false)?.0, Forwarded::LeftOut);
    assert_eq!(call(8, true)?, (Forwarded::Written, 2));
    assert_eq!(call(6, false)?.0, Forwarded::Filled);
    assert_eq!(call(5, true)?, (Forwarded::Written, 1));
    // A lost picture is a gap of one: 505 does not come, and 506 is one further.
    assert_eq!(call(12, true)?, (Forwarded::Written, 4));
    // It comes after all, all of it late, and is left out: its id stays unused.
    assert_eq!(call(10, false)?.0, Forwarded::Filled);
    assert_eq!(call(11, false)?.0, Forwarded::Filled);
    // Two pictures in a row are left out, and the first packet of each comes.
    for number in [14, 15, 16, 17] {
        assert_eq!(call(number, false)?.0, Forwarded::LeftOut);
    }
    assert_eq!(call(18, true)?, (Forwarded::Written, 5));
    // Retransmitted: the id with which it was sent.
    let again = packet_of(9);
    assert!(forwarder.write_again(&RtpPacket::parse(&again)?, &mut out)?);
    assert_eq!(id(&out), 2);
    // Another source follows the last picture that was sent.
    forwarder.want(2);
    let other = packet(700, 0, 2, &vp8(9_000, 1, &[0, 9]));
    let answer = forwarder.write(0, &RtpPacket::parse(&other)?, &mut out)?;
    assert_eq!((answer, id(&out)), (Forwarded::Began, 6));
    Ok(())
}

/// PictureIDs against a model, with losses and reordering: the id of a packet is the source's, less the pictures that were left out
/// before it. A picture counts once a packet of it was left out ahead of all others.
#[test]
fn picture_ids_follow_a_model() -> Outcome {
    let mut random = 5_u64;
    let mut next = |below: u64| {
        random = random
            .wrapping_mul(6_364_136_223_846_793_005)
            .wrapping_add(1_442_695_040_888_963_407);
        (random >> 33) % below
    };
    let mut order: Vec<u64> = (0..40_000)
        .filter(|number| *number == 0 || next(10) > 0)
        .collect();
    for place in 1..order.len() - 4 {
        if next(4) == 0 {
            order.swap(place, place + next(4) as usize);
        }
    }
    let mut forwarder = Forwarder::new(settings(Codec::Vp8))?;
    let mut out = Vec::new();
    forwarder.want(1);
    // The pictures that were left out, and the number of the first packet of each, which rise.
    let (mut highest, mut pictures, mut firsts) = (0, BTreeSet::new(), Vec::new());
    for number in order {
        let picture = number / 3;
        let start: &[u8] = if number == 0 { &[0, 9] } else { &[1, 9] };
        let payload = vp8((picture % 32_768) as u16, 7, start);
        let datagram = packet((number % 65_536) as u16, 0, 1, &payload);
        let read = RtpPacket::parse(&datagram)?;
        if picture % 2 == 1 {
            let answer = forwarder.leave_out(&read, &mut out)?;
            if number > highest {
                assert_eq!(answer, Forwarded::LeftOut);
                if pictures.insert(picture) {
                    firsts.push(number);
                }
            }
        } else {
            let answer = forwarder.write(0, &read, &mut out)?;
            assert!(matches!(answer, Forwarded::Began | Forwarded::Written));
            let before = firsts.partition_point(|first| *first < number) as u64;
            let id = u64::from(u16::from_be_bytes([out[14] & 0x7f, out[15]]));
            assert_eq!(id, (picture - before) % 32_768, "packet {number}");
        }
        highest = highest.max(number);
    }
    assert!(firsts.len() > MAX_LEFT_OUT);
    Ok(())
}

/// The packet of a store under each number of the viewer, and none for a number that was not sent, or of another source.
#[test]
fn requested_packets_are_found() -> Outcome {
    let store = || {
        History::new(HistorySettings {
            limit: 8,
            interval: 0,
            stream: None,
        })
    };
    let (mut store, mut other) = (store()?, store()?);
    let mut forwarder = Forwarder::new(settings(Codec::Opus))?;
    let mut out = Vec::new();
    forwarder.want(1);
    assert_eq!(forwarder.requested(65_529, &store), None);
    // 12 is lost, and 20 removes the packets up to 12 from the store.
    for number in [10, 11, 13, 20] {
        let datagram = packet(number, 7, 1, &[number as u8]);
        store.keep_once(&datagram)?;
        other.keep_once(&packet(number, 7, 2, &[0]))?;
        forwarder.write(0, &RtpPacket::parse(&datagram)?, &mut out)?;
    }
    let found = |sent: u16| {
        let packet = forwarder.requested(sent, &store)?;
        Some(packet.payload.to_vec())
    };
    assert_eq!(found(65_530 + 3), Some(vec![13]));
    assert_eq!(found(65_530_u16.wrapping_add(10)), Some(vec![20]));
    for sent in [65_530, 65_531, 65_532, 65_534, 65_530_u16.wrapping_add(11)] {
        assert_eq!(found(sent), None);
    }
    assert_eq!(forwarder.requested(65_533, &other), None);
    Ok(())
}

#[test]
fn answers_are_counted() {
    let mut counts = ForwardCounts::default();
    for (answer, octets) in [
        (Forwarded::Began, 100),
        (Forwarded::Written, 20),
        (Forwarded::Filled, 7),
        (Forwarded::LeftOut, 7),
        (Forwarded::NoKeyframe, 7),
        (Forwarded::OtherSource, 7),
        (Forwarded::TooOld, 7),
    ] {
        counts.count(answer, octets);
    }
    counts.count_resent(true, 1_000);
    counts.count_resent(false, 3);
    assert_eq!(
        counts,
        ForwardCounts {
            packets: 4,
            octets: 123,
            switches: 1,
            filled: 1,
            left_out: 1,
            refused: 3,
            resent: 2,
        }
    );
}
