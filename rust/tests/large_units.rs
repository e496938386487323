//! A unit with more bytes than the settings allow is a separate answer: one sender cannot stop the streams of a port.
//!
//! The frames are of VP8: a descriptor of one byte on each packet (RFC 7741, section 4.2), and the header of a keyframe of 16 x 16
//! (RFC 6386, section 9.1) at the front of each frame.

use codec_payload::keyframes::FromKeyframe;
use codec_payload::session::{Event, Format, Session, SessionSettings};
use codec_payload::stream::{Popped, Receiver, ReceiverSettings};
use codec_payload::{Codec, CodecDepacketizer, CodecSpec, Frequency, LostFrame, PoppedUnit, Ticks};
use std::error::Error;

const KEY: [u8; 10] = [0x10, 0, 0, 0x9d, 0x01, 0x2a, 0x10, 0, 0x10, 0];
const INTER: [u8; 10] = [0x11, 0, 0, 0, 0, 0, 0, 0, 0, 0];

/// The datagrams of a frame of `size` bytes that begins so, in packets of at most 1,200 bytes.
fn frame(ssrc: u8, number: &mut u16, time: u8, begin: [u8; 10], size: usize) -> Vec<Vec<u8>> {
    let mut bytes = vec![7; size];
    bytes[..10].copy_from_slice(&begin);
    let count = size.div_ceil(1_200);
    let packets = bytes.chunks(1_200).enumerate();
    packets
        .map(|(place, piece)| {
            let marker = if place + 1 == count { 0x80 } else { 0 };
            let [high, low] = number.to_be_bytes();
            *number += 1;
            let header = [0x80, 96 | marker, high, low, 0, 0, time, 0, 0, 0, 0, ssrc];
            let descriptor = [if place == 0 { 0x10 } else { 0 }];
            [&header[..], &descriptor, piece].concat()
        })
        .collect()
}

fn receiver(
    from_keyframe: FromKeyframe,
    max_unit: Option<usize>,
) -> Result<Receiver, Box<dyn Error>> {
    let depacketizer = CodecDepacketizer::from_codec(Codec::Vp8).ok_or("VP8 is supported")?;
    let mut settings = ReceiverSettings::live_video(96, Frequency::NINETY_KHZ);
    settings.ssrc = Some(7);
    settings.from_keyframe = from_keyframe;
    settings.max_unit = max_unit;
    Ok(Receiver::new(depacketizer, settings)?)
}

/// Gives the receiver a keyframe of 100 bytes, a frame of `size` bytes, one of 100 bytes, and a keyframe of 100 bytes.
fn give(receiver: &mut Receiver, size: usize) -> Result<(), Box<dyn Error>> {
    let mut number = 0;
    let frames = [(KEY, 100), (INTER, size), (INTER, 100), (KEY, 100)];
    for (time, (begin, size)) in frames.into_iter().enumerate() {
        for datagram in frame(7, &mut number, time as u8, begin, size) {
            receiver.receive(Ticks(0), &datagram)?;
        }
    }
    receiver.finish()?;
    Ok(())
}

/// `k` for a keyframe, `d` for another decodable unit, `u` for one that a decoder cannot show, and `l` for one that is too large.
fn word<U>(receiver: &Receiver, popped: &Popped<U>) -> char {
    let (shown, key) = (receiver.unit_is_decodable(), receiver.unit_is_keyframe());
    match popped {
        Popped::Unit(_) if shown && key => 'k',
        Popped::Unit(_) if shown => 'd',
        Popped::Unit(_) => 'u',
        Popped::TooLarge(_) => 'l',
        Popped::Refused(_) => 'r',
    }
}

/// What the pops of a receiver give, by both calls.
fn words(
    from_keyframe: FromKeyframe,
    max_unit: Option<usize>,
    size: usize,
) -> Result<String, Box<dyn Error>> {
    let (mut one, mut other) = (
        receiver(from_keyframe, max_unit)?,
        receiver(from_keyframe, max_unit)?,
    );
    give(&mut one, size)?;
    give(&mut other, size)?;
    let (mut words, mut unit) = ([String::new(), String::new()], PoppedUnit::new());
    while let Some(popped) = one.pop(Ticks(0)) {
        let popped = popped?;
        words[0].push(word(&one, &popped));
    }
    while let Some(popped) = other.pop_unit(Ticks(0), &mut unit) {
        let popped = popped?;
        words[1].push(word(&other, &popped));
        let large = max_unit.is_some_and(|most| unit.bytes.len() > most);
        assert_eq!(matches!(popped, Popped::TooLarge(())), large);
    }
    assert_eq!(words[0], words[1]);
    assert_eq!(one.counters(), other.counters());
    let (counters, large) = (one.counters(), words[0].matches('l').count() as u64);
    let packets = large * size.div_ceil(1_200) as u64;
    assert_eq!(counters.too_large, large);
    assert_eq!(
        (counters.packets.left, counters.packets.refused),
        (packets, packets)
    );
    assert_eq!(counters.packets.released + packets, counters.received);
    assert_eq!(counters.packets.units + large, 4);
    assert_eq!(one.held(), 0);
    let [words, _] = words;
    Ok(words)
}

#[test]
fn exactly_the_units_above_the_bound() -> Result<(), Box<dyn Error>> {
    let bound = Some(5_000);
    assert_eq!(words(FromKeyframe::Mark, bound, 5_000)?, "kddk");
    assert_eq!(words(FromKeyframe::Mark, bound, 5_001)?, "kluk");
    assert_eq!(words(FromKeyframe::Drop, bound, 5_000)?, "kddk");
    assert_eq!(words(FromKeyframe::Off, bound, 5_001)?, "dldd");
    assert_eq!(words(FromKeyframe::Mark, None, 1_200_000)?, "kddk");
    // The default is 1 MiB.
    let settings = ReceiverSettings::live_audio(111, Frequency::FORTY_EIGHT_KHZ);
    assert_eq!(settings.max_unit, Some(1_048_576));
    assert_eq!(SessionSettings::live().max_unit, settings.max_unit);
    Ok(())
}

#[test]
fn a_receiver_that_drops_units_reports_it_once() -> Result<(), Box<dyn Error>> {
    let mut receiver = receiver(FromKeyframe::Drop, Some(5_000))?;
    give(&mut receiver, 5_001)?;
    let mut words = String::new();
    while let Some(popped) = receiver.pop(Ticks(0)) {
        let popped = popped?;
        words.push(word(&receiver, &popped));
        assert_eq!(
            receiver.wants_keyframe(),
            matches!(popped, Popped::TooLarge(_))
        );
        if let Err(lost) = popped.into_result() {
            assert_eq!(lost, LostFrame::TooLarge);
        }
    }
    // The frame after the large one is dropped.
    assert_eq!(words, "klk");
    assert_eq!(receiver.counters().undecodable, 1);
    Ok(())
}

#[test]
fn the_time_of_units_leaves_it_out() -> Result<(), Box<dyn Error>> {
    let mut receiver = receiver(FromKeyframe::Mark, Some(5_000))?;
    give(&mut receiver, 5_001)?;
    let mut times = Vec::new();
    while let Some(popped) = receiver.pop(Ticks(0)) {
        popped?;
        times.push(receiver.unit_time().ok_or("a unit came")? - (1 << 32));
    }
    assert_eq!(times, [0, 0, 512, 768]);
    Ok(())
}

/// A session of two senders, of which one sends a frame of 1.2 MB among others.
#[test]
fn all_streams_of_a_session_go_on() -> Result<(), Box<dyn Error>> {
    let mut settings = SessionSettings::live();
    let spec = CodecSpec {
        codec: Codec::Vp8,
        clock_rate: Frequency::NINETY_KHZ,
        octet_align: false,
    };
    settings.formats.push(Format::new(96, spec));
    let mut session = Session::new(settings)?;
    let mut numbers = [0, 0];
    let mut words = [String::new(), String::new()];
    for time in 0..6u8 {
        for (place, ssrc) in [7, 8].into_iter().enumerate() {
            let size = if (ssrc, time) == (7, 2) {
                1_200_000
            } else {
                300
            };
            for datagram in frame(ssrc, &mut numbers[place], time, KEY, size) {
                session.receive(Ticks(u64::from(time)), &datagram)?;
            }
        }
        while let Some(event) = session.poll(Ticks(u64::from(time))) {
            let (ssrc, word) = match event {
                Event::Begun { ssrc, .. } => (ssrc, 'b'),
                Event::Unit { ssrc, unit, .. } => {
                    (ssrc, if unit?.bytes.len() == 300 { 'u' } else { 'x' })
                }
                Event::TooLarge {
                    ssrc,
                    payload_type: 96,
                    unit,
                } if unit.bytes.len() == 1_200_000 => (ssrc, 'l'),
                other => return Err(format!("{other:?}").into()),
            };
            words[ssrc as usize - 7].push(word);
        }
    }
    assert_eq!(words, ["buuluuu", "buuuuuu"]);
    let counters = session.stream_at(0).ok_or("a stream")?.counters;
    assert_eq!((counters.too_large, counters.packets.left), (1, 1_000));
    Ok(())
}
