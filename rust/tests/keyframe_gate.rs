//! The keyframe gate of a receiver: which units a decoder can show, and when a keyframe is needed.

use codec_payload::keyframes::FromKeyframe;
use codec_payload::stream::{Receiver, ReceiverSettings};
use codec_payload::*;
use std::error::Error;

const VP8: u8 = 96;

/// A frame of VP8 (RFC 6386, section 9.1), identified by its last byte.
fn frame(is_key: bool, mark: u8) -> Vec<u8> {
    let mut frame = if is_key {
        vec![0x10, 0, 0, 0x9D, 0x01, 0x2A, 0x10, 0, 0x10, 0]
    } else {
        vec![0x11, 0, 0]
    };
    frame.push(mark);
    frame
}

/// A datagram of the stream with the marker, without extensions.
fn datagram(number: u16, payload: &[u8]) -> Vec<u8> {
    let mut datagram = vec![0x80, 0x80 | VP8];
    datagram.extend(number.to_be_bytes());
    datagram.extend((u32::from(number) * 3_000).to_be_bytes());
    datagram.extend(7_u32.to_be_bytes());
    datagram.extend(payload);
    datagram
}

/// A frame in one packet, without picture ids (RFC 7741, section 4.2).
fn plain(number: u16, is_key: bool) -> Vec<u8> {
    let mut payload = vec![0x10];
    payload.extend(frame(is_key, number as u8));
    datagram(number, &payload)
}

/// The same with a picture id of 15 bits, TL0PICIDX 0 of the base layer, and the temporal layer 0.
fn with_id(number: u16, id: u16, is_key: bool) -> Vec<u8> {
    let [high, low] = id.to_be_bytes();
    let mut payload = vec![0x90, 0xE0, 0x80 | high, low, id as u8, 0];
    payload.extend(frame(is_key, number as u8));
    datagram(number, &payload)
}

fn receiver(from_keyframe: FromKeyframe) -> Result<Receiver, Box<dyn Error>> {
    let mut settings = ReceiverSettings::live_video(VP8, Frequency::NINETY_KHZ);
    settings.ssrc = Some(7);
    settings.from_keyframe = from_keyframe;
    let depacketizer = CodecDepacketizer::from_codec(Codec::Vp8).ok_or("no depacketizer")?;
    Ok(Receiver::new(depacketizer, settings)?)
}

/// A unit: its mark, and what the receiver says of it and of keyframes then.
type Judged = (u8, bool, bool, bool);

/// The units that are due long after the last datagram.
fn units(receiver: &mut Receiver) -> Result<Vec<Judged>, Box<dyn Error>> {
    let mut units = Vec::new();
    while let Some(unit) = receiver.pop(Ticks(1_000)) {
        units.push((
            unit?.into_result()?.bytes.last().copied().unwrap_or(0),
            receiver.unit_is_keyframe(),
            receiver.unit_is_decodable(),
            receiver.wants_keyframe(),
        ));
    }
    Ok(units)
}

/// The counters of discarded packets: all, and by the reason.
fn discarded(receiver: &Receiver) -> (u64, u64, u64, u64) {
    let packets = receiver.counters().packets;
    (
        packets.left,
        packets.incomplete,
        packets.skipped,
        packets.refused,
    )
}

/// Packet 3 is lost, and packet 6 is a keyframe again.
fn with_a_gap(receiver: &mut Receiver) -> Result<(), Box<dyn Error>> {
    for number in [1, 2, 4, 5, 6, 7] {
        receiver.receive(Ticks(0), &plain(number, number == 1 || number == 6))?;
    }
    Ok(())
}

#[test]
fn units_after_a_gap_are_marked_until_a_keyframe() -> Result<(), Box<dyn Error>> {
    let mut receiver = receiver(FromKeyframe::Mark)?;
    assert!(!receiver.wants_keyframe(), "nothing was released yet");
    with_a_gap(&mut receiver)?;
    assert_eq!(
        units(&mut receiver)?,
        [
            (1, true, true, false),
            (2, false, true, false),
            (4, false, false, true),
            (5, false, false, true),
            (6, true, true, false),
            (7, false, true, false),
        ]
    );
    let counters = receiver.counters();
    assert_eq!((counters.undecodable, counters.packets.units), (2, 6));
    Ok(())
}

#[test]
fn units_after_a_gap_are_dropped_until_a_keyframe() -> Result<(), Box<dyn Error>> {
    let mut receiver = receiver(FromKeyframe::Drop)?;
    with_a_gap(&mut receiver)?;
    assert_eq!(
        units(&mut receiver)?,
        [
            (1, true, true, false),
            (2, false, true, false),
            (6, true, true, false),
            (7, false, true, false),
        ]
    );
    let counters = receiver.counters();
    assert_eq!((counters.undecodable, counters.packets.units), (2, 6));
    Ok(())
}

#[test]
fn dropped_units_want_a_keyframe_though_no_unit_comes() -> Result<(), Box<dyn Error>> {
    let mut receiver = receiver(FromKeyframe::Drop)?;
    for number in 1..5 {
        receiver.receive(Ticks(0), &plain(number, false))?;
    }
    assert!(units(&mut receiver)?.is_empty());
    assert!(receiver.wants_keyframe());
    assert_eq!((receiver.held(), receiver.counters().undecodable), (0, 4));
    Ok(())
}

#[test]
fn pops_into_memory_drop_the_same_units() -> Result<(), Box<dyn Error>> {
    let mut receiver = receiver(FromKeyframe::Drop)?;
    with_a_gap(&mut receiver)?;
    let (mut unit, mut marks) = (PoppedUnit::new(), Vec::new());
    while let Some(popped) = receiver.pop_unit(Ticks(1_000), &mut unit) {
        popped?.into_result()?;
        assert!(receiver.unit_is_decodable());
        marks.push((unit.bytes.last().copied(), unit.packets()));
    }
    assert_eq!(
        marks,
        [(Some(1), 1), (Some(2), 1), (Some(6), 1), (Some(7), 1)]
    );
    Ok(())
}

#[test]
fn off_inspects_no_frame() -> Result<(), Box<dyn Error>> {
    let mut receiver = receiver(FromKeyframe::Off)?;
    with_a_gap(&mut receiver)?;
    let units = units(&mut receiver)?;
    assert_eq!(units.len(), 6);
    assert!(
        units
            .iter()
            .all(|it| (it.1, it.2, it.3) == (false, true, false))
    );
    assert_eq!(receiver.counters().undecodable, 0);
    Ok(())
}

#[test]
fn audio_is_always_decodable() -> Result<(), Box<dyn Error>> {
    let mut settings = ReceiverSettings::live_audio(VP8, Frequency::FORTY_EIGHT_KHZ);
    settings.ssrc = Some(7);
    settings.from_keyframe = FromKeyframe::Drop;
    let depacketizer = CodecDepacketizer::from_codec(Codec::Opus).ok_or("no depacketizer")?;
    let mut receiver = Receiver::new(depacketizer, settings)?;
    with_a_gap(&mut receiver)?;
    let units = units(&mut receiver)?;
    assert_eq!(units.len(), 6);
    assert!(
        units
            .iter()
            .all(|it| (it.1, it.2, it.3) == (false, true, false))
    );
    Ok(())
}

/// The ids of the sender jump back: frames below the last id are discarded, and no unit says so.
#[test]
fn picture_ids_that_jump_back_want_a_keyframe() -> Result<(), Box<dyn Error>> {
    for mode in [FromKeyframe::Mark, FromKeyframe::Drop] {
        let mut receiver = receiver(mode)?;
        receiver.receive(Ticks(0), &with_id(1, 100, true))?;
        receiver.receive(Ticks(0), &with_id(2, 101, false))?;
        assert_eq!(
            units(&mut receiver)?,
            [(1, true, true, false), (2, false, true, false)]
        );
        for number in 3..7 {
            receiver.receive(Ticks(0), &with_id(number, 47 + number, false))?;
        }
        assert!(units(&mut receiver)?.is_empty());
        assert_eq!(discarded(&receiver), (4, 0, 4, 0));
        assert!(receiver.wants_keyframe());
        receiver.receive(Ticks(0), &with_id(7, 54, true))?;
        assert_eq!(units(&mut receiver)?, [(7, true, true, false)]);
    }
    Ok(())
}

#[test]
fn a_refused_frame_wants_a_keyframe() -> Result<(), Box<dyn Error>> {
    let mut receiver = receiver(FromKeyframe::Mark)?;
    receiver.receive(Ticks(0), &plain(1, true))?;
    assert_eq!(units(&mut receiver)?, [(1, true, true, false)]);
    // A payload descriptor with the bit X, and without the byte that it announces.
    receiver.receive(Ticks(0), &datagram(2, &[0x90]))?;
    assert!(units(&mut receiver).is_err());
    assert_eq!(discarded(&receiver), (1, 0, 0, 1));
    assert!(receiver.wants_keyframe());
    receiver.receive(Ticks(0), &plain(3, false))?;
    receiver.receive(Ticks(0), &plain(4, true))?;
    assert_eq!(
        units(&mut receiver)?,
        [(3, false, false, true), (4, true, true, false)]
    );
    Ok(())
}

#[test]
fn a_reported_restart_wants_a_keyframe() -> Result<(), Box<dyn Error>> {
    let mut receiver = receiver(FromKeyframe::Mark)?;
    receiver.receive(Ticks(0), &plain(1, true))?;
    receiver.receive(Ticks(0), &plain(2, false))?;
    receiver.restart();
    assert!(receiver.wants_keyframe());
    receiver.receive(Ticks(0), &plain(200, false))?;
    receiver.receive(Ticks(0), &plain(201, true))?;
    assert_eq!(
        units(&mut receiver)?,
        [
            (1, true, true, false),
            (2, false, true, false),
            (200, false, false, true),
            (201, true, true, false),
        ]
    );
    Ok(())
}

/// Packet 3 is the second of a frame whose first packet was lost, and packet 4 is the first of a frame whose last was lost.
#[test]
fn packets_of_incomplete_frames_are_counted() -> Result<(), Box<dyn Error>> {
    let mut receiver = receiver(FromKeyframe::Mark)?;
    receiver.receive(Ticks(0), &plain(1, true))?;
    let mut later_piece = vec![0];
    later_piece.extend(frame(false, 3));
    receiver.receive(Ticks(0), &datagram(3, &later_piece))?;
    let mut without_marker = plain(4, false);
    without_marker[1] = VP8;
    receiver.receive(Ticks(0), &without_marker)?;
    receiver.receive(Ticks(0), &plain(6, true))?;
    assert_eq!(
        units(&mut receiver)?,
        [(1, true, true, false), (6, true, true, false)]
    );
    assert_eq!(discarded(&receiver), (2, 2, 0, 0));
    Ok(())
}

/// A picture of VP8 in the layers 0 1 0 1 .., with both ids; 1 and 9 refer to the base layer alone (Y).
fn in_layers(number: u16) -> Vec<u8> {
    let sync = number == 1 || number == 9;
    let layer = (number % 2) as u8;
    let mut payload = vec![0x90, 0xE0, 0x80, 7 + number as u8, (number / 2) as u8];
    payload.push(layer << 6 | u8::from(sync) << 5);
    payload.extend(frame(number == 0, number as u8));
    datagram(number, &payload)
}

#[test]
fn a_lost_picture_of_a_layer_wants_no_keyframe() -> Result<(), Box<dyn Error>> {
    for (from_keyframe, are_released) in [(FromKeyframe::Mark, true), (FromKeyframe::Drop, false)] {
        let mut receiver = receiver(from_keyframe)?;
        for number in (0..12).filter(|&number| number != 3) {
            receiver.receive(Ticks(0), &in_layers(number))?;
        }
        receiver.finish()?;
        // 5 and 7 may refer to 3, although nothing is missing in front of them.
        let wanted: Vec<Judged> = (0..12)
            .filter(|number| *number != 3 && (are_released || ![5, 7].contains(number)))
            .map(|number| (number, number == 0, ![5, 7].contains(&number), false))
            .collect();
        assert_eq!(units(&mut receiver)?, wanted);
        assert_eq!(receiver.counters().undecodable, 2);
    }
    Ok(())
}
