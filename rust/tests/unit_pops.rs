//! `pop_unit` of a receiver beside `pop`: two receivers get the same datagrams, and must return the same units.

mod random;

use codec_payload::keyframes::FromKeyframe;
use codec_payload::stream::{Popped, Receiver, ReceiverSettings};
use codec_payload::{Codec, CodecDepacketizer, Frequency, PoppedUnit, Ticks};
use random::Dice;

fn receiver(codec: Codec, from_keyframe: FromKeyframe) -> Receiver {
    let mut settings = ReceiverSettings::live_video(96, Frequency::NINETY_KHZ);
    settings.ssrc = Some(7);
    settings.from_keyframe = from_keyframe;
    settings.limit = 64;
    Receiver::new(CodecDepacketizer::from_codec(codec).unwrap(), settings).unwrap()
}

/// The datagram with this number. A frame has three packets; each tenth frame of VP8 is a keyframe. Some payloads are cut off.
fn datagram(random: &mut Dice, codec: Codec, number: u16) -> Vec<u8> {
    let (frame, place) = (u32::from(number) / 3, number % 3);
    let video = codec == Codec::Vp8;
    let time = if video { frame } else { u32::from(number) } * 3_000;
    let marker = u8::from(!video || place == 2) << 7;
    let mut bytes = vec![0x80, 96 | marker];
    bytes.extend(number.to_be_bytes());
    bytes.extend(time.to_be_bytes());
    bytes.extend(7u32.to_be_bytes());
    if random.below(40) == 0 {
        return bytes;
    }
    if video {
        let keyframe = frame % 10 == 0;
        bytes.push(if place == 0 { 0x10 } else { 0 });
        if place == 0 {
            bytes.extend([
                0x10 | u8::from(!keyframe),
                0,
                0,
                0x9D,
                0x01,
                0x2A,
                0x10,
                0,
                0x10,
                0,
            ]);
        }
    }
    let length = random.below(30) as usize;
    bytes.extend((0..length).map(|_| random.below(256) as u8));
    bytes
}

/// Pops both until no unit is due. Returns how many units came.
fn pop_all(pair: &mut [Receiver; 2], unit: &mut PoppedUnit, now: Ticks) -> u64 {
    let mut units = 0;
    let [one, other] = pair;
    loop {
        let told = one.pop_unit(now, unit).map(|it| it.expect("memory"));
        let wanted = other.pop(now).map(|it| it.expect("memory"));
        assert_eq!(one.counters(), other.counters());
        assert_eq!(one.unit_time(), other.unit_time());
        assert_eq!(one.unit_is_decodable(), other.unit_is_decodable());
        assert_eq!(one.unit_is_keyframe(), other.unit_is_keyframe());
        assert_eq!(one.wants_keyframe(), other.wants_keyframe());
        assert_eq!(one.next_deadline(), other.next_deadline());
        let wanted = match (told, wanted) {
            (None, None) => return units,
            (Some(Popped::Refused(one)), Some(Popped::Refused(other))) => {
                assert_eq!(one, other);
                continue;
            }
            (Some(Popped::Unit(())), Some(Popped::Unit(wanted))) => wanted,
            (Some(Popped::TooLarge(())), Some(Popped::TooLarge(wanted))) => wanted,
            other => panic!("{other:?}"),
        };
        units += 1;
        assert_eq!(unit.time, wanted.time);
        assert_eq!(unit.contiguous, wanted.contiguous);
        assert_eq!(unit.codec_extra, wanted.codec_extra);
        assert_eq!(unit.bytes, wanted.bytes);
        assert_eq!(unit.packets(), wanted.meta().len());
        for (place, meta) in wanted.meta().iter().enumerate() {
            assert_eq!(unit.meta(place), *meta);
        }
    }
}

fn compare(random: &mut Dice, codec: Codec, from_keyframe: FromKeyframe) -> u64 {
    let mut pair = [
        receiver(codec, from_keyframe),
        receiver(codec, from_keyframe),
    ];
    let mut unit = PoppedUnit::new();
    let (mut units, mut number) = (0, random.below(65_536) as u16);
    for place in 0..2_000 {
        let now = Ticks(place * 7);
        number = number.wrapping_add([1, 1, 1, 1, 1, 2, 3, 400][random.below(8) as usize]);
        let sent = number.wrapping_sub(random.below(4) as u16);
        let bytes = datagram(random, codec, sent);
        let [one, other] = &mut pair;
        assert_eq!(one.receive(now, &bytes), other.receive(now, &bytes));
        if random.below(3) == 0 {
            units += pop_all(&mut pair, &mut unit, now);
        }
    }
    for receiver in &mut pair {
        receiver.finish().unwrap();
    }
    units + pop_all(&mut pair, &mut unit, Ticks(20_000))
}

#[test]
fn units_are_the_same() {
    let mut random = Dice(0x2545_F491_4F6C_DD1D);
    let mut units = 0;
    for _ in 0..20 {
        for codec in [Codec::Opus, Codec::Vp8] {
            for from_keyframe in [FromKeyframe::Off, FromKeyframe::Mark, FromKeyframe::Drop] {
                units += compare(&mut random, codec, from_keyframe);
            }
        }
    }
    assert!(units > 10_000, "{units} units");
}
