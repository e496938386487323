//! Packetizers and depacketizers, RED, and patches of VP8 descriptors.

use crate::input::Input;
use crate::told::told;
use codec_payload::*;

const CODECS: [(Codec, u32); 11] = [
    (Codec::Opus, 48_000),
    (Codec::PCMU, 8_000),
    (Codec::PCMA, 8_000),
    (Codec::G722, 8_000),
    (Codec::CN, 8_000),
    (Codec::AmrWb, 16_000),
    (Codec::Tele, 8_000),
    (Codec::Vp8, 90_000),
    (Codec::Vp9, 90_000),
    (Codec::Av1, 90_000),
    (Codec::Null, 90_000),
];

/// A codec and its settings.
pub fn spec(input: &mut Input) -> CodecSpec {
    let byte = input.byte();
    let (codec, rate) = CODECS[usize::from(byte & 0x7f) % CODECS.len()];
    CodecSpec {
        codec,
        clock_rate: Frequency::make(rate).unwrap(),
        octet_align: byte & 0x80 != 0,
    }
}

pub fn depacketizer(spec: &CodecSpec) -> CodecDepacketizer {
    let mut made = CodecDepacketizer::from_codec(spec.codec).unwrap();
    made.configure_for(spec);
    made
}

fn packetizer(spec: &CodecSpec, how: u8, id: u16) -> CodecPacketizer {
    if spec.codec == Codec::Vp8 && how & 1 != 0 {
        return CodecPacketizer::Vp8(Vp8Packetizer::with_picture_id(id));
    }
    let mode = if how & 2 != 0 {
        Vp9PacketizerMode::Flexible
    } else {
        Vp9PacketizerMode::NonFlexible
    };
    let mut made = CodecPacketizer::new(spec.codec, mode, id).unwrap();
    made.configure_for(spec);
    made
}

/// Any payloads, from any state that payloads lead to: nothing panics, and the bytes of `out` stay in front of the appended ones.
pub fn depacketize(input: &mut Input) {
    let spec = spec(input);
    let mut depacketizer = depacketizer(&spec);
    let (mut out, mut extra) = (Vec::new(), CodecExtra::None);
    while !input.is_empty() {
        let how = input.byte();
        if how & 0x80 != 0 {
            (out, extra) = (Vec::new(), CodecExtra::None);
        }
        let payload = input.some();
        let before = out.clone();
        let _ = depacketizer.is_partition_head(payload);
        let _ = depacketizer.is_partition_tail(how & 1 != 0, payload);
        let _ = (
            detect_vp8_keyframe(payload),
            detect_vp9_keyframe(payload),
            detect_av1_keyframe(payload),
        );
        let _ = told(depacketizer.depacketize(payload, &mut out, &mut extra));
        assert_eq!(&out[..before.len()], before);
    }
}

/// A frame is cut, its packets come in reverse, and the units have its bytes.
pub fn units(input: &mut Input) {
    let spec = spec(input);
    let (how, id) = (input.byte(), input.word() % 32_768);
    let mtu = usize::from(input.word() % 1_500);
    let mut packetizer = packetizer(&spec, how, id);
    let frame = input.0;
    let Ok(packets) = told(packetizer.packetize(mtu, frame)) else {
        return;
    };
    assert!(spec.codec == Codec::Null || packets.iter().all(|packet| packet.len() <= mtu));
    let mut into = Payloads::new(12, 4).unwrap();
    let mut second = self::packetizer(&spec, how, id);
    second.packetize_into(mtu, frame, &mut into).unwrap();
    assert_eq!(into.iter().collect::<Vec<_>>(), packets);
    // A frame is skipped if the MTU has no room for it. Of telephone events any bytes are sent, and a unit has the first report alone.
    if packets.is_empty() || spec.codec == Codec::Tele {
        return;
    }
    let unit = unit_of(&spec, &packets);
    match spec.codec {
        // A temporal unit comes back with its sizes written in the shortest form and without what payloads leave out.
        Codec::Av1 => {
            let again = self::packetizer(&spec, how, id)
                .packetize(mtu, &unit)
                .unwrap();
            assert_eq!(unit_of(&spec, &again), unit);
        }
        // Bits behind the speech are not sent, nor is the frame's padding.
        Codec::AmrWb => assert!(unit.len() <= frame.len()),
        _ => assert_eq!(unit, frame),
    }
}

/// The bytes of all units of the packets, which come in reverse.
fn unit_of(spec: &CodecSpec, packets: &[Vec<u8>]) -> Vec<u8> {
    let mut buffer: DepacketizingBuffer =
        DepacketizingBuffer::with_limit(depacketizer(spec), 0, 65_536);
    for (place, payload) in packets.iter().enumerate().rev() {
        let mut meta = RtpMeta::of(
            (place as u64).into(),
            MediaTime::from_90khz(0),
            Pt::from(96),
            Ticks(0),
        );
        meta.header.marker = place + 1 == packets.len();
        buffer.push(meta, payload.clone()).unwrap();
    }
    buffer
        .units()
        .flat_map(|unit| unit.expect("a packetizer's packets are read").bytes)
        .collect()
}

/// Any RED payload; and what a sender wraps, a receiver recovers.
pub fn red(input: &mut Input) {
    let mut distances: Vec<u32> = (1..=8).filter(|_| input.byte() & 1 != 0).collect();
    distances.dedup();
    let (step, budget) = (
        1 + u32::from(input.word() % 2_000),
        usize::from(input.word() % 2_000),
    );
    let mut sender = RedSender::new(Pt::from(63), Pt::from(96), &distances);
    let receiver = RedReceiver::new(96, step).unwrap();
    for number in 100..110_u32 {
        let payload = input.some();
        let time = number.wrapping_mul(step);
        let wrapped = sender.wrap(payload.to_vec(), time, budget).unwrap();
        if payload.len() < budget {
            let found = receiver
                .recover(SeqNo(number.into()), time, &wrapped)
                .unwrap();
            let primary = found.last().expect("the primary block");
            assert_eq!(
                (primary.seq_no.0, primary.payload),
                (number.into(), payload)
            );
        }
    }
    let bytes = input.0;
    if let Ok(blocks) = told(RedDecoder::decode(bytes)) {
        assert!(!blocks.is_empty());
        let _ = told(receiver.recover(SeqNo(100), 100 * step, bytes));
    }
}

/// A patch changes the fields that were asked for, and no others.
pub fn vp8(input: &mut Input) {
    let (how, id, tl0, key) = (input.byte(), input.word(), input.byte(), input.byte());
    let payload = input.0;
    let Ok(descriptor) = Vp8Descriptor::parse(payload) else {
        return;
    };
    let mut builder = descriptor.patch();
    if how & 1 != 0 {
        builder = builder.picture_id(id);
    }
    if how & 2 != 0 {
        builder = builder.tl0_pic_idx(tl0);
    }
    if how & 4 != 0 {
        builder = builder.key_idx(key);
    }
    let Ok(patch) = builder.build() else { return };
    assert!(patch.reaches(payload.len()));
    let mut patched = vec![0; payload.len()];
    patch.copy_to(payload, &mut patched);
    let found = Vp8Descriptor::parse(&patched).expect("a patched payload is read");
    let wanted = (
        if how & 1 != 0 {
            Some(id)
        } else {
            descriptor.picture_id()
        },
        if how & 2 != 0 {
            Some(tl0)
        } else {
            descriptor.tl0_pic_idx()
        },
        if how & 4 != 0 {
            Some(key)
        } else {
            descriptor.key_idx()
        },
    );
    assert_eq!(
        (found.picture_id(), found.tl0_pic_idx(), found.key_idx()),
        wanted
    );
    let changed = payload
        .iter()
        .zip(&patched)
        .filter(|(old, new)| old != new)
        .count();
    assert!(changed <= 4);
}
