//! Programs with the shapes of `src/packet` of `str0m`: packetize, push out of order, pop.

use codec_payload::{
    Av1CodecExtra, Codec, CodecDepacketizer, CodecExtra, CodecPacketizer, CodecSpec, Depacketized,
    Depacketizer, DepacketizingBuffer, Frequency, MediaTime, PacketError, Packetizer, RtpMeta,
    Ticks, Vp8Depacketizer, Vp8Packetizer, Vp9PacketizerMode, detect_av1_keyframe,
    detect_vp8_keyframe,
};

fn packetizer(codec: Codec) -> CodecPacketizer {
    CodecPacketizer::from_codec(codec).expect("it has one")
}

fn depacketizer(codec: Codec) -> CodecDepacketizer {
    CodecDepacketizer::from_codec(codec).expect("it has one")
}

fn meta(number: u64, time: u64, marker: bool) -> RtpMeta {
    let mut meta = RtpMeta::of(
        number.into(),
        MediaTime::from_90khz(time),
        96.into(),
        Ticks(number),
    );
    meta.header.marker = marker;
    meta
}

/// Frames through a packetizer, and their packets, each pair of which changes places, through a buffer.
fn through(
    packetizer: &mut dyn Packetizer,
    depack: CodecDepacketizer,
    frames: &[Vec<u8>],
) -> Vec<Depacketized> {
    let mut packets: Vec<(RtpMeta, Vec<u8>)> = Vec::new();
    for (frame, time) in frames.iter().zip((0..).step_by(3_000)) {
        let chunks = packetizer.packetize(1_000, frame).unwrap();
        let count = chunks.len();
        for (place, chunk) in chunks.into_iter().enumerate() {
            assert!(chunk.len() <= 1_000);
            let previous = packets.last().map(|(_, before)| before.as_slice());
            let marker = packetizer.is_marker(&chunk, previous, place + 1 == count);
            packets.push((meta(packets.len() as u64, time, marker), chunk));
        }
    }
    // The first frame is complete before others come, since a buffer begins with the first complete frame.
    let of_first = packets
        .iter()
        .filter(|(meta, _)| meta.time == packets[0].0.time)
        .count();
    let (first, later) = packets.split_at_mut(of_first);
    for pair in first.chunks_mut(2).chain(later.chunks_mut(2)) {
        pair.reverse();
    }
    let mut buffer = DepacketizingBuffer::new(depack, 10);
    let mut popped = Vec::new();
    for (meta, chunk) in packets {
        buffer.push(meta, chunk).unwrap();
        popped.extend(buffer.units().map(Result::unwrap));
    }
    assert_eq!(buffer.held(), 0);
    popped
}

/// The bytes come back, and what is known of their packets.
fn come_back(codec: Codec, frames: &[Vec<u8>]) -> Vec<Depacketized> {
    let popped = through(&mut packetizer(codec), depacketizer(codec), frames);
    assert_eq!(
        popped.iter().map(|unit| &unit.bytes).collect::<Vec<_>>(),
        frames.iter().collect::<Vec<_>>()
    );
    let mut next = 0;
    for unit in &popped {
        assert!(unit.contiguous);
        let range = unit.seq_range();
        assert_eq!(
            (range.start().0, range.end().0),
            (next, next + unit.meta().len() as u64 - 1)
        );
        assert_eq!(unit.meta()[0].time, unit.time);
        next = range.end().0 + 1;
    }
    popped
}

#[test]
fn opus() {
    let frames: Vec<_> = (0..6).map(|frame| vec![frame; 120]).collect();
    let popped = come_back(Codec::Opus, &frames);
    assert!(
        popped
            .iter()
            .all(|unit| unit.codec_extra == CodecExtra::None && !unit.start_of_talkspurt())
    );
    assert!(packetizer(Codec::Opus).marks_talkspurt() && !packetizer(Codec::Opus).nackable());
}

#[test]
fn vp8() {
    // A keyframe, whose first bit is 0, and two others.
    let frames: Vec<_> = [(0x10, 5_000), (0x11, 900), (0x11, 1_700)]
        .map(|(first, size)| vec![first; size])
        .to_vec();
    let popped = come_back(Codec::Vp8, &frames);
    let is_key = |unit: &Depacketized| matches!(unit.codec_extra, CodecExtra::Vp8(extra) if extra.is_keyframe);
    assert_eq!(
        popped.iter().map(is_key).collect::<Vec<_>>(),
        [true, false, false]
    );
    let mut packetizer = Vp8Packetizer::with_picture_id(7);
    let popped = through(
        &mut packetizer,
        CodecDepacketizer::Vp8(Vp8Depacketizer::default()),
        &frames,
    );
    let CodecExtra::Vp8(extra) = popped[2].codec_extra else {
        panic!("{:?}", popped[2])
    };
    assert_eq!((extra.picture_id, extra.discardable), (Some(9), false));
    assert!(detect_vp8_keyframe(
        &Vp8Packetizer::default().packetize(9, &[0x10]).unwrap()[0]
    ));
}

#[test]
fn vp9() {
    let frames: Vec<_> = [(0x82, 4_000), (0x86, 1_200), (0x86, 10)]
        .map(|(first, size)| [vec![first, 0x49, 0x83, 0x42], vec![first; size]].concat())
        .to_vec();
    for mode in [Vp9PacketizerMode::NonFlexible, Vp9PacketizerMode::Flexible] {
        let mut packetizer: CodecPacketizer =
            CodecPacketizer::new(Codec::Vp9, mode, 32_767).unwrap();
        let popped = through(&mut packetizer, depacketizer(Codec::Vp9), &frames);
        assert_eq!(
            popped.iter().map(|unit| &unit.bytes).collect::<Vec<_>>(),
            frames.iter().collect::<Vec<_>>()
        );
        let CodecExtra::Vp9(extra) = popped[1].codec_extra else {
            panic!("{:?}", popped[1])
        };
        // The id of 15 bits wraps, and the extended id goes on.
        assert_eq!(extra.picture_id, Some(32_768));
        assert_eq!(
            extra.layers_scheme[0].is_some(),
            mode == Vp9PacketizerMode::NonFlexible
        );
    }
}

/// A sequence header and a frame OBU of that many bytes.
fn temporal_unit(size: usize) -> Vec<u8> {
    let header = [0x0a, 0x0a, 0, 0, 0, 2, 0xaf, 0xf7, 0x9b, 0x5f, 0x20, 8];
    let (low, high) = (
        u8::try_from(size % 128).unwrap() | 0x80,
        u8::try_from(size / 128).unwrap(),
    );
    [&header[..], &[0x32, low, high], &vec![0x10; size]].concat()
}

#[test]
fn av1() {
    let frames = [temporal_unit(4_000), temporal_unit(300)];
    let popped = come_back(Codec::Av1, &frames);
    assert_eq!(
        popped[0].codec_extra,
        CodecExtra::Av1(Av1CodecExtra { is_keyframe: true })
    );
    let chunks = packetizer(Codec::Av1).packetize(1_000, &frames[0]).unwrap();
    assert!(detect_av1_keyframe(&chunks[0]) && !detect_av1_keyframe(&chunks[1]));
}

/// AV1 with more OBUs in a packet than are listed in place.
#[test]
fn av1_with_many_obus() {
    let frame = [0x32, 1, 9].repeat(100);
    let mut small = packetizer(Codec::Av1);
    let chunks = small.packetize(1_200, &frame).unwrap();
    assert_eq!(chunks.len(), 1);
    let (mut out, mut extra) = (vec![], CodecExtra::None);
    depacketizer(Codec::Av1)
        .depacketize(&chunks[0], &mut out, &mut extra)
        .unwrap();
    assert_eq!(out, frame);
}

/// Payload by payload, as a caller does who puts packets in order: `out` grows, and the extra is of the frame.
#[test]
fn depacketizers() {
    for (codec, frame) in [
        (Codec::Opus, vec![9; 700]),
        (Codec::Vp8, vec![0x10; 3_000]),
        (Codec::Vp9, vec![0x82; 3_000]),
        (Codec::Av1, temporal_unit(3_000)),
    ] {
        let chunks = packetizer(codec).packetize(1_000, &frame).unwrap();
        let mut depacketizer = depacketizer(codec);
        assert!(depacketizer.is_partition_head(&chunks[0]));
        assert_eq!(
            depacketizer.is_partition_tail(false, &chunks[0]),
            codec == Codec::Opus
        );
        let (mut out, mut extra) = (vec![], CodecExtra::None);
        for chunk in &chunks {
            depacketizer
                .depacketize(chunk, &mut out, &mut extra)
                .unwrap();
        }
        assert_eq!(out, frame);
        let is_keyframe = match extra {
            CodecExtra::Vp8(extra) => extra.is_keyframe,
            CodecExtra::Vp9(extra) => extra.is_keyframe,
            CodecExtra::Av1(extra) => extra.is_keyframe,
            _ => false,
        };
        assert_eq!(is_keyframe, codec != Codec::Opus);
    }
}

#[test]
fn faults() {
    let depacketize = |codec: Codec, payload: &[u8]| {
        let (mut out, mut extra) = (vec![1], CodecExtra::None);
        let answer = depacketizer(codec).depacketize(payload, &mut out, &mut extra);
        assert!(answer.is_ok() || (out == [1] && extra == CodecExtra::None));
        answer
    };
    assert_eq!(
        depacketize(Codec::Vp8, &[]),
        Err(PacketError::ErrShortPacket)
    );
    assert_eq!(
        depacketize(Codec::Vp9, &[0x80]),
        Err(PacketError::ErrShortPacket)
    );
    assert_eq!(depacketize(Codec::Av1, &[0x10, 0x12, 0x00]), Ok(()));
    assert_eq!(
        depacketize(Codec::Av1, &[0x00, 0x05, 0x30]),
        Err(PacketError::ErrAv1CorruptedPacket)
    );
    assert!(matches!(
        depacketize(Codec::Tele, &[5, 0x8a, 3]),
        Err(PacketError::InvalidTelephoneEvent(_))
    ));
    assert_eq!(
        depacketize(Codec::AmrWb, &[0xf5, 0x40]),
        Err(PacketError::ErrAmrWbCorruptedPacket)
    );
    assert_eq!(
        packetizer(Codec::CN).packetize(2, &[1, 2, 3]),
        Err(PacketError::ErrPayloadTooLarge)
    );
    assert_eq!(
        packetizer(Codec::Av1).packetize(1_200, &[0x12]),
        Err(PacketError::ErrAv1CorruptedPacket)
    );
    let error: Box<dyn std::error::Error> = Box::new(PacketError::ErrPayloadTooLarge);
    assert_eq!(error.to_string(), "Payload exceeds the MTU");
    assert!(CodecPacketizer::<codec_payload::NoBox>::from_codec(Codec::H264).is_none());
}

/// A trait of the user's own, which each packetizer and each depacketizer of audio implements with a name.
trait Named: std::fmt::Debug {
    const NAME: &'static str;
}

macro_rules! named {
    ($($name:ident)*) => {
        $(impl Named for codec_payload::$name {
            const NAME: &'static str = stringify!($name);
        })*
    };
}

named! {
    OpusPacketizer G7xxPacketizer ComfortNoisePacketizer TelephoneEventPacketizer NullPacketizer
    OpusDepacketizer G711Depacketizer NullDepacketizer ComfortNoiseDepacketizer
}

fn shows_its_name<T: Named>(value: T) {
    assert_eq!(format!("{value:?}"), T::NAME);
}

/// The types without fields are separate types, their names are values too, and `Debug` prints the names.
#[test]
fn types_without_fields() {
    use codec_payload::{
        ComfortNoiseDepacketizer, ComfortNoisePacketizer, G7xxPacketizer, G711Depacketizer,
        G711Packetizer, G722Packetizer, NullDepacketizer, NullPacketizer, OpusDepacketizer,
        OpusPacketizer, TelephoneEventPacketizer,
    };
    shows_its_name(OpusPacketizer);
    shows_its_name(OpusPacketizer {});
    shows_its_name(G7xxPacketizer);
    let also: [G7xxPacketizer; 2] = [G711Packetizer, G722Packetizer];
    also.into_iter().for_each(shows_its_name);
    shows_its_name(ComfortNoisePacketizer);
    shows_its_name(TelephoneEventPacketizer);
    shows_its_name(NullPacketizer);
    shows_its_name(OpusDepacketizer);
    shows_its_name(G711Depacketizer);
    shows_its_name(NullDepacketizer);
    shows_its_name(ComfortNoiseDepacketizer);
}

/// A packetizer of the user's own, with the two methods that have no default body.
#[derive(Debug)]
struct Whole;

impl Packetizer for Whole {
    fn packetize(&mut self, _mtu: usize, b: &[u8]) -> Result<Vec<Vec<u8>>, PacketError> {
        Ok(vec![b.to_vec()])
    }

    fn is_marker(&mut self, _data: &[u8], _previous: Option<&[u8]>, last: bool) -> bool {
        last
    }
}

/// As in the trait of `str0m`, packets are nackable and talk spurts are not marked, unless the packetizer says otherwise.
#[test]
fn default_bodies_of_a_packetizer() {
    assert!(Whole.nackable());
    assert!(!Whole.marks_talkspurt());
}

/// AMR-WB of frame type 14 (RFC 4867, section 4.4): octet-aligned, a header of a byte and a table of contents of a byte.
#[test]
fn settings_of_amr_wb() {
    let spec = CodecSpec {
        codec: Codec::AmrWb,
        clock_rate: Frequency::make(16_000).unwrap(),
        octet_align: true,
    };
    let mut packetizer = packetizer(spec.codec);
    assert_eq!(
        packetizer.packetize(1_200, &[0x74]).unwrap(),
        [[0xf7, 0x40]]
    );
    packetizer.configure_for(&spec);
    assert_eq!(
        packetizer.packetize(1_200, &[0x74]).unwrap(),
        [[0xf0, 0x74]]
    );
    let mut depacketizer = depacketizer(spec.codec);
    depacketizer.configure_for(&spec);
    let mut out = Vec::new();
    depacketizer
        .depacketize(&[0xf0, 0x74], &mut out, &mut CodecExtra::None)
        .unwrap();
    assert_eq!(out, [0x74]);
}
