//! Packetizers and depacketizers, RED, and the buffers of packets.

use crate::{Call, made, told};
use codec_payload::buffer::{Incoming, PackedHeader, PackedMeta};
use codec_payload::jitter::{JitterBuffer, WaitLimits};
use codec_payload::media::av1::{Av1SequenceHeader, front_obu, write_av1c};
use codec_payload::parts::descriptor::{DependencyDescriptor, DescriptorReader};
use codec_payload::payload::{MemorySink, OutgoingPacket, PacketSink, Payloader};
use codec_payload::payloads::PayloadWriter;
use codec_payload::wire::{RtpHeader, ToPayload};
use codec_payload::*;

pub const CALLS: [Call; 18] = [
    Call(&["Packetizer::packetize"], packetize),
    Call(&["Packetizer::packetize_into"], packetize_into),
    Call(&["Depacketizer::depacketize"], depacketize),
    Call(
        &[
            "Packetizer::packetize",
            "Packetizer::packetize_into",
            "Depacketizer::depacketize",
        ],
        boxes,
    ),
    Call(
        &[
            "PayloadWriter::expect",
            "PayloadWriter::begin",
            "PayloadWriter::put",
            "PayloadWriter::end",
            "Payloads::new",
            "Payloads::copy_of",
            "Payloads::settle",
        ],
        write_payloads,
    ),
    Call(&["Payloader::push_sample", "PacketSink::send"], payloader),
    Call(
        &["DependencyDescriptor::read", "DescriptorReader::read"],
        descriptors,
    ),
    Call(
        &[
            "RedEncoder::encode",
            "RedDecoder::decode",
            "RedReceiver::recover",
        ],
        red_blocks,
    ),
    Call(&["RedSender::wrap", "RedSender::wrap_into"], red_sender),
    Call(
        &["DepacketizingBuffer::push", "DepacketizingBuffer::pop"],
        buffer,
    ),
    Call(
        &[
            "DepacketizingBuffer::store",
            "DepacketizingBuffer::pop_unit",
        ],
        buffer_unit,
    ),
    Call(
        &[
            "DepacketizingBuffer::copy_of",
            "DepacketizingBuffer::store_packed",
            "DepacketizingBuffer::store_two",
            "DepacketizingBuffer::pop_unit",
            "DepacketizingBuffer::pop_counted",
            "DepacketizingBuffer::pop_unit_counted",
        ],
        buffer_counted,
    ),
    Call(&["JitterBuffer::push", "JitterBuffer::pop"], jitter),
    Call(
        &[
            "JitterBuffer::copy_of",
            "JitterBuffer::push_packed",
            "JitterBuffer::pop_unit",
        ],
        jitter_packed,
    ),
    Call(
        &[
            "JitterBuffer::push_no_media",
            "JitterBuffer::note_no_media",
            "JitterBuffer::pop_unit",
        ],
        jitter_no_media,
    ),
    Call(
        &[
            "JitterBuffer::push_retransmitted",
            "JitterBuffer::push_recovered",
            "JitterBuffer::missing_into",
        ],
        jitter_again,
    ),
    Call(&["PopUnits::pop_at"], units),
    Call(&["write_av1c"], av1c),
];

const CODECS: [Codec; 11] = [
    Codec::Opus,
    Codec::PCMU,
    Codec::PCMA,
    Codec::G722,
    Codec::CN,
    Codec::AmrWb,
    Codec::Tele,
    Codec::Vp8,
    Codec::Vp9,
    Codec::Av1,
    Codec::Null,
];

pub fn packetizer(codec: Codec) -> CodecPacketizer {
    CodecPacketizer::from_codec(codec).expect("it has one")
}

pub fn depacketizer(codec: Codec) -> CodecDepacketizer {
    CodecDepacketizer::from_codec(codec).expect("it has one")
}

/// Frames of about this many bytes. AV1: as many OBUs as bytes allow, and one OBU. AMR-WB: as many frames as bytes allow.
fn frames(codec: Codec, size: usize) -> Vec<Vec<u8>> {
    match codec {
        // OBUs of type 6 with a size (AV1 bitstream specification, section 5.3; LEB128 in three bytes, section 4.10.5).
        Codec::Av1 => {
            let [low, middle, high] = [size, size >> 7, size >> 14].map(|it| it as u8 & 0x7f);
            let head = [0x32, 0x80 | low, 0x80 | middle, high];
            vec![
                [0x32, 1, 9].repeat(size.div_ceil(3)),
                [&head[..], &vec![9; size]].concat(),
            ]
        }
        // A frame of type 0 with its header (RFC 4867, section 5.3), and many.
        Codec::AmrWb => {
            let one = [vec![0x04], vec![7; 17]].concat();
            vec![one.repeat(size.div_ceil(18)), one]
        }
        _ => vec![vec![0x82; size]],
    }
}

/// Both layouts of AMR-WB (RFC 4867, section 4); other codecs ignore it.
fn specs(codec: Codec) -> [CodecSpec; 2] {
    [false, true].map(|octet_align| CodecSpec {
        codec,
        clock_rate: Frequency::NINETY_KHZ,
        octet_align,
    })
}

fn packetize(size: usize) {
    for codec in CODECS {
        for frame in frames(codec, size) {
            for mtu in [0, 1, 60, 1_200, 1_500, usize::MAX] {
                for spec in specs(codec) {
                    let mut it = packetizer(codec);
                    it.configure_for(&spec);
                    let _ = told(it.packetize(mtu, &frame));
                }
            }
        }
    }
}

fn packetize_into(size: usize) {
    for codec in CODECS {
        let mut out = made(Payloads::new(65_535, 65_535));
        for frame in frames(codec, size.min(129)) {
            let _ = told(packetizer(codec).packetize_into(60, &frame, &mut out));
        }
        let mut out = made(Payloads::new(12, 16));
        for frame in frames(codec, size) {
            let _ = told(packetizer(codec).packetize_into(1_400, &frame, &mut out));
            let _ = told(packetizer(codec).packetize_into(usize::MAX, &frame, &mut out));
        }
    }
}

/// A custom format: a packet for each frame.
#[derive(Debug)]
struct Whole;

impl Packetizer for Whole {
    fn packetize(&mut self, _mtu: usize, b: &[u8]) -> Result<Vec<Vec<u8>>, PacketError> {
        Ok(vec![b.to_vec()])
    }

    fn is_marker(&mut self, _data: &[u8], _previous: Option<&[u8]>, last: bool) -> bool {
        last
    }
}

fn boxes(size: usize) {
    let mut sends = CodecPacketizer::Boxed(BoxedPacketizer(Box::new(Whole)));
    let mut it = CodecDepacketizer::Boxed(BoxedDepacketizer(Box::new(OpusDepacketizer {})));
    let mut out = made(Payloads::new(12, 16));
    let frame = vec![7; size];
    made(sends.packetize_into(usize::MAX, &frame, &mut out));
    for payload in made(sends.packetize(usize::MAX, &frame)) {
        made(it.depacketize(&payload, &mut vec![0; size], &mut CodecExtra::None));
    }
}

/// Payloads of any bytes, and those of a frame, in front of which the output has bytes.
fn depacketize(size: usize) {
    for codec in CODECS {
        let mut extra = CodecExtra::None;
        for (frame, spec) in frames(codec, size)
            .iter()
            .flat_map(|it| specs(codec).map(|spec| (it, spec)))
        {
            for (mtu, before) in [(60, 0), (1_500, size), (usize::MAX, 3)] {
                let (mut sends, mut it) = (packetizer(codec), depacketizer(codec));
                sends.configure_for(&spec);
                it.configure_for(&spec);
                let mut out = vec![0; before];
                for payload in sends.packetize(mtu, frame).unwrap_or_default() {
                    let _ = told(it.depacketize(&payload, &mut out, &mut extra));
                }
            }
        }
        for first in [0, 0x10, 0x2a, 0x80, 0x8f, 0xff] {
            let payload = vec![first; size];
            let _ = told(depacketizer(codec).depacketize(&payload, &mut Vec::new(), &mut extra));
        }
    }
    described(size);
}

/// VP9 with three layers, with and without their sizes, and as many pictures in a group as a byte has, twice (RFC 9628, section
/// 4.2.1); AMR-WB with as many frames, octet-aligned (RFC 4867, section 4.4).
fn described(size: usize) {
    let mut extra = CodecExtra::None;
    for layers in [0x48, 0x58] {
        let structure = [&[0x0a, layers][..], &[0; 12], &[255], &vec![0x0c; 2 * size]].concat();
        let plain = [&[0x0a, layers, 255][..], &vec![0x0c; 2 * size], &[7, 7]].concat();
        let mut it = depacketizer(Codec::Vp9);
        for payload in [&structure, &plain, &structure, &plain] {
            let _ = told(it.depacketize(payload, &mut vec![0; size], &mut extra));
        }
    }
    let contents = [vec![0x84; size], vec![0x04], vec![7; 17 * (size + 1)]].concat();
    for spec in specs(Codec::AmrWb) {
        let mut it = depacketizer(Codec::AmrWb);
        it.configure_for(&spec);
        let payload = [&[0xf0][..], &contents].concat();
        let _ = told(it.depacketize(&payload, &mut vec![0; size], &mut extra));
    }
}

fn write_payloads(size: usize) {
    let room = size.min(1_500);
    let mut out = made(Payloads::new(room, room));
    for _ in 0..2 {
        made(out.copy_of(&vec![vec![1; size.min(100)]; size.min(3_000)]));
        made(out.expect(size, size));
    }
    made(out.settle(Ok(())));
    let mut vectors: Vec<Vec<u8>> = Vec::new();
    fn fill<W: PayloadWriter>(writer: &mut W, size: usize) {
        made(writer.expect(1, size));
        let mut payload = made(writer.begin(size));
        made(writer.put(&mut payload, &vec![7; size]));
        made(writer.end(payload));
    }
    out.clear();
    fill(&mut out, size);
    fill(&mut vectors, size);
    assert_eq!(out.get(0), vectors[0]);
}

fn sample(bytes: Vec<u8>) -> ToPayload {
    ToPayload {
        pt: Pt::from(96),
        wallclock: Ticks(0),
        rtp_time: MediaTime::from_90khz(3_000),
        bytes,
        start_of_talk_spurt: true,
        ext_vals: ExtensionValues::default(),
    }
}

fn payloader(size: usize) {
    let spec = CodecSpec {
        codec: Codec::Vp8,
        clock_rate: Frequency::NINETY_KHZ,
        octet_align: false,
    };
    let mut sink = MemorySink::new(0);
    let mut payloader = Payloader::new(spec, Vp9PacketizerMode::Flexible, 0).expect("VP8 has one");
    made(payloader.push_sample(&sample(vec![0x82; size]), 10, &mut sink));
    made(payloader.push_sample(&sample(vec![0x82; size]), usize::MAX, &mut sink));
    let packet = OutgoingPacket {
        pt: Pt::from(96),
        seq_no: sink.next_seq_no(),
        rtp_time: 0,
        wallclock: Ticks(0),
        marker: true,
        nackable: true,
        ext_vals: ExtensionValues::default(),
        payload: vec![1; size],
    };
    made(sink.send(packet));
    assert!(sink.packets().len() > size / 10);
}

/// A payload of RED with as many blocks, each of two bytes, and one of the largest blocks (RFC 2198, section 3).
fn red_blocks(size: usize) {
    let blocks: Vec<_> = (0..size.min(4_000))
        .map(|place| RedundantBlock {
            pt: 111,
            timestamp_offset: (place % 16_384) as u32,
            payload: vec![1, 2],
        })
        .collect();
    let many = made(RedEncoder::encode(111, &[7; 3], &blocks));
    // 32 blocks are read at most.
    assert!(made(RedDecoder::decode(&many)).len() > blocks.len().min(32));
    let large = RedundantBlock {
        pt: 111,
        timestamp_offset: 960,
        payload: vec![3; size.min(1_023)],
    };
    let two = made(RedEncoder::encode(111, &vec![7; size], &[large]));
    let receiver = RedReceiver::new(111, 1).expect("a step");
    let deep = RedReceiver::new(111, 960).expect("a step");
    made(receiver.recover(SeqNo(70_000), 70_000, &many));
    made(deep.recover(SeqNo(70_000), 70_000, &two));
    let _ = told(RedDecoder::decode(&vec![0xff; size]));
    let _ = told(receiver.recover(SeqNo(9), 9, &vec![0x80; size]));
}

fn red_sender(size: usize) {
    let all: Vec<u32> = (1..=8).collect();
    for budget in [0, 1_200, usize::MAX] {
        let mut one = RedSender::new(Pt::from(63), Pt::from(111), &all);
        let mut other = RedSender::new(Pt::from(63), Pt::from(111), &all);
        let mut out = Vec::new();
        for place in 0..20 {
            let payload = vec![place as u8; size];
            made(other.wrap_into(&payload, 960 * place, budget, &mut out));
            assert_eq!(made(one.wrap(payload, 960 * place, budget)), out);
        }
        made(other.wrap(vec![1; size], 0, budget));
        made(one.wrap_into(&vec![1; size], 0, budget, &mut out));
    }
}

fn meta(number: u64, marker: bool) -> RtpMeta {
    let mut meta = RtpMeta::of(
        SeqNo(number),
        MediaTime::from_90khz(number),
        Pt::from(96),
        Ticks(number),
    );
    meta.header.marker = marker;
    meta
}

/// An empty buffer of Opus for as many packets.
fn empty(size: usize) -> DepacketizingBuffer {
    DepacketizingBuffer::with_limit(depacketizer(Codec::Opus), usize::MAX, size.clamp(1, 65_536))
}

/// How many packets are pushed into a buffer: one above its limit.
fn packets(size: usize) -> u64 {
    size.min(10_000) as u64 + 1
}

/// A frame of VP8 of that many packets (RFC 7741, section 4.2), and single packets in any order.
fn buffer(size: usize) {
    let mut frame = DepacketizingBuffer::with_limit(depacketizer(Codec::Vp8), 0, 65_536);
    let last = packets(size);
    for number in 0..=last {
        let first = if number == 0 { 0x10 } else { 0 };
        let mut it = meta(number, number == last);
        it.time = MediaTime::from_90khz(3_000);
        made(frame.push(it, vec![first, 1, 2]));
    }
    let unit = frame.pop().expect("a frame").map(|unit| unit.bytes.len());
    assert_eq!(made(unit), 2 * (last as usize + 1));
    let mut buffer = empty(size);
    for number in 0..last {
        made(buffer.push(
            meta(number * 7_919 % 65_521, true),
            vec![1; size.min(1_500)],
        ));
    }
    while let Some(unit) = buffer.pop() {
        made(unit);
    }
}

fn buffer_unit(size: usize) {
    let (mut buffer, mut unit) = (empty(size), PoppedUnit::new());
    for number in (0..packets(size)).rev() {
        made(buffer.store(meta(2 * number, true), vec![1; size.min(1_500)]));
    }
    buffer.set_hold_back(0);
    while let Some(popped) = buffer.pop_unit(&mut unit) {
        made(popped);
    }
}

fn buffer_counted(size: usize) {
    let (mut buffer, mut unit) = (empty(size), PoppedUnit::new());
    let incoming = |number| Incoming {
        meta: meta(number, true),
        payload: vec![1; size.min(1_500)],
    };
    for number in 0..packets(size) / 2 {
        made(buffer.store_two(incoming(4 * number), incoming(4 * number + 1)));
        let packed = made(PackedMeta::of(&meta(4 * number + 2, true)));
        let payload = made(buffer.copy_of(&vec![1; size]));
        made(buffer.store_packed(packed, payload));
    }
    buffer.set_hold_back(0);
    for _ in 0..3 {
        let _ = buffer.pop_counted().0.map(made);
        let _ = buffer.pop_unit_counted(&mut unit).0.map(made);
    }
    while let Some(unit) = buffer.pop_unit(&mut unit) {
        made(unit);
    }
}

fn header(number: u16) -> RtpHeader {
    RtpHeader {
        payload_type: Pt::from(111),
        sequence_number: number,
        timestamp: 960 * u32::from(number),
        ssrc: 7,
        marker: true,
        ext_vals: ExtensionValues::default(),
    }
}

/// A jitter buffer of Opus for as many packets.
fn jitters(size: usize) -> JitterBuffer {
    let numbers = codec_payload::jitter::SequenceNumbers::new();
    let limits = {
        let mut limits = WaitLimits::live();
        limits.hold_back = Some(usize::MAX);
        limits.start = usize::MAX;
        limits.max_wait = None;
        limits
    };
    JitterBuffer::over(numbers, empty(size), Frequency::FORTY_EIGHT_KHZ, limits)
        .with_room_for(usize::MAX)
}

/// The numbers of packets: with gaps, back and forth, and with jumps that are restarts.
fn numbers(size: usize) -> impl Iterator<Item = u16> {
    (0..packets(size)).map(|place| {
        let jump = place / 500 * 30_000;
        (3 * (place ^ 1) + jump) as u16
    })
}

fn jitter(size: usize) {
    let mut buffer = jitters(size);
    for number in numbers(size) {
        made(buffer.push(
            Ticks(number.into()),
            header(number),
            vec![1; size.min(1_500)],
        ));
    }
    buffer.finish();
    while let Some(unit) = buffer.pop(Ticks(u64::MAX)) {
        made(unit);
    }
}

fn jitter_packed(size: usize) {
    let (mut buffer, mut unit) = (jitters(size), PoppedUnit::new());
    for number in numbers(size) {
        let packed = made(PackedHeader::new(&header(number)));
        let payload = made(buffer.copy_of(&vec![1; size.min(1_500)]));
        made(buffer.push_packed(Ticks(0), packed, payload));
    }
    buffer.finish();
    while let Some(popped) = buffer.pop_unit(Ticks(9), &mut unit) {
        made(popped);
    }
}

fn jitter_no_media(size: usize) {
    let (mut buffer, mut unit) = (jitters(size), PoppedUnit::new());
    made(buffer.push(Ticks(0), header(0), vec![1]));
    // In a row, each second one, and back.
    for place in 0..packets(size) as u16 {
        for number in [
            place,
            2 * (place % 1_000),
            500_u16.wrapping_sub(place % 500),
        ] {
            made(buffer.push_no_media(number));
        }
        let first = 65_536 + 7 * place as u64;
        made(buffer.note_no_media(first, first + size as u64));
        made(buffer.push(Ticks(0), header(3 * (place % 900)), vec![1]));
    }
    buffer.finish();
    while let Some(unit) = buffer.pop_unit(Ticks(9), &mut unit) {
        made(unit);
    }
}

fn jitter_again(size: usize) {
    let (mut buffer, mut missing) = (jitters(size), Vec::new());
    for place in 0..packets(size) as u16 {
        let number = 4 * (place % 700);
        made(buffer.push(Ticks(0), header(number), vec![1; size.min(1_500)]));
        made(buffer.push_retransmitted(Ticks(0), header(number.wrapping_sub(2)), vec![1; size]));
        made(buffer.missing_into(size, &mut missing));
        made(buffer.push_recovered(Ticks(0), header(number.wrapping_sub(3)), vec![1; size]));
    }
}

/// The units of both buffers, by their iterators.
fn units(size: usize) {
    let (mut buffer, mut jitter) = (empty(size), jitters(size));
    for number in 0..packets(size) {
        made(buffer.push(meta(number, true), vec![1]));
        made(jitter.push(Ticks(0), header(number as u16), vec![1]));
    }
    buffer.set_hold_back(0);
    jitter.finish();
    for unit in buffer.units() {
        made(unit);
    }
    for unit in jitter.units(Ticks(9)) {
        made(unit);
    }
}

/// The configuration of a file, from a sequence header of that many bytes.
fn av1c(size: usize) {
    let unit = [0x0a, 0x0a, 0, 0, 0, 2, 0xaf, 0xf7, 0x9b, 0x5f, 0x20, 8];
    let (obu, _) = front_obu(&unit).expect("an OBU");
    let header = Av1SequenceHeader::parse(obu.payload).expect("a sequence header");
    made(write_av1c(&header, &vec![0x0a; size], &mut vec![0; size]));
}

/// Descriptors with a structure of 1 to 64 templates that add no decode targets, and bytes that are not a descriptor.
fn descriptors(size: usize) {
    // A structure of one decode target; each template is of the same layer, and the last one ends the list.
    let templates = size.clamp(1, 64);
    let mut bits = vec![0_u8; 8 * 4];
    (bits[0], bits[24]) = (1, 1);
    bits.extend([0; 3 + 5]);
    for template in 1..=templates {
        bits.extend(if template < templates { [0, 0] } else { [1, 1] });
    }
    bits.resize(bits.len() + 3 * templates + 2 + size, 0);
    let bytes: Vec<u8> = bits
        .chunks(8)
        .map(|it| (0..8).fold(0, |byte, at| byte << 1 | it.get(at).unwrap_or(&0)))
        .collect();
    let mut reader = DescriptorReader::new();
    for _ in 0..3 {
        let _ = told(reader.read(&bytes));
        let _ = told(reader.read(&[0x80, 0, 1]));
    }
    assert_eq!(
        reader.structure().map_or(0, |it| it.layers().len()),
        templates
    );
    let _ = told(DependencyDescriptor::read(&vec![0xff; size], None));
}
