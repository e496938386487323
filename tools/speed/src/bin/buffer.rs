//! Pushes packets into a buffer that holds so many, and pops a unit after each push that ends one:
//!
//!   buffer WAY ORDER HELD COUNT
//!
//! - WAY: `unit` pushes by `push`, `packed` pushes packed metadata by `store_packed`. Both pop by `pop_unit`.
//! - ORDER: `opus` is in order, `rows` 32 at a time in reverse, `vp8` has 17 packets a frame.
//!
//! The difference of two runs under callgrind, divided by the difference of their counts, is what a packet takes. It includes
//! the packet's metadata and a copy of its payload of 120 bytes.

use codec_payload::buffer::{PackedHeader, PackedMeta};
use codec_payload::{
    Codec, CodecDepacketizer, DepacketizingBuffer, MediaTime, PoppedUnit, Pt, RtpMeta, SeqNo, Ticks,
};

/// A packet's number, its time, and whether it has the marker, by its place in the order.
fn packet(order: &str, place: u64) -> (u64, u64, bool) {
    match order {
        "rows" => {
            let number = place / 32 * 32 + 31 - place % 32;
            (number, number * 960, false)
        }
        "vp8" => (place, place / 17, place % 17 == 16),
        _ => (place, place * 960, false),
    }
}

fn meta(number: u64, time: u64, marker: bool) -> RtpMeta {
    let time = MediaTime::from_90khz(time);
    let mut meta = RtpMeta::of(SeqNo(number), time, Pt::from(96), Ticks(number));
    meta.header.marker = marker;
    meta
}

/// Pushes a packet with a copy of this payload.
fn push(buffer: &mut DepacketizingBuffer, way: &str, place: (u64, u64, bool), payload: &[u8]) {
    let (number, time, marker) = place;
    if way == "packed" {
        let header = PackedHeader::plain(Pt::from(96), number as u16, time as u32, 7, marker);
        let time = MediaTime::from_90khz(time);
        let packed = PackedMeta::new(Ticks(number), time, SeqNo(number), header);
        buffer.store_packed(packed, payload.to_vec()).unwrap();
    } else {
        buffer
            .push(meta(number, time, marker), payload.to_vec())
            .unwrap();
    }
}

/// Pops a unit, and returns the number of its bytes.
fn pop(buffer: &mut DepacketizingBuffer, unit: &mut PoppedUnit) -> Option<usize> {
    buffer.pop_unit(unit)?.ok()?;
    Some(unit.bytes.len())
}

fn main() {
    let words: Vec<String> = std::env::args().collect();
    let [_, way, order, held, count] = &words[..] else {
        panic!("buffer WAY ORDER HELD COUNT");
    };
    let (held, count): (usize, u64) = (held.parse().unwrap(), count.parse().unwrap());
    let video = order == "vp8";
    let (codec, hold_back) = if video {
        (Codec::Vp8, held / 17)
    } else {
        (Codec::Opus, held)
    };
    let depacketizer = CodecDepacketizer::from_codec(codec).unwrap();
    let mut buffer: DepacketizingBuffer =
        DepacketizingBuffer::with_limit(depacketizer, hold_back, 65_536);
    let mut unit = PoppedUnit::new();
    // A unit, and then a gap: so frames wait until more than `hold_back` are there.
    buffer.push(meta(0, 1 << 40, true), vec![0x10, 1]).unwrap();
    assert!(pop(&mut buffer, &mut unit).is_some());
    let mut payload = vec![7; 120];
    let mut released = 0;
    for place in 0..count {
        let (number, time, marker) = packet(order, place);
        if video {
            payload[0] = if number % 17 == 0 { 0x10 } else { 0 };
        }
        push(&mut buffer, way, (number + 2, time, marker), &payload);
        if (marker || !video)
            && let Some(bytes) = pop(&mut buffer, &mut unit)
        {
            released += bytes;
        }
    }
    println!("{released} bytes released, {} packets held", buffer.held());
}
