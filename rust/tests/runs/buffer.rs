//! The rules of the buffer, in worked examples.

use crate::Fail;

mod rows;
mod search;
mod unit;

use crate::asserts::{assert_bytes, assert_count, assert_same};
use crate::buffer::rows::{Packet, STEPS, Step, StepsRow, Unit};
use crate::library::{buffer_of, depacketizer_of, pop_unit, push};
use codec_payload::buffer::{Depacketized, DepacketizingBuffer, RtpMeta};
use codec_payload::codec::CodecExtra;
use codec_payload::error::PacketError;
use codec_payload::wire::{Codec, Frequency, MediaTime, Pt, SeqNo, Ticks};

pub fn meta(number: u64, time: u64) -> RtpMeta {
    let time = MediaTime::new(time, Frequency::FORTY_EIGHT_KHZ);
    RtpMeta::of(SeqNo(number), time, Pt::new_with_value(96), Ticks(0))
}

/// An empty buffer of a codec, with its own limit, which is 1 to 65,536.
pub fn buffer_of_limit(
    codec: Codec,
    hold_back: usize,
    limit: usize,
) -> Result<DepacketizingBuffer, Fail> {
    if !(1..=65_536).contains(&limit) {
        return Err("no limit".into());
    }
    let depacketizer = depacketizer_of(codec)?;
    Ok(DepacketizingBuffer::with_limit(
        depacketizer,
        hold_back,
        limit,
    ))
}

/// The number of the next unit, and whether it is contiguous.
fn pop(buffer: &mut DepacketizingBuffer) -> Result<Option<(u64, bool)>, PacketError> {
    match buffer.pop() {
        Some(Ok(unit)) => Ok(Some((unit.seq_range().start().0, unit.contiguous))),
        Some(Err(fault)) => Err(fault),
        None => Ok(None),
    }
}

/// Fails if the next units differ: each has the number of its first packet and the flag contiguous; `None` means that no unit is
/// due.
fn assert_pops(
    buffer: &mut DepacketizingBuffer,
    wanted: &[Option<(u64, bool)>],
) -> Result<(), Fail> {
    for unit in wanted {
        assert_same("what comes out", &pop(buffer)?, unit);
    }
    Ok(())
}

/// Fails if the numbers of held packets and of complete frames differ.
fn assert_held(buffer: &DepacketizingBuffer, held: usize, ready: usize) {
    let got = (buffer.held(), buffer.ready());
    assert_same("packets and frames that are held", &got, &(held, ready));
}

/// Pushes a packet of the one frame of that time.
fn push_part(
    buffer: &mut DepacketizingBuffer,
    number: u64,
    marker: bool,
    payload: &[u8],
) -> Result<(), PacketError> {
    let mut meta = meta(number, 960);
    meta.header.marker = marker;
    push(buffer, meta, payload)
}

fn push_packet(buffer: &mut DepacketizingBuffer, packet: &Packet) -> Result<(), PacketError> {
    let mut meta = meta(packet.number, packet.time);
    meta.header.marker = packet.marker;
    push(buffer, meta, packet.payload)
}

fn assert_unit(place: &str, unit: &Depacketized, wanted: &Unit) {
    assert_bytes(place, &unit.bytes, wanted.bytes);
    let numbers = SeqNo(wanted.first)..=SeqNo(wanted.last);
    let wanted = (numbers, wanted.contiguous);
    assert_same(place, &(unit.seq_range(), unit.contiguous), &wanted);
}

fn assert_step(buffer: &mut DepacketizingBuffer, place: &str, step: &Step) -> Result<(), Fail> {
    match step {
        Step::Push(packet) => push_packet(buffer, packet)?,
        Step::Pop(Some(wanted)) => {
            let unit = pop_unit(buffer, place)?;
            assert_unit(place, &unit, wanted);
        }
        Step::Pop(None) => assert_same(place, &pop(buffer)?, &None),
        Step::Held(count) => assert_count(place, buffer.held(), *count),
        Step::Ready(count) => assert_count(place, buffer.ready(), *count),
    }
    Ok(())
}

fn assert_steps(row: &StepsRow) -> Result<(), Fail> {
    let mut buffer = buffer_of_limit(row.codec, row.hold_back, row.limit)?;
    assert_count(row.name, buffer.limit(), row.limit);
    for (place, step) in row.steps.iter().enumerate() {
        let place = format!("step {place} of {}", row.name);
        assert_step(&mut buffer, &place, step)?;
    }
    Ok(())
}

#[test]
fn steps_are_answered() -> Result<(), Fail> {
    for row in &STEPS {
        assert_steps(row)?;
    }
    Ok(())
}

/// An Opus buffer that holds everything back, into which packets 1 to 4,096 were pushed.
fn full_buffer() -> Result<DepacketizingBuffer, Fail> {
    let mut buffer = buffer_of_limit(Codec::Opus, usize::MAX, 4_096)?;
    for number in 1..=4_096 {
        push(&mut buffer, meta(number, number), &[])?;
    }
    Ok(buffer)
}

/// A packet below all that a full buffer holds leaves at once, and yet the unit after it does not follow.
#[test]
fn full_buffer_evicts_the_packet_that_came() -> Result<(), Fail> {
    let mut buffer = full_buffer()?;
    push(&mut buffer, meta(0, 0), &[])?;
    assert_count("packets that are held", buffer.held(), 4_096);
    assert_pops(&mut buffer, &[Some((1, false)), Some((2, true))])
}

/// The next unit has this byte, the time 960 and no extra.
fn assert_opus(buffer: &mut DepacketizingBuffer, byte: u8) -> Result<(), Fail> {
    let unit = pop_unit(buffer, "no unit")?;
    assert_bytes("a unit", &unit.bytes, &[byte]);
    let got = (unit.time.numer(), unit.codec_extra);
    assert_same("its time and extra", &got, &(960, CodecExtra::None));
    Ok(())
}

/// Of two packets of one number the first stays. Two packets of one time are two units.
#[test]
fn units_are_what_came_first() -> Result<(), Fail> {
    let mut buffer = buffer_of(Codec::Opus)?;
    for (number, byte) in [(1, 5), (1, 6), (2, 7)] {
        push_part(&mut buffer, number, false, &[byte])?;
    }
    assert_opus(&mut buffer, 5)?;
    assert_opus(&mut buffer, 7)
}

/// Packets 2 to 4,097 of a VP8 frame, whose first is missing.
fn headless_buffer() -> Result<DepacketizingBuffer, Fail> {
    let mut buffer = buffer_of(Codec::Vp8)?;
    for number in 2..=4_097u64 {
        push_part(&mut buffer, number, number == 4_097, &[0x00, 0x90])?;
    }
    Ok(buffer)
}

/// The first packet leaves at once and comes too late from then on.
#[test]
fn ready_4097_first_last() -> Result<(), Fail> {
    let mut buffer = headless_buffer()?;
    for _ in 0..2 {
        push_part(&mut buffer, 1, false, &[0x10, 0x90])?;
        assert_held(&buffer, 4_096, 0);
        assert_pops(&mut buffer, &[None])?;
    }
    Ok(())
}

/// Packets of AV1 from 4,096 down to 1, each of which begins a unit, and of which the last ends one. There is always one
/// complete frame.
fn push_downwards(buffer: &mut DepacketizingBuffer) -> Result<(), Fail> {
    for below in 0..4_096u64 {
        push_part(buffer, 4_096 - below, below == 0, &[0x10, 0x30])?;
        assert_count("complete frames", buffer.ready(), 1);
    }
    Ok(())
}

/// Of a buffer full of packets that each begin a unit, of which the last ends one, the lowest are evicted one by one, and the
/// frame begins one packet later each time.
#[test]
fn ready_as_a_frame_shrinks() -> Result<(), Fail> {
    let mut buffer = buffer_of(Codec::Av1)?;
    push_downwards(&mut buffer)?;
    for number in 4_097..4_100u64 {
        push_part(&mut buffer, number, true, &[0x10, 0x30])?;
    }
    assert_held(&buffer, 4_096, 4);
    let unit = pop_unit(&mut buffer, "no unit")?;
    let got = (unit.seq_range(), unit.contiguous);
    assert_same("the frame", &got, &(SeqNo(4)..=SeqNo(4_096), false));
    assert_count("complete frames behind it", buffer.ready(), 3);
    assert_pops(&mut buffer, &[Some((4_097, true))])
}

/// A VP8 frame of packets 1 to 4,097.
fn push_long_frame(buffer: &mut DepacketizingBuffer) -> Result<(), PacketError> {
    for number in 1..=4_097u64 {
        let descriptor = if number == 1 { 0x10 } else { 0x00 };
        push_part(buffer, number, number == 4_097, &[descriptor, 0x90])?;
    }
    Ok(())
}

/// A frame of one packet more than a buffer from `new` holds.
#[test]
fn limit_65536_vp8() -> Result<(), Fail> {
    let mut buffer = buffer_of_limit(Codec::Vp8, 0, 65_536)?;
    assert_count("the limit", buffer.limit(), 65_536);
    push_long_frame(&mut buffer)?;
    let unit = pop_unit(&mut buffer, "no unit")?;
    assert_bytes("the frame", &unit.bytes, &vec![0x90u8; 4_097]);
    assert_same("its numbers", &unit.seq_range(), &(SeqNo(1)..=SeqNo(4_097)));
    assert_pops(&mut buffer, &[None])
}
