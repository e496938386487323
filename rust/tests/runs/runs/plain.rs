//! Whole runs of the codecs that are there.

use crate::Fail;
use crate::asserts::{assert_bytes, assert_count, assert_same};
use crate::library::{Ended, counts_of, payloader_of};
use crate::runs::rows::{Popped, RUNS, RunRow, Sender, Told, Unit};
use crate::runs::{run_frames, run_one};
use codec_payload::buffer::Depacketized;
use codec_payload::codec::{CodecExtra, CodecPacketizer, Vp9PacketizerMode};
use codec_payload::error::PacketError;
use codec_payload::memory::{AllocError, TryVec};
use codec_payload::payload::{MemorySink, Payloader};
use codec_payload::schedule::{Run, Step};
use codec_payload::vp8::Vp8Packetizer;
use codec_payload::wire::{Codec, CodecSpec, Frequency};

fn what_is_told(extra: &CodecExtra) -> Told {
    let picture_id = match extra {
        CodecExtra::Vp8(told) => told.picture_id,
        CodecExtra::Vp9(told) => told.picture_id,
        CodecExtra::Av1(told) => return Told::IsKeyframe(told.is_keyframe),
        _ => None,
    };
    match picture_id {
        Some(id) => Told::PictureId(id),
        None => Told::Nothing,
    }
}

fn assert_unit(name: &str, unit: &Depacketized, wanted: &Unit<'_>) {
    let range = unit.seq_range();
    let numbers = (range.start().0, range.end().0);
    let told = what_is_told(&unit.codec_extra);
    assert_bytes(name, &unit.bytes, wanted.bytes);
    let got = (numbers, unit.contiguous, told);
    assert_same(
        name,
        &got,
        &(wanted.numbers, wanted.contiguous, wanted.told),
    );
}

/// A pop answered so.
fn assert_pop(name: &str, pop: &Option<Result<Depacketized, PacketError>>, wanted: &Popped<'_>) {
    match (pop, wanted) {
        (Some(Ok(unit)), Popped::Unit(wanted)) => assert_unit(name, unit, wanted),
        (Some(Err(fault)), Popped::Fault(number)) => {
            assert_same(name, &fault.number(), number);
        }
        (None, Popped::Nothing) => {}
        _ => panic!("a pop of {name} is of another kind"),
    }
}

/// The pops of a run answered so.
fn assert_pops(name: &str, run: &Run, wanted: &[Popped<'_>]) {
    assert_count(name, run.pops.len(), wanted.len());
    for (pop, wanted) in run.pops.iter().zip(wanted) {
        assert_pop(name, pop, wanted);
    }
}

/// The payloads of all packets.
fn payloads_of(sink: &MemorySink) -> Result<Vec<&[u8]>, AllocError> {
    let mut payloads = Vec::new();
    for packet in sink.packets() {
        payloads.try_push(packet.payload.as_slice())?;
    }
    Ok(payloads)
}

/// A payloader of VP8 that sends picture ids, of which this is the first.
fn vp8_payloader(first_id: u16) -> Result<Payloader, Fail> {
    if first_id > 0x7fff {
        return Err("no picture id".into());
    }
    let packetizer = CodecPacketizer::Vp8(Vp8Packetizer::with_picture_id(first_id));
    Ok(Payloader::with_packetizer(
        packetizer,
        Frequency::NINETY_KHZ,
    ))
}

/// A payloader of VP9 in this mode, with this first picture id.
fn vp9_payloader(mode: Vp9PacketizerMode, first_id: u16) -> Result<Payloader, Fail> {
    if first_id > 0x7fff {
        return Err("no picture id".into());
    }
    let spec = CodecSpec {
        codec: Codec::Vp9,
        clock_rate: Frequency::EIGHT_KHZ,
        octet_align: false,
    };
    Ok(Payloader::new(spec, mode, first_id).ok_or("no packetizer")?)
}

fn payloader_of_row(sender: &Sender) -> Result<Payloader, Fail> {
    match *sender {
        Sender::OfCodec(codec) => payloader_of(codec, Frequency::EIGHT_KHZ),
        Sender::Vp8WithIds(first_id) => vp8_payloader(first_id),
        Sender::Vp9(mode, first_id) => vp9_payloader(mode, first_id),
    }
}

fn run_row(row: &RunRow) -> Result<Ended, Fail> {
    let mut payloader = payloader_of_row(&row.sender)?;
    run_frames(&mut payloader, row.codec, row.frames, row.steps)
}

fn assert_run(row: &RunRow) -> Result<(), Fail> {
    let name = row.name;
    let ended = run_row(row)?;
    let counts = counts_of(&ended.run, name)?;
    let payloads = payloads_of(&ended.sink)?;
    assert_same(name, &counts.as_slice(), &row.counts);
    assert_same(name, &payloads.as_slice(), &row.payloads);
    assert_pops(name, &ended.run, row.pops);
    assert_count(name, ended.held, 0);
    Ok(())
}

#[test]
fn runs_of_built_in_codecs() -> Result<(), Fail> {
    for row in &RUNS {
        assert_run(row)?;
    }
    Ok(())
}

/// Sends the sample at an MTU of 2, pushes these packets, and pops the given number of times.
fn steps_of(packets: &[usize], pops: usize) -> Result<Vec<Step>, AllocError> {
    let mut steps = Vec::new();
    steps.try_push(Step::Send { sample: 0, mtu: 2 })?;
    for packet in packets {
        steps.try_push(Step::Push(*packet))?;
    }
    for _ in 0..pops {
        steps.try_push(Step::Pop)?;
    }
    Ok(steps)
}

/// Each packet comes twice.
#[test]
fn vp8_4096_packets_reversed() -> Result<(), Fail> {
    let frame = vec![0x90u8; 4_096];
    let mut packets = Vec::new();
    for k in 0..4_096 {
        packets.try_push(4_095 - k)?;
        packets.try_push(4_095 - k)?;
    }
    let ended = run_one(Codec::Vp8, &frame, &steps_of(&packets, 2)?)?;
    let unit = Unit {
        bytes: &frame,
        numbers: (10, 4_105),
        contiguous: true,
        told: Told::Nothing,
    };
    let wanted = [Popped::Unit(unit), Popped::Nothing];
    assert_left("vp8-4096-packets-reversed", &ended, 4_096, 0);
    assert_pops("vp8-4096-packets-reversed", &ended.run, &wanted);
    Ok(())
}

#[test]
fn vp8_4097_packets_evicts() -> Result<(), Fail> {
    let frame = vec![0x90u8; 4_097];
    let mut packets = Vec::new();
    for k in 0..4_097 {
        packets.try_push(k)?;
    }
    let ended = run_one(Codec::Vp8, &frame, &steps_of(&packets, 1)?)?;
    assert_left("vp8-4097-packets-evicts", &ended, 4_097, 4_096);
    assert_pops("vp8-4097-packets-evicts", &ended.run, &[Popped::Nothing]);
    Ok(())
}

/// Fails if the numbers of sent and of held packets differ.
fn assert_left(name: &str, ended: &Ended, sent: usize, held: usize) {
    let got = (ended.sink.packets().len(), ended.held);
    assert_same(name, &got, &(sent, held));
}
