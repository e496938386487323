//! Runs of a stream that is built from one specification.

use crate::Fail;
use crate::asserts::{assert_bytes, assert_holds, assert_same};
use crate::library::counts_of;
use codec_payload::codec::Vp9PacketizerMode;
use codec_payload::memory::TryVec;
use codec_payload::schedule::{Run, Step, Stream, run_stream};
use codec_payload::wire::{
    Codec, CodecSpec, ExtensionValues, Frequency, MediaTime, Pt, Ticks, ToPayload,
};

/// A run of a stream of that codec with an RTP clock of 16 kHz, whose first packet has the number 7, over one sample.
fn run_of(
    codec: Codec,
    octet_align: bool,
    frame: &[u8],
    steps: &[Step],
) -> Result<Option<Run>, Fail> {
    let spec = CodecSpec {
        codec,
        clock_rate: Frequency::make(16_000).ok_or("no rate")?,
        octet_align,
    };
    let stream = Stream {
        spec,
        mode: Vp9PacketizerMode::NonFlexible,
        first_id: 0,
        first_number: 7,
        hold_back: 0,
        limit: 4_096,
    };
    let samples = samples_of(frame)?;
    Ok(run_stream(stream, &samples, steps)?)
}

fn samples_of(bytes: &[u8]) -> Result<Vec<ToPayload>, Fail> {
    let mut samples = Vec::new();
    samples.try_push(ToPayload {
        pt: Pt::new_with_value(96),
        wallclock: Ticks(0),
        rtp_time: MediaTime::new(160, Frequency::EIGHT_KHZ),
        bytes: Vec::try_from_slice(bytes)?,
        start_of_talk_spurt: false,
        ext_vals: ExtensionValues::default(),
    })?;
    Ok(samples)
}

/// For each pop the number of the first packet of the released unit.
fn numbers_of(run: &Run) -> Result<Vec<Option<u64>>, Fail> {
    let mut numbers = Vec::new();
    for pop in &run.pops {
        numbers.try_push(match pop {
            Some(Ok(unit)) => Some(unit.meta()[0].seq_no.0),
            Some(Err(_)) => return Err("a fault".into()),
            None => None,
        })?;
    }
    Ok(numbers)
}

/// The bytes of the unit that the first pop gave.
fn first_unit(run: &Run) -> Result<&[u8], Fail> {
    match run.pops.first() {
        Some(Some(Ok(unit))) => Ok(unit.bytes.as_slice()),
        _ => Err("no unit".into()),
    }
}

/// A frame of mode 0, with 132 bits behind its header.
const SPEECH: [u8; 18] = [
    0x04, 1, 2, 3, 4, 5, 6, 7, 8, 9, 10, 11, 12, 13, 14, 15, 16, 0xf0,
];

const SEND_AND_POP: [Step; 4] = [
    Step::Send {
        sample: 0,
        mtu: 1_200,
    },
    Step::Push(0),
    Step::Pop,
    Step::Pop,
];

/// The frame comes back in either layout of AMR-WB: sender and receiver both know the layout.
#[test]
fn amr_wb_in_either_layout() -> Result<(), Fail> {
    for octet_align in [false, true] {
        let run = run_of(Codec::AmrWb, octet_align, &SPEECH, &SEND_AND_POP)?;
        let run = run.ok_or("no packetizer")?;
        let counts = counts_of(&run, "a refused sample")?;
        assert_same("packets of the sample", &counts.as_slice(), &[1].as_slice());
        let numbers = numbers_of(&run)?;
        assert_same("pops", &numbers.as_slice(), &[Some(7), None].as_slice());
        assert_bytes("the frame", first_unit(&run)?, &SPEECH);
    }
    Ok(())
}

/// Codecs that wrap others, and those that are not built in, have no packetizer.
#[test]
fn no_packetizer() -> Result<(), Fail> {
    for codec in [Codec::Red, Codec::Rtx, Codec::H264, Codec::Unknown] {
        let run = run_of(codec, false, &[1], &[Step::Pop])?;
        assert_holds("codecs without a packetizer", run.is_none());
    }
    Ok(())
}
