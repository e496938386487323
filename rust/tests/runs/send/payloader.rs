//! The values of header extensions on each packet, and the values of a unit.

use crate::Fail;
use crate::asserts::assert_same;
use crate::library::{Ended, buffer_of, payloader_of, run_steps, sample};
use codec_payload::memory::{AllocError, TryVec};
use codec_payload::payload::MemorySink;
use codec_payload::schedule::{Run, Step};
use codec_payload::wire::{
    AbsCaptureTime, Codec, ExtensionValues, Frequency, VideoLayersAllocation, VideoTiming,
};

const STEPS: [Step; 5] = [
    Step::Send { sample: 0, mtu: 2 },
    Step::Push(2),
    Step::Push(0),
    Step::Push(1),
    Step::Pop,
];

/// The values on each packet of a run.
fn values_of(sink: &MemorySink) -> Result<Vec<ExtensionValues>, AllocError> {
    let mut values = Vec::new();
    for packet in sink.packets() {
        values.try_push(packet.ext_vals)?;
    }
    Ok(values)
}

/// The values of the unit that the last pop gave.
fn values_of_unit(run: &Run) -> Result<ExtensionValues, Fail> {
    match run.pops.last() {
        Some(Some(Ok(unit))) => Ok(unit.ext_vals()),
        _ => Err("no unit".into()),
    }
}

/// Sends a VP8 frame with these values, cut into pieces of one byte, and receives it.
fn send_frame(frame: &[u8], values: ExtensionValues) -> Result<Ended, Fail> {
    let mut payloader = payloader_of(Codec::Vp8, Frequency::EIGHT_KHZ)?;
    let mut buffer = buffer_of(Codec::Vp8)?;
    let mut sent = sample(960, frame)?;
    sent.ext_vals = values;
    let mut samples = Vec::new();
    samples.try_push(sent)?;
    Ok(run_steps(
        &mut payloader,
        &mut buffer,
        &samples,
        &STEPS,
        None,
    )?)
}

/// A frame with these values has those on its packets, and its unit all.
fn assert_values(
    frame: &[u8],
    all: &ExtensionValues,
    on_packets: &[ExtensionValues],
) -> Result<(), Fail> {
    let ended = send_frame(frame, *all)?;
    let values = values_of(&ended.sink)?;
    assert_same("values on packets", &values.as_slice(), &on_packets);
    assert_same("values of the unit", &values_of_unit(&ended.run)?, all);
    Ok(())
}

#[test]
fn vp8_extension_values_stripped() -> Result<(), Fail> {
    let none = ExtensionValues::default();
    let mut captured = none;
    captured.abs_capture_time = Some(AbsCaptureTime {
        capture_time: 0x0123_4567_89ab_cdef,
        clock_offset: None,
    });
    let mut turned = none;
    turned.video_orientation = Some(3);
    let mut both = captured;
    both.video_orientation = Some(3);
    assert_values(&[0x90, 0x90, 0x90], &both, &[captured, none, turned])
}

/// Every value there is.
fn all_values() -> ExtensionValues {
    ExtensionValues {
        abs_capture_time: Some(AbsCaptureTime {
            capture_time: u64::MAX,
            clock_offset: Some(i64::MIN),
        }),
        video_orientation: Some(1),
        video_content_type: Some(1),
        video_timing: Some(VideoTiming {
            flags: 2,
            encode_start: 10,
            encode_finish: 20,
            packetize_complete: 30,
            last_left_pacer: 40,
            network_1: 50,
            network_2: 60,
        }),
        layers_allocation: VideoLayersAllocation::new(&[0x40, 0, 0x0a]),
        audio_level: Some(-127),
        voice_activity: Some(true),
    }
}

#[test]
fn all_values_on_one_packet() -> Result<(), Fail> {
    assert_values(&[0x90], &all_values(), &[all_values()])
}

#[test]
fn all_values_over_three_packets() -> Result<(), Fail> {
    let all = all_values();
    let audio = ExtensionValues {
        audio_level: Some(-127),
        voice_activity: Some(true),
        ..ExtensionValues::default()
    };
    let mut first = audio;
    first.abs_capture_time = all.abs_capture_time;
    first.layers_allocation = all.layers_allocation;
    let mut last = audio;
    last.video_orientation = Some(1);
    last.video_content_type = Some(1);
    last.video_timing = all.video_timing;
    assert_values(&[0x90, 0x90, 0x90], &all, &[first, audio, last])
}
