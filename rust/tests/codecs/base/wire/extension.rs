//! Values of header extensions, and layers allocations.

use crate::Fail;
use crate::asserts::{assert_bytes, assert_other, assert_same};
use codec_payload::wire::{AbsCaptureTime, ExtensionValues, VideoLayersAllocation, VideoTiming};

/// The bytes of a layers allocation.
const SEVENS: [u8; 256] = [7; 256];

/// A layers allocation of these bytes.
fn allocation(bytes: &[u8]) -> Option<VideoLayersAllocation> {
    VideoLayersAllocation::new(bytes)
}

#[test]
fn layers_allocation_255_bytes() -> Result<(), Fail> {
    assert!(allocation(&SEVENS).is_none());
    let longest = allocation(&SEVENS[..255]).ok_or("255 bytes")?;
    assert_bytes("the longest", longest.bytes(), &SEVENS[..255]);
    let empty = allocation(&[]).ok_or("no bytes")?;
    assert_bytes("the shortest", empty.bytes(), &[]);
    Ok(())
}

#[test]
fn layers_allocations_are_their_bytes() {
    let two = allocation(&[1, 0]);
    assert!(two.is_some());
    assert_same("the same", &two, &allocation(&[1, 0]));
    assert_other("a shorter one", &two, &allocation(&[1]));
    assert_other("another one", &two, &allocation(&[1, 2]));
}

#[test]
fn extension_values_differ_in_each_field() {
    let none = ExtensionValues::default();
    let timing = VideoTiming {
        flags: 1,
        encode_start: 2,
        encode_finish: 3,
        packetize_complete: 4,
        last_left_pacer: 5,
        network_1: 6,
        network_2: 7,
    };
    let captured = AbsCaptureTime {
        capture_time: 1,
        clock_offset: Some(-1),
    };
    let mut captured_only = none;
    captured_only.abs_capture_time = Some(captured);
    let mut turned_only = none;
    turned_only.video_orientation = Some(0);
    let mut screen_only = none;
    screen_only.video_content_type = Some(0);
    let mut timed_only = none;
    timed_only.video_timing = Some(timing);
    let mut layers_only = none;
    layers_only.layers_allocation = VideoLayersAllocation::new(&[]);
    let mut level_only = none;
    level_only.audio_level = Some(0);
    let mut voice_only = none;
    voice_only.voice_activity = Some(false);
    for some in [
        captured_only,
        turned_only,
        screen_only,
        timed_only,
        layers_only,
        level_only,
        voice_only,
    ] {
        assert!(some != none);
        assert!(some == some);
    }
}
