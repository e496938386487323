//! The keyframe gate over units of VP8, VP9 and AV1.

use codec_payload::keyframes::{KeyframeGate, UnitReferences, is_keyframe};
use codec_payload::{Codec, CodecExtra};

/// Frame headers of VP8 (RFC 6386, section 9.1): bit 0 of the first byte is 0 for a keyframe, which goes on with a start code and
/// its size.
const VP8_KEY: &[u8] = &[0x10, 0, 0, 0x9D, 0x01, 0x2A, 0x10, 0, 0x10, 0];
const VP8_DELTA: &[u8] = &[0x11, 0, 0];

/// A unit of which nothing is known beside its bytes and whether it is contiguous.
fn release(gate: &mut KeyframeGate, unit: &[u8], contiguous: bool) -> bool {
    gate.release(unit, contiguous, &CodecExtra::None, &UnitReferences::none())
}

#[test]
fn a_keyframe_is_told_by_its_bits() {
    assert!(is_keyframe(Codec::Vp8, VP8_KEY));
    assert!(!is_keyframe(Codec::Vp8, VP8_DELTA));
    assert!(!is_keyframe(Codec::Vp8, &[]), "malformed");
    assert!(!is_keyframe(Codec::Opus, VP8_KEY), "audio");
    // VP9, version 0.6 of the bitstream, section 6.2: frame_marker 2, profile 0, show_existing_frame 0, frame_type 0, show_frame 1.
    let key = [0x82, 0x49, 0x83, 0x42, 0, 0, 0xF0, 0, 0xF0, 0];
    assert!(is_keyframe(Codec::Vp9, &key));
    assert!(!is_keyframe(Codec::Vp9, &[0x86, 0, 0, 0]));
}

#[test]
fn delta_frames_after_a_gap_wait_for_a_keyframe() {
    let mut gate = KeyframeGate::new(Codec::Vp8);
    assert!(!gate.wants_keyframe(), "nothing was released yet");
    assert!(!release(&mut gate, VP8_DELTA, true), "no keyframe came yet");
    assert!(gate.wants_keyframe());
    assert!(release(&mut gate, VP8_KEY, false));
    assert!(!gate.wants_keyframe());
    assert!(release(&mut gate, VP8_DELTA, true));
    assert!(!release(&mut gate, VP8_DELTA, false), "a gap");
    assert!(
        !release(&mut gate, VP8_DELTA, true),
        "contiguous, after a unit that cannot be shown"
    );
    assert!(gate.wants_keyframe());
    assert!(release(&mut gate, VP8_KEY, true));
    assert!(!gate.wants_keyframe());
}

#[test]
fn a_lost_unit_and_skipped_units_want_a_keyframe() {
    let mut gate = KeyframeGate::new(Codec::Vp8);
    assert!(release(&mut gate, VP8_KEY, true));
    gate.skip();
    assert!(gate.wants_keyframe());
    assert!(
        release(&mut gate, VP8_DELTA, true),
        "by its picture ids it follows"
    );
    assert!(gate.wants_keyframe(), "only a keyframe ends it");
    assert!(release(&mut gate, VP8_KEY, true));
    gate.lose();
    assert!(gate.wants_keyframe());
    assert!(!gate.shows_last());
    assert!(!release(&mut gate, VP8_DELTA, true));
}

#[test]
fn audio_needs_no_keyframe() {
    let mut gate = KeyframeGate::new(Codec::Opus);
    gate.lose();
    gate.skip();
    assert!(release(&mut gate, &[0x78], false));
    assert!(!gate.wants_keyframe());
}
