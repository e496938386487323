//! Which frames and payloads are taken for keyframes.

use crate::Fail;
use crate::asserts::assert_bytes;
use crate::tables::{Unit, packetize};
use codec_payload::error::PacketError;
use codec_payload::interface::CodecExtra;
use codec_payload::vp9::{
    Vp9Depacketizer, Vp9Packetizer, detect_vp9_keyframe, detect_vp9_keyframe_bitstream,
};

/// Whether a frame that is sent in one packet comes back as a keyframe.
fn comes_back_as_keyframe(frame: &[u8]) -> Result<bool, PacketError> {
    let mut unit = Unit::new(Vp9Depacketizer::new());
    for payload in packetize(&mut Vp9Packetizer::default(), 1_200, frame)? {
        unit.take(&payload)?;
    }
    assert_bytes("a frame that comes back", &unit.out, frame);
    Ok(matches!(unit.extra, CodecExtra::Vp9(told) if told.is_keyframe))
}

/// A shown keyframe of profile 2 has no reserved bit before the bits that say so.
#[test]
fn vp9_profile_2_keyframe() -> Result<(), Fail> {
    let key = [0x92, 0x49, 0x83, 0x42, 0x00];
    assert!(comes_back_as_keyframe(&key)?);
    let inter = [0x96, 0x49, 0x83, 0x42, 0x00];
    assert!(!comes_back_as_keyframe(&inter)?);
    Ok(())
}

/// The first bytes of frames of the four profiles: shown again, and the kind, behind the reserved bit of profile 3.
#[test]
fn vp9_keyframes_of_each_profile() {
    for byte in [0x80, 0x83, 0x90, 0x92, 0xa0, 0xa2, 0xb0, 0xb1] {
        assert!(detect_vp9_keyframe_bitstream(&[byte]), "of {byte}");
    }
    for byte in [
        0x84, 0x88, 0x94, 0x98, 0xa4, 0xa8, 0xb2, 0xb4, 0x00, 0x42, 0xc0, 0xff,
    ] {
        assert!(!detect_vp9_keyframe_bitstream(&[byte]), "of {byte}");
    }
    assert!(!detect_vp9_keyframe_bitstream(&[]));
    assert!(detect_vp9_keyframe(&[0x8c, 0x00]));
    assert!(!detect_vp9_keyframe(&[0xcc, 0x00]));
    assert!(!detect_vp9_keyframe(&[]));
}
