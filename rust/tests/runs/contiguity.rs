//! The table of contiguity, in a worked example.

use crate::Fail;
use codec_payload::codec::Vp9CodecExtra;
use codec_payload::contiguity::Vp9Contiguity;

fn vp9(id: u64, layer: u8, base: u64, is_keyframe: bool) -> Vp9CodecExtra {
    Vp9CodecExtra {
        picture_id: Some(id),
        tid: Some(layer),
        tl0_picture_id: Some(base),
        is_keyframe,
        ..Vp9CodecExtra::default()
    }
}

#[test]
fn vp9_contiguity_three_keyframes() -> Result<(), Fail> {
    let mut contiguity = Vp9Contiguity::new();
    let frames = [
        (vp9(40, 0, 40, true), (true, true)),
        (vp9(1, 0, 1, true), (true, false)),
        (vp9(1, 0, 1, true), (true, false)),
        (vp9(2, 0, 2, false), (true, true)),
    ];
    for (place, (extra, answer)) in frames.iter().enumerate() {
        assert_eq!(contiguity.check(extra, true), *answer, "at frame {place}");
    }
    Ok(())
}
