//! The descriptor of RFC 9628, section 4.2, under all flag bytes, cut off at each byte.

use crate::Fail;
use crate::asserts::{assert_bytes, assert_same};
use crate::tables::{Received, assert_out, assert_parts, receive};
use codec_payload::error::PacketError;
use codec_payload::interface::CodecExtra;
use codec_payload::memory::{AllocError, TryVec};
use codec_payload::vp9::{Vp9CodecExtra, Vp9Depacketizer, detect_vp9_keyframe};

/// What follows flags of which B, E and Z are clear, and what RFC 9628 says of it.
struct Layout {
    /// The flags that are set.
    name: &'static str,
    flags: u8,
    /// The descriptor behind its first byte.
    tail: &'static [u8],
    picture_id: Option<u16>,
    /// Whether TID 2, U 1, SID 1 and D 1 are there.
    layer: bool,
    tl0picidx: Option<u8>,
    /// The values of P_DIFF.
    differences: [u8; 3],
    /// Whether a structure of two layers, of 320 times 240 and 640 times 480, is there, with two pictures in a group:
    /// one of T 0, U 0 with a difference of 1, and one of T 2, U 1 with none.
    structure: bool,
}

/// All combinations of I, P, L, F and V: in order the picture id (I), TID U SID D and without F TL0PICIDX (L), differences
/// (F and P), and the scalability structure (V).
const LAYOUTS: [Layout; 32] = [
    Layout {
        name: "no flags",
        flags: 0x00,
        tail: &[],
        picture_id: None,
        layer: false,
        tl0picidx: None,
        differences: [0, 0, 0],
        structure: false,
    },
    Layout {
        name: "V",
        flags: 0x02,
        tail: &[
            0x38, 0x01, 0x40, 0x00, 0xf0, 0x02, 0x80, 0x01, 0xe0, 0x02, 0x04, 0x01, 0x50,
        ],
        picture_id: None,
        layer: false,
        tl0picidx: None,
        differences: [0, 0, 0],
        structure: true,
    },
    Layout {
        name: "F",
        flags: 0x10,
        tail: &[],
        picture_id: None,
        layer: false,
        tl0picidx: None,
        differences: [0, 0, 0],
        structure: false,
    },
    Layout {
        name: "F V",
        flags: 0x12,
        tail: &[
            0x38, 0x01, 0x40, 0x00, 0xf0, 0x02, 0x80, 0x01, 0xe0, 0x02, 0x04, 0x01, 0x50,
        ],
        picture_id: None,
        layer: false,
        tl0picidx: None,
        differences: [0, 0, 0],
        structure: true,
    },
    Layout {
        name: "L",
        flags: 0x20,
        tail: &[0x53, 0x33],
        picture_id: None,
        layer: true,
        tl0picidx: Some(0x33),
        differences: [0, 0, 0],
        structure: false,
    },
    Layout {
        name: "L V",
        flags: 0x22,
        tail: &[
            0x53, 0x33, 0x38, 0x01, 0x40, 0x00, 0xf0, 0x02, 0x80, 0x01, 0xe0, 0x02, 0x04, 0x01,
            0x50,
        ],
        picture_id: None,
        layer: true,
        tl0picidx: Some(0x33),
        differences: [0, 0, 0],
        structure: true,
    },
    Layout {
        name: "L F",
        flags: 0x30,
        tail: &[0x53],
        picture_id: None,
        layer: true,
        tl0picidx: None,
        differences: [0, 0, 0],
        structure: false,
    },
    Layout {
        name: "L F V",
        flags: 0x32,
        tail: &[
            0x53, 0x38, 0x01, 0x40, 0x00, 0xf0, 0x02, 0x80, 0x01, 0xe0, 0x02, 0x04, 0x01, 0x50,
        ],
        picture_id: None,
        layer: true,
        tl0picidx: None,
        differences: [0, 0, 0],
        structure: true,
    },
    Layout {
        name: "P",
        flags: 0x40,
        tail: &[],
        picture_id: None,
        layer: false,
        tl0picidx: None,
        differences: [0, 0, 0],
        structure: false,
    },
    Layout {
        name: "P V",
        flags: 0x42,
        tail: &[
            0x38, 0x01, 0x40, 0x00, 0xf0, 0x02, 0x80, 0x01, 0xe0, 0x02, 0x04, 0x01, 0x50,
        ],
        picture_id: None,
        layer: false,
        tl0picidx: None,
        differences: [0, 0, 0],
        structure: true,
    },
    Layout {
        name: "P F",
        flags: 0x50,
        tail: &[0x03, 0x04],
        picture_id: None,
        layer: false,
        tl0picidx: None,
        differences: [1, 2, 0],
        structure: false,
    },
    Layout {
        name: "P F V",
        flags: 0x52,
        tail: &[
            0x03, 0x04, 0x38, 0x01, 0x40, 0x00, 0xf0, 0x02, 0x80, 0x01, 0xe0, 0x02, 0x04, 0x01,
            0x50,
        ],
        picture_id: None,
        layer: false,
        tl0picidx: None,
        differences: [1, 2, 0],
        structure: true,
    },
    Layout {
        name: "P L",
        flags: 0x60,
        tail: &[0x53, 0x33],
        picture_id: None,
        layer: true,
        tl0picidx: Some(0x33),
        differences: [0, 0, 0],
        structure: false,
    },
    Layout {
        name: "P L V",
        flags: 0x62,
        tail: &[
            0x53, 0x33, 0x38, 0x01, 0x40, 0x00, 0xf0, 0x02, 0x80, 0x01, 0xe0, 0x02, 0x04, 0x01,
            0x50,
        ],
        picture_id: None,
        layer: true,
        tl0picidx: Some(0x33),
        differences: [0, 0, 0],
        structure: true,
    },
    Layout {
        name: "P L F",
        flags: 0x70,
        tail: &[0x53, 0x03, 0x04],
        picture_id: None,
        layer: true,
        tl0picidx: None,
        differences: [1, 2, 0],
        structure: false,
    },
    Layout {
        name: "P L F V",
        flags: 0x72,
        tail: &[
            0x53, 0x03, 0x04, 0x38, 0x01, 0x40, 0x00, 0xf0, 0x02, 0x80, 0x01, 0xe0, 0x02, 0x04,
            0x01, 0x50,
        ],
        picture_id: None,
        layer: true,
        tl0picidx: None,
        differences: [1, 2, 0],
        structure: true,
    },
    Layout {
        name: "I",
        flags: 0x80,
        tail: &[0x11],
        picture_id: Some(0x11),
        layer: false,
        tl0picidx: None,
        differences: [0, 0, 0],
        structure: false,
    },
    Layout {
        name: "I V",
        flags: 0x82,
        tail: &[
            0x11, 0x38, 0x01, 0x40, 0x00, 0xf0, 0x02, 0x80, 0x01, 0xe0, 0x02, 0x04, 0x01, 0x50,
        ],
        picture_id: Some(0x11),
        layer: false,
        tl0picidx: None,
        differences: [0, 0, 0],
        structure: true,
    },
    Layout {
        name: "I F",
        flags: 0x90,
        tail: &[0x11],
        picture_id: Some(0x11),
        layer: false,
        tl0picidx: None,
        differences: [0, 0, 0],
        structure: false,
    },
    Layout {
        name: "I F V",
        flags: 0x92,
        tail: &[
            0x11, 0x38, 0x01, 0x40, 0x00, 0xf0, 0x02, 0x80, 0x01, 0xe0, 0x02, 0x04, 0x01, 0x50,
        ],
        picture_id: Some(0x11),
        layer: false,
        tl0picidx: None,
        differences: [0, 0, 0],
        structure: true,
    },
    Layout {
        name: "I L",
        flags: 0xa0,
        tail: &[0x92, 0x34, 0x53, 0x33],
        picture_id: Some(0x1234),
        layer: true,
        tl0picidx: Some(0x33),
        differences: [0, 0, 0],
        structure: false,
    },
    Layout {
        name: "I L V",
        flags: 0xa2,
        tail: &[
            0x92, 0x34, 0x53, 0x33, 0x38, 0x01, 0x40, 0x00, 0xf0, 0x02, 0x80, 0x01, 0xe0, 0x02,
            0x04, 0x01, 0x50,
        ],
        picture_id: Some(0x1234),
        layer: true,
        tl0picidx: Some(0x33),
        differences: [0, 0, 0],
        structure: true,
    },
    Layout {
        name: "I L F",
        flags: 0xb0,
        tail: &[0x92, 0x34, 0x53],
        picture_id: Some(0x1234),
        layer: true,
        tl0picidx: None,
        differences: [0, 0, 0],
        structure: false,
    },
    Layout {
        name: "I L F V",
        flags: 0xb2,
        tail: &[
            0x92, 0x34, 0x53, 0x38, 0x01, 0x40, 0x00, 0xf0, 0x02, 0x80, 0x01, 0xe0, 0x02, 0x04,
            0x01, 0x50,
        ],
        picture_id: Some(0x1234),
        layer: true,
        tl0picidx: None,
        differences: [0, 0, 0],
        structure: true,
    },
    Layout {
        name: "I P",
        flags: 0xc0,
        tail: &[0x92, 0x34],
        picture_id: Some(0x1234),
        layer: false,
        tl0picidx: None,
        differences: [0, 0, 0],
        structure: false,
    },
    Layout {
        name: "I P V",
        flags: 0xc2,
        tail: &[
            0x92, 0x34, 0x38, 0x01, 0x40, 0x00, 0xf0, 0x02, 0x80, 0x01, 0xe0, 0x02, 0x04, 0x01,
            0x50,
        ],
        picture_id: Some(0x1234),
        layer: false,
        tl0picidx: None,
        differences: [0, 0, 0],
        structure: true,
    },
    Layout {
        name: "I P F",
        flags: 0xd0,
        tail: &[0x92, 0x34, 0x03, 0x04],
        picture_id: Some(0x1234),
        layer: false,
        tl0picidx: None,
        differences: [1, 2, 0],
        structure: false,
    },
    Layout {
        name: "I P F V",
        flags: 0xd2,
        tail: &[
            0x92, 0x34, 0x03, 0x04, 0x38, 0x01, 0x40, 0x00, 0xf0, 0x02, 0x80, 0x01, 0xe0, 0x02,
            0x04, 0x01, 0x50,
        ],
        picture_id: Some(0x1234),
        layer: false,
        tl0picidx: None,
        differences: [1, 2, 0],
        structure: true,
    },
    Layout {
        name: "I P L",
        flags: 0xe0,
        tail: &[0x11, 0x53, 0x33],
        picture_id: Some(0x11),
        layer: true,
        tl0picidx: Some(0x33),
        differences: [0, 0, 0],
        structure: false,
    },
    Layout {
        name: "I P L V",
        flags: 0xe2,
        tail: &[
            0x11, 0x53, 0x33, 0x38, 0x01, 0x40, 0x00, 0xf0, 0x02, 0x80, 0x01, 0xe0, 0x02, 0x04,
            0x01, 0x50,
        ],
        picture_id: Some(0x11),
        layer: true,
        tl0picidx: Some(0x33),
        differences: [0, 0, 0],
        structure: true,
    },
    Layout {
        name: "I P L F",
        flags: 0xf0,
        tail: &[0x11, 0x53, 0x03, 0x04],
        picture_id: Some(0x11),
        layer: true,
        tl0picidx: None,
        differences: [1, 2, 0],
        structure: false,
    },
    Layout {
        name: "I P L F V",
        flags: 0xf2,
        tail: &[
            0x11, 0x53, 0x03, 0x04, 0x38, 0x01, 0x40, 0x00, 0xf0, 0x02, 0x80, 0x01, 0xe0, 0x02,
            0x04, 0x01, 0x50,
        ],
        picture_id: Some(0x11),
        layer: true,
        tl0picidx: None,
        differences: [1, 2, 0],
        structure: true,
    },
];

/// The extra of a payload whose flags have B or not, with `end` bytes so far.
fn told(layout: &Layout, begins: bool, end: usize) -> Vp9CodecExtra {
    let layer = layout.layer;
    let structure = layout.structure;
    Vp9CodecExtra {
        layers_scheme: [None, if layer { Some(end) } else { None }, None],
        tid: if layer { Some(2) } else { None },
        layers_widths: if structure {
            [Some(320), Some(640), None]
        } else {
            [None; 3]
        },
        layers_heights: if structure {
            [Some(240), Some(480), None]
        } else {
            [None; 3]
        },
        tl0_picture_id: layout.tl0picidx.map(u64::from),
        picture_id: layout.picture_id.map(u64::from),
        is_keyframe: layout.flags & 0x40 == 0 && begins && !layer,
    }
}

/// I, U and D after a payload that was taken.
fn assert_flags(name: &str, depacketizer: &Vp9Depacketizer, layout: &Layout) {
    let found = [depacketizer.i, depacketizer.u, depacketizer.d];
    let wanted = [layout.picture_id.is_some(), layout.layer, layout.layer];
    assert_same(name, &found, &wanted);
}

/// The picture id, SID, TL0PICIDX, N_S and the values of P_DIFF after a payload that was taken.
fn assert_numbers(name: &str, depacketizer: &Vp9Depacketizer, layout: &Layout) {
    let picture_id = layout.picture_id.unwrap_or(0);
    assert_same(name, &depacketizer.picture_id, &picture_id);
    let found = [depacketizer.sid, depacketizer.tl0picidx, depacketizer.ns];
    let wanted = [
        u8::from(layout.layer),
        layout.tl0picidx.unwrap_or(0),
        u8::from(layout.structure),
    ];
    assert_same(name, &found, &wanted);
    assert_same(name, &depacketizer.pdiff, &layout.differences);
}

/// The groups of pictures after a payload that was taken.
fn assert_groups(name: &str, depacketizer: &Vp9Depacketizer, structure: bool) {
    if !structure {
        assert_bytes(name, &depacketizer.pgtid, &[]);
        return;
    }
    assert_same(name, &depacketizer.ng, &2);
    assert_bytes(name, &depacketizer.pgtid, &[0, 2]);
    assert_same(
        name,
        &depacketizer.pgu.as_slice(),
        &[false, true].as_slice(),
    );
    assert_parts(name, &depacketizer.pgpdiff, &[&[1], &[]]);
}

/// The result of an accepted payload with these flags, with the bytes so far.
fn assert_told(
    name: &str,
    received: &Received,
    depacketizer: &Vp9Depacketizer,
    layout: &Layout,
    flags: u8,
) {
    let told = told(layout, flags & 0x08 != 0, received.out.len());
    assert_same(name, &received.extra, &CodecExtra::Vp9(told));
    assert_flags(name, depacketizer, layout);
    assert_numbers(name, depacketizer, layout);
    assert_groups(name, depacketizer, layout.structure);
}

/// A payload under these flags, or a beginning of one: too short within the descriptor, and else taken.
fn cut(name: &str, payload: &[u8], layout: &Layout, flags: u8) -> Result<(), AllocError> {
    let refers = !payload.is_empty() && layout.flags & 0x40 == 0;
    assert_same(name, &detect_vp9_keyframe(payload), &refers);
    let mut depacketizer = Vp9Depacketizer::new();
    let received = receive(&mut depacketizer, payload)?;
    match payload.get(layout.tail.len() + 1..) {
        Some(rest) => {
            assert_same(name, &received.answer, &Ok(()));
            assert_same(name, &received.out.get(1..), &Some(rest));
            assert_told(name, &received, &depacketizer, layout, flags);
        }
        None => assert_out(name, &received, &Err(PacketError::ErrShortPacket)),
    }
    Ok(())
}

/// A payload under these flags, with two bytes behind its descriptor.
fn payload_of(layout: &Layout, flags: u8) -> Result<Vec<u8>, AllocError> {
    let mut payload = Vec::try_from_slice(&[flags])?;
    payload.try_extend(layout.tail)?;
    payload.try_extend(&[0xaa, 0xbb])?;
    Ok(payload)
}

/// A payload under these flags through each of its beginnings.
fn cut_off(layout: &Layout, flags: u8) -> Result<(), AllocError> {
    let name = format!("{}, flags {flags}", layout.name);
    let payload = payload_of(layout, flags)?;
    for len in 0..=payload.len() {
        let (beginning, _) = payload.split_at(len);
        cut(&name, beginning, layout, flags)?;
    }
    Ok(())
}

#[test]
fn every_flag_byte_cut_off_at_each_byte() -> Result<(), Fail> {
    for layout in &LAYOUTS {
        for bez in [0x00, 0x01, 0x04, 0x05, 0x08, 0x09, 0x0c, 0x0d] {
            cut_off(layout, layout.flags | bez)?;
        }
    }
    Ok(())
}
