//! Headers of VP9 frames.

mod superframe;

use crate::asserts::assert_same;
use codec_payload::media::vpx::error::MediaError;
use codec_payload::media::vpx::vp9::{Vp9Color, Vp9FrameHeader, Vp9Picture};

/// A VP9 frame as far as its header is read.
struct Vp9Row {
    name: &'static str,
    header: &'static [u8],
    found: Result<Vp9Told, MediaError>,
}

/// The facts of a VP9 frame that is neither error resilient nor intra-only.
#[derive(Clone, Copy)]
struct Vp9Told {
    profile: u8,
    existing: Option<u8>,
    keyframe: bool,
    shown: bool,
    /// The bit depth, the subsampling in both directions, the width and the height of a picture in the studio's range.
    picture: Option<(u8, bool, bool, u32, u32)>,
}

/// The picture of a row.
fn picture_of(told: (u8, bool, bool, u32, u32)) -> Vp9Picture {
    let (bit_depth, subsampling_x, subsampling_y, width, height) = told;
    Vp9Picture {
        color: Vp9Color {
            bit_depth,
            color_space: 0,
            full_range: false,
            subsampling_x,
            subsampling_y,
        },
        width,
        height,
        render_width: width,
        render_height: height,
    }
}

/// The header of a row.
fn header_of(told: Vp9Told) -> Vp9FrameHeader {
    Vp9FrameHeader {
        profile: told.profile,
        existing: told.existing,
        keyframe: told.keyframe,
        shown: told.shown,
        error_resilient: false,
        intra_only: false,
        picture: told.picture.map(picture_of),
    }
}

/// A header is the frame marker, the profile and the kind, and, of a keyframe, the sync code 49 83 42, the color and the size
/// (VP9 Bitstream Specification, section 6.2).
static VP9: [Vp9Row; 12] = [
    Vp9Row {
        name: "vp9-keyframe-64x48",
        header: &[0x82, 0x49, 0x83, 0x42, 0x00, 0x03, 0xf0, 0x02, 0xf6],
        found: Ok(Vp9Told {
            profile: 0,
            existing: None,
            keyframe: true,
            shown: true,
            picture: Some((8, true, true, 64, 48)),
        }),
    },
    Vp9Row {
        name: "vp9-keyframe-175x143",
        header: &[0x82, 0x49, 0x83, 0x42, 0x00, 0x0a, 0xe0, 0x08, 0xe6],
        found: Ok(Vp9Told {
            profile: 0,
            existing: None,
            keyframe: true,
            shown: true,
            picture: Some((8, true, true, 175, 143)),
        }),
    },
    Vp9Row {
        name: "vp9-profile-1-444",
        header: &[0xa2, 0x49, 0x83, 0x42, 0x00, 0x00, 0x7e, 0x00, 0x7e],
        found: Ok(Vp9Told {
            profile: 1,
            existing: None,
            keyframe: true,
            shown: true,
            picture: Some((8, false, false, 64, 64)),
        }),
    },
    Vp9Row {
        name: "vp9-profile-2-10-bits",
        header: &[0x92, 0x49, 0x83, 0x42, 0x00, 0x01, 0xf8, 0x01, 0xfb],
        found: Ok(Vp9Told {
            profile: 2,
            existing: None,
            keyframe: true,
            shown: true,
            picture: Some((10, true, true, 64, 64)),
        }),
    },
    Vp9Row {
        name: "vp9-profile-3-422-10-bits",
        header: &[0xb1, 0x24, 0xc1, 0xa1, 0x02, 0x00, 0x1f, 0x80, 0x1f, 0xb0],
        found: Ok(Vp9Told {
            profile: 3,
            existing: None,
            keyframe: true,
            shown: true,
            picture: Some((10, true, false, 64, 64)),
        }),
    },
    Vp9Row {
        name: "vp9-interframe",
        header: &[0x86, 0x00],
        found: Ok(Vp9Told {
            profile: 0,
            existing: None,
            keyframe: false,
            shown: true,
            picture: None,
        }),
    },
    Vp9Row {
        name: "vp9-hidden-interframe",
        header: &[0x84, 0x00],
        found: Ok(Vp9Told {
            profile: 0,
            existing: None,
            keyframe: false,
            shown: false,
            picture: None,
        }),
    },
    Vp9Row {
        name: "vp9-shows-existing-frame",
        // 10 0 0 1 101
        header: &[0x8d],
        found: Ok(Vp9Told {
            profile: 0,
            existing: Some(5),
            keyframe: false,
            shown: true,
            picture: None,
        }),
    },
    Vp9Row {
        name: "vp9-sync-code-fault",
        header: &[0x82, 0x49, 0x83, 0x43, 0x00, 0x03, 0xf0, 0x02, 0xf6],
        found: Err(MediaError::WrongMarker),
    },
    Vp9Row {
        name: "vp9-marker-fault",
        header: &[0x42],
        found: Err(MediaError::WrongMarker),
    },
    Vp9Row {
        name: "vp9-profile-4-fault",
        header: &[0xb8],
        found: Err(MediaError::ReservedValue),
    },
    Vp9Row {
        name: "vp9-rgb-in-profile-0-fault",
        header: &[0x82, 0x49, 0x83, 0x42, 0xe0, 0x03, 0xf0, 0x02, 0xf6],
        found: Err(MediaError::ReservedValue),
    },
];

/// The header is read so, and each beginning of one that is read lacks bytes.
fn assert_vp9(row: &Vp9Row) {
    let wanted = match row.found {
        Ok(told) => Ok(header_of(told)),
        Err(fault) => Err(fault),
    };
    assert_same(row.name, &Vp9FrameHeader::parse(row.header), &wanted);
    if wanted.is_ok() {
        for length in 0..row.header.len() {
            let cut = Vp9FrameHeader::parse(&row.header[..length]);
            assert_same(row.name, &cut, &Err(MediaError::MissingBytes));
        }
    }
}

#[test]
fn vp9_frames() {
    for row in VP9.iter() {
        assert_vp9(row);
    }
}

/// A byte alone is a header where it shows an existing frame, or begins a resilient interframe that is shown, in the profiles 0
/// to 2.
#[test]
fn vp9_each_byte_alone() {
    for byte in 0..=255u8 {
        let fault = Vp9FrameHeader::parse(&[byte]).err();
        let wanted = if byte / 64 != 2 {
            Some(MediaError::WrongMarker)
        } else if byte / 8 == 0b10111 {
            Some(MediaError::ReservedValue)
        } else if byte / 16 != 0b1011 && (byte / 8 % 2 == 1 || byte % 8 == 7) {
            None
        } else {
            Some(MediaError::MissingBytes)
        };
        assert_same("vp9-each-byte", &fault, &wanted);
    }
}
