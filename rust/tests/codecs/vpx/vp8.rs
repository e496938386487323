//! Headers of VP8 frames.

use crate::Fail;
use crate::asserts::assert_same;
use crate::tables::filled;
use codec_payload::media::vpx::error::MediaError;
use codec_payload::media::vpx::vp8::{Vp8FrameHeader, Vp8Keyframe};
use codec_payload::memory::AllocError;

/// A VP8 frame: its header, and the number of bytes after it.
struct Vp8Row {
    name: &'static str,
    header: &'static [u8],
    behind: usize,
    found: Result<Vp8FrameHeader, MediaError>,
}

/// A header is the frame tag in three bytes and, of a keyframe, the start code 9d 01 2a, the width and the height with their
/// scales (RFC 6386, section 9.1).
static VP8: [Vp8Row; 6] = [
    Vp8Row {
        name: "vp8-keyframe-64x48",
        header: &[0x50, 0x1a, 0x00, 0x9d, 0x01, 0x2a, 0x40, 0x00, 0x30, 0x00],
        behind: 1100,
        found: Ok(Vp8FrameHeader {
            version: 0,
            shown: true,
            first_partition_size: 210,
            keyframe: Some(Vp8Keyframe {
                width: 64,
                horizontal_scale: 0,
                height: 48,
                vertical_scale: 0,
            }),
        }),
    },
    Vp8Row {
        name: "vp8-keyframe-175x143-hidden-scaled",
        // As the encoder wrote it, with the bit that shows it cleared, and scales 1 and 2 set.
        header: &[0x20, 0x42, 0x00, 0x9d, 0x01, 0x2a, 0xaf, 0x40, 0x8f, 0x80],
        behind: 3569,
        found: Ok(Vp8FrameHeader {
            version: 0,
            shown: false,
            first_partition_size: 529,
            keyframe: Some(Vp8Keyframe {
                width: 175,
                horizontal_scale: 1,
                height: 143,
                vertical_scale: 2,
            }),
        }),
    },
    Vp8Row {
        name: "vp8-interframe",
        header: &[0x91, 0x05, 0x00],
        behind: 297,
        found: Ok(Vp8FrameHeader {
            version: 0,
            shown: true,
            first_partition_size: 44,
            keyframe: None,
        }),
    },
    Vp8Row {
        name: "vp8-partition-passes-end-fault",
        header: &[0x91, 0x05, 0x00],
        behind: 43,
        found: Err(MediaError::SizesDoNotFit),
    },
    Vp8Row {
        name: "vp8-start-code-fault",
        header: &[0x50, 0x1a, 0x00, 0x9d, 0x01, 0x2b, 0x40, 0x00, 0x30, 0x00],
        behind: 1100,
        found: Err(MediaError::WrongMarker),
    },
    Vp8Row {
        name: "vp8-keyframe-cut-fault",
        header: &[0x50, 0x1a, 0x00, 0x9d, 0x01, 0x2a, 0x40, 0x00, 0x30],
        behind: 0,
        found: Err(MediaError::MissingBytes),
    },
];

fn assert_vp8(row: &Vp8Row) -> Result<(), AllocError> {
    let frame = filled(row.header, 0, row.behind, &[])?;
    assert_same(row.name, &Vp8FrameHeader::parse(&frame), &row.found);
    Ok(())
}

#[test]
fn vp8_frames() -> Result<(), Fail> {
    for row in VP8.iter() {
        assert_vp8(row)?;
    }
    Ok(())
}
