//! Superframes: how long the frames of a unit are.

use crate::Fail;
use crate::asserts::assert_same;
use crate::tables::filled;
use codec_payload::media::vpx::error::MediaError;
use codec_payload::media::vpx::vp9::Vp9Frames;
use codec_payload::memory::{AllocError, TryVec};

/// How long the frames of a unit are.
struct Superframe {
    name: &'static str,
    /// The number of bytes of frames before the index.
    frames: usize,
    index: &'static [u8],
    lengths: Result<&'static [usize], MediaError>,
}

/// An index is its marker, the lengths of the frames, in as many bytes each as the marker says, and the marker again.
static SUPERFRAMES: [Superframe; 6] = [
    Superframe {
        name: "superframe-of-1544",
        frames: 1538,
        index: &[0xc9, 0xa9, 0x05, 0x59, 0x00, 0xc9],
        lengths: Ok(&[1449, 89]),
    },
    Superframe {
        name: "superframe-of-813",
        frames: 807,
        index: &[0xc9, 0xee, 0x02, 0x39, 0x00, 0xc9],
        lengths: Ok(&[750, 57]),
    },
    Superframe {
        name: "superframe-one-byte-sizes",
        frames: 6,
        index: &[0xc2, 1, 2, 3, 0xc2],
        lengths: Ok(&[1, 2, 3]),
    },
    Superframe {
        name: "superframe-marker-at-one-end",
        frames: 6,
        index: &[0xc1, 1, 2, 3, 0xc2],
        lengths: Ok(&[11]),
    },
    Superframe {
        name: "superframe-passes-end-fault",
        frames: 5,
        index: &[0xc2, 1, 2, 3, 0xc2],
        lengths: Err(MediaError::SizesDoNotFit),
    },
    Superframe {
        name: "superframe-of-nothing-fault",
        frames: 0,
        index: &[],
        lengths: Err(MediaError::MissingBytes),
    },
];

fn assert_superframe(row: &Superframe) -> Result<(), AllocError> {
    let unit = filled(&[], 0x86, row.frames, row.index)?;
    let mut lengths = Vec::new();
    let frames = match Vp9Frames::parse(&unit) {
        Ok(frames) => frames,
        Err(fault) => {
            assert_same(row.name, &Err(fault), &row.lengths);
            return Ok(());
        }
    };
    for frame in frames {
        lengths.try_push(frame.len())?;
    }
    assert_same(row.name, &Ok(&lengths[..]), &row.lengths);
    Ok(())
}

#[test]
fn vp9_superframes() -> Result<(), Fail> {
    for row in SUPERFRAMES.iter() {
        assert_superframe(row)?;
    }
    Ok(())
}
