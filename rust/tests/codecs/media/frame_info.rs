//! What a frame of each codec says.

use crate::asserts::assert_same;
use codec_payload::media::frame_info::{FrameInfo, PictureSize, frame_info};
use codec_payload::media::vpx::error::MediaError;
use codec_payload::wire::Codec;

/// Whether a frame is a keyframe, its size, and its ticks.
type Info = (Option<bool>, Option<(u32, u32)>, Option<u64>);

/// What a frame of a codec says.
struct InfoRow {
    name: &'static str,
    codec: Codec,
    bytes: &'static [u8],
    found: Result<Info, MediaError>,
}

/// The bytes are a frame, or as much of one as is read.
static INFOS: [InfoRow; 10] = [
    InfoRow {
        name: "info-vp8",
        codec: Codec::Vp8,
        bytes: &[0x10, 0x00, 0x00, 0x9d, 0x01, 0x2a, 0x40, 0x00, 0x30, 0x00],
        found: Ok((Some(true), Some((64, 48)), None)),
    },
    InfoRow {
        name: "info-vp9",
        codec: Codec::Vp9,
        bytes: &[0x82, 0x49, 0x83, 0x42, 0x00, 0x03, 0xf0, 0x02, 0xf6],
        found: Ok((Some(true), Some((64, 48)), None)),
    },
    InfoRow {
        name: "info-vp9-existing-is-no-keyframe",
        codec: Codec::Vp9,
        bytes: &[0x88],
        found: Ok((Some(false), None, None)),
    },
    InfoRow {
        name: "info-av1",
        codec: Codec::Av1,
        bytes: &[
            0x12, 0x00, 0x0a, 0x0a, 0x00, 0x00, 0x00, 0x02, 0xaf, 0xf7, 0x9b, 0x5f, 0x20, 0x08,
            0x32, 0x01, 0x10,
        ],
        found: Ok((Some(true), Some((64, 48)), None)),
    },
    InfoRow {
        name: "info-av1-existing-is-no-keyframe",
        codec: Codec::Av1,
        bytes: &[0x12, 0x00, 0x1a, 0x01, 0x80],
        found: Ok((Some(false), None, None)),
    },
    InfoRow {
        name: "info-opus",
        codec: Codec::Opus,
        bytes: &[0x78, 0x81],
        found: Ok((None, None, Some(960))),
    },
    InfoRow {
        name: "info-g722-20-ms",
        codec: Codec::G722,
        bytes: &[0; 160],
        found: Ok((None, None, Some(160))),
    },
    InfoRow {
        name: "info-amr-wb",
        codec: Codec::AmrWb,
        bytes: &[0x7c, 0x7c],
        found: Ok((None, None, Some(640))),
    },
    InfoRow {
        name: "info-opus-fault",
        codec: Codec::Opus,
        bytes: &[],
        found: Err(MediaError::MissingBytes),
    },
    InfoRow {
        name: "info-h264-tells-nothing",
        codec: Codec::H264,
        bytes: &[0x65],
        found: Ok((None, None, None)),
    },
];

fn assert_info(row: &InfoRow) {
    let wanted = match row.found {
        Ok((keyframe, size, duration)) => Ok(FrameInfo {
            keyframe,
            size: size.map(|(width, height)| PictureSize { width, height }),
            duration,
        }),
        Err(fault) => Err(fault),
    };
    assert_same(row.name, &frame_info(row.codec, row.bytes), &wanted);
}

#[test]
fn frame_infos() {
    for row in INFOS.iter() {
        assert_info(row);
    }
}
