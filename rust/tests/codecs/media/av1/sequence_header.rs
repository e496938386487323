//! Sequence headers.

use crate::asserts::assert_same;
use codec_payload::media::av1::sequence_header::Av1SequenceHeader;
use codec_payload::media::vpx::error::MediaError;

/// A sequence header OBU's payload, and its fields: the profile, the bit depth, the subsampling in both directions,
/// and the largest width and height.
struct Av1Row {
    name: &'static str,
    payload: &'static [u8],
    found: Result<(u8, u8, bool, bool, u32, u32), MediaError>,
}

/// The bits are those of `sequence_header_obu`, without an OBU header.
static AV1: [Av1Row; 6] = [
    Av1Row {
        name: "av1-64x48",
        payload: &[0x00, 0x00, 0x00, 0x02, 0xaf, 0xf7, 0x9b, 0x5f, 0x20, 0x08],
        found: Ok((0, 8, true, true, 64, 48)),
    },
    Av1Row {
        name: "av1-175x143",
        payload: &[
            0x00, 0x00, 0x00, 0x03, 0xbd, 0x74, 0x71, 0xb5, 0xf2, 0x00, 0x80,
        ],
        found: Ok((0, 8, true, true, 175, 143)),
    },
    Av1Row {
        name: "av1-profile-1-444",
        payload: &[0x20, 0x00, 0x00, 0x02, 0xaf, 0xff, 0x9b, 0x5f, 0x20, 0x40],
        found: Ok((1, 8, false, false, 64, 64)),
    },
    Av1Row {
        name: "av1-10-bits",
        payload: &[0x00, 0x00, 0x00, 0x02, 0xaf, 0xff, 0x9b, 0x5f, 0x28, 0x08],
        found: Ok((0, 10, true, true, 64, 64)),
    },
    Av1Row {
        name: "av1-profile-3-fault",
        payload: &[0x60],
        found: Err(MediaError::ReservedValue),
    },
    Av1Row {
        name: "av1-cut-fault",
        payload: &[0x00, 0x00, 0x00, 0x02, 0xaf, 0xf7, 0x9b, 0x5f, 0x20],
        found: Err(MediaError::MissingBytes),
    },
];

fn assert_av1(row: &Av1Row) {
    let found = match Av1SequenceHeader::parse(row.payload) {
        Ok(h) => Ok((
            h.profile,
            h.color.bit_depth,
            h.color.subsampling_x,
            h.color.subsampling_y,
            h.max_width,
            h.max_height,
        )),
        Err(fault) => Err(fault),
    };
    assert_same(row.name, &found, &row.found);
}

#[test]
fn av1_sequence_headers() {
    for row in AV1.iter() {
        assert_av1(row);
    }
}
