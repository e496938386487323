//! Operating points of sequence headers.

use crate::asserts::assert_same;
use codec_payload::media::av1::operating_points::operating_point;
use codec_payload::media::av1::sequence_header::Av1OperatingPoint;
use codec_payload::media::vpx::error::MediaError;

/// An operating point of a sequence header's payload: which layers, the level, and whether the tier is High.
struct PointRow {
    name: &'static str,
    payload: &'static [u8],
    index: u8,
    found: Result<Option<(u16, u8, bool)>, MediaError>,
}

/// Two temporal layers, one of them at a level that has a tier bit.
const LAYERS: &[u8] = &[0x00, 0x11, 0x03, 0x20, 0x80, 0xa2];

static POINTS: [PointRow; 6] = [
    PointRow {
        name: "point-first",
        payload: LAYERS,
        index: 0,
        found: Ok(Some((0x103, 4, false))),
    },
    PointRow {
        name: "point-second-of-high-tier",
        payload: LAYERS,
        index: 1,
        found: Ok(Some((0x101, 8, true))),
    },
    PointRow {
        name: "point-behind-the-last",
        payload: LAYERS,
        index: 2,
        found: Ok(None),
    },
    PointRow {
        name: "point-cut-fault",
        payload: &[0x00, 0x11, 0x03, 0x20, 0x80],
        index: 1,
        found: Err(MediaError::MissingBytes),
    },
    PointRow {
        name: "point-of-a-short-header",
        payload: &[0x19, 0x40],
        index: 0,
        found: Ok(Some((0, 5, false))),
    },
    PointRow {
        name: "point-short-header-has-one",
        payload: &[0x19, 0x40],
        index: 1,
        found: Ok(None),
    },
];

fn assert_point(row: &PointRow) {
    let wanted = match row.found {
        Ok(Some((idc, level, high_tier))) => Ok(Some(Av1OperatingPoint {
            idc,
            level,
            high_tier,
        })),
        Ok(None) => Ok(None),
        Err(fault) => Err(fault),
    };
    assert_same(row.name, &operating_point(row.payload, row.index), &wanted);
}

#[test]
fn av1_operating_points() {
    for row in POINTS.iter() {
        assert_point(row);
    }
}
