//! Temporal units, and which begin a coded video sequence.

use crate::Fail;
use crate::asserts::assert_same;
use crate::tables::filled;
use codec_payload::media::av1::temporal_unit::Av1TemporalUnit;
use codec_payload::media::vpx::error::MediaError;
use codec_payload::memory::AllocError;

/// OBUs of a temporal unit behind its delimiter, and whether a coded video sequence begins with it.
struct UnitRow {
    name: &'static str,
    obus: &'static [u8],
    begins: Result<bool, MediaError>,
}

/// Each OBU is a header, a size and that many bytes: 0a begins a sequence header, 32 a frame, 1a a frame header, and 2a
/// metadata.
static UNITS: [UnitRow; 9] = [
    UnitRow {
        name: "unit-cut-header-fault",
        obus: &[0x0a, 0x02, 0x00, 0x00, 0x32, 0x01, 0x10],
        begins: Err(MediaError::MissingBytes),
    },
    UnitRow {
        name: "unit-short-header-and-frame",
        // The header of 2 by 1 pixels has a 4:2:0 picture of 8 bits; its frame begins with none of the bits that are read.
        obus: &[0x0a, 0x05, 0x19, 0x40, 0x20, 0x00, 0x00, 0x32, 0x01, 0xff],
        begins: Ok(true),
    },
    UnitRow {
        name: "unit-keyframe-alone",
        obus: &[0x32, 0x01, 0x10],
        begins: Ok(false),
    },
    UnitRow {
        name: "unit-header-behind-the-frame",
        obus: &[0x32, 0x01, 0x10, 0x0a, 0x00],
        begins: Ok(false),
    },
    UnitRow {
        name: "unit-without-frames",
        obus: &[0x2a, 0x01, 0x00],
        begins: Ok(false),
    },
    UnitRow {
        name: "unit-no-bytes-of-a-frame-fault",
        obus: &[0x1a, 0x00],
        begins: Err(MediaError::MissingBytes),
    },
    UnitRow {
        name: "unit-no-size-fault",
        obus: &[0x30, 0x10],
        begins: Err(MediaError::ReservedValue),
    },
    UnitRow {
        name: "unit-fault-behind-the-frame",
        obus: &[0x32, 0x01, 0x10, 0xff],
        begins: Ok(false),
    },
    UnitRow {
        name: "unit-no-obus",
        obus: &[],
        begins: Ok(false),
    },
];

fn assert_unit(row: &UnitRow) -> Result<(), AllocError> {
    let unit = filled(&[0x12, 0x00], 0, 0, row.obus)?;
    let begins = match Av1TemporalUnit::parse(&unit) {
        Ok(unit) => Ok(unit.begins_sequence()),
        Err(fault) => Err(fault),
    };
    assert_same(row.name, &begins, &row.begins);
    Ok(())
}

#[test]
fn av1_units() -> Result<(), Fail> {
    for row in UNITS.iter() {
        assert_unit(row)?;
    }
    Ok(())
}

/// The first payload byte of a frame behind libaom's sequence header: which of all bytes begin a sequence with it.
#[test]
fn av1_each_frame_byte() -> Result<(), Fail> {
    for byte in 0..=255u8 {
        let unit = [
            0x12, 0x00, 0x0a, 0x0a, 0x00, 0x00, 0x00, 0x02, 0xaf, 0xf7, 0x9b, 0x5f, 0x20, 0x08,
            0x32, 0x01, byte,
        ];
        let told = Av1TemporalUnit::parse(&unit).ok().ok_or("a unit")?;
        // show_existing_frame 0, frame_type 0, show_frame 1.
        assert_same(
            "av1-each-frame-byte",
            &told.begins_sequence(),
            &(byte / 16 == 1),
        );
    }
    Ok(())
}
