//! Units that are reassembled, payloads that are refused, and the state after an allocation fails.

use crate::Fail;
use crate::asserts::{assert_bytes, assert_same};
use crate::av1::{PACKETS_OF_TWO, TWO_OBUS_UNIT, unit};
use crate::tables::{assert_received, found};
use codec_payload::av1::{Av1CodecExtra, Av1Depacketizer};
use codec_payload::error::PacketError;
use codec_payload::interface::CodecExtra;

fn told(is_keyframe: bool) -> CodecExtra {
    CodecExtra::Av1(Av1CodecExtra { is_keyframe })
}

/// Packets that a new depacketizer is given, the unit that it puts together, and whether the N bit was set.
struct UnitRow {
    name: &'static str,
    packets: &'static [&'static [u8]],
    unit: &'static [u8],
    is_keyframe: bool,
}

/// Packets as `packetizer` has them; a unit is OBUs with their sizes, without a temporal delimiter.
const UNITS: [UnitRow; 5] = [
    UnitRow {
        name: "av1-two-obus-mtu-1200",
        packets: &[&[0x28, 0x02, 0x08, 0xaa, 0x30, 0xbb, 0xcc]],
        unit: &TWO_OBUS_UNIT,
        is_keyframe: true,
    },
    UnitRow {
        name: "av1-leading-obu-lost",
        packets: &[&[0x50, 0x30, 0xbb], &[0x90, 0xcc]],
        unit: &[0x32, 0x02, 0xbb, 0xcc],
        is_keyframe: false,
    },
    UnitRow {
        name: "av1-shortest-size",
        packets: &[&[0x18, 0x08, 0xaa]],
        unit: &[0x0a, 0x01, 0xaa],
        is_keyframe: true,
    },
    UnitRow {
        name: "av1-mtu-2-five-packets",
        packets: &PACKETS_OF_TWO,
        unit: &TWO_OBUS_UNIT,
        is_keyframe: true,
    },
    UnitRow {
        name: "av1-mtu-2-first-lost",
        packets: &[&[0x90, 0xaa], &[0x50, 0x30], &[0xd0, 0xbb], &[0x90, 0xcc]],
        unit: &[0x32, 0x02, 0xbb, 0xcc],
        is_keyframe: false,
    },
];

/// The unit of a row's packets, and whether it is a keyframe.
fn assert_unit(row: &UnitRow) {
    let mut unit = unit();
    for packet in row.packets {
        assert_same(row.name, &unit.take(packet), &Ok(()));
    }
    assert_bytes(row.name, &unit.out, row.unit);
    assert_same(row.name, &unit.extra, &told(row.is_keyframe));
}

#[test]
fn units_are_put_together() {
    for row in &UNITS {
        assert_unit(row);
    }
}

/// Payloads that are corrupted, each by its name.
const CORRUPTED: [(&str, &[u8]); 4] = [
    // An element of no bytes.
    ("av1-zero-length-fault", &[0x00, 0x00]),
    // An element of 5 bytes, of which one is there.
    ("av1-length-past-end-fault", &[0x00, 0x05, 0x30]),
    (
        // One element, with two OBUs that have sizes.
        "av1-two-obus-in-element-fault",
        &[0x10, 0x0a, 0x00, 0x0a, 0x00],
    ),
    (
        // An element with the greatest length that ten bytes of LEB128 can have.
        "av1-huge-length-fault",
        &[
            0x00, 0xff, 0xff, 0xff, 0xff, 0xff, 0xff, 0xff, 0xff, 0xff, 0x7f,
        ],
    ),
];

#[test]
fn corrupted_payloads_are_refused() -> Result<(), Fail> {
    for (name, payload) in CORRUPTED {
        let mut depacketizer = Av1Depacketizer::new();
        let wanted = Err(PacketError::ErrAv1CorruptedPacket);
        assert_received(name, &mut depacketizer, payload, &wanted)?;
    }
    Ok(())
}

#[test]
fn a_keyframe_stays_one() -> Result<(), Fail> {
    let name = "a-keyframe-stays-one";
    let mut unit = unit();
    unit.extra = told(true);
    unit.take(&[0x10, 0x30, 0xbb])?;
    assert_same(name, &unit.extra, &told(true));
    let fault = unit.take(&[]).err();
    assert_same(name, &fault, &Some(PacketError::ErrShortPacket));
    assert_bytes(name, &unit.out, &[0x32, 0x01, 0xbb]);
    Ok(())
}

/// A payload whose last element goes on.
const GOES_ON: [u8; 7] = [0x68, 0x02, 0x08, 0xaa, 0x30, 0xbb, 0xcc];

/// With each allocation refused in turn: the right answer or out of memory. After out of memory `out` and the codec-specific data are
/// unchanged, and nothing is pending.
#[test]
fn memory_is_refused() -> Result<(), Fail> {
    let name = "memory-is-refused";
    let mut unit = unit();
    if found(unit.take(&GOES_ON))?.is_some() {
        assert_bytes(name, &unit.out, &[0x0a, 0x01, 0xaa]);
        return Ok(());
    }
    assert_bytes(name, &unit.out, &[]);
    assert_same(name, &unit.extra, &CodecExtra::None);
    // Nothing is pending, so an element that goes on is skipped.
    found(unit.take(&[0x90, 0xdd]))?;
    assert_bytes(name, &unit.out, &[]);
    Ok(())
}
