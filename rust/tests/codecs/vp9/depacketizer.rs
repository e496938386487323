//! Payloads that are refused, what goes on from payload to payload, and copies of depacketizers.

use crate::Fail;
use crate::asserts::{assert_bytes, assert_other, assert_same};
use crate::tables::{Unit, assert_out, assert_received, receive};
use codec_payload::error::PacketError;
use codec_payload::interface::CodecExtra;
use codec_payload::vp9::{Vp9CodecExtra, Vp9Depacketizer};

/// Payloads that are refused, each by its name and with its fault.
const REFUSED: [(&str, &[u8], PacketError); 4] = [
    // No byte.
    ("vp9-empty-fault", &[], PacketError::ErrShortPacket),
    (
        // P and F, and three differences of which each says that another follows.
        "vp9-fourth-p-diff-fault",
        &[0x50, 0x03, 0x03, 0x03],
        PacketError::ErrTooManyPDiff,
    ),
    (
        // L, and the spatial layer 3.
        "vp9-spatial-layer-3-fault",
        &[0x20, 0x06],
        PacketError::ErrTooManySpatialLayers,
    ),
    (
        // V, and a structure of four layers.
        "vp9-four-layers-fault",
        &[0x02, 0x60],
        PacketError::ErrVP9CorruptedPacket,
    ),
];

#[test]
fn payloads_are_refused() -> Result<(), Fail> {
    for (name, payload, fault) in REFUSED {
        let mut depacketizer = Vp9Depacketizer::new();
        assert_received(name, &mut depacketizer, payload, &Err(fault))?;
    }
    Ok(())
}

/// The end of the first spatial layer is elsewhere than where the bytes end.
#[test]
fn vp9_misplaced_layer_fault() -> Result<(), Fail> {
    let name = "vp9-misplaced-layer-fault";
    let mut unit = Unit::new(Vp9Depacketizer::new());
    unit.take(&[0x28, 0x00, 0x01, 0xaa])?;
    unit.take(&[0x28, 0x02, 0x01, 0xbb])?;
    let before = unit.extra;
    let fault = unit.take(&[0x20, 0x00, 0x01, 0xcc]).err();
    assert_same(name, &fault, &Some(PacketError::ErrVP9CorruptedPacket));
    assert_bytes(name, &unit.out, &[0xaa, 0xbb]);
    assert_same(name, &unit.extra, &before);
    unit.take(&[0x20, 0x02, 0x01, 0xcc])?;
    assert_bytes(name, &unit.out, &[0xaa, 0xbb, 0xcc]);
    Ok(())
}

#[test]
fn vp9_structure_read_anew() -> Result<(), Fail> {
    let name = "vp9-structure-read-anew";
    let mut depacketizer = Vp9Depacketizer::new();
    let cut = receive(&mut depacketizer, &[0x02, 0x08, 0xff])?;
    assert_same(name, &cut.answer, &Err(PacketError::ErrShortPacket));
    assert_same(name, &depacketizer.ng, &255);
    assert_bytes(name, &depacketizer.pgtid, &[]);
    let read = receive(&mut depacketizer, &[0x02, 0x00, 0xaa])?;
    assert_out(name, &read, &Ok(&[7, 0xaa]));
    assert_same(name, &depacketizer.ng, &0);
    assert!(matches!(read.extra, CodecExtra::Vp9(told) if !told.is_keyframe));
    Ok(())
}

#[test]
fn vp9_copies_are_equal() -> Result<(), Fail> {
    let name = "depacketizers";
    let new = Vp9Depacketizer::new();
    let mut depacketizer = Vp9Depacketizer::new();
    assert_same(name, &depacketizer, &new);
    let received = receive(&mut depacketizer, &[0x98, 0xff, 0xff, 0x82])?;
    assert_same(name, &received.answer, &Ok(()));
    assert_other(name, &depacketizer, &new);
    let default = CodecExtra::Vp9(Vp9CodecExtra::default());
    assert_other(name, &received.extra, &default);
    Ok(())
}
