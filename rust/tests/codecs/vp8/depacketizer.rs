//! Fields of payloads, and copies of depacketizers.

use crate::Fail;
use crate::asserts::{assert_bytes, assert_other, assert_same};
use crate::tables::{Unit, receive};
use crate::vp8::READ;
use codec_payload::error::PacketError;
use codec_payload::interface::CodecExtra;
use codec_payload::vp8::{Vp8CodecExtra, Vp8Depacketizer};

/// The extended picture id of a payload.
fn told(depacketizer: &mut Vp8Depacketizer, payload: &[u8]) -> Result<Option<u64>, PacketError> {
    let received = receive(depacketizer, payload)?;
    received.answer?;
    match received.extra {
        CodecExtra::Vp8(told) => Ok(told.picture_id),
        _ => Ok(None),
    }
}

/// Payloads that one depacketizer gets one after another, each with its extended picture id.
struct ToldRow {
    name: &'static str,
    /// The picture id before, and the extended one.
    picture_id: u16,
    extended_pid: Option<u64>,
    payloads: &'static [(&'static [u8], u64)],
}

/// Each payload is a descriptor with X and I, the id in one byte or in two, and a byte of the frame.
const TOLD: [ToldRow; 3] = [
    ToldRow {
        name: "vp8-id-wrap-15",
        picture_id: 0,
        extended_pid: None,
        payloads: &[
            (&[0x90, 0x80, 0xff, 0xff, 0x90], 32_767),
            (&[0x90, 0x80, 0x00, 0x90], 32_768),
        ],
    },
    ToldRow {
        name: "vp8-id-7-then-15-bits",
        picture_id: 0,
        extended_pid: None,
        payloads: &[
            (&[0x90, 0x80, 0x7e, 0x00], 126),
            (&[0x90, 0x80, 0x7f, 0x00], 127),
            (&[0x90, 0x80, 0x00, 0x00], 128),
            (&[0x90, 0x80, 0x01, 0x00], 129),
            (&[0x90, 0x80, 0x80, 0x02, 0x00], 130),
        ],
    },
    ToldRow {
        name: "vp8-extended-id-wraps-64",
        picture_id: 0x7fff,
        extended_pid: Some(u64::MAX),
        payloads: &[(&[0x90, 0x80, 0x80, 0x00, 0x01], 0)],
    },
];

/// The extended picture ids of the payloads of a row.
fn assert_ids(row: &ToldRow) {
    let mut depacketizer = Vp8Depacketizer {
        picture_id: row.picture_id,
        extended_pid: row.extended_pid,
        ..Vp8Depacketizer::default()
    };
    for (payload, id) in row.payloads {
        let told = told(&mut depacketizer, payload);
        assert_same(row.name, &told, &Ok(Some(*id)));
    }
}

#[test]
fn picture_ids_are_told() {
    for row in &TOLD {
        assert_ids(row);
    }
}

#[test]
fn a_keyframe_stays_one() -> Result<(), Fail> {
    let name = "a-keyframe-stays-one";
    let mut unit = Unit::new(Vp8Depacketizer::default());
    unit.take(&[0x30, 0x90])?;
    unit.take(&[0x00, 0x91])?;
    assert_bytes(name, &unit.out, &[0x90, 0x91]);
    let told = Vp8CodecExtra {
        discardable: false,
        sync: false,
        layer_index: 0,
        picture_id: None,
        tl0_picture_id: None,
        is_keyframe: true,
    };
    assert_same(name, &unit.extra, &CodecExtra::Vp8(told));
    Ok(())
}

#[test]
fn vp8_fields_read_so_far() -> Result<(), Fail> {
    let name = "vp8-fields-read-so-far";
    let mut depacketizer = Vp8Depacketizer::default();
    let received = receive(&mut depacketizer, &[0x90, 0xff, 0xff, 0xff])?;
    assert_same(name, &received.answer, &Err(PacketError::ErrShortPacket));
    assert_same(name, &depacketizer.picture_id, &0x7fff);
    assert_same(name, &depacketizer.extended_pid, &Some(32_767));
    assert_same(name, &depacketizer.tl0_pic_idx, &0);
    Ok(())
}

#[test]
fn vp8_copies_are_equal() -> Result<(), Fail> {
    let name = "a copy of a depacketizer";
    let mut depacketizer = Vp8Depacketizer::default();
    let told = told(&mut depacketizer, &READ);
    assert_same(name, &told, &Ok(Some(0x1234)));
    assert_same(name, &depacketizer.clone(), &depacketizer);
    assert_other(name, &Vp8Depacketizer::default(), &depacketizer);
    Ok(())
}
