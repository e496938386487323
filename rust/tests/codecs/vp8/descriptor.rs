//! The descriptor of RFC 7741, section 4.2, in all its forms, cut off at each byte, and texts of its faults.

use crate::Fail;
use crate::asserts::{assert_other, assert_printed, assert_same};
use crate::tables::{assert_received, receive};
use codec_payload::error::PacketError;
use codec_payload::interface::CodecExtra;
use codec_payload::memory::{AllocError, TryVec};
use codec_payload::vp8::{
    Vp8CodecExtra, Vp8Depacketizer, Vp8Descriptor, Vp8DescriptorError, detect_vp8_keyframe,
};

/// The fields that a descriptor has.
struct Fields {
    picture_id: Option<u16>,
    tl0_pic_idx: Option<u8>,
    /// TID and Y.
    temporal: Option<(u8, bool)>,
    key_idx: Option<u8>,
}

/// A payload of a keyframe, and what RFC 7741 says of it.
struct Row {
    name: &'static str,
    payload: &'static [u8],
    /// The length of its descriptor in bytes.
    descriptor: usize,
    /// `None` where TL0PICIDX stands without a temporal layer.
    fields: Option<Fields>,
}

/// All combinations of X, I, M, L, T and K: in order the bytes X R N S R PID, I L T K, the picture id, TL0PICIDX 0x55, and
/// TID 2, Y 1, KEYIDX 7; then the first byte of a keyframe.
const DESCRIPTORS: [Row; 25] = [
    Row {
        name: "X=0",
        payload: &[0x10, 0x00],
        descriptor: 1,
        fields: Some(Fields {
            picture_id: None,
            tl0_pic_idx: None,
            temporal: None,
            key_idx: None,
        }),
    },
    Row {
        name: "X alone",
        payload: &[0x90, 0x00, 0x00],
        descriptor: 2,
        fields: Some(Fields {
            picture_id: None,
            tl0_pic_idx: None,
            temporal: None,
            key_idx: None,
        }),
    },
    Row {
        name: "X K",
        payload: &[0x90, 0x10, 0xa7, 0x00],
        descriptor: 3,
        fields: Some(Fields {
            picture_id: None,
            tl0_pic_idx: None,
            temporal: None,
            key_idx: Some(7),
        }),
    },
    Row {
        name: "X T",
        payload: &[0x90, 0x20, 0xa7, 0x00],
        descriptor: 3,
        fields: Some(Fields {
            picture_id: None,
            tl0_pic_idx: None,
            temporal: Some((2, true)),
            key_idx: None,
        }),
    },
    Row {
        name: "X T K",
        payload: &[0x90, 0x30, 0xa7, 0x00],
        descriptor: 3,
        fields: Some(Fields {
            picture_id: None,
            tl0_pic_idx: None,
            temporal: Some((2, true)),
            key_idx: Some(7),
        }),
    },
    Row {
        name: "X L",
        payload: &[0x90, 0x40, 0x55, 0x00],
        descriptor: 3,
        fields: None,
    },
    Row {
        name: "X L K",
        payload: &[0x90, 0x50, 0x55, 0xa7, 0x00],
        descriptor: 4,
        fields: None,
    },
    Row {
        name: "X L T",
        payload: &[0x90, 0x60, 0x55, 0xa7, 0x00],
        descriptor: 4,
        fields: Some(Fields {
            picture_id: None,
            tl0_pic_idx: Some(0x55),
            temporal: Some((2, true)),
            key_idx: None,
        }),
    },
    Row {
        name: "X L T K",
        payload: &[0x90, 0x70, 0x55, 0xa7, 0x00],
        descriptor: 4,
        fields: Some(Fields {
            picture_id: None,
            tl0_pic_idx: Some(0x55),
            temporal: Some((2, true)),
            key_idx: Some(7),
        }),
    },
    Row {
        name: "X I, an id of 7 bits",
        payload: &[0x90, 0x80, 0x11, 0x00],
        descriptor: 3,
        fields: Some(Fields {
            picture_id: Some(0x11),
            tl0_pic_idx: None,
            temporal: None,
            key_idx: None,
        }),
    },
    Row {
        name: "X I, an id of 15 bits",
        payload: &[0x90, 0x80, 0x92, 0x34, 0x00],
        descriptor: 4,
        fields: Some(Fields {
            picture_id: Some(0x1234),
            tl0_pic_idx: None,
            temporal: None,
            key_idx: None,
        }),
    },
    Row {
        name: "X I K, an id of 7 bits",
        payload: &[0x90, 0x90, 0x11, 0xa7, 0x00],
        descriptor: 4,
        fields: Some(Fields {
            picture_id: Some(0x11),
            tl0_pic_idx: None,
            temporal: None,
            key_idx: Some(7),
        }),
    },
    Row {
        name: "X I K, an id of 15 bits",
        payload: &[0x90, 0x90, 0x92, 0x34, 0xa7, 0x00],
        descriptor: 5,
        fields: Some(Fields {
            picture_id: Some(0x1234),
            tl0_pic_idx: None,
            temporal: None,
            key_idx: Some(7),
        }),
    },
    Row {
        name: "X I T, an id of 7 bits",
        payload: &[0x90, 0xa0, 0x11, 0xa7, 0x00],
        descriptor: 4,
        fields: Some(Fields {
            picture_id: Some(0x11),
            tl0_pic_idx: None,
            temporal: Some((2, true)),
            key_idx: None,
        }),
    },
    Row {
        name: "X I T, an id of 15 bits",
        payload: &[0x90, 0xa0, 0x92, 0x34, 0xa7, 0x00],
        descriptor: 5,
        fields: Some(Fields {
            picture_id: Some(0x1234),
            tl0_pic_idx: None,
            temporal: Some((2, true)),
            key_idx: None,
        }),
    },
    Row {
        name: "X I T K, an id of 7 bits",
        payload: &[0x90, 0xb0, 0x11, 0xa7, 0x00],
        descriptor: 4,
        fields: Some(Fields {
            picture_id: Some(0x11),
            tl0_pic_idx: None,
            temporal: Some((2, true)),
            key_idx: Some(7),
        }),
    },
    Row {
        name: "X I T K, an id of 15 bits",
        payload: &[0x90, 0xb0, 0x92, 0x34, 0xa7, 0x00],
        descriptor: 5,
        fields: Some(Fields {
            picture_id: Some(0x1234),
            tl0_pic_idx: None,
            temporal: Some((2, true)),
            key_idx: Some(7),
        }),
    },
    Row {
        name: "X I L, an id of 7 bits",
        payload: &[0x90, 0xc0, 0x11, 0x55, 0x00],
        descriptor: 4,
        fields: None,
    },
    Row {
        name: "X I L, an id of 15 bits",
        payload: &[0x90, 0xc0, 0x92, 0x34, 0x55, 0x00],
        descriptor: 5,
        fields: None,
    },
    Row {
        name: "X I L K, an id of 7 bits",
        payload: &[0x90, 0xd0, 0x11, 0x55, 0xa7, 0x00],
        descriptor: 5,
        fields: None,
    },
    Row {
        name: "X I L K, an id of 15 bits",
        payload: &[0x90, 0xd0, 0x92, 0x34, 0x55, 0xa7, 0x00],
        descriptor: 6,
        fields: None,
    },
    Row {
        name: "X I L T, an id of 7 bits",
        payload: &[0x90, 0xe0, 0x11, 0x55, 0xa7, 0x00],
        descriptor: 5,
        fields: Some(Fields {
            picture_id: Some(0x11),
            tl0_pic_idx: Some(0x55),
            temporal: Some((2, true)),
            key_idx: None,
        }),
    },
    Row {
        name: "X I L T, an id of 15 bits",
        payload: &[0x90, 0xe0, 0x92, 0x34, 0x55, 0xa7, 0x00],
        descriptor: 6,
        fields: Some(Fields {
            picture_id: Some(0x1234),
            tl0_pic_idx: Some(0x55),
            temporal: Some((2, true)),
            key_idx: None,
        }),
    },
    Row {
        name: "X I L T K, an id of 7 bits",
        payload: &[0x90, 0xf0, 0x11, 0x55, 0xa7, 0x00],
        descriptor: 5,
        fields: Some(Fields {
            picture_id: Some(0x11),
            tl0_pic_idx: Some(0x55),
            temporal: Some((2, true)),
            key_idx: Some(7),
        }),
    },
    Row {
        name: "X I L T K, an id of 15 bits",
        payload: &[0x90, 0xf0, 0x92, 0x34, 0x55, 0xa7, 0x00],
        descriptor: 6,
        fields: Some(Fields {
            picture_id: Some(0x1234),
            tl0_pic_idx: Some(0x55),
            temporal: Some((2, true)),
            key_idx: Some(7),
        }),
    },
];

/// A payload of the worked examples.
struct Worked {
    name: &'static str,
    payload: &'static [u8],
    /// The length of its descriptor in bytes, for any combination of fields.
    descriptor: usize,
    /// Whether TL0PICIDX is present without a temporal layer.
    malformed: bool,
    /// Whether a keyframe starts there: S is set, the partition is the first, and P of the frame's first byte is clear.
    keyframe: bool,
}

const PAYLOADS: [Worked; 21] = [
    Worked {
        name: "vp8-mtu-max",
        payload: &[0x10, 0x90, 0x90, 0x90],
        descriptor: 1,
        malformed: false,
        keyframe: true,
    },
    Worked {
        name: "vp8-nothing-follows-fault",
        payload: &[0x00],
        descriptor: 1,
        malformed: false,
        keyframe: false,
    },
    Worked {
        name: "vp8-l-without-t-fault",
        payload: &[0x80, 0x40, 0x00, 0x00],
        descriptor: 3,
        malformed: true,
        keyframe: false,
    },
    Worked {
        name: "vp8-id-two-frames, first packet",
        payload: &[0x90, 0x80, 0x20, 0x90, 0x90],
        descriptor: 3,
        malformed: false,
        keyframe: true,
    },
    Worked {
        name: "vp8-id-two-frames, second packet",
        payload: &[0x80, 0x80, 0x20, 0x90],
        descriptor: 3,
        malformed: false,
        keyframe: false,
    },
    Worked {
        name: "vp8-id-two-frames, third packet",
        payload: &[0x90, 0x80, 0x21, 0x91, 0x91],
        descriptor: 3,
        malformed: false,
        keyframe: false,
    },
    Worked {
        name: "vp8-id-widens-at-128, first packet",
        payload: &[0x90, 0x80, 0x7f, 0x90, 0x90],
        descriptor: 3,
        malformed: false,
        keyframe: true,
    },
    Worked {
        name: "vp8-id-widens-at-128, second packet",
        payload: &[0x90, 0x80, 0x80, 0x80, 0x91],
        descriptor: 4,
        malformed: false,
        keyframe: false,
    },
    Worked {
        name: "vp8-id-wrap-15, first packet",
        payload: &[0x90, 0x80, 0xff, 0xff, 0x90],
        descriptor: 4,
        malformed: false,
        keyframe: true,
    },
    Worked {
        name: "vp8-id-wrap-15, second packet",
        payload: &[0x90, 0x80, 0x00, 0x90],
        descriptor: 3,
        malformed: false,
        keyframe: true,
    },
    Worked {
        name: "vp8-id-two-bytes, first packet",
        payload: &[0x90, 0x80, 0x81, 0x20, 0x90, 0x90],
        descriptor: 4,
        malformed: false,
        keyframe: true,
    },
    Worked {
        name: "vp8-id-two-bytes, second packet",
        payload: &[0x80, 0x80, 0x81, 0x20, 0x90],
        descriptor: 4,
        malformed: false,
        keyframe: false,
    },
    Worked {
        name: "vp8-descriptor-read",
        payload: &[0x90, 0xf0, 0x92, 0x34, 0x55, 0xa7, 0x00],
        descriptor: 6,
        malformed: false,
        keyframe: true,
    },
    Worked {
        name: "vp8-patch-and-back",
        payload: &[0x90, 0xf0, 0x82, 0x34, 0xab, 0xbf, 0x00],
        descriptor: 6,
        malformed: false,
        keyframe: true,
    },
    Worked {
        name: "vp8-patch-id-missing",
        payload: &[0x00, 0x90],
        descriptor: 1,
        malformed: false,
        keyframe: false,
    },
    Worked {
        name: "vp8-malformed-yet-keyframe",
        payload: &[0x90, 0x40, 0x01, 0x00],
        descriptor: 3,
        malformed: true,
        keyframe: true,
    },
    Worked {
        name: "vp8-fields-read-so-far",
        payload: &[0x90, 0xff, 0xff, 0xff],
        descriptor: 6,
        malformed: false,
        keyframe: false,
    },
    Worked {
        name: "vp8-extended-id-wraps-64",
        payload: &[0x90, 0x80, 0x80, 0x00, 0x01],
        descriptor: 4,
        malformed: false,
        keyframe: false,
    },
    Worked {
        name: "vp8-older-id-passed-over, first packet",
        payload: &[0x90, 0xe0, 0x0a, 0x05, 0x00, 0x01],
        descriptor: 5,
        malformed: false,
        keyframe: false,
    },
    Worked {
        name: "vp8-older-id-passed-over, second packet",
        payload: &[0x90, 0xe0, 0x09, 0x05, 0x00, 0x01],
        descriptor: 5,
        malformed: false,
        keyframe: false,
    },
    Worked {
        name: "vp8-older-id-passed-over, third packet",
        payload: &[0x90, 0xe0, 0x0b, 0x06, 0x00, 0x01],
        descriptor: 5,
        malformed: false,
        keyframe: false,
    },
];

/// The bytes after the descriptor in a beginning of a payload. It is too short up to its descriptor's last byte, unless
/// its second byte made it malformed.
fn expected<'a>(payload: &'a [u8], worked: &Worked) -> Result<&'a [u8], Vp8DescriptorError> {
    if worked.malformed && 2 <= payload.len() {
        return Err(Vp8DescriptorError::MalformedDescriptor);
    }
    match payload.get(worked.descriptor..) {
        Some(rest) if !rest.is_empty() => Ok(rest),
        _ => Err(Vp8DescriptorError::ShortPayload),
    }
}

fn fault_of(error: Vp8DescriptorError) -> PacketError {
    match error {
        Vp8DescriptorError::ShortPayload => PacketError::ErrShortPacket,
        Vp8DescriptorError::MalformedDescriptor => PacketError::ErrVP8CorruptedPacket,
    }
}

/// Whether a keyframe starts there, or what `parse` refuses.
fn starts_keyframe(payload: &[u8]) -> Result<bool, Vp8DescriptorError> {
    Ok(Vp8Descriptor::parse(payload)?.starts_keyframe(payload))
}

/// What the depacketizer puts behind the one byte 7, or its fault.
fn assert_taken(
    name: &str,
    payload: &[u8],
    rest: Result<&[u8], PacketError>,
) -> Result<(), AllocError> {
    let mut bytes = Vec::try_from_slice(&[7])?;
    let wanted = match rest {
        Ok(rest) => {
            bytes.try_extend(rest)?;
            Ok(bytes.as_slice())
        }
        Err(fault) => Err(fault),
    };
    let mut depacketizer = Vp8Depacketizer::default();
    assert_received(name, &mut depacketizer, payload, &wanted)
}

/// A beginning of a payload through the detector, `parse` and the depacketizer.
fn cut(payload: &[u8], worked: &Worked) -> Result<(), AllocError> {
    let keyframe = worked.keyframe && worked.descriptor < payload.len();
    assert_same(worked.name, &detect_vp8_keyframe(payload), &keyframe);
    let read = expected(payload, worked).map(|_| keyframe);
    assert_same(worked.name, &starts_keyframe(payload), &read);
    let rest = expected(payload, worked).map_err(fault_of);
    assert_taken(worked.name, payload, rest)
}

/// Every beginning of a payload.
fn cut_off(worked: &Worked) -> Result<(), AllocError> {
    for len in 0..=worked.payload.len() {
        let (beginning, _) = worked.payload.split_at(len);
        cut(beginning, worked)?;
    }
    Ok(())
}

/// The picture id, TL0PICIDX and KEYIDX of a payload.
type Ids = (Option<u16>, Option<u8>, Option<u8>);

/// The result of `parse` for a payload.
fn parsed(payload: &[u8]) -> Result<Ids, Vp8DescriptorError> {
    let descriptor = Vp8Descriptor::parse(payload)?;
    Ok((
        descriptor.picture_id(),
        descriptor.tl0_pic_idx(),
        descriptor.key_idx(),
    ))
}

/// I, L, T, K and KEYIDX, as the depacketizer holds them.
fn held(depacketizer: &Vp8Depacketizer) -> [u8; 5] {
    [
        depacketizer.i,
        depacketizer.l,
        depacketizer.t,
        depacketizer.k,
        depacketizer.key_idx,
    ]
}

/// I, L, T, K and KEYIDX where a descriptor has these fields.
fn flags_of(fields: &Fields) -> [u8; 5] {
    [
        u8::from(fields.picture_id.is_some()),
        u8::from(fields.tl0_pic_idx.is_some()),
        u8::from(fields.temporal.is_some()),
        u8::from(fields.key_idx.is_some()),
        fields.key_idx.unwrap_or(0),
    ]
}

/// The extra that these fields of a keyframe give.
fn extra_of(fields: &Fields) -> CodecExtra {
    let (tid, y) = fields.temporal.unwrap_or((0, false));
    CodecExtra::Vp8(Vp8CodecExtra {
        discardable: false,
        sync: y,
        layer_index: tid,
        picture_id: fields.picture_id.map(u64::from),
        tl0_picture_id: fields.tl0_pic_idx.map(u64::from),
        is_keyframe: true,
    })
}

/// The fields of a descriptor, from `parse` and from the depacketizer.
fn assert_fields(row: &Row, fields: &Fields) -> Result<(), AllocError> {
    let ids = (fields.picture_id, fields.tl0_pic_idx, fields.key_idx);
    assert_same(row.name, &parsed(row.payload), &Ok(ids));
    let mut depacketizer = Vp8Depacketizer::default();
    let received = receive(&mut depacketizer, row.payload)?;
    assert_same(row.name, &received.answer, &Ok(()));
    assert_same(row.name, &held(&depacketizer), &flags_of(fields));
    assert_same(row.name, &received.extra, &extra_of(fields));
    Ok(())
}

#[test]
fn every_beginning_of_the_worked_payloads() -> Result<(), Fail> {
    for worked in &PAYLOADS {
        cut_off(worked)?;
    }
    Ok(())
}

/// A row as a worked payload.
fn worked_of(row: &Row) -> Worked {
    Worked {
        name: row.name,
        payload: row.payload,
        descriptor: row.descriptor,
        malformed: row.fields.is_none(),
        keyframe: true,
    }
}

#[test]
fn every_descriptor_cut_off_at_each_byte() -> Result<(), Fail> {
    for row in &DESCRIPTORS {
        cut_off(&worked_of(row))?;
        if let Some(fields) = &row.fields {
            assert_fields(row, fields)?;
        }
    }
    Ok(())
}

/// The faults of descriptors, each with its text.
static OF_DESCRIPTORS: [(Vp8DescriptorError, &str); 2] = [
    (Vp8DescriptorError::ShortPayload, "VP8 payload is too short"),
    (
        Vp8DescriptorError::MalformedDescriptor,
        "VP8 payload descriptor is malformed",
    ),
];

#[test]
fn vp8_descriptor_errors() -> Result<(), Fail> {
    for (error, text) in &OF_DESCRIPTORS {
        assert_printed(error, text)?;
        assert_same(text, &error.clone(), error);
    }
    let [(short, text), (malformed, _)] = &OF_DESCRIPTORS;
    assert_other(text, short, malformed);
    Ok(())
}
