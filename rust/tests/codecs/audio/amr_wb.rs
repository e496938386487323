//! The worked examples of AMR-WB, in both layouts.

use crate::Fail;
use crate::asserts::assert_same;
use crate::audio::{
    Format, ReceivedRow, SentRow, assert_all_received, assert_all_sent, assert_received_as, sent,
};
use crate::tables::{Frame, assert_sent, filled};
use codec_payload::error::PacketError;
use codec_payload::memory::{AllocError, TryVec};

const BANDWIDTH_EFFICIENT: Format = Format::AmrWb { octet_align: false };

const OCTET_ALIGNED: Format = Format::AmrWb { octet_align: true };

/// The frame of type 8 of 477 speech bits: 59 bytes `a5` and the bits 10100.
const FRAME_OF_TYPE_8: [u8; 61] = [
    0x44, 0xa5, 0xa5, 0xa5, 0xa5, 0xa5, 0xa5, 0xa5, 0xa5, 0xa5, 0xa5, 0xa5, 0xa5, 0xa5, 0xa5, 0xa5,
    0xa5, 0xa5, 0xa5, 0xa5, 0xa5, 0xa5, 0xa5, 0xa5, 0xa5, 0xa5, 0xa5, 0xa5, 0xa5, 0xa5, 0xa5, 0xa5,
    0xa5, 0xa5, 0xa5, 0xa5, 0xa5, 0xa5, 0xa5, 0xa5, 0xa5, 0xa5, 0xa5, 0xa5, 0xa5, 0xa5, 0xa5, 0xa5,
    0xa5, 0xa5, 0xa5, 0xa5, 0xa5, 0xa5, 0xa5, 0xa5, 0xa5, 0xa5, 0xa5, 0xa5, 0xa0,
];

/// Its octet-aligned payload.
const TYPE_8_OCTET_ALIGNED: [u8; 62] = [
    0xf0, 0x44, 0xa5, 0xa5, 0xa5, 0xa5, 0xa5, 0xa5, 0xa5, 0xa5, 0xa5, 0xa5, 0xa5, 0xa5, 0xa5, 0xa5,
    0xa5, 0xa5, 0xa5, 0xa5, 0xa5, 0xa5, 0xa5, 0xa5, 0xa5, 0xa5, 0xa5, 0xa5, 0xa5, 0xa5, 0xa5, 0xa5,
    0xa5, 0xa5, 0xa5, 0xa5, 0xa5, 0xa5, 0xa5, 0xa5, 0xa5, 0xa5, 0xa5, 0xa5, 0xa5, 0xa5, 0xa5, 0xa5,
    0xa5, 0xa5, 0xa5, 0xa5, 0xa5, 0xa5, 0xa5, 0xa5, 0xa5, 0xa5, 0xa5, 0xa5, 0xa5, 0xa0,
];

/// Its bandwidth-efficient payload.
const TYPE_8_BANDWIDTH_EFFICIENT: [u8; 61] = [
    0xf4, 0x69, 0x69, 0x69, 0x69, 0x69, 0x69, 0x69, 0x69, 0x69, 0x69, 0x69, 0x69, 0x69, 0x69, 0x69,
    0x69, 0x69, 0x69, 0x69, 0x69, 0x69, 0x69, 0x69, 0x69, 0x69, 0x69, 0x69, 0x69, 0x69, 0x69, 0x69,
    0x69, 0x69, 0x69, 0x69, 0x69, 0x69, 0x69, 0x69, 0x69, 0x69, 0x69, 0x69, 0x69, 0x69, 0x69, 0x69,
    0x69, 0x69, 0x69, 0x69, 0x69, 0x69, 0x69, 0x69, 0x69, 0x69, 0x69, 0x69, 0x68,
];

/// A frame is its header, F FT Q and two zeros, and its speech bits. A payload (RFC 4867, sections 4.3 and 4.4) begins with
/// CMR 15: in the octet-aligned layout the byte f0, the header, and the speech as it is; in the bandwidth-efficient one 1111
/// and then all bits without filling.
static SENT: [SentRow; 9] = [
    SentRow {
        name: "amr-wb-type-14-sent, octet-aligned",
        format: OCTET_ALIGNED,
        frame: Frame {
            mtu: 1_200,
            bytes: &[0x74],
            packets: Ok(&[&[0xf0, 0x74]]),
        },
    },
    SentRow {
        name: "amr-wb-type-14-sent, bandwidth-efficient",
        format: BANDWIDTH_EFFICIENT,
        frame: Frame {
            mtu: 1_200,
            bytes: &[0x74],
            packets: Ok(&[&[0xf7, 0x40]]),
        },
    },
    SentRow {
        name: "amr-wb-type-8-octet-aligned",
        format: OCTET_ALIGNED,
        frame: Frame {
            mtu: 62,
            bytes: &FRAME_OF_TYPE_8,
            packets: Ok(&[&TYPE_8_OCTET_ALIGNED]),
        },
    },
    SentRow {
        name: "amr-wb-type-8-bandwidth-efficient",
        format: BANDWIDTH_EFFICIENT,
        frame: Frame {
            mtu: 61,
            bytes: &FRAME_OF_TYPE_8,
            packets: Ok(&[&TYPE_8_BANDWIDTH_EFFICIENT]),
        },
    },
    SentRow {
        name: "amr-wb-type-8-mtu-61-fault",
        format: OCTET_ALIGNED,
        frame: Frame {
            mtu: 61,
            bytes: &FRAME_OF_TYPE_8,
            packets: Err(PacketError::ErrPayloadTooLarge),
        },
    },
    SentRow {
        name: "amr-wb-reserved-frame-fault",
        format: BANDWIDTH_EFFICIENT,
        frame: Frame {
            mtu: 1_200,
            bytes: &[0x50],
            packets: Err(PacketError::ErrAmrWbCorruptedPacket),
        },
    },
    SentRow {
        name: "amr-wb-no-data-skipped",
        format: BANDWIDTH_EFFICIENT,
        frame: Frame {
            mtu: 1_200,
            bytes: &[0x7c],
            packets: Ok(&[]),
        },
    },
    SentRow {
        name: "amr-wb-types-without-speech, not sent",
        format: OCTET_ALIGNED,
        frame: Frame {
            mtu: 1_200,
            bytes: &[0x7c],
            packets: Ok(&[]),
        },
    },
    SentRow {
        name: "amr-wb-no-data-two-bytes-fault",
        format: BANDWIDTH_EFFICIENT,
        frame: Frame {
            mtu: 1_200,
            bytes: &[0x7c, 0x00],
            packets: Err(PacketError::ErrAmrWbCorruptedPacket),
        },
    },
];

/// Payloads as they are sent; the result is the header of each frame and its speech bits.
static RECEIVED: [ReceivedRow; 8] = [
    ReceivedRow {
        name: "amr-wb-two-frames-received",
        format: BANDWIDTH_EFFICIENT,
        payload: &[0xff, 0x53, 0x5a, 0x5a, 0x5a, 0x5a, 0x5a],
        wanted: Ok(&[7, 0x74, 0x4c, 0x5a, 0x5a, 0x5a, 0x5a, 0x5a]),
    },
    ReceivedRow {
        name: "amr-wb-reserved-entry-fault",
        format: OCTET_ALIGNED,
        payload: &[0xf0, 0x50],
        wanted: Err(PacketError::ErrAmrWbCorruptedPacket),
    },
    ReceivedRow {
        name: "amr-wb-no-entry-fault",
        format: BANDWIDTH_EFFICIENT,
        payload: &[0xf0],
        wanted: Err(PacketError::ErrShortPacket),
    },
    ReceivedRow {
        name: "amr-wb-empty-payload",
        format: BANDWIDTH_EFFICIENT,
        payload: &[],
        wanted: Ok(&[7]),
    },
    ReceivedRow {
        name: "amr-wb-eight-ff-fault",
        format: BANDWIDTH_EFFICIENT,
        payload: &[0xff, 0xff, 0xff, 0xff, 0xff, 0xff, 0xff, 0xff],
        wanted: Err(PacketError::ErrShortPacket),
    },
    // Section 4.3.1: type 14, lost speech, is an entry alone, and so is type 15, which is not sent: 1111, then 0 1110 1, and
    // zeros; 1111, then 0 1111 1, and zeros.
    ReceivedRow {
        name: "amr-wb-types-without-speech, type 14",
        format: BANDWIDTH_EFFICIENT,
        payload: &[0xf7, 0x40],
        wanted: Ok(&[7, 0x74]),
    },
    ReceivedRow {
        name: "amr-wb-types-without-speech, type 15",
        format: BANDWIDTH_EFFICIENT,
        payload: &[0xf7, 0xc0],
        wanted: Ok(&[7, 0x7c]),
    },
    ReceivedRow {
        name: "amr-wb-types-without-speech, type 15, octet-aligned",
        format: OCTET_ALIGNED,
        payload: &[0xf0, 0x7c],
        wanted: Ok(&[7, 0x7c]),
    },
];

#[test]
fn frames_and_payloads() -> Result<(), Fail> {
    assert_all_sent(&SENT);
    assert_all_received(&RECEIVED)?;
    Ok(())
}

/// Type 0 without quality: 132 bits are 16 bytes and the bits 1010. The frame's bits 0x83 and its last four mean nothing, so
/// the same comes back from its one packet as for bits 0x00 and four zeros.
fn assert_canonical(format: Format) -> Result<(), PacketError> {
    let name = "amr-wb-bits-that-mean-nothing";
    let frame = filled(&[0x83], 0xa5, 16, &[0xaf])?;
    let canonical = filled(&[7, 0x00], 0xa5, 16, &[0xa0])?;
    let packets = sent(format, 1_200, &frame)?;
    assert_same(name, &packets.len(), &1);
    for packet in &packets {
        assert_received_as(name, format, packet, &Ok(&canonical))?;
    }
    Ok(())
}

#[test]
fn amr_wb_bits_that_mean_nothing() -> Result<(), Fail> {
    assert_canonical(BANDWIDTH_EFFICIENT)?;
    assert_canonical(OCTET_ALIGNED)?;
    Ok(())
}

/// What one frame of AMR-WB is sent as.
struct Vector {
    name: &'static str,
    frame_type: u8,
    /// How many whole bytes `a5` the speech has.
    whole: usize,
    /// The bits of another `a5` that follow, with zeros up to a byte.
    rest: Option<u8>,
    /// The first two bytes of the bandwidth-efficient payload, and its last.
    first: u8,
    second: u8,
    last: u8,
}

/// RFC 4867, table 1a of 3GPP TS 26.201: the types 0 to 9 have 132, 177, 253, 285, 317, 365, 397, 461, 477 and 40 speech
/// bits, so as many whole bytes as these over 8, and 4, 1, 5, 5, 5, 5, 5, 5, 5 and no bits more of `a5`, which is 10100101.
///
/// Section 4.4, octet-aligned: CMR 15 and four zeros are `f0`; the entry is F = 0, the type in four bits, Q = 1 and two
/// zeros, which is the first byte of the frame; the speech follows as it is.
///
/// Section 4.3, bandwidth-efficient: CMR 15 is 1111, F is 0 and the upper three bits of the type follow, so the first byte
/// is `f0` plus half the type. The lowest bit of the type, Q = 1 and the first six bits 101001 of the speech are `69`, or
/// `e9` for an odd type. Each further whole byte is 01 and 101001, so `69`. The last byte is 01 and the bits that are left:
/// none give `40`, 1 gives `60`, 1010 and 10100 give `68`.
const VECTORS: [Vector; 10] = [
    Vector {
        name: "amr-wb-every-speech-type, 0",
        frame_type: 0,
        whole: 16,
        rest: Some(0xa0),
        first: 0xf0,
        second: 0x69,
        last: 0x68,
    },
    Vector {
        name: "amr-wb-every-speech-type, 1",
        frame_type: 1,
        whole: 22,
        rest: Some(0x80),
        first: 0xf0,
        second: 0xe9,
        last: 0x60,
    },
    Vector {
        name: "amr-wb-every-speech-type, 2",
        frame_type: 2,
        whole: 31,
        rest: Some(0xa0),
        first: 0xf1,
        second: 0x69,
        last: 0x68,
    },
    Vector {
        name: "amr-wb-every-speech-type, 3",
        frame_type: 3,
        whole: 35,
        rest: Some(0xa0),
        first: 0xf1,
        second: 0xe9,
        last: 0x68,
    },
    Vector {
        name: "amr-wb-every-speech-type, 4",
        frame_type: 4,
        whole: 39,
        rest: Some(0xa0),
        first: 0xf2,
        second: 0x69,
        last: 0x68,
    },
    Vector {
        name: "amr-wb-every-speech-type, 5",
        frame_type: 5,
        whole: 45,
        rest: Some(0xa0),
        first: 0xf2,
        second: 0xe9,
        last: 0x68,
    },
    Vector {
        name: "amr-wb-every-speech-type, 6",
        frame_type: 6,
        whole: 49,
        rest: Some(0xa0),
        first: 0xf3,
        second: 0x69,
        last: 0x68,
    },
    Vector {
        name: "amr-wb-every-speech-type, 7",
        frame_type: 7,
        whole: 57,
        rest: Some(0xa0),
        first: 0xf3,
        second: 0xe9,
        last: 0x68,
    },
    Vector {
        name: "amr-wb-every-speech-type, 8",
        frame_type: 8,
        whole: 59,
        rest: Some(0xa0),
        first: 0xf4,
        second: 0x69,
        last: 0x68,
    },
    Vector {
        name: "amr-wb-every-speech-type, 9",
        frame_type: 9,
        whole: 5,
        rest: None,
        first: 0xf4,
        second: 0xe9,
        last: 0x40,
    },
];

/// A frame in one layout is sent as this payload, and comes back.
fn assert_both_ways(
    name: &str,
    format: Format,
    frame: &[u8],
    payload: &[u8],
) -> Result<(), AllocError> {
    let answer = sent(format, 1_200, frame);
    assert_sent(name, &answer, &Ok(&[payload]));
    let mut wanted = Vec::try_from_slice(&[7])?;
    wanted.try_extend(frame)?;
    assert_received_as(name, format, payload, &Ok(wanted.as_slice()))
}

/// The bandwidth-efficient payload of a vector.
fn shifted(vector: &Vector) -> Result<Vec<u8>, AllocError> {
    let mut payload = Vec::try_from_slice(&[vector.first, vector.second])?;
    for _ in 1..vector.whole {
        payload.try_push(0x69)?;
    }
    payload.try_push(vector.last)?;
    Ok(payload)
}

/// A vector in both layouts.
fn assert_vector(vector: &Vector) -> Result<(), AllocError> {
    let name = vector.name;
    let header = (vector.frame_type << 3) | 0x04;
    let mut frame = filled(&[header], 0xa5, vector.whole, &[])?;
    frame.extend(vector.rest);
    let aligned = filled(&[0xf0], 0, 0, &frame)?;
    assert_both_ways(name, OCTET_ALIGNED, &frame, &aligned)?;
    let shifted = shifted(vector)?;
    assert_both_ways(name, BANDWIDTH_EFFICIENT, &frame, &shifted)
}

#[test]
fn amr_wb_every_speech_type() -> Result<(), Fail> {
    for vector in &VECTORS {
        assert_vector(vector)?;
    }
    Ok(())
}
