//! Payloads in memory that is used again.

use crate::Fail;
use crate::asserts::{assert_bytes, assert_count, assert_same};
use crate::own_codec::EachByte;
use codec_payload::codec::{CodecPacketizer, Packetizer, Vp9PacketizerMode};
use codec_payload::error::PacketError;
use codec_payload::memory::TryVec;
use codec_payload::payloads::Payloads;
use codec_payload::wire::Codec;

/// The room in front of each payload, for an RTP header without CSRCs and extension.
const HEADROOM: usize = 12;

/// The room behind each payload, for a tag.
const TAILROOM: usize = 16;

/// A frame, and the payloads that it is sent in, or the fault.
struct SentRow {
    name: &'static str,
    codec: Codec,
    mtu: usize,
    frame: &'static [u8],
    payloads: Result<&'static [&'static [u8]], PacketError>,
}

/// All go into the same memory, one after another. VP9 begins with the picture id 0x1234.
static SENT: [SentRow; 12] = [
    SentRow {
        name: "av1-two-obus-mtu-3",
        codec: Codec::Av1,
        mtu: 3,
        frame: &[0x12, 0x00, 0x0a, 0x01, 0xaa, 0x32, 0x02, 0xbb, 0xcc],
        payloads: Ok(&[&[0x18, 0x08, 0xaa], &[0x50, 0x30, 0xbb], &[0x90, 0xcc]]),
    },
    SentRow {
        name: "av1-two-obus-mtu-1200",
        codec: Codec::Av1,
        mtu: 1_200,
        frame: &[0x12, 0x00, 0x0a, 0x01, 0xaa, 0x32, 0x02, 0xbb, 0xcc],
        payloads: Ok(&[&[0x28, 0x02, 0x08, 0xaa, 0x30, 0xbb, 0xcc]]),
    },
    SentRow {
        name: "av1-frame-size-past-end-fault",
        codec: Codec::Av1,
        mtu: 1_200,
        frame: &[0x0a, 0x05, 0xaa],
        payloads: Err(PacketError::ErrAv1CorruptedPacket),
    },
    SentRow {
        name: "opus-two-pieces",
        codec: Codec::Opus,
        mtu: 2,
        frame: &[0x90, 0x90, 0x90],
        payloads: Ok(&[&[0x90, 0x90], &[0x90]]),
    },
    SentRow {
        name: "g7xx-as-opus",
        codec: Codec::G722,
        mtu: 2,
        frame: &[0x90, 0x90, 0x90],
        payloads: Ok(&[&[0x90, 0x90], &[0x90]]),
    },
    SentRow {
        name: "null-empty-frame",
        codec: Codec::Null,
        mtu: 0,
        frame: &[],
        payloads: Ok(&[&[]]),
    },
    SentRow {
        name: "cn-one-packet-no-marker",
        codec: Codec::CN,
        mtu: 1_200,
        frame: &[0x2a, 0x80, 0x40],
        payloads: Ok(&[&[0x2a, 0x80, 0x40]]),
    },
    SentRow {
        name: "cn-mtu-2-fault",
        codec: Codec::CN,
        mtu: 2,
        frame: &[0x2a, 0x80, 0x40],
        payloads: Err(PacketError::ErrPayloadTooLarge),
    },
    SentRow {
        name: "a telephone report",
        codec: Codec::Tele,
        mtu: 4,
        frame: &[0x05, 0x8a, 0x03, 0x20],
        payloads: Ok(&[&[0x05, 0x8a, 0x03, 0x20]]),
    },
    SentRow {
        name: "amr-wb-type-14-sent",
        codec: Codec::AmrWb,
        mtu: 1_200,
        frame: &[0x74],
        payloads: Ok(&[&[0xf7, 0x40]]),
    },
    SentRow {
        name: "vp8-no-ids-three-packets",
        codec: Codec::Vp8,
        mtu: 2,
        frame: &[0x90, 0x90, 0x90],
        payloads: Ok(&[&[0x10, 0x90], &[0x00, 0x90], &[0x00, 0x90]]),
    },
    SentRow {
        name: "vp9-nonflex-two-packets",
        codec: Codec::Vp9,
        mtu: 10,
        frame: &[0x82, 0x49, 0x83],
        payloads: Ok(&[
            &[0xaa, 0x92, 0x34, 0x10, 0x01, 0x00, 0x82, 0x49],
            &[0xa4, 0x92, 0x34, 0x10, 0x01, 0x83],
        ]),
    },
];

/// The header of the packet at a place.
fn header_of(place: usize) -> [u8; 12] {
    [0x80, 96, 0, (place % 256) as u8, 0, 0, 3, 0xc0, 1, 2, 3, 4]
}

/// Puts a header in front of each payload.
fn put_headers(out: &mut Payloads) {
    for place in 0..out.len() {
        if place < out.len() && out.headroom() == HEADROOM {
            out.put_header(place, &header_of(place));
        }
    }
}

/// How long the region of a packet is, with its rooms.
fn region_size(out: &mut Payloads, place: usize) -> usize {
    if place < out.len() {
        out.packet_mut(place).len()
    } else {
        0
    }
}

/// These payloads are there, each behind the header that was put in front of it, with its rooms.
fn assert_packets(name: &str, out: &mut Payloads, payloads: &[&[u8]]) -> Result<(), Fail> {
    assert_count(name, out.len(), payloads.len());
    put_headers(out);
    for (place, payload) in payloads.iter().enumerate() {
        if place < out.len() {
            let mut packet = Vec::try_from_slice(&header_of(place))?;
            packet.try_extend(payload)?;
            assert_bytes(name, out.get(place), payload);
            assert_bytes(name, out.header(place), &header_of(place));
            assert_bytes(name, out.packet(place), &packet);
        }
        let size = HEADROOM
            .saturating_add(payload.len())
            .saturating_add(TAILROOM);
        assert_count(name, region_size(out, place), size);
    }
    Ok(())
}

/// Writes the payloads of a frame.
fn write<P: Packetizer>(
    pack: &mut P,
    mtu: usize,
    frame: &[u8],
    out: &mut Payloads,
) -> Result<(), PacketError> {
    pack.packetize_into(mtu, frame, out)
}

/// Fails if the result of a row differs from the expected one.
fn assert_row(row: &SentRow, out: &mut Payloads) -> Result<(), Fail> {
    let mode = Vp9PacketizerMode::NonFlexible;
    let mut pack = CodecPacketizer::new(row.codec, mode, 0x1234).ok_or("no packetizer")?;
    let answer = write(&mut pack, row.mtu, row.frame, out);
    match &row.payloads {
        Ok(payloads) => {
            answer?;
            assert_packets(row.name, out, payloads)
        }
        Err(wanted) => {
            let Err(fault) = answer else {
                return Err("no fault".into());
            };
            assert_same(row.name, &fault, wanted);
            assert_count(row.name, out.len(), 0);
            Ok(())
        }
    }
}

#[test]
fn rows_into_the_same_memory() -> Result<(), Fail> {
    let mut out = Payloads::new(HEADROOM, TAILROOM)?;
    for row in &SENT {
        assert_row(row, &mut out)?;
    }
    Ok(())
}

#[test]
fn a_codec_of_ones_own_into_memory() -> Result<(), Fail> {
    let mut out = Payloads::new(HEADROOM, TAILROOM)?;
    let mut pack = CodecPacketizer::Boxed(EachByte);
    write(&mut pack, 1_200, &[1, 2], &mut out)?;
    assert_packets("box-byte-a-packet", &mut out, &[&[1], &[2]])
}
