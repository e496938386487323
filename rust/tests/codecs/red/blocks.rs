//! Blocks that are read and written.

use crate::Fail;
use crate::asserts::{assert_bytes, assert_same, assert_shown};
use crate::tables::found;
use codec_payload::error::PacketError;
use codec_payload::memory::{AllocError, TryVec};
use codec_payload::red::{RedBlock, RedDecoder, RedEncoder, RedundantBlock, red_same_pt_blocks};

/// A number of headers of empty redundant blocks, and the header of the primary block, of type 96.
fn empty_blocks(count: usize) -> Result<Vec<u8>, AllocError> {
    let mut bytes = Vec::new();
    for _ in 0..count {
        bytes.try_extend(&[0xe0, 0x00, 0x00, 0x00])?;
    }
    bytes.try_push(0x60)?;
    Ok(bytes)
}

/// Bytes that are no RED payload, each by its name.
const CORRUPTED: [(&str, &[u8]); 3] = [
    // A block of 200 bytes, of which none is there.
    ("red-block-past-end-fault", &[0xe0, 0x00, 0x00, 0xc8, 0x60]),
    // A header of a redundant block of which half is there.
    ("red-end-in-headers-fault", &[0x80, 0x00]),
    // No byte.
    ("red-no-bytes-fault", &[]),
];

/// The blocks of a payload.
pub fn decoded<'a>(payload: &'a [u8]) -> Result<Vec<RedBlock<'a>>, PacketError> {
    RedDecoder::decode(payload)
}

/// How many blocks a payload has.
fn count(payload: &[u8]) -> Result<usize, PacketError> {
    Ok(decoded(payload)?.len())
}

#[test]
fn corrupted_payloads_are_refused() -> Result<(), Fail> {
    let corrupted = Err(PacketError::ErrRedCorruptedPacket);
    for (name, payload) in CORRUPTED {
        assert_same(name, &count(payload), &corrupted);
    }
    let bytes = empty_blocks(33)?;
    assert_same("red-33-blocks-fault", &count(&bytes), &corrupted);
    Ok(())
}

#[test]
fn red_32_redundant_blocks() -> Result<(), Fail> {
    let bytes = empty_blocks(32)?;
    assert_same("red-32-redundant-blocks", &count(&bytes), &Ok(33));
    Ok(())
}

/// The offsets of blocks, and their payloads.
pub fn assert_blocks(name: &str, blocks: &[RedBlock], wanted: &[(u32, &[u8])]) {
    assert_same(name, &blocks.len(), &wanted.len());
    for (block, (timestamp_offset, payload)) in blocks.iter().zip(wanted) {
        assert_same(name, &block.timestamp_offset, timestamp_offset);
        assert_bytes(name, block.payload, payload);
    }
}

/// An empty block that is not the primary one.
fn empty_block(pt: u8, timestamp_offset: u32) -> RedBlock<'static> {
    RedBlock {
        pt,
        timestamp_offset,
        payload: &[],
        is_primary: false,
    }
}

/// The offsets of the blocks of a type.
fn offsets_of_type(blocks: &[RedBlock], pt: u8) -> Result<Vec<u32>, AllocError> {
    let mut offsets = Vec::new();
    for block in red_same_pt_blocks(blocks, pt) {
        offsets.try_push(block.timestamp_offset)?;
    }
    Ok(offsets)
}

#[test]
fn red_same_type_blocks() -> Result<(), Fail> {
    let blocks = [
        empty_block(111, 1_920),
        empty_block(96, 960),
        empty_block(111, 0),
        empty_block(111, 960),
    ];
    let offsets = offsets_of_type(&blocks, 111)?;
    assert_eq!(offsets.as_slice(), [1_920u32, 960].as_slice());
    Ok(())
}

/// A block of type 96 with the bytes `0909`, 960 ticks older than the primary one.
fn redundant_block() -> Result<RedundantBlock, AllocError> {
    Ok(RedundantBlock {
        pt: 96,
        timestamp_offset: 960,
        payload: Vec::try_from_slice(&[9, 9])?,
    })
}

/// A payload of that block, and of a primary one of type 96 with the bytes `010203`.
fn encoded() -> Result<Vec<u8>, PacketError> {
    let mut redundant = Vec::new();
    redundant.try_push(redundant_block()?)?;
    RedEncoder::encode(96, &[1, 2, 3], &redundant)
}

/// Its bytes.
const ENCODED: [u8; 10] = [0xe0, 0x0f, 0x00, 0x02, 0x60, 9, 9, 1, 2, 3];

#[test]
fn red_encode_one_block() -> Result<(), Fail> {
    assert!(redundant_block()?.fits());
    let bytes = encoded()?;
    assert_bytes("red-encode-one-block", &bytes, &ENCODED);
    Ok(())
}

#[test]
fn blocks_are_compared_and_shown() -> Result<(), Fail> {
    let name = "a block";
    let block = RedBlock {
        pt: 96,
        timestamp_offset: 0,
        payload: &[1],
        is_primary: true,
    };
    let blocks = decoded(&[0x60, 0x01])?;
    assert_same(name, &blocks.first(), &Some(&block));
    assert_same(name, &block.clone(), &block);
    let shown = "RedBlock { pt: 96, timestamp_offset: 0, payload: [1], is_primary: true }";
    assert_shown(&block, shown)?;
    Ok(())
}

#[test]
fn encode_and_decode_where_memory_is_refused() -> Result<(), Fail> {
    let name = "red-where-memory-is-refused";
    if let Some(bytes) = found(encoded())? {
        assert_bytes(name, &bytes, &ENCODED);
    }
    if let Some(blocks) = found(decoded(&ENCODED))? {
        assert_blocks(name, &blocks, &[(960, &[9, 9]), (0, &[1, 2, 3])]);
    }
    Ok(())
}
