//! The worked examples of readers of bits.

use crate::Fail;
use crate::asserts::{assert_bytes, assert_same};
use codec_payload::bits::{BitRead, BitReader};

/// What is read, and the answer.
enum Read {
    /// The given number of bits.
    Bits(usize, Option<u8>),
    Leb128(Option<u64>),
    ByteOffset(usize),
}

/// What a reader of these bytes, which starts at that bit, answers one after another.
struct ReadRow {
    name: &'static str,
    bytes: &'static [u8],
    place_in_bits: usize,
    reads: &'static [Read],
}

const READS: [ReadRow; 3] = [
    ReadRow {
        // 10101100 01010000, of which the first four bits are skipped.
        name: "bits-reads-and-refusals",
        bytes: &[0xac, 0x50],
        place_in_bits: 4,
        reads: &[
            Read::Bits(6, Some(49)),
            Read::Bits(3, Some(2)),
            Read::Bits(9, None),
            Read::Bits(4, None),
            Read::Bits(3, Some(0)),
            Read::Bits(0, Some(0)),
        ],
    },
    ReadRow {
        // Ten bytes of LEB128 whose bits from the 65th on are set too.
        name: "leb128-high-bits-lost",
        bytes: &[0xff, 0xff, 0xff, 0xff, 0xff, 0xff, 0xff, 0xff, 0xff, 0x7f],
        place_in_bits: 0,
        reads: &[Read::Leb128(Some(u64::MAX))],
    },
    ReadRow {
        // Eleven bytes of LEB128 that all say that another follows.
        name: "leb128-ten-ff-none",
        bytes: &[0xff; 11],
        place_in_bits: 0,
        reads: &[Read::Leb128(None), Read::ByteOffset(10)],
    },
];

/// The next answer of a reader.
fn assert_read(name: &str, reader: &mut BitReader, read: &Read) {
    match *read {
        Read::Bits(count, value) => assert_same(name, &reader.get_bits(count), &value),
        Read::Leb128(value) => assert_same(name, &reader.get_leb128(), &value),
        Read::ByteOffset(offset) => assert_same(name, &reader.byte_offset(), &offset),
    }
}

#[test]
fn bits_are_read() {
    for row in &READS {
        let mut reader = BitReader::at(row.bytes, row.place_in_bits);
        for read in row.reads {
            assert_read(row.name, &mut reader, read);
        }
    }
}

/// The sum of two bytes, by whatever reads bits.
fn sum_of_two<'a, R: BitRead<'a>>(reader: &mut R) -> Option<u16> {
    let first = reader.get_u8()?;
    let second = reader.get_u8()?;
    Some(u16::from(first) + u16::from(second))
}

#[test]
fn any_reader_serves() {
    assert_eq!(sum_of_two(&mut BitReader::new(&[1, 2])), Some(3));
    assert_eq!(BitReader::new(&[1, 2]).get_u16(), Some(0x0102));
}

/// Two bytes behind the first, and what is left behind the one after them, by a reader that is then at the end.
fn lent(bytes: &[u8]) -> Option<(&[u8], &[u8])> {
    let mut reader = BitReader::at(bytes, 11);
    let two = reader.get_bytes(2)?;
    reader.skip_bytes(1);
    let rest = reader.get_remaining();
    assert_eq!(reader.remaining_bits(), 0);
    assert_eq!(reader.remaining_bytes(), 0);
    Some((two, rest))
}

#[test]
fn lent_bytes_outlive_the_next_read() -> Result<(), Fail> {
    let (two, rest) = lent(&[1, 2, 3, 4, 5]).ok_or("two bytes")?;
    assert_bytes("two bytes", two, &[2, 3]);
    assert_bytes("the rest", rest, &[5]);
    Ok(())
}
