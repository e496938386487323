//! The worked examples of AV1, a table of frames beside a plain packer, and what is left where memory is refused.

mod depacketizer;
mod packetizer;
mod plain_packer;

use crate::tables::{Unit, packetize};
use codec_payload::av1::{Av1Depacketizer, Av1Packetizer};
use codec_payload::error::PacketError;

/// A temporal delimiter, a sequence header and a frame.
pub const TWO_OBUS: [u8; 9] = [0x12, 0x00, 0x0a, 0x01, 0xaa, 0x32, 0x02, 0xbb, 0xcc];

/// The same without the temporal delimiter.
pub const TWO_OBUS_UNIT: [u8; 7] = [0x0a, 0x01, 0xaa, 0x32, 0x02, 0xbb, 0xcc];

/// The two in packets of two bytes.
pub const PACKETS_OF_TWO: [&[u8]; 5] = [
    &[0x58, 0x08],
    &[0x90, 0xaa],
    &[0x50, 0x30],
    &[0xd0, 0xbb],
    &[0x90, 0xcc],
];

pub fn sent(mtu: usize, frame: &[u8]) -> Result<Vec<Vec<u8>>, PacketError> {
    packetize(&mut Av1Packetizer, mtu, frame)
}

/// A depacketizer that holds nothing.
pub fn unit() -> Unit<Av1Depacketizer> {
    Unit::new(Av1Depacketizer::new())
}
