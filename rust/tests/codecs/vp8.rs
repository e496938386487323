//! The worked examples of VP8, and its descriptor in all its forms.

mod depacketizer;
mod descriptor;
mod packetizer;
mod patch;

/// A payload with the ids 0x1234 and 0x55 and the key index 7.
pub const READ: [u8; 7] = [0x90, 0xf0, 0x92, 0x34, 0x55, 0xa7, 0x00];
