//! Opus packets, and the header of a stream.

use crate::Fail;
use crate::asserts::assert_same;
use crate::tables::filled;
use codec_payload::media::opus::OpusBandwidth::{Fullband, Mediumband, SuperWideband};
use codec_payload::media::opus::OpusMode::{Celt, Hybrid, Silk};
use codec_payload::media::opus::{OpusBandwidth, OpusHead, OpusMode, OpusPacket};
use codec_payload::media::vpx::error::MediaError;
use codec_payload::memory::AllocError;

/// An Opus packet: its first bytes, and the number of bytes after them.
struct OpusRow {
    name: &'static str,
    front: &'static [u8],
    behind: usize,
    /// The mode, the band, the channels, the frames and the ticks of all.
    found: Result<(OpusMode, OpusBandwidth, u8, u8, u32), MediaError>,
}

/// The first byte is the table of contents; behind it come the count of frames with code 3, the lengths of padding and of
/// frames (RFC 6716, section 3).
static OPUS: [OpusRow; 14] = [
    OpusRow {
        name: "opus-20-ms",
        front: &[0x78, 0x81],
        behind: 87,
        found: Ok((Hybrid, Fullband, 1, 1, 960)),
    },
    OpusRow {
        name: "opus-2.5-ms",
        front: &[0x80, 0x37],
        behind: 6,
        found: Ok((Celt, OpusBandwidth::Narrowband, 1, 1, 120)),
    },
    OpusRow {
        name: "opus-5-ms",
        front: &[0xe8, 0xb5],
        behind: 20,
        found: Ok((Celt, Fullband, 1, 1, 240)),
    },
    OpusRow {
        name: "opus-40-ms-two-lengths",
        front: &[0x7a, 0x58],
        behind: 145,
        found: Ok((Hybrid, Fullband, 1, 2, 1920)),
    },
    OpusRow {
        name: "opus-60-ms-counted",
        front: &[0x7b, 0x83, 0x58, 0x39],
        behind: 208,
        found: Ok((Hybrid, Fullband, 1, 3, 2880)),
    },
    OpusRow {
        name: "opus-120-ms-counted",
        front: &[0xfb, 0x86, 0x75, 0x52, 0x51, 0x4e, 0x4e],
        behind: 515,
        found: Ok((Celt, Fullband, 1, 6, 5760)),
    },
    OpusRow {
        name: "opus-stereo",
        front: &[0xfc, 0xb4],
        behind: 295,
        found: Ok((Celt, Fullband, 2, 1, 960)),
    },
    OpusRow {
        name: "opus-voice",
        front: &[0x48, 0x82],
        behind: 49,
        found: Ok((Silk, OpusBandwidth::Wideband, 1, 1, 960)),
    },
    OpusRow {
        name: "opus-code-3-padding",
        // Two frames of 3 bytes of 60 ms, and 254 + 2 bytes of padding.
        front: &[0x3b, 0x42, 0xff, 0x02],
        behind: 262,
        found: Ok((Silk, Mediumband, 1, 2, 5760)),
    },
    OpusRow {
        name: "opus-padding-passes-end-fault",
        front: &[0x3b, 0x42, 0xff, 0x02],
        behind: 255,
        found: Err(MediaError::SizesDoNotFit),
    },
    OpusRow {
        name: "opus-odd-halves-fault",
        front: &[0x61],
        behind: 3,
        found: Err(MediaError::SizesDoNotFit),
    },
    OpusRow {
        name: "opus-even-halves",
        front: &[0x61],
        behind: 4,
        found: Ok((Hybrid, SuperWideband, 1, 2, 960)),
    },
    OpusRow {
        name: "opus-frame-of-1276-fault",
        front: &[0xfc],
        behind: 1276,
        found: Err(MediaError::SizesDoNotFit),
    },
    OpusRow {
        name: "opus-180-ms-fault",
        front: &[0x3b, 0x03],
        behind: 9,
        found: Err(MediaError::ReservedValue),
    },
];

fn assert_opus(row: &OpusRow) -> Result<(), AllocError> {
    let bytes = filled(row.front, 0, row.behind, &[])?;
    let found = match OpusPacket::parse(&bytes) {
        Ok(p) => Ok((p.mode, p.bandwidth, p.channels, p.frames, p.ticks())),
        Err(fault) => Err(fault),
    };
    assert_same(row.name, &found, &row.found);
    Ok(())
}

#[test]
fn opus_packets() -> Result<(), Fail> {
    for row in OPUS.iter() {
        assert_opus(row)?;
    }
    Ok(())
}

/// A byte alone is a frame or two of no bytes, or lacks its lengths or its count.
#[test]
fn opus_each_byte_alone() {
    for byte in 0..=255u8 {
        let frames = match OpusPacket::parse(&[byte]) {
            Ok(packet) => Ok(packet.frames),
            Err(fault) => Err(fault),
        };
        let wanted = match byte % 4 {
            0 => Ok(1),
            1 => Ok(2),
            _ => Err(MediaError::MissingBytes),
        };
        assert_same("opus-each-byte", &frames, &wanted);
    }
}

/// How many strings of two bytes are packets, counted by the rules of RFC 6716, section 3.2, for each of the 64 first bytes
/// of a code: all 256 of code 0; none of code 1, whose frames are of one length; that of a first frame of no bytes of code 2;
/// of code 3 without padding each count of at most 120 ms, and one frame whose length is in the packet. The 32 configurations have 497 of
/// these.
#[test]
fn opus_each_two_bytes() {
    let mut packets = 0;
    for first in 0..=255u8 {
        for second in 0..=255u8 {
            if OpusPacket::parse(&[first, second]).is_ok() {
                packets = u32::saturating_add(packets, 1);
            }
        }
    }
    assert_same("opus-two-bytes", &packets, &(64 * 256 + 64 + 2 * 497));
}

/// The header that libopus's encoder wrote for a stereo stream.
#[test]
fn opus_head() {
    let head = OpusHead {
        channels: 2,
        pre_skip: 312,
        input_sample_rate: 48_000,
    };
    assert_eq!(
        head.to_bytes(),
        *b"OpusHead\x01\x02\x38\x01\x80\xbb\x00\x00\x00\x00\x00"
    );
}
