//! Frames that are sent, also beside a plain packer, and what comes where memory is refused.

use crate::Fail;
use crate::asserts::assert_same;
use crate::av1::plain_packer::{plain_packets, put_leb};
use crate::av1::{PACKETS_OF_TWO, TWO_OBUS, TWO_OBUS_UNIT, sent, unit};
use crate::tables::{Frame, assert_sent, filled, found};
use codec_payload::error::PacketError;
use codec_payload::memory::{AllocError, TryVec};

/// Four metadata OBUs.
const FOUR_OBUS: [u8; 12] = [
    0x2a, 0x01, 0x11, 0x2a, 0x01, 0x22, 0x2a, 0x01, 0x33, 0x2a, 0x01, 0x44,
];

/// The four in one packet.
const FOUR_OBUS_PACKET: [u8; 13] = [
    0x00, 0x02, 0x28, 0x11, 0x02, 0x28, 0x22, 0x02, 0x28, 0x33, 0x02, 0x28, 0x44,
];

/// A frame that a new packetizer is given.
struct SentRow {
    name: &'static str,
    frame: Frame,
}

/// A frame is OBUs with their sizes. A packet is the byte Z Y W W N (version 1.0.0 of AV1's RTP format, section 4.4) and
/// elements, which are OBUs without sizes or pieces of these; each has its length in front, except the last one if W counts
/// the elements.
static SENT: [SentRow; 10] = [
    SentRow {
        name: "av1-two-obus-mtu-1200",
        frame: Frame {
            mtu: 1_200,
            bytes: &TWO_OBUS,
            packets: Ok(&[&[0x28, 0x02, 0x08, 0xaa, 0x30, 0xbb, 0xcc]]),
        },
    },
    SentRow {
        name: "av1-two-obus-mtu-3",
        frame: Frame {
            mtu: 3,
            bytes: &TWO_OBUS,
            packets: Ok(&[&[0x18, 0x08, 0xaa], &[0x50, 0x30, 0xbb], &[0x90, 0xcc]]),
        },
    },
    SentRow {
        name: "av1-four-obus-mtu-1200",
        frame: Frame {
            mtu: 1_200,
            bytes: &FOUR_OBUS,
            packets: Ok(&[&FOUR_OBUS_PACKET]),
        },
    },
    SentRow {
        name: "av1-four-obus-mtu-9",
        frame: Frame {
            mtu: 9,
            bytes: &FOUR_OBUS,
            packets: Ok(&[
                &[0x30, 0x02, 0x28, 0x11, 0x02, 0x28, 0x22, 0x28, 0x33],
                &[0x10, 0x28, 0x44],
            ]),
        },
    },
    SentRow {
        name: "av1-four-obus-mtu-12",
        frame: Frame {
            mtu: 12,
            bytes: &FOUR_OBUS,
            packets: Ok(&[
                &[
                    0x40, 0x02, 0x28, 0x11, 0x02, 0x28, 0x22, 0x02, 0x28, 0x33, 0x01, 0x28,
                ],
                &[0x90, 0x44],
            ]),
        },
    },
    SentRow {
        name: "the-greatest-mtu",
        frame: Frame {
            mtu: usize::MAX,
            bytes: &FOUR_OBUS,
            packets: Ok(&[&FOUR_OBUS_PACKET]),
        },
    },
    SentRow {
        name: "av1-shortest-size",
        frame: Frame {
            mtu: 1_200,
            bytes: &[0x0a, 0x81, 0x00, 0xaa],
            packets: Ok(&[&[0x18, 0x08, 0xaa]]),
        },
    },
    SentRow {
        name: "av1-frame-size-past-end-fault",
        frame: Frame {
            mtu: 1_200,
            bytes: &[0x0a, 0x05, 0xaa],
            packets: Err(PacketError::ErrAv1CorruptedPacket),
        },
    },
    SentRow {
        name: "av1-mtu-looked-at-first",
        frame: Frame {
            mtu: 1,
            bytes: &[0x12, 0x00, 0x0a, 0x05],
            packets: Ok(&[]),
        },
    },
    SentRow {
        name: "av1-mtu-2-five-packets",
        frame: Frame {
            mtu: 2,
            bytes: &TWO_OBUS_UNIT,
            packets: Ok(&PACKETS_OF_TWO),
        },
    },
];

#[test]
fn frames_are_sent() {
    for row in &SENT {
        let answer = sent(row.frame.mtu, row.frame.bytes);
        assert_sent(row.name, &answer, &row.frame.packets);
    }
}

/// Bytes with a number of filling bytes `bb` in the middle.
struct Filled {
    front: &'static [u8],
    count: usize,
    back: &'static [u8],
}

impl Filled {
    fn bytes(&self) -> Result<Vec<u8>, AllocError> {
        filled(self.front, 0xbb, self.count, self.back)
    }
}

/// A frame of many bytes and its two packets, with the lengths of these.
struct FilledRow {
    name: &'static str,
    mtu: usize,
    frame: Filled,
    first: Filled,
    second: Filled,
    lengths: [usize; 2],
}

/// Frames are OBUs of metadata without bytes and an OBU of a frame, which is long; packets cut that OBU where the MTU is
/// reached.
const FILLED: [FilledRow; 4] = [
    FilledRow {
        name: "av1-largest-fragment-mtu-136",
        mtu: 136,
        frame: Filled {
            front: &[0x2a, 0x00, 0x2a, 0x00, 0x2a, 0x00, 0x32, 0xc7, 0x01],
            count: 199,
            back: &[],
        },
        first: Filled {
            front: &[0x40, 0x01, 0x28, 0x01, 0x28, 0x01, 0x28, 0x7f, 0x30],
            count: 126,
            back: &[],
        },
        second: Filled {
            front: &[0x90],
            count: 73,
            back: &[],
        },
        lengths: [135, 74],
    },
    FilledRow {
        name: "av1-three-bytes-unused-mtu-136",
        mtu: 136,
        frame: Filled {
            front: &[0x2a, 0x00, 0x2a, 0x00, 0x32, 0x7f],
            count: 127,
            back: &[0x2a, 0x00],
        },
        first: Filled {
            front: &[0x30, 0x01, 0x28, 0x01, 0x28, 0x30],
            count: 127,
            back: &[],
        },
        second: Filled {
            front: &[0x10, 0x28],
            count: 0,
            back: &[],
        },
        lengths: [133, 2],
    },
    FilledRow {
        name: "av1-two-full-packets-mtu-10",
        mtu: 10,
        frame: Filled {
            front: &[0x32, 0x11],
            count: 17,
            back: &[],
        },
        first: Filled {
            front: &[0x50, 0x30],
            count: 8,
            back: &[],
        },
        second: Filled {
            front: &[0x90],
            count: 9,
            back: &[],
        },
        lengths: [10, 10],
    },
    FilledRow {
        name: "av1-largest-fragment-mtu-16392",
        mtu: 16_392,
        frame: Filled {
            front: &[0x2a, 0x00, 0x2a, 0x00, 0x2a, 0x00, 0x32, 0x9f, 0x9c, 0x01],
            count: 19_999,
            back: &[],
        },
        first: Filled {
            front: &[0x40, 0x01, 0x28, 0x01, 0x28, 0x01, 0x28, 0xff, 0x7f, 0x30],
            count: 16_382,
            back: &[],
        },
        second: Filled {
            front: &[0x90],
            count: 3_617,
            back: &[],
        },
        lengths: [16_392, 3_618],
    },
];

/// The two packets of a row's frame.
fn assert_filled(row: &FilledRow) -> Result<(), AllocError> {
    let first = row.first.bytes()?;
    let second = row.second.bytes()?;
    assert_same(row.name, &[first.len(), second.len()], &row.lengths);
    let frame = row.frame.bytes()?;
    let answer = sent(row.mtu, &frame);
    assert_sent(row.name, &answer, &Ok(&[&first, &second]));
    Ok(())
}

#[test]
fn filled_frames_are_sent() -> Result<(), Fail> {
    for row in &FILLED {
        assert_filled(row)?;
    }
    Ok(())
}

/// Frames as the lengths of the payloads of their OBUs.
const TABLE: [&[usize]; 12] = [
    &[0],
    &[1],
    &[40],
    &[2, 1],
    &[0, 0, 0],
    &[0, 0, 0, 0],
    &[1, 1, 1, 1, 1],
    &[3, 0, 9, 0, 2],
    &[20, 20],
    &[5, 5, 5, 5, 5, 5],
    &[0, 0, 0, 130],
    &[127, 128, 1, 0, 0],
];

/// The headers of these OBUs, in turn: one has an extension byte.
const HEADERS: [u8; 4] = [0x08, 0x28, 0x34, 0x30];

/// A frame with its sizes, and what payloads carry of each of its OBUs.
fn table_frame(lengths: &[usize]) -> Result<(Vec<u8>, Vec<Vec<u8>>), AllocError> {
    let mut frame = Vec::new();
    let mut strings = Vec::new();
    for (i, length) in lengths.iter().enumerate() {
        let header = HEADERS[i % 4];
        let mut string = Vec::new();
        string.try_push(header)?;
        frame.try_push(header | 0x02)?;
        if header == 0x34 {
            string.try_push(0x20)?;
            frame.try_push(0x20)?;
        }
        put_leb(&mut frame, *length)?;
        for k in 0..*length {
            string.try_push((k % 251) as u8)?;
            frame.try_push((k % 251) as u8)?;
        }
        strings.try_push(string)?;
    }
    Ok((frame, strings))
}

fn put_together(packets: &[Vec<u8>]) -> Result<Vec<u8>, PacketError> {
    let mut unit = unit();
    for packet in packets {
        unit.take(packet)?;
    }
    Ok(unit.out)
}

/// A frame is sent as the plain packer sends it, and comes back.
fn assert_as_plain(lengths: &[usize], mtu: usize) -> Result<(), PacketError> {
    let (frame, strings) = table_frame(lengths)?;
    let packets = sent(mtu, &frame)?;
    let plain = plain_packets(mtu, &strings)?;
    assert!(packets == plain, "lengths {lengths:?}, MTU {mtu}");
    let unit = put_together(&packets)?;
    assert!(unit == frame, "lengths {lengths:?}, MTU {mtu}");
    Ok(())
}

#[test]
fn as_a_plain_packer() -> Result<(), Fail> {
    for lengths in &TABLE {
        for mtu in 2..=20usize {
            assert_as_plain(lengths, mtu)?;
        }
    }
    Ok(())
}

#[test]
fn memory_is_refused_to_a_packetizer() -> Result<(), Fail> {
    if let Some(packets) = found(sent(3, &TWO_OBUS))? {
        assert_same("memory-is-refused", &packets.len(), &3);
    }
    Ok(())
}
