//! Frames that are sent, and copies of packetizers.

use crate::Fail;
use crate::asserts::assert_same;
use crate::tables::{Frame, assert_frames, packetize};
use codec_payload::vp8::Vp8Packetizer;

/// Frames that one packetizer is given one after another.
struct SentRow {
    name: &'static str,
    /// The first picture id, where ids are sent.
    first_id: Option<u16>,
    frames: &'static [Frame],
}

/// A frame that begins with 0x90 is a keyframe, one with 0x91 an interframe. A packet is a descriptor (RFC 7741, section 4.2)
/// and then bytes of its frame. The descriptor is the byte X R N S R PID; where ids are sent X is set, and then come I L T K,
/// with I alone, and the id in one byte, or in two with the highest bit set.
static SENT: [SentRow; 8] = [
    SentRow {
        name: "vp8-no-ids-three-packets",
        first_id: None,
        frames: &[
            Frame {
                mtu: 2,
                bytes: &[0x90, 0x90, 0x90],
                packets: Ok(&[&[0x10, 0x90], &[0x00, 0x90], &[0x00, 0x90]]),
            },
            Frame {
                mtu: 2,
                bytes: &[0x91, 0x91],
                packets: Ok(&[&[0x10, 0x91], &[0x00, 0x91]]),
            },
        ],
    },
    SentRow {
        name: "vp8-mtu-max",
        first_id: None,
        frames: &[Frame {
            mtu: usize::MAX,
            bytes: &[0x90, 0x90, 0x90],
            packets: Ok(&[&[0x10, 0x90, 0x90, 0x90]]),
        }],
    },
    SentRow {
        name: "vp8-mtu-max, with ids",
        first_id: Some(0x7fff),
        frames: &[Frame {
            mtu: usize::MAX,
            bytes: &[0x90, 0x90, 0x90],
            packets: Ok(&[&[0x90, 0x80, 0xff, 0xff, 0x90, 0x90, 0x90]]),
        }],
    },
    SentRow {
        name: "vp8-id-two-frames",
        first_id: Some(0x20),
        frames: &[
            Frame {
                mtu: 5,
                bytes: &[0x90, 0x90, 0x90],
                packets: Ok(&[&[0x90, 0x80, 0x20, 0x90, 0x90], &[0x80, 0x80, 0x20, 0x90]]),
            },
            Frame {
                mtu: 5,
                bytes: &[0x91, 0x91],
                packets: Ok(&[&[0x90, 0x80, 0x21, 0x91, 0x91]]),
            },
        ],
    },
    SentRow {
        name: "vp8-id-mtu-3-skips",
        first_id: Some(0x20),
        frames: &[
            Frame {
                mtu: 3,
                bytes: &[0x90, 0x90, 0x90],
                packets: Ok(&[]),
            },
            Frame {
                mtu: 5,
                bytes: &[0x91, 0x91],
                packets: Ok(&[&[0x90, 0x80, 0x20, 0x91, 0x91]]),
            },
        ],
    },
    SentRow {
        name: "vp8-id-widens-at-128",
        first_id: Some(0x7f),
        frames: &[
            Frame {
                mtu: 5,
                bytes: &[0x90, 0x90],
                packets: Ok(&[&[0x90, 0x80, 0x7f, 0x90, 0x90]]),
            },
            Frame {
                mtu: 5,
                bytes: &[0x91],
                packets: Ok(&[&[0x90, 0x80, 0x80, 0x80, 0x91]]),
            },
        ],
    },
    SentRow {
        name: "vp8-id-wrap-15",
        first_id: Some(0x7fff),
        frames: &[
            Frame {
                mtu: 5,
                bytes: &[0x90],
                packets: Ok(&[&[0x90, 0x80, 0xff, 0xff, 0x90]]),
            },
            Frame {
                mtu: 5,
                bytes: &[0x90],
                packets: Ok(&[&[0x90, 0x80, 0x00, 0x90]]),
            },
        ],
    },
    SentRow {
        name: "vp8-id-two-bytes",
        first_id: Some(0x120),
        frames: &[Frame {
            mtu: 6,
            bytes: &[0x90, 0x90, 0x90],
            packets: Ok(&[
                &[0x90, 0x80, 0x81, 0x20, 0x90, 0x90],
                &[0x80, 0x80, 0x81, 0x20, 0x90],
            ]),
        }],
    },
];

/// The packets of a row's frames.
fn assert_row(row: &SentRow) {
    let mut packetizer = match row.first_id {
        Some(id) => {
            assert!(id < 0x8000);
            Vp8Packetizer::with_picture_id(id)
        }
        None => Vp8Packetizer::default(),
    };
    assert_frames(row.name, &mut packetizer, row.frames);
}

#[test]
fn frames_are_sent() {
    for row in &SENT {
        assert_row(row);
    }
}

#[test]
fn vp8_packetizers_are_copied() -> Result<(), Fail> {
    let mut sender = Vp8Packetizer::with_picture_id(0x7f);
    let mut copy = sender;
    let sent = packetize(&mut sender, 9, &[0x90])?;
    let again = packetize(&mut copy, 9, &[0x90])?;
    assert_same("a copy of a packetizer", &again, &sent);
    Ok(())
}
