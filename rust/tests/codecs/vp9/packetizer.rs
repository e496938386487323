//! Frames that are sent, and copies of packetizers.

use crate::Fail;
use crate::asserts::assert_same;
use crate::tables::{Frame, assert_frames, packetize};
use codec_payload::vp9::{Vp9Packetizer, Vp9PacketizerMode};

/// Frames that one packetizer is given one after another.
struct SentRow {
    name: &'static str,
    mode: Vp9PacketizerMode,
    first_id: u16,
    frames: &'static [Frame],
}

/// A frame that begins with 0x82 is a keyframe of profile 0, one with 0x86 an interframe; 0x92 and 0x96 begin those of
/// profile 2. A packet is a descriptor (RFC 9628, section 4.2) and then bytes of its frame. The descriptor is the byte I P L
/// F B E V Z and the id in two bytes; in the non-flexible mode also TID U SID D with U alone, TL0PICIDX, and, in the first
/// packet of a keyframe, a structure of one layer without sizes and groups.
static SENT: [SentRow; 6] = [
    SentRow {
        name: "vp9-nonflex-two-packets",
        mode: Vp9PacketizerMode::NonFlexible,
        first_id: 0x1234,
        frames: &[Frame {
            mtu: 10,
            bytes: &[0x82, 0x49, 0x83],
            packets: Ok(&[
                &[0xaa, 0x92, 0x34, 0x10, 0x01, 0x00, 0x82, 0x49],
                &[0xa4, 0x92, 0x34, 0x10, 0x01, 0x83],
            ]),
        }],
    },
    SentRow {
        name: "vp9-nonflex-mtu-8-skips",
        mode: Vp9PacketizerMode::NonFlexible,
        first_id: 0x1234,
        frames: &[
            Frame {
                mtu: 8,
                bytes: &[0x82, 0x49, 0x83],
                packets: Ok(&[]),
            },
            Frame {
                mtu: 10,
                bytes: &[0x82, 0x49, 0x83],
                packets: Ok(&[
                    &[0xaa, 0x92, 0x34, 0x10, 0x02, 0x00, 0x82, 0x49],
                    &[0xa4, 0x92, 0x34, 0x10, 0x02, 0x83],
                ]),
            },
        ],
    },
    SentRow {
        name: "vp9-flex-two-packets",
        mode: Vp9PacketizerMode::Flexible,
        first_id: 0x1234,
        frames: &[Frame {
            mtu: 5,
            bytes: &[0x82, 0x49, 0x83],
            packets: Ok(&[&[0x98, 0x92, 0x34, 0x82, 0x49], &[0x94, 0x92, 0x34, 0x83]]),
        }],
    },
    SentRow {
        name: "vp9-skipped-frame",
        mode: Vp9PacketizerMode::NonFlexible,
        first_id: 0,
        frames: &[
            Frame {
                mtu: 1_200,
                bytes: &[0x82, 0x49, 0x83],
                packets: Ok(&[&[0xae, 0x80, 0x00, 0x10, 0x01, 0x00, 0x82, 0x49, 0x83]]),
            },
            Frame {
                mtu: 8,
                bytes: &[0x86, 0x00],
                packets: Ok(&[]),
            },
            Frame {
                mtu: 1_200,
                bytes: &[0x86, 0x00],
                packets: Ok(&[&[0xec, 0x80, 0x01, 0x10, 0x03, 0x86, 0x00]]),
            },
        ],
    },
    SentRow {
        name: "vp9-profile-2-keyframe",
        mode: Vp9PacketizerMode::NonFlexible,
        first_id: 0,
        frames: &[Frame {
            mtu: 1_200,
            bytes: &[0x92, 0x49, 0x83, 0x42, 0x00],
            packets: Ok(&[&[
                0xae, 0x80, 0x00, 0x10, 0x01, 0x00, 0x92, 0x49, 0x83, 0x42, 0x00,
            ]]),
        }],
    },
    SentRow {
        name: "vp9-profile-2-keyframe, no keyframe",
        mode: Vp9PacketizerMode::NonFlexible,
        first_id: 0,
        frames: &[Frame {
            mtu: 1_200,
            bytes: &[0x96, 0x49, 0x83, 0x42, 0x00],
            packets: Ok(&[&[0xec, 0x80, 0x00, 0x10, 0x01, 0x96, 0x49, 0x83, 0x42, 0x00]]),
        }],
    },
];

/// The packets of a row's frames.
fn assert_row(row: &SentRow) {
    assert!(row.first_id < 0x8000);
    let mut packetizer = Vp9Packetizer::with_mode(row.mode, row.first_id);
    assert_frames(row.name, &mut packetizer, row.frames);
}

#[test]
fn frames_are_sent() {
    for row in &SENT {
        assert_row(row);
    }
}

#[test]
fn vp9_packetizers_are_copied() -> Result<(), Fail> {
    let mut sender = Vp9Packetizer::with_mode(Vp9PacketizerMode::Flexible, 0x7fff);
    let mut copy = sender.clone();
    let sent = packetize(&mut sender, 9, &[0x82])?;
    let again = packetize(&mut copy, 9, &[0x82])?;
    assert_same("a copy of a packetizer", &again, &sent);
    Ok(())
}
