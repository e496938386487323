//! What a sender makes of payloads.

use crate::Fail;
use crate::asserts::{assert_bytes, assert_same};
use crate::red::blocks::{assert_blocks, decoded};
use crate::red::{sender_of, sender_of_four, wrapped};
use crate::tables::found;
use codec_payload::error::PacketError;
use codec_payload::red::{MAX_RED_RECOVERY_DEPTH, RedSender};
use codec_payload::wire::Pt;

/// A payload that is as long as the budget.
const SEVENS: [u8; 1_200] = [7; 1_200];

/// A payload at an RTP time, and what a sender makes of it at a budget of 1,200 bytes, where that is looked at.
struct Payload {
    payload: &'static [u8],
    rtp_time: u32,
    wanted: Option<&'static [u8]>,
}

/// What a new sender of these distances makes of payloads, one after another.
struct SentRow {
    name: &'static str,
    distances: &'static [u32],
    payloads: &'static [Payload],
}

/// What a sender makes is, for each block, a byte of F and the type and 14 bits of offset and 10 of length, without these two
/// for the primary block, which is the last (RFC 2198, section 3); then the bytes of all blocks.
const SENT: [SentRow; 3] = [
    SentRow {
        name: "red-unwrapped-is-recorded",
        distances: &[1],
        payloads: &[
            Payload {
                payload: &[1, 2, 3],
                rtp_time: 1_000,
                wanted: Some(&[0x6f, 1, 2, 3]),
            },
            Payload {
                payload: &[4, 5],
                rtp_time: 1_960,
                wanted: Some(&[0xef, 0x0f, 0x00, 0x03, 0x6f, 1, 2, 3, 4, 5]),
            },
            Payload {
                payload: &SEVENS,
                rtp_time: 2_920,
                wanted: Some(&SEVENS),
            },
            Payload {
                payload: &[6],
                rtp_time: 3_880,
                wanted: Some(&[0x6f, 6]),
            },
        ],
    },
    SentRow {
        name: "red-two-distances",
        distances: &[1, 3],
        payloads: &[
            Payload {
                payload: &[0],
                rtp_time: 0,
                wanted: None,
            },
            Payload {
                payload: &[1],
                rtp_time: 960,
                wanted: None,
            },
            Payload {
                payload: &[2],
                rtp_time: 1_920,
                wanted: None,
            },
            Payload {
                payload: &[3],
                rtp_time: 2_880,
                wanted: None,
            },
            Payload {
                payload: &[0x2a],
                rtp_time: 3_840,
                wanted: Some(&[
                    0xef, 0x2d, 0x00, 0x01, 0xef, 0x0f, 0x00, 0x01, 0x6f, 0x01, 0x03, 0x2a,
                ]),
            },
        ],
    },
    SentRow {
        name: "red-offset-16384-left-out",
        distances: &[1],
        payloads: &[
            Payload {
                payload: &[1],
                rtp_time: 0,
                wanted: None,
            },
            Payload {
                payload: &[2],
                rtp_time: 16_384,
                wanted: Some(&[0x6f, 2]),
            },
        ],
    },
];

/// What a sender made of a payload, where that is looked at.
fn assert_wrapped(name: &str, answer: &Result<Vec<u8>, PacketError>, wanted: Option<&[u8]>) {
    match answer {
        Ok(bytes) => assert_bytes(name, bytes, wanted.unwrap_or(bytes)),
        Err(fault) => panic!("{name} is refused: {fault}"),
    }
}

/// What a new sender makes of the payloads of a row.
fn assert_row(row: &SentRow) {
    assert!(RedSender::accepts(row.distances), "in {}", row.name);
    let mut sender = sender_of(row.distances);
    for sent in row.payloads {
        let answer = wrapped(&mut sender, sent.payload, sent.rtp_time, 1_200);
        assert_wrapped(row.name, &answer, sent.wanted);
    }
}

#[test]
fn payloads_are_wrapped() {
    for row in &SENT {
        assert_row(row);
    }
}

/// Payloads of 100 bytes.
const ONES: [u8; 100] = [1; 100];

const TWOS: [u8; 100] = [2; 100];

const THREES: [u8; 100] = [3; 100];

/// What a sender makes of the third of them at a budget of 300 bytes.
fn third_of_hundred_bytes() -> Result<Vec<u8>, PacketError> {
    let mut sender = sender_of(&[1, 2]);
    wrapped(&mut sender, &ONES, 0, 300)?;
    wrapped(&mut sender, &TWOS, 960, 300)?;
    wrapped(&mut sender, &THREES, 1_920, 300)
}

#[test]
fn red_budget_300_shallowest() -> Result<(), Fail> {
    let name = "red-budget-300-shallowest";
    let third = third_of_hundred_bytes()?;
    assert_same(name, &third.len(), &205);
    let blocks = decoded(&third)?;
    assert_blocks(name, &blocks, &[(960, &TWOS), (0, &THREES)]);
    Ok(())
}

/// Whether the sender accepts these distances, which it then has from now on.
fn synced(sender: &mut RedSender, distances: &[u32]) -> bool {
    let accepts = RedSender::accepts(distances);
    if accepts {
        sender.sync(Pt::new_with_value(63), Pt::new_with_value(111), distances);
    }
    accepts
}

#[test]
fn red_sync_shorter_list() -> Result<(), Fail> {
    let name = "red-sync-shorter-list";
    let mut sender = sender_of_four()?;
    assert!(synced(&mut sender, &[1]));
    let last = wrapped(&mut sender, &[0x2a], 3_840, 1_200)?;
    assert_bytes(name, &last, &[0xef, 0x0f, 0x00, 0x01, 0x6f, 0x03, 0x2a]);
    assert_same(name, &sender.red_pt(), &Pt::new_with_value(63));
    Ok(())
}

/// Distances, and whether a sender accepts them.
const DISTANCES: [(&[u32], bool); 5] = [
    (&[], true),
    (&[1, 8], true),
    (&[0], false),
    (&[2, 2], false),
    (&[9], false),
];

#[test]
fn red_accepted_distances() {
    for (distances, accepted) in &DISTANCES {
        assert_eq!(RedSender::accepts(distances), *accepted, "of {distances:?}");
    }
    assert_eq!(MAX_RED_RECOVERY_DEPTH, 8);
}

/// What a sender makes of a byte, at a second attempt where memory is refused to the first.
fn wrapped_at_last(sender: &mut RedSender, byte: u8, rtp_time: u32) -> Result<Vec<u8>, Fail> {
    match found(wrapped(sender, &[byte], rtp_time, 1_200))? {
        Some(bytes) => Ok(bytes),
        None => Ok(wrapped(sender, &[byte], rtp_time, 1_200)?),
    }
}

/// Where memory is refused to one attempt to wrap a payload, the next gives what the first would have given, and so do
/// those for the payloads after it.
#[test]
fn wrap_where_memory_is_refused() -> Result<(), Fail> {
    let mut sender = sender_of(&[1, 3]);
    let mut last = Vec::new();
    for (byte, rtp_time) in [(0u8, 0u32), (1, 960), (2, 1_920), (3, 2_880), (0x2a, 3_840)] {
        last = wrapped_at_last(&mut sender, byte, rtp_time)?;
    }
    let wanted = [
        0xef, 0x2d, 0x00, 0x01, 0xef, 0x0f, 0x00, 0x01, 0x6f, 0x01, 0x03, 0x2a,
    ];
    assert_bytes("wrap-where-memory-is-refused", &last, &wanted);
    Ok(())
}
