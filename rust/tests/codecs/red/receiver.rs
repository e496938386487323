//! The worked examples of recovery, and what comes where memory is refused.

use crate::Fail;
use crate::asserts::{assert_other, assert_same, assert_shown};
use crate::red::{sender_of_four, wrapped};
use crate::tables::found;
use codec_payload::error::PacketError;
use codec_payload::red::{Recovered, RedReceiver};
use codec_payload::wire::SeqNo;

/// A block of type 96 with the bytes `0304`, 960 ticks older than the primary one, which has the byte `05`.
const BLOCK_AND_PRIMARY: [u8; 8] = [0xe0, 0x0f, 0x00, 0x02, 0x60, 0x03, 0x04, 0x05];

/// A block of type 96 with the byte `01`, 900 ticks older than the primary one, which has the byte `aa`.
const NINE_HUNDRED_BACK: [u8; 7] = [0xe0, 0x0e, 0x10, 0x01, 0x60, 0x01, 0xaa];

/// Blocks of the types 96, 97 and 96, each 240 ticks older than the one after it, and a primary one of type 96.
const OF_TWO_TYPES: [u8; 17] = [
    0xe0, 0x0b, 0x40, 0x01, 0xe1, 0x07, 0x80, 0x01, 0xe0, 0x03, 0xc0, 0x01, 0x60, 1, 2, 3, 4,
];

fn older<'a>(seq_no: u64, rtp_time: u32, payload: &'a [u8]) -> Recovered<'a> {
    Recovered {
        seq_no: SeqNo(seq_no),
        rtp_time,
        payload,
        is_primary: false,
    }
}

fn primary<'a>(seq_no: u64, rtp_time: u32, payload: &'a [u8]) -> Recovered<'a> {
    Recovered {
        seq_no: SeqNo(seq_no),
        rtp_time,
        payload,
        is_primary: true,
    }
}

/// What a receiver finds in the payload of a packet.
struct RecoveredRow {
    name: &'static str,
    primary_pt: u8,
    step: u32,
    seq_no: u64,
    rtp_time: u32,
    payload: &'static [u8],
    wanted: Result<&'static [Recovered<'static>], PacketError>,
}

static RECOVERED: [RecoveredRow; 13] = [
    RecoveredRow {
        name: "recover-block-and-primary",
        primary_pt: 96,
        step: 960,
        seq_no: 12,
        rtp_time: 2_880,
        payload: &BLOCK_AND_PRIMARY,
        wanted: Ok(&[
            Recovered {
                seq_no: SeqNo(11),
                rtp_time: 1_920,
                payload: &[3, 4],
                is_primary: false,
            },
            Recovered {
                seq_no: SeqNo(12),
                rtp_time: 2_880,
                payload: &[5],
                is_primary: true,
            },
        ]),
    },
    RecoveredRow {
        name: "recover-other-step",
        primary_pt: 96,
        step: 961,
        seq_no: 12,
        rtp_time: 2_880,
        payload: &BLOCK_AND_PRIMARY,
        wanted: Ok(&[Recovered {
            seq_no: SeqNo(12),
            rtp_time: 2_880,
            payload: &[5],
            is_primary: true,
        }]),
    },
    RecoveredRow {
        name: "recover-number-zero",
        primary_pt: 96,
        step: 960,
        seq_no: 0,
        rtp_time: 2_880,
        payload: &BLOCK_AND_PRIMARY,
        wanted: Ok(&[Recovered {
            seq_no: SeqNo(0),
            rtp_time: 2_880,
            payload: &[5],
            is_primary: true,
        }]),
    },
    RecoveredRow {
        name: "recover-other-type",
        primary_pt: 97,
        step: 960,
        seq_no: 12,
        rtp_time: 2_880,
        payload: &BLOCK_AND_PRIMARY,
        wanted: Ok(&[]),
    },
    RecoveredRow {
        name: "recover-nine-steps-back",
        primary_pt: 96,
        step: 100,
        seq_no: 20,
        rtp_time: 5_000,
        payload: &NINE_HUNDRED_BACK,
        wanted: Ok(&[Recovered {
            seq_no: SeqNo(20),
            rtp_time: 5_000,
            payload: &[0xaa],
            is_primary: true,
        }]),
    },
    RecoveredRow {
        name: "recover-block-past-end-fault",
        primary_pt: 96,
        step: 960,
        seq_no: 12,
        rtp_time: 2_880,
        payload: &[0xe0, 0x0f, 0x00, 0xff, 0x60],
        wanted: Err(PacketError::ErrRedCorruptedPacket),
    },
    // An offset of 900 ticks is 6 steps of 150 and half a step of 1,800, and that of a block may be 0.
    RecoveredRow {
        name: "blocks-are-whole-steps-back, six",
        primary_pt: 96,
        step: 150,
        seq_no: 20,
        rtp_time: 5_000,
        payload: &NINE_HUNDRED_BACK,
        wanted: Ok(&[
            Recovered {
                seq_no: SeqNo(14),
                rtp_time: 4_100,
                payload: &[1],
                is_primary: false,
            },
            Recovered {
                seq_no: SeqNo(20),
                rtp_time: 5_000,
                payload: &[0xaa],
                is_primary: true,
            },
        ]),
    },
    RecoveredRow {
        name: "blocks-are-whole-steps-back, half",
        primary_pt: 96,
        step: 1_800,
        seq_no: 20,
        rtp_time: 5_000,
        payload: &NINE_HUNDRED_BACK,
        wanted: Ok(&[Recovered {
            seq_no: SeqNo(20),
            rtp_time: 5_000,
            payload: &[0xaa],
            is_primary: true,
        }]),
    },
    RecoveredRow {
        name: "blocks-are-whole-steps-back, none",
        primary_pt: 96,
        step: 150,
        seq_no: 20,
        rtp_time: 5_000,
        payload: &[0xe0, 0x00, 0x00, 0x01, 0x60, 0x01, 0xaa],
        wanted: Ok(&[Recovered {
            seq_no: SeqNo(20),
            rtp_time: 5_000,
            payload: &[0xaa],
            is_primary: true,
        }]),
    },
    // RTP times go below 0 and on at 2^32, numbers do not.
    RecoveredRow {
        name: "times-pass-zero-and-numbers-do-not, to zero",
        primary_pt: 96,
        step: 150,
        seq_no: 6,
        rtp_time: 899,
        payload: &NINE_HUNDRED_BACK,
        wanted: Ok(&[
            Recovered {
                seq_no: SeqNo(0),
                rtp_time: 4_294_967_295,
                payload: &[1],
                is_primary: false,
            },
            Recovered {
                seq_no: SeqNo(6),
                rtp_time: 899,
                payload: &[0xaa],
                is_primary: true,
            },
        ]),
    },
    RecoveredRow {
        name: "times-pass-zero-and-numbers-do-not, below zero",
        primary_pt: 96,
        step: 150,
        seq_no: 5,
        rtp_time: 899,
        payload: &NINE_HUNDRED_BACK,
        wanted: Ok(&[Recovered {
            seq_no: SeqNo(5),
            rtp_time: 899,
            payload: &[0xaa],
            is_primary: true,
        }]),
    },
    // A block of another type is skipped, and the blocks around it are not.
    RecoveredRow {
        name: "each-block-is-looked-at-by-itself, 96",
        primary_pt: 96,
        step: 240,
        seq_no: 9,
        rtp_time: 10_000,
        payload: &OF_TWO_TYPES,
        wanted: Ok(&[
            Recovered {
                seq_no: SeqNo(6),
                rtp_time: 9_280,
                payload: &[1],
                is_primary: false,
            },
            Recovered {
                seq_no: SeqNo(8),
                rtp_time: 9_760,
                payload: &[3],
                is_primary: false,
            },
            Recovered {
                seq_no: SeqNo(9),
                rtp_time: 10_000,
                payload: &[4],
                is_primary: true,
            },
        ]),
    },
    RecoveredRow {
        name: "each-block-is-looked-at-by-itself, 97",
        primary_pt: 97,
        step: 240,
        seq_no: 9,
        rtp_time: 10_000,
        payload: &OF_TWO_TYPES,
        wanted: Ok(&[Recovered {
            seq_no: SeqNo(7),
            rtp_time: 9_520,
            payload: &[2],
            is_primary: false,
        }]),
    },
];

/// A receiver of blocks of a type, and of its steps.
fn receiver(primary_pt: u8, step: u32) -> Option<RedReceiver> {
    RedReceiver::new(primary_pt, step)
}

/// What a receiver finds in a payload.
fn recovered<'a>(
    receiver: &RedReceiver,
    seq_no: u64,
    rtp_time: u32,
    payload: &'a [u8],
) -> Result<Vec<Recovered<'a>>, PacketError> {
    receiver.recover(SeqNo(seq_no), rtp_time, payload)
}

/// The packets that a receiver found, or its fault.
fn assert_recovered<'a>(
    name: &str,
    answer: &Result<Vec<Recovered<'a>>, PacketError>,
    wanted: &Result<&[Recovered<'a>], PacketError>,
) {
    match (answer, wanted) {
        (Ok(packets), Ok(wanted)) => assert_same(name, &packets.as_slice(), wanted),
        (Err(fault), Err(wanted)) => assert_same(name, fault, wanted),
        _ => panic!("{name} gives {answer:?} in place of {wanted:?}"),
    }
}

/// What a row's receiver finds.
fn assert_row(row: &RecoveredRow) {
    match receiver(row.primary_pt, row.step) {
        Some(receiver) => {
            let answer = recovered(&receiver, row.seq_no, row.rtp_time, row.payload);
            assert_recovered(row.name, &answer, &row.wanted);
        }
        None => panic!("no receiver in {}", row.name),
    }
}

#[test]
fn packets_are_recovered() {
    for row in &RECOVERED {
        assert_row(row);
    }
}

/// Of five packets, numbered from 10 and 960 ticks apart, the fifth repeats the first one before it and the third.
#[test]
fn what_a_sender_repeats_is_recovered() -> Result<(), Fail> {
    let mut sender = sender_of_four()?;
    let fifth = wrapped(&mut sender, &[0x2a], 3_840, 1_200)?;
    let receiver = receiver(111, 960).ok_or("no receiver")?;
    let answer = recovered(&receiver, 14, 3_840, &fifth);
    let wanted = [
        older(11, 960, &[1]),
        older(13, 2_880, &[3]),
        primary(14, 3_840, &[0x2a]),
    ];
    assert_recovered("what-a-sender-repeats", &answer, &Ok(&wanted));
    Ok(())
}

/// Steps, and whether a receiver may have them.
const STEPS: [(u32, bool); 4] = [(0, false), (1, true), (16_383, true), (16_384, false)];

#[test]
fn steps_of_receivers() -> Result<(), Fail> {
    for (step, accepted) in &STEPS {
        assert_eq!(receiver(96, *step).is_some(), *accepted, "of {step}");
    }
    let masked = receiver(0xe0, 960).ok_or("no receiver")?;
    assert_same("the lower seven bits", &masked.primary_pt(), &96);
    Ok(())
}

#[test]
fn receivers_are_compared_and_shown() -> Result<(), Fail> {
    let name = "a receiver";
    let copy = receiver(0xe0, 960);
    assert_same(name, &receiver(0xe0, 960), &copy);
    assert_same(name, &receiver(96, 960), &copy);
    assert_other(name, &receiver(96, 961), &copy);
    assert_other(name, &receiver(97, 960), &copy);
    let shown = "RedReceiver { primary_pt: 96, step: 960 }";
    assert_shown(&copy.ok_or("no receiver")?, shown)?;
    Ok(())
}

#[test]
fn packets_are_compared_and_shown() -> Result<(), Fail> {
    let name = "a packet";
    let packet = older(11, 1_920, &[3, 4]);
    assert_same(name, &packet.clone(), &packet);
    assert_other(name, &packet, &primary(11, 1_920, &[3, 4]));
    let shown =
        "Recovered { seq_no: SeqNo(11), rtp_time: 1920, payload: [3, 4], is_primary: false }";
    assert_shown(&packet, shown)?;
    Ok(())
}

/// Where memory is refused the fault is 17, and what is no RED payload has fault 14 all the same.
#[test]
fn recover_where_memory_is_refused() -> Result<(), Fail> {
    let name = "recover-where-memory-is-refused";
    let receiver = receiver(96, 960).ok_or("no receiver")?;
    let answer = recovered(&receiver, 12, 2_880, &BLOCK_AND_PRIMARY);
    if let Some(packets) = found(answer)? {
        let wanted = [older(11, 1_920, &[3, 4]), primary(12, 2_880, &[5])];
        assert_same(name, &packets.as_slice(), &wanted.as_slice());
    }
    let cut = [0xe0, 0x0f, 0x00, 0xff, 0x60];
    let answer = recovered(&receiver, 12, 2_880, &cut);
    assert_recovered(name, &answer, &Err(PacketError::ErrRedCorruptedPacket));
    Ok(())
}
