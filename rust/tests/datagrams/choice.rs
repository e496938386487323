//! Which stream a receiver chooses, packet by packet.

use crate::Fail;
use crate::events::{WAITS, packet, pop_all, receiver_for, take};
use codec_payload::codec::NoBox;
use codec_payload::stream::receiver::Receiver;

/// A packet that comes: when, its SSRC and its number.
#[derive(Clone, Copy, Debug)]
struct Comes(u64, u8, u16);

/// Packets, their outcomes and the units released, the number of packets of other streams, and the number held.
#[derive(Clone, Copy, Debug)]
struct Row {
    name: &'static str,
    packets: &'static [Comes],
    told: &'static str,
    other_streams: u64,
    undecided: u64,
}

const ROWS: [Row; 6] = [
    Row {
        name: "a stray packet comes first",
        packets: &[
            Comes(0, 8, 500),
            Comes(0, 7, 10),
            Comes(0, 7, 11),
            Comes(0, 7, 12),
        ],
        told: "uuhh 10 11 12.",
        other_streams: 1,
        undecided: 0,
    },
    Row {
        name: "the first two are swapped",
        packets: &[Comes(0, 7, 11), Comes(0, 7, 10), Comes(0, 7, 12)],
        told: "uhh 10 11 12.",
        other_streams: 0,
        undecided: 0,
    },
    Row {
        name: "numbers 101 apart choose nothing",
        packets: &[
            Comes(0, 7, 10),
            Comes(0, 7, 111),
            Comes(0, 7, 212),
            Comes(0, 7, 112),
        ],
        told: "uuuh 112 212.",
        other_streams: 2,
        undecided: 0,
    },
    Row {
        name: "of five SSRCs the first leaves",
        packets: &[
            Comes(0, 1, 10),
            Comes(0, 2, 10),
            Comes(0, 3, 10),
            Comes(0, 4, 10),
            Comes(0, 5, 10),
            Comes(0, 1, 11),
            Comes(0, 5, 11),
        ],
        told: "uuuuuuh 10 11.",
        other_streams: 5,
        undecided: 0,
    },
    Row {
        name: "less than 2 s of silence choose nothing",
        packets: &[
            Comes(0, 7, 10),
            Comes(0, 7, 11),
            Comes(1_999, 8, 90),
            Comes(1_999, 8, 91),
        ],
        told: "uhoo 10 11.",
        other_streams: 2,
        undecided: 0,
    },
    Row {
        name: "after 2 s of silence another stream is chosen",
        packets: &[
            Comes(0, 7, 10),
            Comes(0, 7, 11),
            Comes(2_000, 8, 90),
            Comes(2_000, 8, 91),
        ],
        told: "uhuh 10 11 90 91.",
        other_streams: 0,
        undecided: 0,
    },
];

/// The packets come.
fn take_all(receiver: &mut Receiver<NoBox>, packets: &[Comes], told: &mut String) {
    for &Comes(now, ssrc, number) in packets {
        let bytes = packet(96, number, ssrc, (number % 256) as u8);
        told.push(take(receiver, now, &bytes));
    }
}

/// A receiver that names no SSRC.
fn open_receiver() -> Result<Receiver<NoBox>, Fail> {
    receiver_for(None, WAITS, 4_096)
}

#[test]
fn rows() -> Result<(), Fail> {
    for row in &ROWS {
        let mut receiver = open_receiver()?;
        let mut told = String::new();
        take_all(&mut receiver, row.packets, &mut told);
        pop_all(&mut receiver, 9_999, &mut told);
        let counters = receiver.counters();
        assert_eq!(told, row.told, "when {}", row.name);
        assert_eq!(
            counters.received,
            row.packets.len() as u64,
            "when {}",
            row.name
        );
        assert_eq!(
            counters.other_streams, row.other_streams,
            "when {}",
            row.name
        );
        assert_eq!(counters.undecided, row.undecided, "when {}", row.name);
    }
    Ok(())
}

#[test]
fn one_packet_comes_out_at_the_end() -> Result<(), Fail> {
    let mut receiver = open_receiver()?;
    let mut told = String::new();
    take_all(&mut receiver, &[Comes(0, 7, 10)], &mut told);
    assert_eq!(receiver.counters().undecided, 1);
    receiver.finish().unwrap();
    pop_all(&mut receiver, 0, &mut told);
    assert_eq!(told, "u 10.");
    assert_eq!(receiver.ssrc(), Some(7));
    Ok(())
}

#[test]
fn the_sender_that_was_left_is_another_stream() -> Result<(), Fail> {
    let mut receiver = open_receiver()?;
    let mut told = String::new();
    take_all(
        &mut receiver,
        &[Comes(0, 7, 10), Comes(0, 7, 11)],
        &mut told,
    );
    receiver.restart_as(8, None);
    take_all(
        &mut receiver,
        &[Comes(0, 7, 12), Comes(0, 7, 13), Comes(0, 8, 3)],
        &mut told,
    );
    pop_all(&mut receiver, 9_999, &mut told);
    assert_eq!(told, "uhoor 10 11 3.");
    Ok(())
}
