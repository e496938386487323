//! Runs by test vectors: steps and their results.

use crate::Fail;
use crate::sides::{receiver_of, sample_of, sender_of};
use codec_payload::buffer::Depacketized;
use codec_payload::error::PacketError;
use codec_payload::jitter::jitter_buffer::{Outcome, WaitLimits};
use codec_payload::schedule::datagrams::run::{DatagramRun, DatagramStep, run_datagrams};
use codec_payload::stream::receiver::ReceiveError;
use codec_payload::wire::{Ticks, ToPayload};

/// One step of a run.
#[derive(Clone, Copy, Debug)]
enum Event {
    /// Sends the frame with that index.
    Send(usize),
    /// Delivers the datagram with that index at a time.
    Deliver(usize, u64),
    /// Pops at a time.
    Pop(u64),
    Finish,
}

/// What a pop gives: the frame, and whether it follows the one before.
type Unit = Option<(&'static [u8], bool)>;

/// The steps, the number of datagrams of each sample, a letter for each receipt, and the result of each pop.
struct Row {
    name: &'static str,
    wait_limits: WaitLimits,
    events: &'static [Event],
    sent: &'static [usize],
    receipts: &'static str,
    units: &'static [Unit],
}

/// A keyframe of VP8: the lowest bit of its first byte is clear (RFC 7741, section 4.3).
const FIRST: &[u8] = &[0x10, 1, 2];

/// Two interframes.
const SECOND: &[u8] = &[0x11, 3, 4];

const THIRD: &[u8] = &[0x13, 5, 6];

/// Three frames of two datagrams each, and a sample with nothing in it.
const FRAMES: [&[u8]; 4] = [FIRST, SECOND, THIRD, &[]];

/// A frame after a gap waits for 50 ticks.
const WAITS: WaitLimits = {
    let mut limits = WaitLimits::live();
    limits.hold_back = Some(1_000);
    limits.start = 0;
    limits.max_wait = Some(50);
    limits
};

/// The first frame also waits for a second one.
const STARTS_LATER: WaitLimits = {
    let mut limits = WaitLimits::live();
    limits.hold_back = Some(1_000);
    limits.start = 1;
    limits.max_wait = Some(50);
    limits
};

const ROWS: [Row; 8] = [
    Row {
        name: "all-in-order",
        wait_limits: WAITS,
        events: &[
            Event::Send(0),
            Event::Deliver(0, 0),
            Event::Pop(0),
            Event::Deliver(1, 0),
            Event::Pop(0),
            Event::Send(1),
            Event::Deliver(2, 5),
            Event::Deliver(3, 5),
            Event::Pop(5),
            Event::Pop(5),
        ],
        sent: &[2, 2],
        receipts: "hhhh",
        units: &[None, Some((FIRST, true)), Some((SECOND, true)), None],
    },
    Row {
        name: "all-reversed-and-some-again",
        wait_limits: WAITS,
        events: &[
            Event::Send(0),
            Event::Send(1),
            Event::Send(2),
            Event::Deliver(5, 0),
            Event::Deliver(4, 0),
            Event::Deliver(3, 0),
            Event::Deliver(4, 0),
            Event::Deliver(2, 0),
            Event::Deliver(1, 0),
            Event::Deliver(0, 0),
            Event::Deliver(5, 0),
            Event::Pop(0),
            Event::Pop(0),
            Event::Pop(0),
            Event::Pop(0),
        ],
        sent: &[2, 2, 2],
        receipts: "hhhdhhhd",
        units: &[
            Some((FIRST, true)),
            Some((SECOND, true)),
            Some((THIRD, true)),
            None,
        ],
    },
    Row {
        name: "a-datagram-is-lost",
        wait_limits: WAITS,
        events: &[
            Event::Send(0),
            Event::Send(1),
            Event::Send(2),
            Event::Deliver(0, 0),
            Event::Deliver(1, 0),
            Event::Deliver(2, 0),
            Event::Deliver(4, 10),
            Event::Deliver(5, 10),
            Event::Pop(10),
            Event::Pop(59),
            Event::Pop(60),
            Event::Pop(60),
        ],
        sent: &[2, 2, 2],
        receipts: "hhhhh",
        units: &[Some((FIRST, true)), None, Some((THIRD, false)), None],
    },
    Row {
        name: "what-comes-too-late-is-dropped",
        wait_limits: WAITS,
        events: &[
            Event::Send(0),
            Event::Send(1),
            Event::Send(2),
            Event::Deliver(0, 0),
            Event::Deliver(1, 0),
            Event::Pop(0),
            Event::Deliver(4, 0),
            Event::Deliver(5, 0),
            Event::Pop(50),
            Event::Deliver(2, 51),
            Event::Deliver(3, 51),
            Event::Pop(101),
        ],
        sent: &[2, 2, 2],
        receipts: "hhhhll",
        units: &[Some((FIRST, true)), Some((THIRD, false)), None],
    },
    Row {
        name: "what-comes-in-time-closes-the-gap",
        wait_limits: WAITS,
        events: &[
            Event::Send(0),
            Event::Send(1),
            Event::Send(2),
            Event::Deliver(0, 0),
            Event::Deliver(1, 0),
            Event::Pop(0),
            Event::Deliver(4, 0),
            Event::Deliver(5, 0),
            Event::Pop(49),
            Event::Deliver(3, 49),
            Event::Deliver(2, 49),
            Event::Pop(49),
            Event::Pop(49),
        ],
        sent: &[2, 2, 2],
        receipts: "hhhhhh",
        units: &[
            Some((FIRST, true)),
            None,
            Some((SECOND, true)),
            Some((THIRD, true)),
        ],
    },
    Row {
        name: "the-second-frame-comes-first",
        wait_limits: STARTS_LATER,
        events: &[
            Event::Send(0),
            Event::Send(1),
            Event::Deliver(2, 0),
            Event::Deliver(3, 0),
            Event::Pop(0),
            Event::Deliver(1, 1),
            Event::Deliver(0, 1),
            Event::Pop(1),
            Event::Pop(1),
        ],
        sent: &[2, 2],
        receipts: "hhhh",
        units: &[None, Some((FIRST, true)), Some((SECOND, true))],
    },
    Row {
        name: "the-end-of-a-stream-with-a-gap",
        wait_limits: STARTS_LATER,
        events: &[
            Event::Send(0),
            Event::Send(1),
            Event::Send(2),
            Event::Deliver(4, 0),
            Event::Deliver(5, 0),
            Event::Deliver(1, 0),
            Event::Deliver(0, 0),
            Event::Pop(0),
            Event::Pop(0),
            Event::Finish,
            Event::Pop(0),
            Event::Pop(0),
        ],
        sent: &[2, 2, 2],
        receipts: "hhhh",
        units: &[Some((FIRST, true)), None, Some((THIRD, false)), None],
    },
    Row {
        name: "nothing-in-it-and-nothing-there",
        wait_limits: WAITS,
        events: &[
            Event::Deliver(0, 0),
            Event::Send(3),
            Event::Send(4),
            Event::Deliver(0, 0),
            Event::Send(2),
            Event::Deliver(0, 0),
            Event::Deliver(1, 0),
            Event::Deliver(2, 0),
            Event::Pop(0),
        ],
        sent: &[0, 2],
        receipts: "hh",
        units: &[Some((THIRD, true))],
    },
];

fn step_of(event: Event) -> DatagramStep {
    match event {
        Event::Send(sample) => DatagramStep::Send(sample),
        Event::Deliver(datagram, now) => DatagramStep::Deliver {
            datagram,
            now: Ticks(now),
        },
        Event::Pop(now) => DatagramStep::Pop { now: Ticks(now) },
        Event::Finish => DatagramStep::Finish,
    }
}

/// The frames, 3,000 ticks apart.
fn samples() -> Vec<ToPayload> {
    let times = (0..).step_by(3_000);
    times
        .zip(FRAMES)
        .map(|(time, frame)| sample_of(time, frame))
        .collect()
}

fn run_of(wait_limits: WaitLimits, events: &[Event]) -> Result<DatagramRun, Fail> {
    let mut sender = sender_of()?;
    let mut receiver = receiver_of(wait_limits)?;
    let steps: Vec<DatagramStep> = events.iter().copied().map(step_of).collect();
    Ok(run_datagrams(
        &mut sender,
        &mut receiver,
        &samples(),
        &steps,
    )?)
}

/// How many datagrams each sample has.
fn sent_in(run: &DatagramRun) -> Vec<usize> {
    run.sends.iter().map(|entry| entry.count).collect()
}

/// A letter for each receipt: held, duplicate, late, or another.
fn letter_of(receipt: &Result<Outcome, ReceiveError>) -> char {
    match receipt {
        Ok(Outcome::Held) => 'h',
        Ok(Outcome::Duplicate) => 'd',
        Ok(Outcome::Late) => 'l',
        _ => '?',
    }
}

fn receipts_in(run: &DatagramRun) -> String {
    run.receipts.iter().map(letter_of).collect()
}

/// What a pop gave.
fn unit_in(answer: &Option<Result<Depacketized, PacketError>>) -> Option<(&[u8], bool)> {
    match answer {
        Some(Ok(unit)) => Some((unit.bytes.as_slice(), unit.contiguous)),
        Some(Err(_)) => Some((&[], false)),
        None => None,
    }
}

/// Ends the test unless each pop of the run gave that.
fn assert_popped(name: &str, run: &DatagramRun, units: &[Unit]) {
    assert_eq!(run.pops.len(), units.len(), "in {name}");
    for (answer, unit) in run.pops.iter().zip(units) {
        assert_eq!(unit_in(answer), *unit, "in {name}");
    }
}

#[test]
fn rows() -> Result<(), Fail> {
    for row in &ROWS {
        let run = run_of(row.wait_limits, row.events)?;
        assert_eq!(sent_in(&run), row.sent, "in {}", row.name);
        assert_eq!(receipts_in(&run), row.receipts, "in {}", row.name);
        assert_popped(row.name, &run, row.units);
    }
    Ok(())
}
