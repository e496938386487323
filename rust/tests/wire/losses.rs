//! A network that loses one datagram in ten, delivers one in ten twice, and reorders each sixteen. All frames whose datagrams both
//! arrived are released, in order, once each and whole.

use crate::Fail;
use crate::sides::{receiver_of, sample_of, sender_of};
use codec_payload::buffer::Depacketized;
use codec_payload::error::PacketError;
use codec_payload::jitter::jitter_buffer::WaitLimits;
use codec_payload::schedule::datagrams::run::{DatagramStep, run_datagrams};
use codec_payload::wire::{Ticks, ToPayload};

/// How many blocks of eight frames there are; each frame has two datagrams.
const BLOCKS: u8 = 25;

/// Nothing that is complete waits.
const AT_ONCE: WaitLimits = {
    let mut limits = WaitLimits::live();
    limits.hold_back = Some(1_000);
    limits.start = 0;
    limits.max_wait = Some(0);
    limits
};

/// The steps, and the results that the network's losses give.
struct Schedule {
    steps: Vec<DatagramStep>,
    /// Whether both datagrams of each frame come.
    is_whole: Vec<bool>,
    delivered: u64,
    repeated: u64,
    /// The latest of a sequence of numbers that look random.
    seed: u32,
}

/// The next of that sequence (the generator of Numerical Recipes).
fn following(seed: u32) -> u32 {
    seed.wrapping_mul(1_664_525).wrapping_add(1_013_904_223)
}

/// The frame with that index.
fn frame_of(index: u8) -> [u8; 3] {
    [index, 0xa5, index]
}

impl Schedule {
    /// Eight frames are sent.
    fn send(&mut self, block: usize) {
        for frame in 8 * block..8 * block + 8 {
            self.steps.push(DatagramStep::Send(frame));
            self.is_whole.push(true);
        }
    }

    /// A datagram is brought.
    fn bring(&mut self, datagram: usize) {
        self.delivered += 1;
        self.steps.push(DatagramStep::Deliver {
            datagram,
            now: Ticks(0),
        });
    }

    /// The network has a datagram, and brings it once, twice, or never.
    fn pass_on(&mut self, datagram: usize) {
        self.seed = following(self.seed);
        match (self.seed >> 16) % 10 {
            0 => self.is_whole[datagram / 2] = false,
            1 => {
                self.repeated += 1;
                self.bring(datagram);
                self.bring(datagram);
            }
            _ => self.bring(datagram),
        }
    }

    /// Delivers the datagrams of eight frames, and pops all units.
    fn deliver(&mut self, block: usize) {
        for place in 0..16 {
            self.pass_on(16 * block + place * 7 % 16);
        }
        for _ in 0..9 {
            self.steps.push(DatagramStep::Pop { now: Ticks(0) });
        }
    }
}

/// A block is sent, delivered and popped, and then the next.
fn schedule_of() -> Schedule {
    let mut schedule = Schedule {
        steps: Vec::new(),
        is_whole: Vec::new(),
        delivered: 0,
        repeated: 0,
        seed: 1,
    };
    for block in 0..usize::from(BLOCKS) {
        schedule.send(block);
        schedule.deliver(block);
    }
    schedule
}

fn samples() -> Vec<ToPayload> {
    let frames = 0..BLOCKS * 8;
    frames
        .map(|index| sample_of(u64::from(index) * 3_000, &frame_of(index)))
        .collect()
}

/// The bytes of all frames whose datagrams both came.
fn wanted_of(schedule: &Schedule) -> Vec<u8> {
    let frames = (0u8..).zip(&schedule.is_whole);
    let whole = frames.filter(|(_, is_whole)| **is_whole);
    whole.flat_map(|(index, _)| frame_of(index)).collect()
}

/// The bytes of all units, which have three bytes each.
fn popped_in(pops: &[Option<Result<Depacketized, PacketError>>]) -> Result<Vec<u8>, Fail> {
    let mut popped = Vec::new();
    for answer in pops.iter().flatten() {
        let unit = answer.as_ref().map_err(|_| "a unit is refused")?;
        popped.extend_from_slice(&unit.bytes);
    }
    Ok(popped)
}

#[test]
fn what_comes_whole_comes_out() -> Result<(), Fail> {
    let mut sender = sender_of()?;
    let mut receiver = receiver_of(AT_ONCE)?;
    let schedule = schedule_of();
    let run = run_datagrams(&mut sender, &mut receiver, &samples(), &schedule.steps)?;
    let wanted = wanted_of(&schedule);
    assert_eq!(popped_in(&run.pops)?, wanted);
    let counters = receiver.counters();
    assert_eq!(counters.received, schedule.delivered);
    assert_eq!(counters.packets.duplicates, schedule.repeated);
    assert_eq!(counters.packets.units, wanted.len() as u64 / 3);
    assert_eq!(counters.packets.released, wanted.len() as u64 / 3 * 2);
    assert!(0 < schedule.repeated && wanted.len() < 600);
    Ok(())
}
