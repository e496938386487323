//! Runs in RED over random networks, pop by pop: the receiver holds and releases what a plain model says, in which each delivery pushes
//! the packets that its datagram brings.

use crate::Fail;
use crate::red::{FRAMES, frame_of, link_with, samples};
use codec_payload::jitter::jitter_buffer::{Outcome, WaitLimits};
use codec_payload::red::RedSender;
use codec_payload::schedule::datagrams::{DatagramStep, RedRun, run_datagrams_in_red};
use codec_payload::stream::pops::Popped;
use codec_payload::wire::{Pt, Ticks};
use std::collections::BTreeSet;

/// The windows of the receiver.
const FORWARD: usize = 60;
const BACKWARD: usize = 12;

/// What a run has.
pub struct Case {
    pub distances: &'static [u32],
    pub limit: usize,
    pub hold_back: usize,
}

/// Random numbers (the generator of Numerical Recipes).
pub struct Random {
    seed: u32,
}

impl Random {
    pub fn new(seed: u32) -> Self {
        Self { seed }
    }

    /// A number below `bound`.
    pub fn below(&mut self, bound: usize) -> usize {
        self.seed = self
            .seed
            .wrapping_mul(1_664_525)
            .wrapping_add(1_013_904_223);
        (self.seed >> 8) as usize % bound
    }
}

/// The packets that a receiver holds, by their indices.
pub struct Model<'a> {
    case: &'a Case,
    held: BTreeSet<usize>,
    /// One more than the highest number that was released or evicted.
    next: Option<usize>,
    evicted: bool,
    highest: usize,
    ended: bool,
}

impl<'a> Model<'a> {
    pub fn new(case: &'a Case) -> Self {
        Self {
            case,
            held: BTreeSet::new(),
            next: None,
            evicted: false,
            highest: 0,
            ended: false,
        }
    }

    /// The datagram pushes its packet, and its blocks that are not too far behind.
    pub fn deliver(&mut self, datagram: usize) {
        self.highest = self.highest.max(datagram);
        self.push(datagram);
        for distance in self.case.distances {
            let packet = datagram.checked_sub(*distance as usize);
            if let Some(packet) = packet.filter(|it| self.highest <= it + BACKWARD) {
                self.push(packet);
            }
        }
    }

    fn push(&mut self, packet: usize) {
        if self.next.is_some_and(|next| packet < next) || !self.held.insert(packet) {
            return;
        }
        if self.held.len() > self.case.limit {
            let lowest = self.held.pop_first().expect("more than the limit");
            self.next = Some(lowest + 1);
            self.evicted = true;
        }
    }

    pub fn finish(&mut self) {
        self.ended = true;
    }

    /// The released packet, and whether it is contiguous.
    pub fn pop(&mut self) -> Option<(usize, bool)> {
        let room = (self.case.limit / 8).max(10);
        let is_pressed = self.ended || self.case.limit - self.held.len() < room;
        let hold_back = if is_pressed { 0 } else { self.case.hold_back };
        let first = *self.held.first()?;
        let follows = self.next.is_none_or(|next| next == first);
        if !follows && self.held.len() <= hold_back {
            return None;
        }
        self.held.pop_first();
        let contiguous = follows && !self.evicted;
        self.next = Some(first + 1);
        self.evicted = false;
        Some((first, contiguous))
    }
}

/// Random steps: datagrams in any order within the windows, some of them lost or repeated, and pops between them.
fn steps_of(random: &mut Random) -> Vec<DatagramStep> {
    let mut steps: Vec<DatagramStep> = (0..FRAMES).map(DatagramStep::Send).collect();
    let mut highest = random.below(10);
    let mut datagram = highest;
    loop {
        steps.push(DatagramStep::Deliver {
            datagram,
            now: Ticks(0),
        });
        highest = highest.max(datagram);
        for _ in 0..random.below(3) {
            steps.push(DatagramStep::Pop { now: Ticks(0) });
        }
        datagram = match random.below(10) {
            0..4 => highest + 1,
            4..6 => highest + 2 + random.below(4),
            6 => highest + 1 + random.below(FORWARD - 1),
            _ => highest.saturating_sub(random.below(BACKWARD + 1)),
        };
        if datagram >= FRAMES {
            break;
        }
    }
    if random.below(2) == 0 {
        steps.push(DatagramStep::Finish);
    }
    steps.extend((0..FRAMES).map(|_| DatagramStep::Pop { now: Ticks(0) }));
    steps
}

/// What the model pops in these steps.
fn wanted_of(case: &Case, steps: &[DatagramStep]) -> Vec<Option<(usize, bool)>> {
    let mut model = Model::new(case);
    let mut wanted = Vec::new();
    for step in steps {
        match step {
            DatagramStep::Send(_) => {}
            DatagramStep::Deliver { datagram, .. } => model.deliver(*datagram),
            DatagramStep::Pop { .. } => wanted.push(model.pop()),
            DatagramStep::Finish => model.finish(),
        }
    }
    wanted
}

/// The index of each popped packet, and whether its unit was contiguous.
pub fn popped_of(run: &RedRun) -> Result<Vec<Option<(usize, bool)>>, Fail> {
    let mut popped = Vec::new();
    for answer in &run.run.pops {
        let Some(unit) = answer else {
            popped.push(None);
            continue;
        };
        let unit = unit.as_ref().map_err(|_| "a unit is refused")?;
        let number = unit.meta()[0].header.sequence_number;
        let index = usize::from(number.wrapping_sub(65_535));
        assert_eq!(unit.bytes, frame_of(index));
        popped.push(Some((index, unit.contiguous)));
    }
    Ok(popped)
}

#[test]
fn pops_are_those_of_the_model() -> Result<(), Fail> {
    let cases = [
        Case {
            distances: &[1],
            limit: 64,
            hold_back: 3,
        },
        Case {
            distances: &[1, 2],
            limit: 16,
            hold_back: 0,
        },
        Case {
            distances: &[2, 8],
            limit: 12,
            hold_back: 5,
        },
        Case {
            distances: &[1, 3, 8],
            limit: 4,
            hold_back: 9,
        },
        Case {
            distances: &[],
            limit: 20,
            hold_back: 2,
        },
    ];
    let samples = samples();
    let mut evictions = 0;
    for (number, case) in cases.iter().enumerate() {
        for seed in 0..60 {
            let mut random = Random::new(seed * 7 + number as u32);
            let steps = steps_of(&mut random);
            let limits = {
                let mut limits = WaitLimits::live();
                limits.hold_back = Some(case.hold_back);
                limits.start = 0;
                limits.max_wait = None;
                limits
            };
            let mut link = link_with(case.distances, case.limit, limits, |settings| {
                settings.forward = FORWARD as u16;
                settings.backward = BACKWARD as u16;
            })?;
            let run = run_datagrams_in_red(&mut link, &samples, &steps)?;
            assert_eq!(
                popped_of(&run)?,
                wanted_of(case, &steps),
                "case {number}, seed {seed}"
            );
            let counters = link.receiver.counters();
            assert_eq!(counters.packets.no_media, 0);
            evictions += counters.packets.evicted;
        }
    }
    assert!(evictions > 0, "no packet was evicted");
    Ok(())
}

/// A datagram in RED with the packet of this index, 8,192 ticks after the one before, and with a block of that one if `has_block`.
fn datagram_of(index: usize, has_block: bool) -> Result<Vec<u8>, Fail> {
    let time_of = |index: usize| (index as u32).wrapping_mul(8_192);
    let mut red = RedSender::new(Pt::new_with_value(63), Pt::new_with_value(96), &[1]);
    if has_block {
        red.wrap(vec![0; 3], time_of(index - 1), 1_200)?;
    }
    let payload = red.wrap(frame_of(index).to_vec(), time_of(index), 1_200)?;
    let mut datagram = vec![0x80, 63];
    datagram.extend((index as u16).to_be_bytes());
    datagram.extend(time_of(index).to_be_bytes());
    datagram.extend(7_u32.to_be_bytes());
    datagram.extend(payload);
    Ok(datagram)
}

/// Why the promises of a run in RED have the premise `StaysInTurn`: 16 jumps of 32,767 packets are a turn of the RTP clock, if packets
/// are 8,192 ticks apart.
#[test]
fn a_packet_a_turn_after_a_block_is_taken_for_it() -> Result<(), Fail> {
    const TURN: usize = 1 << 19;
    let limits = {
        let mut limits = WaitLimits::live();
        limits.hold_back = Some(0);
        limits.start = 0;
        limits.max_wait = None;
        limits
    };
    let mut receiver = link_with(&[1], 64, limits, |settings| {
        settings.forward = 32_768;
        settings.backward = 100;
        if let Some(red) = &mut settings.red {
            red.step = 8_192;
        }
    })?
    .receiver;
    receiver.receive(Ticks(0), &datagram_of(1, true)?)?;
    for index in (1..17).map(|jump| 1 + jump * 32_767) {
        receiver.receive(Ticks(0), &datagram_of(index, false)?)?;
    }
    receiver.receive(Ticks(0), &datagram_of(TURN - 1, false)?)?;
    let outcome = receiver.receive(Ticks(0), &datagram_of(TURN, false)?)?;
    assert_eq!(outcome, Outcome::NoMedia);
    receiver.receive(Ticks(0), &datagram_of(TURN + 1, true)?)?;
    let mut popped = Vec::new();
    while let Some(unit) = receiver.pop(Ticks(0)) {
        if let Popped::Unit(unit) = unit? {
            popped.push((unit.bytes, unit.contiguous));
        }
    }
    // The packet in between is missing.
    let last = [
        (frame_of(TURN - 1).to_vec(), false),
        (frame_of(TURN + 1).to_vec(), true),
    ];
    assert_eq!(popped[popped.len() - 2..], last);
    Ok(())
}
