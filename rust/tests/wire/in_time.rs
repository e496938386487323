//! When units come: random networks, with pops until `None` after each delivery and at each deadline. Each unit that is held whole is
//! popped at the latest `max_wait` after the latest frame, at or before it, that became complete; a frame counts from the arrival of
//! its packet with the highest number. The bound is worked out from the steps and the answers by a plain model.

use crate::Fail;
use crate::red_pops::Random;
use crate::sides::{receiver_settings, sample_of, sender_of};
use codec_payload::codec::{CodecDepacketizer, NoBox};
use codec_payload::jitter::jitter_buffer::{Outcome, WaitLimits};
use codec_payload::schedule::datagrams::{DatagramRun, DatagramStep, run_datagrams};
use codec_payload::sender::Sample;
use codec_payload::stream::receiver::Receiver;
use codec_payload::wire::{Codec, Ticks, ToPayload};
use std::collections::BTreeMap;

/// How many frames a run has. They are 20 ms apart.
const FRAMES: usize = 60;

/// What a run has.
struct Case {
    hold_back: Option<usize>,
    start: usize,
    max_wait: u64,
    limit: usize,
    /// Whether pops are made at deadlines.
    at_deadlines: bool,
}

fn receiver_for(case: &Case) -> Result<Receiver<NoBox>, Fail> {
    let limits = {
        let mut limits = WaitLimits::live();
        limits.hold_back = case.hold_back;
        limits.start = case.start;
        limits.max_wait = Some(case.max_wait);
        limits
    };
    let mut settings = receiver_settings(limits)?;
    settings.limit = case.limit;
    let depacketizer = CodecDepacketizer::from_codec(Codec::Vp8).ok_or("no depacketizer")?;
    Ok(Receiver::new(depacketizer, settings).map_err(|_| "settings out of range")?)
}

/// Frames of two to six bytes, which give one to three datagrams. The first two bytes are the index.
fn samples_of(random: &mut Random) -> Vec<ToPayload> {
    let frames = 0..FRAMES;
    frames
        .map(|index| {
            let mut frame = vec![(index / 256) as u8, (index % 256) as u8];
            frame.resize(2 + random.below(5), 0xa5);
            sample_of(index as u64 * 1_800, &frame)
        })
        .collect()
}

/// Something that happens at a moment.
#[derive(Clone, Copy)]
enum Happening {
    Send(usize),
    Come(usize),
    Finish,
}

/// What a network does with the datagrams of these samples: it loses some, repeats some, and delays some so long that they come after
/// their frame was due.
fn network(samples: &[ToPayload], random: &mut Random) -> Result<Vec<(u64, Happening)>, Fail> {
    let mut sender = sender_of()?;
    let mut happenings = Vec::new();
    let mut datagram = 0;
    for (index, sample) in samples.iter().enumerate() {
        let sent = 20 * index as u64;
        happenings.push((sent, Happening::Send(index)));
        sender.send(&Sample {
            rtp_time: sample.rtp_time,
            bytes: &sample.bytes,
            start_of_talk_spurt: false,
            ext_vals: sample.ext_vals,
        })?;
        for _ in 0..sender.len() {
            for _ in 0..[0, 1, 1, 1, 1, 1, 1, 2][random.below(8)] {
                let delay = [0, 0, 5, 20, 20, 60, 130, 400][random.below(8)];
                happenings.push((sent + delay, Happening::Come(datagram)));
            }
            datagram += 1;
        }
    }
    if random.below(4) == 0 {
        happenings.push((20 * random.below(FRAMES) as u64, Happening::Finish));
    }
    happenings.sort_by_key(|it| it.0);
    Ok(happenings)
}

/// The steps of a run, and a receiver that takes them, so that its deadlines are known.
struct Script {
    steps: Vec<DatagramStep>,
    sender_datagrams: Vec<Vec<u8>>,
    receiver: Receiver<NoBox>,
    now: u64,
}

impl Script {
    /// Pops until `None`.
    fn pop_all(&mut self) -> Result<(), Fail> {
        loop {
            let now = Ticks(self.now);
            self.steps.push(DatagramStep::Pop { now });
            match self.receiver.pop(now) {
                None => return Ok(()),
                Some(answer) => drop(answer?),
            }
        }
    }

    /// Pops at the deadlines up to `time`.
    fn pop_until(&mut self, time: u64) -> Result<(), Fail> {
        while let Some(deadline) = self.receiver.next_deadline().filter(|it| it.0 <= time) {
            self.now = self.now.max(deadline.0);
            self.pop_all()?;
        }
        self.now = time;
        Ok(())
    }

    /// Takes a step. More datagrams may come at this moment before the pops.
    fn happen(&mut self, happening: Happening, more: bool) -> Result<(), Fail> {
        match happening {
            Happening::Send(index) => self.steps.push(DatagramStep::Send(index)),
            Happening::Come(datagram) => {
                let now = Ticks(self.now);
                self.steps.push(DatagramStep::Deliver { datagram, now });
                self.receiver
                    .receive(now, &self.sender_datagrams[datagram])?;
                if !more {
                    self.pop_all()?;
                }
            }
            Happening::Finish => {
                self.steps.push(DatagramStep::Finish);
                self.receiver.finish()?;
            }
        }
        Ok(())
    }
}

/// All datagrams of the samples.
fn datagrams_of(samples: &[ToPayload]) -> Result<Vec<Vec<u8>>, Fail> {
    let steps: Vec<_> = (0..samples.len()).map(DatagramStep::Send).collect();
    let mut receiver = Receiver::new(
        CodecDepacketizer::from_codec(Codec::Vp8).ok_or("no depacketizer")?,
        receiver_settings(WaitLimits::live())?,
    )
    .map_err(|_| "settings out of range")?;
    let run = run_datagrams(&mut sender_of()?, &mut receiver, samples, &steps)?;
    Ok(run.datagrams)
}

/// A run over a random network. Some runs end while units are held.
fn run_of(case: &Case, random: &mut Random) -> Result<(Vec<DatagramStep>, DatagramRun), Fail> {
    let samples = samples_of(random);
    let happenings = network(&samples, random)?;
    let mut script = Script {
        steps: Vec::new(),
        sender_datagrams: datagrams_of(&samples)?,
        receiver: receiver_for(case)?,
        now: 0,
    };
    for (place, (time, happening)) in happenings.iter().enumerate() {
        if case.at_deadlines {
            script.pop_until(*time)?;
        }
        script.now = *time;
        let next = happenings.get(place + 1);
        let comes = next.is_some_and(|it| it.0 == *time && matches!(it.1, Happening::Come(_)));
        script.happen(*happening, comes && random.below(3) != 0)?;
    }
    if case.at_deadlines && random.below(2) == 0 {
        script.pop_until(20 * FRAMES as u64 + 2_000)?;
    }
    let mut receiver = receiver_for(case)?;
    let run = run_datagrams(&mut sender_of()?, &mut receiver, &samples, &script.steps)?;
    Ok((script.steps, run))
}

/// How many units were popped, how many of these at their bound, since they waited for missing packets, and what became of others.
#[derive(Default)]
struct Found {
    popped: usize,
    by_wait: usize,
    evicted: usize,
    held: usize,
    /// Those that were never held whole before a pop.
    late: usize,
}

/// What is known of the packets of a run, by their indices.
struct Model<'a> {
    case: &'a Case,
    /// The first index of each frame, and one past its last.
    frames: Vec<(usize, usize)>,
    /// The held packets, with their times of arrival.
    held: BTreeMap<usize, u64>,
    cutoff: Option<usize>,
    /// For each frame: the first pop before which it was held whole, the bound, and the pop that returned it.
    whole_at: Vec<Option<u64>>,
    bound: Vec<u64>,
    popped_at: Vec<Option<u64>>,
    evicted: Vec<usize>,
}

impl Model<'_> {
    fn is_whole(&self, frame: usize) -> bool {
        let (from, to) = self.frames[frame];
        (from..to).all(|it| self.held.contains_key(&it))
    }

    /// The deadline of a frame: `max_wait` after its packet with the highest number.
    fn deadline(&self, frame: usize) -> u64 {
        self.held[&(self.frames[frame].1 - 1)] + self.case.max_wait
    }

    fn deliver(&mut self, datagram: usize, now: u64) -> Outcome {
        if self.cutoff.is_some_and(|it| datagram <= it) {
            return Outcome::Late;
        }
        if self.held.contains_key(&datagram) {
            return Outcome::Duplicate;
        }
        self.held.insert(datagram, now);
        if self.held.len() <= self.case.limit {
            return Outcome::Held;
        }
        self.cutoff = self.held.pop_first().map(|it| it.0);
        self.evicted.extend(self.cutoff);
        Outcome::HeldAndEvicted
    }

    /// The bound of each frame is at least the deadline of each complete frame at or before it.
    fn note_deadlines(&mut self) {
        for frame in (0..self.frames.len())
            .filter(|it| self.is_whole(*it))
            .collect::<Vec<_>>()
        {
            let deadline = self.deadline(frame);
            for later in frame..self.frames.len() {
                self.bound[later] = self.bound[later].max(deadline);
            }
        }
    }

    fn pop(&mut self, now: u64, unit: Option<usize>) -> bool {
        self.note_deadlines();
        for frame in 0..self.frames.len() {
            if self.is_whole(frame) && self.whole_at[frame].is_none() {
                self.whole_at[frame] = Some(now);
            }
        }
        if let Some(frame) = unit {
            self.popped_at[frame] = Some(now);
            let last = self.frames[frame].1 - 1;
            self.cutoff = Some(last);
            self.held = self.held.split_off(&(last + 1));
            self.note_deadlines();
            return true;
        }
        // After `None` the first complete frame is not due.
        let first = (0..self.frames.len()).find(|it| self.is_whole(*it));
        first.is_none_or(|it| now < self.deadline(it))
    }
}

/// Whether each unit comes in time.
fn come_in_time(
    case: &Case,
    steps: &[DatagramStep],
    run: &DatagramRun,
    found: &mut Found,
) -> Result<bool, Fail> {
    let mut frames = Vec::new();
    for entry in &run.sends {
        let from = frames.last().map_or(0, |it: &(usize, usize)| it.1);
        frames.push((from, from + entry.count));
    }
    let count = frames.len();
    let mut model = Model {
        case,
        frames,
        held: BTreeMap::new(),
        cutoff: None,
        whole_at: vec![None; count],
        bound: vec![0; count],
        popped_at: vec![None; count],
        evicted: Vec::new(),
    };
    let (mut receipts, mut pops) = (run.receipts.iter(), run.pops.iter());
    let (mut last_pop, mut none_due) = (0, true);
    for step in steps {
        match *step {
            DatagramStep::Deliver { datagram, now } => {
                let outcome = model.deliver(datagram, now.0);
                assert_eq!(receipts.next(), Some(&Ok(outcome)));
            }
            DatagramStep::Pop { now } => {
                let unit = match pops.next().ok_or("an answer")? {
                    None => None,
                    Some(Ok(unit)) => {
                        let index = usize::from(unit.bytes[0]) * 256 + usize::from(unit.bytes[1]);
                        assert!(model.is_whole(index));
                        Some(index)
                    }
                    Some(Err(_)) => return Err("a fault".into()),
                };
                none_due &= model.pop(now.0, unit);
                last_pop = now.0;
            }
            _ => {}
        }
    }
    let mut in_time = none_due;
    for frame in 0..count {
        let Some(whole_at) = model.whole_at[frame] else {
            found.late += 1;
            continue;
        };
        let bound = whole_at.max(model.bound[frame]);
        let (from, to) = model.frames[frame];
        if let Some(at) = model.popped_at[frame] {
            found.popped += 1;
            found.by_wait += usize::from(whole_at < at && at == bound);
            in_time &= at <= bound;
        } else if model.evicted.iter().any(|it| (from..to).contains(it)) {
            found.evicted += 1;
        } else {
            found.held += 1;
            in_time &= model.is_whole(frame) && last_pop < bound;
        }
    }
    Ok(in_time)
}

fn cases(at_deadlines: bool) -> Vec<Case> {
    let mut cases = Vec::new();
    for hold_back in [None, Some(2)] {
        for start in [0, 1, 3] {
            for max_wait in [0, 40, 100] {
                for limit in [4_096, 6, 3] {
                    cases.push(Case {
                        hold_back,
                        start,
                        max_wait,
                        limit,
                        at_deadlines,
                    });
                }
            }
        }
    }
    cases
}

#[test]
fn units_come_in_time() -> Result<(), Fail> {
    let mut found = Found::default();
    let mut random = Random::new(1);
    for case in cases(true) {
        for _ in 0..8 {
            let (steps, run) = run_of(&case, &mut random)?;
            assert!(come_in_time(&case, &steps, &run, &mut found)?);
        }
    }
    assert!(100 < found.by_wait && 100 < found.late && 0 < found.held);
    Ok(())
}

/// Without pops at deadlines some unit comes later.
#[test]
fn without_pops_at_deadlines_units_come_late() -> Result<(), Fail> {
    let mut random = Random::new(1);
    let mut late = 0;
    for case in cases(false) {
        let (steps, run) = run_of(&case, &mut random)?;
        late += usize::from(!come_in_time(&case, &steps, &run, &mut Found::default())?);
    }
    assert!(0 < late);
    Ok(())
}
