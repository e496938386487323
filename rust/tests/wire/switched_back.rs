//! A forwarder that goes over from one source to another and back, many times. On both hops the network loses, repeats and reorders
//! datagrams. Of each stretch of a source, from its keyframe up to the next switch, all frames whose datagrams came over both hops
//! are released, in order, once each and whole. A frame inside which a switch comes is not released.

use std::cmp::max;
use std::ops::Range;

use crate::Fail;
use crate::forwarded::{copies, following};
use crate::switched::{
    BLOCKS, IDS, bytes_of, link_of, opus_link, popped_in, sample_in, samples, ssrc_of,
};
use codec_payload::rtp::RtpPacket;
use codec_payload::schedule::forwarded::{
    ForwardStep, Source, SwitchStep, run_forwarded_switching,
};
use codec_payload::wire::Ticks;

/// Datagrams of a source: the forwarder began with the first, and went over to the other source behind the last.
struct Stretch {
    source: Source,
    datagrams: Range<usize>,
}

/// A stretch, by its place among them, and a datagram of it.
type Written = (usize, usize);

/// The steps, and what a plain model of the forwarder says.
struct Schedule {
    steps: Vec<SwitchStep>,
    /// How many datagrams a frame has.
    per_frame: usize,
    /// The forwarder begins with a datagram whose index is a multiple of this.
    begins_each: usize,
    wanted: Source,
    stretches: Vec<Stretch>,
    /// Which datagram each written one is.
    written: Vec<Written>,
    /// Which datagrams came to the viewer.
    came: Vec<Written>,
}

fn other(source: Source) -> Source {
    match source {
        Source::First => Source::Second,
        Source::Second => Source::First,
    }
}

impl Schedule {
    fn of(&mut self, source: Source, step: ForwardStep) {
        self.steps.push(SwitchStep::Of(source, step));
    }

    fn want_other(&mut self) {
        self.wanted = other(self.wanted);
        let ssrc = ssrc_of(self.wanted);
        self.steps.push(SwitchStep::Want { ssrc });
    }

    /// The datagram comes to the forwarder.
    fn forward(&mut self, source: Source, datagram: usize) {
        let now = datagram as u64 * 1_500;
        self.of(source, ForwardStep::Forward { datagram, now });
        let last = self.stretches.len().saturating_sub(1);
        let present = self.stretches.last_mut();
        if let Some(present) = present.filter(|present| present.source == source) {
            if present.datagrams.start <= datagram {
                present.datagrams.end = max(present.datagrams.end, datagram + 1);
                self.written.push((last, datagram));
            }
        } else if self.wanted == source && datagram % self.begins_each == 0 {
            self.written.push((self.stretches.len(), datagram));
            self.stretches.push(Stretch {
                source,
                datagrams: datagram..datagram + 1,
            });
        }
    }

    /// Each source sends a block of eight frames. Their datagrams come to the forwarder, and then to the viewer, in two other orders.
    /// In two of three blocks the forwarder comes to want the other source.
    fn block(&mut self, block: usize, seed: &mut u32) {
        let before = self.written.len();
        for frame in 8 * block..8 * block + 8 {
            for source in [Source::First, Source::Second] {
                self.of(source, ForwardStep::Send(sample_in(source, frame)));
            }
        }
        let count = 8 * self.per_frame;
        let wants_at = following(seed) as usize % (count + count / 2);
        for place in 0..count {
            if place == wants_at {
                self.want_other();
            }
            for source in [Source::First, Source::Second] {
                let datagram = count * block + place * 7 % count;
                for _ in 0..copies(seed, true) {
                    self.forward(source, datagram);
                }
            }
        }
        for written in (before..self.written.len()).rev() {
            for _ in 0..copies(seed, true) {
                self.came.push(self.written[written]);
                let now = Ticks(0);
                self.of(Source::First, ForwardStep::Deliver { written, now });
            }
        }
        for _ in 0..20 {
            self.of(Source::First, ForwardStep::Pop { now: Ticks(0) });
        }
    }

    /// The bytes that are released: of each stretch the frames whose datagrams are all in it and came.
    fn wanted_bytes(&self) -> Vec<u8> {
        let mut bytes = Vec::new();
        for (place, Stretch { source, datagrams }) in self.stretches.iter().enumerate() {
            let frames = datagrams.start / self.per_frame..datagrams.end / self.per_frame;
            for frame in frames {
                let mut of_frame = frame * self.per_frame..(frame + 1) * self.per_frame;
                if of_frame.all(|datagram| self.came.contains(&(place, datagram))) {
                    bytes.extend(bytes_of(sample_in(*source, frame)));
                }
            }
        }
        bytes
    }

    /// How many switches come inside a frame.
    fn cuts(&self) -> usize {
        let ended = self.stretches.iter().rev().skip(1);
        ended
            .filter(|it| it.datagrams.end % self.per_frame != 0)
            .count()
    }
}

fn schedule_of(mut seed: u32, per_frame: usize, begins_each: usize) -> Schedule {
    following(&mut seed);
    let mut schedule = Schedule {
        steps: Vec::new(),
        per_frame,
        begins_each,
        wanted: Source::First,
        stretches: Vec::new(),
        written: Vec::new(),
        came: Vec::new(),
    };
    for block in 0..BLOCKS {
        schedule.block(block, &mut seed);
    }
    schedule
}

#[test]
fn frames_of_all_stretches_come_out() -> Result<(), Fail> {
    let (mut inside, mut switches) = (0, 0);
    for seed in 0..60 {
        let schedule = schedule_of(seed, 2, 16);
        switches += schedule.stretches.len() - 1;
        for ids in IDS {
            let mut link = link_of(ids)?;
            let run = run_forwarded_switching(&mut link, &samples(), &schedule.steps)?;
            assert_eq!(run.run.written.len(), schedule.written.len(), "seed {seed}");
            let (popped, wanted) = (popped_in(&run)?, schedule.wanted_bytes());
            assert_eq!(popped, wanted, "seed {seed}, ids {ids:?}");
        }
        inside += schedule.cuts();
    }
    assert!(4 * 60 < switches, "{switches} switches");
    assert!(
        60 < inside && inside + 60 < switches,
        "{inside} of {switches}"
    );
    Ok(())
}

#[test]
fn frames_of_opus_come_out() -> Result<(), Fail> {
    for seed in 0..60 {
        let schedule = schedule_of(seed, 1, 1);
        let mut link = opus_link()?;
        let run = run_forwarded_switching(&mut link, &samples(), &schedule.steps)?;
        assert!(4 <= schedule.stretches.len(), "seed {seed}: few switches");
        assert_eq!(run.run.written.len(), schedule.written.len(), "seed {seed}");
        assert_eq!(popped_in(&run)?, schedule.wanted_bytes(), "seed {seed}");
    }
    Ok(())
}

#[test]
fn each_written_datagram_has_the_number_of_its_place() -> Result<(), Fail> {
    for seed in 0..20 {
        let schedule = schedule_of(seed, 2, 16);
        let mut link = link_of([None, None])?;
        let run = run_forwarded_switching(&mut link, &samples(), &schedule.steps)?;
        for (bytes, (place, datagram)) in run.run.written.iter().zip(&schedule.written) {
            let in_front = schedule.stretches[..*place].iter();
            let base: usize = in_front.map(|it| it.datagrams.len()).sum();
            let stretch = &schedule.stretches[*place];
            let sent = match stretch.source {
                Source::First => &run.run.run.datagrams[*datagram],
                Source::Second => &run.second.datagrams[*datagram],
            };
            let (got, sent) = (RtpPacket::parse(bytes)?, RtpPacket::parse(sent)?);
            assert_eq!(got.payload, sent.payload);
            let number =
                65_000_u16.wrapping_add((base + datagram - stretch.datagrams.start) as u16);
            assert_eq!(got.header.sequence_number, number, "seed {seed}");
        }
    }
    Ok(())
}
