//! A buffer of VP8 frames beside a plain one, which keeps a list and goes over all of it at each step.

use crate::Fail;
use crate::asserts::{assert_holds, assert_same};
use crate::buffer::{buffer_of_limit, meta};
use crate::library;
use codec_payload::buffer::DepacketizingBuffer;
use codec_payload::memory::TryVec;
use codec_payload::wire::Codec;

/// A run of pushes and pops in a fixed odd order.
#[derive(Clone, Copy, Debug)]
struct OddRun {
    limit: usize,
    hold_back: usize,
    /// How far apart the numbers of pushes lie that follow one another, at most.
    window: u64,
    /// The number of pushes before each pop.
    pushes_a_pop: u64,
    pushes: u64,
}

/// A packet of a number, by which all else is chosen. Five numbers share a time, two of three begin a unit, and one of three
/// ends one, or so.
#[derive(Clone, Copy)]
struct Packet {
    number: u64,
}

impl Packet {
    fn time(self) -> u64 {
        self.number / 5
    }

    fn is_head(self) -> bool {
        self.number % 3 != 2
    }

    fn is_tail(self) -> bool {
        self.number % 4 == 1 || self.number % 9 == 0
    }

    /// Whether this packet may stand right before the other in one frame.
    fn leads(self, next: Packet) -> bool {
        self.number.checked_add(1) == Some(next.number)
            && self.time() == next.time()
            && !self.is_tail()
    }
}

/// The numbers of the first and the last packet of a complete frame.
type Frame = (u64, u64);

/// What the buffer's rules say, over a list of all packets in the order of their numbers.
struct PlainBuffer {
    packets: Vec<Packet>,
    cutoff: Option<u64>,
    hold_back: usize,
    limit: usize,
}

impl PlainBuffer {
    /// The complete frames, found by going over all packets.
    fn frames(&self) -> Result<Vec<Frame>, Fail> {
        let mut frames = Vec::new();
        let mut earlier: Option<Packet> = None;
        let mut start = None;
        for packet in &self.packets {
            if !earlier.is_some_and(|earlier| earlier.leads(*packet)) {
                start = None;
            }
            if packet.is_head() && start.is_none() {
                start = Some(packet.number);
            }
            if let (Some(first), true) = (start, packet.is_tail()) {
                frames.try_push((first, packet.number))?;
            }
            earlier = Some(*packet);
        }
        Ok(frames)
    }

    /// Adds a packet that is neither held nor too late. Says whether the lowest was evicted for it.
    fn push(&mut self, number: u64) -> Result<bool, Fail> {
        let place = self.packets.partition_point(|held| held.number < number);
        let is_held = self
            .packets
            .get(place)
            .is_some_and(|held| held.number == number);
        if is_held || self.cutoff.is_some_and(|cutoff| number <= cutoff) {
            return Ok(false);
        }
        self.packets.try_insert(place, Packet { number })?;
        if self.packets.len() <= self.limit {
            return Ok(false);
        }
        self.cutoff = Some(self.packets.remove(0).number);
        Ok(true)
    }

    /// Takes the first frame if it is due.
    fn pop(&mut self) -> Result<Option<Frame>, Fail> {
        let frames = self.frames()?;
        let Some((first, last)) = frames.first().copied() else {
            return Ok(None);
        };
        let is_next = self
            .cutoff
            .is_none_or(|cutoff| cutoff.checked_add(1) == Some(first));
        if !is_next && frames.len() <= self.hold_back {
            return Ok(None);
        }
        self.packets.retain(|packet| packet.number > last);
        self.cutoff = Some(last);
        Ok(Some((first, last)))
    }
}

/// Both have as many packets and as many complete frames.
fn assert_agree(buffer: &DepacketizingBuffer, plain: &PlainBuffer) -> Result<(), Fail> {
    let wanted = (plain.packets.len(), plain.frames()?.len());
    let got = (buffer.held(), buffer.ready());
    assert_same("packets and complete frames", &got, &wanted);
    assert_holds("the limit", buffer.held() <= buffer.limit());
    Ok(())
}

fn push(buffer: &mut DepacketizingBuffer, packet: Packet) -> Result<(), Fail> {
    let mut meta = meta(packet.number, packet.time());
    meta.header.marker = packet.is_tail();
    let first_byte = if packet.is_head() { 0x10 } else { 0x00 };
    Ok(library::push(buffer, meta, &[first_byte, 0x90])?)
}

/// The frame that a pop gives.
fn pop(buffer: &mut DepacketizingBuffer) -> Result<Option<Frame>, Fail> {
    match buffer.pop() {
        Some(unit) => {
            let range = unit?.seq_range();
            Ok(Some((range.start().0, range.end().0)))
        }
        None => Ok(None),
    }
}

/// A buffer and a plain one, and what has come to pass so far.
struct Pair {
    buffer: DepacketizingBuffer,
    plain: PlainBuffer,
    evicts: bool,
    releases: bool,
    waits: bool,
}

impl Pair {
    fn new(run: OddRun) -> Result<Self, Fail> {
        Ok(Pair {
            buffer: buffer_of_limit(Codec::Vp8, run.hold_back, run.limit)?,
            plain: PlainBuffer {
                packets: Vec::new(),
                cutoff: None,
                hold_back: run.hold_back,
                limit: run.limit,
            },
            evicts: false,
            releases: false,
            waits: false,
        })
    }

    fn push(&mut self, number: u64) -> Result<(), Fail> {
        push(&mut self.buffer, Packet { number })?;
        self.evicts |= self.plain.push(number)?;
        assert_agree(&self.buffer, &self.plain)
    }

    fn pop(&mut self) -> Result<(), Fail> {
        let frame = pop(&mut self.buffer)?;
        assert_same("the frame that comes out", &frame, &self.plain.pop()?);
        self.releases |= frame.is_some();
        self.waits |= frame.is_none();
        assert_agree(&self.buffer, &self.plain)
    }
}

fn run_odd(run: OddRun) -> Result<(), Fail> {
    let mut pair = Pair::new(run)?;
    for k in 0..run.pushes {
        let number = (k / 2).wrapping_add(k.wrapping_mul(7_919) % run.window.max(1));
        pair.push(number)?;
        if k % run.pushes_a_pop.max(1) == 0 {
            pair.pop()?;
        }
    }
    assert!(pair.evicts && pair.releases && pair.waits, "{run:?}");
    Ok(())
}

#[test]
fn plain_buffer_agrees() -> Result<(), Fail> {
    let runs = [
        (1, 0, 4, 3, 6_000),
        (2, 0, 6, 5, 6_000),
        (3, 1, 5, 4, 6_000),
        (7, 1, 16, 6, 20_000),
        (4_096, 900, 5_000, 9, 5_500),
    ];
    for (limit, hold_back, window, pushes_a_pop, pushes) in runs {
        let run = OddRun {
            limit,
            hold_back,
            window,
            pushes_a_pop,
            pushes,
        };
        run_odd(run)?;
    }
    Ok(())
}
