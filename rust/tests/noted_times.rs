//! The noted RTP times of a jitter buffer beside a map of all of them: a packet is suspect exactly if its number was noted with
//! another time, or is below the first one with a time that is not from 5 seconds before the first one's up to that time.

mod random;

use codec_payload::jitter::{JitterBuffer, Outcome, SequenceNumbers, WaitLimits};
use codec_payload::*;
use random::Dice;
use std::collections::BTreeMap;

/// The noted times by index, of which the latest `places` count.
struct Noted {
    spacing: u64,
    places: u64,
    times: BTreeMap<u64, u32>,
    /// The lowest and the highest index that can be noted.
    first: Option<(u64, u64)>,
}

impl Noted {
    fn contradicts(&self, number: u64, time: u32) -> bool {
        number % self.spacing == 0
            && self
                .times
                .get(&(number / self.spacing))
                .is_some_and(|there| *there != time)
    }

    fn note(&mut self, number: u64, time: u32) {
        if number % self.spacing != 0 {
            return;
        }
        let index = number / self.spacing;
        let (first, last) = match self.first {
            // A gap of all places leaves nothing.
            Some((first, last)) if index <= last + self.places => (first, last.max(index)),
            _ => {
                self.times.clear();
                (index, index)
            }
        };
        if index >= first {
            self.times.insert(index, time);
        }
        let first = first.max((last + 1).saturating_sub(self.places));
        self.first = Some((first, last));
        self.times = self.times.split_off(&first);
    }
}

fn header(number: u64, time: u32) -> RtpHeader {
    RtpHeader {
        payload_type: Pt::new_with_value(111),
        sequence_number: (number % 65_536) as u16,
        timestamp: time,
        ssrc: 7,
        marker: false,
        ext_vals: ExtensionValues::default(),
    }
}

fn compare(forward: u16, backward: u16, spacing: u64, places: u64, longest: u64) {
    let limits = {
        let mut limits = WaitLimits::live();
        limits.max_wait = None;
        limits.hold_back = None;
        limits.start = 0;
        limits
    };
    let depacketizer = CodecDepacketizer::from_codec(Codec::Opus).unwrap();
    let buffer = DepacketizingBuffer::new(depacketizer, 0);
    let numbers = SequenceNumbers::with_windows(forward, backward).unwrap();
    let mut packets = JitterBuffer::over(numbers, buffer, Frequency::FORTY_EIGHT_KHZ, limits);
    let mut noted = Noted {
        spacing,
        places,
        times: BTreeMap::new(),
        first: None,
    };
    let mut dice = Dice(longest);
    let (mut greatest, mut suspect, mut count) = (65_536 + 40_000, None, 0);
    let mut first: Option<(u64, u32)> = None;
    for step in 0..60_000 {
        // A new packet, an old one again, or a number within the backward window with another time.
        let is_other = dice.below(4) == 0;
        let number = if is_other || dice.below(8) == 0 {
            greatest - dice.below(u64::from(backward) + 1)
        } else {
            greatest + 1 + dice.below(longest)
        };
        let true_time = (number * 960 % (1 << 32)) as u32;
        let time = if is_other { true_time ^ 1 } else { true_time };
        let untimely = first.is_some_and(|(first, first_time)| {
            number < first && first_time.wrapping_sub(time) > 5 * 48_000
        });
        let contradicts = noted.contradicts(number, time) || untimely;
        // Two suspect packets within 16 numbers are a restart, which this test does not have.
        if contradicts && suspect.is_some_and(|last| number.wrapping_sub(last) % 65_536 <= 16) {
            continue;
        }
        let outcome = packets.push(Ticks(step), header(number, time), vec![1]);
        let outcome = outcome.expect("there is memory");
        assert_eq!(outcome == Outcome::Suspect, contradicts, "{step}: {number}");
        if contradicts {
            (suspect, count) = (Some(number), count + 1);
        } else {
            noted.note(number, time);
            first = first.or(Some((number, time)));
            greatest = greatest.max(number);
        }
        while packets.pop(Ticks(step)).is_some() {}
    }
    println!("jumps of up to {longest} numbers: {count} suspect packets");
    assert!(count > 0);
}

#[test]
fn every_fourth_number() {
    for longest in [1, 3, 20, 900, 2_900] {
        compare(3_000, 1_000, 4, 256, longest);
    }
}

#[test]
fn every_eighth_number() {
    for longest in [1, 3, 20, 5_000] {
        compare(8_000, 5_000, 8, 640, longest);
    }
}
