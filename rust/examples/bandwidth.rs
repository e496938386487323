//! A viewer behind a link whose rate changes: the choice of layers follows the link, and its queue stays short.
//!
//! The table shows for each part of a run how often the best choice was sent, how long packets stood in the queue of the link, and how much of
//! the link was used. The best choice is the highest that fits the link with a tenth to spare; it counts from 2 s after a change of
//! the link's rate on.

use codec_payload::Ticks;
use codec_payload::bandwidth::{
    LayerChoice, PacedKind, PacedPacket, PacerSettings, PathSettings, ViewerPath,
};
use codec_payload::congestion::TransportFeedback;
use std::collections::VecDeque;

/// Rates of all with audio of 50 kbit/s, in bits per second. From the fourth on a larger size, which begins with a keyframe.
const RATES: [u64; 6] = [90_000, 120_000, 150_000, 300_000, 500_000, 850_000];
const LARGER: usize = 3;
const AUDIO: u64 = 50_000;
const KEYFRAME: u64 = 10_000;

/// Each way, in microseconds.
const DELAY: u64 = 20_000;
/// The longest queue of the link, in microseconds.
const QUEUE: u64 = 300_000;

/// A sent packet: when it was sent, its bytes, and when it arrived.
struct Sent {
    at: u64,
    size: u32,
    arrived: Option<u64>,
    is_lost: bool,
}

struct Link {
    queue: VecDeque<usize>,
    bytes: u64,
    free_at: u64,
    random: u64,
}

impl Link {
    /// How long a new packet would wait.
    fn wait(&self, rate: u64) -> u64 {
        self.bytes * 8_000_000 / rate
    }

    fn send(&mut self, number: usize, sent: &mut [Sent], rate: u64) {
        if self.wait(rate) > QUEUE {
            sent[number].is_lost = true;
            return;
        }
        self.bytes += u64::from(sent[number].size);
        self.queue.push_back(number);
    }

    /// Serves until this time. `loss`: of so many packets in 1,000 none arrives.
    fn serve(&mut self, end: u64, rate: u64, loss: u64, sent: &mut [Sent]) {
        while let Some(&number) = self.queue.front() {
            let begin = self.free_at.max(sent[number].at);
            if begin >= end {
                return;
            }
            self.queue.pop_front();
            let size = u64::from(sent[number].size);
            self.bytes -= size;
            self.free_at = begin + size * 8_000_000 / rate;
            self.random = self
                .random
                .wrapping_mul(6_364_136_223_846_793_005)
                .wrapping_add(1);
            if (self.random >> 33) % 1_000 < loss {
                sent[number].is_lost = true;
            } else {
                sent[number].arrived = Some(self.free_at + DELAY);
            }
        }
    }
}

struct Viewer {
    path: ViewerPath,
    choices: [LayerChoice; 6],
    choice: usize,
    reported: usize,
    resent: u64,
}

impl Viewer {
    fn new() -> Viewer {
        let mut index = 0;
        let choices = RATES.map(|rate| {
            index += 1;
            let begin = if index > LARGER {
                AUDIO + KEYFRAME * 40
            } else {
                0
            };
            LayerChoice { rate, begin }
        });
        let settings = {
            let mut it = PathSettings::live();
            it.start = 160_000;
            it.least = 30_000;
            it.most = 5_000_000;
            it.pacer = {
                let mut settings = PacerSettings::live();
                settings.burst = 400;
                settings.bound = 60_000;
                settings
            };
            it
        };
        Viewer {
            path: ViewerPath::new(Ticks(0), settings).unwrap(),
            choices,
            choice: 0,
            reported: 0,
            resent: 0,
        }
    }

    fn push(&mut self, kind: PacedKind, bytes: u64) {
        let packets = bytes.div_ceil(1_100).max(1);
        for id in 0..packets {
            let size = (bytes / packets) as u32;
            // A packet for which there is no room is not sent.
            let _ = self.path.push(PacedPacket { kind, size, id });
        }
    }

    /// Chooses layers and a pace, each 10 ms.
    fn choose(&mut self, now: u64) {
        let order = self.path.choose(Ticks(now), &self.choices);
        let choice = order.choice;
        if choice >= LARGER && self.choice < LARGER {
            self.push(PacedKind::Media, KEYFRAME);
        } else if choice < LARGER && self.choice >= LARGER {
            // What waits of the size that is left helps nobody.
            while self.path.remove(PacedKind::Media).is_some() {}
            self.push(PacedKind::Media, KEYFRAME / 3);
        }
        self.choice = choice;
        if order.padding >= 300 {
            self.push(PacedKind::Padding, u64::from(order.padding));
        }
    }

    /// Makes media, each millisecond.
    fn make(&mut self, now: u64) {
        let media = self.choices[self.choice].rate - AUDIO;
        if now % 20_000 == 0 {
            self.push(PacedKind::Audio, AUDIO / 400);
        }
        if now % 33_000 == 0 {
            self.push(PacedKind::Media, media / 8 * 33 / 1_000);
        }
    }

    /// Sends what leaves now.
    fn send(&mut self, now: u64, rate: u64, link: &mut Link, sent: &mut Vec<Sent>) {
        while let Some(leaving) = self.path.pop(Ticks(now)) {
            sent.push(Sent {
                at: now,
                size: leaving.packet.size,
                arrived: None,
                is_lost: false,
            });
            link.send(sent.len() - 1, sent, rate);
        }
    }

    /// Reads the feedback of what arrived up to 20 ms ago, each 100 ms.
    fn hear(&mut self, now: u64, sent: &[Sent]) {
        let known = |it: &Sent| it.arrived.is_some_and(|at| at + DELAY <= now);
        let newest = sent.iter().rposition(known).map_or(0, |last| last + 1);
        if newest <= self.reported {
            return;
        }
        let told = &sent[self.reported..newest];
        let lost: Vec<(usize, u32)> = told
            .iter()
            .enumerate()
            .filter(|(_, it)| it.is_lost)
            .map(|(index, it)| (self.reported + index, it.size))
            .collect();
        for (number, size) in lost {
            if self
                .path
                .resend(Ticks(now), number as u16, size, 2 * DELAY)
                .is_ok()
            {
                self.resent += 1;
                self.push(PacedKind::Resent, u64::from(size));
            }
        }
        let feedback = TransportFeedback {
            base: self.reported as u16,
            reference: 0,
            counter: 0,
            statuses: told
                .iter()
                .map(|it| it.arrived.map(|at| (at / 250) as u32))
                .collect(),
        };
        self.reported = newest;
        self.path
            .feedback(Ticks(now), 2 * DELAY, &feedback)
            .unwrap();
    }
}

/// Runs a viewer behind a link with these rates, 20 s each, and prints a row for each.
fn run(rates: &[u64], loss: u64) {
    let mut link = Link {
        queue: VecDeque::new(),
        bytes: 0,
        free_at: 0,
        random: 7,
    };
    let mut viewer = Viewer::new();
    let mut sent = Vec::new();
    for (part, &rate) in rates.iter().enumerate() {
        let fits = rate * (1_000 - loss) / 1_000 * 10 / 11;
        let best = choices_up_to(&viewer.choices, fits);
        let (mut is_best, mut waits, first, resent) = (0, Vec::new(), sent.len(), viewer.resent);
        for step in 0..20_000 {
            let now = (part as u64 * 20_000 + step) * 1_000;
            if step % 10 == 0 {
                viewer.choose(now);
            }
            viewer.make(now);
            viewer.send(now, rate, &mut link, &mut sent);
            link.serve(now + 1_000, rate, loss, &mut sent);
            if step % 100 == 99 {
                viewer.hear(now, &sent);
            }
            waits.push(link.wait(rate) / 1_000);
            is_best += u64::from(step >= 2_000 && viewer.choice >= best);
        }
        waits.sort_unstable();
        let carried: u64 = sent[first..]
            .iter()
            .filter(|it| it.arrived.is_some())
            .map(|it| u64::from(it.size))
            .sum();
        println!(
            "| {} | {} | {} | {} | {} | {} | {} |",
            rate / 1_000,
            loss / 10,
            is_best * 100 / 18_000,
            waits[19_000],
            waits[19_800],
            carried * 800 / (20 * rate),
            viewer.resent - resent,
        );
    }
}

/// The highest choice that fits.
fn choices_up_to(choices: &[LayerChoice], fits: u64) -> usize {
    let carried = |it: &LayerChoice| it.rate <= fits && it.begin <= fits;
    choices.iter().rposition(carried).unwrap_or(0)
}

fn main() {
    println!(
        "| link, kbit/s | lost, % | best choice, % | queue 95 %, ms | 99 %, ms | link used, % | resent |"
    );
    println!("|---|---|---|---|---|---|---|");
    run(&[3_000_000, 300_000, 1_000_000, 3_000_000], 0);
    run(&[1_000_000, 300_000], 50);
}
