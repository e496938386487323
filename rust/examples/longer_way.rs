//! A path that becomes longer, a publisher that pauses, and feedback that is lost: what the estimate of a `ViewerPath` does then,
//! though the link carries 3 Mbit/s all the time.
//!
//! ```sh
//! cargo run --release --example longer_way
//! ```
//!
//! - **Longer**: from 20 s on each packet takes 40 ms more, as after a change of route or of the radio cell. First that looks like a
//!   queue.
//! - **Longer, 5 % lost**: the same, and each twentieth packet is lost from the beginning on.
//! - **Pause**: from 20 to 30 s nothing is sent, so nothing is reported.
//! - **No reports**: from 20 to 24 s all packets arrive, and no feedback does.
//!
//! The columns are the estimate in kbit/s.

use codec_payload::Ticks;
use codec_payload::bandwidth::{LayerChoice, PacedKind, PacedPacket, PathSettings, ViewerPath};
use codec_payload::congestion::TransportFeedback;

const SECONDS: u64 = 60;
const CHANGE: u64 = 20;
/// Each way, in microseconds.
const DELAY: u64 = 20_000;
const LINK: u64 = 3_000_000;
const PACKET: u32 = 1_000;

/// What happens from `CHANGE` on. Times are in seconds, if their names say nothing else.
#[derive(Clone, Copy)]
struct Run {
    longer_by_micros: u64,
    pause: u64,
    no_reports: u64,
    /// Of so many packets one is lost. 0: none.
    loses_one_of: usize,
}

const CALM: Run = Run {
    longer_by_micros: 0,
    pause: 0,
    no_reports: 0,
    loses_one_of: 0,
};

struct World {
    path: ViewerPath,
    /// When each packet arrived at the viewer, and whether it did.
    arrived: Vec<(u64, bool)>,
    reported: usize,
    free_at: u64,
}

impl World {
    fn push(&mut self, kind: PacedKind) {
        let packet = PacedPacket {
            kind,
            size: PACKET,
            id: 0,
        };
        // A packet for which there is no room is not sent.
        let _ = self.path.push(packet);
    }

    fn choose(&mut self, now: u64) {
        let choices = [200_000, 600_000, 900_000].map(|rate| LayerChoice { rate, begin: 0 });
        let order = self.path.choose(Ticks(now), &choices);
        for _ in 0..order.padding / PACKET {
            self.push(PacedKind::Padding);
        }
    }

    fn send(&mut self, now: u64, way: u64, loses_one_of: usize) {
        while let Some(leaving) = self.path.pop(Ticks(now)) {
            let begin = self.free_at.max(now);
            self.free_at = begin + u64::from(leaving.packet.size) * 8_000_000 / LINK;
            let is_lost = loses_one_of > 0 && self.arrived.len() % loses_one_of == 1;
            self.arrived.push((self.free_at + way, !is_lost));
        }
    }

    /// Reports what arrived, each 50 ms. A report takes 20 ms.
    fn report(&mut self, now: u64, is_heard: bool) {
        let known = self
            .arrived
            .partition_point(|arrived| arrived.0 + DELAY <= now);
        if known <= self.reported {
            return;
        }
        let statuses = self.arrived[self.reported..known]
            .iter()
            .map(|&(at, has_arrived)| has_arrived.then_some((at / 250) as u32))
            .collect();
        let feedback = TransportFeedback {
            base: self.reported as u16,
            reference: 0,
            counter: 0,
            statuses,
        };
        self.reported = known;
        if !is_heard {
            return;
        }
        self.path
            .feedback(Ticks(now), 2 * DELAY, &feedback)
            .unwrap();
    }
}

/// The estimate in kbit/s at the end of each second.
fn run(run: &Run) -> Vec<u64> {
    let mut world = World {
        path: ViewerPath::new(Ticks(0), PathSettings::live()).unwrap(),
        arrived: Vec::new(),
        reported: 0,
        free_at: 0,
    };
    let mut estimates = Vec::new();
    for now in 0..SECONDS * 1_000 {
        let micros = now * 1_000;
        let changed = now >= CHANGE * 1_000;
        let within = |seconds: u64| changed && now < (CHANGE + seconds) * 1_000;
        if now % 10 == 0 {
            world.choose(micros);
        }
        // 600 kbit/s.
        if now * 75 / 1_000 != (now + 1) * 75 / 1_000 && !within(run.pause) {
            world.push(PacedKind::Media);
        }
        let more = if changed { run.longer_by_micros } else { 0 };
        world.send(micros, DELAY + more, run.loses_one_of);
        if now % 50 == 0 {
            world.report(micros, !within(run.no_reports));
        }
        if now % 1_000 == 999 {
            estimates.push(world.path.estimate() / 1_000);
        }
    }
    estimates
}

pub fn main() {
    let longer = Run {
        longer_by_micros: 40_000,
        ..CALM
    };
    let runs = [
        longer,
        Run {
            loses_one_of: 20,
            ..longer
        },
        Run { pause: 10, ..CALM },
        Run {
            no_reports: 4,
            ..CALM
        },
    ];
    let all = runs.map(|it| run(&it));
    println!(
        "| second | longer by 40 ms | longer, 5 % lost | pause | no reports |\n|---|---|---|---|---|"
    );
    for second in [19, 20, 21, 22, 23, 24, 25, 26, 27, 29, 34, 39, 49, 59] {
        let cells = all.each_ref().map(|it| it[second].to_string());
        println!("| {second} | {} |", cells.join(" | "));
    }
    let [longer, lossy, paused, unheard] = all;
    for (estimates, is_back) in [(&longer, 25), (&lossy, 25), (&unheard, 27)] {
        assert!(estimates[19] >= 900 && estimates[is_back..].iter().all(|it| *it >= 900));
    }
    // 3 s after the change at least half is there again, and a pause changes nothing.
    assert!(longer[22] >= 486 && lossy[22] >= 486);
    assert!(paused[19] >= 900 && paused[19..].iter().all(|it| *it == paused[19]));
}
