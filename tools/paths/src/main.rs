//! Viewers behind simulated links, each with a `ViewerPath`; beside it a plain rule on losses (25 kbit/s more each second, to 70 percent
//! after a loss of more than 2 percent in half a second).
//!
//!   paths [SEEDS]       prints a table, with this number of runs of each link; 10 by default
//!   paths --check       runs each link of the table three times, and fails where a figure is beyond what the table is to show
//!   paths -v LINK [SEED]   shows each second of a run
//!
//! A viewer gets one of eight choices: a small size with 1 to 3 temporal layers, and with RED (90, 120, 150, 200 kbit/s with audio of 50);
//! a large one (300, 500, 850, 900). Frames at 7.5, 15 and 30 a second, their sizes 20 percent up or down; keyframes of 3,000 and 10,000
//! bytes, 60 ms after they are wanted. 20 ms each way, a queue of 300 ms and feedback each 100 ms, if a link has no others. The viewer needs frames whole, in the order of their references; it requests a lost
//! packet once in a round trip, and a keyframe after a second without a frame. A freeze is 250 ms without a new frame, after the first
//! 5 s. The best choice is the highest that fits the link, or the viewer's share of it, with a tenth to spare; what is lost is retransmitted,
//! and the keyframe of the large size takes 200 ms at most.

mod control;
mod network;
mod server;
mod viewer;

use network::{Link, LinkSettings, Random, Tcp};
use server::{BEGIN, LAYERS};
use viewer::{Viewer, ViewerSettings};

/// A link, and what is to be shown on it.
#[derive(Clone, Copy)]
struct Row {
    name: &'static str,
    /// From which second on the link has which rate, in kbit/s.
    rates: &'static [(u64, u64)],
    link: LinkSettings,
    viewer: ViewerSettings,
    viewers: usize,
    /// Whether a flow like TCP's shares the link from 30 to 60 s.
    has_tcp: bool,
    seconds: u64,
    /// The least time at the best choice in percent, the most freezes, and the most that 95 percent of packets wait, in ms.
    wanted: (f64, f64, u64),
}

const BASE: Row = Row {
    name: "",
    rates: &[],
    link: LinkSettings {
        way: 20_000,
        queue: 300_000,
        loss: 0,
        jitter: 2_000,
        reorders: false,
    },
    viewer: ViewerSettings {
        way: 20_000,
        interval: 100_000,
        loss: 0,
        patience: 0,
    },
    viewers: 1,
    has_tcp: false,
    seconds: 90,
    wanted: (80.0, 3.0, 100),
};

const fn row(name: &'static str, rates: &'static [(u64, u64)]) -> Row {
    Row {
        name,
        rates,
        ..BASE
    }
}

impl Row {
    const fn queue(mut self, milliseconds: u64) -> Row {
        self.link.queue = milliseconds * 1_000;
        self
    }

    const fn way(mut self, milliseconds: u64) -> Row {
        self.link.way = milliseconds * 1_000;
        self.viewer.way = milliseconds * 1_000;
        self
    }

    const fn loses(mut self, percent: u64) -> Row {
        self.link.loss = percent * 10;
        self
    }

    const fn jitter(mut self, milliseconds: u64) -> Row {
        self.link.jitter = milliseconds * 1_000;
        self
    }

    const fn reorders(mut self) -> Row {
        self.link.reorders = true;
        self.viewer.patience = 15_000;
        self
    }

    const fn feedback(mut self, milliseconds: u64) -> Row {
        self.viewer.interval = milliseconds * 1_000;
        self
    }

    const fn loses_feedback(mut self, percent: u64) -> Row {
        self.viewer.loss = percent * 10;
        self
    }

    const fn viewers(mut self, count: usize) -> Row {
        self.viewers = count;
        self
    }

    /// TCP fills the queue.
    const fn beside_tcp(mut self) -> Row {
        self.wanted = (80.0, 9.0, u64::MAX);
        self.has_tcp = true;
        self.seconds = 120;
        self
    }

    const fn wants(mut self, best: f64, freezes: f64, queue: u64) -> Row {
        self.wanted = (best, freezes, queue);
        self
    }

    /// The rate of the link at a time, in bits per second.
    fn rate(&self, now: u64) -> u64 {
        let began = self.rates.iter().rev().find(|it| it.0 * 1_000_000 <= now);
        began.map_or(1, |it| it.1 * 1_000)
    }
}

const STEPS: &[(u64, u64)] = &[(0, 3_000), (20, 300), (40, 1_000), (60, 3_000)];
const DOWN: &[(u64, u64)] = &[(0, 1_000), (30, 300), (60, 1_000)];

const THIRD: &[(u64, u64)] = &[(0, 3_000), (30, 1_000), (60, 3_000)];
const OFTEN: &[(u64, u64)] = &[
    (0, 800),
    (10, 400),
    (20, 800),
    (30, 400),
    (40, 800),
    (50, 400),
    (60, 800),
    (70, 400),
    (80, 800),
];

const ROWS: [Row; 41] = [
    row("100", &[(0, 100)]),
    row("150", &[(0, 150)]),
    row("200", &[(0, 200)]),
    row("300", &[(0, 300)]),
    row("500", &[(0, 500)]),
    row("1,000", &[(0, 1_000)]),
    row("2,000", &[(0, 2_000)]),
    row("steps of 3,000, 300, 1,000, 3,000", STEPS),
    row("steps, queue of 50 ms", STEPS).queue(50),
    row("steps, queue of 1 s", STEPS).queue(1_000),
    row("steps, queue of 2 s", STEPS).queue(2_000),
    row("steps, 5 % lost", STEPS).loses(5),
    row("steps, 10 % lost", STEPS).loses(10),
    row("steps, jitter of 30 ms, in order", STEPS).jitter(30),
    row("steps, jitter of 30 ms, out of order", STEPS)
        .jitter(30)
        .reorders(),
    row("steps, 10 % of answers lost", STEPS).loses_feedback(10),
    row("steps, 100 ms each way", STEPS).way(100),
    row("steps, feedback each 50 ms", STEPS).feedback(50),
    row("steps, feedback each 250 ms", STEPS).feedback(250),
    row("steps, feedback each 50 ms, queue of 50 ms", STEPS)
        .feedback(50)
        .queue(50),
    row("steps, feedback each 50 ms, 5 % lost", STEPS)
        .feedback(50)
        .loses(5),
    row("steps, feedback each 50 ms, jitter of 30 ms", STEPS)
        .feedback(50)
        .jitter(30),
    row("1,000, 300, 1,000", DOWN),
    row("1,000, 300, 1,000, queue of 2 s", DOWN).queue(2_000),
    row("1,000, 300, 1,000, feedback each 50 ms", DOWN).feedback(50),
    row("3,000, 1,000, 3,000, feedback each 50 ms", THIRD).feedback(50),
    row("800, 400, each 10 s", OFTEN).wants(75.0, 3.0, 100),
    row("300, 10 % lost", &[(0, 300)]).loses(10),
    row("1,000, 10 % lost", &[(0, 1_000)]).loses(10),
    row("150, 5 % lost", &[(0, 150)])
        .loses(5)
        .wants(80.0, 18.0, 100),
    row("300, jitter of 30 ms", &[(0, 300)]).jitter(30),
    row("500, 100 ms each way", &[(0, 500)]).way(100),
    row("500, queue of 2 s", &[(0, 500)]).queue(2_000),
    row("500, queue of 50 ms", &[(0, 500)]).queue(50),
    row("two viewers on 700", &[(0, 700)]).viewers(2),
    row("two viewers on 1,300", &[(0, 1_300)])
        .viewers(2)
        .wants(45.0, 3.0, 100),
    row("two viewers on 3,000", &[(0, 3_000)]).viewers(2),
    row("two viewers on 700, 100 ms each way", &[(0, 700)])
        .viewers(2)
        .way(100),
    row("2,000, TCP from 30 to 60 s", &[(0, 2_000)]).beside_tcp(),
    row("2,000, TCP from 30 to 60 s, queue of 100 ms", &[(0, 2_000)])
        .beside_tcp()
        .queue(100),
    row("2,000, TCP from 30 to 60 s, queue of 1 s", &[(0, 2_000)])
        .beside_tcp()
        .queue(1_000),
];

/// What a run shows.
struct Shown {
    best: f64,
    switches: u64,
    freezes: u64,
    longest: u64,
    queue_95: u64,
    queue_99: u64,
    used: f64,
    /// The rate of each viewer in kbit/s.
    each: Vec<u64>,
}

struct World {
    row: Row,
    random: Random,
    link: Link,
    viewers: Vec<Viewer>,
    tcp: Tcp,
    capacity: u64,
}

impl World {
    fn new(row: Row, is_path: bool, seed: u64) -> World {
        let begins = |number: usize| number as u64 * 5_000_000;
        let viewer = |number| Viewer::new(number, is_path, begins(number), row.viewer);
        World {
            row,
            random: Random(88_172_645_463_325_252 ^ seed.wrapping_mul(0x9e37_79b9_7f4a_7c15)),
            link: Link::new(row.link),
            viewers: (0..row.viewers).map(viewer).collect(),
            tcp: Tcp::new(row.link),
            capacity: 0,
        }
    }

    /// The highest choice that fits the share of a viewer.
    fn best(&self, now: u64, rate: u64, has_tcp: bool) -> usize {
        let sharing = self.viewers.iter().filter(|it| it.begins <= now).count() as u64;
        let share = rate / (sharing + u64::from(has_tcp)) * (1_000 - self.row.link.loss) / 1_000;
        let fits = |it: &server::Layers| {
            it.rate * 110 / 100 <= share && (it.size == 0 || BEGIN <= share * 95 / 100)
        };
        LAYERS.iter().rposition(fits).unwrap_or(0)
    }

    /// A millisecond.
    fn step(&mut self, now: u64) {
        let rate = self.row.rate(now);
        self.capacity += rate / 8_000;
        let has_tcp = self.row.has_tcp && (30_000_000..60_000_000).contains(&now);
        let best = self.best(now, rate, has_tcp);
        for viewer in self.viewers.iter_mut().filter(|it| it.begins <= now) {
            viewer.answer(now);
            viewer
                .server
                .send(now, rate, &mut self.link, &mut self.random);
            if !has_tcp {
                viewer.measure(best);
            }
        }
        if has_tcp {
            self.tcp.send(now, &mut self.link, rate);
        }
        for (at, packet) in self.link.serve(now + 1_000, rate, &mut self.random) {
            match packet.viewer {
                None => self.tcp.arrived(at),
                Some(viewer) => self.viewers[viewer].arrives(at, packet.number),
            }
        }
        for viewer in self.viewers.iter_mut().filter(|it| it.begins <= now) {
            viewer.receive(now + 1_000, &mut self.random);
        }
        self.tcp.hear(now + 1_000);
    }

    fn show(mut self) -> Shown {
        let end = self.row.seconds * 1_000_000;
        self.viewers.iter_mut().for_each(|it| it.end(end));
        self.link.waits.sort_unstable();
        let waits = &self.link.waits;
        let within = |per_mille: usize| waits[(waits.len() - 1) * per_mille / 1_000] / 1_000;
        let carried = self.viewers.iter().map(|it| it.bytes).sum::<u64>() + self.tcp.bytes;
        let best = |it: &Viewer| it.best_time as f64 * 100.0 / it.measured as f64;
        Shown {
            best: self.viewers.iter().map(best).sum::<f64>() / self.viewers.len() as f64,
            switches: self.viewers.iter().map(|it| it.server.switches).sum(),
            freezes: self.viewers.iter().map(|it| it.freezes).sum(),
            longest: self.viewers.iter().map(|it| it.longest).max().unwrap_or(0) / 1_000,
            queue_95: within(950),
            queue_99: within(990),
            used: carried as f64 * 100.0 / self.capacity as f64,
            each: self
                .viewers
                .iter()
                .map(|it| it.bytes * 8_000 / (end - it.begins))
                .collect(),
        }
    }
}

fn run(row: Row, is_path: bool, seed: u64, is_verbose: bool) -> Shown {
    let mut world = World::new(row, is_path, seed);
    for step in 0..row.seconds * 1_000 {
        world.step(step * 1_000);
        if is_verbose && step % 1_000 == 999 {
            let rate = row.rate(step * 1_000);
            let queue = world.link.backlog(rate) / 1_000;
            for viewer in &world.viewers {
                let line = viewer.server.line();
                println!(
                    "{} s: link {}, queue {queue} ms; {line}",
                    step / 1_000 + 1,
                    rate / 1_000
                );
            }
        }
    }
    world.show()
}

/// The figures of all runs of a row.
struct Figures {
    shown: Vec<Shown>,
}

impl Figures {
    fn of(row: Row, is_path: bool, seeds: u64) -> Figures {
        Figures {
            shown: (1..=seeds)
                .map(|seed| run(row, is_path, seed, false))
                .collect(),
        }
    }

    fn mean(&self, of: impl Fn(&Shown) -> f64) -> f64 {
        self.shown.iter().map(of).sum::<f64>() / self.shown.len() as f64
    }

    fn most(&self, of: impl Fn(&Shown) -> u64) -> u64 {
        self.shown.iter().map(of).max().unwrap_or(0)
    }

    fn worst(&self) -> f64 {
        self.shown.iter().map(|it| it.best).fold(100.0, f64::min)
    }

    fn cells(&self) -> [String; 6] {
        [
            format!("{:.0} ({:.0})", self.mean(|it| it.best), self.worst()),
            format!("{:.0}", self.mean(|it| it.switches as f64)),
            format!(
                "{:.1} ({})",
                self.mean(|it| it.freezes as f64),
                self.most(|it| it.longest)
            ),
            self.most(|it| it.queue_95).to_string(),
            self.most(|it| it.queue_99).to_string(),
            format!("{:.0}", self.mean(|it| it.used)),
        ]
    }

    /// The rate of each viewer, if there are several.
    fn each(&self, viewers: usize) -> String {
        let rate = |viewer: usize| format!("{:.0}", self.mean(|it| it.each[viewer] as f64));
        match viewers {
            1 => String::new(),
            _ => format!(
                "; each {}",
                (0..viewers).map(rate).collect::<Vec<_>>().join(" and ")
            ),
        }
    }
}

fn print_table(seeds: u64) {
    println!(
        "| link, kbit/s | best choice, % (worst run) | switches | freezes (longest, ms) | queue 95 %, ms | 99 %, ms | link used, % |"
    );
    println!("|---|---|---|---|---|---|---|");
    for row in ROWS {
        let (beside, path) = (
            Figures::of(row, false, seeds),
            Figures::of(row, true, seeds),
        );
        let both = beside.cells().into_iter().zip(path.cells());
        let cells: Vec<String> = both
            .map(|(aimd, path)| format!("{aimd}; **{path}**"))
            .collect();
        println!(
            "| {}{} | {} |",
            row.name,
            path.each(row.viewers),
            cells.join(" | ")
        );
    }
}

/// Whether each row shows what is wanted.
fn check() -> bool {
    let mut beyond = 0;
    for row in ROWS {
        let figures = Figures::of(row, true, 3);
        let shown = (
            figures.mean(|it| it.best),
            figures.mean(|it| it.freezes as f64),
            figures.most(|it| it.queue_95),
        );
        let (best, freezes, queue) = row.wanted;
        if shown.0 < best || shown.1 > freezes || shown.2 > queue {
            beyond += 1;
            println!(
                "{}: {:.0} % of the time at the best choice, {best} wanted; {:.1} freezes, at most {freezes} wanted; queue {} ms, at most {queue} wanted",
                row.name, shown.0, shown.1, shown.2
            );
        }
    }
    println!(
        "paths: {} links, {beyond} beyond what is wanted",
        ROWS.len()
    );
    beyond == 0
}

fn main() {
    let words: Vec<String> = std::env::args().skip(1).collect();
    match words.iter().map(String::as_str).collect::<Vec<_>>()[..] {
        [] => print_table(10),
        ["--check"] => std::process::exit(i32::from(!check())),
        ["-v", link] => show_run(link, 1),
        ["-v", link, seed] => show_run(link, seed.parse().expect("a seed")),
        [seeds] => print_table(seeds.parse().expect("how many runs")),
        _ => panic!("paths [SEEDS] | --check | -v LINK [SEED]"),
    }
}

fn show_run(link: &str, seed: u64) {
    let row = ROWS
        .iter()
        .find(|row| row.name == link)
        .expect("a link of the table");
    let shown = run(*row, true, seed, true);
    println!(
        "best choice {:.0} %, {} freezes, the longest {} ms",
        shown.best, shown.freezes, shown.longest
    );
}
