//! Runs small random schedules of calls through the library and through models of it, and compares each answer.
//!
//! ```sh
//! cargo run --release -- buffer 60 1    # a model, seconds, and a seed; without them each for 10 s
//! ```
//!
//! The models are written from the pages, docs/use/BUFFER.md, DATAGRAMS.md, FORWARDING.md and FORMATS.md, and not from the code. A
//! difference stops the program with the seed of its schedule, which runs it alone: `cargo run --release -- buffer 0 SEED`.

mod buffer;
mod dice;
mod forwarder;
mod packet;
mod receiver;

use dice::Dice;
use std::time::{Duration, Instant};

type Schedule = fn(&mut Dice) -> u64;
const MODELS: [(&str, Schedule); 3] = [
    ("buffer", buffer::schedule),
    ("receiver", receiver::schedule),
    ("forwarder", forwarder::schedule),
];

/// Runs schedules until the time is over, at least one.
fn run(name: &str, schedule: Schedule, time: Duration, seed: u64) {
    let (begin, mut schedules, mut calls) = (Instant::now(), 0, 0);
    loop {
        let seed = seed + schedules;
        let told = std::panic::catch_unwind(|| schedule(&mut Dice(seed)));
        let Ok(compared) = told else {
            eprintln!("models: {name} differs in the schedule of seed {seed}");
            std::process::exit(1);
        };
        calls += compared;
        schedules += 1;
        if begin.elapsed() >= time {
            break;
        }
    }
    println!("{name}: {schedules} schedules, {calls} calls, all as the model says");
}

fn main() {
    let words: Vec<String> = std::env::args().skip(1).collect();
    let number = |place: usize, default| {
        words
            .get(place)
            .map_or(default, |it| it.parse().expect("a number"))
    };
    let (seconds, seed) = (number(1, 10), number(2, 1));
    for (name, schedule) in MODELS {
        if words.first().is_none_or(|it| it == name) {
            run(name, schedule, Duration::from_secs(seconds), seed);
        }
    }
}
