//! `Freezes`: the rule of the W3C, worked by hand, and beside a second writing of it over the list of all times.

use codec_payload::freezes::Freezes;
use codec_payload::{Frequency, Ticks};

fn freezes(rate: u32) -> Freezes {
    Freezes::new(Frequency::make(rate).unwrap())
}

/// The counts of freezes and their ticks, after frames that were shown for these times each.
fn after(rate: u32, durations: &[u64]) -> (u64, u64) {
    let mut it = freezes(rate);
    let mut now = 1_000;
    it.shown(Ticks(now));
    for duration in durations {
        now += duration;
        it.shown(Ticks(now));
    }
    (it.counts().freezes, it.counts().frozen)
}

fn after_same(rate: u32, count: usize, each: u64, last: u64) -> (u64, u64) {
    let mut durations = vec![each; count];
    durations.push(last);
    after(rate, &durations)
}

#[test]
fn a_freeze_is_150_ms_above_the_average() {
    // The average of 29 durations of 50 ms and one of d is (1,450 + d) / 30: d is 150 ms above it from 5,950 / 29 on, 205.2 ms.
    assert_eq!(after_same(1_000, 29, 50, 205), (0, 0));
    assert_eq!(after_same(1_000, 29, 50, 206), (1, 206));
    assert_eq!(after_same(90_000, 29, 4_500, 18_465), (0, 0));
    assert_eq!(after_same(90_000, 29, 4_500, 18_466), (1, 18_466));
}

#[test]
fn a_freeze_is_three_times_the_average() {
    // (5,800 + d) / 10 is d from 644.4 ms on.
    assert_eq!(after_same(1_000, 29, 200, 644), (0, 0));
    assert_eq!(after_same(1_000, 29, 200, 645), (1, 645));
}

#[test]
fn the_average_is_over_the_last_30_frames_or_those_that_there_are() {
    assert_eq!(after_same(1_000, 400, 50, 205), (0, 0));
    assert_eq!(after_same(1_000, 400, 50, 206), (1, 206));
    // (150 + d) / 4 is a third of d from 450 ms on.
    assert_eq!(after_same(1_000, 3, 50, 449), (0, 0));
    assert_eq!(after_same(1_000, 3, 50, 450), (1, 450));
    assert_eq!(after_same(1_000, 0, 0, 1 << 40), (0, 0), "its own average");
}

#[test]
fn frozen_frames_count_for_the_average_too() {
    // The average with a second one of 300 ms: (28 * 50 + 600) / 30 is 66.7 ms.
    let mut durations = vec![50; 29];
    durations.extend([300, 300]);
    assert_eq!(after(1_000, &durations), (2, 600));
    // With five more of them the average is (23 * 50 + 7 * 300) / 30, 108.3 ms; the last is less than three times as long.
    durations.extend([300; 5]);
    assert_eq!(after(1_000, &durations), (6, 1_800));
}

#[test]
fn any_times_may_be_given() {
    let mut it = freezes(u32::MAX);
    for turn in 0..100 {
        assert!(!it.shown(Ticks(if turn % 2 == 0 { u64::MAX } else { 0 })));
    }
    for _ in 0..30 {
        it.shown(Ticks(5));
    }
    assert!(it.shown(Ticks(u64::MAX)));
    assert_eq!((it.counts().freezes, it.counts().frozen), (1, u64::MAX - 5));
}

/// The rule once more, over all times: the freezes and their ticks.
fn by_the_rule(rate: f64, times: &[u64]) -> (u64, u64) {
    let durations: Vec<f64> = times
        .windows(2)
        .map(|two| (two[1] - two[0]) as f64)
        .collect();
    let (mut freezes, mut frozen) = (0, 0);
    for end in 1..=durations.len() {
        let last = &durations[end.saturating_sub(30)..end];
        let average = last.iter().sum::<f64>() / last.len() as f64;
        let duration = durations[end - 1];
        if duration >= f64::max(3.0 * average, average + 0.15 * rate) {
            freezes += 1;
            frozen += duration as u64;
        }
    }
    (freezes, frozen)
}

#[test]
fn random_times_are_counted_by_the_rule() {
    let mut chance: u64 = 7;
    for turn in 0..200 {
        let (mut now, mut times, mut it) = (0, Vec::new(), freezes(1_000));
        for _ in 0..turn {
            chance = chance
                .wrapping_mul(6_364_136_223_846_793_005)
                .wrapping_add(1_442_695_040_888_963_407);
            // Durations of odd thirtieths: no average falls on a bound that a float would miss.
            now += match chance >> 60 {
                0 => 137 + (chance >> 33) % 900,
                _ => 17 + (chance >> 33) % 31,
            };
            times.push(now);
            it.shown(Ticks(now));
        }
        let counts = it.counts();
        assert_eq!(
            (counts.freezes, counts.frozen),
            by_the_rule(1_000.0, &times)
        );
    }
}
