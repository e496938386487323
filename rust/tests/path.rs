//! Measurements of a path, beside plain models.

mod random;

use codec_payload::Ticks;
use codec_payload::bandwidth::{
    Arrivals, BandwidthEstimator, Delays, Losses, PacketFate, PacketOutcome, PathRate, Steady,
    Trial,
};
use random::Dice;

/// What stands in the queue: the least delay of the last 32 packets that are among the latest four or were sent in the last 25 ms, above
/// the least delay of this epoch of 10 s and the one before.
#[test]
fn what_stands() {
    let mut dice = Dice(11);
    for _ in 0..300 {
        let mut delays = Delays::new();
        let mut ahead = Delays::new();
        let clock = dice.below(1 << 30) * 1_000_000;
        let (mut sent, mut queue) = (dice.below(1 << 30), 0);
        // Each packet: when it was sent, its delay.
        let mut packets: Vec<(u64, i128)> = Vec::new();
        let (mut epoch, mut current, mut before) = (0, None::<i128>, None::<i128>);
        assert_eq!(delays.standing(), 0);
        for _ in 0..400 {
            let step = [2_000, 20_000, 200_000][dice.below(3) as usize];
            sent += dice.below(step);
            queue = (queue + dice.below(20_000)).saturating_sub(dice.below(20_000));
            let arrived = sent + 20_000 + queue;
            delays.note(sent, arrived);
            ahead.note(sent, arrived + clock);
            let delay = i128::from(arrived) - i128::from(sent);
            if sent >= epoch + 10_000_000 {
                (before, current, epoch) = (current, None, sent);
            }
            current = Some(current.map_or(delay, |it| it.min(delay)));
            packets.push((sent, delay));
            let base = before.into_iter().chain(current).min().unwrap();
            let recent = packets.iter().rev().take(32).enumerate();
            let counted = recent.filter(|(index, it)| *index < 4 || sent - it.0 <= 25_000);
            let least = counted.map(|(_, it)| it.1).min().unwrap();
            assert_eq!(delays.standing() as i128, least - base);
            assert_eq!(ahead.standing(), delays.standing());
            assert_eq!(delays.above(sent, arrived) as i128, delay - base);
            assert_eq!(
                ahead.above(sent, arrived + clock),
                delays.above(sent, arrived)
            );
        }
    }
    // Clocks may be any.
    let mut delays = Delays::new();
    delays.note(u64::MAX, 0);
    delays.note(0, u64::MAX);
    delays.note(u64::MAX, u64::MAX);
    assert_eq!(delays.above(u64::MAX, 5), 5);
}

#[test]
fn a_full_link_gives_its_rate() {
    let mut dice = Dice(12);
    for _ in 0..2_000 {
        // A byte takes this number of microseconds, so that all times are exact.
        let byte = 1 + dice.below(40);
        let mut arrivals = Arrivals::new();
        let mut at = dice.below(1 << 40);
        // A pause, and then packets one after another.
        arrivals.note(at, 1_000, false);
        at += 1_000_000;
        arrivals.note(at, 1_000, false);
        let first = at;
        for _ in 0..100 {
            let size = 1 + dice.below(1_500);
            at += size * byte;
            arrivals.note(at, size as u32, true);
            let rate = arrivals.link_rate();
            if let Some(rate) = rate {
                assert_eq!(rate, 8_000_000 / u128::from(byte));
            }
            assert!(rate.is_some() || at - first < 50_000 + 1_500 * byte);
        }
    }
}

/// The rate beside a plain sum over the arrivals of 250 ms.
#[test]
fn the_rate_of_arrivals() {
    let mut dice = Dice(13);
    for _ in 0..200 {
        let mut arrivals = Arrivals::new();
        let mut all: Vec<(u64, u64, bool)> = Vec::new();
        let mut at = 1_000_000;
        for _ in 0..300 {
            at += dice.below(9_000);
            // Some arrive late, and count with the latest.
            let late = dice.below(4) * dice.below(3) * 1_000;
            let (size, waited) = (dice.below(1_500), dice.below(3) > 0);
            arrivals.note(at.saturating_sub(late), size as u32, waited);
            let time = all.last().map_or(0, |it| it.0).max(at - late);
            all.push((time, size, waited));
            let newest = time;
            let window: Vec<_> = all
                .iter()
                .rev()
                .take(256)
                .take_while(|it| newest - it.0 <= 250_000)
                .collect();
            let rate_to = |last: usize| {
                let span = newest - window[last].0;
                let bytes: u64 = window[..last].iter().map(|it| it.1).sum();
                (span >= 50_000).then(|| u128::from(bytes * 8_000_000 / span))
            };
            let rate = rate_to(window.len() - 1);
            assert_eq!(arrivals.rate(), rate);
            // Since the first one of those that waited, without a gap up to the latest.
            let waited = window.iter().take_while(|it| it.2).count();
            let busy = waited.checked_sub(1).and_then(rate_to);
            assert_eq!(arrivals.link_rate(), busy.or(rate));
        }
    }
}

#[test]
fn losses_of_the_path_are_usual() {
    for percent in [0, 5, 10, 30, 60, 100] {
        let mut losses = Losses::new();
        let mut many = 0;
        for period in 1..=100u64 {
            for packet in 0..100 {
                losses.note(packet < percent);
                assert!(packet == 99 || !losses.judge(period * 500_000 - 1));
            }
            many += u32::from(losses.judge(period * 500_000));
        }
        // Below 15 percent none is too many; above, only until the average has come near.
        assert_eq!(many > 0, percent > 15, "{percent} percent: {many}");
        assert!(many <= 6, "{percent} percent: {many}");
        assert!(
            losses.usual().abs_diff(percent * 10) <= 1,
            "{percent} percent: {}",
            losses.usual()
        );
    }
}

#[test]
fn the_rate_stays_within() {
    let mut dice = Dice(14);
    for _ in 0..3_000 {
        let (least, most) = (dice.below(1 << 20), dice.below(1 << 24));
        let mut rate = PathRate::new(dice.below(1 << 30), least, most);
        let most = most.max(least);
        for _ in 0..50 {
            let before = rate.estimate();
            let value = [0, u64::MAX, dice.below(1 << 25)][dice.below(3) as usize];
            match dice.below(4) {
                0 => rate.raise(value),
                1 => {
                    rate.fall(value);
                    assert!(rate.estimate() <= before && rate.estimate() >= before / 4);
                }
                2 => {
                    let to = dice.below(1 << 25);
                    rate.settle(value, to);
                    assert!(rate.estimate() >= before && rate.estimate() <= before.max(to));
                }
                _ => rate.halve(),
            }
            assert!((least..=most).contains(&rate.estimate()));
        }
    }
    let trial = Trial {
        begun: Ticks(1_000_000),
        from: 300_000,
        to: 500_000,
    };
    assert_eq!(trial.rate(Ticks(0)), 300_000);
    assert_eq!(trial.rate(Ticks(1_250_000)), 400_000);
    assert_eq!(trial.rate(Ticks(9_000_000)), 500_000);
    let back = Trial {
        begun: Ticks(0),
        from: u64::MAX,
        to: 0,
    };
    assert_eq!(back.rate(Ticks(u64::MAX)), u64::MAX);
}

/// Whatever feedback says, the estimate stays within its bounds.
#[test]
fn the_estimate_of_lies() {
    let mut dice = Dice(15);
    for _ in 0..200 {
        let (least, most) = (1 + dice.below(100_000), 100_000 + dice.below(1 << 30));
        let mut now = dice.below(1 << 30);
        let mut estimator = BandwidthEstimator::new(Ticks(now), dice.below(1 << 30), least, most);
        for _ in 0..60 {
            now += [1_000, 100_000, 3_000_000][dice.below(3) as usize];
            let fates: Vec<PacketFate> = (0..dice.below(60))
                .map(|_| PacketFate {
                    sent: [0, u64::MAX, now.saturating_sub(dice.below(1 << 20))]
                        [dice.below(3) as usize],
                    size: [0, u32::MAX, dice.below(1_500) as u32][dice.below(3) as usize],
                    outcome: match dice.below(5) {
                        0 => PacketOutcome::Lost,
                        1 => PacketOutcome::Unknown,
                        2 => PacketOutcome::Arrived([0, u64::MAX][dice.below(2) as usize]),
                        _ => PacketOutcome::Arrived(now + dice.below(1 << 20)),
                    },
                })
                .collect();
            let round_trip = [0, 40_000, u64::MAX][dice.below(3) as usize];
            if dice.below(2) == 0 {
                estimator.sent(Ticks(now.saturating_sub(dice.below(1 << 21))));
            }
            estimator.feedback(Ticks(now), round_trip, &fates);
            let wanted = [0, u64::MAX, dice.below(1 << 25)][dice.below(3) as usize];
            estimator.tick(Ticks(now), dice.below(1 << 25), wanted);
            assert!((least..=most).contains(&estimator.estimate()));
            assert!(estimator.carries() <= estimator.estimate());
            if let Some(trial) = estimator.trial() {
                assert!(trial.from <= trial.to && !estimator.is_draining());
                assert!(estimator.pace(Ticks(now)) >= estimator.estimate());
            }
        }
    }
}

/// Another clock of the receiver, and the same estimates; on a path whose queue changes.
#[test]
fn the_estimate_by_another_clock() {
    let mut dice = Dice(16);
    let mut changes = 0;
    for _ in 0..100 {
        let new = || BandwidthEstimator::new(Ticks(1_000_000), 300_000, 30_000, 5_000_000);
        let (mut one, mut two) = (new(), new());
        let (mut now, ahead, mut queue) = (1_000_000, dice.below(1 << 30) * 1_000, 0);
        for _ in 0..200 {
            let mut fates = Vec::new();
            for _ in 0..dice.below(20) {
                now += dice.below(20_000);
                queue = (queue + dice.below(20_000)).saturating_sub(dice.below(20_000));
                let outcome = PacketOutcome::Arrived(now + 20_000 + queue);
                fates.push(PacketFate {
                    sent: now,
                    size: 1_000,
                    outcome,
                });
            }
            let moved: Vec<PacketFate> = fates
                .iter()
                .map(|it| match it.outcome {
                    PacketOutcome::Arrived(at) => PacketFate {
                        outcome: PacketOutcome::Arrived(at + ahead),
                        ..*it
                    },
                    _ => *it,
                })
                .collect();
            let before = one.estimate();
            one.feedback(Ticks(now), 40_000, &fates);
            two.feedback(Ticks(now), 40_000, &moved);
            one.tick(Ticks(now), 200_000, 600_000);
            two.tick(Ticks(now), 200_000, 600_000);
            assert_eq!((one.estimate(), one.trial()), (two.estimate(), two.trial()));
            changes += u32::from(one.estimate() != before);
        }
    }
    assert!(changes > 100, "{changes}");
}

/// Silence counts from the first packet that left since the last feedback. Once feedback says that packets arrive, half of the
/// rate is there again, and a trial of all of it is due at once.
#[test]
fn silence_halves_the_rate() {
    let mut estimator = BandwidthEstimator::new(Ticks(0), 800_000, 150_000, 5_000_000);
    // Nothing left: nothing is waited for.
    estimator.tick(Ticks(60_000_000), 0, 0);
    assert_eq!(estimator.estimate(), 800_000);
    let mut now = 60_000_000;
    for rate in [400_000, 200_000, 150_000, 150_000] {
        for later in [0, 350_000, 700_000] {
            estimator.sent(Ticks(now + later));
        }
        let before = estimator.estimate();
        estimator.tick(Ticks(now + 700_000), 0, 0);
        assert_eq!(estimator.estimate(), before);
        now += 700_001;
        estimator.tick(Ticks(now), 0, 0);
        assert_eq!(estimator.estimate(), rate);
        // A pause changes nothing more.
        now += 10_000_000;
        estimator.tick(Ticks(now), 0, 0);
        assert_eq!(estimator.estimate(), rate);
    }
    let fate = |number: u64| PacketFate {
        sent: now + number * 10_000,
        size: 1_000,
        outcome: PacketOutcome::Arrived(now + number * 10_000 + 20_000),
    };
    let fates: Vec<PacketFate> = (0..5).map(fate).collect();
    now += 70_000;
    estimator.feedback(Ticks(now), 40_000, &fates);
    assert_eq!((estimator.estimate(), estimator.trial()), (400_000, None));
    estimator.tick(Ticks(now), 300_000, 900_000);
    assert_eq!(estimator.trial().map(|it| it.to), Some(800_000));
}

/// Three windows of 300 ms are the same if their leasts differ by at most 6 ms; beside a plain list of windows.
#[test]
fn what_stays_the_same() {
    let mut dice = Dice(17);
    let mut count = 0;
    for _ in 0..2_000 {
        let begin = dice.below(1 << 40);
        let mut steady = Steady::begin(begin);
        let (mut now, level, spread) = (begin, dice.below(40_000), 1 + dice.below(12_000));
        let (mut window, mut since) = (Vec::new(), begin);
        // The leasts of windows that are the same as all of this list.
        let mut same: Vec<u64> = Vec::new();
        steady.note(begin.saturating_sub(1), 0);
        for _ in 0..60 {
            now += dice.below(120_000);
            let standing = level + dice.below(spread);
            steady.note(now, standing);
            window.push(standing);
            if now - since >= 300_000 {
                let least = *window.iter().min().unwrap();
                window.clear();
                since = now;
                same.push(least);
                let (low, high) = (same.iter().min().unwrap(), same.iter().max().unwrap());
                if high - low > 6_000 {
                    same = vec![least];
                }
            }
            let is_steady = same.len() >= 3 && *same.iter().min().unwrap() > 15_000;
            assert_eq!(steady.is_steady(), is_steady);
            count += u32::from(is_steady);
        }
    }
    assert!(count > 1_000, "{count}");
}

/// After `follow` nothing stands. A shorter delay counts again, a longer one stands.
#[test]
fn a_longer_way_is_followed() {
    let mut delays = Delays::new();
    let mut sent = 0;
    let mut note = |delays: &mut Delays, delay: u64| {
        for _ in 0..40 {
            sent += 10_000;
            delays.note(sent, sent + delay);
        }
        delays.standing()
    };
    assert_eq!(note(&mut delays, 20_000), 0);
    assert_eq!(note(&mut delays, 60_000), 40_000);
    delays.follow();
    assert_eq!(delays.standing(), 0);
    assert_eq!(note(&mut delays, 75_000), 15_000);
    assert_eq!(note(&mut delays, 50_000), 0);
    assert_eq!(note(&mut delays, 60_000), 10_000);
}
