//! What leaves for a viewer: the pacer and the limit of retransmissions, beside plain models.

mod random;

use codec_payload::Ticks;
use codec_payload::bandwidth::{
    LayerChoice, LayerChooser, LayerSettings, PacedKind, PacedPacket, Pacer, PacerError,
    PacerSettings, ResendLimit, ResendRefused, ResendSettings, choose, trial_rate,
};
use random::Dice;
use std::collections::VecDeque;

const KINDS: [PacedKind; 4] = [
    PacedKind::Audio,
    PacedKind::Resent,
    PacedKind::Media,
    PacedKind::Padding,
];

/// One schedule of a pacer: in each interval no more leaves than the rate carries, the burst and one packet; packets leave by kind, then
/// first come first served; the bound of the queue holds, and at the end everything leaves.
fn schedule(dice: &mut Dice) {
    let settings = {
        let mut settings = PacerSettings::live();
        settings.burst = dice.below(3_000) as u32;
        settings.bound = 2_000 + dice.below(30_000);
        settings
    };
    let mut rate = dice.below(2_000_000);
    let mut now = dice.below(1 << 40);
    let mut pacer = Pacer::new(rate, settings);
    pacer.set_rate(Ticks(now), rate);
    // What the worst interval that ends now has used beyond its rate, in bits times 1,000,000.
    let mut used: i128 = 0;
    let mut queues: [VecDeque<PacedPacket>; 4] = Default::default();
    for id in 0..dice.below(40) {
        match dice.below(8) {
            0..=2 => {
                let kind = dice.below(4) as usize;
                let packet = PacedPacket {
                    kind: KINDS[kind],
                    size: 1 + dice.below(1_500) as u32,
                    id,
                };
                let fits = pacer.waiting() + u64::from(packet.size) <= settings.bound;
                let answer = pacer.push(packet);
                assert_eq!(answer, if fits { Ok(()) } else { Err(PacerError::Full) });
                if fits {
                    queues[kind].push_back(packet);
                }
            }
            3..=5 => {
                let due = pacer.next_deadline();
                let mut left = None;
                while let Some(packet) = pacer.pop(Ticks(now)) {
                    left = left.or(Some(packet));
                    used += i128::from(packet.size) * 8_000_000;
                    assert!(
                        used <= (i128::from(settings.burst) + i128::from(packet.size)) * 8_000_000
                    );
                    let first = queues.iter().position(|queue| !queue.is_empty()).unwrap();
                    assert_eq!(queues[first].pop_front(), Some(packet));
                }
                assert_eq!(left.is_some(), due.is_some_and(|due| due.0 <= now));
            }
            6 => {
                let passed = dice.below(60_000);
                now += passed;
                used = (used - i128::from(passed) * i128::from(rate)).max(0);
            }
            _ => {
                rate = dice.below(2_000_000);
                // A time that is below the one before changes nothing but the rate.
                pacer.set_rate(Ticks(now), rate);
                pacer.set_rate(Ticks(now / 2), rate);
            }
        }
        let waiting: u64 = queues.iter().flatten().map(|it| u64::from(it.size)).sum();
        assert_eq!(pacer.waiting(), waiting);
        assert!(waiting <= settings.bound);
    }
    // Each packet leaves at the deadline, and none a microsecond before.
    pacer.set_rate(Ticks(now), 1 + dice.below(1_000_000));
    while let Some(due) = pacer.next_deadline() {
        if due.0 > now {
            assert_eq!(pacer.pop(Ticks(due.0 - 1)), None);
        }
        now = now.max(due.0);
        assert!(pacer.pop(Ticks(now)).is_some());
    }
    assert_eq!(pacer.waiting(), 0);
}

#[test]
fn packets_leave_by_the_rate() {
    let mut dice = Dice(0x1234_5678_9abc_def1);
    for _ in 0..20_000 {
        schedule(&mut dice);
    }
}

#[test]
fn a_rate_of_zero_sends_the_burst_alone() {
    let mut pacer = Pacer::new(0, {
        let mut settings = PacerSettings::live();
        settings.burst = 1_000;
        settings.bound = 10_000;
        settings
    });
    for id in 0..8 {
        let kind = PacedKind::Media;
        pacer
            .push(PacedPacket {
                kind,
                size: 1_000,
                id,
            })
            .unwrap();
    }
    // 1,000 bytes of the burst are full only once more than these have left.
    assert_eq!(pacer.pop(Ticks(5)).unwrap().id, 0);
    assert_eq!(pacer.pop(Ticks(5)).unwrap().id, 1);
    assert_eq!(pacer.pop(Ticks(u64::MAX)), None);
    assert_eq!(pacer.next_deadline(), None);
    assert_eq!(pacer.remove(PacedKind::Audio), None);
    assert_eq!(pacer.remove(PacedKind::Media).unwrap().id, 2);
    assert_eq!(pacer.waiting(), 5_000);
    // A deadline beyond the clock.
    pacer.set_rate(Ticks(u64::MAX), 1);
    assert_eq!(pacer.next_deadline(), None);
}

#[test]
fn the_largest_values() {
    let settings = {
        let mut settings = PacerSettings::live();
        settings.burst = u32::MAX;
        settings.bound = u64::MAX;
        settings
    };
    let mut pacer = Pacer::new(u64::MAX, settings);
    let packet = PacedPacket {
        kind: PacedKind::Padding,
        size: u32::MAX,
        id: u64::MAX,
    };
    for _ in 0..4 {
        pacer.push(packet).unwrap();
    }
    assert_eq!(pacer.pop(Ticks(0)), Some(packet));
    assert_eq!(pacer.pop(Ticks(0)), Some(packet));
    assert_eq!(pacer.pop(Ticks(0)), None);
    assert_eq!(pacer.pop(Ticks(u64::MAX)), Some(packet));
    assert_eq!(PacerSettings::live(), {
        let mut settings = PacerSettings::live();
        settings.burst = 2_500;
        settings.bound = 250_000;
        settings
    });
}

/// Random calls of a limit, beside the lists of what was sent and retransmitted.
#[test]
fn resends_are_a_share() {
    let mut dice = Dice(0xfeed_0001);
    let (mut allowed, mut refused) = (0u32, [0u32; 3]);
    for _ in 0..3_000 {
        let half_window = 1 + dice.below(1_000);
        let settings = {
            let mut settings = ResendSettings::live();
            settings.share = dice.below(2_000) as u32;
            settings.half_window = half_window;
            settings
        };
        let mut limit = ResendLimit::new(settings);
        let mut now = dice.below(1 << 30);
        // Times and sizes of both, and when a number may come again.
        let (mut sent, mut resent) = (Vec::new(), Vec::<(u64, u64)>::new());
        let mut until: Vec<(u16, u64)> = Vec::new();
        for _ in 0..dice.below(120) {
            now += dice.below(half_window / 2 + 1);
            if dice.below(2) == 0 {
                let size = dice.below(1_500) as u32;
                limit.sent(Ticks(now), size);
                sent.push((now, u64::from(size)));
                continue;
            }
            let (number, size) = (dice.below(4) as u16, dice.below(700) as u32);
            let round_trip = dice.below(2 * half_window);
            let soon = until.iter().any(|it| it.0 == number && it.1 > now);
            let answer = limit.resend(Ticks(now), number, size, round_trip);
            assert_eq!(answer == Err(ResendRefused::TooSoon), soon);
            match answer {
                Ok(()) => {
                    allowed += 1;
                    resent.push((now, u64::from(size)));
                    until.push((number, now + round_trip));
                    // Each window that ends now: at most the share of what was sent in it, and in twice the half window before it.
                    for begin in 0..resent.len() {
                        let from = resent[begin].0;
                        let again: u64 = resent[begin..].iter().map(|it| it.1).sum();
                        let first: u64 = sent
                            .iter()
                            .filter(|it| it.0 + 2 * half_window > from)
                            .map(|it| it.1)
                            .sum();
                        assert!(again * 1_000 <= u64::from(settings.share) * first);
                    }
                }
                Err(ResendRefused::Share) => {
                    refused[1] += 1;
                    // Not without need: the share of the last half window is not free.
                    let first: u64 = sent
                        .iter()
                        .filter(|it| it.0 + half_window > now)
                        .map(|it| it.1)
                        .sum();
                    let again: u64 = resent.iter().map(|it| it.1).sum();
                    assert!((again + u64::from(size)) * 1_000 > u64::from(settings.share) * first);
                }
                Err(ResendRefused::TooSoon) => refused[0] += 1,
                Err(_) => unreachable!("128 numbers are held"),
            }
        }
    }
    assert!(
        allowed > 10_000 && refused[0] > 10_000 && refused[1] > 10_000,
        "{allowed} {refused:?}"
    );
}

#[test]
fn as_many_as_are_remembered() {
    let mut limit = ResendLimit::new(ResendSettings::live());
    limit.sent(Ticks(0), u32::MAX);
    for number in 0..128 {
        assert_eq!(limit.resend(Ticks(1), number, 1_200, 50_000), Ok(()));
    }
    assert_eq!(
        limit.resend(Ticks(50_000), 128, 1_200, 50_000),
        Err(ResendRefused::TooMany)
    );
    assert_eq!(
        limit.resend(Ticks(50_000), 5, 1_200, 50_000),
        Err(ResendRefused::TooSoon)
    );
    assert_eq!(limit.resend(Ticks(50_001), 128, 1_200, 50_000), Ok(()));
    assert_eq!(limit.resend(Ticks(50_001), 5, 1_200, 50_000), Ok(()));
    // A second later nothing that was sent counts any more.
    assert_eq!(
        limit.resend(Ticks(2_000_000), 9, 1, 0),
        Err(ResendRefused::Share)
    );
    assert_eq!(limit.resend(Ticks(u64::MAX), 9, 0, u64::MAX), Ok(()));
    assert_eq!(
        ResendRefused::Share.to_string(),
        "share of retransmissions is used up"
    );
}

/// Whether a path of this rate carries a choice, by the rule in docs/use/BANDWIDTH.md.
fn is_carried(current: usize, carries: u64, index: usize, choice: &LayerChoice) -> bool {
    let margin = u128::from(choice.rate) * 105 / 100;
    (index <= current && choice.rate <= carries)
        || (margin <= u128::from(carries) && choice.begin <= carries)
}

#[test]
fn choices_that_fit() {
    let mut dice = Dice(3);
    for _ in 0..20_000 {
        let choices: Vec<LayerChoice> = (0..dice.below(6))
            .map(|_| LayerChoice {
                rate: dice.below(1_000),
                begin: dice.below(1_200),
            })
            .collect();
        let (current, carries) = (dice.below(7) as usize, dice.below(1_400));
        let carried = |it: &usize| is_carried(current, carries, *it, &choices[*it]);
        let highest = (0..choices.len()).rev().find(carried).unwrap_or(0);
        assert_eq!(choose(current, carries, &choices), highest);
        assert_eq!(choose(highest, carries, &choices), highest);
        assert!(choose(current, carries + dice.below(100), &choices) >= highest);
    }
}

#[test]
fn the_choice_rises_after_a_pause() {
    let ladder = [100_000, 300_000, 900_000].map(|rate| LayerChoice { rate, begin: 0 });
    let mut chooser = LayerChooser::new(
        {
            let mut settings = LayerSettings::live();
            settings.pause = 1_000;
            settings
        },
        9,
    );
    // An index beyond the list is one of all choices.
    assert_eq!(chooser.choose(Ticks(10), 400_000, &ladder), 1);
    assert_eq!(chooser.wanted(1, &ladder), 972_000);
    assert_eq!(chooser.choose(Ticks(500), 1_000_000, &ladder), 1);
    assert_eq!(chooser.choose(Ticks(600), 0, &ladder), 0);
    // The second fall makes the pause longer.
    assert_eq!(chooser.choose(Ticks(1_500), 1_000_000, &ladder), 0);
    assert_eq!(chooser.wanted(1, &ladder), 324_000);
    assert_eq!(chooser.wanted(5, &ladder), 972_000);
    assert_eq!(chooser.choose(Ticks(1_600), 944_999, &ladder), 1);
    assert_eq!(chooser.choose(Ticks(1_600), 945_000, &ladder), 2);
    assert_eq!(chooser.wanted(1, &ladder), 0);
    assert_eq!(chooser.choose(Ticks(1_700), 900_000, &ladder), 2);
    assert_eq!(chooser.choose(Ticks(1_700), 900_000, &[]), 0);
    assert_eq!(chooser.wanted(1, &[]), 0);
    let steep = LayerChoice {
        rate: 100,
        begin: 1_050,
    };
    assert_eq!(trial_rate(&steep), 1_080);
    assert_eq!(
        trial_rate(&LayerChoice {
            rate: u64::MAX,
            begin: 0
        }),
        u64::MAX
    );
    assert_eq!(LayerSettings::live(), {
        let mut settings = LayerSettings::live();
        settings.pause = 2_000_000;
        settings
    });
}
