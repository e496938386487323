//! A path to a viewer, beside its parts called one by one with a plain list of the packets that left.

mod random;

use codec_payload::Ticks;
use codec_payload::bandwidth::{
    BandwidthEstimator, LayerChoice, LayerChooser, PacedKind, PacedPacket, Pacer, PacketFate,
    PacketOutcome, PathSettings, ResendLimit, ViewerPath,
};
use codec_payload::congestion::TransportFeedback;
use random::Dice;

const KINDS: [PacedKind; 4] = [
    PacedKind::Audio,
    PacedKind::Resent,
    PacedKind::Media,
    PacedKind::Padding,
];
/// The packets that a path remembers.
const REMEMBERED: usize = 2_048;

/// The parts of a path, and all packets that left: when, and how large.
struct Parts {
    pacer: Pacer,
    limit: ResendLimit,
    chooser: LayerChooser,
    estimator: BandwidthEstimator,
    left: Vec<(u64, u32)>,
    /// No more feedback counts of packets below this index.
    told: usize,
}

impl Parts {
    fn new(now: u64, settings: PathSettings) -> Parts {
        Parts {
            pacer: Pacer::new(settings.start, settings.pacer),
            limit: ResendLimit::new(settings.resends),
            chooser: LayerChooser::new(settings.layers, settings.choice),
            estimator: BandwidthEstimator::new(
                Ticks(now),
                settings.start,
                settings.least,
                settings.most,
            ),
            left: Vec::new(),
            told: 0,
        }
    }

    /// What a feedback says: `arrived` has the times in whole quarters of a millisecond, in this run without wrap.
    fn fates(&mut self, base: usize, arrived: &[Option<u64>]) -> Vec<PacketFate> {
        let first = self.left.len().saturating_sub(REMEMBERED);
        let open = self.told.max(first);
        let mut fates = Vec::new();
        let mut note = |index: usize, outcome| {
            let (sent, size) = self.left[index];
            fates.push(PacketFate {
                sent,
                size,
                outcome,
            });
        };
        for index in open..base {
            note(index, PacketOutcome::Unknown);
        }
        for (index, at) in (base..self.left.len()).zip(arrived) {
            if index >= open {
                note(
                    index,
                    at.map_or(PacketOutcome::Lost, |at| PacketOutcome::Arrived(at * 250)),
                );
            }
        }
        self.told = self.told.max((base + arrived.len()).min(self.left.len()));
        fates
    }
}

fn feedback(base: usize, arrived: &[Option<u64>]) -> TransportFeedback {
    TransportFeedback {
        base: base as u16,
        reference: 0,
        counter: 0,
        statuses: arrived.iter().map(|it| it.map(|at| at as u32)).collect(),
    }
}

/// One run of random calls. A receiver's clock differs from the first time that a path assumes, which changes nothing.
fn run(dice: &mut Dice, steps: u64) {
    let settings = PathSettings::live();
    let mut now = dice.below(1 << 40);
    let mut path = ViewerPath::new(Ticks(now), settings).unwrap();
    let mut parts = Parts::new(now, settings);
    // The clock of the receiver, in quarters of a millisecond, wraps within some runs.
    let clock = (1 << 34) + dice.below(1 << 32);
    let choices = [100_000, 300_000, 900_000].map(|rate| LayerChoice { rate, begin: 0 });
    for step in 0..steps {
        now += dice.below(3_000);
        match dice.below(10) {
            0..=2 => {
                let packet = PacedPacket {
                    kind: KINDS[dice.below(4) as usize],
                    size: dice.below(1_300) as u32,
                    id: step,
                };
                assert_eq!(path.push(packet), parts.pacer.push(packet));
            }
            3..=5 => {
                let packet = parts.pacer.pop(Ticks(now));
                let leaving = path.pop(Ticks(now));
                assert_eq!(leaving.map(|it| it.packet), packet);
                if let Some(packet) = packet {
                    assert_eq!(leaving.unwrap().number, parts.left.len() as u16);
                    parts.left.push((now, packet.size));
                    parts.estimator.sent(Ticks(now));
                    if packet.kind != PacedKind::Resent {
                        parts.limit.sent(Ticks(now), packet.size);
                    }
                }
            }
            6 => {
                let (number, size) = (dice.below(40) as u16, dice.below(1_300) as u32);
                assert_eq!(
                    path.resend(Ticks(now), number, size, 50_000),
                    parts.limit.resend(Ticks(now), number, size, 50_000)
                );
            }
            7 => {
                let carries = parts.estimator.carries();
                let before = parts.chooser.current();
                let choice = parts.chooser.choose(Ticks(now), carries, &choices);
                let steps = parts.estimator.steps();
                assert!(steps == 1 || steps == 2);
                let wanted = parts.chooser.wanted(steps, &choices) * parts.estimator.estimate()
                    / carries.max(1);
                parts
                    .estimator
                    .tick(Ticks(now), choices[choice].rate, wanted);
                let pace = parts.estimator.pace(Ticks(now)).max(125_000);
                parts.pacer.set_rate(Ticks(now), pace);
                let order = path.choose(Ticks(now), &choices);
                assert_eq!(order.choice, choice);
                assert_eq!((order.fell, order.rose), (choice < before, before < choice));
                if parts.estimator.trial().is_none() || parts.pacer.waiting() > 0 {
                    assert_eq!(order.padding, 0);
                }
                assert!(order.padding <= 6_000);
            }
            8 if dice.below(5) == 0 => {
                // The latest packet, or another one.
                let count = parts.left.len() as u64;
                let number = count.wrapping_sub(1 + dice.below(2)) as u16;
                let goes = parts.told < parts.left.len() && number == (count - 1) as u16;
                assert_eq!(path.take_back(number), goes);
                if goes {
                    parts.left.pop();
                }
            }
            _ => {
                if parts.left.is_empty() {
                    continue;
                }
                // Repeated, late, or with packets between that no feedback tells of; beyond what left, too.
                let back = dice.below(60).min(parts.left.len() as u64 - 1) as usize;
                let base = (parts.told + dice.below(5) as usize)
                    .min(parts.left.len() - 1)
                    .saturating_sub(back * (dice.below(4) / 3) as usize);
                let count = 1 + dice.below(60) as usize;
                let arrived: Vec<Option<u64>> = (base..base + count)
                    .map(|index| match parts.left.get(index) {
                        Some((sent, _)) if dice.below(10) > 0 => {
                            Some(clock + sent / 250 + 80 + dice.below(40))
                        }
                        _ => None,
                    })
                    .collect();
                let mut lost = Vec::new();
                path.append_lost(&feedback(base, &arrived), &mut lost)
                    .unwrap();
                let open = parts.told.max(parts.left.len().saturating_sub(REMEMBERED));
                let numbers: Vec<u16> = (base..parts.left.len())
                    .zip(&arrived)
                    .filter(|(index, at)| *index >= open && at.is_none())
                    .map(|(index, _)| index as u16)
                    .collect();
                assert_eq!(lost, numbers);
                let fates = parts.fates(base, &arrived);
                if !fates.is_empty() {
                    parts.estimator.feedback(Ticks(now), 50_000, &fates);
                }
                path.feedback(Ticks(now), 50_000, &feedback(base, &arrived))
                    .unwrap();
            }
        }
        assert_eq!(path.estimate(), parts.estimator.estimate());
        assert_eq!(path.waiting(), parts.pacer.waiting());
        assert_eq!(path.next_deadline(), parts.pacer.next_deadline());
        assert_eq!(path.choice(), parts.chooser.current());
        let statistics = path.statistics();
        assert_eq!(
            (statistics.estimate, statistics.carries),
            (parts.estimator.estimate(), parts.estimator.carries())
        );
        assert_eq!(
            (statistics.standing, statistics.usual_losses),
            (parts.estimator.standing(), parts.estimator.usual_losses())
        );
        assert_eq!(
            (statistics.trial, statistics.is_draining),
            (parts.estimator.trial(), parts.estimator.is_draining())
        );
    }
}

#[test]
fn a_path_is_its_parts() {
    let mut dice = Dice(29);
    for _ in 0..300 {
        run(&mut dice, 600);
    }
    // Packets are forgotten, and numbers wrap.
    run(&mut dice, 220_000);
}

#[test]
fn strangers_change_nothing() {
    let mut path = ViewerPath::new(Ticks(0), PathSettings::live()).unwrap();
    let estimate = path.estimate();
    let mut dice = Dice(5);
    for step in 0..2_000 {
        let statuses: Vec<Option<u64>> = (0..dice.below(300))
            .map(|_| (dice.below(2) > 0).then(|| dice.below(1 << 32)))
            .collect();
        let base = dice.below(65_536) as usize;
        path.feedback(Ticks(step), 1, &feedback(base, &statuses))
            .unwrap();
        assert_eq!(path.estimate(), estimate);
    }
}

/// Two paths send the same 40 packets. To one the feedback says more: times of packets that did not leave.
#[test]
fn statuses_behind_all_packets_change_nothing() {
    let mut dice = Dice(9);
    for _ in 0..200 {
        let paths = [0, 1].map(|_| ViewerPath::new(Ticks(0), PathSettings::live()).unwrap());
        let [mut one, mut other] = paths;
        let mut sent = 0;
        for round in 0..20_u64 {
            let now = Ticks(round * 100_000);
            for path in [&mut one, &mut other] {
                let packet = PacedPacket {
                    kind: PacedKind::Media,
                    id: round,
                    size: 300,
                };
                path.push(packet).unwrap();
                path.push(packet).unwrap();
            }
            while let Some(leaving) = one.pop(now) {
                assert_eq!(other.pop(now), Some(leaving));
                sent += 1;
            }
            let base = sent - dice.below(3.min(sent as u64 + 1)) as usize;
            let mut statuses: Vec<_> = (base..sent)
                .map(|at| Some((1 << 34) + at as u64 * 400))
                .collect();
            one.feedback(now, 1, &feedback(base, &statuses)).unwrap();
            statuses.extend((0..dice.below(50)).map(|_| Some(dice.below(1 << 32))));
            other.feedback(now, 1, &feedback(base, &statuses)).unwrap();
            let layers = [
                LayerChoice {
                    rate: 100_000,
                    begin: 0,
                },
                LayerChoice {
                    rate: 400_000,
                    begin: 0,
                },
            ];
            assert_eq!(one.choose(now, &layers), other.choose(now, &layers));
            assert_eq!(
                (one.estimate(), one.next_deadline()),
                (other.estimate(), other.next_deadline())
            );
        }
        assert_eq!(sent, 40);
    }
}
