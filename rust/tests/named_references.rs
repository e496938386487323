//! Which units a decoder can show, if they say to which frames they refer: by the P_DIFFs of VP9 (RFC 9628, section 4.2) or by
//! dependency descriptors (AV1 RTP specification, appendix A). Against the rule over whole lists, and against a model of a decoder.

mod random;

use codec_payload::keyframes::{FromKeyframe, KeyframeGate, Referring, UnitGate, UnitReferences};
use codec_payload::{Codec, CodecExtra, Vp9CodecExtra};
use random::Dice;

/// Frame headers of VP9 (VP9 bitstream specification, section 6.2): a keyframe and another frame.
const KEY: &[u8] = &[0x82, 0x49, 0x83, 0x42, 0, 0, 0xF0, 0, 0xF0, 0];
const DELTA: &[u8] = &[0x86, 0, 0, 0];

/// What the packets of a unit say.
#[derive(Clone, Debug, Default)]
struct Unit {
    key: bool,
    contiguous: bool,
    /// By its descriptors: the numbers of its frames, and of those that they refer to, none of which is its own.
    described: Option<(Vec<u64>, Vec<u64>)>,
    /// Whether all its frames are of temporal layer 0, by its descriptors.
    described_base: bool,
    /// Of VP9: the picture id, the temporal layer, and the P_DIFFs; `None`: not in the flexible mode.
    id: Option<u64>,
    tid: Option<u8>,
    differences: Option<Vec<u64>>,
    /// Its first layer frame needs a lower spatial layer that is missing.
    cut: bool,
}

#[derive(Clone, Debug)]
enum Event {
    Unit(Unit),
    Refused,
    Skipped,
}

fn bits(from: u64, numbers: &[u64]) -> u128 {
    numbers.iter().fold(0, |bits, n| bits | 1 << (from - n))
}

impl Unit {
    fn extra(&self) -> CodecExtra {
        CodecExtra::Vp9(Vp9CodecExtra {
            picture_id: self.id,
            tid: self.tid,
            ..Vp9CodecExtra::default()
        })
    }

    fn references(&self) -> UnitReferences {
        UnitReferences {
            descriptor: self.described.as_ref().map(|(frames, refers)| {
                let number = frames[frames.len() - 1];
                Referring {
                    number,
                    frames: bits(number, frames),
                    distances: bits(number, refers),
                    is_base: self.described_base,
                }
            }),
            differences: self.differences.as_ref().map(|differences| {
                differences
                    .iter()
                    .fold(u128::from(self.cut), |bits, d| bits | 1 << d)
            }),
        }
    }

    fn bytes(&self) -> &'static [u8] {
        if self.key { KEY } else { DELTA }
    }

    fn release(&self, gate: &mut KeyframeGate) -> bool {
        gate.release(
            self.bytes(),
            self.contiguous,
            &self.extra(),
            &self.references(),
        )
    }
}

/// What is followed since a keyframe.
#[derive(Clone, Copy, PartialEq)]
enum By {
    Descriptors,
    Differences,
    Chain,
}

/// The rule, from the whole list of what came: whether each unit can be shown, and whether a keyframe is needed after each event.
fn by_the_rule(events: &[Event]) -> Vec<(bool, bool)> {
    let mut says: Vec<(bool, bool)> = Vec::new();
    for (at, event) in events.iter().enumerate() {
        let wanted = at > 0 && says[at - 1].1;
        says.push(match event {
            Event::Refused => (false, true),
            Event::Skipped => (at > 0 && says[at - 1].0, true),
            Event::Unit(unit) if unit.key => (true, false),
            Event::Unit(unit) => judged(unit, &events[..at], &says, wanted),
        });
    }
    says
}

/// The numbers of a unit and whether it is of the base.
fn numbers(unit: &Unit, by: By) -> Option<(Vec<u64>, bool)> {
    match by {
        By::Descriptors => unit
            .described
            .as_ref()
            .map(|(frames, _)| (frames.clone(), unit.described_base)),
        By::Differences => unit
            .differences
            .as_ref()
            .and(unit.id)
            .map(|id| (vec![id], unit.tid.unwrap_or(0) == 0)),
        By::Chain => None,
    }
}

/// A unit that is not a keyframe: whether it can be shown, and whether a keyframe is needed.
fn judged(unit: &Unit, before: &[Event], says: &[(bool, bool)], wanted: bool) -> (bool, bool) {
    let chained = unit.contiguous && says.last().is_some_and(|it| it.0);
    let is_key = |it: &Event| matches!(it, Event::Unit(unit) if unit.key);
    let Some(key_at) = before.iter().rposition(is_key) else {
        return (false, true);
    };
    let since: Vec<(&Unit, bool)> = (key_at..before.len())
        .filter_map(|at| match &before[at] {
            Event::Unit(it) => Some((it, says[at].0)),
            _ => None,
        })
        .collect();
    let by = [By::Descriptors, By::Differences]
        .into_iter()
        .find(|&by| numbers(since[0].0, by).is_some())
        .unwrap_or(By::Chain);
    if by == By::Chain {
        return (chained, wanted || !chained);
    }
    // After a picture without a number none is known.
    let is_lost = |it: &Unit| by == By::Differences && numbers(it, by).is_none();
    let Some((own, base)) = numbers(unit, by).filter(|_| !since.iter().any(|it| is_lost(it.0)))
    else {
        return (false, true);
    };
    let numbered: Vec<(Vec<u64>, bool)> = since
        .iter()
        .filter_map(|(it, shown)| numbers(it, by).map(|(frames, _)| (frames, *shown)))
        .collect();
    let last = |frames: &[u64]| frames[frames.len() - 1];
    let rise = numbered
        .windows(2)
        .all(|pair| last(&pair[0].0) < last(&pair[1].0))
        && last(&numbered[numbered.len() - 1].0) < last(&own);
    // A keyframe replaces everything before it.
    let lowest = numbered[0].0[0];
    let is_shown = |n: u64| {
        n < lowest
            || numbered
                .iter()
                .any(|(frames, shown)| *shown && frames.contains(&n))
    };
    let shown = rise
        && match by {
            By::Descriptors => unit
                .described
                .iter()
                .all(|(_, refers)| refers.iter().all(|&n| is_shown(n))),
            _ if unit.cut => false,
            _ => {
                let differences = unit.differences.clone().unwrap_or_default();
                if differences.is_empty() {
                    chained
                } else {
                    differences
                        .iter()
                        .all(|d| own[0].checked_sub(*d).is_none_or(is_shown))
                }
            }
        };
    (shown, if base { !shown } else { wanted })
}

/// Compares a gate with the rule. Returns which units can be shown.
fn compare(events: &[Event]) -> Vec<bool> {
    let mut gate = KeyframeGate::new(Codec::Vp9);
    let rule = by_the_rule(events);
    for (at, event) in events.iter().enumerate() {
        match event {
            Event::Unit(unit) => assert_eq!(unit.release(&mut gate), rule[at].0, "{at} {unit:?}"),
            Event::Refused => gate.lose(),
            Event::Skipped => gate.skip(),
        }
        assert_eq!(
            (gate.shows_last(), gate.wants_keyframe()),
            rule[at],
            "{at} {event:?}"
        );
    }
    rule.iter().map(|it| it.0).collect()
}

/// Pictures of three temporal layers, T0 T2 T1 T2 .., from the picture id 500 on.
fn three_layers(count: u64) -> Vec<Unit> {
    (0..count)
        .map(|at| Unit {
            key: at == 0,
            contiguous: true,
            id: Some(500 + at),
            tid: Some([0, 2, 1, 2][(at % 4) as usize]),
            differences: Some(if at == 0 {
                vec![]
            } else {
                vec![[4, 1, 2, 1][(at % 4) as usize]]
            }),
            ..Unit::default()
        })
        .collect()
}

/// The places of the units that can be shown, without the units at `lost`.
fn shown(units: &[Unit], lost: &[usize]) -> (Vec<usize>, KeyframeGate) {
    let mut gate = KeyframeGate::new(Codec::Vp9);
    let mut follows = true;
    let mut shown = Vec::new();
    for (at, unit) in units.iter().enumerate() {
        if lost.contains(&at) {
            follows = false;
            continue;
        }
        let unit = Unit {
            contiguous: follows,
            ..unit.clone()
        };
        follows = true;
        if unit.release(&mut gate) {
            shown.push(at);
        }
    }
    (shown, gate)
}

#[test]
fn each_lost_picture_holds_back_what_refers_to_it() {
    let units = three_layers(17);
    for lost in 1..17_usize {
        let held: &[usize] = match lost % 4 {
            0 => &(lost + 1..17).collect::<Vec<_>>(),
            2 => &[lost + 1],
            _ => &[],
        };
        let (some, gate) = shown(&units, &[lost]);
        let expected: Vec<usize> = (0..17)
            .filter(|it| *it != lost && !held.contains(it))
            .collect();
        assert_eq!(some, expected, "without {lost}");
        let wants = lost % 4 == 0 && lost < 16;
        assert_eq!(gate.wants_keyframe(), wants, "without {lost}");
        // And by the rule.
        let events: Vec<Event> = (0..17)
            .filter(|it| *it != lost)
            .map(|it| Event::Unit(units[it].clone()))
            .collect();
        compare(&events);
    }
}

#[test]
fn a_picture_whose_lower_layer_is_missing_is_held_back() {
    let mut units = three_layers(9);
    units[2].cut = true;
    let (some, gate) = shown(&units, &[]);
    assert_eq!(some, [0, 1, 4, 5, 6, 7, 8], "3 refers to 2");
    assert!(!gate.wants_keyframe());
    units[4].cut = true;
    assert!(shown(&units, &[]).1.wants_keyframe());
}

#[test]
fn senders_that_never_set_p_are_followed_by_the_unit_before() {
    let mut units = three_layers(8);
    for unit in &mut units {
        unit.differences = Some(vec![]);
    }
    assert_eq!(shown(&units, &[]).0, [0, 1, 2, 3, 4, 5, 6, 7]);
    let (some, gate) = shown(&units, &[3]);
    assert_eq!(some, [0, 1, 2]);
    assert!(gate.wants_keyframe());
    // One picture with P clear refers to the unit before it, and not to those in its number.
    let mut units = three_layers(8);
    units[5].differences = Some(vec![]);
    assert_eq!(shown(&units, &[4]).0, [0, 1, 2, 3]);
    assert_eq!(shown(&units, &[3]).0, [0, 1, 2, 4, 5, 6, 7]);
    assert_eq!(shown(&units, &[1]).0, [0, 2, 3, 4, 5, 6, 7]);
}

#[test]
fn a_picture_without_a_number_holds_back_all_until_a_keyframe() {
    for change in [0, 1] {
        let mut units = three_layers(12);
        match change {
            0 => units[5].id = None,
            _ => units[5].differences = None,
        }
        let (some, gate) = shown(&units, &[]);
        assert_eq!(some, [0, 1, 2, 3, 4]);
        assert!(gate.wants_keyframe());
        units[8].key = true;
        let (some, gate) = shown(&units, &[]);
        assert_eq!(some, [0, 1, 2, 3, 4, 8, 9, 10, 11]);
        assert!(!gate.wants_keyframe());
    }
    // The first keyframe without a number: the chain.
    let mut units = three_layers(6);
    units[0].id = None;
    assert_eq!(shown(&units, &[3]).0, [0, 1, 2]);
}

#[test]
fn numbers_that_go_back_hold_back_all_until_a_keyframe() {
    let units = three_layers(8);
    for id in [0, 400, 503] {
        let mut gate = shown(&units[..4], &[]).1;
        let back = Unit {
            id: Some(id),
            ..units[4].clone()
        };
        assert!(!back.release(&mut gate) && gate.wants_keyframe());
        for unit in &units[4..8] {
            assert!(!unit.release(&mut gate) && gate.wants_keyframe());
        }
        assert!(units[0].release(&mut gate) && units[1].release(&mut gate));
    }
}

#[test]
fn others_go_on_past_a_refused_unit_by_their_references() {
    let units = three_layers(9);
    let mut events: Vec<Event> = units.iter().cloned().map(Event::Unit).collect();
    events[2] = Event::Refused;
    let some = compare(&events);
    assert_eq!(
        some,
        [true, true, false, false, true, true, true, true, true]
    );
    let mut gate = shown(&units[..2], &[]).1;
    gate.lose();
    assert!(gate.wants_keyframe() && !gate.shows_last());
    assert!(!units[3].release(&mut gate) && gate.wants_keyframe());
    assert!(units[4].release(&mut gate) && !gate.wants_keyframe());
    events[4] = Event::Refused;
    assert_eq!(compare(&events)[4..], [false; 5]);
}

/// Units of three spatial layers, of which each refers to the one below and to the unit before: frames 3n, 3n + 1 and 3n + 2.
fn three_spatial_layers(count: u64) -> Vec<Unit> {
    (0..count)
        .map(|at| {
            let first = 900 + 3 * at;
            Unit {
                key: at == 0,
                contiguous: true,
                described: Some((
                    vec![first, first + 1, first + 2],
                    if at == 0 {
                        vec![]
                    } else {
                        vec![first - 3, first - 2, first - 1]
                    },
                )),
                described_base: true,
                ..Unit::default()
            }
        })
        .collect()
}

#[test]
fn descriptors_with_three_spatial_layers() {
    let units = three_spatial_layers(6);
    assert_eq!(shown(&units, &[]).0, [0, 1, 2, 3, 4, 5]);
    let (some, gate) = shown(&units, &[2]);
    assert_eq!(some, [0, 1]);
    assert!(gate.wants_keyframe());
    // The first frame of a unit is lost: its others refer to it.
    let mut cut = units.clone();
    cut[2].described = Some((vec![907, 908], vec![906, 903, 904, 905]));
    assert_eq!(shown(&cut, &[]).0, [0, 1]);
    // The lowest layer alone goes on.
    let mut low = units.clone();
    for at in 3..6 {
        let first = 900 + 3 * at;
        low[at as usize].described = Some((vec![first], vec![first - 3]));
    }
    assert_eq!(shown(&low, &[]).0, [0, 1, 2, 3, 4, 5]);
    low[2].described = Some((vec![906], vec![903]));
    low[3].described = Some((vec![909, 910], vec![906, 907]));
    assert_eq!(shown(&low, &[]).0, [0, 1, 2], "907 was not released");
}

#[test]
fn a_descriptor_that_cannot_be_read_counts_as_missing_frames() {
    let mut units = three_spatial_layers(8);
    units[2].described = None;
    units[3].described = Some((vec![909, 910, 911], vec![905]));
    let (some, gate) = shown(&units, &[]);
    assert_eq!(some, [0, 1, 3, 4, 5, 6, 7]);
    assert!(!gate.wants_keyframe());
    assert!(shown(&units[..3], &[]).1.wants_keyframe());
}

#[test]
fn a_keyframe_whose_descriptor_cannot_be_read_begins_a_chain() {
    let mut units = three_spatial_layers(8);
    units[0].described = None;
    assert_eq!(shown(&units, &[]).0, [0, 1, 2, 3, 4, 5, 6, 7]);
    let (some, gate) = shown(&units, &[3]);
    assert_eq!(some, [0, 1, 2]);
    assert!(gate.wants_keyframe());
    // Of VP9 with picture ids in the flexible mode: their P_DIFFs.
    let mut units = three_layers(8);
    for (at, unit) in units.iter_mut().enumerate().skip(1) {
        unit.described = Some((vec![at as u64], vec![]));
    }
    assert_eq!(shown(&units, &[2]).0, [0, 1, 4, 5, 6, 7]);
    units[0].described = Some((vec![0], vec![]));
    assert_eq!(
        shown(&units, &[2]).0,
        [0, 1, 3, 4, 5, 6, 7],
        "by its descriptor 3 refers to nothing"
    );
}

#[test]
fn units_that_nobody_inspects_are_all_passed_on() {
    let unit = &three_layers(2)[1];
    for (codec, mode) in [
        (Codec::Vp9, FromKeyframe::Off),
        (Codec::Opus, FromKeyframe::Drop),
    ] {
        let mut gate = UnitGate::new(codec, mode);
        gate.lose();
        assert!(gate.release(KEY, false, &unit.extra(), &unit.references()));
        assert!(!gate.is_keyframe() && gate.is_decodable() && !gate.wants_keyframe());
        assert_eq!(gate.undecodable(), 0);
    }
    let mut gate = UnitGate::new(Codec::Vp9, FromKeyframe::Drop);
    assert!(!gate.release(DELTA, true, &unit.extra(), &unit.references()));
    assert_eq!(gate.undecodable(), 1);
    assert!(gate.release(KEY, true, &unit.extra(), &unit.references()) && gate.is_keyframe());
}

/// A unit at random, which may refer to any frame near it.
fn any_unit(dice: &mut Dice, number: u64, key: bool) -> Unit {
    let frames = 1 + dice.below(3);
    let mut near = |most: u64, from: u64| -> Vec<u64> {
        (0..dice.below(most))
            .map(|_| from + dice.below(6))
            .collect()
    };
    let refers = near(3, 1).iter().map(|d| number - frames + 1 - d).collect();
    let differences = near(3, 1);
    Unit {
        key,
        contiguous: dice.below(10) > 0,
        described: (dice.below(20) > 0).then(|| ((number - frames + 1..=number).collect(), refers)),
        described_base: dice.below(2) == 0,
        id: (dice.below(60) > 0).then_some(number),
        tid: [None, Some(0), Some(1), Some(2)][dice.below(4) as usize],
        differences: (dice.below(60) > 0).then_some(differences),
        cut: dice.below(40) == 0,
    }
}

#[test]
fn random_streams_are_as_the_rule_says() {
    let mut dice = Dice(0x9E37_79B9_7F4A_7C15);
    let (mut all, mut some) = (0, 0);
    for _ in 0..1_000 {
        let mut number = 1_000;
        let way = dice.below(3);
        let events: Vec<Event> = (0..60)
            .map(|at| {
                match dice.below(60) {
                    0 => return Event::Refused,
                    1 => return Event::Skipped,
                    2 => number -= dice.below(3),
                    _ => number += 1 + dice.below(4),
                }
                let key = at == 0 || dice.below(25) == 0;
                let mut unit = any_unit(&mut dice, number, key);
                if way == 1 && key || way == 2 {
                    unit.described = None;
                }
                Event::Unit(unit)
            })
            .collect();
        let shown = compare(&events);
        all += shown.len();
        some += shown.iter().filter(|it| **it).count();
    }
    assert!(some > all / 6 && some < all * 5 / 6, "{some} of {all}");
}

/// A layer frame of an encoder with eight buffers: those that it reads and writes, and what the buffers hold when it is coded.
struct Frame {
    number: u64,
    reads: Vec<usize>,
    writes: Vec<usize>,
    holds: [u64; 8],
}

/// An encoder that chooses spatial layers and references at random. Each unit says what its frames read.
fn encode(dice: &mut Dice, count: usize) -> Vec<(Unit, Vec<Frame>)> {
    let mut holds = [0; 8];
    let mut number = 5_000;
    let mut units = Vec::new();
    for at in 0..count {
        let key = at == 0 || dice.below(50) == 0;
        let first = number + 1;
        let mut frames = Vec::new();
        let mut refers = Vec::new();
        for layer in 0..1 + dice.below(3) {
            number += 1;
            let reads: Vec<usize> = (0..8)
                .filter(|&it| {
                    dice.below(3) == 0 && (!key || holds[it] >= first) && number - holds[it] < 120
                })
                .collect();
            let all = key && layer == 0;
            let writes: Vec<usize> = (0..8).filter(|_| all || dice.below(5) == 0).collect();
            refers.extend(reads.iter().map(|&it| holds[it]).filter(|&it| it < first));
            frames.push(Frame {
                number,
                reads,
                writes: writes.clone(),
                holds,
            });
            for it in writes {
                holds[it] = number;
            }
        }
        let unit = Unit {
            key,
            contiguous: true,
            described: Some(((first..=number).collect(), refers)),
            described_base: dice.below(2) == 0,
            ..Unit::default()
        };
        units.push((unit, frames));
    }
    units
}

#[test]
fn what_is_decodable_is_the_picture_of_the_encoder() {
    let mut dice = Dice(0x2545_F491_4F6C_DD1D);
    let (mut released, mut shown) = (0, 0);
    for round in 0..3_000 {
        let loss = [0, 3, 10, 30][round % 4];
        let mut gate = KeyframeGate::new(Codec::Vp9);
        let mut decoder = [0; 8];
        for (unit, frames) in encode(&mut dice, 60) {
            if dice.below(100) < loss {
                continue;
            }
            released += 1;
            if !unit.release(&mut gate) {
                assert!(loss > 0, "nothing is lost: {unit:?}");
                continue;
            }
            shown += 1;
            for frame in frames {
                for it in frame.reads {
                    assert_eq!(decoder[it], frame.holds[it], "another picture: {unit:?}");
                }
                for it in frame.writes {
                    decoder[it] = frame.number;
                }
            }
        }
    }
    assert!(
        shown > released / 3 && shown < released * 9 / 10,
        "{shown} of {released}"
    );
}
