//! Numbers that carry no media: which ones the edges of pictures show, for senders that keep the rule and for others.

mod random;

use codec_payload::edges::{Between, Edge, Gaps, IdWidth, PictureEdges};
use random::Dice;
use std::collections::{BTreeMap, BTreeSet};

fn edge(id: u16, width: IdWidth, begins: bool, ends: bool) -> Option<Edge> {
    Some(Edge {
        id,
        width,
        begins,
        ends,
    })
}

/// RFC 7741, section 4.2: X R N S R PID(3), I L T K RSV(4), M PictureID(7 or 15).
#[test]
fn edges_of_vp8() {
    use IdWidth::{Bits7, Bits15};
    // X and S, I, 7 bits.
    assert_eq!(
        Edge::in_vp8(&[0x90, 0x80, 0x11, 9], false),
        edge(0x11, Bits7, true, false)
    );
    // N too, and M: 15 bits. The marker ends the picture.
    assert_eq!(
        Edge::in_vp8(&[0xb0, 0x80, 0x92, 0x34, 9], true),
        edge(0x1234, Bits15, true, true)
    );
    // The begin of the second partition is not the begin of a picture.
    assert_eq!(
        Edge::in_vp8(&[0x91, 0x80, 0x92, 0x34], true),
        edge(0x1234, Bits15, false, true)
    );
    assert_eq!(
        Edge::in_vp8(&[0x80, 0x80, 0x05], false),
        edge(5, Bits7, false, false)
    );
    // No PictureID: X or I is clear, or a byte is missing.
    for payload in [
        &[0x10, 0x80, 0x11][..],
        &[0x90, 0x70, 0x11],
        &[0x90],
        &[0x90, 0x80],
        &[0x90, 0x80, 0x92],
        &[],
    ] {
        assert_eq!(Edge::in_vp8(payload, true), None);
    }
}

/// RFC 9628, section 4.2: I P L F B E V Z, M PictureID(7 or 15), TID(3) U SID(3) D.
#[test]
fn edges_of_vp9() {
    use IdWidth::{Bits7, Bits15};
    // I, B and E; without layers.
    assert_eq!(
        Edge::in_vp9(&[0x8c, 0x11, 9], true),
        edge(0x11, Bits7, true, true)
    );
    // E alone does not end a picture: it ends a frame of a layer.
    assert_eq!(
        Edge::in_vp9(&[0x84, 0x92, 0x34], false),
        edge(0x1234, Bits15, false, false)
    );
    // Nor does the marker alone.
    assert_eq!(
        Edge::in_vp9(&[0x80, 0x92, 0x34], true),
        edge(0x1234, Bits15, false, false)
    );
    // I, L and B: SID 0 begins a picture, SID 1 does not.
    assert_eq!(
        Edge::in_vp9(&[0xa8, 0x92, 0x34, 0x20], false),
        edge(0x1234, Bits15, true, false)
    );
    assert_eq!(
        Edge::in_vp9(&[0xa8, 0x92, 0x34, 0x02], false),
        edge(0x1234, Bits15, false, false)
    );
    for payload in [
        &[0x0c, 0x11, 9][..],
        &[0x8c],
        &[0x8c, 0x92],
        &[0xac, 0x12],
        &[],
    ] {
        assert_eq!(Edge::in_vp9(payload, true), None);
    }
}

/// The AV1 RTP specification, appendix A: start_of_frame, end_of_frame, template(6), frame_number(16).
#[test]
fn edges_of_descriptors() {
    use IdWidth::Bits16;
    assert_eq!(
        Edge::in_descriptor(&[0x80, 0xff, 0xfe]),
        edge(0xfffe, Bits16, true, false)
    );
    assert_eq!(
        Edge::in_descriptor(&[0x7f, 1, 2, 3]),
        edge(0x102, Bits16, false, true)
    );
    assert_eq!(Edge::in_descriptor(&[0xc0, 1]), None);
}

fn whole(id: u16, width: IdWidth) -> Edge {
    Edge {
        id,
        width,
        begins: true,
        ends: true,
    }
}

const NONE: Gaps = Gaps {
    before: None,
    after: None,
};

#[test]
fn numbers_between_two_pictures() {
    for (width, last) in [
        (IdWidth::Bits7, 127),
        (IdWidth::Bits15, 32_767),
        (IdWidth::Bits16, 65_535),
    ] {
        let range = Some(Between {
            after: 100,
            before: 104,
        });
        // The ids wrap.
        let mut edges = PictureEdges::none();
        assert_eq!(edges.hear(100, whole(last, width)), NONE);
        let found = edges.hear(104, whole(0, width));
        assert_eq!((found.before, found.after), (range, None));
        // The later one comes first.
        let mut edges = PictureEdges::none();
        assert_eq!(edges.hear(104, whole(0, width)), NONE);
        let found = edges.hear(100, whole(last, width));
        assert_eq!((found.before, found.after), (None, range));
        // Numbers that follow have none between them, and 129 are too far apart.
        for before in [101, 229] {
            let mut edges = PictureEdges::none();
            assert_eq!(edges.hear(100, whole(last, width)), NONE);
            assert_eq!(edges.hear(before, whole(0, width)), NONE);
        }
        // A picture between them did not come.
        let mut edges = PictureEdges::none();
        assert_eq!(edges.hear(100, whole(last, width)), NONE);
        assert_eq!(edges.hear(104, whole(1, width)), NONE);
        // After a restart the ids and numbers are other ones.
        let mut edges = PictureEdges::none();
        assert_eq!(edges.hear(100, whole(last, width)), NONE);
        edges.forget();
        assert_eq!(edges.hear(104, whole(0, width)), NONE);
    }
}

/// What an honest sender sends: for each number its edge, or nothing, if it carries no media.
fn honest(dice: &mut Dice, first: u64, pictures: u64) -> BTreeMap<u64, Option<Edge>> {
    let width = [IdWidth::Bits7, IdWidth::Bits15, IdWidth::Bits16][dice.below(3) as usize];
    let begin = [0, 100, 32_750, 65_500][dice.below(4) as usize] + dice.below(40);
    let (fill, inside) = ([0, 15, 40, 70][dice.below(4) as usize], dice.below(2) == 0);
    let (mut sent, mut number) = (BTreeMap::new(), first);
    for id in begin..begin + pictures {
        let packets = 1 + if dice.below(3) == 0 {
            dice.below(9)
        } else {
            dice.below(3)
        };
        for place in 0..packets {
            let is_last = place + 1 == packets;
            let part = edge((id % width.ids()) as u16, width, place == 0, is_last);
            sent.insert(number, part);
            number += 1;
            let most = match (is_last, dice.below(100)) {
                (true, 0..3) => 140,
                (true, _) => 5,
                (false, _) => 2,
            };
            if (is_last || inside) && dice.below(100) < fill {
                for _ in 0..1 + dice.below(most) {
                    sent.insert(number, None);
                    number += 1;
                }
            }
        }
    }
    sent
}

/// The order in which packets arrive: lost alone and in rows, late, and twice.
fn arrivals(dice: &mut Dice, sent: &BTreeMap<u64, Option<Edge>>, loss: u64) -> Vec<u64> {
    let spread = [1, 3, 30, 300][dice.below(4) as usize];
    let (mut order, mut row) = (Vec::new(), 0);
    for (at, number) in sent.keys().enumerate() {
        if row > 0 {
            row -= 1;
        } else if loss > 0 && dice.below(100) < 3 {
            row = dice.below(20);
        } else if dice.below(100) < loss {
            if dice.below(100) < 30 {
                order.push((at as u64 * 4 + 200 + dice.below(200), *number));
            }
        } else {
            order.push((at as u64 * 4 + dice.below(spread), *number));
        }
        if dice.below(100) < 2 {
            order.push((at as u64 * 4 + dice.below(100), *number));
        }
    }
    order.sort_unstable();
    order.into_iter().map(|(_, number)| number).collect()
}

/// Gives the edges a packet as a receiver does, which stores a number once. Returns the numbers that carry no media.
fn receive(
    edges: &mut PictureEdges,
    stored: &mut BTreeSet<u64>,
    number: u64,
    part: Option<Edge>,
) -> Vec<u64> {
    let mut found = Vec::new();
    let Some(part) = part else { return found };
    if !stored.insert(number) {
        return found;
    }
    edges.check(number);
    let gaps = edges.hear(number, part);
    for between in [gaps.before, gaps.after].into_iter().flatten() {
        edges.note(between);
        found.extend(between.after + 1..between.before);
    }
    found
}

/// No number of media is ever found, whatever came of it, and in whatever order.
#[test]
fn media_is_never_found() {
    let mut found = 0;
    for seed in 0..4_000 {
        let mut dice = Dice(seed);
        let (mut edges, mut first) = (PictureEdges::none(), 70_000);
        // Two senders, one after the other: their numbers may overlap.
        for _ in 0..2 {
            let pictures = 3 + dice.below(60);
            let sent = honest(&mut dice, first, pictures);
            let loss = [0, 5, 20, 50, 80][dice.below(5) as usize];
            let mut stored = BTreeSet::new();
            for number in arrivals(&mut dice, &sent, loss) {
                for noted in receive(&mut edges, &mut stored, number, sent[&number]) {
                    assert!(sent[&noted].is_none(), "seed {seed}: {noted} carries media");
                    found += 1;
                }
            }
            assert!(edges.is_trusted(), "seed {seed}");
            edges.forget();
            first += dice.below(100);
        }
    }
    println!("{found} numbers");
    assert!(found > 10_000);
}

/// If only numbers without media are lost, between pictures, in rows of at most 127, then all of them are found.
#[test]
fn all_without_media_are_found() {
    let mut found = 0;
    for seed in 0..1_000 {
        let mut dice = Dice(seed);
        let mut sent = honest(&mut dice, 70_000, 30);
        let (mut inside, mut row) = (false, 0);
        let mut is_simple = true;
        for part in sent.values() {
            row = if part.is_none() { row + 1 } else { 0 };
            is_simple &= row <= 127 && !(inside && part.is_none());
            inside = part.map_or(inside, |part| !part.ends);
        }
        if !is_simple {
            continue;
        }
        while sent
            .last_key_value()
            .is_some_and(|(_, part)| part.is_none())
        {
            sent.pop_last();
        }
        let (mut edges, mut stored) = (PictureEdges::none(), BTreeSet::new());
        let mut noted = BTreeSet::new();
        for number in arrivals(&mut dice, &sent, 0) {
            noted.extend(receive(&mut edges, &mut stored, number, sent[&number]));
        }
        let without: BTreeSet<u64> = sent
            .iter()
            .filter(|(_, part)| part.is_none())
            .map(|(n, _)| *n)
            .collect();
        assert_eq!(noted, without, "seed {seed}");
        found += noted.len();
    }
    println!("{found} numbers");
    assert!(found > 1_000);
}

/// Senders that do not keep the rule: ids that stand still, ids that are used twice, and ids that close up over pictures that then
/// come. At most one range is found wrongly.
#[test]
fn other_senders_lose_trust() {
    for kind in 0..3 {
        let (mut edges, mut stored) = (PictureEdges::none(), BTreeSet::new());
        let (mut wrong, mut closed, mut late) = (0, 0, None);
        for number in 0..300_u64 {
            let is_hidden = number % 10 == 5;
            let id = match kind {
                0 => 7,
                1 => number / 2,
                _ => closed,
            };
            let part = Some(whole(id as u16, IdWidth::Bits15));
            if is_hidden {
                late = Some((number, part));
            } else {
                wrong += receive(&mut edges, &mut stored, number, part).len();
            }
            closed += u64::from(!is_hidden);
            let behind = if number % 10 == 8 { late.take() } else { None };
            if let Some((number, part)) = behind {
                wrong += receive(&mut edges, &mut stored, number, part).len();
            }
        }
        assert!(wrong <= 1, "kind {kind}: {wrong}");
        assert!(!edges.is_trusted(), "kind {kind}");
        edges.forget();
        assert!(edges.is_trusted());
    }
}
