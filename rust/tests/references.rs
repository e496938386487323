//! Which pictures a decoder can show, if each names those to which it refers, against sets of numbers.

mod random;

use codec_payload::parts::keyframes::references::{References, Referring};
use random::Dice;
use std::collections::BTreeSet;

/// A unit of one frame.
fn picture(number: u64, distances: &[u32]) -> Referring {
    Referring {
        number,
        frames: 1,
        distances: distances.iter().fold(0, |bits, d| bits | 1 << d),
        is_base: true,
    }
}

#[test]
fn three_temporal_layers() {
    // T0 T2 T1 T2 T0 ..: a picture of T0 refers to the one 4 before it, one of T1 to the one 2 before it, one of T2 to the one before it.
    let distance = |number: u64| [4, 1, 2, 1][(number % 4) as usize];
    let shown = |lost: &[u64]| {
        let mut references = References::after_keyframe(picture(100, &[]));
        (101..113)
            .filter(|number| !lost.contains(number))
            .filter(|&number| references.release(picture(number, &[distance(number)])))
            .collect::<Vec<_>>()
    };
    assert_eq!(shown(&[]).len(), 12);
    assert_eq!(
        shown(&[103]),
        [101, 102, 104, 105, 106, 107, 108, 109, 110, 111, 112]
    );
    assert_eq!(
        shown(&[102]),
        [101, 104, 105, 106, 107, 108, 109, 110, 111, 112]
    );
    assert_eq!(shown(&[104]), [101, 102, 103], "the base layer is broken");
}

#[test]
fn numbers_that_do_not_rise_break_off_all() {
    for number in [0, 99, 100] {
        let mut references = References::after_keyframe(picture(100, &[]));
        assert!(!references.release(picture(number, &[])));
        assert!(!references.release(picture(101, &[1])) && !references.release(picture(102, &[])));
    }
}

#[test]
fn far_references_and_itself_are_not_met() {
    let mut references = References::after_keyframe(picture(5, &[]));
    assert!(references.release(picture(132, &[127])));
    assert!(!references.clone().release(picture(133, &[0])));
    assert!(
        !references.release(picture(133, &[127])),
        "6 was not released"
    );
    assert!(!references.release(picture(u64::MAX, &[1])));
    let mut first = References::after_keyframe(picture(0, &[]));
    assert!(first.release(picture(3, &[4])), "before the keyframe");
    assert!(!first.release(picture(4, &[2])), "2 was not released");
    assert!(first.release(picture(5, &[5])));
}

#[test]
fn all_frames_of_a_unit_count_if_it_can_be_shown() {
    // Three frames a unit: 98 to 100, 101 to 103, and so on.
    let unit = |number: u64, distances: &[u32]| Referring {
        frames: 0b111,
        ..picture(number, distances)
    };
    let mut references = References::after_keyframe(unit(100, &[90, 0]));
    assert!(references.clone().release(picture(101, &[1, 2, 3])));
    // A keyframe replaces everything before it.
    assert!(references.clone().release(picture(101, &[4, 90, 127])));
    assert!(references.release(unit(103, &[3, 4, 5])));
    assert!(references.release(picture(104, &[1, 2, 3, 4, 5, 6])));
    assert!(
        !references.release(unit(110, &[5, 8])),
        "105 was not released"
    );
    for distance in 1..=6 {
        assert!(!references.clone().release(picture(111, &[distance])));
    }
    assert!(references.release(picture(111, &[7, 8, 9, 10])));
}

#[test]
fn random_streams_are_as_the_sets_say() {
    let mut dice = Dice(0x9E37_79B9_7F4A_7C15);
    let (mut released, mut all) = (0, 0);
    for round in 0..3_000_u64 {
        let mut number = dice.below(1_000);
        let mut references = References::after_keyframe(picture(number, &[]));
        let key = number;
        let mut shown = BTreeSet::from([key]);
        for _ in 0..200 {
            number += 1 + if dice.below(100) < round % 4 * 10 {
                dice.below(140)
            } else {
                0
            };
            let distances: Vec<u32> = (0..dice.below(3))
                .map(|_| 1 + dice.below([3, 20, 127][round as usize % 3]) as u32)
                .collect();
            let wanted = distances.iter().all(|&d| {
                number
                    .checked_sub(u64::from(d))
                    .is_none_or(|it| it < key || shown.contains(&it))
            });
            assert_eq!(
                references.release(picture(number, &distances)),
                wanted,
                "{number} {distances:?}"
            );
            all += 1;
            if wanted {
                shown.insert(number);
                released += 1;
            }
        }
    }
    assert!(
        released > all / 4 && released < all * 3 / 4,
        "{released} of {all}"
    );
}
