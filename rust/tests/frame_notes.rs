//! What packets say of the frames that they begin: payload descriptors of VP9 and dependency descriptors, in any order, as senders
//! write them and as nobody does.

mod random;

use codec_payload::frame_notes::{FrameNote, FrameNotes};
use codec_payload::keyframes::{Referring, UnitReferences};
use random::Dice;
use std::collections::{BTreeMap, BTreeSet};

/// The first descriptors of a call of Chromium with VP9 in two spatial and three temporal layers, that frames begin with.
const CAPTURED_VP9: [&str; 8] = [
    "810001800514853abfaaa18f04304302a02a006001001b934515e082704608c0c7870043216511115432768077805980ef80b380",
    "860002",
    "830003",
    "880004",
    "820005",
    "870006",
    "840007",
    "890008",
];

/// The number that frame number 0 has in a new stream.
const BEGINNING: u64 = 1 << 63;

fn bytes(hex: &str) -> Vec<u8> {
    (0..hex.len() / 2)
        .map(|at| u8::from_str_radix(&hex[2 * at..2 * at + 2], 16).unwrap())
        .collect()
}

/// Bits in order, as the tables of the specification list fields.
fn packed(fields: &[(u32, u32)]) -> Vec<u8> {
    let mut bits = vec![];
    for &(value, size) in fields {
        bits.extend((0..size).rev().map(|place| (value >> place & 1) as u8));
    }
    bits.chunks(8)
        .map(|byte| (0..8).fold(0, |all, at| all << 1 | byte.get(at).unwrap_or(&0)))
        .collect()
}

/// A descriptor of a frame that lists its references. Template 0 is of temporal layer 0, template 1 of layer 1.
fn descriptor(template: u32, number: u16, references: &[u16]) -> Vec<u8> {
    let mut fields = vec![(2, 2), (template, 6), (u32::from(number), 16), (0b00010, 5)];
    for &distance in references {
        fields.extend([(3, 2), (u32::from(distance) - 1, 12)]);
    }
    fields.push((0, 2));
    packed(&fields)
}

/// A keyframe's descriptor, with a structure of two templates, one decode target and no chains.
fn with_structure(number: u16) -> Vec<u8> {
    let mut fields = vec![(2, 2), (0, 6), (u32::from(number), 16), (0b10000, 5)];
    // The first template id, the number of decode targets less one, the layers, the indications, no references, no chains, no sizes.
    fields.extend([(0, 6), (0, 5), (1, 2), (3, 2), (3, 2), (3, 2)]);
    fields.extend([(0, 1), (0, 1), (0, 1), (0, 1)]);
    packed(&fields)
}

fn described(descriptor: &[u8]) -> FrameNote {
    FrameNote::of(false, &[], Some(descriptor))
        .unwrap()
        .unwrap()
}

fn of_vp9(payload: &[u8]) -> Option<FrameNote> {
    FrameNote::of(true, payload, None).unwrap()
}

fn insert(notes: &mut FrameNotes, number: u64, note: FrameNote) {
    notes.reserve().unwrap();
    notes.insert(number, note);
}

fn differences_of(payloads: &[Vec<u8>]) -> Option<u128> {
    let mut notes = FrameNotes::new(100);
    for (number, payload) in payloads.iter().enumerate() {
        if let Some(note) = of_vp9(payload) {
            insert(&mut notes, number as u64, note);
        }
    }
    let references = notes.take(0, 100);
    assert_eq!(references.descriptor, None);
    references.differences
}

/// A payload of VP9, with the fields that these flags name.
fn vp9(flags: u8, layers: u8, differences: &[u8]) -> Vec<u8> {
    let mut payload = vec![flags];
    if flags & 0x80 != 0 {
        payload.extend([0x81, 0x02]);
    }
    if flags & 0x20 != 0 {
        payload.push(layers);
    }
    if flags & 0x40 != 0 {
        for (place, difference) in differences.iter().enumerate() {
            payload.push(difference << 1 | u8::from(place + 1 < differences.len()));
        }
    }
    payload
}

#[test]
fn payload_descriptors_of_vp9_are_read() {
    // I P L F B E V Z: every byte, with the fields that it names.
    for flags in 0..=255u8 {
        let payload = vp9(flags, 0x20, &[3, 127, 1]);
        let expected = match (flags & 0x18 == 0x18, flags & 0x40 != 0) {
            (false, _) => None,
            (true, false) => Some(0),
            (true, true) => Some(1 << 3 | 1 << 127 | 1 << 1),
        };
        assert_eq!(
            differences_of(std::slice::from_ref(&payload)),
            expected,
            "{flags:#x}"
        );
        assert!(
            FrameNote::of(false, &payload, None).unwrap().is_none(),
            "not read as VP9's"
        );
    }
    assert_eq!(differences_of(&[vec![]]), None);
    // An id of 7 bits.
    assert_eq!(differences_of(&[vec![0xd8, 0x7f, 5 << 1]]), Some(1 << 5));
}

#[test]
fn a_first_layer_frame_with_d_needs_its_lower_layer() {
    for octet in 0..=255u8 {
        let (sid, d) = (octet >> 1 & 7, octet & 1 == 1);
        let lower = u128::from(sid > 0 && d);
        assert_eq!(differences_of(&[vp9(0x38, octet, &[])]), Some(lower));
        assert_eq!(
            differences_of(&[vp9(0x78, octet, &[2])]),
            Some(1 << 2 | lower)
        );
        // A later layer frame needs one that the unit has.
        let unit = [vp9(0x78, 0, &[4]), vp9(0x78, octet, &[2, 9])];
        assert_eq!(differences_of(&unit), Some(1 << 4 | 1 << 2 | 1 << 9));
    }
}

#[test]
fn cut_payload_descriptors_refer_to_unknown_pictures() {
    let whole = vp9(0xf8, 0, &[3, 4, 5]);
    for length in 1..whole.len() {
        assert_eq!(differences_of(&[whole[..length].to_vec()]), Some(1));
    }
    assert_eq!(differences_of(&[whole]), Some(0b11_1000));
    // RFC 9628 allows three P_DIFFs, and none that is 0.
    assert_eq!(differences_of(&[vp9(0x58, 0, &[3, 4, 5, 6])]), Some(1));
    assert_eq!(differences_of(&[vp9(0x58, 0, &[0])]), Some(1));
    // Other layer frames of the unit still count.
    let unit = [vp9(0x58, 0, &[7]), vec![0x58]];
    assert_eq!(differences_of(&unit), Some(1 << 7 | 1));
}

fn referring(number: u64, frames: u128, distances: u128, is_base: bool) -> Option<Referring> {
    Some(Referring {
        number: BEGINNING + number,
        frames,
        distances,
        is_base,
    })
}

#[test]
fn captured_units_of_two_spatial_layers() {
    let mut notes = FrameNotes::new(16);
    for (number, descriptor) in CAPTURED_VP9.iter().enumerate() {
        insert(
            &mut notes,
            10 * number as u64,
            described(&bytes(descriptor)),
        );
    }
    let units = [
        referring(2, 0b11, 0, true),
        referring(4, 0b11, 0b1100, false),
        referring(6, 0b11, 0b11_0000, false),
        referring(8, 0b11, 0b1100, false),
    ];
    for (place, expected) in units.into_iter().enumerate() {
        let first = 20 * place as u64;
        let references = notes.take(first, first + 19);
        assert_eq!(references.descriptor, expected);
        assert_eq!(references.differences, None);
    }
    assert_eq!(notes.take(0, u64::MAX), UnitReferences::none());
}

#[test]
fn only_descriptors_that_begin_frames_are_kept() {
    for flags in 0..=255u8 {
        let note = FrameNote::of(false, &[], Some(&[flags, 0, 0])).unwrap();
        assert_eq!(note.is_some(), flags & 0x80 != 0);
    }
    assert!(FrameNote::of(false, &[], Some(&[])).unwrap().is_none());
    assert!(FrameNote::of(true, &[], None).unwrap().is_none());
}

#[test]
fn frame_numbers_go_on_when_they_wrap() {
    let mut notes = FrameNotes::new(16);
    insert(&mut notes, 0, described(&with_structure(65_534)));
    let first = notes.take(0, 0).descriptor.unwrap();
    assert_eq!(first.number, BEGINNING - 2);
    let later = [
        (65_535, -1),
        (1, 1),
        (32_769, 32_769),
        (0, 65_536),
        (65_535, 65_535),
    ];
    for (place, (number, expected)) in (1..).zip(later) {
        insert(&mut notes, place, described(&descriptor(0, number, &[1])));
        let unit = notes.take(place, place).descriptor.unwrap();
        assert_eq!(unit.number, BEGINNING.wrapping_add_signed(expected));
        assert_eq!((unit.frames, unit.distances, unit.is_base), (1, 2, true));
    }
}

#[test]
fn a_structure_that_arrives_after_its_frame_counts() {
    let mut notes = FrameNotes::new(16);
    insert(&mut notes, 3, described(&descriptor(1, 8, &[1, 2])));
    insert(&mut notes, 2, described(&with_structure(7)));
    // Its frame is not released.
    let unit = notes.take(3, 3);
    assert_eq!(unit.descriptor, referring(8, 1, 0b110, false));
    // Without a structure nothing is read.
    let mut notes = FrameNotes::new(16);
    insert(&mut notes, 3, described(&descriptor(1, 8, &[1, 2])));
    assert_eq!(notes.take(3, 3).descriptor, None);
}

#[test]
fn one_descriptor_that_cannot_be_read_hides_the_others() {
    let mut notes = FrameNotes::new(16);
    insert(&mut notes, 1, described(&with_structure(7)));
    insert(&mut notes, 2, described(&[0x80]));
    assert_eq!(notes.take(1, 2).descriptor, None);
    // The structure counts all the same. A payload of VP9 beside it is no frame of it.
    insert(&mut notes, 3, described(&descriptor(0, 8, &[1])));
    insert(&mut notes, 4, of_vp9(&vp9(0x58, 0, &[1])).unwrap());
    let unit = notes.take(3, 4);
    assert_eq!(unit.descriptor, referring(8, 1, 2, true));
    assert_eq!(unit.differences, Some(2));
}

/// The unit of these frames, by sets: number, references, temporal layer.
fn unit_by_sets(frames: &[(i64, Vec<u16>, u32)]) -> Referring {
    let mut numbers = vec![frames[0].0];
    let mut is_known = true;
    let mut needed = BTreeSet::new();
    for (place, (number, references, _)) in frames.iter().enumerate() {
        if place > 0 && number <= numbers.last().unwrap() {
            is_known = false;
            continue;
        }
        if place > 0 {
            numbers.push(*number);
        }
        needed.extend(
            references
                .iter()
                .map(|&distance| number - i64::from(distance)),
        );
    }
    let last = *numbers.last().unwrap();
    let near = |number: i64| last - number < 128;
    let own: BTreeSet<_> = numbers.iter().copied().filter(|&it| near(it)).collect();
    let mut distances = u128::from(!is_known || needed.iter().any(|&it| !near(it)));
    for number in needed.iter().filter(|&&it| near(it) && !own.contains(&it)) {
        distances |= 1 << (last - number);
    }
    Referring {
        number: BEGINNING.wrapping_add_signed(last),
        frames: own.iter().fold(0, |all, number| all | 1 << (last - number)),
        distances,
        is_base: frames.iter().all(|frame| frame.2 == 0),
    }
}

/// Whether a frame refers to another one of the unit that is more than 127 numbers below the last one. Then bit 0 can be either.
fn refers_far_within(frames: &[(i64, Vec<u16>, u32)]) -> bool {
    let last = frames.iter().map(|frame| frame.0).max().unwrap();
    let is_own = |number: i64| frames.iter().any(|frame| frame.0 == number);
    frames.iter().any(|(number, references, _)| {
        let mut needed = references.iter().map(|&it| number - i64::from(it));
        needed.any(|it| last - it > 127 && is_own(it))
    })
}

#[test]
fn units_are_sets_of_frames_and_references() {
    let mut random = Dice(7);
    for _ in 0..3_000 {
        let mut notes = FrameNotes::new(1_000);
        insert(&mut notes, 0, described(&with_structure(1_000)));
        notes.take(0, 0);
        let widths = [3, 40, 200, 5_000];
        let width = widths[random.below(4) as usize];
        let mut number = 1_000;
        let mut frames = vec![];
        for _ in 0..=random.below(4) {
            number += random.below(width) as i64 - i64::from(random.below(8) == 0) * 3;
            let count = random.below(5);
            let distances = if random.below(3) == 0 { 4_096 } else { 140 };
            let references = (0..count).map(|_| random.below(distances) as u16 + 1);
            frames.push((
                number,
                references.collect::<Vec<_>>(),
                random.below(9) as u32 / 8,
            ));
        }
        // In any order.
        let mut places: Vec<_> = (0..frames.len()).collect();
        while !places.is_empty() {
            let place = places.swap_remove(random.below(places.len() as u64) as usize);
            let (number, references, layer) = &frames[place];
            let bytes = descriptor(*layer, *number as u16, references);
            insert(&mut notes, 5 + place as u64, described(&bytes));
        }
        let unit = notes.take(5, 10).descriptor;
        if refers_far_within(&frames) {
            continue;
        }
        assert_eq!(unit, Some(unit_by_sets(&frames)), "{frames:?}");
    }
}

#[test]
fn notes_are_a_sorted_map_of_the_highest_numbers() {
    let mut random = Dice(11);
    for most in [0, 1, 2, 7, 3_000] {
        let mut notes = FrameNotes::new(most);
        let mut model: BTreeMap<u64, u8> = BTreeMap::new();
        let range = 3 * most as u64 + 5;
        for step in 0..4 * range {
            let number = if step % 2 == 0 {
                step
            } else {
                random.below(range)
            };
            let difference = random.below(126) as u8 + 1;
            let payload = vp9(0x58, 0, &[difference]);
            insert(&mut notes, number, of_vp9(&payload).unwrap());
            model.entry(number).or_insert(difference);
            if model.len() > most {
                model.pop_first();
            }
            if random.below(9) == 0 {
                let first = random.below(range);
                let last = first + random.below(4);
                let later = model.split_off(&(last + 1));
                let unit = model.split_off(&first);
                let expected = unit
                    .values()
                    .map(|&it| 1u128 << it)
                    .reduce(|all, it| all | it);
                assert_eq!(notes.take(first, last).differences, expected);
                model = later;
            }
        }
        let expected = model
            .values()
            .map(|&it| 1u128 << it)
            .reduce(|all, it| all | it);
        assert_eq!(notes.take(0, u64::MAX).differences, expected);
    }
}

#[test]
fn a_suspect_packet_has_one_note() {
    let mut notes = FrameNotes::new(4);
    let note = |difference| of_vp9(&vp9(0x58, 0, &[difference]));
    assert!(notes.take_suspect().is_none());
    notes.keep_suspect(7, note(3));
    notes.keep_suspect(9, note(4));
    assert_eq!(notes.take(0, u64::MAX), UnitReferences::none());
    let (low, kept) = notes.take_suspect().unwrap();
    assert_eq!(low, 9);
    assert_eq!(kept.layer_frame().unwrap().differences, 1 << 4);
    assert!(notes.take_suspect().is_none());
    notes.keep_suspect(7, note(3));
    notes.keep_suspect(9, None);
    assert!(notes.take_suspect().is_none());
}

#[test]
fn hostile_bytes_are_notes_or_none() {
    let mut random = Dice(3);
    let mut notes = FrameNotes::new(50);
    for step in 0..200_000u64 {
        let payload: Vec<u8> = (0..random.below(7))
            .map(|_| random.below(256) as u8)
            .collect();
        let mut bytes = match random.below(4) {
            0 => with_structure(step as u16),
            1 => descriptor(
                random.below(3) as u32,
                random.below(65_536) as u16,
                &[1, 4_096],
            ),
            _ => (0..random.below(30))
                .map(|_| random.below(256) as u8)
                .collect(),
        };
        if random.below(3) == 0 && !bytes.is_empty() {
            let place = random.below(bytes.len() as u64) as usize;
            bytes[place] ^= 1 << random.below(8);
            bytes.truncate(bytes.len() - random.below(2) as usize);
        }
        let number = [step, random.below(step + 1), u64::MAX - random.below(3)];
        if let Some(note) = FrameNote::of(random.below(2) == 0, &payload, Some(&bytes)).unwrap() {
            insert(&mut notes, number[random.below(41) as usize / 20], note);
        }
        if random.below(5) == 0 {
            let first = random.below(step + 1);
            let unit = notes.take(first, first + random.below(20));
            if let Some(referring) = unit.descriptor {
                assert_eq!(referring.frames & 1, 1);
                assert_eq!(referring.frames & referring.distances & !1, 0);
            }
        }
    }
}
