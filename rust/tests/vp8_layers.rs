//! Which units of VP8 with temporal layers a decoder can show (RFC 7741, section 4.2), against a model of the decoder.

mod random;

use codec_payload::keyframes::{KeyframeGate, UnitReferences};
use codec_payload::{Codec, CodecExtra, Vp8CodecExtra};
use random::Dice;

/// Frame headers (RFC 6386, section 9.1): a keyframe and another frame.
const KEY: &[u8] = &[0x10, 0, 0, 0x9D, 0x01, 0x2A, 0x10, 0, 0x10, 0];
const DELTA: &[u8] = &[0x11, 0, 0];

/// A picture as its descriptors describe it.
#[derive(Clone, Copy, Debug)]
struct Picture {
    id: u64,
    base: u64,
    layer: u8,
    sync: bool,
    discardable: bool,
    key: bool,
}

impl Picture {
    fn extra(&self) -> CodecExtra {
        CodecExtra::Vp8(Vp8CodecExtra {
            discardable: self.discardable,
            sync: self.sync,
            layer_index: self.layer,
            picture_id: Some(self.id),
            tl0_picture_id: Some(self.base),
            is_keyframe: self.key,
        })
    }

    fn release(&self, gate: &mut KeyframeGate) -> bool {
        let unit = if self.key { KEY } else { DELTA };
        gate.release(unit, true, &self.extra(), &UnitReferences::none())
    }
}

/// Pictures of the layers 0 1 0 1 .. from the id 100 on; those at these places refer to the base layer alone.
fn two_layers(count: u64, sync_at: &[u64]) -> Vec<Picture> {
    (0..count)
        .map(|at| Picture {
            id: 100 + at,
            base: 50 + at / 2,
            layer: (at % 2) as u8,
            sync: sync_at.contains(&at),
            discardable: false,
            key: at == 0,
        })
        .collect()
}

/// The places of the pictures that are reported as decodable, without the pictures at `lost`.
fn shown(pictures: &[Picture], lost: &[usize]) -> (Vec<usize>, KeyframeGate) {
    let mut gate = KeyframeGate::new(Codec::Vp8);
    let shown = pictures
        .iter()
        .enumerate()
        .filter(|(at, _)| !lost.contains(at))
        .filter_map(|(at, picture)| picture.release(&mut gate).then_some(at))
        .collect();
    (shown, gate)
}

#[test]
fn a_lost_picture_of_a_layer_holds_back_its_layer_alone() {
    let pictures = two_layers(12, &[1, 9]);
    let (all, _) = shown(&pictures, &[]);
    assert_eq!(all, (0..12).collect::<Vec<_>>());
    // 5 and 7 may refer to 3; 9 refers to the base layer alone, and 11 to nothing before 8.
    let (some, gate) = shown(&pictures, &[3]);
    assert_eq!(some, [0, 1, 2, 4, 6, 8, 9, 10, 11]);
    assert!(!gate.wants_keyframe(), "the base layer is whole");
}

#[test]
fn a_lost_picture_of_the_base_layer_wants_a_keyframe() {
    let pictures = two_layers(12, &[1, 5, 9]);
    let (some, gate) = shown(&pictures, &[4]);
    assert_eq!(some, [0, 1, 2, 3]);
    assert!(gate.wants_keyframe());
    let (some, gate) = shown(&pictures, &[4, 5, 6, 7, 8, 9, 10]);
    assert_eq!(
        some,
        [0, 1, 2, 3],
        "a picture of a layer names another base picture"
    );
    assert!(gate.wants_keyframe());
}

#[test]
fn nothing_refers_to_a_discardable_picture() {
    let mut pictures = two_layers(8, &[1]);
    pictures[3].base += 7;
    let (some, _) = shown(&pictures, &[]);
    assert_eq!(some, [0, 1, 2, 4, 6], "5 and 7 may refer to 3");
    pictures[3].discardable = true;
    let (some, _) = shown(&pictures, &[]);
    assert_eq!(some, [0, 1, 2, 4, 5, 6, 7]);
}

#[test]
fn a_lost_discardable_picture_counts_for_each_layer() {
    // Its layer is not known.
    let mut pictures = two_layers(8, &[1]);
    pictures[3].discardable = true;
    let (some, gate) = shown(&pictures, &[3]);
    assert_eq!(some, [0, 1, 2, 4, 6]);
    assert!(!gate.wants_keyframe());
}

#[test]
fn a_lost_unit_holds_back_all_until_a_keyframe() {
    let pictures = two_layers(6, &[1, 3, 5]);
    let mut gate = KeyframeGate::new(Codec::Vp8);
    assert!(pictures[0].release(&mut gate) && pictures[1].release(&mut gate));
    gate.lose();
    assert!(!pictures[2].release(&mut gate) && !pictures[3].release(&mut gate));
    assert!(gate.wants_keyframe());
    assert!(pictures[0].release(&mut gate) && !gate.wants_keyframe());
}

#[test]
fn skipped_units_want_a_keyframe_until_a_picture_of_the_base_layer() {
    let pictures = two_layers(6, &[1, 3, 5]);
    let mut gate = KeyframeGate::new(Codec::Vp8);
    assert!(pictures[0].release(&mut gate));
    gate.skip();
    assert!(pictures[1].release(&mut gate) && gate.wants_keyframe());
    assert!(pictures[2].release(&mut gate) && !gate.wants_keyframe());
}

#[test]
fn ids_that_come_and_go_hold_back_all_until_a_keyframe() {
    let pictures = two_layers(4, &[1, 3]);
    let without = CodecExtra::Vp8(Vp8CodecExtra {
        discardable: false,
        sync: false,
        layer_index: 0,
        picture_id: Some(101),
        tl0_picture_id: None,
        is_keyframe: false,
    });
    let mut gate = KeyframeGate::new(Codec::Vp8);
    assert!(pictures[0].release(&mut gate));
    let plain = |gate: &mut KeyframeGate, unit: &[u8]| {
        gate.release(unit, true, &without, &UnitReferences::none())
    };
    assert!(!plain(&mut gate, DELTA) && gate.wants_keyframe());
    assert!(!pictures[2].release(&mut gate), "of all ids none is known");
    assert!(plain(&mut gate, KEY) && plain(&mut gate, DELTA));
    assert!(!pictures[2].release(&mut gate) && !plain(&mut gate, DELTA));
    assert!(gate.wants_keyframe());
}

#[test]
fn ids_that_do_not_rise_hold_back_all_until_a_keyframe() {
    let pictures = two_layers(6, &[1, 3, 5]);
    let (_, gate) = shown(&pictures, &[]);
    for picture in pictures {
        let mut gate = gate;
        let again = Picture {
            key: false,
            ..picture
        };
        assert!(!again.release(&mut gate) && gate.wants_keyframe());
        let next = Picture {
            id: 106,
            base: 53,
            layer: 0,
            ..again
        };
        assert!(!next.release(&mut gate) && gate.wants_keyframe());
    }
}

#[test]
fn ids_at_the_end_of_their_range_overflow_nothing() {
    for (id, base) in [(u64::MAX - 1, 5), (u64::MAX, u64::MAX), (0, u64::MAX)] {
        let mut gate = KeyframeGate::new(Codec::Vp8);
        let key = Picture {
            id,
            base,
            layer: 0,
            sync: false,
            discardable: false,
            key: true,
        };
        assert!(key.release(&mut gate));
        let next = Picture {
            id: id.wrapping_add(1),
            base: base.wrapping_add(1),
            key: false,
            ..key
        };
        let fits = id < u64::MAX && base < u64::MAX;
        assert_eq!(next.release(&mut gate), fits);
    }
}

/// What a reference buffer of VP8 holds: the place of a picture, and its layer. There are three: last, golden, altref.
type Buffers = [(usize, u8); 3];

/// A frame of an encoder with layers: its picture, the buffers that it refers to, and those that it writes.
#[derive(Clone, Debug)]
struct Frame {
    picture: Picture,
    reads: Vec<usize>,
    writes: Vec<usize>,
    holds: Buffers,
}

/// An encoder that chooses layers, references and bits at random, as RFC 7741 allows: a picture refers to no higher layer; with Y to
/// the latest picture of the base layer alone; and after a picture of a layer with Y no picture refers to one of that layer before
/// the picture of the base layer of that one. With N it writes no buffer.
fn encode(dice: &mut Dice, count: usize) -> Vec<Frame> {
    let mut frames: Vec<Frame> = Vec::new();
    let mut holds: Buffers = [(0, 0); 3];
    let (mut base, mut base_at) = (dice.below(200), 0);
    let mut first_of = [0; 4];
    for at in 0..count {
        let key = at == 0 || dice.below(60) == 0;
        let layer = if key { 0 } else { dice.below(4) as u8 };
        let sync = layer > 0 && dice.below(3) == 0;
        if layer == 0 {
            base += 1;
            base_at = at;
        }
        if key {
            first_of = [at; 4];
        } else if sync {
            first_of[usize::from(layer)] = base_at;
        }
        let reads: Vec<usize> = (0..3)
            .filter(|&it| {
                let (from, of) = holds[it];
                let allowed = if layer == 0 {
                    of == 0
                } else if sync {
                    from == base_at
                } else {
                    of <= layer && (of == 0 || from >= first_of[usize::from(of)])
                };
                !key && allowed && dice.below(4) > 0
            })
            .collect();
        let writes: Vec<usize> = (0..3).filter(|_| key || dice.below(3) == 0).collect();
        frames.push(Frame {
            picture: Picture {
                id: 1_000 + at as u64,
                base,
                layer,
                sync,
                discardable: writes.is_empty() && layer > 0 && dice.below(2) == 0,
                key,
            },
            reads,
            writes: writes.clone(),
            holds,
        });
        for it in writes {
            holds[it] = (at, layer);
        }
    }
    frames
}

/// Counts of units: released; reported as decodable; and of these above the base layer without Y.
fn check(dice: &mut Dice, loss: u64) -> (u64, u64, u64) {
    let frames = encode(dice, 80);
    let mut gate = KeyframeGate::new(Codec::Vp8);
    let mut decoder: [usize; 3] = [usize::MAX; 3];
    let mut counts = (0, 0, 0);
    for (at, frame) in frames.iter().enumerate() {
        if dice.below(100) < loss {
            continue;
        }
        counts.0 += 1;
        if !frame.picture.release(&mut gate) {
            assert!(loss > 0, "nothing is lost: {frame:?}");
            continue;
        }
        // Only what is reported as decodable goes to the decoder: each buffer to which it refers holds what the encoder's held.
        for &it in &frame.reads {
            assert_eq!(decoder[it], frame.holds[it].0, "another picture: {frame:?}");
        }
        for &it in &frame.writes {
            decoder[it] = at;
        }
        counts.1 += 1;
        counts.2 += u64::from(frame.picture.layer > 0 && !frame.picture.sync);
    }
    counts
}

#[test]
fn what_is_decodable_is_the_picture_of_the_encoder() {
    let mut dice = Dice(0x9E37_79B9_7F4A_7C15);
    let mut all = (0, 0, 0);
    for round in 0..8_000 {
        let counts = check(&mut dice, [0, 3, 10, 30][round % 4]);
        all = (all.0 + counts.0, all.1 + counts.1, all.2 + counts.2);
    }
    println!("{all:?}");
    assert!(all.1 > 200_000 && all.2 > 20_000, "{all:?}");
}
