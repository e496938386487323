//! Receivers of streams whose frames name those that they refer to: VP9 in the flexible mode (RFC 9628, section 4.2), and AV1 with
//! dependency descriptors (AV1 RTP specification, appendix A). What a receiver says of each unit is compared with the rule over the
//! whole list of released units.

mod random;

use codec_payload::jitter::Outcome;
use codec_payload::keyframes::FromKeyframe;
use codec_payload::stream::{Popped, Receiver, ReceiverSettings, Retransmission};
use codec_payload::{Codec, CodecDepacketizer, Frequency, MediaTime, PoppedUnit, Ticks};
use random::Dice;

/// The id of the element with the descriptor.
const ID: u8 = 5;
/// A frame each 33 ms.
const STEP: u64 = 33;

/// A frame of the sender, which refers to the frames at these distances before it.
#[derive(Clone, Debug)]
struct Frame {
    is_key: bool,
    layer: u8,
    distances: Vec<usize>,
}

/// Three temporal layers, 0 2 1 2, with a keyframe each `period` frames.
fn three_layers(count: usize, period: usize) -> Vec<Frame> {
    (0..count)
        .map(|at| {
            let place = at % period;
            let (layer, distances) = match place % 4 {
                0 => (0, vec![4]),
                1 => (2, vec![1]),
                2 => (1, vec![2]),
                _ => (2, vec![1, 3]),
            };
            Frame {
                is_key: place == 0,
                layer,
                distances: if place == 0 { vec![] } else { distances },
            }
        })
        .collect()
}

/// A packet on its way: when it arrives, and its bytes.
#[derive(Clone)]
struct Packet {
    at: u64,
    bytes: Vec<u8>,
}

/// How frames become payloads, each with the bytes of a descriptor if it has one.
trait Writes {
    const CODEC: Codec;
    /// The payloads of the frame with this number.
    fn payloads(number: usize, frame: &Frame, pieces: usize) -> Vec<(Vec<u8>, Option<Vec<u8>>)>;
}

struct FlexibleVp9;

impl Writes for FlexibleVp9 {
    const CODEC: Codec = Codec::Vp9;

    fn payloads(number: usize, frame: &Frame, pieces: usize) -> Vec<(Vec<u8>, Option<Vec<u8>>)> {
        let [high, low] = ((number % 32_768) as u16).to_be_bytes();
        (0..pieces)
            .map(|piece| {
                let (first, last) = (piece == 0, piece + 1 == pieces);
                let refers = !frame.distances.is_empty();
                // I P L F B E V Z
                let flags = [true, refers, true, true, first, last, false, false];
                let mut bytes = vec![bits(&flags)];
                bytes.extend([0x80 | high, low, frame.layer << 5]);
                let count = frame.distances.len();
                for (place, distance) in frame.distances.iter().enumerate() {
                    bytes.push((*distance as u8) << 1 | u8::from(place + 1 < count));
                }
                if first && frame.is_key {
                    bytes.extend([0x82, 0x49, 0x83, 0x42, 0, 0, 0xF0, 0, 0xF0, 0]);
                } else if first {
                    bytes.extend([0x86, 0, 0, 0]);
                }
                bytes.extend([number as u8; 20]);
                (bytes, None)
            })
            .collect()
    }
}

struct DescribedAv1;

impl Writes for DescribedAv1 {
    const CODEC: Codec = Codec::Av1;

    fn payloads(number: usize, frame: &Frame, pieces: usize) -> Vec<(Vec<u8>, Option<Vec<u8>>)> {
        (0..pieces)
            .map(|piece| {
                let (first, last) = (piece == 0, piece + 1 == pieces);
                // Z Y, one OBU, N for the first packet of a keyframe.
                let flags = [
                    !first,
                    !last,
                    false,
                    true,
                    first && frame.is_key,
                    false,
                    false,
                    false,
                ];
                let mut bytes = vec![bits(&flags)];
                if first {
                    bytes.extend([0x30, if frame.is_key { 0x10 } else { 0x30 }]);
                }
                bytes.extend([number as u8; 20]);
                (bytes, Some(descriptor(number, frame, first, last)))
            })
            .collect()
    }
}

fn bits(flags: &[bool]) -> u8 {
    flags
        .iter()
        .fold(0, |byte, flag| byte << 1 | u8::from(*flag))
}

/// The descriptor of a packet. A keyframe has the structure in its first packet, and no other packet has one. Each other frame has its
/// own references.
fn descriptor(number: usize, frame: &Frame, first: bool, last: bool) -> Vec<u8> {
    let mut fields = vec![
        (u32::from(first), 1),
        (u32::from(last), 1),
        (u32::from(frame.layer), 6),
        (number as u32 % 65_536, 16),
    ];
    if first {
        // Structure, active decode targets, own indications, own references, own chains.
        fields.extend([(u32::from(frame.is_key), 1), (0, 1), (0, 1), (1, 1), (0, 1)]);
        if frame.is_key {
            // One decode target; three templates of the temporal layers 0, 1 and 2, without references; no chain, no resolution.
            fields.extend([(0, 6), (0, 5), (1, 2), (1, 2), (3, 2)]);
            fields.extend([
                (2, 2),
                (2, 2),
                (2, 2),
                (0, 1),
                (0, 1),
                (0, 1),
                (0, 1),
                (0, 1),
            ]);
        }
        for distance in &frame.distances {
            fields.extend([(1, 2), (*distance as u32 - 1, 4)]);
        }
        fields.push((0, 2));
    }
    let all: Vec<bool> = fields
        .iter()
        .flat_map(|(value, size)| (0..*size).rev().map(move |place| value >> place & 1 == 1))
        .collect();
    all.chunks(8)
        .map(|byte| bits(byte) << (8 - byte.len()))
        .collect()
}

/// A datagram with a descriptor in the one-byte form, or in the two-byte form if `two` (RFC 8285).
fn datagram(
    number: u16,
    time: u32,
    marker: bool,
    payload: &[u8],
    element: Option<&[u8]>,
) -> Vec<u8> {
    let mut bytes = vec![0x80, 96 | u8::from(marker) << 7];
    bytes.extend(number.to_be_bytes());
    bytes.extend(time.to_be_bytes());
    bytes.extend(7_u32.to_be_bytes());
    if let Some(element) = element {
        bytes[0] |= 0x10;
        let two = element.len() > 6;
        let mut body = if two {
            vec![ID, element.len() as u8]
        } else {
            vec![ID << 4 | (element.len() as u8 - 1)]
        };
        body.extend(element);
        body.resize(body.len().next_multiple_of(4), 0);
        bytes.extend(if two { [0x10, 0] } else { [0xBE, 0xDE] });
        bytes.extend((body.len() as u16 / 4).to_be_bytes());
        bytes.extend(body);
    }
    bytes.extend(payload);
    bytes
}

/// The same datagram as a retransmission (RFC 4588).
fn again(datagram: &[u8]) -> Vec<u8> {
    let words = if datagram[0] & 0x10 == 0 {
        0
    } else {
        1 + usize::from(u16::from_be_bytes([datagram[14], datagram[15]]))
    };
    let mut bytes = datagram.to_vec();
    bytes[1] = bytes[1] & 0x80 | 97;
    bytes[8..12].copy_from_slice(&8_u32.to_be_bytes());
    let payload = bytes.split_off(12 + 4 * words);
    bytes.extend(&datagram[2..4]);
    bytes.extend(payload);
    bytes
}

/// The number of the packet `place` and the RTP time of the frame `at`.
fn number_at(start: u16, place: usize) -> u16 {
    start.wrapping_add(place as u16)
}

fn time_at(at: usize) -> u32 {
    (at as u32).wrapping_mul(3_000)
}

/// All packets of a stream in the order of their numbers, each with its frame.
fn packets<W: Writes>(frames: &[Frame], start: u16, random: &mut Dice) -> Vec<(usize, Packet)> {
    let mut packets = vec![];
    for (at, frame) in frames.iter().enumerate() {
        let payloads = W::payloads(at, frame, 1 + random.below(3) as usize);
        let count = payloads.len();
        for (piece, (payload, element)) in payloads.iter().enumerate() {
            let number = number_at(start, packets.len());
            let marker = piece + 1 == count;
            let bytes = datagram(number, time_at(at), marker, payload, element.as_deref());
            packets.push((
                at,
                Packet {
                    at: at as u64 * STEP,
                    bytes,
                },
            ));
        }
    }
    packets
}

fn receiver<W: Writes>(set: impl FnOnce(&mut ReceiverSettings)) -> Receiver {
    let mut settings = ReceiverSettings::live_video_with_nack(96, Frequency::NINETY_KHZ);
    settings.ssrc = Some(7);
    settings.retransmission = Some(Retransmission {
        ssrc: 8,
        payload_type: 97,
    });
    settings.dependency_descriptor = Some(ID);
    set(&mut settings);
    Receiver::new(CodecDepacketizer::from_codec(W::CODEC).unwrap(), settings).unwrap()
}

/// What a receiver released, and what it said of it.
#[derive(Clone, Copy, Debug, PartialEq, Eq)]
struct Said {
    /// The place of the frame.
    at: usize,
    /// Whether it was above the bound.
    is_lost: bool,
    shows: bool,
    is_key: bool,
    wants: bool,
}

/// Pops all that is due, by both ways in turn.
fn pop_all(receiver: &mut Receiver, now: u64, random: &mut Dice, said: &mut Vec<Said>) {
    let mut memory = PoppedUnit::new();
    let place = |time: MediaTime| (time.numer() / 3_000) as usize;
    loop {
        let popped = if random.below(2) == 0 {
            let Some(popped) = receiver.pop(Ticks(now)) else {
                return;
            };
            match popped.expect("memory") {
                Popped::Unit(unit) => (place(unit.time), false),
                Popped::TooLarge(unit) => (place(unit.time), true),
                Popped::Refused(fault) => panic!("{fault:?}"),
            }
        } else {
            let Some(popped) = receiver.pop_unit(Ticks(now), &mut memory) else {
                return;
            };
            match popped.expect("memory") {
                Popped::Unit(()) => (place(memory.time), false),
                Popped::TooLarge(()) => (place(memory.time), true),
                Popped::Refused(fault) => panic!("{fault:?}"),
            }
        };
        said.push(Said {
            at: popped.0,
            is_lost: popped.1,
            shows: receiver.unit_is_decodable(),
            is_key: receiver.unit_is_keyframe(),
            wants: receiver.wants_keyframe(),
        });
    }
}

/// Whether each released unit can be shown: it is a keyframe, or all to which it refers were released since the latest keyframe and can
/// be shown. A unit above the bound is lost.
fn can_be_shown(released: &[Said], frames: &[Frame]) -> Vec<bool> {
    let mut shown = vec![];
    for (place, unit) in released.iter().enumerate() {
        let frame = &frames[unit.at];
        let since = (0..place)
            .rev()
            .find(|before| frames[released[*before].at].is_key && !released[*before].is_lost);
        let has = |distance: &usize| {
            since.is_some_and(|since| {
                (since..place)
                    .any(|before| shown[before] && released[before].at + distance == unit.at)
            })
        };
        let refers = !frame.is_key && since.is_some() && frame.distances.iter().all(has);
        shown.push(!unit.is_lost && (frame.is_key || refers));
    }
    shown
}

/// Whether a keyframe is needed after each unit: since the latest keyframe a unit was lost, or one of the base layer cannot be shown,
/// and none of the base layer came since that can be shown. Before the first keyframe each unit needs one.
fn keyframes_wanted(released: &[Said], shown: &[bool], frames: &[Frame]) -> Vec<bool> {
    let (mut wants, mut begun) = (false, false);
    released
        .iter()
        .zip(shown)
        .map(|(unit, shown)| {
            let frame = &frames[unit.at];
            begun = begun || (frame.is_key && !unit.is_lost);
            if unit.is_lost {
                wants = true;
            } else if frame.layer == 0 || !begun {
                wants = !shown;
            }
            wants
        })
        .collect()
}

/// Compares all that a receiver said with the rule. Returns how many units can be shown, and how many not.
fn check(said: &[Said], frames: &[Frame]) -> (usize, usize) {
    let shown = can_be_shown(said, frames);
    let wanted = keyframes_wanted(said, &shown, frames);
    for (place, unit) in said.iter().enumerate() {
        let expected = Said {
            shows: shown[place],
            wants: wanted[place],
            ..*unit
        };
        assert_eq!(*unit, expected, "unit {place} of {said:?}");
        assert!(unit.is_lost || unit.is_key == frames[unit.at].is_key);
    }
    let count = shown.iter().filter(|it| **it).count();
    (count, said.len() - count)
}

/// A network: of 100 packets it loses so many, and of those it brings back half by retransmission; it repeats and reorders others.
fn through_network(packets: &[(usize, Packet)], losses: u64, random: &mut Dice) -> Vec<Packet> {
    let mut arrived = vec![];
    for (_, packet) in packets {
        let jitter = random.below(25);
        if random.below(100) < losses {
            if random.below(2) == 0 {
                let at = packet.at + 40 + random.below(100);
                arrived.push(Packet {
                    at,
                    bytes: again(&packet.bytes),
                });
            }
            continue;
        }
        let at = packet.at + jitter;
        arrived.push(Packet {
            at,
            bytes: packet.bytes.clone(),
        });
        if random.below(20) == 0 {
            let at = at + random.below(120);
            let bytes = if random.below(2) == 0 {
                again(&packet.bytes)
            } else {
                packet.bytes.clone()
            };
            arrived.push(Packet { at, bytes });
        }
    }
    arrived.sort_by_key(|packet| packet.at);
    arrived
}

/// All that a receiver says of a stream, with pops after each datagram.
fn run(receiver: &mut Receiver, arrived: &[Packet], random: &mut Dice) -> Vec<Said> {
    let mut said = vec![];
    for packet in arrived {
        receiver.receive(Ticks(packet.at), &packet.bytes).unwrap();
        pop_all(receiver, packet.at, random, &mut said);
    }
    receiver.finish().unwrap();
    pop_all(receiver, u64::MAX, random, &mut said);
    said
}

fn follows_the_rule<W: Writes>() {
    let (mut shown, mut held_back) = (0, 0);
    for seed in 1..120 {
        let mut random = Dice(seed * 7_919);
        let losses = [0, 3, 10, 30][seed as usize % 4];
        let frames = three_layers(120, [40, 24, 1_000][seed as usize % 3]);
        let packets = packets::<W>(&frames, 65_500, &mut random);
        let arrived = through_network(&packets, losses, &mut random);
        let mut receiver = receiver::<W>(|_| {});
        let said = run(&mut receiver, &arrived, &mut random);
        let counts = check(&said, &frames);
        if losses == 0 {
            assert_eq!(counts, (120, 0));
        }
        (shown, held_back) = (shown + counts.0, held_back + counts.1);
    }
    assert!(shown > 5_000 && held_back > 1_000, "{shown}, {held_back}");
}

#[test]
fn flexible_vp9_follows_the_rule() {
    follows_the_rule::<FlexibleVp9>();
}

#[test]
fn described_av1_follows_the_rule() {
    follows_the_rule::<DescribedAv1>();
}

/// A receiver that drops units passes on exactly those that another one marks as decodable.
fn drops_what_cannot_be_shown<W: Writes>() {
    for seed in 1..40 {
        let mut random = Dice(seed * 104_729);
        let frames = three_layers(90, 30);
        let packets = packets::<W>(&frames, 7, &mut random);
        let arrived = through_network(&packets, 12, &mut random);
        let marked = run(&mut receiver::<W>(|_| {}), &arrived, &mut random);
        let mut drops = receiver::<W>(|settings| settings.from_keyframe = FromKeyframe::Drop);
        let passed = run(&mut drops, &arrived, &mut random);
        let places = |said: &[Said]| said.iter().map(|unit| unit.at).collect::<Vec<_>>();
        let shown: Vec<Said> = marked.into_iter().filter(|unit| unit.shows).collect();
        assert_eq!(places(&passed), places(&shown));
    }
}

#[test]
fn units_that_cannot_be_shown_are_dropped() {
    drops_what_cannot_be_shown::<FlexibleVp9>();
    drops_what_cannot_be_shown::<DescribedAv1>();
}

/// Few places, and pops that are rare: packets are evicted, with the notes below them.
fn evicts<W: Writes>() {
    let mut evicted = 0;
    for seed in 1..60 {
        let mut random = Dice(seed * 15_485_863);
        let frames = three_layers(150, 25);
        let packets = packets::<W>(&frames, 65_000, &mut random);
        let arrived = through_network(&packets, 8, &mut random);
        let limit = 12 + random.below(30) as usize;
        let mut receiver = receiver::<W>(|settings| settings.limit = limit);
        let mut said = vec![];
        for (place, packet) in arrived.iter().enumerate() {
            receiver.receive(Ticks(packet.at), &packet.bytes).unwrap();
            if (place as u64 / (limit as u64 * 2)) % 2 == 0 {
                pop_all(&mut receiver, packet.at, &mut random, &mut said);
            }
        }
        receiver.finish().unwrap();
        pop_all(&mut receiver, u64::MAX, &mut random, &mut said);
        evicted += receiver.counters().packets.evicted;
        check(&said, &frames);
    }
    assert!(evicted > 1_000, "{evicted}");
}

#[test]
fn evicted_packets_take_nothing_from_others() {
    evicts::<FlexibleVp9>();
    evicts::<DescribedAv1>();
}

/// Units above the bound are lost, and take their notes with them.
fn loses_large_units<W: Writes>() {
    let mut random = Dice(99);
    let frames = three_layers(60, 60);
    let mut packets = packets::<W>(&frames, 1, &mut random);
    // Frame 9 is of the upper layer, frame 20 of the base layer.
    for (at, packet) in &mut packets {
        if [9, 20].contains(at) {
            packet.bytes.extend([1; 400]);
        }
    }
    let arrived: Vec<Packet> = packets.into_iter().map(|(_, packet)| packet).collect();
    let mut receiver = receiver::<W>(|settings| settings.max_unit = Some(300));
    let said = run(&mut receiver, &arrived, &mut random);
    let lost: Vec<usize> = said
        .iter()
        .filter(|unit| unit.is_lost)
        .map(|unit| unit.at)
        .collect();
    assert_eq!(lost, [9, 20]);
    check(&said, &frames);
    // Nothing refers to frame 9.
    assert!(said[10..20].iter().all(|unit| unit.shows));
    assert!(said[21..].iter().all(|unit| !unit.shows && unit.wants));
}

#[test]
fn a_large_unit_is_lost() {
    loses_large_units::<FlexibleVp9>();
    loses_large_units::<DescribedAv1>();
}

/// The sender restarts far away with a keyframe, whose first packet is suspect until the second one confirms the restart.
fn restarts<W: Writes>() {
    let mut random = Dice(5);
    let frames = three_layers(60, 30);
    let mut first = packets::<W>(&frames, 100, &mut random);
    first.retain(|(at, _)| *at < 30);
    // Frame 41, of the upper layer, is lost after the restart.
    let mut second = packets::<W>(&frames, 30_000, &mut random);
    second.retain(|(at, _)| *at >= 30 && *at != 41);
    let mut receiver = receiver::<W>(|_| {});
    let (mut said, mut outcomes) = (vec![], vec![]);
    for (at, packet) in first.iter().chain(&second) {
        let outcome = receiver.receive(Ticks(packet.at), &packet.bytes).unwrap();
        if *at == 30 || *at == 31 {
            outcomes.push(outcome);
        }
        pop_all(&mut receiver, packet.at, &mut random, &mut said);
    }
    receiver.finish().unwrap();
    pop_all(&mut receiver, u64::MAX, &mut random, &mut said);
    assert_eq!(outcomes[..2], [Outcome::Suspect, Outcome::Restarted(true)]);
    assert_eq!(check(&said, &frames), (59, 0));
}

#[test]
fn the_note_of_a_suspect_packet_is_kept() {
    restarts::<FlexibleVp9>();
    restarts::<DescribedAv1>();
}

/// The first packet of the keyframe has the only structure, and comes last of all, by retransmission.
#[test]
fn a_structure_that_comes_late_counts() {
    let mut random = Dice(3);
    let frames = three_layers(12, 12);
    let packets = packets::<DescribedAv1>(&frames, 1, &mut random);
    let mut receiver = receiver::<DescribedAv1>(|_| {});
    for (_, packet) in &packets[1..] {
        assert_eq!(
            receiver.receive(Ticks(0), &packet.bytes).unwrap(),
            Outcome::Held
        );
    }
    receiver
        .receive(Ticks(1), &again(&packets[0].1.bytes))
        .unwrap();
    let mut said = vec![];
    receiver.finish().unwrap();
    pop_all(&mut receiver, 1, &mut random, &mut said);
    assert_eq!(check(&said, &frames), (12, 0));
}

/// Without the id of the extension each frame follows the one before.
#[test]
fn without_an_id_frames_are_a_chain() {
    let mut random = Dice(3);
    let frames = three_layers(20, 20);
    let mut packets = packets::<DescribedAv1>(&frames, 1, &mut random);
    packets.retain(|(at, _)| *at != 5);
    let arrived: Vec<Packet> = packets.into_iter().map(|(_, packet)| packet).collect();
    for (id, shown) in [(None, 5), (Some(ID + 1), 5), (Some(ID), 19)] {
        let mut receiver = receiver::<DescribedAv1>(|settings| settings.dependency_descriptor = id);
        let said = run(&mut receiver, &arrived, &mut random);
        assert_eq!(said.len(), 19);
        assert_eq!(said.iter().filter(|unit| unit.shows).count(), shown);
    }
}
