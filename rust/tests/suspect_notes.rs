//! The note of the suspect packet belongs to the packet that the jitter buffer keeps. A restart inserts it with that packet, whatever
//! arrives in between, and whichever packet confirms the restart.

use codec_payload::codec::{CodecDepacketizer, NoBox};
use codec_payload::jitter::Outcome;
use codec_payload::wire::{Codec, CodecSpec, Frequency, Ticks};
use codec_payload::{Popped, Receiver, ReceiverSettings};

/// Ticks of a frame, 30 frames a second.
const FRAME: u32 = 3_000;

/// Bits in order, as the tables of the specification list fields.
fn packed(fields: &[(u32, u32)]) -> Vec<u8> {
    let mut bits = vec![];
    for &(value, size) in fields {
        bits.extend((0..size).rev().map(|place| (value >> place & 1) as u8));
    }
    bits.chunks(8)
        .map(|byte| (0..8).fold(0, |all, at| all << 1 | byte.get(at).unwrap_or(&0)))
        .collect()
}

/// A descriptor of a frame of one packet that lists its references.
fn descriptor(number: u16, references: &[u16]) -> Vec<u8> {
    let mut fields = vec![(2, 2), (0, 6), (u32::from(number), 16), (0b00010, 5)];
    for &distance in references {
        fields.extend([(3, 2), (u32::from(distance) - 1, 12)]);
    }
    fields.push((0, 2));
    packed(&fields)
}

/// A keyframe's descriptor, with a structure of two templates, one decode target and no chains.
fn with_structure(number: u16) -> Vec<u8> {
    let mut fields = vec![(2, 2), (0, 6), (u32::from(number), 16), (0b10000, 5)];
    fields.extend([(0, 6), (0, 5), (1, 2), (3, 2), (3, 2), (3, 2)]);
    fields.extend([(0, 1), (0, 1), (0, 1), (0, 1)]);
    packed(&fields)
}

/// A packet of one frame of VP8, with a dependency descriptor under id 5.
fn packet(number: u16, time: u32, is_key: bool, descriptor: &[u8]) -> Vec<u8> {
    let mut bytes = vec![0x90, 0x80 | 96];
    bytes.extend(number.to_be_bytes());
    bytes.extend(time.to_be_bytes());
    bytes.extend(7u32.to_be_bytes());
    let mut elements = vec![0x50 | (descriptor.len() as u8 - 1)];
    elements.extend(descriptor);
    while elements.len() % 4 != 0 {
        elements.push(0);
    }
    bytes.extend([0xbe, 0xde, 0, (elements.len() / 4) as u8]);
    bytes.extend(elements);
    bytes.push(0x10);
    if is_key {
        bytes.extend([0x10, 0, 0, 0x9d, 1, 0x2a, 8, 0, 8, 0]);
    } else {
        bytes.extend([0x11, 0, 0]);
    }
    bytes
}

/// A packet of padding only.
fn padding(number: u16, time: u32) -> Vec<u8> {
    let mut bytes = vec![0xa0, 96];
    bytes.extend(number.to_be_bytes());
    bytes.extend(time.to_be_bytes());
    bytes.extend(7u32.to_be_bytes());
    bytes.extend([0, 0, 0, 4]);
    bytes
}

struct Run {
    receiver: Receiver<NoBox>,
    now: u64,
    /// For each popped unit whether a decoder can show it.
    shown: Vec<bool>,
}

impl Run {
    fn new() -> Run {
        let mut depacketizer: CodecDepacketizer<NoBox> =
            CodecDepacketizer::from_codec(Codec::Vp8).unwrap();
        depacketizer.configure_for(&CodecSpec {
            codec: Codec::Vp8,
            clock_rate: Frequency::NINETY_KHZ,
            octet_align: false,
        });
        let mut settings = ReceiverSettings::for_stream(96, Codec::Vp8, Frequency::NINETY_KHZ);
        settings.ssrc = Some(7);
        settings.forward = 12_000;
        settings.backward = 5_000;
        settings.dependency_descriptor = Some(5);
        settings.wait_limits.max_wait = Some(0);
        settings.wait_limits.start = 0;
        Run {
            receiver: Receiver::new(depacketizer, settings).unwrap(),
            now: 0,
            shown: vec![],
        }
    }

    /// Passes a datagram, pops all units, and returns the outcome.
    fn give(&mut self, bytes: &[u8]) -> Outcome {
        self.now += 1;
        let outcome = self.receiver.receive(Ticks(self.now), bytes).unwrap();
        while let Some(answer) = self.receiver.pop(Ticks(self.now)) {
            assert!(matches!(answer, Ok(Popped::Unit(_))));
            self.shown.push(self.receiver.unit_is_decodable());
        }
        outcome
    }

    /// After two restarts within seconds: the second sender is the one whose packets arrive.
    fn of_two_senders() -> Run {
        let mut run = Run::new();
        for i in 0..24u16 {
            let bytes = if i == 0 {
                with_structure(100)
            } else {
                descriptor(100 + i, &[1])
            };
            let time = 1_000_000_000 + FRAME * u32::from(i);
            assert_eq!(
                run.give(&packet(1_000 + i, time, i == 0, &bytes)),
                Outcome::Held
            );
        }
        let first = packet(20, 100_000, true, &with_structure(500));
        let second = packet(21, 100_000 + FRAME, false, &descriptor(501, &[1]));
        assert_eq!(run.give(&first), Outcome::Suspect);
        assert_eq!(run.give(&second), Outcome::Restarted(true));
        run.shown.clear();
        run
    }

    /// Frames of the third sender: frame 2 is lost, and no other refers to it.
    fn go_on(&mut self) {
        let frames = [(1, 1), (3, 2), (4, 1)];
        for (i, distance) in frames {
            let time = 7_000_000 + FRAME * u32::from(i);
            self.give(&packet(
                30_000 + i,
                time,
                false,
                &descriptor(900 + i, &[distance]),
            ));
        }
    }
}

#[test]
fn a_restart_inserts_the_note_of_the_suspect_packet() {
    let mut run = Run::of_two_senders();
    let key = packet(30_000, 7_000_000, true, &with_structure(900));
    assert_eq!(run.give(&key), Outcome::Suspect);
    run.go_on();
    assert_eq!(run.shown, [true; 4]);
    assert!(!run.receiver.wants_keyframe());
}

#[test]
fn a_late_packet_of_a_former_sender_leaves_the_note_of_the_suspect_packet() {
    let mut run = Run::of_two_senders();
    let key = packet(30_000, 7_000_000, true, &with_structure(900));
    assert_eq!(run.give(&key), Outcome::Suspect);
    let late = packet(
        1_010,
        1_000_000_000 + 10 * FRAME,
        false,
        &descriptor(110, &[1]),
    );
    assert_eq!(run.give(&late), Outcome::Suspect);
    run.go_on();
    assert_eq!(run.shown, [true; 4]);
    assert!(!run.receiver.wants_keyframe());
}

#[test]
fn a_restart_that_padding_confirms_inserts_the_note_of_the_suspect_packet() {
    let mut run = Run::of_two_senders();
    let key = packet(29_999, 7_000_000, true, &with_structure(900));
    assert_eq!(run.give(&key), Outcome::Suspect);
    assert_eq!(run.give(&padding(30_000, 7_000_000)), Outcome::NoMedia);
    run.go_on();
    assert_eq!(run.shown, [true; 4]);
    assert!(!run.receiver.wants_keyframe());
}

#[test]
fn another_suspect_packet_replaces_the_note() {
    let mut run = Run::of_two_senders();
    let other = packet(45_000, 3_000_000_000, false, &descriptor(7, &[1]));
    assert_eq!(run.give(&other), Outcome::Suspect);
    let key = packet(30_000, 7_000_000, true, &with_structure(900));
    assert_eq!(run.give(&key), Outcome::Suspect);
    run.go_on();
    assert_eq!(run.shown, [true; 4]);
}

#[test]
fn a_suspect_number_without_media_drops_the_note_with_the_packet() {
    let mut run = Run::of_two_senders();
    let other = packet(45_000, 3_000_000_000, false, &descriptor(7, &[1]));
    assert_eq!(run.give(&other), Outcome::Suspect);
    assert_eq!(run.give(&padding(29_999, 7_000_000)), Outcome::NoMedia);
    let key = packet(30_000, 7_000_000, true, &with_structure(900));
    assert_eq!(run.give(&key), Outcome::Restarted(false));
    run.go_on();
    assert_eq!(run.shown, [true; 4]);
}
