//! Two inputs at a time, each up to its full size: what a packet is, or how many there are, and how large it is.
//!
//! tools/plain_mutants.py plants a body that runs out of memory at some size for each of these tests, which has to fail then.

use crate::formats::depacketizer;
use crate::streams::{EVENTS, RTX, VP8, checked, keyframe, numbered, packet, session};
use crate::{made, told};
use codec_payload::history::{History, HistorySettings, Resent};
use codec_payload::jitter::Outcome;
use codec_payload::rtp::ExtensionIds;
use codec_payload::*;

/// Bytes of payload: small ones, about an MTU, and up to what a datagram has room for beside headers.
const PAYLOADS: [usize; 9] = [0, 1, 64, 65, 1_100, 1_200, 1_401, 9_000, 65_000];

/// A receiver of one stream of SSRC 7, with these changes of its settings.
fn receiver(codec: Codec, change: impl FnOnce(&mut ReceiverSettings)) -> Receiver {
    let mut settings = ReceiverSettings::for_stream(VP8, codec, Frequency::NINETY_KHZ);
    settings.ssrc = Some(7);
    change(&mut settings);
    Receiver::new(depacketizer(codec), settings).expect("settings in range")
}

/// Pops until there is nothing, after the end.
fn popped(receiver: &mut Receiver) -> usize {
    made(receiver.finish());
    let mut units = 0;
    while let Some(answer) = receiver.pop(Ticks(1_000)) {
        units += usize::from(matches!(made(answer), Popped::Unit(_)));
    }
    units
}

/// A packet with a header extension: elements of the two-byte form (RFC 8285, section 4.3).
fn extended(number: u16, time: u32, elements: &[(u8, Vec<u8>)], payload: &[u8]) -> Vec<u8> {
    let mut bytes = Vec::new();
    for (id, value) in elements {
        bytes.extend([*id, value.len() as u8]);
        bytes.extend(value);
    }
    bytes.resize(bytes.len().next_multiple_of(4), 0);
    let mut plain = packet(VP8, 7, number, time, &[]);
    plain[0] |= 0x10;
    plain.extend([0x10, 0]);
    plain.extend((bytes.len() as u16 / 4).to_be_bytes());
    [plain, bytes, payload.to_vec()].concat()
}

#[test]
fn retransmissions() {
    for size in PAYLOADS {
        for count in [1, 3, 33] {
            let pair = Retransmission {
                ssrc: 8,
                payload_type: RTX,
            };
            let mut receiver = receiver(Codec::Vp8, |it| it.retransmission = Some(pair));
            made(receiver.receive(Ticks(0), &packet(VP8, 7, 0, 0, &keyframe(1))));
            made(receiver.receive(Ticks(0), &packet(VP8, 7, count + 1, 3_000, &keyframe(1))));
            for number in 1..=count {
                let again = [&number.to_be_bytes()[..], &keyframe(size)].concat();
                let answer = made(receiver.receive(Ticks(1), &packet(RTX, 8, number, 0, &again)));
                assert_eq!(answer, Outcome::Held);
            }
            assert_eq!(popped(&mut receiver), usize::from(count) + 2);
        }
    }
}

#[test]
fn values_of_extensions() {
    for size in PAYLOADS {
        for many in 0..=3 {
            let mut receiver = receiver(Codec::Vp8, |it| {
                it.extension_ids = {
                    let mut ids = ExtensionIds::default();
                    ids.abs_capture_time = Some(1);
                    ids.video_timing = Some(2);
                    ids.layers_allocation = Some(3);
                    ids
                };
            });
            let values = [(1, vec![1; 16]), (2, vec![2; 13]), (3, vec![3; 255])];
            for number in 0..3 {
                let datagram = extended(
                    number,
                    3_000 * u32::from(number),
                    &values[..many],
                    &keyframe(size),
                );
                made(receiver.receive(Ticks(0), &datagram));
            }
            assert_eq!(popped(&mut receiver), 3);
        }
    }
}

#[test]
fn dependency_descriptors() {
    for size in PAYLOADS {
        for length in [3, 24, 25, 64, 65, 255] {
            let mut receiver = receiver(Codec::Vp8, |it| it.dependency_descriptor = Some(4));
            for number in 0..3 {
                // The first byte says that the packet begins a frame; the rest need not be readable.
                let descriptor = [&[0x80, 0, number as u8][..], &vec![0; length - 3]].concat();
                let datagram = extended(
                    number,
                    3_000 * u32::from(number),
                    &[(4, descriptor)],
                    &keyframe(size),
                );
                made(receiver.receive(Ticks(0), &datagram));
            }
            assert_eq!(popped(&mut receiver), 3);
        }
    }
}

#[test]
fn frames_of_vp9() {
    for size in PAYLOADS {
        for layers in [1, 2, 3] {
            let mut receiver = receiver(Codec::Vp9, |_| {});
            for frame in 0..3_u16 {
                for layer in 0..layers {
                    // I, L, F, B and E; the picture id; the layers (RFC 9628, section 4.2).
                    let head = [0xbc, frame as u8, (layer as u8) << 1];
                    let payload = [&head[..], &vec![0x82; size + 1]].concat();
                    let mut datagram = packet(
                        VP8,
                        7,
                        frame * layers + layer,
                        3_000 * u32::from(frame),
                        &payload,
                    );
                    if layer + 1 < layers {
                        datagram[1] &= 0x7f;
                    }
                    made(receiver.receive(Ticks(0), &datagram));
                }
            }
            assert_eq!(popped(&mut receiver), 3);
        }
    }
}

#[test]
fn histories_without_a_stream_of_retransmissions() {
    for size in PAYLOADS {
        for count in [1, 2, 600] {
            let settings = HistorySettings {
                limit: 512,
                interval: 0,
                stream: None,
            };
            let mut history = History::new(settings).expect("settings in range");
            let mut out = Vec::new();
            for number in 0..count {
                made(history.keep(&packet(VP8, 7, number, 0, &keyframe(size))));
                assert_eq!(
                    made(history.resend(Ticks(0), number, &mut out)),
                    Resent::Written
                );
                assert_eq!(out.len(), 12 + 11 + size);
            }
        }
    }
}

#[test]
fn restarts() {
    for size in PAYLOADS {
        for times in [1, 2, 5] {
            let mut receiver = receiver(Codec::Vp8, |_| {});
            made(receiver.receive(Ticks(0), &packet(VP8, 7, 0, 0, &keyframe(size))));
            for restart in 1..=times {
                let (number, time) = (30_000_u16.wrapping_mul(restart), u32::from(restart) << 28);
                let first = packet(VP8, 7, number, time, &keyframe(size));
                assert_eq!(made(receiver.receive(Ticks(9), &first)), Outcome::Suspect);
                let second = packet(
                    VP8,
                    7,
                    number.wrapping_add(1),
                    time + 3_000,
                    &keyframe(size),
                );
                assert_eq!(
                    made(receiver.receive(Ticks(9), &second)),
                    Outcome::Restarted(true)
                );
            }
            assert_eq!(popped(&mut receiver), 1 + 2 * usize::from(times));
        }
    }
}

#[test]
fn pairs_that_a_session_finds() {
    for size in [0, 1_200, 65_000] {
        let mut session = session(1);
        // 64 streams lose a packet each, of numbers of its own, and request it.
        for stream in 0..64_u16 {
            for number in [0, 2] {
                made(session.receive(
                    Ticks(0),
                    &numbered(100 + u32::from(stream), 500 * stream + number),
                ));
            }
        }
        for now in 0..30 {
            while let Some(event) = session.poll(Ticks(now)) {
                checked(&event);
            }
        }
        for stream in 0..64_u16 {
            let number = 500 * stream + 1;
            let again = [&number.to_be_bytes()[..], &keyframe(size)].concat();
            let datagram = packet(
                RTX,
                1_000 + u32::from(stream),
                0,
                3_000 * u32::from(number),
                &again,
            );
            let told = made(session.receive(Ticks(30), &datagram));
            assert!(
                matches!(
                    told,
                    Arrival::Stream {
                        outcome: Outcome::Held,
                        ..
                    }
                ),
                "{stream}: {told:?}"
            );
        }
    }
}

#[test]
fn telephone_events() {
    for size in PAYLOADS {
        for count in [1, 2, 32] {
            let mut session = session(1);
            made(session.receive(Ticks(0), &numbered(5, 0)));
            for number in 1..=count {
                let events = packet(EVENTS, 5, number, 0, &vec![1; size]);
                made(session.receive(Ticks(0), &events));
            }
            let mut seen = 0;
            while let Some(event) = session.poll(Ticks(0)) {
                checked(&event);
                seen += u16::from(matches!(event, Event::Telephone { .. }));
            }
            assert!(
                size == 0 || seen == count,
                "{seen} of {count} with {size} bytes"
            );
            let _ = told(session.receive(Ticks(0), &[]));
        }
    }
}
