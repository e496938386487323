//! The choice of another stream. If memory runs out for the packet that waited, the stream before goes on as if nothing had arrived.

use super::{LEFT, MADE};
use codec_payload::jitter::Outcome;
use codec_payload::stream::{ReceiveError, Receiver, ReceiverSettings};
use codec_payload::wire::{Codec, CodecSpec, Frequency, Ticks};
use codec_payload::{CodecDepacketizer, NoBox};

/// A packet of a frame of VP8 in one packet. Each descriptor has its own frame number and refers to the frame before.
fn packet(ssrc: u32, number: u16, time: u32) -> Vec<u8> {
    let mut bytes = vec![0x90, 0x80 | 96];
    bytes.extend(number.to_be_bytes());
    bytes.extend(time.to_be_bytes());
    bytes.extend(ssrc.to_be_bytes());
    bytes.extend([0xbe, 0xde, 0, 2, 0x55, 0x80]);
    bytes.extend(number.to_be_bytes());
    bytes.extend([0x14, 0, 0, 0]);
    bytes.extend([0x10, 0x11, 0, 0]);
    bytes
}

/// A receiver of the stream with SSRC 7, which keeps a suspect packet of it. SSRC 9 has sent one packet after 2 s of silence.
fn before_the_choice() -> Receiver<NoBox> {
    let mut depacketizer: CodecDepacketizer<NoBox> =
        CodecDepacketizer::from_codec(Codec::Vp8).unwrap();
    depacketizer.configure_for(&CodecSpec {
        codec: Codec::Vp8,
        clock_rate: Frequency::NINETY_KHZ,
        octet_align: false,
    });
    let mut settings = ReceiverSettings::for_stream(96, Codec::Vp8, Frequency::NINETY_KHZ);
    settings.dependency_descriptor = Some(5);
    let mut receiver = Receiver::new(depacketizer, settings).unwrap();
    for i in 0..4u16 {
        let bytes = packet(7, 100 + i, 3_000 * u32::from(i));
        receiver.receive(Ticks(33 * u64::from(i)), &bytes).unwrap();
    }
    let suspect = receiver.receive(Ticks(140), &packet(7, 40_000, 12_000));
    assert_eq!(suspect, Ok(Outcome::Suspect));
    let first = receiver.receive(Ticks(2_200), &packet(9, 500, 5));
    assert_eq!(first, Ok(Outcome::Undecided));
    receiver
}

/// All that the receiver shows.
fn shown(receiver: &mut Receiver<NoBox>) -> String {
    let missing: Vec<u64> = receiver.missing(100).collect();
    format!(
        "{:?} {:?} {missing:?} {} {:?} {:?}",
        receiver.ssrc(),
        receiver.counters(),
        receiver.held(),
        receiver.next_deadline(),
        receiver.report()
    )
}

/// The state after the second packet of SSRC 9, with the allocation at this place refused, and how many were made.
fn choose(place: usize) -> (Receiver<NoBox>, Result<Outcome, ReceiveError>, usize) {
    let mut receiver = before_the_choice();
    let second = packet(9, 501, 3_005);
    MADE.set(0);
    LEFT.set(place);
    let answer = receiver.receive(Ticks(2_233), &second);
    LEFT.set(usize::MAX);
    let count = MADE.get();
    (receiver, answer, count)
}

#[test]
fn another_stream_is_chosen_with_its_memory_or_not_at_all() {
    let (mut whole, answer, count) = choose(usize::MAX);
    assert_eq!(answer, Ok(Outcome::Held));
    let whole = shown(&mut whole);
    let before = shown(&mut before_the_choice());
    let mut unchanged = 0;
    for place in 0..count {
        let (mut receiver, answer, _) = choose(place);
        assert_eq!(answer, Err(ReceiveError::OutOfMemory), "{place}");
        if receiver.ssrc() == Some(9) {
            // The packet that waited was received, and chose the stream. This one goes on with it.
            let counters = receiver.counters();
            assert_eq!((counters.received, counters.undecided), (6, 0));
            assert_eq!(counters.packets.restarts, 1);
        } else {
            unchanged += 1;
            assert_eq!(shown(&mut receiver), before, "{place}");
            // The stream goes on: its next packet ends the silence, and the packet after the suspect packet confirms the restart.
            let (mut receiver, _, _) = choose(place);
            let next = receiver.receive(Ticks(2_240), &packet(7, 40_001, 15_000));
            assert_eq!(next, Ok(Outcome::Restarted(true)), "{place}");
            assert_eq!(receiver.ssrc(), Some(7));
        }
        let (mut receiver, _, _) = choose(place);
        let again = receiver.receive(Ticks(2_233), &packet(9, 501, 3_005));
        assert_eq!(again, Ok(Outcome::Held), "{place}");
        assert_eq!(shown(&mut receiver), whole, "{place}");
    }
    assert!(
        2 <= unchanged && unchanged < count,
        "{unchanged} of {count}"
    );
}
