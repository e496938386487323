//! The missing numbers that a jitter buffer keeps from call to call, beside those that are searched.

mod random;

use codec_payload::buffer::DepacketizingBuffer;
use codec_payload::codec::CodecDepacketizer;
use codec_payload::jitter::{JitterBuffer, SequenceNumbers, WaitLimits};
use codec_payload::*;
use random::Dice;

/// A jitter buffer of VP8 with small windows, that holds at most the given number of packets.
fn jitter_buffer(limit: usize) -> JitterBuffer {
    let depacketizer: CodecDepacketizer = CodecDepacketizer::from_codec(Codec::Vp8).unwrap();
    JitterBuffer::over(
        SequenceNumbers::with_windows(300, 100).unwrap(),
        DepacketizingBuffer::with_limit(depacketizer, 5, limit),
        Frequency::NINETY_KHZ,
        {
            let mut limits = WaitLimits::live();
            limits.max_wait = Some(100);
            limits.hold_back = Some(3);
            limits.start = 0;
            limits
        },
    )
}

/// The number of the next packet, and the highest one so far: in order, behind a gap, late, or far ahead.
fn next_number(dice: &mut Dice, top: &mut u64) -> u64 {
    let ahead = match dice.below(40) {
        0..20 => 1,
        20..26 => 1 + dice.below(6),
        26..36 => return top.saturating_sub(dice.below(60)),
        36 => dice.below(200),
        37 => 5_000,
        _ => return top.saturating_sub(dice.below(1_000)),
    };
    *top += ahead;
    *top
}

/// A packet of a frame of four packets, which arrives for the first time, as a retransmission or from RED.
fn push(packets: &mut JitterBuffer, dice: &mut Dice, now: Ticks, number: u64) {
    let header = RtpHeader {
        marker: number % 4 == 3,
        payload_type: Pt::new_with_value(96),
        sequence_number: number as u16,
        timestamp: (number / 4 * 3_000) as u32,
        ssrc: 5,
        ext_vals: ExtensionValues::default(),
    };
    let payload = vec![if number % 4 == 0 { 0x10 } else { 0 }, 7, 7];
    match dice.below(10) {
        0 | 1 => drop(packets.push_retransmitted(now, header, payload).unwrap()),
        2 => drop(packets.push_recovered(now, header, payload).unwrap()),
        _ => drop(packets.push(now, header, payload).unwrap()),
    }
}

/// One call of a random kind.
fn call(packets: &mut JitterBuffer, dice: &mut Dice, now: Ticks, number: u64) {
    match dice.below(30) {
        0..9 => packets.push_no_media(number as u16).unwrap(),
        9 if dice.below(20) == 0 => packets.restart(),
        9 if dice.below(40) == 0 => packets.finish(),
        10 | 11 => {
            let highest = packets.greatest().unwrap_or(60_000);
            let first = highest.saturating_sub(dice.below(80));
            let end = first + dice.below(60);
            packets.note_no_media(first, end).unwrap();
        }
        _ => push(packets, dice, now, number),
    }
}

/// Random calls in any order, of which most change which numbers are missing.
#[test]
fn kept_numbers_are_those_that_are_searched() {
    let mut compared = 0;
    let mut kept = Vec::new();
    for seed in 0..300 {
        let mut dice = Dice(seed);
        let most = [1, 3, 20, 1_024][seed as usize % 4];
        let mut packets = jitter_buffer([8, 40, 3_000][seed as usize % 3]);
        let (mut top, mut now) = (60_000, 0);
        for _ in 0..3_000 {
            now += dice.below(4);
            let number = next_number(&mut dice, &mut top);
            call(&mut packets, &mut dice, Ticks(now), number);
            if dice.below(3) > 0 {
                while packets.pop(Ticks(now)).is_some() {}
            }
            if dice.below(4) > 0 {
                let searched: Vec<u64> = packets.missing(most).collect();
                packets.missing_into(most, &mut kept).unwrap();
                compared += searched.len();
                assert_eq!(kept, searched);
            }
        }
    }
    assert!(compared > 1_000_000, "{compared} numbers");
}
