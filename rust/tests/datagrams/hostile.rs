//! Numbers in any order, and bytes of any form.

use crate::Fail;
use crate::events::{WAITS, packet, receiver_of, take};
use codec_payload::codec::NoBox;
use codec_payload::stream::receiver::{Counters, Receiver};
use codec_payload::wire::Ticks;

/// The next of a sequence of numbers that look random (the generator of Numerical Recipes).
fn following(seed: u32) -> u32 {
    seed.wrapping_mul(1_664_525).wrapping_add(1_013_904_223)
}

/// The sum of all counters.
fn sum_of(counters: &Counters, held: usize) -> u64 {
    let packets = counters.packets;
    [
        counters.rtcp,
        counters.malformed,
        counters.other_streams,
        packets.no_media,
        packets.duplicates,
        packets.late,
        packets.suspect,
        packets.evicted,
        packets.released,
        packets.incomplete,
        packets.skipped,
        packets.refused,
        held as u64,
    ]
    .iter()
    .sum()
}

/// Bytes that usually look like a packet, and sometimes are cut off or of another form.
fn feed(receiver: &mut Receiver<NoBox>, seed: u32) {
    let mut bytes = packet(96, (seed >> 16) as u16, 7, 1);
    if seed % 97 == 0 {
        bytes[1] = 101;
    }
    let len = if seed % 89 == 0 { 5 } else { 13 };
    take(receiver, u64::from(seed >> 8), &bytes[..len]);
}

#[test]
fn numbers_in_any_order() -> Result<(), Fail> {
    let mut receiver = receiver_of(WAITS, 64)?;
    let mut seed = 1;
    let mut most = 0;
    for _ in 0..65_536u32 {
        seed = following(seed);
        feed(&mut receiver, seed);
        if seed % 7 == 0 {
            let _unit = receiver.pop(Ticks(u64::from(seed)));
        }
        most = receiver.held().max(most);
    }
    let counters = receiver.counters();
    assert!(most <= 64);
    assert_eq!(counters.received, 65_536);
    assert_eq!(sum_of(&counters, receiver.held()), 65_536);
    Ok(())
}
