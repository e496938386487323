//! Test vectors of a receiver: events that stall streams.

use crate::Fail;
use crate::events::{Event, STARTS_LATER, WAITS, WAITS_LONGER, packet, receiver_of, take, told_of};
use codec_payload::PoppedUnit;
use codec_payload::codec::NoBox;
use codec_payload::jitter::jitter_buffer::WaitLimits;
use codec_payload::stream::pops::Popped;
use codec_payload::stream::receiver::Receiver;
use codec_payload::wire::Ticks;

/// Events, and what they come to.
struct Row {
    name: &'static str,
    wait_limits: WaitLimits,
    events: &'static [Event],
    told: &'static str,
}

const ROWS: [Row; 13] = [
    Row {
        name: "first-packet-0-second-65535",
        wait_limits: WAITS,
        events: &[
            Event::Packet(0, 0),
            Event::Packet(0, 65_535),
            Event::Packet(0, 1),
            Event::Pops(0),
        ],
        told: "hhh 255 0 1.",
    },
    Row {
        name: "sender-restarts-with-both-packets",
        wait_limits: WAITS,
        events: &[
            Event::Packet(0, 50_000),
            Event::Pops(0),
            Event::Packet(1, 30_000),
            Event::Packet(2, 30_001),
            Event::Packet(3, 30_002),
            Event::Pops(51),
            Event::Deadline,
            Event::Pops(53),
        ],
        told: "h 80.sRh 48 49 50.@-.",
    },
    Row {
        name: "strays-do-not-restart",
        wait_limits: WAITS,
        events: &[
            Event::Packet(0, 10),
            Event::Packet(0, 40_000),
            Event::Packet(0, 11),
            Event::Packet(0, 40_002),
            Event::Packet(0, 20_000),
            Event::Packet(0, 40_003),
            Event::Packet(0, 12),
            Event::Pops(0),
        ],
        told: "hshsssh 10 11 12.",
    },
    Row {
        name: "a-suspect-packet-stays",
        wait_limits: WAITS,
        events: &[
            Event::Packet(0, 10),
            Event::Packet(0, 40_000),
            Event::Packet(0, 11),
            Event::Packet(0, 40_001),
            Event::Pops(50),
        ],
        told: "hshR 10 11 64 65.",
    },
    Row {
        name: "restart-told-by-padding",
        wait_limits: WAITS,
        events: &[
            Event::Packet(0, 10),
            Event::Pops(0),
            Event::Packet(0, 40_000),
            Event::Padding(40_001),
            Event::Packet(0, 40_002),
            Event::Pops(50),
        ],
        told: "h 10.snh 64 66.",
    },
    Row {
        name: "padding-each-tenth-packet",
        wait_limits: WAITS,
        events: &[
            Event::Packets(0, 9),
            Event::Padding(9),
            Event::Packets(10, 9),
            Event::Padding(19),
            Event::Packets(20, 2),
            Event::Pops(0),
        ],
        told: "hhhhhhhhhnhhhhhhhhhnhh 0 1 2 3 4 5 6 7 8 10 11 12 13 14 15 16 17 18 20 21.",
    },
    Row {
        name: "events-beside-audio",
        wait_limits: WAITS,
        events: &[
            Event::Packet(0, 10),
            Event::Tele(11),
            Event::Tele(12),
            Event::Packet(0, 13),
            Event::Pops(0),
        ],
        told: "hnnh 10 13.",
    },
    Row {
        name: "first-two-swapped",
        wait_limits: STARTS_LATER,
        events: &[
            Event::Packet(0, 11),
            Event::Pops(0),
            Event::Packet(1, 10),
            Event::Pops(1),
        ],
        told: "h.h 10 11.",
    },
    Row {
        name: "first-alone",
        wait_limits: STARTS_LATER,
        events: &[
            Event::Packet(0, 11),
            Event::Deadline,
            Event::Pops(49),
            Event::Pops(50),
        ],
        told: "h@50. 11.",
    },
    Row {
        name: "end-of-a-stream-with-a-gap",
        wait_limits: WAITS,
        events: &[
            Event::Packet(0, 10),
            Event::Pops(0),
            Event::Packet(0, 12),
            Event::Packet(0, 14),
            Event::Pops(0),
            Event::Finish,
            Event::Pops(0),
        ],
        told: "h 10.hh. 12 14.",
    },
    Row {
        name: "gaps-wait-side-by-side",
        wait_limits: WAITS,
        events: &[
            Event::Packet(0, 10),
            Event::Pops(0),
            Event::Packet(20, 12),
            Event::Packet(30, 14),
            Event::Deadline,
            Event::Pops(69),
            Event::Pops(70),
            Event::Deadline,
            Event::Pops(80),
        ],
        told: "h 10.hh@70. 12.@80 14.",
    },
    Row {
        name: "other-wait-limits",
        wait_limits: WAITS,
        events: &[
            Event::Packet(0, 10),
            Event::Pops(0),
            Event::Packet(20, 12),
            Event::Deadline,
            Event::Waits(WAITS_LONGER),
            Event::Deadline,
            Event::Pops(70),
            Event::Waits(WAITS),
            Event::Pops(70),
        ],
        told: "h 10.h@70w@120.w 12.",
    },
    Row {
        name: "each-outcome",
        wait_limits: WAITS,
        events: &[
            Event::OtherType(1),
            Event::Noise,
            Event::Packet(0, 10),
            Event::Packet(0, 10),
            Event::Pops(0),
            Event::Packet(0, 9),
            Event::Packet(0, 40_000),
            Event::OtherSsrc(11),
            Event::OtherType(11),
            Event::Rtcp,
        ],
        told: "o!hd 10.lsooc",
    },
];

#[test]
fn rows() -> Result<(), Fail> {
    for row in &ROWS {
        let told = told_of(row.wait_limits, row.events)?;
        assert_eq!(told, row.told, "in {}", row.name);
    }
    Ok(())
}

/// Asserts that the unit with that number, of one packet and one byte, is the next, and that its time is that number above 2^32.
fn assert_next(
    receiver: &mut Receiver<NoBox>,
    number: u16,
    unit: &mut PoppedUnit,
) -> Result<(), Fail> {
    let Some(Ok(Popped::Unit(()))) = receiver.pop_unit(Ticks(0), unit) else {
        return Err("no unit".into());
    };
    assert_eq!(unit.time.numer(), u64::from(number), "the time of the unit");
    assert_eq!(unit.bytes.len(), 1, "bytes");
    assert_eq!(unit.bytes[0], (number % 256) as u8, "the unit");
    assert_eq!(unit.packets(), 1, "packets");
    let header = unit.meta(0).header;
    assert_eq!(header.sequence_number, number, "what is known");
    assert_eq!(
        receiver.unit_time(),
        Some((1 << 32) + u64::from(number)),
        "its time that does not wrap"
    );
    Ok(())
}

#[test]
fn units_into_the_same_memory() -> Result<(), Fail> {
    let mut receiver = receiver_of(WAITS, 64)?;
    let mut unit = PoppedUnit::new();
    unit.bytes = vec![1, 2, 3];
    for number in [10, 12, 11] {
        let letter = take(&mut receiver, 0, &packet(96, number, 7, number as u8));
        assert_eq!(letter, 'h', "a packet that is held");
    }
    assert_next(&mut receiver, 10, &mut unit)?;
    assert_next(&mut receiver, 11, &mut unit)?;
    assert_next(&mut receiver, 12, &mut unit)?;
    let none = receiver.pop_unit(Ticks(0), &mut unit).is_none();
    assert!(none, "no more units");
    let counters = receiver.counters().packets;
    assert_eq!(counters.units, 3, "units");
    assert_eq!(counters.released, 3, "packets in units");
    Ok(())
}
