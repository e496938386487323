//! After a restart that a jitter buffer found, packets of the former sender that still arrive are dropped as suspect, and its
//! retransmissions as late. Packets of the new sender are not.

use codec_payload::jitter::{JitterBuffer, Outcome, SequenceNumbers, WaitLimits};
use codec_payload::*;

/// Ticks of a packet of 20 ms, and of a second.
const PACKET: u32 = 960;
const SECOND: u32 = 48_000;
/// The numbers of the former sender, and the first number of the new one.
const FORMER: std::ops::Range<u16> = 30_000..30_200;
const BEGINS: u16 = 30_100;
/// The RTP time of the former sender's first number, and another offset.
const OFFSET: u32 = 1_000_000;
const FAR: u32 = 3_000_000_000;

fn header(number: u16, time: u32) -> RtpHeader {
    RtpHeader {
        payload_type: Pt::new_with_value(111),
        sequence_number: number,
        timestamp: time,
        ssrc: 7,
        marker: false,
        ext_vals: ExtensionValues::default(),
    }
}

/// The RTP time of a number of the former sender.
fn former_time(number: u16) -> u32 {
    OFFSET + PACKET * u32::from(number - FORMER.start)
}

struct Run {
    packets: JitterBuffer,
    /// The RTP time of the new sender's first number.
    new_time: u32,
}

impl Run {
    /// A jitter buffer that got the packets of the former sender.
    fn of_former(new_time: u32) -> Run {
        let limits = {
            let mut limits = WaitLimits::live();
            limits.max_wait = None;
            limits.hold_back = None;
            limits.start = 0;
            limits
        };
        let depacketizer = CodecDepacketizer::from_codec(Codec::Opus).unwrap();
        let buffer = DepacketizingBuffer::new(depacketizer, 0);
        let rate = Frequency::make(SECOND).unwrap();
        let packets = JitterBuffer::over(SequenceNumbers::new(), buffer, rate, limits);
        let mut run = Run { packets, new_time };
        for number in FORMER {
            assert_eq!(run.push(number, former_time(number)), Outcome::Held);
        }
        run
    }

    /// The same, after the restart was found by the new sender's number 30,104.
    fn restarted(new_time: u32) -> Run {
        let mut run = Run::of_former(new_time);
        assert_eq!(run.push_new(0), Outcome::Suspect);
        for packet in 1..4 {
            assert_eq!(run.push_new(packet), Outcome::Duplicate);
        }
        assert_eq!(run.push_new(4), Outcome::Restarted(true));
        run
    }

    fn push(&mut self, number: u16, time: u32) -> Outcome {
        self.packets
            .push(Ticks(0), header(number, time), vec![1])
            .unwrap()
    }

    fn push_again(&mut self, number: u16, time: u32) -> Outcome {
        self.packets
            .push_retransmitted(Ticks(0), header(number, time), vec![1])
            .unwrap()
    }

    fn push_recovered(&mut self, number: u16, time: u32) -> bool {
        self.packets
            .push_recovered(Ticks(0), header(number, time), vec![1])
            .unwrap()
    }

    /// A packet of the new sender.
    fn push_new(&mut self, packet: u16) -> Outcome {
        let time = self.new_time.wrapping_add(PACKET * u32::from(packet));
        self.push(BEGINS + packet, time)
    }

    /// The low bits of the highest number.
    fn highest(&self) -> u16 {
        (self.packets.greatest().unwrap() % 65_536) as u16
    }
}

#[test]
fn packets_of_the_former_sender_are_dropped() {
    for new_time in [FAR, former_time(30_199) + 2 * PACKET] {
        let mut run = Run::restarted(new_time);
        for number in FORMER {
            assert_eq!(run.push(number, former_time(number)), Outcome::Suspect);
            assert_eq!(run.push_again(number, former_time(number)), Outcome::Late);
            assert!(!run.push_recovered(number, former_time(number)));
        }
        assert_eq!(run.highest(), BEGINS + 4);
        assert_eq!(run.packets.counters().suspect, 200);
        assert_eq!(run.packets.counters().late, 200);
        for packet in 5..150 {
            assert_eq!(run.push_new(packet), Outcome::Held);
        }
    }
}

#[test]
fn its_end_is_dropped_up_to_half_a_second() {
    let mut run = Run::restarted(FAR);
    // The latest noted number is 30,196. Half a second is 25 packets.
    for number in 30_200..=30_221 {
        assert_eq!(run.push(number, former_time(number)), Outcome::Suspect);
    }
    assert_eq!(run.push(30_222, former_time(30_222)), Outcome::Held);
    assert_eq!(run.highest(), 30_222);
}

#[test]
fn its_end_is_dropped_up_to_the_new_sender() {
    let mut run = Run::restarted(former_time(30_206));
    // The first packet of the new sender that the restart confirmed is 4 packets later.
    for number in 30_200..=30_209 {
        assert_eq!(run.push(number, former_time(number)), Outcome::Suspect);
    }
    assert_eq!(run.push(30_210, former_time(30_210)), Outcome::Held);
}

#[test]
fn packets_that_the_new_sender_sent_earlier_are_stored() {
    for new_time in [FAR, former_time(30_199) + 9 * PACKET] {
        let mut run = Run::restarted(new_time);
        for packet in [6, 5, 3, 2, 1] {
            assert_eq!(run.push_new(packet), Outcome::Held);
        }
        let time = new_time.wrapping_sub(PACKET);
        assert_eq!(run.push(BEGINS - 1, time), Outcome::Held);
    }
}

#[test]
fn older_packets_are_of_the_former_sender_for_10_seconds() {
    let mut run = Run::restarted(FAR);
    let latest = former_time(30_196);
    assert_eq!(run.push(29_900, latest - 10 * SECOND), Outcome::Suspect);
    assert_eq!(run.push_again(29_900, latest - 10 * SECOND), Outcome::Late);
    assert_eq!(
        run.push_again(29_900, latest - 10 * SECOND - 1),
        Outcome::Held
    );
}

#[test]
fn the_former_sender_is_forgotten_after_3_seconds() {
    let mut run = Run::restarted(FAR);
    // Number 30,104 confirmed the restart. Number 30,252 is 148 packets later, the first noted one after 30,256 is more than 150.
    for packet in 5..=155 {
        assert_eq!(run.push_new(packet), Outcome::Held);
    }
    let old = former_time(30_196);
    assert_eq!(run.push_again(30_300, old + PACKET), Outcome::Late);
    assert_eq!(run.push_new(156), Outcome::Held);
    assert_eq!(run.push_again(30_300, old + PACKET), Outcome::Held);
}

#[test]
fn an_announced_restart_leaves_no_former_sender() {
    let mut run = Run::of_former(FAR);
    run.packets.restart();
    assert_eq!(run.push_new(0), Outcome::Restarted(false));
    // Its numbers are within the windows of the new sender.
    assert_eq!(run.push(30_199, former_time(30_199)), Outcome::Held);
}

#[test]
fn times_of_up_to_20_seconds_before_tell_nothing() {
    let latest = former_time(30_196);
    // The packet that confirms the restart is 4 packets after the new sender's first.
    let mut run = Run::restarted(latest - 20 * SECOND - 4 * PACKET);
    assert_eq!(run.push(30_199, former_time(30_199)), Outcome::Held);
    let mut run = Run::restarted(latest - 20 * SECOND - 4 * PACKET - 1);
    assert_eq!(run.push(30_199, former_time(30_199)), Outcome::Suspect);
}
