//! Runs with retransmissions: a network that loses datagrams and retransmissions, and a history that resends what was lost, until all
//! frames are released.

use crate::Fail;
use crate::sides::{receiver_settings, sample_of, sender_of};
use codec_payload::codec::{CodecDepacketizer, NoBox};
use codec_payload::history::{History, HistorySettings, Resent, RetransmissionStream};
use codec_payload::jitter::jitter_buffer::{Outcome, WaitLimits};
use codec_payload::rtp::RtpPacket;
use codec_payload::schedule::datagrams::{
    DatagramStep, HistoryRun, HistoryStep, Link, run_with_history,
};
use codec_payload::stream::receiver::{Receiver, Retransmission};
use codec_payload::wire::{Codec, Ticks, ToPayload};

/// The stream of retransmissions.
const AGAIN: RetransmissionStream = RetransmissionStream {
    ssrc: 8,
    payload_type: 97,
    first_number: 65_535,
};

/// How many frames there are; each has two datagrams, from number 65,535 on.
const FRAMES: u8 = 200;

fn frame_of(index: u8) -> [u8; 3] {
    [index, 0xa5, index]
}

fn samples() -> Vec<ToPayload> {
    (0..FRAMES)
        .map(|index| sample_of(u64::from(index) * 3_000, &frame_of(index)))
        .collect()
}

/// A sender, a history of `limit` packets, and a receiver that reads its retransmissions. Frames wait for missing packets until the
/// end.
fn link_of(
    limit: usize,
    interval: u64,
    stream: Option<RetransmissionStream>,
) -> Result<Link<NoBox, NoBox>, Fail> {
    let mut settings = receiver_settings({
        let mut limits = WaitLimits::live();
        limits.hold_back = None;
        limits.start = 0;
        limits.max_wait = None;
        limits
    })?;
    settings.retransmission = stream.map(|s| Retransmission {
        ssrc: s.ssrc,
        payload_type: s.payload_type,
    });
    let depack = CodecDepacketizer::from_codec(Codec::Vp8).ok_or("no depacketizer")?;
    Ok(Link {
        sender: sender_of()?,
        history: History::new(HistorySettings {
            limit,
            interval,
            stream,
        })
        .map_err(|_| "settings out of range")?,
        receiver: Receiver::new(depack, settings).map_err(|_| "settings out of range")?,
    })
}

fn deliver(datagram: usize) -> HistoryStep {
    HistoryStep::Plain(DatagramStep::Deliver {
        datagram,
        now: Ticks(0),
    })
}

/// The bytes of all popped units.
fn popped_in(run: &HistoryRun) -> Result<Vec<u8>, Fail> {
    let mut popped = Vec::new();
    for answer in run.run.pops.iter().flatten() {
        let unit = answer.as_ref().map_err(|_| "a unit is refused")?;
        popped.extend_from_slice(&unit.bytes);
    }
    Ok(popped)
}

/// A network that loses three in ten, at random.
struct Network {
    seed: u32,
}

impl Network {
    /// Whether the next datagram is lost (the generator of Numerical Recipes).
    fn loses(&mut self) -> bool {
        self.seed = self
            .seed
            .wrapping_mul(1_664_525)
            .wrapping_add(1_013_904_223);
        (self.seed >> 16) % 10 < 3
    }
}

/// Sends all frames, resends each lost datagram until it or a retransmission arrives, then ends the stream, and pops all units.
fn steps_of(seed: u32) -> (Vec<HistoryStep>, usize) {
    let mut network = Network { seed };
    let mut steps = Vec::new();
    let mut resent = 0;
    for datagram in 0..2 * usize::from(FRAMES) {
        if datagram % 2 == 0 {
            steps.push(HistoryStep::Plain(DatagramStep::Send(datagram / 2)));
        }
        if !network.loses() {
            steps.push(deliver(datagram));
            continue;
        }
        loop {
            let number = (65_535 + datagram) as u16;
            steps.push(HistoryStep::Resend {
                number,
                now: Ticks(0),
            });
            resent += 1;
            if !network.loses() {
                break;
            }
        }
        steps.push(HistoryStep::DeliverAgain {
            retransmission: resent - 1,
            now: Ticks(0),
        });
    }
    steps.push(HistoryStep::Plain(DatagramStep::Finish));
    for _ in 0..FRAMES {
        steps.push(HistoryStep::Plain(DatagramStep::Pop { now: Ticks(0) }));
    }
    (steps, resent)
}

#[test]
fn all_lost_packets_are_resent_and_all_frames_released() -> Result<(), Fail> {
    let wanted: Vec<u8> = (0..FRAMES).flat_map(frame_of).collect();
    for (seed, stream) in [(1, Some(AGAIN)), (2, Some(AGAIN)), (3, None)] {
        let (steps, resent) = steps_of(seed);
        assert!(resent > usize::from(FRAMES) / 4, "too few are lost");
        let mut link = link_of(64, 0, stream)?;
        let run = run_with_history(&mut link, &samples(), &steps)?;
        assert_eq!(run.retransmissions.len(), resent);
        assert_eq!(run.run.receipts.len(), 2 * usize::from(FRAMES));
        assert_eq!(popped_in(&run)?, wanted);
    }
    Ok(())
}

#[test]
fn retransmissions_have_the_fields_of_their_stream() -> Result<(), Fail> {
    let mut link = link_of(64, 20, Some(AGAIN))?;
    let request = |now| HistoryStep::Resend {
        number: 0,
        now: Ticks(now),
    };
    let again = |retransmission| HistoryStep::DeliverAgain {
        retransmission,
        now: Ticks(50),
    };
    let steps = [
        request(0),
        HistoryStep::Plain(DatagramStep::Send(0)),
        request(10),
        request(29),
        request(30),
        again(1),
        again(0),
        again(2),
        deliver(0),
        HistoryStep::Plain(DatagramStep::Pop { now: Ticks(60) }),
    ];
    let run = run_with_history(&mut link, &samples(), &steps)?;
    assert_eq!(
        run.answers,
        [
            Resent::NotKept,
            Resent::Written,
            Resent::TooSoon,
            Resent::Written
        ]
    );
    // The retransmission with index 2 does not exist; the second delivery repeats the first.
    let receipts: Vec<Outcome> = run.run.receipts.into_iter().flatten().collect();
    assert_eq!(receipts, [Outcome::Held, Outcome::Duplicate, Outcome::Held]);
    // RFC 4588, section 4: the number 0 is in front of the original payload.
    let original = RtpPacket::parse(&run.run.datagrams[1]).map_err(|_| "no packet")?;
    for (bytes, number) in run.retransmissions.iter().zip([65_535, 0]) {
        let packet = RtpPacket::parse(bytes).map_err(|_| "no packet")?;
        assert_eq!(packet.header.ssrc, 8);
        assert_eq!(packet.header.payload_type, 97);
        assert_eq!(packet.header.sequence_number, number);
        assert_eq!(packet.header.timestamp, original.header.timestamp);
        assert_eq!(packet.payload, [&[0, 0], original.payload].concat());
    }
    assert_eq!(run.run.pops.len(), 1);
    let unit = run.run.pops[0].as_ref().ok_or("no unit")?;
    let unit = unit.as_ref().map_err(|_| "a unit is refused")?;
    assert_eq!(unit.bytes, frame_of(0));
    Ok(())
}

#[test]
fn a_packet_that_left_the_history_stays_lost() -> Result<(), Fail> {
    let mut link = link_of(2, 0, Some(AGAIN))?;
    let mut steps = vec![HistoryStep::Plain(DatagramStep::Send(0))];
    steps.push(HistoryStep::Plain(DatagramStep::Send(1)));
    for number in [65_535, 0, 1, 2, 3] {
        steps.push(HistoryStep::Resend {
            number,
            now: Ticks(0),
        });
    }
    let run = run_with_history(&mut link, &samples(), &steps)?;
    assert_eq!(
        run.answers,
        [
            Resent::NotKept,
            Resent::NotKept,
            Resent::Written,
            Resent::Written,
            Resent::NotKept
        ]
    );
    assert_eq!(run.retransmissions.len(), 2);
    Ok(())
}
