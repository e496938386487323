//! A viewer requests packets behind a forwarder: what the network lost on the second hop comes again, from a store of what came to the
//! forwarder. With a stream of retransmissions (RFC 4588) and without one.

use crate::Fail;
use crate::sides::{receiver_settings, sample_of, sender_of, sender_settings};
use codec_payload::codec::{CodecDepacketizer, CodecPacketizer, NoBox};
use codec_payload::forward::{ForwardSettings, Forwarded, Forwarder};
use codec_payload::history::{History, HistorySettings, RetransmissionStream};
use codec_payload::jitter::jitter_buffer::WaitLimits;
use codec_payload::rtp::RtpPacket;
use codec_payload::schedule::forwarded::{
    ForwardLink, ForwardStep, StoreLink, StoreRun, StoreStep, run_forwarded_with_store,
};
use codec_payload::sender::{Sender, SenderSettings};
use codec_payload::stream::receiver::{Receiver, Retransmission};
use codec_payload::wire::{Codec, Frequency, MediaTime, Pt, Ticks, ToPayload};

/// How many frames there are; each has two datagrams.
const FRAMES: usize = 40;

/// A unit waits for the packets in front of it.
const PATIENT: WaitLimits = {
    let mut limits = WaitLimits::live();
    limits.hold_back = Some(1_000);
    limits.start = 0;
    limits.max_wait = None;
    limits
};

const AGAIN: RetransmissionStream = RetransmissionStream {
    ssrc: 0x8888,
    payload_type: 102,
    first_number: 65_535,
};

/// A sender, a forwarder that wants its stream, a viewer's receiver and a store.
fn link_of(again: Option<RetransmissionStream>) -> Result<StoreLink<NoBox, NoBox>, Fail> {
    let mut forwarder = Forwarder::new(ForwardSettings {
        codec: Codec::Vp8,
        ssrc: 0x7777,
        payload_type: 101,
        first_number: 65_530,
        first_time: 0,
        retransmissions: again,
    })?;
    forwarder.want(7);
    let settings = {
        let mut settings = receiver_settings(PATIENT)?;
        settings.payload_type = 101;
        settings.ssrc = Some(0x7777);
        settings.retransmission = again.map(|stream| Retransmission {
            ssrc: stream.ssrc,
            payload_type: stream.payload_type,
        });
        settings
    };
    let depacketizer = CodecDepacketizer::from_codec(Codec::Vp8).ok_or("no depacketizer")?;
    let store = HistorySettings {
        limit: 128,
        interval: 0,
        stream: None,
    };
    Ok(StoreLink {
        link: ForwardLink {
            sender: sender_of()?,
            forwarder,
            receiver: Receiver::new(depacketizer, settings).map_err(|_| "settings out of range")?,
        },
        store: History::new(store)?,
    })
}

/// The frame with that index. The first and the twentieth after it are keyframes: bit 0 of the first byte is clear (RFC 6386,
/// section 9.1).
fn frame_of(index: usize) -> [u8; 3] {
    [u8::from(index % 20 != 0), 0xa5, index as u8]
}

fn samples() -> Vec<ToPayload> {
    (0..FRAMES)
        .map(|index| sample_of(index as u64 * 3_000, &frame_of(index)))
        .collect()
}

/// The datagrams from this one on come to the forwarder, and each third does not come to the viewer. Those before it come to the store
/// alone. The viewer requests the numbers of what it lacks, and two numbers that were never sent.
fn steps_from(first: usize) -> Vec<StoreStep> {
    let now = Ticks(0);
    let mut steps: Vec<StoreStep> = (0..FRAMES)
        .map(|frame| StoreStep::Plain(ForwardStep::Send(frame)))
        .collect();
    steps.extend((0..first).map(|datagram| StoreStep::Keep { datagram }));
    for datagram in first..2 * FRAMES {
        let forward = ForwardStep::Forward {
            datagram,
            now: datagram as u64,
        };
        steps.push(StoreStep::Plain(forward));
        if datagram % 3 != 1 {
            let written = datagram - first;
            steps.push(StoreStep::Plain(ForwardStep::Deliver { written, now }));
        }
    }
    for number in [5_u16, 40_000] {
        steps.push(StoreStep::Request {
            number: number.wrapping_add(60_000),
        });
    }
    let lost = (first..2 * FRAMES).filter(|datagram| datagram % 3 == 1);
    for datagram in lost.rev() {
        let number = 65_530_u16.wrapping_add((datagram - first) as u16);
        steps.push(StoreStep::Request { number });
    }
    for again in 0..FRAMES {
        steps.push(StoreStep::DeliverAgain { again, now });
    }
    steps.extend((0..=FRAMES).map(|_| StoreStep::Plain(ForwardStep::Pop { now })));
    steps
}

/// The bytes of all popped units.
fn popped_in(run: &StoreRun) -> Result<Vec<u8>, Fail> {
    let mut popped = Vec::new();
    for answer in run.run.run.pops.iter().flatten() {
        let unit = answer.as_ref().map_err(|_| "a unit is refused")?;
        popped.extend_from_slice(&unit.bytes);
    }
    Ok(popped)
}

/// All frames are released, since each lost datagram was in the store.
fn all_are_released(again: Option<RetransmissionStream>) -> Result<StoreRun, Fail> {
    let mut link = link_of(again)?;
    let run = run_forwarded_with_store(&mut link, &samples(), &steps_from(0))?;
    let all: Vec<u8> = (0..FRAMES).flat_map(frame_of).collect();
    assert_eq!(popped_in(&run)?, all);
    Ok(run)
}

#[test]
fn lost_datagrams_come_again_as_they_were() -> Result<(), Fail> {
    let run = all_are_released(None)?;
    let found = run.found.iter().filter(|found| **found).count();
    assert_eq!((found, run.again.len()), (27, 27));
    // The last lost datagram was requested first.
    assert_eq!(run.again[0], run.run.written[79]);
    Ok(())
}

#[test]
fn lost_datagrams_come_again_as_retransmissions() -> Result<(), Fail> {
    let run = all_are_released(Some(AGAIN))?;
    assert_eq!(run.again.len(), 27);
    let sent = RtpPacket::parse(&run.run.written[79])?;
    let got = RtpPacket::parse(&run.again[0])?;
    assert_eq!((got.header.ssrc, got.header.payload_type), (0x8888, 102));
    assert_eq!(got.header.sequence_number, 65_535);
    // RFC 4588, section 4: the original number in front of the payload.
    assert_eq!(got.payload[..2], sent.header.sequence_number.to_be_bytes());
    assert_eq!(&got.payload[2..], sent.payload);
    Ok(())
}

/// The frames of the theorem `store_premises_can_be_met`.
const THREE_FRAMES: [(u64, &[u8]); 3] = [(960, &[1, 2]), (1_920, &[3, 4]), (2_880, &[5])];

/// The sender, the forwarder and the receiver of that theorem.
pub fn link_of_opus() -> Result<StoreLink<NoBox, NoBox>, Fail> {
    let clock_rate = Frequency::make(48_000).ok_or("a rate")?;
    let packetizer = CodecPacketizer::from_codec(Codec::Opus).ok_or("no packetizer")?;
    let sender = SenderSettings {
        payload_type: 111,
        clock_rate,
        mtu: 1_200,
        ..sender_settings()?
    };
    let mut forwarder = Forwarder::new(ForwardSettings {
        codec: Codec::Opus,
        ssrc: 9,
        payload_type: 109,
        first_number: 100,
        first_time: 5_000,
        retransmissions: Some(RetransmissionStream {
            ssrc: 8,
            payload_type: 112,
            first_number: 7,
        }),
    })?;
    forwarder.want(7);
    let limits = {
        let mut limits = WaitLimits::live();
        limits.hold_back = None;
        limits.start = 1;
        limits.max_wait = Some(100);
        limits
    };
    let receiver = {
        let mut settings = receiver_settings(limits)?;
        settings.payload_type = 109;
        settings.ssrc = Some(9);
        settings.retransmission = Some(Retransmission {
            ssrc: 8,
            payload_type: 112,
        });
        settings.clock_rate = clock_rate;
        settings
    };
    let depacketizer = CodecDepacketizer::from_codec(Codec::Opus).ok_or("no depacketizer")?;
    Ok(StoreLink {
        link: ForwardLink {
            sender: Sender::new(packetizer, sender).map_err(|_| "settings out of range")?,
            forwarder,
            receiver: Receiver::new(depacketizer, receiver).map_err(|_| "settings out of range")?,
        },
        store: History::new(HistorySettings {
            limit: 500,
            interval: 0,
            stream: None,
        })?,
    })
}

/// The steps of that theorem: the second datagram is lost on the second hop.
fn steps_of_theorem() -> Vec<StoreStep> {
    let mut steps = Vec::new();
    for (index, now) in [0, 960, 1_920].into_iter().enumerate() {
        steps.push(StoreStep::Plain(ForwardStep::Send(index)));
        steps.push(StoreStep::Plain(ForwardStep::Forward {
            datagram: index,
            now,
        }));
    }
    for (written, now) in [(0, Ticks(40)), (2, Ticks(80))] {
        steps.push(StoreStep::Plain(ForwardStep::Deliver { written, now }));
    }
    steps.push(StoreStep::Request { number: 101 });
    steps.push(StoreStep::DeliverAgain {
        again: 0,
        now: Ticks(120),
    });
    steps.push(StoreStep::Plain(ForwardStep::Finish));
    let pop = StoreStep::Plain(ForwardStep::Pop { now: Ticks(121) });
    steps.extend([pop; 3]);
    steps
}

/// The samples of that theorem.
pub fn opus_samples() -> Result<Vec<ToPayload>, Fail> {
    let rate = Frequency::make(48_000).ok_or("a rate")?;
    let samples = THREE_FRAMES.map(|(ticks, frame)| ToPayload {
        pt: Pt::new_with_value(111),
        rtp_time: MediaTime::new(ticks, rate),
        ..sample_of(0, frame)
    });
    Ok(samples.into())
}

/// The theorem takes these results of sends, of the forwarder and of the request as given, and that the second datagram is repeated.
pub fn compare_with_theorem(run: &StoreRun) -> Result<(), Fail> {
    let sends = &run.run.run.sends;
    assert!(
        sends
            .iter()
            .all(|sent| sent.count == 1 && sent.fault.is_none())
    );
    assert_eq!((sends.len(), run.run.run.datagrams.len()), (3, 3));
    let answers = [Forwarded::Began, Forwarded::Written, Forwarded::Written];
    assert_eq!(run.run.answers, answers);
    assert_eq!(run.found, [true]);
    let again = RtpPacket::parse(&run.again[0])?;
    assert_eq!((again.header.ssrc, again.header.sequence_number), (8, 7));
    assert_eq!(again.payload, [0, 101, 3, 4]);
    assert_eq!(popped_in(run)?, [1, 2, 3, 4, 5]);
    assert_eq!(run.run.run.pops.iter().flatten().count(), 3);
    Ok(())
}

/// Executes the run of that theorem.
pub fn run_of_theorem() -> Result<(), Fail> {
    let mut link = link_of_opus()?;
    compare_with_theorem(&run_forwarded_with_store(
        &mut link,
        &opus_samples()?,
        &steps_of_theorem(),
    )?)
}

/// A viewer joins at the second keyframe, when the store has the datagrams of 20 frames. It gets the frames from there on. The number
/// in front of its first one is that of no packet, though the store has the datagram in front of the keyframe's.
#[test]
fn a_viewer_joins_late() -> Result<(), Fail> {
    let mut link = link_of(Some(AGAIN))?;
    let mut steps = steps_from(40);
    steps.push(StoreStep::Request { number: 65_529 });
    let run = run_forwarded_with_store(&mut link, &samples(), &steps)?;
    let wanted: Vec<u8> = (20..FRAMES).flat_map(frame_of).collect();
    assert_eq!(popped_in(&run)?, wanted);
    assert_eq!(run.run.written.len(), 40);
    assert_eq!(run.found.last(), Some(&false));
    let found = run.found.iter().filter(|found| **found).count();
    assert_eq!((found, run.again.len()), (14, 14));
    Ok(())
}
