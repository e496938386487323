//! Runs in RED: a network that loses datagrams, whose packets come as blocks of later datagrams.

use crate::Fail;
use crate::sides::{receiver_settings, sender_settings};
use codec_payload::codec::{CodecDepacketizer, CodecPacketizer, NoBox};
use codec_payload::jitter::jitter_buffer::{Outcome, WaitLimits};
use codec_payload::red_writer::RedWriter;
use codec_payload::rtp::RtpPacket;
use codec_payload::schedule::datagrams::{DatagramStep, RedLink, RedRun, run_datagrams_in_red};
use codec_payload::sender::Sender;
use codec_payload::stream::RedSettings;
use codec_payload::stream::receiver::{Receiver, ReceiverSettings};
use codec_payload::wire::{Codec, ExtensionValues, Frequency, MediaTime, Pt, Ticks, ToPayload};

/// How many frames there are; each has one datagram, from number 65,535 on.
pub const FRAMES: usize = 300;

/// The ticks from frame to frame: 20 ms of 48 kHz.
const STEP: u32 = 960;

pub fn frame_of(index: usize) -> [u8; 3] {
    [index as u8, 0xa5, (index / 256) as u8]
}

pub fn samples() -> Vec<ToPayload> {
    (0..FRAMES)
        .map(|index| ToPayload {
            pt: Pt::new_with_value(96),
            wallclock: Ticks(0),
            rtp_time: MediaTime::new(index as u64 * u64::from(STEP), Frequency::FORTY_EIGHT_KHZ),
            bytes: frame_of(index).to_vec(),
            start_of_talk_spurt: false,
            ext_vals: ExtensionValues::default(),
        })
        .collect()
}

/// A sender of Opus, a writer that repeats the payloads at these distances, and a receiver with these settings.
pub fn link_with(
    distances: &[u32],
    limit: usize,
    limits: WaitLimits,
    change: impl Fn(&mut ReceiverSettings),
) -> Result<RedLink<NoBox, NoBox>, Fail> {
    let mut of_sender = sender_settings()?;
    of_sender.clock_rate = Frequency::FORTY_EIGHT_KHZ;
    of_sender.mtu = 1_199;
    let mut settings = receiver_settings(limits)?;
    settings.clock_rate = Frequency::FORTY_EIGHT_KHZ;
    settings.limit = limit;
    settings.red = Some(RedSettings {
        payload_type: 63,
        step: STEP,
        retransmission: None,
    });
    change(&mut settings);
    let pack = CodecPacketizer::from_codec(Codec::Opus).ok_or("no packetizer")?;
    let depack = CodecDepacketizer::from_codec(Codec::Opus).ok_or("no depacketizer")?;
    Ok(RedLink {
        sender: Sender::new(pack, of_sender).map_err(|_| "settings out of range")?,
        writer: RedWriter::new(63, 96, distances, 1_200).map_err(|_| "settings out of range")?,
        receiver: Receiver::new(depack, settings).map_err(|_| "settings out of range")?,
    })
}

/// The same with a receiver whose frames wait for missing packets until the end.
fn link_of(distances: &[u32], limit: usize) -> Result<RedLink<NoBox, NoBox>, Fail> {
    let limits = {
        let mut limits = WaitLimits::live();
        limits.hold_back = None;
        limits.start = 0;
        limits.max_wait = None;
        limits
    };
    link_with(distances, limit, limits, |_| {})
}

fn deliver(datagram: usize) -> DatagramStep {
    DatagramStep::Deliver {
        datagram,
        now: Ticks(datagram as u64),
    }
}

/// Sends all frames, delivers those written datagrams that are not lost, ends the stream, and pops.
fn run_with_losses(distances: &[u32], is_lost: impl Fn(usize) -> bool) -> Result<RedRun, Fail> {
    let mut steps = Vec::new();
    for datagram in 0..FRAMES {
        steps.push(DatagramStep::Send(datagram));
        if !is_lost(datagram) {
            steps.push(deliver(datagram));
        }
    }
    steps.push(DatagramStep::Finish);
    steps.extend((0..FRAMES).map(|_| DatagramStep::Pop { now: Ticks(0) }));
    let mut link = link_of(distances, 4_096)?;
    Ok(run_datagrams_in_red(&mut link, &samples(), &steps)?)
}

/// The bytes and the sequence numbers of all popped units, which have one packet each.
fn popped_in(run: &RedRun) -> Result<Vec<(Vec<u8>, u16)>, Fail> {
    let mut popped = Vec::new();
    for answer in run.run.pops.iter().flatten() {
        let unit = answer.as_ref().map_err(|_| "a unit is refused")?;
        assert_eq!(unit.meta().len(), 1);
        popped.push((unit.bytes.clone(), unit.meta()[0].header.sequence_number));
    }
    Ok(popped)
}

fn wanted_of(frames: impl Iterator<Item = usize>) -> Vec<(Vec<u8>, u16)> {
    frames
        .map(|index| (frame_of(index).to_vec(), (65_535 + index) as u16))
        .collect()
}

#[test]
fn losses_within_the_distances_are_recovered() -> Result<(), Fail> {
    // Two of three datagrams are lost: each packet is in one that arrives.
    let run = run_with_losses(&[1, 2], |datagram| datagram % 3 != 2)?;
    assert_eq!(run.run.datagrams.len(), FRAMES);
    assert_eq!(run.written.len(), FRAMES);
    assert_eq!(run.run.receipts.len(), FRAMES / 3);
    assert_eq!(popped_in(&run)?, wanted_of(0..FRAMES));
    // The same with gaps of one, and the last payload repeated alone.
    let run = run_with_losses(&[1], |datagram| datagram % 2 == 0)?;
    assert_eq!(popped_in(&run)?, wanted_of(0..FRAMES));
    Ok(())
}

#[test]
fn a_gap_beyond_the_distances_stays() -> Result<(), Fail> {
    let run = run_with_losses(&[1, 2], |datagram| (100..105).contains(&datagram))?;
    assert_eq!(
        popped_in(&run)?,
        wanted_of((0..100).chain(103..FRAMES)),
        "two of five lost packets are in the next datagram"
    );
    let run = run_with_losses(&[2], |datagram| (100..102).contains(&datagram))?;
    assert_eq!(popped_in(&run)?, wanted_of(0..FRAMES));
    let run = run_with_losses(&[], |datagram| datagram == 100)?;
    assert_eq!(popped_in(&run)?, wanted_of((0..100).chain(101..FRAMES)));
    Ok(())
}

#[test]
fn a_datagram_after_its_block_is_a_duplicate() -> Result<(), Fail> {
    let mut link = link_of(&[1], 16)?;
    let steps = [
        DatagramStep::Send(0),
        DatagramStep::Send(1),
        deliver(1),
        deliver(0),
        deliver(1),
        deliver(2),
        DatagramStep::Finish,
        DatagramStep::Pop { now: Ticks(9) },
        deliver(0),
        DatagramStep::Pop { now: Ticks(9) },
        DatagramStep::Pop { now: Ticks(9) },
    ];
    let run = run_datagrams_in_red(&mut link, &samples(), &steps)?;
    let receipts: Vec<Outcome> = run.run.receipts.iter().cloned().flatten().collect();
    let wanted = [
        Outcome::Held,
        Outcome::Duplicate,
        Outcome::Duplicate,
        Outcome::Late,
    ];
    assert_eq!(receipts, wanted);
    assert_eq!(popped_in(&run)?, wanted_of(0..2));
    // The first unit came as a block of the second datagram, at its time.
    let unit = run.run.pops[0].as_ref().ok_or("no unit")?;
    let unit = unit.as_ref().map_err(|_| "a unit is refused")?;
    assert_eq!(unit.meta()[0].received, Ticks(1));
    assert!(!unit.meta()[0].header.marker);
    assert!(run.run.pops[2].is_none());
    Ok(())
}

#[test]
fn each_written_datagram_has_the_header_of_its_datagram() -> Result<(), Fail> {
    let run = run_with_losses(&[1, 2], |_| true)?;
    assert!(run.run.receipts.is_empty());
    assert!(popped_in(&run)?.is_empty());
    for (index, (plain, written)) in run.run.datagrams.iter().zip(&run.written).enumerate() {
        let plain = RtpPacket::parse(plain).map_err(|_| "no packet")?;
        let written = RtpPacket::parse(written).map_err(|_| "no packet")?;
        assert_eq!(plain.header.payload_type, 96);
        assert_eq!(written.header.payload_type, 63);
        assert_eq!(written.header.sequence_number, plain.header.sequence_number);
        assert_eq!(written.header.timestamp, plain.header.timestamp);
        assert!(written.payload.ends_with(plain.payload));
        let blocks = index.min(2);
        assert_eq!(written.payload.len(), 1 + 3 + blocks * (4 + 3));
    }
    Ok(())
}

#[test]
fn evicted_packets_stay_lost() -> Result<(), Fail> {
    // Four places: of 300 held packets the last four are left, and datagrams that come again are late.
    let mut steps: Vec<DatagramStep> = (0..FRAMES).map(DatagramStep::Send).collect();
    steps.extend((1..FRAMES).step_by(2).map(deliver));
    steps.extend((0..FRAMES - 4).map(deliver));
    steps.push(DatagramStep::Finish);
    steps.extend((0..FRAMES).map(|_| DatagramStep::Pop { now: Ticks(0) }));
    let mut link = link_of(&[1], 4)?;
    let run = run_datagrams_in_red(&mut link, &samples(), &steps)?;
    assert_eq!(popped_in(&run)?, wanted_of(FRAMES - 4..FRAMES));
    assert!(
        run.run.receipts[FRAMES / 2..]
            .iter()
            .all(|receipt| *receipt == Ok(Outcome::Late))
    );
    Ok(())
}
