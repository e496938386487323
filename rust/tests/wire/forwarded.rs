//! A forwarder between a sender and a viewer. On both hops the network loses one datagram in ten, delivers one in ten twice, and
//! reorders. From the keyframe on with which the forwarder begins, all frames whose datagrams came over both hops are released, in
//! order, once each and whole.

use crate::Fail;
use crate::sides::{receiver_settings, sample_of, sender_of};
use codec_payload::codec::{CodecDepacketizer, NoBox};
use codec_payload::forward::{ForwardSettings, Forwarded, Forwarder};
use codec_payload::history::RetransmissionStream;
use codec_payload::jitter::jitter_buffer::WaitLimits;
use codec_payload::rtp::RtpPacket;
use codec_payload::schedule::forwarded::{ForwardLink, ForwardStep, ForwardedRun, run_forwarded};
use codec_payload::sender::Sender;
use codec_payload::stream::receiver::{Receiver, Retransmission};
use codec_payload::wire::{Codec, Ticks, ToPayload};

/// How many blocks of eight frames there are; each frame has two datagrams.
pub const BLOCKS: usize = 25;

/// Nothing that is complete waits.
const AT_ONCE: WaitLimits = {
    let mut limits = WaitLimits::live();
    limits.hold_back = Some(1_000);
    limits.start = 0;
    limits.max_wait = Some(0);
    limits
};

/// A sender of VP8 without picture ids, a forwarder that wants its stream, and a viewer's receiver.
fn link_of(codec: Codec) -> Result<ForwardLink<NoBox, NoBox>, Fail> {
    link_with(codec, sender_of()?)
}

/// The same with this sender.
pub fn link_with(codec: Codec, sender: Sender<NoBox>) -> Result<ForwardLink<NoBox, NoBox>, Fail> {
    link_again(codec, sender, None)
}

/// The same with this stream of retransmissions to the viewer.
pub fn link_again(
    codec: Codec,
    sender: Sender<NoBox>,
    again: Option<RetransmissionStream>,
) -> Result<ForwardLink<NoBox, NoBox>, Fail> {
    let mut forwarder = Forwarder::new(ForwardSettings {
        codec,
        ssrc: 0x7777,
        payload_type: 101,
        first_number: 65_000,
        first_time: u32::MAX - 5_000,
        retransmissions: again,
    })?;
    forwarder.want(7);
    let settings = {
        let mut settings = receiver_settings(AT_ONCE)?;
        settings.payload_type = 101;
        settings.ssrc = Some(0x7777);
        settings.retransmission = again.map(|stream| Retransmission {
            ssrc: stream.ssrc,
            payload_type: stream.payload_type,
        });
        settings
    };
    let depacketizer = CodecDepacketizer::from_codec(codec).ok_or("no depacketizer")?;
    Ok(ForwardLink {
        sender,
        forwarder,
        receiver: Receiver::new(depacketizer, settings).map_err(|_| "settings out of range")?,
    })
}

/// The frame with that index. Each eighth is a keyframe: bit 0 of its first byte is clear (RFC 6386, section 9.1).
pub fn frame_of(index: usize) -> [u8; 3] {
    [u8::from(index % 8 != 0), 0xa5, index as u8]
}

/// All frames, at 30 frames per second.
pub fn samples() -> Vec<ToPayload> {
    let frames = 0..BLOCKS * 8;
    frames
        .map(|index| sample_of(index as u64 * 3_000, &frame_of(index)))
        .collect()
}

/// The next of a sequence of numbers that look random (the generator of Numerical Recipes).
pub fn following(seed: &mut u32) -> u32 {
    *seed = seed.wrapping_mul(1_664_525).wrapping_add(1_013_904_223);
    *seed >> 16
}

/// How often a network with these losses delivers a datagram: once, twice, or never.
pub fn copies(seed: &mut u32, loses: bool) -> usize {
    match following(seed) % 10 {
        0 if loses => 0,
        1 => 2,
        _ => 1,
    }
}

/// The steps, and what the losses leave of each frame.
pub struct Schedule {
    pub steps: Vec<ForwardStep>,
    /// Which datagram each written one is.
    pub written: Vec<usize>,
    /// The datagram with which the forwarder begins.
    begun: Option<usize>,
    /// Whether each datagram came to the viewer.
    pub came: Vec<bool>,
}

impl Schedule {
    /// The datagram comes to the forwarder.
    fn forward(&mut self, datagram: usize) {
        let now = datagram as u64 * 1_500;
        self.steps.push(ForwardStep::Forward { datagram, now });
        if self.begun.is_none() && datagram % 16 == 0 {
            self.begun = Some(datagram);
        }
        if self.begun.is_some_and(|first| first <= datagram) {
            self.written.push(datagram);
        }
    }

    /// A block of eight frames is sent, comes to the forwarder and then to the viewer, in two other orders, and is popped.
    fn block(&mut self, block: usize, seed: &mut u32, loses: bool) {
        let before = self.written.len();
        for frame in 8 * block..8 * block + 8 {
            self.steps.push(ForwardStep::Send(frame));
        }
        for place in 0..16 {
            for _ in 0..copies(seed, loses) {
                self.forward(16 * block + place * 7 % 16);
            }
        }
        for written in (before..self.written.len()).rev() {
            for _ in 0..copies(seed, loses) {
                self.came[self.written[written]] = true;
                let now = Ticks(0);
                self.steps.push(ForwardStep::Deliver { written, now });
            }
        }
        for _ in 0..9 {
            self.steps.push(ForwardStep::Pop { now: Ticks(0) });
        }
    }

    /// The bytes of all frames whose datagrams both came.
    fn wanted(&self) -> Vec<u8> {
        let frames = self.came.chunks(2).enumerate();
        let whole = frames.filter(|(_, came)| came[0] && came[1]);
        whole.flat_map(|(index, _)| frame_of(index)).collect()
    }
}

/// The schedule of a network with these losses.
pub fn schedule_of(mut seed: u32, loses: bool) -> Schedule {
    let mut schedule = Schedule {
        steps: Vec::new(),
        written: Vec::new(),
        begun: None,
        came: vec![false; BLOCKS * 16],
    };
    for block in 0..BLOCKS {
        schedule.block(block, &mut seed, loses);
    }
    schedule
}

/// The bytes of all popped units.
pub fn popped_in(run: &ForwardedRun) -> Result<Vec<u8>, Fail> {
    let mut popped = Vec::new();
    for answer in run.run.pops.iter().flatten() {
        let unit = answer.as_ref().map_err(|_| "a unit is refused")?;
        popped.extend_from_slice(&unit.bytes);
    }
    Ok(popped)
}

#[test]
fn what_comes_over_both_hops_comes_out() -> Result<(), Fail> {
    for seed in 0..20 {
        let schedule = schedule_of(seed, true);
        let mut link = link_of(Codec::Vp8)?;
        let run = run_forwarded(&mut link, &samples(), &schedule.steps)?;
        assert_eq!(run.written.len(), schedule.written.len());
        assert_eq!(popped_in(&run)?, schedule.wanted(), "seed {seed}");
        assert!(schedule.wanted().len() < 600);
    }
    Ok(())
}

#[test]
fn all_frames_come_out_where_none_is_lost() -> Result<(), Fail> {
    let schedule = schedule_of(1, false);
    let mut link = link_of(Codec::Vp8)?;
    let run = run_forwarded(&mut link, &samples(), &schedule.steps)?;
    let all: Vec<u8> = (0..BLOCKS * 8).flat_map(frame_of).collect();
    assert_eq!(popped_in(&run)?, all);
    Ok(())
}

#[test]
fn each_written_datagram_is_a_sent_one() -> Result<(), Fail> {
    let schedule = schedule_of(3, true);
    let mut link = link_of(Codec::Vp8)?;
    let run = run_forwarded(&mut link, &samples(), &schedule.steps)?;
    assert_eq!(run.answers.first(), Some(&Forwarded::Began));
    let first = RtpPacket::parse(&run.run.datagrams[schedule.written[0]])?.header;
    for (bytes, datagram) in run.written.iter().zip(&schedule.written) {
        let sent = RtpPacket::parse(&run.run.datagrams[*datagram])?;
        let got = RtpPacket::parse(bytes)?;
        assert_eq!(got.payload, sent.payload);
        assert_eq!(got.header.marker, sent.header.marker);
        assert_eq!((got.header.ssrc, got.header.payload_type), (0x7777, 101));
        // The first written packet has the first number and the first time of the settings.
        let numbers = sent
            .header
            .sequence_number
            .wrapping_sub(first.sequence_number);
        assert_eq!(got.header.sequence_number, 65_000_u16.wrapping_add(numbers));
        let times = sent.header.timestamp.wrapping_sub(first.timestamp);
        assert_eq!(got.header.timestamp, (u32::MAX - 5_000).wrapping_add(times));
    }
    Ok(())
}

#[test]
fn nothing_is_forwarded_that_is_not_wanted() -> Result<(), Fail> {
    let mut link = link_of(Codec::Vp8)?;
    link.forwarder.want(8);
    let run = run_forwarded(&mut link, &samples(), &schedule_of(1, true).steps)?;
    assert!(run.written.is_empty() && run.run.receipts.is_empty());
    assert!(
        run.answers
            .iter()
            .all(|answer| *answer == Forwarded::OtherSource)
    );
    assert!(run.run.pops.iter().all(Option::is_none));
    Ok(())
}
