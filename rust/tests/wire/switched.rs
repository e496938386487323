//! A forwarder that goes over from one source of VP8 to another. On both hops the network loses, repeats and reorders datagrams. All
//! frames of the first source up to the switch, and of the second from its keyframe on, whose datagrams came over both hops are
//! released, in order, once each and whole. A frame inside which the switch comes is not released.

use crate::Fail;
use crate::forwarded::{copies, following, link_with};
use crate::sides::{sample_of, sender_settings};
use crate::with_ids::FIRST_IDS;
use codec_payload::codec::{CodecPacketizer, NoBox};
use codec_payload::rtp::RtpPacket;
use codec_payload::schedule::forwarded::{
    ForwardStep, Source, SwitchLink, SwitchStep, SwitchedRun, run_forwarded_switching,
};
use codec_payload::sender::{Sender, SenderSettings};
use codec_payload::vp8::Vp8Packetizer;
use codec_payload::wire::{Codec, Ticks, ToPayload};

/// How many blocks of eight frames each source sends. Each eighth frame is a keyframe.
pub const BLOCKS: usize = 12;

/// How many frames each source sends.
pub const FRAMES: usize = BLOCKS * 8;

/// First picture ids of the sources.
pub const IDS: [[Option<u16>; 2]; 5] = [
    [None, None],
    [Some(FIRST_IDS[1]), Some(FIRST_IDS[2])],
    [Some(FIRST_IDS[3]), Some(FIRST_IDS[0])],
    [None, Some(FIRST_IDS[1])],
    [Some(FIRST_IDS[1]), None],
];

/// The SSRC of a source.
pub fn ssrc_of(source: Source) -> u32 {
    match source {
        Source::First => 7,
        Source::Second => 9,
    }
}

/// The index of a frame among the samples: those of the first source come first.
pub fn sample_in(source: Source, frame: usize) -> usize {
    match source {
        Source::First => frame,
        Source::Second => FRAMES + frame,
    }
}

/// The bytes of a sample.
pub fn bytes_of(sample: usize) -> [u8; 5] {
    let [high, low] = (sample as u16).to_be_bytes();
    [u8::from(sample % 8 != 0), 0xa5, high, low, 0x5a]
}

pub fn samples() -> Vec<ToPayload> {
    let all = 0..2 * FRAMES;
    all.map(|sample| sample_of((sample % FRAMES) as u64 * 3_000, &bytes_of(sample)))
        .collect()
}

/// A sender of this source, whose frames have two datagrams, with or without picture ids.
fn sender_of(source: Source, id: Option<u16>) -> Result<Sender<NoBox>, Fail> {
    let settings = SenderSettings {
        ssrc: ssrc_of(source),
        first_number: if source == Source::First {
            65_500
        } else {
            1_000
        },
        mtu: if id.is_some() { 7 } else { 4 },
        ..sender_settings()?
    };
    let pack = match id {
        Some(id) => CodecPacketizer::Vp8(Vp8Packetizer::with_picture_id(id)),
        None => CodecPacketizer::from_codec(Codec::Vp8).ok_or("no packetizer")?,
    };
    Ok(Sender::new(pack, settings).map_err(|_| "settings out of range")?)
}

/// Two sources with these first picture ids, a forwarder that wants the first, and a viewer.
pub fn link_of(ids: [Option<u16>; 2]) -> Result<SwitchLink<NoBox, NoBox>, Fail> {
    Ok(SwitchLink {
        link: link_with(Codec::Vp8, sender_of(Source::First, ids[0])?)?,
        second: sender_of(Source::Second, ids[1])?,
    })
}

/// Two sources of Opus, whose frames have one datagram each.
pub fn opus_link() -> Result<SwitchLink<NoBox, NoBox>, Fail> {
    let sender = |ssrc| -> Result<Sender<NoBox>, Fail> {
        let settings = SenderSettings {
            ssrc,
            mtu: 7,
            ..sender_settings()?
        };
        let pack = CodecPacketizer::from_codec(Codec::Opus).ok_or("no packetizer")?;
        Ok(Sender::new(pack, settings).map_err(|_| "settings out of range")?)
    };
    Ok(SwitchLink {
        link: link_with(Codec::Opus, sender(ssrc_of(Source::First))?)?,
        second: sender(ssrc_of(Source::Second))?,
    })
}

/// A datagram of a source.
type Sent = (Source, usize);

/// The steps, and what a plain model of the forwarder says.
struct Schedule {
    steps: Vec<SwitchStep>,
    /// How many datagrams a frame has.
    per_frame: usize,
    /// The forwarder begins with a datagram whose index is a multiple of this.
    begins_each: usize,
    /// Which datagram each written one is.
    written: Vec<Sent>,
    /// Which datagrams came to the viewer.
    came: Vec<Sent>,
    /// The datagram with which the present source began.
    begun: Option<Sent>,
    /// How many datagrams of the first source come before the switch, and the datagram of the second with which it begins.
    switch: Option<(usize, usize)>,
    is_second_wanted: bool,
}

impl Schedule {
    fn of(&mut self, source: Source, step: ForwardStep) {
        self.steps.push(SwitchStep::Of(source, step));
    }

    fn want_second(&mut self) {
        self.is_second_wanted = true;
        self.steps.push(SwitchStep::Want {
            ssrc: ssrc_of(Source::Second),
        });
    }

    /// The datagram comes to the forwarder.
    fn forward(&mut self, source: Source, datagram: usize) {
        let now = datagram as u64 * 1_500;
        self.of(source, ForwardStep::Forward { datagram, now });
        let wanted = if self.is_second_wanted {
            Source::Second
        } else {
            Source::First
        };
        let goes_on = self.begun.filter(|(present, _)| *present == source);
        if let Some((_, first)) = goes_on {
            if first <= datagram {
                self.written.push((source, datagram));
            }
        } else if wanted == source && datagram % self.begins_each == 0 {
            if source == Source::Second {
                let highest = self.written.iter().map(|(_, datagram)| datagram + 1).max();
                self.switch = Some((highest.unwrap_or(0), datagram));
            }
            self.begun = Some((source, datagram));
            self.written.push((source, datagram));
        }
    }

    /// Each source sends a block of eight frames. Their datagrams come to the forwarder, and then to the viewer, in two other orders.
    /// The forwarder wants the second source within block `switch_in`.
    fn block(&mut self, block: usize, switch_in: usize, seed: &mut u32) {
        let before = self.written.len();
        for frame in 8 * block..8 * block + 8 {
            for source in [Source::First, Source::Second] {
                self.of(source, ForwardStep::Send(sample_in(source, frame)));
            }
        }
        let wants_at = following(seed) as usize % (8 * self.per_frame);
        let count = 8 * self.per_frame;
        for place in 0..count {
            if block == switch_in && place == wants_at {
                self.want_second();
            }
            for source in [Source::First, Source::Second] {
                let datagram = count * block + place * 7 % count;
                for _ in 0..copies(seed, true) {
                    self.forward(source, datagram);
                }
            }
        }
        for written in (before..self.written.len()).rev() {
            for _ in 0..copies(seed, true) {
                self.came.push(self.written[written]);
                let now = Ticks(0);
                self.of(Source::First, ForwardStep::Deliver { written, now });
            }
        }
        for _ in 0..20 {
            self.of(Source::First, ForwardStep::Pop { now: Ticks(0) });
        }
    }

    /// Whether all datagrams of a frame came.
    fn is_whole(&self, source: Source, frame: usize) -> bool {
        let mut datagrams = frame * self.per_frame..(frame + 1) * self.per_frame;
        datagrams.all(|datagram| self.came.contains(&(source, datagram)))
    }

    /// The bytes of the frames of a source from one on, up to another, whose datagrams all came.
    fn whole_in(&self, source: Source, frames: std::ops::Range<usize>) -> Vec<u8> {
        frames
            .filter(|frame| self.is_whole(source, *frame))
            .flat_map(|frame| bytes_of(sample_in(source, frame)))
            .collect()
    }

    /// The bytes that are released. A frame that the switch cuts off is not.
    fn wanted(&self) -> Vec<u8> {
        let Some((cut, start)) = self.switch else {
            return self.whole_in(Source::First, 0..FRAMES);
        };
        let mut bytes = self.whole_in(Source::First, 0..cut / self.per_frame);
        bytes.extend(self.whole_in(Source::Second, start / self.per_frame..FRAMES));
        bytes
    }
}

fn schedule_of(mut seed: u32, per_frame: usize, begins_each: usize) -> Schedule {
    following(&mut seed);
    let mut schedule = Schedule {
        steps: Vec::new(),
        per_frame,
        begins_each,
        written: Vec::new(),
        came: Vec::new(),
        begun: None,
        switch: None,
        is_second_wanted: false,
    };
    let switch_in = 2 + following(&mut seed) as usize % 4;
    for block in 0..BLOCKS {
        schedule.block(block, switch_in, &mut seed);
    }
    schedule
}

pub fn popped_in(run: &SwitchedRun) -> Result<Vec<u8>, Fail> {
    crate::forwarded::popped_in(&run.run)
}

#[test]
fn frames_of_both_sources_come_out() -> Result<(), Fail> {
    let mut inside = 0;
    for seed in 0..60 {
        let schedule = schedule_of(seed, 2, 16);
        for ids in IDS {
            let mut link = link_of(ids)?;
            let run = run_forwarded_switching(&mut link, &samples(), &schedule.steps)?;
            assert_eq!(run.run.written.len(), schedule.written.len(), "seed {seed}");
            assert_eq!(
                popped_in(&run)?,
                schedule.wanted(),
                "seed {seed}, ids {ids:?}"
            );
        }
        inside += usize::from(schedule.switch.is_some_and(|(cut, _)| cut % 2 == 1));
    }
    assert!(0 < inside && inside < 60, "{inside} of 60 inside a frame");
    Ok(())
}

#[test]
fn frames_of_opus_come_out() -> Result<(), Fail> {
    for seed in 0..60 {
        let schedule = schedule_of(seed, 1, 1);
        let mut link = opus_link()?;
        let run = run_forwarded_switching(&mut link, &samples(), &schedule.steps)?;
        assert!(schedule.switch.is_some());
        assert_eq!(run.run.written.len(), schedule.written.len(), "seed {seed}");
        assert_eq!(popped_in(&run)?, schedule.wanted(), "seed {seed}");
    }
    Ok(())
}

/// The datagrams of a source.
fn datagrams_of(run: &SwitchedRun, source: Source) -> &[Vec<u8>] {
    match source {
        Source::First => &run.run.run.datagrams,
        Source::Second => &run.second.datagrams,
    }
}

#[test]
fn numbers_go_on_by_one_at_the_switch() -> Result<(), Fail> {
    for seed in 0..20 {
        let schedule = schedule_of(seed, 2, 16);
        let mut link = link_of([None, None])?;
        let run = run_forwarded_switching(&mut link, &samples(), &schedule.steps)?;
        let (cut, start) = schedule.switch.ok_or("no switch")?;
        let first = schedule.written[0].1;
        let mut latest = u32::MAX - 5_000;
        for (bytes, (source, datagram)) in run.run.written.iter().zip(&schedule.written) {
            let sent = RtpPacket::parse(&datagrams_of(&run, *source)[*datagram])?;
            let got = RtpPacket::parse(bytes)?;
            assert_eq!(got.payload, sent.payload);
            assert_eq!(got.header.marker, sent.header.marker);
            assert_eq!((got.header.ssrc, got.header.payload_type), (0x7777, 101));
            let place = match source {
                Source::First => datagram - first,
                Source::Second => cut - first + datagram - start,
            };
            let number = 65_000_u16.wrapping_add(place as u16);
            assert_eq!(got.header.sequence_number, number);
            let ahead = got.header.timestamp.wrapping_sub(latest);
            if *source == Source::Second && *datagram == start {
                assert!(ahead < 1 << 31, "the time goes back");
            }
            if ahead < 1 << 31 {
                latest = got.header.timestamp;
            }
        }
    }
    Ok(())
}

#[test]
fn all_frames_come_out_where_none_is_lost() -> Result<(), Fail> {
    let mut steps = Vec::new();
    for frame in 0..16 {
        if frame == 8 {
            let ssrc = ssrc_of(Source::Second);
            steps.push(SwitchStep::Want { ssrc });
        }
        for source in [Source::First, Source::Second] {
            let send = ForwardStep::Send(sample_in(source, frame));
            steps.push(SwitchStep::Of(source, send));
            for datagram in [2 * frame, 2 * frame + 1] {
                let now = frame as u64 * 3_000;
                let forward = ForwardStep::Forward { datagram, now };
                steps.push(SwitchStep::Of(source, forward));
            }
        }
    }
    // The first datagram of the first source's frame 8 is written before the keyframe of the second comes.
    for written in 0..34 {
        let now = Ticks(0);
        let deliver = ForwardStep::Deliver { written, now };
        steps.push(SwitchStep::Of(Source::Second, deliver));
    }
    for _ in 0..20 {
        steps.push(SwitchStep::Of(
            Source::First,
            ForwardStep::Pop { now: Ticks(0) },
        ));
    }
    let mut link = link_of([None, None])?;
    let run = run_forwarded_switching(&mut link, &samples(), &steps)?;
    let first = (0..9).map(|frame| sample_in(Source::First, frame));
    let second = (8..16).map(|frame| sample_in(Source::Second, frame));
    let all: Vec<u8> = first.chain(second).flat_map(bytes_of).collect();
    assert_eq!(popped_in(&run)?, all);
    Ok(())
}
