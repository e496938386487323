//! A media server with a store between a sender and a viewer: its session gets the datagrams, beside those of other senders, RTCP and
//! malformed ones. What the session takes comes to the store, and to the forwarder once the viewer has joined. On both hops datagrams are
//! lost, repeated and reordered; the viewer requests what it lacks, and numbers that were never sent. What comes is compared with a plain
//! model.

use crate::Fail;
use crate::forwarded::{BLOCKS, copies, following, link_again, popped_in, samples};
use crate::forwarded_again::{compare_with_theorem, link_of_opus, opus_samples};
use crate::served::{LEAVES, Plan, STREAM, format_of, session, taken_by};
use crate::sides::sender_of;
use codec_payload::codec::NoBox;
use codec_payload::history::{History, HistorySettings, OriginalStream, RetransmissionStream};
use codec_payload::jitter::jitter_buffer::Outcome;
use codec_payload::rtp::RtpPacket;
use codec_payload::schedule::forwarded::StoreLink;
use codec_payload::schedule::served::{
    Moment, ServeStep, ServeStoreLink, ServeStoreStep, ServedStoreRun, run_served_with_store,
};
use codec_payload::session::runs::{SessionStep, StepAnswer};
use codec_payload::session::{Arrival, Session, SessionSettings, SsrcPair};
use codec_payload::wire::{Codec, Ticks};

const AGAIN: RetransmissionStream = RetransmissionStream {
    ssrc: 0x8888,
    payload_type: 102,
    first_number: 65_535,
};

fn link_of(again: Option<RetransmissionStream>) -> Result<ServeStoreLink<NoBox, NoBox>, Fail> {
    let store = HistorySettings {
        limit: 500,
        interval: 0,
        stream: None,
    };
    Ok(ServeStoreLink {
        link: StoreLink {
            link: link_again(Codec::Vp8, sender_of()?, again)?,
            store: History::new(store)?,
        },
        session: session()?,
        stream: STREAM,
    })
}

/// The steps, and a plain model of the media server with a store.
struct StorePlan {
    plan: Plan,
    steps: Vec<ServeStoreStep>,
    /// The block before which the viewer joins.
    joins: usize,
    /// Whether the store has each datagram.
    kept: Vec<bool>,
    /// Whether the store has the packet that each request is for.
    found: Vec<bool>,
    /// Which datagram each packet is that was written again.
    again: Vec<usize>,
}

impl StorePlan {
    /// The steps of the media server so far become steps of the run with a store.
    fn serve(&mut self, joined: bool) {
        let kind = if joined {
            ServeStoreStep::Plain
        } else {
            ServeStoreStep::Keep
        };
        self.steps.extend(self.plan.steps.drain(..).map(kind));
    }

    /// A datagram of the sender comes to the session.
    fn come(&mut self, block: usize, datagram: usize, seed: &mut u32) {
        let (place, before) = (block >= LEAVES, (self.plan.written.len(), self.plan.begun));
        self.plan.come(now_of(block), datagram, place, seed);
        self.kept[datagram] |= place;
        if block < self.joins {
            self.plan.written.truncate(before.0);
            self.plan.begun = before.1;
        }
    }

    /// The viewer requests the number of a datagram, which comes again so often, if the store has it.
    fn request(&mut self, datagram: usize, copies: usize) {
        let Some(begun) = self.plan.begun else {
            return;
        };
        let number = 65_000_u16.wrapping_add(datagram as u16);
        let number = number.wrapping_sub(begun as u16);
        self.steps.push(ServeStoreStep::Request { number });
        let found = begun <= datagram && self.kept[datagram];
        self.found.push(found);
        if !found {
            return;
        }
        for _ in 0..copies {
            self.plan.came[datagram] = true;
            self.steps.push(ServeStoreStep::DeliverAgain {
                again: self.again.len(),
                now: Ticks(0),
            });
        }
        self.again.push(datagram);
    }

    /// A block of eight frames is sent, comes to the media server and then to the viewer, in two other orders. The viewer requests each
    /// datagram of the block that it lacks, and any number, and pops.
    fn block(&mut self, block: usize, seed: &mut u32) {
        let before = self.plan.written.len();
        self.plan.beside(block, now_of(block));
        let frames = 8 * block..8 * block + 8;
        self.plan.steps.extend(frames.map(ServeStep::Send));
        for place in 0..16 {
            for _ in 0..copies(seed, true) {
                self.come(block, 16 * block + place * 7 % 16, seed);
            }
        }
        for written in (before..self.plan.written.len()).rev() {
            for _ in 0..copies(seed, true) {
                self.plan.came[self.plan.written[written]] = true;
                let now = Ticks(0);
                self.plan.steps.push(ServeStep::Deliver { written, now });
            }
        }
        self.serve(block >= self.joins);
        for datagram in 16 * block..16 * block + 16 {
            if !self.plan.came[datagram] {
                self.request(datagram, copies(seed, true));
            }
        }
        self.request(following(seed) as usize % (16 * block + 16), 0);
        let pops = (0..9).map(|_| ServeStep::Pop { now: Ticks(0) });
        self.plan.steps.extend(pops);
        self.serve(true);
    }
}

pub fn now_of(block: usize) -> u64 {
    100 + 10 * block as u64
}

fn plan_of(mut seed: u32, joins: usize) -> StorePlan {
    let mut plan = StorePlan {
        plan: Plan::empty(),
        steps: Vec::new(),
        joins,
        kept: vec![false; BLOCKS * 16],
        found: Vec::new(),
        again: Vec::new(),
    };
    for block in 0..BLOCKS {
        plan.block(block, &mut seed);
    }
    plan
}

/// The steps of the media server itself.
fn served(plan: &StorePlan) -> impl Iterator<Item = &ServeStep> {
    plan.steps.iter().filter_map(|step| match step {
        ServeStoreStep::Plain(step) | ServeStoreStep::Keep(step) => Some(step),
        ServeStoreStep::Request { .. } | ServeStoreStep::DeliverAgain { .. } => None,
    })
}

/// Runs the plan, and compares everything except what was written again.
fn run_of(again: Option<RetransmissionStream>, plan: &StorePlan) -> Result<ServedStoreRun, Fail> {
    let mut link = link_of(again)?;
    let run = run_served_with_store(&mut link, &samples(), &plan.steps)?;
    assert_eq!(taken_by(&run.answers, served(plan)), plan.plan.taken);
    assert_eq!(run.run.run.written.len(), plan.plan.written.len());
    assert_eq!(run.run.found, plan.found);
    assert_eq!(run.run.again.len(), plan.again.len());
    assert_eq!(popped_in(&run.run.run)?, plan.plan.wanted());
    assert_eq!(link.session.counts().rtcp, BLOCKS as u64);
    Ok(run)
}

/// The written datagram that is this one of the sender.
fn written_of<'a>(run: &'a ServedStoreRun, plan: &StorePlan, datagram: usize) -> Option<&'a [u8]> {
    let place = plan.plan.written.iter().position(|it| *it == datagram)?;
    run.run.run.written.get(place).map(Vec::as_slice)
}

#[test]
fn the_viewer_gets_what_the_store_has() -> Result<(), Fail> {
    let mut repeated = 0;
    for seed in 0..10 {
        let plan = plan_of(seed, 0);
        let run = run_of(None, &plan)?;
        for (bytes, datagram) in run.run.again.iter().zip(&plan.again) {
            let sent = written_of(&run, &plan, *datagram).ok_or("not written")?;
            assert_eq!(bytes, sent, "seed {seed}");
        }
        repeated += plan.again.len();
        assert!(plan.found.contains(&false));
    }
    assert!(repeated > 200);
    Ok(())
}

#[test]
fn the_viewer_gets_retransmissions() -> Result<(), Fail> {
    for seed in 10..20 {
        let plan = plan_of(seed, 0);
        let run = run_of(Some(AGAIN), &plan)?;
        for (place, (bytes, datagram)) in run.run.again.iter().zip(&plan.again).enumerate() {
            let sent = written_of(&run, &plan, *datagram).ok_or("not written")?;
            let (sent, got) = (RtpPacket::parse(sent)?, RtpPacket::parse(bytes)?);
            assert_eq!((got.header.ssrc, got.header.payload_type), (0x8888, 102));
            let number = 65_535_u16.wrapping_add(place as u16);
            assert_eq!(got.header.sequence_number, number);
            // RFC 4588, section 4: the original number in front of the payload.
            assert_eq!(got.payload[..2], sent.header.sequence_number.to_be_bytes());
            assert_eq!(&got.payload[2..], sent.payload);
        }
    }
    Ok(())
}

/// Before the viewer joins, what the session takes comes to the store alone. The viewer begins at a keyframe of a later block, and the
/// numbers in front of it are those of no packets, though the store has them.
#[test]
fn a_viewer_joins_late() -> Result<(), Fail> {
    for (seed, joins) in (20..30).zip([3, 8, 15, 24, 25].into_iter().cycle()) {
        let plan = plan_of(seed, joins);
        let begun = plan.plan.begun;
        assert!(begun.is_none_or(|begun| 16 * joins <= begun));
        let run = run_of(None, &plan)?;
        let early = plan.kept.iter().take(16 * joins).filter(|kept| **kept);
        assert!(early.count() > 10 && (joins < 25 || run.run.run.answers.is_empty()));
    }
    Ok(())
}

/// The sender, the forwarder, the receiver and the store of the theorem `serving_with_store_premises_can_be_met`, which are those of
/// `store_premises_can_be_met`.
fn link_of_theorem() -> Result<ServeStoreLink<NoBox, NoBox>, Fail> {
    Ok(ServeStoreLink {
        link: link_of_opus()?,
        session: session_of_opus()?,
        stream: OPUS,
    })
}

/// The sender's stream of Opus in the theorems that the premises can be met, and the stream of its retransmissions.
pub const OPUS: OriginalStream = OriginalStream {
    ssrc: 7,
    payload_type: 111,
};
pub const OPUS_AGAIN: RetransmissionStream = RetransmissionStream {
    ssrc: 8,
    payload_type: 112,
    first_number: 500,
};

/// A session for these streams.
pub fn session_of_opus() -> Result<Session, Fail> {
    session_of(Codec::Opus)
}

/// A session for these streams, if they are of this codec.
pub fn session_of(codec: Codec) -> Result<Session, Fail> {
    let mut settings = SessionSettings::live();
    settings.formats = vec![{
        let mut format = format_of(111, codec, 48_000)?;
        format.retransmission = Some(112);
        format
    }];
    settings.pairs = vec![SsrcPair {
        ssrc: 7,
        retransmission: 8,
    }];
    // The stream is in probation until the second datagram, so the poll before that has no event.
    settings.probation = 2;
    Ok(Session::new(settings)?)
}

/// A moment that is the same for the session and for the forwarder.
pub fn at(time: u64) -> Moment {
    Moment {
        now: Ticks(time),
        micros: None,
        time,
    }
}

/// Whether the session stored the datagram of each answer as one of that stream.
pub fn opus_held(answers: &[StepAnswer]) -> Vec<bool> {
    let taken = answers.iter().map(|answer| {
        matches!(
            answer,
            StepAnswer::Received(Ok(Arrival::Stream {
                ssrc: 7,
                payload_type: 111,
                outcome: Outcome::Held
            }))
        )
    });
    taken.collect()
}

/// The steps of that theorem: the second datagram is lost on the first hop and comes as a retransmission. It is lost on the second hop
/// too, and comes from the store.
fn steps_of_theorem() -> Vec<ServeStoreStep> {
    let arrive = |datagram, time| ServeStep::Arrive {
        datagram,
        at: at(time),
    };
    let deliver = |written, now| ServeStep::Deliver {
        written,
        now: Ticks(now),
    };
    let call = SessionStep::Poll { now: Ticks(40) };
    let repeat = ServeStep::Repeat {
        datagram: 1,
        again: OPUS_AGAIN,
        at: at(960),
    };
    let first = [ServeStep::Send(0), arrive(0, 0), ServeStep::Send(1)];
    let second = [ServeStep::Call(call), repeat, ServeStep::Send(2)];
    let third = [arrive(2, 1_920), deliver(0, 40), deliver(2, 80)];
    let hops = [first, second, third].into_iter().flatten();
    let mut steps: Vec<_> = hops.map(ServeStoreStep::Plain).collect();
    steps.push(ServeStoreStep::Request { number: 101 });
    steps.push(ServeStoreStep::DeliverAgain {
        again: 0,
        now: Ticks(120),
    });
    let pops = (0..3).map(|_| ServeStep::Pop { now: Ticks(121) });
    let last = std::iter::once(ServeStep::Finish).chain(pops);
    steps.extend(last.map(ServeStoreStep::Plain));
    steps
}

/// Executes the run of that theorem, which takes as given which datagrams the session stores, and the results of
/// `store_premises_can_be_met`.
pub fn run_of_theorem() -> Result<(), Fail> {
    let mut link = link_of_theorem()?;
    let run = run_served_with_store(&mut link, &opus_samples()?, &steps_of_theorem())?;
    assert_eq!(opus_held(&run.answers), [true, false, true, true]);
    assert!(matches!(run.answers[1], StepAnswer::Polled(None)));
    compare_with_theorem(&run.run)
}
