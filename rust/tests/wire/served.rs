//! A media server between a sender and a viewer: a session gets the datagrams, beside those of two other senders, RTCP and datagrams
//! that are malformed, and the forwarder gets those that the session took. Until another stream ends, the session has no place for the
//! sender, and refuses it. On both hops the network loses one datagram in ten, delivers one in ten twice, and reorders; some come as
//! retransmissions. What the viewer gets is compared with a plain model.

use crate::Fail;
use crate::forwarded::{BLOCKS, copies, following, frame_of, link_with, popped_in, samples};
use crate::sides::sender_of;
use codec_payload::codec::NoBox;
use codec_payload::history::{OriginalStream, RetransmissionStream};
use codec_payload::schedule::served::{Moment, ServeLink, ServeStep, ServedRun, run_served};
use codec_payload::session::runs::{SessionStep, StepAnswer};
use codec_payload::session::{Arrival, Event, Format, Session, SessionSettings, SsrcPair};
use codec_payload::wire::{Codec, CodecSpec, Frequency, Ticks};

/// The stream of the sender.
pub const STREAM: OriginalStream = OriginalStream {
    ssrc: 7,
    payload_type: 96,
};

/// The SSRCs of the other senders. The first one leaves at the start of this block.
const OTHERS: [u32; 2] = [60, 61];
pub const LEAVES: usize = 2;

pub fn format_of(payload_type: u8, codec: Codec, rate: u32) -> Result<Format, Fail> {
    let spec = CodecSpec {
        codec,
        clock_rate: Frequency::make(rate).ok_or("a rate")?,
        octet_align: false,
    };
    Ok(Format::new(payload_type, spec))
}

/// A session with two places, for the formats of all senders.
pub fn session() -> Result<Session, Fail> {
    let mut settings = SessionSettings::live();
    let video = format_of(STREAM.payload_type, Codec::Vp8, 90_000)?;
    settings.formats = vec![
        {
            let mut format = video;
            format.retransmission = Some(97);
            format
        },
        format_of(111, Codec::Opus, 48_000)?,
    ];
    settings.pairs = vec![SsrcPair {
        ssrc: STREAM.ssrc,
        retransmission: 70,
    }];
    settings.max_streams = 2;
    settings.probation = 1;
    Ok(Session::new(settings)?)
}

fn link_for(stream: OriginalStream) -> Result<ServeLink<NoBox, NoBox>, Fail> {
    Ok(ServeLink {
        link: link_with(Codec::Vp8, sender_of()?)?,
        session: session()?,
        stream,
    })
}

pub fn moment(now: u64) -> Moment {
    Moment {
        now: Ticks(now),
        micros: None,
        time: now * 90,
    }
}

/// A packet of Opus of another sender, with this number.
fn other(ssrc: u32, number: u16) -> Vec<u8> {
    let mut bytes = vec![0x80, 111];
    bytes.extend(number.to_be_bytes());
    bytes.extend((960 * u32::from(number)).to_be_bytes());
    bytes.extend(ssrc.to_be_bytes());
    bytes.push(number as u8);
    bytes
}

/// The steps, and a plain model of the media server.
#[derive(Default)]
pub struct Plan {
    pub steps: Vec<ServeStep>,
    /// Whether the session took each datagram of the sender that came, in order.
    pub taken: Vec<bool>,
    /// Which datagram each written one is.
    pub written: Vec<usize>,
    /// The datagram with which the forwarder began.
    pub begun: Option<usize>,
    /// Whether each datagram came to the viewer.
    pub came: Vec<bool>,
    /// The number of the next retransmission.
    next: u16,
}

impl Plan {
    fn call(&mut self, step: SessionStep) {
        self.steps.push(ServeStep::Call(step));
    }

    fn receive(&mut self, now: u64, datagram: Vec<u8>) {
        self.call(SessionStep::Receive {
            now: Ticks(now),
            micros: Some(now * 1_000),
            datagram,
        });
    }

    fn poll(&mut self, now: u64) {
        for _ in 0..24 {
            self.call(SessionStep::Poll { now: Ticks(now) });
        }
    }

    /// A datagram of the sender comes, as a retransmission one time in four.
    pub fn come(&mut self, now: u64, datagram: usize, place: bool, seed: &mut u32) {
        let at = moment(now);
        if self.taken.contains(&true) && following(seed) % 4 == 0 {
            let again = RetransmissionStream {
                ssrc: 70,
                payload_type: 97,
                first_number: self.next,
            };
            self.next = self.next.wrapping_add(1);
            self.steps.push(ServeStep::Repeat {
                datagram,
                again,
                at,
            });
        } else {
            self.steps.push(ServeStep::Arrive { datagram, at });
        }
        self.taken.push(place);
        if place && self.begun.is_none() && datagram % 16 == 0 {
            self.begun = Some(datagram);
        }
        if place && self.begun.is_some_and(|first| first <= datagram) {
            self.written.push(datagram);
        }
    }

    /// What comes to the session beside the sender's datagrams.
    pub fn beside(&mut self, block: usize, now: u64) {
        if block < LEAVES {
            self.receive(now, other(OTHERS[0], block as u16));
        }
        if block == LEAVES {
            let ssrc = OTHERS[0];
            self.call(SessionStep::End {
                now: Ticks(now),
                ssrc,
            });
        }
        self.receive(now, other(OTHERS[1], block as u16));
        self.receive(now, vec![0x80, 201, 0, 1, 0, 0, 0, 61]);
        self.receive(now, vec![block as u8; 5]);
        self.poll(now);
    }

    /// A block of eight frames is sent, comes to the media server and then to the viewer, in two other orders, and is popped.
    fn block(&mut self, block: usize, seed: &mut u32) {
        let (now, before) = (100 + 10 * block as u64, self.written.len());
        self.beside(block, now);
        for frame in 8 * block..8 * block + 8 {
            self.steps.push(ServeStep::Send(frame));
        }
        for place in 0..16 {
            for _ in 0..copies(seed, true) {
                self.come(now, 16 * block + place * 7 % 16, block >= LEAVES, seed);
            }
        }
        for written in (before..self.written.len()).rev() {
            for _ in 0..copies(seed, true) {
                self.came[self.written[written]] = true;
                self.steps.push(ServeStep::Deliver {
                    written,
                    now: Ticks(0),
                });
            }
        }
        for _ in 0..9 {
            self.steps.push(ServeStep::Pop { now: Ticks(0) });
        }
    }

    /// The bytes of all frames whose datagrams both came.
    pub fn wanted(&self) -> Vec<u8> {
        let frames = self.came.chunks(2).enumerate();
        let whole = frames.filter(|(_, came)| came[0] && came[1]);
        whole.flat_map(|(index, _)| frame_of(index)).collect()
    }

    /// No step yet.
    pub fn empty() -> Self {
        Plan {
            came: vec![false; BLOCKS * 16],
            ..Plan::default()
        }
    }
}

fn plan_of(mut seed: u32) -> Plan {
    let mut plan = Plan::empty();
    for block in 0..BLOCKS {
        plan.block(block, &mut seed);
    }
    plan
}

/// Whether the session took each datagram of the sender, in order.
fn taken_in(run: &ServedRun, plan: &Plan) -> Vec<bool> {
    taken_by(&run.answers, plan.steps.iter())
}

/// The same by the answers to these steps.
pub fn taken_by<'a>(
    answers: &[StepAnswer],
    steps: impl Iterator<Item = &'a ServeStep>,
) -> Vec<bool> {
    let calls = steps.filter(|step| {
        matches!(
            step,
            ServeStep::Arrive { .. } | ServeStep::Repeat { .. } | ServeStep::Call(_)
        )
    });
    let answered = calls.zip(answers);
    let own = answered.filter(|(step, _)| !matches!(step, ServeStep::Call(_)));
    own.map(|(_, answer)| {
        matches!(
            answer,
            StepAnswer::Received(Ok(Arrival::Stream {
                ssrc: 7,
                payload_type: 96,
                ..
            }))
        )
    })
    .collect()
}

#[test]
fn the_viewer_gets_what_the_session_took() -> Result<(), Fail> {
    for seed in 0..20 {
        let plan = plan_of(seed);
        let mut link = link_for(STREAM)?;
        let run = run_served(&mut link, &samples(), &plan.steps)?;
        assert_eq!(taken_in(&run, &plan), plan.taken, "seed {seed}");
        assert_eq!(run.run.written.len(), plan.written.len(), "seed {seed}");
        assert_eq!(popped_in(&run.run)?, plan.wanted(), "seed {seed}");
        assert!((200..600).contains(&plan.wanted().len()));
        let counts = link.session.counts();
        let blocks = BLOCKS as u64;
        assert_eq!((counts.rtcp, counts.malformed), (blocks, blocks));
        let refused = plan.taken.iter().filter(|taken| !**taken).count();
        assert_eq!(counts.refused, refused as u64);
    }
    Ok(())
}

/// The session's own streams have their units, beside the forwarder.
#[test]
fn the_session_has_the_other_streams() -> Result<(), Fail> {
    let plan = plan_of(1);
    let mut link = link_for(STREAM)?;
    let run = run_served(&mut link, &samples(), &plan.steps)?;
    let units = |own: u32| {
        let polled = run.answers.iter().filter(|answer| {
            matches!(answer, StepAnswer::Polled(Some(Event::Unit { ssrc, .. })) if *ssrc == own)
        });
        polled.count()
    };
    assert_eq!(units(OTHERS[0]), LEAVES);
    assert!(units(OTHERS[1]) > 10 && units(STREAM.ssrc) > 10);
    Ok(())
}

/// The forwarder wants another stream of the media server, or the media server forwards another stream.
#[test]
fn nothing_of_another_stream_is_forwarded() -> Result<(), Fail> {
    let plan = plan_of(2);
    let mut link = link_for(OriginalStream {
        ssrc: OTHERS[1],
        payload_type: 111,
    })?;
    let run = run_served(&mut link, &samples(), &plan.steps)?;
    assert_eq!(taken_in(&run, &plan), plan.taken);
    assert!(run.run.answers.is_empty() && run.run.written.is_empty());
    assert!(run.run.run.pops.iter().all(Option::is_none));
    Ok(())
}

/// A retransmission without a payload type is skipped.
#[test]
fn a_retransmission_needs_its_payload_types() -> Result<(), Fail> {
    let at = moment(0);
    for (payload_type, own, calls) in [(97, 96, 1), (128, 96, 0), (97, 128, 0)] {
        let again = RetransmissionStream {
            ssrc: 70,
            payload_type,
            first_number: 0,
        };
        let mut link = link_for(OriginalStream {
            ssrc: 7,
            payload_type: own,
        })?;
        let repeat = |datagram| ServeStep::Repeat {
            datagram,
            again,
            at,
        };
        let steps = [ServeStep::Send(0), repeat(0), repeat(9)];
        let run = run_served(&mut link, &samples(), &steps)?;
        assert_eq!(run.answers.len(), calls);
    }
    Ok(())
}
