//! Lost, requested, answered, whole: a sender that answers by its history, a receiver that requests what is missing, and a network that
//! loses first copies, and some of the requests and answers. All parts run as a program would run them: requests are RTCP packets.
//! Each unit is popped whole and in turn, and in time, if of the first `k + 1` requests for a packet at most `k` are in vain, and the
//! settings allow `k + 1` tries within `max_wait`. One more request in vain, and a unit is lost.

use crate::Fail;
use crate::red_pops::Random;
use crate::sides::{receiver_settings, sample_of, sender_of};
use codec_payload::codec::{CodecDepacketizer, NoBox};
use codec_payload::feedback::{FeedbackSource, StreamRequests};
use codec_payload::history::{
    History, HistorySettings, Request, Resent, RetransmissionStream, read_requests,
};
use codec_payload::jitter::jitter_buffer::WaitLimits;
use codec_payload::requests::NackSettings;
use codec_payload::rtcp::compound::CompoundRule;
use codec_payload::schedule::datagrams::{DatagramStep, HistoryStep, Link, run_with_history};
use codec_payload::sender::Sample;
use codec_payload::stream::Popped;
use codec_payload::stream::receiver::{Receiver, Retransmission};
use codec_payload::wire::{Codec, Ticks, ToPayload};
use std::collections::{BTreeMap, BinaryHeap};

/// The stream of retransmissions.
const AGAIN: RetransmissionStream = RetransmissionStream {
    ssrc: 8,
    payload_type: 97,
    first_number: 65_500,
};

/// How many frames a run has. They are 20 ms apart.
const FRAMES: usize = 60;

/// Ticks between two requests of a packet, and until the first one.
const RETRY: u64 = 60;
const FIRST_WAIT: u64 = 10;

/// The units that were popped, each with its time.
type Pops = Vec<(u64, Vec<u8>)>;

/// What a network does, and what the settings allow.
struct Case {
    /// A request and an answer take at most this time.
    delay: u64,
    /// So many requests of a packet may be in vain.
    k: u32,
    /// So many are.
    in_vain: u32,
    max_wait: u64,
    stream: Option<RetransmissionStream>,
}

impl Case {
    /// The least `max_wait` that the theorem allows, with polls at each deadline.
    fn least_wait(delay: u64, k: u32) -> u64 {
        FIRST_WAIT + u64::from(k) * RETRY + 2 * delay + 1
    }
}

fn history_settings(stream: Option<RetransmissionStream>) -> HistorySettings {
    HistorySettings {
        limit: 4_096,
        interval: 0,
        stream,
    }
}

fn link_of(case: &Case) -> Result<Link<NoBox, NoBox>, Fail> {
    let mut settings = receiver_settings({
        let mut limits = WaitLimits::live();
        limits.hold_back = None;
        limits.start = 1;
        limits.max_wait = Some(case.max_wait);
        limits
    })?;
    settings.retransmission = case.stream.map(|it| Retransmission {
        ssrc: it.ssrc,
        payload_type: it.payload_type,
    });
    let depacketizer = CodecDepacketizer::from_codec(Codec::Vp8).ok_or("no depacketizer")?;
    Ok(Link {
        sender: sender_of()?,
        history: History::new(history_settings(case.stream)).map_err(|_| "settings")?,
        receiver: Receiver::new(depacketizer, settings).map_err(|_| "settings")?,
    })
}

/// Something that happens at a moment.
#[derive(Clone, Debug, PartialEq, Eq, PartialOrd, Ord)]
enum Happening {
    Send(usize),
    Come(usize),
    Request(u16),
    Answer(usize),
}

/// A run under way: the parts, the network, and the steps that a run with a history has.
struct Scene<'a> {
    case: &'a Case,
    link: Link<NoBox, NoBox>,
    requests: StreamRequests,
    source: FeedbackSource,
    /// The latest comes last; of one moment the first that was put in comes first.
    queue: BinaryHeap<std::cmp::Reverse<(u64, usize, Happening)>>,
    entered: usize,
    datagrams: Vec<Vec<u8>>,
    retransmissions: Vec<Vec<u8>>,
    steps: Vec<HistoryStep>,
    /// How often each number was requested.
    requested: BTreeMap<u16, u32>,
    popped: Pops,
}

impl Scene<'_> {
    fn at(&mut self, time: u64, happening: Happening) {
        self.queue
            .push(std::cmp::Reverse((time, self.entered, happening)));
        self.entered += 1;
    }

    fn plain(&mut self, step: DatagramStep) {
        self.steps.push(HistoryStep::Plain(step));
    }

    /// Pops until `None`.
    fn pop_all(&mut self, time: u64) -> Result<(), Fail> {
        let now = Ticks(time);
        loop {
            self.plain(DatagramStep::Pop { now });
            match self.link.receiver.pop(now) {
                None => return Ok(()),
                Some(Ok(Popped::Unit(unit))) => self.popped.push((time, unit.bytes)),
                Some(other) => return Err(format!("{other:?}").into()),
            }
        }
    }

    /// Requests what is missing. A request is in vain for as often as the case says: the request is lost, or its answer.
    fn ask(&mut self, time: u64, random: &mut Random) -> Result<(), Fail> {
        let now = Ticks(time);
        let missing: Vec<u64> = self.link.receiver.missing(4_096).collect();
        self.requests.update(now, &missing, false)?;
        let Some(packet) = self.requests.take_due(now, &self.source)? else {
            return Ok(());
        };
        for request in read_requests(CompoundRule::ReducedSize, 7, &packet)? {
            let Request::Packet(number) = request else {
                return Err("a keyframe".into());
            };
            let tries = self.requested.entry(number).or_default();
            *tries += 1;
            let in_vain = *tries <= self.case.in_vain;
            if in_vain && random.below(2) == 0 {
                continue;
            }
            let delay = random.below(self.case.delay as usize + 1) as u64;
            self.at(time + delay, Happening::Request(number));
        }
        Ok(())
    }

    /// The next deadline of the receiver or of the requests.
    fn deadline(&self) -> Option<u64> {
        let pop = self.link.receiver.next_deadline();
        let ask = self.requests.next_deadline();
        [pop, ask].into_iter().flatten().map(|it| it.0).min()
    }

    fn after_arrival(&mut self, time: u64, random: &mut Random) -> Result<(), Fail> {
        self.pop_all(time)?;
        self.ask(time, random)
    }

    fn happen(
        &mut self,
        time: u64,
        it: Happening,
        samples: &[ToPayload],
        random: &mut Random,
        loses: &mut dyn FnMut(usize, &mut Random) -> Option<u64>,
    ) -> Result<(), Fail> {
        let now = Ticks(time);
        match it {
            Happening::Send(index) => {
                self.plain(DatagramStep::Send(index));
                let sample = &samples[index];
                self.link.sender.send(&Sample {
                    rtp_time: sample.rtp_time,
                    bytes: &sample.bytes,
                    start_of_talk_spurt: false,
                    ext_vals: sample.ext_vals,
                })?;
                let places = 0..self.link.sender.len();
                let sent: Vec<_> = places
                    .map(|it| self.link.sender.datagram(it).to_vec())
                    .collect();
                for datagram in sent {
                    self.link.history.keep(&datagram)?;
                    if let Some(delay) = loses(self.datagrams.len(), random) {
                        self.at(time + delay, Happening::Come(self.datagrams.len()));
                    }
                    self.datagrams.push(datagram);
                }
            }
            Happening::Come(datagram) => {
                self.plain(DatagramStep::Deliver { datagram, now });
                self.link.receiver.receive(now, &self.datagrams[datagram])?;
                self.after_arrival(time, random)?;
            }
            Happening::Request(number) => {
                self.steps.push(HistoryStep::Resend { number, now });
                let mut bytes = Vec::new();
                assert_eq!(
                    self.link.history.resend(now, number, &mut bytes)?,
                    Resent::Written
                );
                // the answer of a request that is in vain is lost
                let first = self.requested[&number] <= self.case.in_vain;
                if !first {
                    let delay = random.below(self.case.delay as usize + 1) as u64;
                    self.at(time + delay, Happening::Answer(self.retransmissions.len()));
                }
                self.retransmissions.push(bytes);
            }
            Happening::Answer(retransmission) => {
                self.steps.push(HistoryStep::DeliverAgain {
                    retransmission,
                    now,
                });
                self.link
                    .receiver
                    .receive(now, &self.retransmissions[retransmission])?;
                self.after_arrival(time, random)?;
            }
        }
        Ok(())
    }

    /// All that happens, with pops and requests at each deadline.
    fn play(
        &mut self,
        samples: &[ToPayload],
        random: &mut Random,
        loses: &mut dyn FnMut(usize, &mut Random) -> Option<u64>,
    ) -> Result<(), Fail> {
        loop {
            let next = self.queue.peek().map(|it| it.0.0);
            match (next, self.deadline()) {
                (None, None) => return Ok(()),
                (Some(time), deadline) if deadline.is_none_or(|it| time < it) => {
                    let it = self.queue.pop().ok_or("none")?.0;
                    self.happen(time, it.2, samples, random, loses)?;
                }
                (_, Some(deadline)) => {
                    self.pop_all(deadline)?;
                    self.ask(deadline, random)?;
                }
                (Some(_), None) => return Err("no deadline".into()),
            }
        }
    }
}

/// Frames of two to six bytes, which give one to three datagrams; the first gives one. The first two bytes are the index.
fn samples_of(random: &mut Random) -> Vec<ToPayload> {
    (0..FRAMES)
        .map(|index| {
            let mut frame = vec![(index / 256) as u8, (index % 256) as u8];
            frame.resize(2 + if index == 0 { 0 } else { random.below(5) }, 0xa5);
            sample_of(index as u64 * 1_800, &frame)
        })
        .collect()
}

/// A run over this network: the steps, the link before them, and the units that were popped, with their times.
fn run_of(
    case: &Case,
    samples: &[ToPayload],
    random: &mut Random,
    loses: &mut dyn FnMut(usize, &mut Random) -> Option<u64>,
) -> Result<(Vec<HistoryStep>, Pops), Fail> {
    let mut settings = NackSettings::live();
    settings.first_wait = FIRST_WAIT;
    settings.retry = RETRY;
    settings.shortest_retry = RETRY;
    settings.longest_retry = RETRY;
    settings.tries = case.k + 1;
    settings.capacity = 4_096;
    let mut scene = Scene {
        case,
        link: link_of(case)?,
        requests: StreamRequests::new(7, settings, 500),
        source: FeedbackSource::new(1, Vec::new(), false).ok_or("a name")?,
        queue: BinaryHeap::new(),
        entered: 0,
        datagrams: Vec::new(),
        retransmissions: Vec::new(),
        steps: Vec::new(),
        requested: BTreeMap::new(),
        popped: Vec::new(),
    };
    for index in 0..samples.len() {
        scene.at(20 * index as u64, Happening::Send(index));
    }
    scene.play(samples, random, loses)?;
    Ok((scene.steps, scene.popped))
}

/// Whether the popped units are all frames, whole and in turn.
fn are_all(popped: &[(u64, Vec<u8>)], samples: &[ToPayload]) -> bool {
    popped
        .iter()
        .map(|it| &it.1)
        .eq(samples.iter().map(|it| &it.bytes))
}

/// The proved run of the same steps pops the same units.
fn runs_alike(
    case: &Case,
    samples: &[ToPayload],
    steps: &[HistoryStep],
    popped: &[(u64, Vec<u8>)],
) -> Result<(), Fail> {
    let run = run_with_history(&mut link_of(case)?, samples, steps)?;
    let units: Vec<_> = run
        .run
        .pops
        .iter()
        .flatten()
        .map(|it| it.as_ref().map(|unit| unit.bytes.clone()))
        .collect::<Result<_, _>>()
        .map_err(|_| "a fault")?;
    assert_eq!(
        units,
        popped.iter().map(|it| it.1.clone()).collect::<Vec<_>>()
    );
    Ok(())
}

/// The network of the theorem's example: each third packet is lost, and the first request of each.
#[test]
fn each_third_packet_comes_back() -> Result<(), Fail> {
    for stream in [Some(AGAIN), None] {
        let mut random = Random::new(7);
        let samples: Vec<_> = (0..FRAMES)
            .map(|index| sample_of(index as u64 * 1_800, &[0, index as u8]))
            .collect();
        let case = Case {
            delay: 30,
            k: 1,
            in_vain: 1,
            max_wait: Case::least_wait(30, 1),
            stream,
        };
        let mut lost = 0;
        let mut third = |datagram: usize, _: &mut Random| {
            let is_lost = datagram % 3 == 1;
            lost += usize::from(is_lost);
            (!is_lost).then_some(5)
        };
        let (steps, popped) = run_of(&case, &samples, &mut random, &mut third)?;
        assert_eq!(lost, FRAMES / 3);
        assert!(are_all(&popped, &samples));
        runs_alike(&case, &samples, &steps, &popped)?;
    }
    Ok(())
}

/// A run of more packets than the buffer and the history have places.
#[test]
fn a_run_longer_than_the_buffer() -> Result<(), Fail> {
    let mut random = Random::new(3);
    let samples: Vec<_> = (0..10_000)
        .map(|index| sample_of(index * 1_800, &[(index / 256) as u8, (index % 256) as u8]))
        .collect();
    let case = Case {
        delay: 30,
        k: 2,
        in_vain: 2,
        max_wait: Case::least_wait(30, 2),
        stream: Some(AGAIN),
    };
    let mut third = |datagram: usize, _: &mut Random| (datagram % 3 != 1).then_some(5);
    let (steps, popped) = run_of(&case, &samples, &mut random, &mut third)?;
    assert!(are_all(&popped, &samples));
    runs_alike(&case, &samples, &steps, &popped)
}

/// Random networks that lose, delay and reorder first copies, with one to three datagrams in a frame, and `max_wait` as short as the
/// theorem allows.
#[test]
fn random_networks_lose_nothing() -> Result<(), Fail> {
    let mut random = Random::new(11);
    let (mut lost, mut most) = (0, 0);
    for round in 0..600 {
        let k = random.below(4) as u32;
        let delay = random.below(60) as u64;
        let case = Case {
            delay,
            k,
            in_vain: random.below(k as usize + 1) as u32,
            max_wait: Case::least_wait(delay, k),
            stream: (round % 2 == 0).then_some(AGAIN),
        };
        let samples = samples_of(&mut random);
        let count = samples.len();
        let mut sent = 0;
        let share = 2 + random.below(6);
        let mut loses = |datagram: usize, random: &mut Random| {
            sent = datagram;
            let is_lost = datagram > 0 && random.below(share) == 0;
            lost += usize::from(is_lost);
            (!is_lost).then(|| {
                if datagram == 0 {
                    0
                } else {
                    1 + random.below(50) as u64
                }
            })
        };
        let (steps, popped) = run_of(&case, &samples, &mut random, &mut loses)?;
        // the last packets of the stream may be lost without a later one that shows it
        let whole = popped.len();
        assert!(whole + 6 >= count, "{whole} of {count} in round {round}");
        assert!(are_all(&popped, &samples[..whole]), "round {round}");
        for (index, (time, _)) in popped.iter().enumerate() {
            most = most.max(time - 20 * index as u64);
        }
        runs_alike(&case, &samples, &steps, &popped)?;
    }
    assert!(lost > 1_000, "{lost} packets were lost");
    assert!(most > 100, "the longest wait was {most} ms");
    Ok(())
}

/// One more request in vain than the settings allow: units are lost. So the premise says something.
#[test]
fn one_more_in_vain_loses_units() -> Result<(), Fail> {
    let mut random = Random::new(5);
    let samples: Vec<_> = (0..FRAMES)
        .map(|index| sample_of(index as u64 * 1_800, &[0, index as u8]))
        .collect();
    let case = Case {
        delay: 30,
        k: 1,
        in_vain: 2,
        max_wait: Case::least_wait(30, 1),
        stream: None,
    };
    let mut third = |datagram: usize, _: &mut Random| (datagram % 3 != 1).then_some(5);
    let (_, popped) = run_of(&case, &samples, &mut random, &mut third)?;
    assert_eq!(popped.len(), FRAMES - FRAMES / 3);
    // and so if frames wait for less than that
    let short = Case {
        in_vain: 1,
        max_wait: FIRST_WAIT + RETRY,
        ..case
    };
    let (_, popped) = run_of(&short, &samples, &mut random, &mut third)?;
    assert!(popped.len() < FRAMES);
    Ok(())
}
