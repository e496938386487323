//! A session beside a second writing of its rules (docs/use/SESSION.md), under random datagrams, polls and ends.

use crate::datagrams::*;
use codec_payload::feedback::{FeedbackSource, StreamRequests};
use codec_payload::jitter::Outcome;
use codec_payload::requests::NackSettings;
use codec_payload::session::*;
use codec_payload::stream::{Receiver, ReceiverSettings, RedSettings, Retransmission};
use codec_payload::*;
use std::collections::{BTreeMap, VecDeque};

/// What a datagram is, as who made it knows.
enum Sent {
    /// Media of a format under an SSRC, in RED or not.
    Media(u32, u8),
    /// A retransmission of VP8 under an SSRC: its original number and its RTP time.
    Again(u32, u16, u32),
    /// Comfort noise under an SSRC.
    Beside(u32),
    /// Telephone events under an SSRC, at an RTP time.
    Telephone(u32, u32),
    /// A BYE of these sources.
    Goodbye(Vec<u32>),
    Malformed,
    Unknown,
}

/// A stream of the model.
struct Plain {
    ssrc: u32,
    payload_type: u8,
    receiver: Receiver,
    /// What a stream of VP8 requests, if the session requests anything.
    requests: Option<StreamRequests>,
    taken: u64,
    bytes: u64,
    accepted: u64,
    /// Whether it left probation.
    plays: bool,
    announced: bool,
    last: u64,
    /// When it ends at the latest, by whom.
    end: Option<(Ending, u64)>,
    /// Why it ended, once it did.
    over: Option<Ending>,
}

struct Model {
    streams: Vec<Plain>,
    /// The SSRC of the stream of each SSRC of retransmissions.
    pairs: BTreeMap<u32, u32>,
    rules: Rules,
    finished: bool,
    /// How many datagrams had each answer, and how many the removed streams took.
    counts: BTreeMap<&'static str, u64>,
    /// The telephone events that wait.
    waiting: VecDeque<(u32, u32)>,
}

#[derive(Clone, Copy)]
struct Rules {
    max_streams: usize,
    probation: u64,
    idle_timeout: u64,
    bye_wait: u64,
    /// Whether packets of VP8 are requested.
    requests: bool,
    /// Whether the pair of SSRCs 1 and 2 is named.
    is_named: bool,
}

/// The SSRC of the session.
const OWN: u32 = 9;

const RED_OVER_OPUS: RedSettings = RedSettings {
    payload_type: RED,
    step: 960,
    retransmission: None,
};

fn session(rules: Rules) -> Session {
    let mut settings = SessionSettings::live();
    settings.formats = vec![
        {
            let mut format = vp8_format();
            format.retransmission = Some(RTX);
            format.nack = rules.requests;
            format
        },
        {
            let mut format = opus_format();
            format.red = Some(RED_OVER_OPUS);
            format
        },
        pcmu_format(),
    ];
    settings.no_media.push(NOISE);
    settings.telephone_events.push(EVENTS);
    if rules.is_named {
        settings.pairs.push(SsrcPair {
            ssrc: 1,
            retransmission: 2,
        });
    }
    settings.feedback = Some({
        let mut settings = FeedbackSettings::live(OWN, b"me@host".to_vec());
        settings.longest_wait = None;
        settings.report_interval = None;
        settings.keyframe_interval = 500;
        settings
    });
    settings.max_streams = rules.max_streams;
    settings.probation = rules.probation;
    settings.idle_timeout = rules.idle_timeout;
    settings.bye_wait = rules.bye_wait;
    Session::new(settings).expect("settings that can be met")
}

/// Retransmissions of VP8 under an SSRC.
fn retransmission(ssrc: u32) -> Retransmission {
    Retransmission {
        ssrc,
        payload_type: RTX,
    }
}

/// When a stream of VP8 requests a packet: its frames wait for 200 ms, so two requests of a number are at most 50 ms apart.
fn request_times() -> NackSettings {
    {
        let mut settings = NackSettings::live();
        settings.retry = 50;
        settings.longest_retry = 50;
        settings
    }
}

/// The receiver that a session has for a stream of this format. `again` is the SSRC of its retransmissions.
fn receiver(ssrc: u32, payload_type: u8, again: Option<u32>) -> Receiver {
    let limits = SessionSettings::live();
    let (codec, mut settings) = if payload_type == VP8 {
        let mut settings = ReceiverSettings::live_video(VP8, Frequency::NINETY_KHZ);
        settings.wait_limits = limits.video;
        settings.retransmission = again.map(retransmission);
        (Codec::Vp8, settings)
    } else {
        let Format { spec, red, .. } = if payload_type == OPUS {
            {
                let mut format = opus_format();
                format.red = Some(RED_OVER_OPUS);
                format
            }
        } else {
            pcmu_format()
        };
        let mut settings = ReceiverSettings::live_audio(payload_type, spec.clock_rate);
        settings.wait_limits = limits.audio;
        settings.red = red;
        (spec.codec, settings)
    };
    settings.no_media.extend([EVENTS, NOISE]);
    settings.ssrc = Some(ssrc);
    let depacketizer = CodecDepacketizer::from_codec(codec).expect("it is supported");
    Receiver::new(depacketizer, settings).expect("the settings are in range")
}

impl Plain {
    /// `number` is the original number, if the datagram is a retransmission.
    fn receive(&mut self, now: u64, probation: u64, number: Option<u16>, bytes: &[u8]) {
        let answer = self.receiver.receive(Ticks(now), bytes);
        let is_refused = matches!(
            answer,
            Err(_) | Ok(Outcome::Duplicate | Outcome::Late | Outcome::Suspect)
        );
        self.taken += 1;
        self.bytes += payload_size(bytes);
        self.last = now;
        self.accepted += u64::from(!is_refused);
        self.plays |= self.accepted >= probation;
        if let (Some(requests), Some(number), false) = (&mut self.requests, number, is_refused) {
            requests.answered(Ticks(now), number);
        }
    }

    /// Whether it is announced, and nothing ends it.
    fn goes_on(&self) -> bool {
        self.plays && self.end.is_none() && self.over.is_none()
    }

    /// The packet with the requests that are due.
    fn request(&mut self, now: u64) -> Option<Vec<u8>> {
        if !self.goes_on() {
            return None;
        }
        let requests = self.requests.as_mut()?;
        let most = if now - self.last <= 2_000 { 1_024 } else { 0 };
        let missing: Vec<u64> = self.receiver.missing(most).collect();
        let source = FeedbackSource::new(OWN, Vec::new(), false).expect("the name is short");
        requests
            .update(Ticks(now), &missing, false)
            .expect("there is memory");
        requests
            .take_due(Ticks(now), &source)
            .expect("there is memory")
    }

    fn leave(&mut self, why: Ending, at: u64) {
        let (why, before) = self.end.unwrap_or((why, u64::MAX));
        (self.plays, self.end) = (true, Some((why, before.min(at))));
    }

    /// When it ends, if nothing arrives.
    fn end(&self, rules: Rules) -> (Ending, u64) {
        self.end
            .unwrap_or((Ending::Timeout, self.last + rules.idle_timeout))
    }
}

impl Model {
    fn new(rules: Rules) -> Model {
        Model {
            streams: Vec::new(),
            pairs: rules.is_named.then_some((2, 1)).into_iter().collect(),
            rules,
            finished: false,
            counts: BTreeMap::new(),
            waiting: VecDeque::new(),
        }
    }

    fn finish(&mut self, now: u64) {
        self.finished = true;
        for stream in &mut self.streams {
            stream.leave(Ending::ByCall, now);
        }
    }

    fn place_of(&self, is_it: impl Fn(&Plain) -> bool) -> Option<usize> {
        self.streams.iter().position(is_it)
    }

    fn count(&mut self, name: &'static str, more: u64) {
        *self.counts.entry(name).or_default() += more;
    }

    fn leave(&mut self, ssrcs: &[u32], why: Ending, at: u64) {
        for stream in &mut self.streams {
            if ssrcs.contains(&stream.ssrc) {
                stream.leave(why, at);
            }
        }
    }

    /// Makes the place of a new stream, if there is one.
    fn begin(&mut self, ssrc: u32, payload_type: u8) -> Option<usize> {
        if self.finished {
            return None;
        }
        if self.streams.len() == self.rules.max_streams {
            let stray = self.place_of(|it| !it.plays)?;
            let stray = self.streams.remove(stray);
            self.count("ended", stray.taken);
        }
        self.streams.push(Plain {
            ssrc,
            payload_type,
            receiver: receiver(ssrc, payload_type, self.again(ssrc)),
            requests: (self.rules.requests && payload_type == VP8)
                .then(|| StreamRequests::new(ssrc, request_times(), 500)),
            taken: 0,
            bytes: 0,
            accepted: 0,
            plays: false,
            announced: false,
            last: 0,
            end: None,
            over: None,
        });
        Some(self.streams.len() - 1)
    }

    /// The SSRC of the retransmissions of a stream.
    fn again(&self, ssrc: u32) -> Option<u32> {
        let mut pairs = self.pairs.iter();
        pairs.find(|pair| *pair.1 == ssrc).map(|pair| *pair.0)
    }

    /// A retransmission without a pair gets the one stream that requested it, has no pair, and whose clock is at most 10 s away.
    fn associate(&mut self, now: u64, again: u32, number: u16, time: u32) {
        if self.pairs.contains_key(&again) {
            return;
        }
        let fits = |it: &&Plain| {
            let has_requested = it
                .requests
                .as_ref()
                .is_some_and(|r| r.has_requested(number));
            let distance = it.receiver.transit_change(Ticks(now), time);
            it.goes_on()
                && has_requested
                && distance.is_some_and(|distance| distance <= 900_000)
                && self.again(it.ssrc).is_none()
        };
        let fitting: Vec<u32> = self.streams.iter().filter(fits).map(|it| it.ssrc).collect();
        match fitting[..] {
            [] => {}
            [ssrc] => {
                self.pairs.insert(again, ssrc);
                for stream in self.streams.iter_mut().filter(|it| it.ssrc == ssrc) {
                    let of_format = (stream.payload_type == VP8).then(|| retransmission(again));
                    stream.receiver.set_retransmission(of_format);
                }
                self.count("associated", 1);
            }
            _ => self.count("several fit", 1),
        }
    }

    fn receive(&mut self, now: u64, sent: &Sent, bytes: &[u8]) {
        let number = match sent {
            Sent::Again(again, number, time) => {
                self.associate(now, *again, *number, *time);
                Some(*number)
            }
            _ => None,
        };
        let (place, otherwise) = match sent {
            Sent::Media(ssrc, payload_type) => {
                let known =
                    self.place_of(|it| (it.ssrc, it.payload_type) == (*ssrc, *payload_type));
                (
                    known.or_else(|| self.begin(*ssrc, *payload_type)),
                    "refused",
                )
            }
            Sent::Again(ssrc, ..) => {
                let ssrc = self.pairs.get(ssrc).copied();
                let known = self.place_of(|it| (Some(it.ssrc), it.payload_type) == (ssrc, VP8));
                (known, "unassociated")
            }
            Sent::Beside(ssrc) | Sent::Telephone(ssrc, _) => {
                (self.place_of(|it| it.ssrc == *ssrc), "unknown")
            }
            Sent::Goodbye(ssrcs) => {
                self.leave(ssrcs, Ending::Bye, now + self.rules.bye_wait);
                (None, "rtcp")
            }
            Sent::Malformed => (None, "malformed"),
            Sent::Unknown => (None, "unknown"),
        };
        self.count("received", 1);
        match place {
            Some(place) => self.streams[place].receive(now, self.rules.probation, number, bytes),
            None => self.count(otherwise, 1),
        }
        match (place, sent) {
            (Some(_), Sent::Telephone(..)) if self.waiting.len() == 32 => {
                self.count("telephone_dropped", 1);
            }
            (Some(_), Sent::Telephone(ssrc, time)) => self.waiting.push_back((*ssrc, *time)),
            _ => {}
        }
        if let Sent::Media(ssrc, payload_type) = sent {
            self.change(now, *ssrc, *payload_type);
        }
    }

    /// The other streams of a sender that goes on in this format leave, if they are of its kind and were silent for a while.
    fn change(&mut self, now: u64, ssrc: u32, payload_type: u8) {
        let goes_on = |it: &Plain| it.ssrc == ssrc && it.goes_on();
        if !self
            .streams
            .iter()
            .any(|it| goes_on(it) && it.payload_type == payload_type)
        {
            return;
        }
        for stream in &mut self.streams {
            let is_silent = now - stream.last >= self.rules.bye_wait;
            let is_alike = (stream.payload_type == VP8) == (payload_type == VP8);
            if goes_on(stream) && stream.payload_type != payload_type && is_alike && is_silent {
                stream.leave(Ending::Changed, now);
            }
        }
    }

    fn poll(&mut self, now: u64) -> Option<String> {
        if let Some(packet) = self.waiting.pop_front() {
            return Some(format!("{packet:?} telephone"));
        }
        for place in 0..self.streams.len() {
            let stream = &mut self.streams[place];
            let key = (stream.ssrc, stream.payload_type);
            if !stream.plays {
                continue;
            }
            if !stream.announced {
                stream.announced = true;
                return Some(format!("{key:?} begins"));
            }
            let (why, at) = stream.end(self.rules);
            if at <= now && stream.over.is_none() {
                stream.receiver.finish().unwrap();
                stream.over = Some(why);
            }
            if let Some(unit) = stream.receiver.pop(Ticks(now)) {
                let unit = unit.expect("there is memory").into_result();
                return Some(format!("{key:?} {:?}", unit.map(|it| it.bytes)));
            }
            if let Some(why) = stream.over {
                let gone = self.streams.remove(place);
                self.count("ended", gone.taken);
                return Some(format!("{key:?} ends {why:?}"));
            }
            if let Some(packet) = stream.request(now) {
                return Some(format!("{key:?} {packet:?} requested"));
            }
        }
        None
    }

    fn deadline(&self) -> Option<u64> {
        if !self.waiting.is_empty() {
            return Some(0);
        }
        let playing = self.streams.iter().filter(|it| it.plays);
        let due = playing.map(|it| {
            let requests = it.requests.as_ref().filter(|_| it.goes_on());
            let request = requests.and_then(StreamRequests::next_deadline);
            let dues = [it.receiver.next_deadline(), request];
            let unit = dues
                .iter()
                .flatten()
                .map(|at| at.0)
                .min()
                .unwrap_or(u64::MAX);
            if it.announced && it.over.is_none() {
                unit.min(it.end(self.rules).1)
            } else {
                0
            }
        });
        due.min()
    }
}

/// No memory is refused here, so no datagram finds none.
fn assert_told(arrival: &Result<Arrival, AllocError>) {
    use ReceiveError::{BlocksOutOfMemory, OutOfMemory};
    assert!(!matches!(
        arrival,
        Err(AllocError)
            | Ok(Arrival::Faulty {
                fault: OutOfMemory | BlocksOutOfMemory,
                ..
            })
    ));
}

/// The same line as the model's poll.
fn line(event: Event) -> String {
    match event {
        Event::Begun { ssrc, payload_type } => format!("{:?} begins", (ssrc, payload_type)),
        Event::Unit {
            ssrc,
            payload_type,
            unit,
            ..
        } => {
            let unit: Result<_, LostFrame> = Ok(unit.expect("there is memory").bytes);
            format!("{:?} {unit:?}", (ssrc, payload_type))
        }
        Event::TooLarge {
            ssrc, payload_type, ..
        } => {
            let unit: Result<Vec<u8>, _> = Err(LostFrame::TooLarge);
            format!("{:?} {unit:?}", (ssrc, payload_type))
        }
        Event::Refused {
            ssrc,
            payload_type,
            fault,
        } => {
            assert_ne!(fault, PacketError::OutOfMemory, "no memory was refused");
            let unit: Result<Vec<u8>, _> = Err(LostFrame::Refused(fault));
            format!("{:?} {unit:?}", (ssrc, payload_type))
        }
        Event::Ended {
            ssrc,
            payload_type,
            why,
        } => format!("{:?} ends {why:?}", (ssrc, payload_type)),
        Event::Telephone { ssrc, rtp_time, .. } => format!("{:?} telephone", (ssrc, rtp_time)),
        Event::Feedback {
            ssrc,
            payload_type,
            packet,
        } => {
            let packet = packet.expect("there is memory");
            format!("{:?} {packet:?} requested", (ssrc, payload_type))
        }
        Event::Report { .. } => panic!("no report is sent"),
        _ => unreachable!("this version has no other"),
    }
}

/// A number near the latest of its SSRC, seldom a far one.
fn number(dice: &mut Dice, latest: &mut u16) -> u16 {
    *latest = match dice.below(100) {
        0 => dice.below(65_536) as u16,
        1..6 => latest.wrapping_sub(dice.below(4) as u16),
        6..12 => latest.wrapping_add(2),
        _ => latest.wrapping_add(1),
    };
    *latest
}

/// The SSRC of one of the senders.
fn sender(dice: &mut Dice, latest: &[u16]) -> u32 {
    1 + dice.below(latest.len() as u32 - 1)
}

/// A packet of telephone events.
fn telephone(dice: &mut Dice, latest: &mut [u16]) -> (Sent, Vec<u8>) {
    let ssrc = sender(dice, latest);
    let number = number(dice, &mut latest[ssrc as usize]);
    let time = 960 * u32::from(number);
    let bytes = packet(EVENTS, ssrc, number, time, &[1, 2, 3, 4]);
    (Sent::Telephone(ssrc, time), bytes)
}

/// A retransmission of a late packet of VP8. Seldom its RTP time is another one.
fn again(dice: &mut Dice, latest: &[u16]) -> (Sent, Vec<u8>) {
    let of = sender(dice, latest);
    let original = latest[of as usize].wrapping_sub(dice.below(6) as u16);
    let payload = [&original.to_be_bytes(), vp8_frame(false)].concat();
    let from = [2, 3, 12, 13, 14][dice.below(5) as usize];
    let time = match dice.below(5) {
        0 => 960 * dice.below(65_536),
        _ => 960 * u32::from(original),
    };
    let bytes = packet(RTX, from, 1, time, &payload);
    (Sent::Again(from, original, time), bytes)
}

/// A datagram, and what it is. SSRC 2 retransmits what SSRC 1 sends, if the pair is named.
fn datagram(dice: &mut Dice, latest: &mut [u16]) -> (Sent, Vec<u8>) {
    let ssrc = sender(dice, latest);
    let mut rtp = |payload_type, payload: &[u8], dice: &mut Dice| {
        let number = number(dice, &mut latest[ssrc as usize]);
        packet(payload_type, ssrc, number, 960 * u32::from(number), payload)
    };
    match dice.below(100) {
        0 => (Sent::Goodbye(vec![ssrc, 9]), goodbye(&[ssrc, 9])),
        1 => (Sent::Malformed, vec![0x81, 203, 0, 4, 0, 0, 0, ssrc as u8]),
        2 => (Sent::Malformed, opus(ssrc, 1)[..11].to_vec()),
        3 => (Sent::Unknown, rtp(100, &[1], dice)),
        4..6 => (Sent::Beside(ssrc), rtp(NOISE, &[64], dice)),
        6..12 => telephone(dice, latest),
        12..20 => again(dice, latest),
        20..30 => {
            let payload = [0x80 | OPUS, 0x0f, 0, 2, OPUS, 9, 7, 10, 7];
            let end = if dice.below(10) == 0 { 3 } else { 9 };
            (Sent::Media(ssrc, OPUS), rtp(RED, &payload[..end], dice))
        }
        30..45 => (Sent::Media(ssrc, PCMU), rtp(PCMU, &[1, 7], dice)),
        45..60 => (Sent::Media(ssrc, OPUS), rtp(OPUS, &[1, 7], dice)),
        _ => (Sent::Media(ssrc, VP8), rtp(VP8, vp8_frame(false), dice)),
    }
}

/// The bytes of an RTP packet without its header (RFC 3550, section 5.1), header extension and padding.
fn payload_size(packet: &[u8]) -> u64 {
    let mut header = 12 + 4 * usize::from(packet[0] & 15);
    if packet[0] & 0x10 != 0 {
        let words = u16::from_be_bytes([packet[header + 2], packet[header + 3]]);
        header += 4 + 4 * usize::from(words);
    }
    let padding = match packet[0] & 0x20 {
        0 => 0,
        _ => usize::from(packet[packet.len() - 1]),
    };
    (packet.len() - header - padding) as u64
}

/// The session and the model have the same streams, counts and deadline.
fn assert_same(session: &Session, model: &Model) {
    let streams = (0..session.stream_count()).filter_map(|place| session.stream_at(place));
    let streams: Vec<_> = streams
        .map(|it| {
            (
                it.ssrc,
                it.payload_type,
                it.taken,
                it.bytes,
                it.stage != Stage::Probation,
            )
        })
        .collect();
    let plain = model.streams.iter();
    let plain: Vec<_> = plain
        .map(|it| (it.ssrc, it.payload_type, it.taken, it.bytes, it.plays))
        .collect();
    assert_eq!(streams, plain);
    let counts = session.counts();
    for (name, count) in [
        ("received", counts.received),
        ("rtcp", counts.rtcp),
        ("malformed", counts.malformed),
        ("unknown", counts.unknown),
        ("refused", counts.refused),
        ("unassociated", counts.unassociated),
        ("ended", counts.ended),
        ("telephone_dropped", counts.telephone_dropped),
    ] {
        assert_eq!(count, *model.counts.get(name).unwrap_or(&0), "{name}");
    }
    assert_eq!(session.next_deadline().map(|at| at.0), model.deadline());
}

/// A session, its model, and what they get.
struct Both {
    session: Session,
    model: Model,
    dice: Dice,
    /// The latest number of each SSRC.
    latest: Vec<u16>,
    now: u64,
}

impl Both {
    fn new(mut dice: Dice, senders: u32) -> Both {
        let rules = Rules {
            max_streams: 1 + dice.below(2 * senders - 2) as usize,
            probation: dice.below(4).into(),
            idle_timeout: (100 + dice.below(2_000)).into(),
            bye_wait: dice.below(300).into(),
            requests: dice.below(4) > 0,
            is_named: dice.below(2) > 0,
        };
        Both {
            session: session(rules),
            model: Model::new(rules),
            dice,
            latest: vec![65_000; senders as usize + 1],
            now: 0,
        }
    }

    /// A datagram, or seldom an end or a pause.
    fn act(&mut self) {
        self.now += u64::from(self.dice.below(10));
        match self.dice.below(200) {
            0 => {
                let ssrc = sender(&mut self.dice, &self.latest);
                self.session.end(Ticks(self.now), ssrc);
                self.model.leave(&[ssrc], Ending::ByCall, self.now);
            }
            1 => self.now += u64::from(self.dice.below(1_500)),
            2 => {
                for _ in 0..40 {
                    let packet = telephone(&mut self.dice, &mut self.latest);
                    self.receive(packet);
                }
            }
            _ => {
                let packet = datagram(&mut self.dice, &mut self.latest);
                self.receive(packet);
            }
        }
    }

    fn receive(&mut self, (sent, bytes): (Sent, Vec<u8>)) {
        let arrival = self.session.receive(Ticks(self.now), &bytes);
        assert_told(&arrival);
        self.model.receive(self.now, &sent, &bytes);
    }

    fn finish(&mut self) {
        self.session.finish(Ticks(self.now));
        self.model.finish(self.now);
    }

    /// Up to three polls, whose events are counted by their last word.
    fn poll(&mut self, seen: &mut BTreeMap<String, u64>) {
        for _ in 0..self.dice.below(4) {
            let event = self.session.poll(Ticks(self.now)).map(line);
            assert_eq!(event, self.model.poll(self.now));
            let word = event.as_deref().and_then(|it| it.rsplit(' ').next());
            *seen
                .entry(word.unwrap_or("nothing").to_string())
                .or_default() += 1;
        }
        assert_same(&self.session, &self.model);
    }
}

/// Runs a session and its model for this many steps. Their events and answers are counted in `seen`.
fn run(seed: u32, senders: u32, steps: u32, seen: &mut BTreeMap<String, u64>) {
    let mut both = Both::new(Dice(seed), senders);
    for step in 0..steps {
        both.act();
        if step + 100 == steps {
            both.finish();
        }
        both.poll(seen);
    }
    for (name, count) in both.model.counts {
        *seen.entry(name.to_string()).or_default() += count;
    }
}

#[test]
fn a_session_is_its_plain_model() {
    let mut seen = BTreeMap::new();
    (0..50).for_each(|seed| run(seed, 5, 2_000, &mut seen));
    println!("{seen:?}");
    let frequent = [
        "begins",
        "Bye",
        "Timeout",
        "ByCall",
        "refused",
        "unassociated",
        "ended",
        "telephone",
        "telephone_dropped",
        "requested",
        "associated",
    ];
    for name in frequent {
        let least = if name == "associated" { 50 } else { 300 };
        assert!(
            seen.get(name).is_some_and(|count| *count > least),
            "{name}: {seen:?}"
        );
    }
}

/// With many streams the next deadline is found in another way.
#[test]
fn a_session_of_many_streams_is_its_plain_model() {
    let mut seen = BTreeMap::new();
    (0..20).for_each(|seed| run(seed, 60, 4_000, &mut seen));
    println!("{seen:?}");
    for name in ["begins", "Bye", "Timeout", "ByCall", "refused", "requested"] {
        assert!(
            seen.get(name).is_some_and(|count| *count > 100),
            "{name}: {seen:?}"
        );
    }
}
