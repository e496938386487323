//! A session, and what has to hold after each of its calls.

use super::OWN;
use crate::told::told;
use codec_payload::Ticks;
use codec_payload::jitter::{Outcome, WaitLimits};
use codec_payload::rtcp::{CompoundRule, RtcpPacket, read_compound};
use codec_payload::session::*;
use std::collections::BTreeMap;

/// An SSRC and the payload type of a format.
type Key = (u32, u8);

/// A session beside what its answers said so far.
pub struct Watch {
    session: Session,
    now: u64,
    formats: Vec<Format>,
    max_streams: usize,
    rule: CompoundRule,
    /// The announced streams, and the last number of the latest unit of each.
    announced: BTreeMap<Key, Option<u64>>,
    /// The datagrams by what `receive` answered; `ended` counts those that streams took.
    counts: SessionCounts,
    /// How many packets of telephone events wait.
    telephone: usize,
    /// Whether the latest call was a poll that returned `None`, in which no packet left.
    is_drained: bool,
}

impl Watch {
    /// `None`: the settings are refused, as their check says.
    pub fn new(settings: SessionSettings, now: u64) -> Option<Watch> {
        let has_report = settings.feedback.as_ref().is_some_and(|it| it.has_report);
        let (formats, max_streams) = (settings.formats.clone(), settings.max_streams);
        let checked = settings.check();
        let session = Session::new(settings);
        assert_eq!(checked.err(), session.as_ref().err().copied());
        let session = session.ok()?;
        Some(Watch {
            now,
            formats,
            max_streams,
            rule: if has_report {
                CompoundRule::Full
            } else {
                CompoundRule::ReducedSize
            },
            announced: BTreeMap::new(),
            counts: session.counts(),
            telephone: 0,
            is_drained: true,
            session,
        })
    }

    pub fn receive(&mut self, datagram: &[u8]) {
        self.is_drained = false;
        self.counts.received += 1;
        let arrival = self.session.receive(Ticks(self.now), datagram);
        let arrival = arrival.expect("there is memory");
        if let Arrival::Faulty { fault, .. } = arrival {
            let _ = told::<(), _>(Err(fault));
        }
        self.note_telephone(&arrival, datagram);
        let is_media = |format: &Format| format.payload_type == datagram[1] & 0x7f;
        assert!(arrival != Arrival::Unknown || !self.formats.iter().any(is_media));
        *match arrival {
            Arrival::Rtcp => &mut self.counts.rtcp,
            Arrival::Malformed => &mut self.counts.malformed,
            Arrival::Unknown => &mut self.counts.unknown,
            Arrival::Refused => &mut self.counts.refused,
            Arrival::Unassociated => &mut self.counts.unassociated,
            Arrival::Stream { .. } | Arrival::Faulty { .. } => &mut self.counts.ended,
            _ => unreachable!("this version has no other"),
        } += 1;
    }

    /// A packet of telephone events that a stream took without media waits, if fewer than 32 wait.
    fn note_telephone(&mut self, arrival: &Arrival, datagram: &[u8]) {
        let outcome = match arrival {
            Arrival::Stream { outcome, .. } => outcome,
            _ => return,
        };
        if *outcome == Outcome::NoMedia && datagram[1] & 0x7f == 97 {
            if self.telephone < 32 {
                self.telephone += 1;
            } else {
                self.counts.telephone_dropped += 1;
            }
        }
    }

    /// Polls until there is no event: at most one for each held packet, and a few for each stream.
    pub fn drain(&mut self) {
        let most = 16 * self.streams().count() + self.held() + self.telephone;
        let mut count = 0;
        let mut held = self.held();
        while let Some(event) = self.session.poll(Ticks(self.now)) {
            self.check(event);
            count += 1;
            assert!(count <= most, "{count} events of {most}");
            held = self.held();
        }
        self.is_drained = self.held() == held;
        assert_eq!(self.telephone, 0);
        let deadline = self.session.next_deadline();
        assert!(
            deadline.is_none_or(|at| self.now < at.0),
            "{deadline:?} at {}",
            self.now
        );
    }

    pub fn wait(&mut self, ticks: u64) {
        self.wait_until(self.now.saturating_add(ticks));
    }

    /// Waits for the deadline, and polls.
    pub fn wait_for_deadline(&mut self) {
        if let Some(at) = self.session.next_deadline() {
            self.wait_until(self.now.max(at.0));
            self.drain();
        }
    }

    /// Waits until this time. If all events were taken, and no packet left in the last poll, a poll has no event just before the
    /// deadline, or at this time if that is earlier.
    fn wait_until(&mut self, time: u64) {
        if self.is_drained {
            let deadline = self.session.next_deadline();
            let before = deadline.map_or(time, |at| time.min(at.0 - 1));
            let event = self.session.poll(Ticks(before));
            assert!(
                event.is_none(),
                "{event:?} at {before}, before {deadline:?}"
            );
        }
        self.now = time;
    }

    pub fn set_wait_limits(&mut self, limits: WaitLimits) {
        self.is_drained = false;
        self.session.set_wait_limits(1, 96, limits);
    }

    pub fn end(&mut self, ssrc: u32) {
        self.is_drained = false;
        self.session.end(Ticks(self.now), ssrc);
    }

    pub fn finish(&mut self) {
        self.is_drained = false;
        self.session.finish(Ticks(self.now));
    }

    /// Ends all streams: polls then announce and end each of them.
    pub fn finish_all(&mut self) {
        self.finish();
        self.drain();
        assert_eq!((self.session.stream_count(), self.announced.len()), (0, 0));
        assert_eq!(
            (self.session.counts(), self.session.next_deadline()),
            (self.counts, None)
        );
    }

    /// How many packets the streams hold.
    fn held(&self) -> usize {
        self.streams().map(|it| it.held).sum()
    }

    fn streams(&self) -> impl Iterator<Item = StreamInfo> {
        (0..self.session.stream_count()).filter_map(|place| self.session.stream_at(place))
    }

    /// Every datagram is counted once, as `receive` answered, and there are at most `max_streams` streams.
    pub fn assert_counts(&self) {
        let found = self.session.counts();
        let taken: u64 = self.streams().map(|it| it.taken).sum();
        let wanted = SessionCounts {
            ended: self.counts.ended - taken,
            ..self.counts
        };
        assert_eq!(found, wanted);
        assert!(self.session.stream_count() <= self.max_streams);
        assert!(self.streams().all(|it| it.taken == it.counters.received));
    }

    /// `Begun` comes first, `Ended` last, and units in the order of their numbers.
    fn check(&mut self, event: Event) {
        match event {
            Event::Begun { ssrc, payload_type } => {
                assert!(self.session.names_of(ssrc, payload_type).is_some());
                assert_eq!(self.announced.insert((ssrc, payload_type), None), None);
            }
            Event::Unit {
                ssrc,
                payload_type,
                unit,
                ..
            } => {
                let last = self
                    .announced
                    .get_mut(&(ssrc, payload_type))
                    .expect("it is announced");
                let range = unit.expect("there is memory").seq_range();
                assert!(range.start().0 <= range.end().0);
                assert!(last.is_none_or(|last| last < range.start().0));
                *last = Some(range.end().0);
            }
            Event::TooLarge {
                ssrc, payload_type, ..
            } => assert!(self.announced.contains_key(&(ssrc, payload_type))),
            Event::Refused {
                ssrc,
                payload_type,
                fault,
            } => {
                let _ = told::<(), _>(Err(fault));
                assert!(self.announced.contains_key(&(ssrc, payload_type)));
            }
            Event::Telephone { payload_type, .. } => {
                assert_eq!(payload_type, 97);
                self.telephone -= 1;
            }
            Event::Feedback {
                ssrc,
                payload_type,
                packet,
            } => {
                self.check_requests((ssrc, payload_type), &packet.expect("there is memory"));
            }
            Event::Report { packet } => self.check_report(&packet.expect("there is memory")),
            Event::Ended {
                ssrc, payload_type, ..
            } => {
                assert!(self.announced.remove(&(ssrc, payload_type)).is_some());
            }
            _ => unreachable!("this version has no other"),
        }
    }

    /// A report is RTCP of full size, and its blocks are about announced streams, each SSRC once.
    fn check_report(&self, packet: &[u8]) {
        let mut reported = Vec::new();
        for packet in read_compound(CompoundRule::Full, packet).expect("it is RTCP") {
            if let RtcpPacket::ReceiverReport(report) = packet {
                assert_eq!(report.ssrc, OWN);
                reported.extend(
                    (0..)
                        .map_while(|index| report.block(index))
                        .map(|it| it.ssrc),
                );
            }
        }
        assert!(!self.announced.is_empty());
        for (place, ssrc) in reported.iter().enumerate() {
            assert!(self.announced.keys().any(|it| it.0 == *ssrc));
            assert!(!reported[..place].contains(ssrc));
        }
    }

    /// A packet of requests is RTCP, requests something, and requests only what the receiver of its stream misses.
    fn check_requests(&self, key: Key, packet: &[u8]) {
        assert!(self.announced.contains_key(&key));
        let receiver = self
            .session
            .receiver_of(key.0, key.1)
            .expect("it is a stream");
        let format = self
            .formats
            .iter()
            .find(|it| it.payload_type == key.1)
            .expect("a format");
        let missing: Vec<u16> = receiver.missing(70_000).map(|it| it as u16).collect();
        let mut requests = 0;
        for packet in read_compound(self.rule, packet).expect("it is RTCP") {
            match packet {
                RtcpPacket::Nack(nack) => {
                    requests += nack.numbers().count();
                    assert!(format.nack && nack.numbers().all(|it| missing.contains(&it)));
                    assert_eq!((nack.sender_ssrc, nack.media_ssrc), (OWN, key.0));
                }
                RtcpPacket::PictureLoss(picture) => {
                    requests += 1;
                    assert!(format.pli && receiver.wants_keyframe());
                    assert_eq!((picture.sender_ssrc, picture.media_ssrc), (OWN, key.0));
                }
                RtcpPacket::ReceiverReport(_) | RtcpPacket::SourceDescription(_) => {}
                other => panic!("{other:?}"),
            }
        }
        assert!(requests > 0);
    }
}
