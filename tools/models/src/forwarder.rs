//! A forwarder of Opus with the stores of two sources, by docs/use/FORWARDING.md: numbers, times, switches, requests, packets left out.

use crate::dice::Dice;
use crate::packet::Packet;
use codec_payload::forward::{ForwardSettings, Forwarded, Forwarder};
use codec_payload::history::{KeptOnce, RetransmissionStream};
use codec_payload::rtp::RtpPacket;
use codec_payload::{Codec, History, HistorySettings, Ticks};
use std::collections::{BTreeMap, BTreeSet};

const SOURCES: [u32; 2] = [1, 2];
/// The packets of a source are this many numbers away from those of the other.
const STARTS: [u64; 2] = [65_536 + 65_500, 65_536 + 300];

/// The store of one source: the packets of the latest numbers.
#[derive(Debug)]
struct Store {
    limit: u64,
    highest: Option<u64>,
    /// The number of the latest call, if it was too old.
    refused: Option<u64>,
    kept: BTreeMap<u64, Packet>,
}

impl Store {
    fn keep_once(&mut self, number: u64, packet: Packet) -> KeptOnce {
        let restarted = self.refused.take() == Some(number.wrapping_sub(1));
        let highest = self.highest.map_or(number, |it| it.max(number));
        if number + self.limit <= highest {
            if restarted {
                (self.highest, self.kept) = (Some(number), BTreeMap::from([(number, packet)]));
                return KeptOnce::New;
            }
            self.refused = Some(number);
            return KeptOnce::TooOld;
        }
        self.highest = Some(highest);
        self.kept.retain(|&it, _| it + self.limit > highest);
        if self.kept.contains_key(&number) {
            return KeptOnce::Known;
        }
        self.kept.insert(number, packet);
        KeptOnce::New
    }
}

#[derive(Debug)]
struct Model {
    settings: ForwardSettings,
    source: Option<u32>,
    wanted: Option<u32>,
    /// The first and the highest number of the source, and what is added to numbers and times.
    first: u64,
    highest: u64,
    number_offset: u16,
    time_offset: u32,
    /// The numbers of the source that have no place in the viewer's stream.
    left_out: BTreeSet<u64>,
    /// The number that follows, the highest time that was sent, and when the packet with the highest number was written.
    sent: Option<(u16, u32, u64)>,
    next_again: u16,
}

impl Model {
    /// The number that a number of the source has in the viewer's stream: behind packets that were left out the numbers close up.
    fn sent_number(&self, number: u64) -> u16 {
        let closed = self.left_out.range(..number).count() as u16;
        (number as u16)
            .wrapping_add(self.number_offset)
            .wrapping_sub(closed)
    }

    fn as_sent(&self, number: u64, packet: &Packet) -> Packet {
        Packet {
            ssrc: self.settings.ssrc,
            payload_type: self.settings.payload_type,
            number: self.sent_number(number),
            time: packet.time.wrapping_add(self.time_offset),
            ..packet.clone()
        }
    }

    fn write(&mut self, now: u64, number: u64, packet: &Packet) -> (Forwarded, Vec<u8>) {
        if self.source == Some(packet.ssrc) {
            if number < self.first {
                return (Forwarded::TooOld, Vec::new());
            }
            if self.left_out.contains(&number) {
                return (Forwarded::LeftOut, Vec::new());
            }
            if number > self.highest {
                self.highest = number;
                self.note(now, packet);
            } else if let Some((_, time, _)) = &mut self.sent {
                let late = packet.time.wrapping_add(self.time_offset);
                *time = if late.wrapping_sub(*time) < 1 << 31 {
                    late
                } else {
                    *time
                };
            }
            return (Forwarded::Written, self.as_sent(number, packet).bytes());
        }
        if self.wanted != Some(packet.ssrc) {
            return (Forwarded::OtherSource, Vec::new());
        }
        let (next_number, next_time) = match self.sent {
            None => (self.settings.first_number, self.settings.first_time),
            Some((number, time, at)) => {
                let ticks = now.saturating_sub(at).clamp(1, (1 << 31) - 1) as u32;
                (number, time.wrapping_add(ticks))
            }
        };
        self.source = Some(packet.ssrc);
        (self.first, self.highest) = (number, number);
        self.left_out.clear();
        self.number_offset = next_number.wrapping_sub(packet.number);
        self.time_offset = next_time.wrapping_sub(packet.time);
        self.note(now, packet);
        (Forwarded::Began, self.as_sent(number, packet).bytes())
    }

    /// Notes a packet with the highest number.
    fn note(&mut self, now: u64, packet: &Packet) {
        let time = packet.time.wrapping_add(self.time_offset);
        self.sent = Some((self.sent_number(self.highest + 1), time, now));
    }

    /// Leaves a packet out. Of padding that is written for it the number is returned.
    fn leave_out(&mut self, number: u64, packet: &Packet) -> (Forwarded, Option<u16>) {
        if self.source != Some(packet.ssrc) {
            return (Forwarded::OtherSource, None);
        }
        if number < self.first {
            return (Forwarded::TooOld, None);
        }
        if self.left_out.contains(&number) {
            return (Forwarded::LeftOut, None);
        }
        if number <= self.highest {
            return (Forwarded::Filled, Some(self.sent_number(number)));
        }
        self.highest = number;
        self.left_out.insert(number);
        let next = self.sent_number(number + 1);
        self.sent = self.sent.map(|(_, time, at)| (next, time, at));
        (Forwarded::LeftOut, None)
    }

    /// The number of the source's packet under a number of the viewer's stream: from the first one on, up to the highest.
    fn source_of(&self, sent: u16) -> Option<u64> {
        self.source?;
        let mut numbers = (self.first..=self.highest).rev();
        numbers.find(|it| !self.left_out.contains(it) && self.sent_number(*it) == sent)
    }

    /// The packet that a request finds, written again.
    fn again(&mut self, number: u64, packet: &Packet) -> (bool, Vec<u8>) {
        let sent = self.as_sent(number, packet);
        let Some(stream) = self.settings.retransmissions else {
            return (true, sent.bytes());
        };
        let mut payload = sent.number.to_be_bytes().to_vec();
        payload.extend(&sent.payload);
        let wrapped = Packet {
            ssrc: stream.ssrc,
            payload_type: stream.payload_type,
            number: self.next_again,
            payload,
            ..sent
        };
        self.next_again = self.next_again.wrapping_add(1);
        (true, wrapped.bytes())
    }
}

/// The library's forwarder and stores, and their models.
struct Both {
    forwarder: Forwarder,
    stores: [History; 2],
    model: Model,
    models: [Store; 2],
    /// Whether some packets are left out.
    leaves_out: bool,
    out: Vec<u8>,
}

impl Both {
    fn new(dice: &mut Dice) -> Both {
        let stream = dice.one_in(2).then_some(RetransmissionStream {
            ssrc: 10,
            payload_type: 97,
            first_number: 65_535,
        });
        let settings = ForwardSettings {
            codec: Codec::Opus,
            ssrc: 9,
            payload_type: 109,
            first_number: 65_533,
            first_time: u32::MAX - 5_000,
            retransmissions: stream,
        };
        let limit = 1 + dice.below(20);
        let store = || {
            History::new(HistorySettings {
                limit: limit as usize,
                interval: 0,
                stream: None,
            })
            .expect("settings in range")
        };
        let kept = || Store {
            limit,
            highest: None,
            refused: None,
            kept: BTreeMap::new(),
        };
        Both {
            forwarder: Forwarder::new(settings).expect("settings in range"),
            stores: [store(), store()],
            models: [kept(), kept()],
            model: Model {
                settings,
                source: None,
                wanted: None,
                first: 0,
                highest: 0,
                number_offset: 0,
                left_out: BTreeSet::new(),
                time_offset: 0,
                sent: None,
                next_again: 65_535,
            },
            leaves_out: dice.one_in(2),
            out: Vec::new(),
        }
    }

    /// A datagram of a source comes: to its store, and to the forwarder.
    fn comes(&mut self, dice: &mut Dice, now: u64, call: u64) {
        let at = dice.below(2) as usize;
        let number = STARTS[at] + call / 3 + dice.below(6) - dice.below(6).min(call / 3);
        let payload = vec![(number % 251) as u8; 1 + (number % 4) as usize];
        let packet = Packet {
            ssrc: SOURCES[at],
            payload_type: 96,
            marker: number.is_multiple_of(7),
            number: (number % 65_536) as u16,
            time: (number as u32).wrapping_mul(960),
            payload,
        };
        let bytes = packet.bytes();
        assert_eq!(
            self.stores[at].keep_once(&bytes).expect("an RTP packet"),
            self.models[at].keep_once(number, packet.clone())
        );
        let read = RtpPacket::parse(&bytes).expect("an RTP packet");
        if self.leaves_out && dice.one_in(5) {
            self.leaves_out(number, &packet, &read);
            return;
        }
        let told = self
            .forwarder
            .write(now, &read, &mut self.out)
            .expect("memory");
        assert_eq!(
            (told, self.out.clone()),
            self.model.write(now, number, &packet),
            "number {number}: {:?}",
            self.model
        );
    }

    /// The packet is left out. Padding has the number of a late one, and no payload.
    fn leaves_out(&mut self, number: u64, packet: &Packet, read: &RtpPacket<'_>) {
        let told = self
            .forwarder
            .leave_out(read, &mut self.out)
            .expect("memory");
        let padding = (told == Forwarded::Filled).then(|| {
            let filled = RtpPacket::parse(&self.out).expect("an RTP packet");
            assert!(filled.payload.is_empty() && filled.padding > 0);
            assert_eq!((filled.header.ssrc, filled.header.payload_type), (9, 109));
            filled.header.sequence_number
        });
        assert_eq!(
            (told, padding),
            self.model.leave_out(number, packet),
            "number {number}: {:?}",
            self.model
        );
        assert_eq!(self.out.is_empty(), padding.is_none());
    }

    /// The viewer requests a number.
    fn requests(&mut self, dice: &mut Dice) {
        let last = self.model.sent.map_or(0, |(next, ..)| next.wrapping_sub(1));
        let number = last
            .wrapping_add(dice.below(4) as u16)
            .wrapping_sub(dice.below(16) as u16);
        let Some(at) = SOURCES.iter().position(|&it| self.model.source == Some(it)) else {
            assert!(self.forwarder.requested(number, &self.stores[0]).is_none());
            return;
        };
        let source = self.model.source_of(number);
        let expected = source.and_then(|it| Some((it, self.models[at].kept.get(&it)?.clone())));
        let found = self.forwarder.requested(number, &self.stores[at]);
        assert_eq!(
            found.is_some(),
            expected.is_some(),
            "request {number}: {:?}",
            self.model
        );
        if let (Some(packet), Some((source, kept))) = (found, expected) {
            let told = self
                .forwarder
                .write_again(&packet, &mut self.out)
                .expect("memory");
            assert_eq!(
                (told, self.out.clone()),
                self.model.again(source, &kept),
                "request {number}: {:?}",
                self.model
            );
        }
    }
}

/// One schedule, up to 80 calls. Returns how many were compared.
pub fn schedule(dice: &mut Dice) -> u64 {
    let mut both = Both::new(dice);
    let (mut now, calls) = (Ticks(0).0, 1 + dice.below(80));
    for call in 0..calls {
        now += dice.below(2_000);
        match dice.below(16) {
            0 => {
                let ssrc = dice.of(&SOURCES);
                both.forwarder.want(ssrc);
                both.model.wanted = Some(ssrc);
            }
            1 if dice.one_in(3) => {
                both.forwarder.mute();
                (both.model.source, both.model.wanted) = (None, None);
            }
            2..5 => both.requests(dice),
            _ => both.comes(dice, now, call),
        }
        assert_eq!(both.forwarder.source(), both.model.source);
        assert_eq!(both.forwarder.wanted(), both.model.wanted);
    }
    calls
}
