//! A receiver of Opus by docs/use/DATAGRAMS.md: numbers within the windows, suspect packets, outcomes, waiting, pressure, counters.
//!
//! Restarts of the sender are announced: a packet that would confirm a suspect one is not sent. tests/sessions and
//! tests/former_sender.rs have restarts that a receiver finds.

use crate::dice::Dice;
use crate::packet::Packet;
use codec_payload::jitter::{Outcome, WaitLimits};
use codec_payload::{
    Codec, CodecDepacketizer, Frequency, Popped, Receiver, ReceiverSettings, Ticks,
};
use std::collections::BTreeMap;

const SSRC: u32 = 7;
const PAYLOAD_TYPE: u8 = 96;

/// What a receiver counts of its packets.
#[derive(Debug, Default, PartialEq, Eq)]
struct Counts {
    released: u64,
    late: u64,
    duplicates: u64,
    suspect: u64,
    evicted: u64,
    other_streams: u64,
    malformed: u64,
    units: u64,
    restarts: u64,
}

#[derive(Debug)]
struct Model {
    forward: i64,
    backward: i64,
    limit: usize,
    limits: WaitLimits,
    finished: bool,
    highest: Option<u64>,
    /// Whether a restart was announced, and no packet came since.
    restarting: bool,
    /// The low bits of the latest suspect packet.
    suspect: Option<u16>,
    /// The time of arrival and the bytes of each held packet: each is a frame.
    held: BTreeMap<u64, (u64, Vec<u8>)>,
    cutoff: Option<u64>,
    /// Whether a packet was evicted since the latest release.
    mark: bool,
    counts: Counts,
}

impl Model {
    /// The number of a packet within the windows; `None`: it is suspect.
    fn number(&self, low: u16) -> Option<u64> {
        let Some(highest) = self.highest else {
            return Some(65_536 + u64::from(low));
        };
        if self.restarting {
            return Some((highest / 65_536 + 2) * 65_536 + u64::from(low));
        }
        let distance = i64::from(low.wrapping_sub((highest % 65_536) as u16) as i16);
        (-self.backward..self.forward)
            .contains(&distance)
            .then(|| highest.wrapping_add_signed(distance))
    }

    /// Whether a packet would make the receiver find a restart.
    fn confirms(&self, low: u16) -> bool {
        self.number(low).is_none() && self.suspect == Some(low.wrapping_sub(1))
    }

    fn receive(&mut self, now: u64, low: u16, payload: Vec<u8>) -> Outcome {
        let Some(number) = self.number(low) else {
            self.suspect = Some(low);
            self.counts.suspect += 1;
            return Outcome::Suspect;
        };
        let restarted = std::mem::take(&mut self.restarting);
        self.highest = Some(self.highest.map_or(number, |it| it.max(number)));
        if self.cutoff.is_some_and(|cutoff| number <= cutoff) {
            self.counts.late += 1;
            return Outcome::Late;
        }
        if self.held.contains_key(&number) {
            self.counts.duplicates += 1;
            return Outcome::Duplicate;
        }
        self.held.insert(number, (now, payload));
        if self.held.len() <= self.limit {
            self.counts.restarts += u64::from(restarted);
            return if restarted {
                Outcome::Restarted(false)
            } else {
                Outcome::Held
            };
        }
        let (lowest, _) = self.held.pop_first().expect("more than the limit");
        self.cutoff = Some(lowest);
        self.mark = true;
        self.counts.evicted += 1;
        self.counts.restarts += u64::from(restarted);
        if restarted {
            Outcome::Restarted(false)
        } else {
            Outcome::HeldAndEvicted
        }
    }

    /// Whether pops wait for nothing at that time, though a frame is complete.
    fn is_pressed(&self, now: u64, arrived: u64) -> bool {
        let room = (self.limit / 8).max(2);
        let overdue = self
            .limits
            .max_wait
            .is_some_and(|wait| now.saturating_sub(arrived) >= wait);
        self.finished || overdue || self.limit - self.held.len() < room
    }

    fn pop(&mut self, now: u64) -> Option<(u64, bool, Vec<u8>)> {
        let (&number, &(arrived, _)) = self.held.first_key_value()?;
        let is_next = self.cutoff.is_none_or(|cutoff| cutoff + 1 == number);
        let many = match self.cutoff {
            None => self.held.len() > self.limits.start,
            Some(_) => {
                is_next
                    || self
                        .limits
                        .hold_back
                        .is_some_and(|most| self.held.len() > most)
            }
        };
        if !many && !self.is_pressed(now, arrived) {
            return None;
        }
        let (_, bytes) = self.held.remove(&number)?;
        let contiguous = is_next && !self.mark;
        self.cutoff = Some(number);
        self.mark = false;
        self.counts.released += 1;
        self.counts.units += 1;
        Some((number, contiguous, bytes))
    }
}

/// A receiver and its model with the same settings.
fn pair(dice: &mut Dice) -> (Receiver, Model) {
    let limits = {
        let mut limits = WaitLimits::live();
        limits.hold_back = dice.of(&[None, Some(0), Some(1), Some(3)]);
        limits.start = dice.below(4) as usize;
        limits.max_wait = dice.of(&[None, Some(0), Some(20), Some(60)]);
        limits
    };
    let mut settings = ReceiverSettings::live_audio(PAYLOAD_TYPE, Frequency::FORTY_EIGHT_KHZ);
    settings.ssrc = Some(SSRC);
    settings.wait_limits = limits;
    settings.limit = dice.of(&[1, 2, 3, 4, 8, 17, 24]);
    settings.backward = dice.of(&[0, 3, 20]);
    settings.forward = settings.backward + dice.of(&[1, 4, 40]);
    let model = Model {
        forward: i64::from(settings.forward),
        backward: i64::from(settings.backward),
        limit: settings.limit,
        limits,
        finished: false,
        highest: None,
        restarting: false,
        suspect: None,
        held: BTreeMap::new(),
        cutoff: None,
        mark: false,
        counts: Counts::default(),
    };
    let depacketizer =
        CodecDepacketizer::try_from(Codec::Opus).expect("a codec with a depacketizer");
    (
        Receiver::new(depacketizer, settings).expect("settings in range"),
        model,
    )
}

fn counts_of(receiver: &Receiver) -> Counts {
    let it = receiver.counters();
    let held = receiver.held() as u64;
    let all = it.rtcp + it.malformed + it.other_streams + it.undecided;
    let packets = it.packets;
    let stored = packets.released
        + packets.left
        + packets.no_media
        + packets.duplicates
        + packets.late
        + packets.suspect
        + packets.evicted;
    assert_eq!(
        it.received + packets.recovered,
        all + stored + held,
        "the counters add up"
    );
    assert_eq!(packets.left, 0);
    Counts {
        released: packets.released,
        late: packets.late,
        duplicates: packets.duplicates,
        suspect: packets.suspect,
        evicted: packets.evicted,
        other_streams: it.other_streams,
        malformed: it.malformed,
        units: packets.units,
        restarts: packets.restarts,
    }
}

/// Passes a datagram to both: mostly one of the stream, about the number `next`. Each number has one RTP time.
fn datagram(dice: &mut Dice, now: u64, next: u64, receiver: &mut Receiver, model: &mut Model) {
    let far = if dice.one_in(15) {
        dice.of(&[3_000, 30_000, 50_000])
    } else {
        0
    };
    let long = next + far + dice.below(8) - dice.below(12);
    let (number, time) = ((long % 65_536) as u16, (long as u32).wrapping_mul(960));
    let mut packet = Packet {
        ssrc: SSRC,
        payload_type: PAYLOAD_TYPE,
        marker: false,
        number,
        time,
        payload: vec![(number % 251) as u8; 1 + usize::from(number % 3)],
    };
    match dice.below(30) {
        0 => {
            packet.ssrc = 8;
            assert_eq!(
                receiver
                    .receive(Ticks(now), &packet.bytes())
                    .expect("memory"),
                Outcome::OtherStream
            );
            model.counts.other_streams += 1;
        }
        1 => {
            assert!(receiver.receive(Ticks(now), &packet.bytes()[..11]).is_err());
            model.counts.malformed += 1;
        }
        _ if model.confirms(number) => {}
        _ => {
            let told = receiver
                .receive(Ticks(now), &packet.bytes())
                .expect("memory");
            assert_eq!(
                told,
                model.receive(now, number, packet.payload),
                "number {number}: {model:?}"
            );
        }
    }
}

/// One schedule, up to 60 calls. Returns how many were compared.
pub fn schedule(dice: &mut Dice) -> u64 {
    let (mut receiver, mut model) = pair(dice);
    let start = dice.of(&[65_541, 66_536, 131_066]);
    let (mut now, calls) = (1_000, 1 + dice.below(60));
    for call in 0..calls {
        now += dice.below(12);
        if dice.one_in(30) && model.highest.is_some() {
            receiver.restart();
            (model.restarting, model.finished, model.suspect) = (true, false, None);
        } else if dice.below(3) == 0 || model.finished {
            let told = receiver
                .pop(Ticks(now))
                .map(|it| match it.expect("memory") {
                    Popped::Unit(unit) => (
                        u64::from(unit.meta()[0].seq_no),
                        unit.contiguous,
                        unit.bytes,
                    ),
                    other => panic!("{other:?}"),
                });
            assert_eq!(told, model.pop(now), "call {call} at {now}: {model:?}");
        } else if dice.one_in(40) {
            receiver.finish().expect("memory");
            model.finished = true;
        } else {
            datagram(dice, now, start + call / 2, &mut receiver, &mut model);
        }
        assert_eq!(receiver.held(), model.held.len(), "call {call}: {model:?}");
        assert_eq!(counts_of(&receiver), model.counts, "call {call}: {model:?}");
    }
    calls
}
