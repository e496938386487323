//! NACK loop: the receiver requests missing packets and stores the retransmissions (RFC 4585, section 6.2.1), and the sender resends
//! them from its history, over a simulated network that loses 10 % and takes 20 ms each way. It fails unless every frame arrives:
//!
//! ```sh
//! cargo run --example nack
//! ```
//!
//! - Request each missing number once per round-trip time, at most `TRIES` times (`NackSchedule`).
//! - Set `max_wait` to twice the round-trip time and 100 ms more (`WaitLimits::for_round_trip`). If it is below the round-trip time,
//!   frames are released without the packets that were requested.
//! - Stop at the cutoff: `missing` no longer reports numbers whose frames were released or discarded.
//! - A retransmission under its own SSRC and payload type (RFC 4588) needs `ReceiverSettings::retransmission`. One under the stream's
//!   own SSRC needs nothing.

use codec_payload::history::{Request, Resent};
use codec_payload::jitter::WaitLimits;
use codec_payload::requests::{NackSchedule, NackSettings};
use codec_payload::rtcp::{CompoundRule, Nack, pack_numbers};
use codec_payload::{
    Codec, CodecDepacketizer, CodecPacketizer, ExtensionValues, Frequency, History,
    HistorySettings, MediaTime, Receiver, ReceiverSettings, Sample, Sender, SenderSettings, Ticks,
    read_requests,
};
use std::error::Error;

const SSRC: u32 = 7;
const FRAMES: u64 = 600;
const INTERVAL: u64 = 33;
const ONE_WAY: u64 = 20;
const TRIES: u32 = 5;

/// What the NACK loop keeps between two calls.
struct NackLoop {
    schedule: NackSchedule,
    missing: Vec<u64>,
    numbers: Vec<u16>,
}

impl NackLoop {
    fn new(round_trip: u64) -> NackLoop {
        NackLoop {
            schedule: NackSchedule::new({
                let mut settings = NackSettings::live();
                settings.first_wait = 0;
                settings.retry = round_trip;
                settings.tries = TRIES;
                settings
            }),
            missing: Vec::new(),
            numbers: Vec::new(),
        }
    }

    /// Returns the NACK that is due now, if one is.
    fn due(&mut self, receiver: &Receiver, now: u64) -> Result<Option<Vec<u8>>, Box<dyn Error>> {
        self.missing.clear();
        self.missing.extend(receiver.missing(512));
        self.schedule.refresh(Ticks(now), &self.missing)?;
        self.numbers.clear();
        self.schedule.take_due(Ticks(now), &mut self.numbers)?;
        if self.numbers.is_empty() {
            return Ok(None);
        }
        nack(8, SSRC, &self.numbers).map(Some)
    }
}

/// A generic NACK for rising numbers.
fn nack(own_ssrc: u32, media_ssrc: u32, numbers: &[u16]) -> Result<Vec<u8>, Box<dyn Error>> {
    let (mut pairs, mut packet) = (Vec::new(), Vec::new());
    pack_numbers(numbers, &mut pairs)?;
    Nack {
        sender_ssrc: own_ssrc,
        media_ssrc,
        pairs: &pairs,
    }
    .write(&mut packet)?;
    Ok(packet)
}

/// The simulated network: the datagrams on their way, with the time of each one's arrival.
struct Network {
    chance: u32,
    on_the_way: Vec<(u64, Vec<u8>)>,
}

impl Network {
    fn loses(&mut self) -> bool {
        self.chance = self
            .chance
            .wrapping_mul(1_664_525)
            .wrapping_add(1_013_904_223);
        (self.chance >> 16) % 10 == 0
    }

    fn deliver(&mut self, receiver: &mut Receiver, now: u64) -> Result<(), Box<dyn Error>> {
        let (arrived, later): (Vec<_>, _) = std::mem::take(&mut self.on_the_way)
            .into_iter()
            .partition(|(arrives, _)| *arrives <= now);
        self.on_the_way = later;
        for (_, datagram) in arrived {
            receiver.receive_any(Ticks(now), &datagram)?;
        }
        Ok(())
    }
}

/// The sending side: a history keeps what was sent.
struct SendingSide {
    sender: Sender,
    history: History,
    again: Vec<u8>,
}

impl SendingSide {
    /// Sends the datagrams of a frame. The first frame arrives.
    fn send(&mut self, network: &mut Network, now: u64) -> Result<(), Box<dyn Error>> {
        self.sender.send(&Sample {
            rtp_time: MediaTime::from_90khz(now * 90),
            bytes: &[0; 3_000],
            start_of_talk_spurt: false,
            ext_vals: ExtensionValues::default(),
        })?;
        for datagram in self.sender.datagrams() {
            self.history.keep(datagram)?;
            if !network.loses() || now == 0 {
                network.on_the_way.push((now + ONE_WAY, datagram.to_vec()));
            }
        }
        Ok(())
    }

    /// Resends what the feedback requests. A request and its answer take a round trip.
    fn answer(
        &mut self,
        network: &mut Network,
        feedback: &[u8],
        now: u64,
    ) -> Result<(), Box<dyn Error>> {
        for request in read_requests(CompoundRule::ReducedSize, SSRC, feedback)? {
            // A request for a keyframe would go to the encoder.
            let Request::Packet(number) = request else {
                continue;
            };
            let resent = self.history.resend(Ticks(now), number, &mut self.again)?;
            if !network.loses() && resent == Resent::Written {
                network
                    .on_the_way
                    .push((now + 2 * ONE_WAY, self.again.clone()));
            }
        }
        Ok(())
    }
}

fn main() -> Result<(), Box<dyn Error>> {
    let packetizer = CodecPacketizer::try_from(Codec::Vp8)?;
    let mut sending = SendingSide {
        sender: Sender::new(
            packetizer,
            SenderSettings::for_stream(96, SSRC, Frequency::NINETY_KHZ),
        )?,
        history: History::new(HistorySettings {
            limit: 512,
            interval: 0,
            stream: None,
        })?,
        again: Vec::new(),
    };
    let depacketizer = CodecDepacketizer::try_from(Codec::Vp8)?;
    let mut settings = ReceiverSettings::for_stream(96, Codec::Vp8, Frequency::NINETY_KHZ);
    settings.ssrc = Some(SSRC);
    settings.wait_limits = WaitLimits::for_round_trip(2 * ONE_WAY);
    let mut receiver = Receiver::new(depacketizer, settings)?;
    let mut network = Network {
        chance: 1,
        on_the_way: Vec::new(),
    };
    let mut requests = NackLoop::new(2 * ONE_WAY);
    let (mut frames, mut gaps, mut nacks) = (0, 0, 0);
    for now in 0..(FRAMES + 30) * INTERVAL {
        if now % INTERVAL == 0 && now / INTERVAL < FRAMES {
            sending.send(&mut network, now)?;
        }
        network.deliver(&mut receiver, now)?;
        if let Some(nack) = requests.due(&receiver, now)? {
            sending.answer(&mut network, &nack, now)?;
            nacks += 1;
        }
        for unit in receiver.units(Ticks(now)) {
            frames += 1;
            gaps += u64::from(!unit?.contiguous);
        }
    }
    let lost = FRAMES * 3 - receiver.counters().packets.released;
    println!(
        "{frames} of {FRAMES} frames, {gaps} gaps, {nacks} NACKs, {lost} packets missing at the end"
    );
    assert_eq!(frames, FRAMES);
    Ok(())
}
