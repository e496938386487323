//! A limit of waiting that follows the network, beside two fixed limits. It prints the table of docs/use/LIMITS.md, and fails if the
//! limit that follows releases fewer frames than the fixed limit of 100 ms, or delays frames for packets that never arrive:
//!
//! ```sh
//! cargo run --release --example adaptive_wait
//! ```
//!
//! The clock is simulated. A packet takes 20 ms. A lost packet is retransmitted, and arrives a given time after the others, or never.

use codec_payload::waiting::{AdaptiveWait, AdaptiveWaitSettings};
use codec_payload::{
    Codec, CodecDepacketizer, CodecPacketizer, ExtensionValues, Frequency, MediaTime, Receiver,
    ReceiverSettings, Sample, Sender, SenderSettings, Ticks,
};
use std::collections::BTreeMap;
use std::error::Error;

/// How long a packet takes, in milliseconds.
const NETWORK: u64 = 20;
/// How long each stream is, in milliseconds.
const LENGTH: u64 = 120_000;
/// How many missing numbers are looked at.
const MOST_MISSING: usize = 64;

/// A stream, and what the network does to it.
#[derive(Clone, Copy)]
struct Case {
    name: &'static str,
    codec: Codec,
    clock_rate: u32,
    /// Milliseconds from frame to frame.
    interval: u64,
    packets: usize,
    /// How many of 1,000 packets are lost.
    lost: u32,
    /// How much later than the others a lost packet arrives, in milliseconds.
    answer: Option<u64>,
}

const fn audio(name: &'static str, lost: u32, answer: Option<u64>) -> Case {
    Case {
        name,
        codec: Codec::Opus,
        clock_rate: 48_000,
        interval: 20,
        packets: 1,
        lost,
        answer,
    }
}

const fn video(name: &'static str, lost: u32, answer: Option<u64>) -> Case {
    Case {
        name,
        codec: Codec::Vp8,
        clock_rate: 90_000,
        interval: 33,
        packets: 3,
        lost,
        answer,
    }
}

/// How the receiver waits.
#[derive(Clone, Copy)]
enum Limit {
    Fixed(u64),
    Adaptive,
}

/// The result of a stream.
#[derive(Default)]
struct Outcome {
    sent: u64,
    released: u64,
    /// The sum of all delays beyond the network's, in milliseconds.
    delay: u64,
}

impl Outcome {
    fn mean(&self) -> u64 {
        self.delay / self.released.max(1)
    }
}

/// A number below 1,000 that depends on both (the finalizer of MurmurHash3).
fn chance(number: u64, seed: u32) -> u32 {
    let mut bits = (number ^ u64::from(seed) << 32).wrapping_mul(0xff51_afd7_ed55_8ccd);
    bits = (bits ^ bits >> 33).wrapping_mul(0xc4ce_b9fe_1a85_ec53);
    ((bits ^ bits >> 33) % 1_000) as u32
}

/// Datagrams by their time of arrival.
type Arriving = BTreeMap<u64, Vec<Vec<u8>>>;

/// The datagrams of a stream, and the number of its frames.
fn sent_by(case: Case) -> Result<(Arriving, u64), Box<dyn Error>> {
    let clock_rate = Frequency::make(case.clock_rate).ok_or("the rate is 0")?;
    let packetizer = CodecPacketizer::try_from(case.codec)?;
    let mut settings = SenderSettings::for_stream(96, 7, clock_rate);
    settings.mtu = 200;
    let mut sender = Sender::new(packetizer, settings)?;
    let frame = vec![0; 190 * case.packets];
    let (mut arriving, mut number, mut frames) = (Arriving::new(), 0, 0);
    for now in (0..LENGTH).step_by(case.interval as usize) {
        sender.send(&Sample {
            rtp_time: MediaTime::new(now * u64::from(case.clock_rate) / 1_000, clock_rate),
            bytes: &frame,
            start_of_talk_spurt: false,
            ext_vals: ExtensionValues::default(),
        })?;
        frames += 1;
        for datagram in sender.datagrams() {
            let is_lost = chance(number, 1) < case.lost;
            let late = if is_lost { case.answer } else { Some(0) };
            if let Some(late) = late {
                let at = now + NETWORK + late;
                arriving.entry(at).or_default().push(datagram.to_vec());
            }
            number += 1;
        }
    }
    Ok((arriving, frames))
}

/// What a receiver with that limit releases.
fn run(case: Case, limit: Limit) -> Result<Outcome, Box<dyn Error>> {
    let (mut arriving, sent) = sent_by(case)?;
    let clock_rate = Frequency::make(case.clock_rate).ok_or("the rate is 0")?;
    let depacketizer = CodecDepacketizer::try_from(case.codec)?;
    let mut settings = ReceiverSettings::for_stream(96, case.codec, clock_rate);
    settings.ssrc = Some(7);
    if let Limit::Fixed(ticks) = limit {
        settings.wait_limits.max_wait = Some(ticks);
    }
    let mut receiver = Receiver::new(depacketizer, settings)?;
    let mut wait = AdaptiveWait::new(AdaptiveWaitSettings::live());
    let mut outcome = Outcome {
        sent,
        ..Outcome::default()
    };
    for now in 0..LENGTH + 2_000 {
        for datagram in arriving.remove(&now).unwrap_or_default() {
            if let [_, _, high, low, ..] = datagram[..] {
                wait.arrived(Ticks(now), u16::from_be_bytes([high, low]));
            }
            receiver.receive_any(Ticks(now), &datagram)?;
            for number in receiver.missing(MOST_MISSING) {
                wait.missing(Ticks(now), number);
            }
        }
        if let Limit::Adaptive = limit {
            let mut limits = receiver.wait_limits();
            limits.max_wait = Some(wait.limit());
            receiver.set_wait_limits(limits);
        }
        for unit in receiver.units(Ticks(now)) {
            let sent = unit?.time.numer() * 1_000 / u64::from(case.clock_rate);
            outcome.released += 1;
            outcome.delay += now.saturating_sub(sent + NETWORK);
        }
    }
    Ok(outcome)
}

fn main() -> Result<(), Box<dyn Error>> {
    let cases = [
        audio("audio, 1 % lost", 10, None),
        audio("audio, 10 % lost", 100, None),
        audio("audio, 10 % lost, again after 60 ms", 100, Some(60)),
        audio("audio, 10 % lost, again after 150 ms", 100, Some(150)),
        video("video, 1 % lost", 10, None),
        video("video, 10 % lost", 100, None),
        video("video, 10 % lost, again after 60 ms", 100, Some(60)),
        video("video, 10 % lost, again after 150 ms", 100, Some(150)),
    ];
    println!("| stream | 100 ms | 200 ms | adaptive |");
    println!("|---|---|---|---|");
    for case in cases {
        let results = [
            run(case, Limit::Fixed(100))?,
            run(case, Limit::Fixed(200))?,
            run(case, Limit::Adaptive)?,
        ];
        let cells = results
            .each_ref()
            .map(|it| format!("{}/{}; {}", it.released, it.sent, it.mean()));
        println!("| {} | {} |", case.name, cells.join(" | "));
        let [fixed, _, adaptive] = results;
        assert!(
            adaptive.released >= fixed.released,
            "{}: frames are lost",
            case.name
        );
        assert!(
            case.answer.is_some() || adaptive.mean() <= fixed.mean(),
            "{}: delay for nothing",
            case.name
        );
    }
    Ok(())
}
