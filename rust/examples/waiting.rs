//! What the default settings do on a network that loses and delays packets. It prints the table of docs/use/LIMITS.md, and fails unless
//! every frame that arrives whole is released in time:
//!
//! ```sh
//! cargo run --release --example waiting
//! ```
//!
//! The clock is simulated, one millisecond a step. The network takes 20 ms. The receiver has the settings for live media and the
//! SSRC, and no bound of units: frames of 2,000 packets are above the default. The caller pops until no unit is due, in each
//! millisecond.

use codec_payload::{
    Codec, CodecDepacketizer, CodecPacketizer, ExtensionValues, Frequency, MediaTime, Receiver,
    ReceiverSettings, Sample, Sender, SenderSettings, Ticks,
};
use std::collections::{BTreeMap, HashMap};
use std::error::Error;
use std::fmt;

/// How long a packet takes, in milliseconds.
const NETWORK: u64 = 20;
/// The bytes of a payload.
const PAYLOAD: usize = 1_000;
/// What a live receiver waits for a missing packet, in milliseconds.
const MAX_WAIT: u64 = 100;
/// How many packets a receiver holds by default.
const LIMIT: usize = 4_096;

/// The stream that is sent.
#[derive(Clone, Copy)]
struct Stream {
    name: &'static str,
    codec: Codec,
    clock_rate: u32,
    /// Milliseconds from frame to frame.
    interval: u64,
    /// Packets in a frame.
    packets: usize,
    frames: u64,
}

const fn video(name: &'static str, interval: u64, packets: usize, frames: u64) -> Stream {
    Stream {
        name,
        codec: Codec::Vp8,
        clock_rate: 90_000,
        interval,
        packets,
        frames,
    }
}

const fn audio(name: &'static str, interval: u64, frames: u64) -> Stream {
    Stream {
        name,
        codec: Codec::Opus,
        clock_rate: 48_000,
        interval,
        packets: 1,
        frames,
    }
}

/// What the network does to packets; the first packet has number 0.
#[derive(Clone, Copy)]
enum Harm {
    Nothing,
    LosesOne(u64),
    /// Loses a number of 1,000 packets, chosen by a seed.
    Loses(u32, u32),
    /// The first packet arrives 40 ms late.
    DelaysFirst,
}

impl Harm {
    /// When the packet arrives, if it does.
    fn arrival(self, number: u64, sent: u64) -> Option<u64> {
        let on_time = sent + NETWORK;
        match self {
            Harm::LosesOne(lost) if lost == number => None,
            Harm::Loses(thousandths, seed) if chance(number, seed) < thousandths => None,
            Harm::DelaysFirst if number == 0 => Some(on_time + 40),
            _ => Some(on_time),
        }
    }
}

/// A number below 1,000 that depends on both (the finalizer of MurmurHash3).
fn chance(number: u64, seed: u32) -> u32 {
    let mut bits = (number ^ u64::from(seed) << 32).wrapping_mul(0xff51_afd7_ed55_8ccd);
    bits = (bits ^ bits >> 33).wrapping_mul(0xc4ce_b9fe_1a85_ec53);
    ((bits ^ bits >> 33) % 1_000) as u32
}

/// The result of a case.
#[derive(Default)]
struct Outcome {
    /// Frames whose packets all arrived.
    whole: u64,
    /// Units that were released.
    units: u64,
    /// The longest time between two units, in milliseconds.
    longest_pause: u64,
    /// The longest time from the arrival of the last packet of a frame to its release, in milliseconds.
    longest_wait: u64,
}

#[derive(Clone, Copy)]
struct Case {
    stream: Stream,
    harm: Harm,
}

/// A sender, a network and a receiver.
struct Simulation {
    case: Case,
    sender: Sender,
    receiver: Receiver,
    frame: Vec<u8>,
    /// How many packets were sent.
    number: u64,
    /// The datagrams on their way, by the time of their arrival.
    arriving: BTreeMap<u64, Vec<Vec<u8>>>,
    /// When the last packet of each whole frame arrives, by its RTP time.
    complete: HashMap<u32, u64>,
    last_unit: Option<u64>,
    outcome: Outcome,
}

impl Simulation {
    fn new(case: Case) -> Result<Self, Box<dyn Error>> {
        let clock_rate = Frequency::make(case.stream.clock_rate).ok_or("the rate is 0")?;
        let packetizer = CodecPacketizer::try_from(case.stream.codec)?;
        let depacketizer = CodecDepacketizer::try_from(case.stream.codec)?;
        let mut sends = SenderSettings::for_stream(96, 7, clock_rate);
        sends.mtu = PAYLOAD;
        let mut receives = ReceiverSettings::for_stream(96, case.stream.codec, clock_rate);
        receives.ssrc = Some(sends.ssrc);
        receives.max_unit = None;
        Ok(Simulation {
            case,
            sender: Sender::new(packetizer, sends)?,
            receiver: Receiver::new(depacketizer, receives)?,
            frame: vec![0; (PAYLOAD - 10) * case.stream.packets],
            number: 0,
            arriving: BTreeMap::new(),
            complete: HashMap::new(),
            last_unit: None,
            outcome: Outcome::default(),
        })
    }

    /// Sends a frame.
    fn send(&mut self, now: u64) -> Result<(), Box<dyn Error>> {
        let rtp_time = now * u64::from(self.case.stream.clock_rate) / 1_000;
        let clock_rate = Frequency::make(self.case.stream.clock_rate).ok_or("the rate is 0")?;
        self.sender.send(&Sample {
            rtp_time: MediaTime::new(rtp_time, clock_rate),
            bytes: &self.frame,
            start_of_talk_spurt: false,
            ext_vals: ExtensionValues::default(),
        })?;
        let mut last = Some(0);
        for datagram in self.sender.datagrams() {
            let arrival = self.case.harm.arrival(self.number, now);
            last = last.zip(arrival).map(|(last, arrival)| last.max(arrival));
            if let Some(arrival) = arrival {
                self.arriving
                    .entry(arrival)
                    .or_default()
                    .push(datagram.to_vec());
            }
            self.number += 1;
        }
        if let Some(last) = last {
            self.complete.insert(rtp_time as u32, last);
            self.outcome.whole += 1;
        }
        Ok(())
    }

    /// Receives what arrives now, and pops.
    fn receive(&mut self, now: u64) -> Result<(), Box<dyn Error>> {
        for datagram in self.arriving.remove(&now).unwrap_or_default() {
            self.receiver.receive_any(Ticks(now), &datagram)?;
        }
        for unit in self.receiver.units(Ticks(now)) {
            let unit = unit?;
            let outcome = &mut self.outcome;
            outcome.units += 1;
            outcome.longest_pause = outcome
                .longest_pause
                .max(now - self.last_unit.unwrap_or(now));
            self.last_unit = Some(now);
            if let Some(complete) = self.complete.get(&(unit.time.numer() as u32)) {
                outcome.longest_wait = outcome.longest_wait.max(now - complete);
            }
        }
        Ok(())
    }
}

impl Case {
    fn run(self) -> Result<Outcome, Box<dyn Error>> {
        let Stream {
            interval, frames, ..
        } = self.stream;
        let mut simulation = Simulation::new(self)?;
        for now in 0..interval * frames + 2_000 {
            if now % interval == 0 && now / interval < frames {
                simulation.send(now)?;
            }
            simulation.receive(now)?;
        }
        Ok(simulation.outcome)
    }

    /// Whether every whole frame was released, at the latest after `MAX_WAIT`. If two frames leave no room to wait, a frame
    /// whose first packet is late is not released.
    fn is_as_documented(self, outcome: &Outcome) -> bool {
        let no_room = 2 * self.stream.packets > LIMIT - LIMIT / 8;
        let missing = u64::from(no_room && matches!(self.harm, Harm::DelaysFirst));
        outcome.units + missing == outcome.whole && outcome.longest_wait <= MAX_WAIT
    }
}

impl fmt::Display for Outcome {
    fn fmt(&self, f: &mut fmt::Formatter<'_>) -> fmt::Result {
        let Outcome {
            units,
            whole,
            longest_wait,
            longest_pause,
        } = self;
        write!(f, "{units}/{whole}; {longest_wait}; {longest_pause}")
    }
}

const STREAMS: [Stream; 9] = [
    video("video, 30 frames/s, 1 packet", 33, 1, 300),
    video("video, 30 frames/s, 3 packets", 33, 3, 300),
    video("video, 30 frames/s, 30 packets", 33, 30, 300),
    video("video, 30 frames/s, 133 packets", 33, 133, 80),
    video("video, 30 frames/s, 2,000 packets", 33, 2_000, 80),
    video("video, 15 frames/s, 3 packets", 66, 3, 150),
    video("screen, 5 frames/s, 3 packets", 200, 3, 50),
    audio("audio, 20 ms", 20, 500),
    audio("audio in DTX, 400 ms", 400, 50),
];

fn main() -> Result<(), Box<dyn Error>> {
    println!(
        "| stream | nothing lost | one packet lost | 1 % lost | 10 % lost | first packet 40 ms late |"
    );
    println!("|---|---|---|---|---|---|");
    let mut wrong = 0;
    for stream in STREAMS {
        let middle = stream.frames / 2 * stream.packets as u64 + 1;
        let harms = [
            Harm::Nothing,
            Harm::LosesOne(middle),
            Harm::Loses(10, 1),
            Harm::Loses(100, 2),
            Harm::DelaysFirst,
        ];
        print!("| {} |", stream.name);
        for harm in harms {
            let case = Case { stream, harm };
            let outcome = case.run()?;
            print!(" {outcome} |");
            wrong += u32::from(!case.is_as_documented(&outcome));
        }
        println!();
    }
    if wrong > 0 {
        return Err(format!("{wrong} cases are not as documented").into());
    }
    Ok(())
}
