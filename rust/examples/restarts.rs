//! Senders that restart on their SSRC within or near the windows, and hostile networks in which none does. It prints three tables
//! of docs/use/LIMITS.md, and fails if a restart takes longer to find than documented, or if a restart is reported although the sender
//! did not restart:
//!
//! ```sh
//! cargo run --release --example restarts
//! ```
//!
//! The clock is simulated, one millisecond a step. The network takes 20 ms. The receiver has the settings for live media, the
//! windows of audio or video, and the SSRC. The caller pops until no unit is due, in each millisecond.

use codec_payload::stream::Windows;
use codec_payload::{
    Codec, CodecDepacketizer, CodecPacketizer, ExtensionValues, Frequency, MediaTime, Receiver,
    ReceiverSettings, Sample, Sender, SenderSettings, Ticks,
};
use std::collections::{BTreeMap, HashSet};
use std::error::Error;

type Fault = Box<dyn Error>;

/// How long a packet takes, in milliseconds.
const NETWORK: u64 = 20;
/// The most bytes of a payload, and of these at most for the payload descriptor.
const PAYLOAD: usize = 100;
const DESCRIPTOR: usize = 4;
/// The longest time between two units at a restart, in milliseconds; of slow streams it is five frame intervals.
const LONGEST: u64 = 300;
/// The same if the end of the former sender arrives late.
const LONGEST_AFTER_END: u64 = 700;
/// How old the packets are that are still retransmitted, in milliseconds.
const RECENT: u64 = 5_000;
/// How far behind the greatest number the second sender begins: within the windows, at their ends, and outside.
const DISTANCES: [u16; 12] = [
    1, 2, 16, 100, 360, 900, 1_000, 1_001, 1_100, 2_500, 5_000, 5_001,
];
/// The distances whose rows are printed.
const PRINTED: [u16; 7] = [1, 2, 16, 1_000, 1_001, 5_000, 5_001];
/// How long the first sender sends before the second one begins below its first number, in milliseconds.
const AGES: [u64; 5] = [0, 100, 1_900, 5_000, 10_000];
/// How far below the first number the second sender begins.
const BELOW: [u16; 3] = [20, 100, 420];
/// Runs of each network.
const RUNS: usize = 3;

/// The stream that is sent.
#[derive(Clone, Copy)]
struct Stream {
    name: &'static str,
    codec: Codec,
    clock_rate: u32,
    /// Milliseconds from frame to frame.
    interval: u64,
    /// Packets in a frame.
    packets: usize,
    windows: Windows,
}

const STREAMS: [Stream; 4] = [
    audio("audio, 20 ms", 20),
    audio("audio in DTX, 400 ms", 400),
    video("video, 3 packets", 3),
    video("video, 30 packets", 30),
];

const fn audio(name: &'static str, interval: u64) -> Stream {
    Stream {
        name,
        codec: Codec::Opus,
        clock_rate: 48_000,
        interval,
        packets: 1,
        windows: Windows {
            forward: 3_000,
            backward: 1_000,
        },
    }
}

const fn video(name: &'static str, packets: usize) -> Stream {
    Stream {
        name,
        codec: Codec::Vp8,
        clock_rate: 90_000,
        interval: 33,
        packets,
        windows: Windows {
            forward: 12_000,
            backward: 5_000,
        },
    }
}

/// Random numbers (SplitMix64).
struct Random(u64);

impl Random {
    /// A number from `least` to `most`.
    fn within(&mut self, least: u64, most: u64) -> u64 {
        self.0 = self.0.wrapping_add(0x9e37_79b9_7f4a_7c15);
        let mut bits = self.0;
        bits = (bits ^ bits >> 30).wrapping_mul(0xbf58_476d_1ce4_e5b9);
        bits = (bits ^ bits >> 27).wrapping_mul(0x94d0_49bb_1331_11eb);
        least + (bits ^ bits >> 31) % (most - least + 1)
    }
}

/// A datagram, and when it was sent.
struct Sent {
    at: u64,
    datagram: Vec<u8>,
}

impl Stream {
    fn rate(self) -> Result<Frequency, Fault> {
        Ok(Frequency::make(self.clock_rate).ok_or("the rate is 0")?)
    }

    fn sender(self, first_number: u16) -> Result<Sender, Fault> {
        let mut settings = SenderSettings::for_stream(96, 7, self.rate()?);
        settings.mtu = PAYLOAD;
        settings.first_number = first_number;
        let packetizer = CodecPacketizer::try_from(self.codec)?;
        Ok(Sender::new(packetizer, settings)?)
    }

    fn receiver(self) -> Result<Receiver, Fault> {
        let mut settings = ReceiverSettings::for_stream(96, self.codec, self.rate()?);
        settings.ssrc = Some(7);
        settings.forward = self.windows.forward;
        settings.backward = self.windows.backward;
        let depacketizer = CodecDepacketizer::try_from(self.codec)?;
        Ok(Receiver::new(depacketizer, settings)?)
    }

    /// The datagrams of a frame.
    fn frame(self, sender: &mut Sender, rtp_time: u64, at: u64) -> Result<Vec<Sent>, Fault> {
        let bytes = vec![0; (PAYLOAD - DESCRIPTOR) * self.packets];
        sender.send(&Sample {
            rtp_time: MediaTime::new(rtp_time, self.rate()?),
            bytes: &bytes,
            start_of_talk_spurt: false,
            ext_vals: ExtensionValues::default(),
        })?;
        Ok(sender
            .datagrams()
            .map(|datagram| Sent {
                at,
                datagram: datagram.to_vec(),
            })
            .collect())
    }

    /// The RTP time of a moment.
    fn ticks(self, at: u64) -> u64 {
        at * u64::from(self.clock_rate) / 1_000
    }
}

/// The result of a run.
#[derive(Default)]
struct Outcome {
    /// The RTP times of the units.
    times: HashSet<u32>,
    /// The longest time between two units, in milliseconds.
    longest_pause: u64,
    restarts: u64,
}

/// Delivers the datagrams at their times, and pops in each millisecond.
fn receive(stream: Stream, arriving: &BTreeMap<u64, Vec<Vec<u8>>>) -> Result<Outcome, Fault> {
    let mut receiver = stream.receiver()?;
    let mut outcome = Outcome::default();
    let end = arriving.keys().next_back().copied().unwrap_or(0);
    let mut last_unit = None;
    for now in 0..end + 1_000 {
        for datagram in arriving.get(&now).into_iter().flatten() {
            receiver.receive_any(Ticks(now), datagram)?;
        }
        for unit in receiver.units(Ticks(now)) {
            outcome.times.insert(unit?.time.numer() as u32);
            outcome.longest_pause = outcome.longest_pause.max(now - last_unit.unwrap_or(now));
            last_unit = Some(now);
        }
    }
    outcome.restarts = receiver.counters().packets.restarts;
    Ok(outcome)
}

fn put(arriving: &mut BTreeMap<u64, Vec<Vec<u8>>>, at: u64, datagram: &[u8]) {
    arriving.entry(at).or_default().push(datagram.to_vec());
}

/// What still arrives of the former sender after a restart.
#[derive(Clone, Copy, PartialEq)]
enum Former {
    /// Nothing.
    Ends,
    /// For three seconds a retransmission each 10 ms.
    Retransmissions,
    /// The second copies: all packets of both senders arrive twice, the second time 50 to 800 ms later.
    Twice,
    /// Its last 300 ms, half a second late.
    LateEnd,
}

const STILL_ARRIVING: [(Former, &str); 3] = [
    (Former::Twice, "everything twice"),
    (Former::Retransmissions, "retransmissions"),
    (Former::LateEnd, "its end late"),
];

/// How a sender restarts: after this many frames of the former sender, `distance` numbers below the highest one, with another RTP
/// offset or with times that continue, and what still arrives of the former sender.
#[derive(Clone, Copy)]
struct Restart {
    frames: u64,
    distance: u16,
    offset: u64,
    former: Former,
}

/// Runs a sender, and another sender for three seconds. Returns how many frames of the second were not released.
fn restart(stream: Stream, how: Restart) -> Result<(Outcome, usize), Fault> {
    let mut random = Random(1);
    let mut arriving = BTreeMap::new();
    let mut former = Vec::new();
    let mut sender = stream.sender(30_000)?;
    for frame in 0..how.frames {
        let at = frame * stream.interval;
        former.extend(stream.frame(&mut sender, stream.ticks(at), at)?);
    }
    let last = 30_000 + former.len() as u16 - 1;
    let mut sender = stream.sender(last - how.distance)?;
    let begins = how.frames * stream.interval;
    let mut times = Vec::new();
    for frame in 0..3_000 / stream.interval + 10 {
        let at = begins + frame * stream.interval;
        let time = stream.ticks(at) + how.offset;
        times.push(time as u32);
        for sent in stream.frame(&mut sender, time, at)? {
            put(&mut arriving, at + NETWORK, &sent.datagram);
            if how.former == Former::Twice {
                let again = at + NETWORK + random.within(50, 800);
                put(&mut arriving, again, &sent.datagram);
            }
        }
    }
    for sent in &former {
        let at = if how.former == Former::LateEnd && sent.at + 300 >= begins {
            begins + 500
        } else {
            sent.at
        };
        put(&mut arriving, at + NETWORK, &sent.datagram);
        if how.former == Former::Twice {
            let again = sent.at + NETWORK + random.within(50, 800);
            put(&mut arriving, again, &sent.datagram);
        }
    }
    if how.former == Former::Retransmissions {
        let recent = former.iter().filter(|it| it.at + RECENT >= begins);
        let recent = 200.min(recent.count());
        for step in 0..300 {
            let old = &former[former.len() - 1 - step as usize % recent];
            put(
                &mut arriving,
                begins + NETWORK + 5 + 10 * step,
                &old.datagram,
            );
        }
    }
    let outcome = receive(stream, &arriving)?;
    let lost = times.iter().filter(|it| !outcome.times.contains(it));
    let lost = lost.count();
    Ok((outcome, lost))
}

/// What a network does to a stream of a sender that does not restart.
#[derive(Clone, Copy, PartialEq)]
enum Network {
    /// A burst that arrives late, at once.
    BurstWhole,
    /// A burst in which each packet is late.
    BurstSpread,
    /// A late burst, and silence meanwhile.
    BurstAndSilence,
    /// Five seconds just behind the wait.
    JustBehind,
    /// Everything twice, with pauses.
    Twice,
    /// Retransmissions, and storms of old packets.
    SentAgain,
    /// RTP times that jump, and late bursts.
    TimesJump,
    /// The first packets arrive late.
    FirstLate,
}

const NETWORKS: [Network; 8] = [
    Network::BurstWhole,
    Network::BurstSpread,
    Network::BurstAndSilence,
    Network::JustBehind,
    Network::Twice,
    Network::SentAgain,
    Network::TimesJump,
    Network::FirstLate,
];

/// The datagrams of 40 seconds, some of them late, lost or repeated.
fn hostile(
    stream: Stream,
    network: Network,
    random: &mut Random,
) -> Result<BTreeMap<u64, Vec<Vec<u8>>>, Fault> {
    let mut arriving = BTreeMap::new();
    let mut sender = stream.sender(random.within(0, 65_535) as u16)?;
    let mut history: Vec<Vec<u8>> = Vec::new();
    let mut offset = random.within(0, 0xffff_ffff);
    let mut at = 0;
    let (mut from, mut to, mut late) = (0, 0, 0);
    if network == Network::FirstLate {
        to = random.within(20, 2_000);
        late = random.within(100, 4_900 - to);
    }
    let mut storm = 10_000;
    while at < 40_000 {
        if at > to + 2_000 {
            let length = match network {
                Network::JustBehind => random.within(1_000, 5_000),
                _ => random.within(100, 2_000),
            };
            late = match network {
                Network::JustBehind => random.within(60, 450),
                _ => random.within(100, 4_900 - length),
            };
            (from, to) = (at, at + length);
            if network == Network::TimesJump {
                offset = random.within(0, 0xffff_ffff);
            }
        }
        let within = from <= at && at < to;
        for sent in stream.frame(&mut sender, stream.ticks(at) + offset, at)? {
            let jitter = if network == Network::TimesJump {
                random.within(0, 60)
            } else {
                0
            };
            let on_time = at + NETWORK + jitter;
            let datagram = &sent.datagram;
            match network {
                Network::BurstWhole | Network::BurstAndSilence if within => {
                    put(&mut arriving, to + late, datagram)
                }
                Network::BurstSpread
                | Network::JustBehind
                | Network::TimesJump
                | Network::FirstLate
                    if within =>
                {
                    put(&mut arriving, on_time + late, datagram)
                }
                Network::Twice => {
                    put(&mut arriving, on_time, datagram);
                    put(&mut arriving, on_time + random.within(50, 800), datagram);
                }
                Network::SentAgain if random.within(1, 20) == 1 => {
                    for _ in 0..random.within(1, 3) {
                        put(&mut arriving, on_time + random.within(40, 400), datagram);
                    }
                }
                _ => put(&mut arriving, on_time, datagram),
            }
            history.push(sent.datagram);
        }
        if network == Network::SentAgain && at >= storm {
            storm += random.within(3_000, 8_000);
            let most = history.len().min(usize::from(stream.windows.backward) / 2);
            for _ in 0..random.within(50, 500) {
                let old = history.len() - 1 - random.within(0, most as u64 - 1) as usize;
                put(&mut arriving, at + NETWORK, &history[old]);
            }
        }
        at += stream.interval;
        let silent = match network {
            Network::Twice => random.within(0, 99) == 0,
            Network::BurstAndSilence => within && at >= to,
            _ => false,
        };
        if silent {
            at += random.within(300, 3_000);
        }
    }
    Ok(arriving)
}

/// The rows of a table, each with its name and its figures.
#[derive(Default)]
struct Table(Vec<(String, String)>);

impl Table {
    /// Adds a row. If the row before has the same figures, both become one.
    fn add(&mut self, name: &str, figures: String) {
        match self.0.last_mut() {
            Some((names, before)) if *before == figures => *names += &format!(" or {name}"),
            _ => self.0.push((name.to_string(), figures)),
        }
    }

    /// Prints the table, whose rows are named by this heading.
    fn print(&self, heading: &str) {
        let names = STREAMS.map(|it| it.name).join(" | ");
        println!("| {heading} | {names} |\n|---|---|---|---|---|");
        for (name, figures) in &self.0 {
            println!("| {name} |{figures}");
        }
    }
}

/// Adds a table row of restarts, for some distances. Returns the number of restarts that were not found in time.
fn add_restarts(table: &mut Table, distance: u16) -> Result<u32, Fault> {
    let mut wrong = 0;
    let mut row = String::new();
    for stream in STREAMS {
        let how = Restart {
            frames: frames_before(stream, distance),
            distance,
            offset: 0x1234_5678,
            former: Former::Ends,
        };
        let (outcome, lost) = restart(stream, how)?;
        row += &format!(" {}; {lost} |", outcome.longest_pause);
        let longest = LONGEST.max(5 * stream.interval);
        wrong += u32::from(outcome.longest_pause > longest);
        // Times that go on make no difference.
        let (going_on, _) = restart(stream, Restart { offset: 0, ..how })?;
        wrong += u32::from(going_on.longest_pause > longest);
        // One or two numbers behind, the second sender passes the first before a restart is found.
        let expected = 2 * u64::from(distance > 2);
        wrong += u32::from(outcome.restarts + going_on.restarts != expected);
    }
    if PRINTED.contains(&distance) {
        table.add(&distance.to_string(), row);
    }
    Ok(wrong)
}

/// Frames of a former sender that sent all numbers of the distance.
fn frames_before(stream: Stream, distance: u16) -> u64 {
    1_200.max(u64::from(distance) + 100) / stream.packets as u64 + 1
}

/// Makes a table row of restarts after which packets of the former sender still arrive: the longest pause and the most frames that
/// were lost, over all distances above 2, and below the first number. Returns it with the number of restarts after which the pause
/// is too long.
fn row_of_still_arriving(former: Former, offset: u64) -> Result<(String, u32), Fault> {
    let (mut wrong, mut row) = (0, String::new());
    let at_most = match former {
        Former::LateEnd => LONGEST_AFTER_END,
        _ => LONGEST,
    };
    for stream in STREAMS {
        let (mut pause, mut lost) = (0, 0);
        // The receiver heard more of the former sender than its late end.
        let young = AGES.into_iter().filter(|it| *it > 1_000).map(|age| {
            let frames = age / stream.interval + 1;
            (frames, (frames * stream.packets as u64) as u16 - 1 + 100)
        });
        let distances = DISTANCES.into_iter().filter(|it| *it > 2);
        let old = distances.map(|distance| (frames_before(stream, distance), distance));
        for (frames, distance) in old.chain(young) {
            let how = Restart {
                frames,
                distance,
                offset,
                former,
            };
            let (outcome, missing) = restart(stream, how)?;
            pause = outcome.longest_pause.max(pause);
            lost = missing.max(lost);
        }
        row += &format!(" {pause}; {lost} |");
        wrong += u32::from(pause > at_most.max(5 * stream.interval));
    }
    Ok((row, wrong))
}

/// Adds a table row of senders that begin below the first number of the stream, after it was sent for `age` milliseconds: the
/// longest of the distances, with another RTP offset and with times that continue. Returns the number of restarts that were not
/// found in time.
fn add_young(table: &mut Table, age: u64) -> Result<u32, Fault> {
    let (mut wrong, mut row) = (0, String::new());
    for stream in STREAMS {
        let (mut pause, mut lost) = (0, 0);
        for (below, offset) in BELOW.iter().flat_map(|it| [(*it, 0x1234_5678), (*it, 0)]) {
            let frames = age / stream.interval + 1;
            let how = Restart {
                frames,
                distance: (frames * stream.packets as u64) as u16 - 1 + below,
                offset,
                former: Former::Ends,
            };
            let (outcome, missing) = restart(stream, how)?;
            pause = outcome.longest_pause.max(pause);
            lost = missing.max(lost);
            wrong += u32::from(outcome.restarts != 1);
        }
        row += &format!(" {pause}; {lost} |");
        wrong += u32::from(pause > LONGEST.max(5 * stream.interval));
    }
    table.add(&format!("{:.1}", age as f64 / 1_000.0), row);
    Ok(wrong)
}

/// Returns the number of restarts that a receiver reports, over all networks, in none of which a sender restarts.
fn false_restarts() -> Result<u32, Fault> {
    let mut restarts = 0;
    for stream in STREAMS {
        for network in NETWORKS {
            let mut random = Random(1);
            for _ in 0..RUNS {
                let arriving = hostile(stream, network, &mut random)?;
                restarts += receive(stream, &arriving)?.restarts as u32;
            }
        }
    }
    Ok(restarts)
}

fn main() -> Result<(), Fault> {
    let mut wrong = 0;
    let mut behind = Table::default();
    for distance in DISTANCES {
        wrong += add_restarts(&mut behind, distance)?;
    }
    behind.print("numbers behind");
    let mut arriving = Table::default();
    for (former, name) in STILL_ARRIVING {
        let (another, too_long) = row_of_still_arriving(former, 0x1234_5678)?;
        let (continued, too_long_too) = row_of_still_arriving(former, 0)?;
        wrong += too_long + too_long_too;
        if another == continued {
            arriving.add(name, another);
        } else {
            arriving.add(&format!("{name}, another offset"), another);
            arriving.add(&format!("{name}, times continue"), continued);
        }
    }
    arriving.print("still arrives");
    let mut young = Table::default();
    for age in AGES {
        wrong += add_young(&mut young, age)?;
    }
    young.print("age in s");
    wrong += false_restarts()?;
    if wrong > 0 {
        return Err(format!("{wrong} cases are not as documented").into());
    }
    Ok(())
}
