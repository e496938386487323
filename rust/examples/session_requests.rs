//! A session that requests what is missing: NACK (RFC 4585, section 6.2.1) and PLI (section 6.3.1) for a video on a port, over a
//! simulated network that loses packets both ways. It prints the table of docs/use/FEEDBACK.md, and fails if requests do not help:
//!
//! ```sh
//! cargo run --release --example session_requests
//! ```
//!
//! - `SessionSettings::feedback` says who requests, and how often. `nack` and `pli` of a format say what its sender answers.
//! - `Event::Feedback` has the RTCP packet to send.
//! - Wait until the last request of a packet can be answered: `FeedbackSettings::longest_wait`.

use codec_payload::history::Request;
use codec_payload::rtcp::CompoundRule;
use codec_payload::{
    Codec, CodecPacketizer, CodecSpec, Event, ExtensionValues, FeedbackSettings, Format, Frequency,
    History, HistorySettings, MediaTime, Sample, Sender, SenderSettings, Session, SessionSettings,
    Ticks, read_requests,
};
use std::collections::BTreeMap;
use std::error::Error;

const VP8: u8 = 96;
const SSRC: u32 = 7;
const OWN_SSRC: u32 = 8;
/// How long the video is, and how often a frame comes, in milliseconds.
const LENGTH: u64 = 20_000;
const INTERVAL: u64 = 33;
/// The bytes of a frame: three packets.
const FRAME: usize = 3_000;
/// How long a frame waits at most, whatever the round trip is.
const LONGEST_WAIT: u64 = 1_500;

/// What the caller does about losses.
#[derive(Clone, Copy, PartialEq)]
enum Requests {
    None,
    /// Frames wait for 200 ms.
    Fixed,
    /// Frames wait until the last request of a packet is answered, and at least 200 ms.
    ByRoundTrip,
}

/// One direction of the network.
struct Way {
    chance: u64,
    lost: u64,
    takes: u64,
    datagrams: BTreeMap<(u64, u64), Vec<u8>>,
}

impl Way {
    fn new(chance: u64, lost: u64, takes: u64) -> Way {
        Way {
            chance,
            lost,
            takes,
            datagrams: BTreeMap::new(),
        }
    }

    fn send(&mut self, now: u64, datagram: &[u8]) {
        self.chance = self
            .chance
            .wrapping_mul(6_364_136_223_846_793_005)
            .wrapping_add(1_442_695_040_888_963_407);
        if (self.chance >> 33) % 100 >= self.lost {
            let at = (now + self.takes, self.chance);
            self.datagrams.insert(at, datagram.to_vec());
        }
    }

    /// What arrives until now.
    fn arrived(&mut self, now: u64) -> Vec<Vec<u8>> {
        let later = self.datagrams.split_off(&(now + 1, 0));
        std::mem::replace(&mut self.datagrams, later)
            .into_values()
            .collect()
    }
}

/// The sending side: it resends what is requested, and sends keyframes on request.
struct SendingSide {
    sender: Sender,
    history: History,
    resent: Vec<u8>,
    keyframe: bool,
    frames: u64,
}

impl SendingSide {
    fn new() -> Result<SendingSide, Box<dyn Error>> {
        let packetizer = CodecPacketizer::try_from(Codec::Vp8)?;
        Ok(SendingSide {
            sender: Sender::new(
                packetizer,
                SenderSettings::for_stream(VP8, SSRC, Frequency::NINETY_KHZ),
            )?,
            history: History::new(HistorySettings {
                limit: 512,
                interval: 0,
                stream: None,
            })?,
            resent: Vec::new(),
            keyframe: true,
            frames: 0,
        })
    }

    fn send(&mut self, way: &mut Way, now: u64) -> Result<(), Box<dyn Error>> {
        let mut frame = vec![0; FRAME];
        frame[0] = 0x10 | u8::from(!self.keyframe);
        if self.keyframe {
            frame[3..10].copy_from_slice(&[0x9d, 0x01, 0x2a, 0x40, 0x01, 0xf0, 0x00]);
        }
        self.keyframe = false;
        self.frames += 1;
        self.sender.send(&Sample {
            rtp_time: MediaTime::from_90khz(now * 90),
            bytes: &frame,
            start_of_talk_spurt: false,
            ext_vals: ExtensionValues::default(),
        })?;
        for datagram in self.sender.datagrams() {
            self.history.keep(datagram)?;
            way.send(now, datagram);
        }
        Ok(())
    }

    fn answer(&mut self, way: &mut Way, now: u64, feedback: &[u8]) -> Result<(), Box<dyn Error>> {
        for request in read_requests(CompoundRule::ReducedSize, SSRC, feedback)? {
            match request {
                Request::Packet(number) => {
                    self.history.resend(Ticks(now), number, &mut self.resent)?;
                    way.send(now, &self.resent);
                }
                _ => self.keyframe = true,
            }
        }
        Ok(())
    }
}

/// The receiving side: a session that requests what it misses.
struct ReceivingSide {
    session: Session,
    released: u64,
    decodable: u64,
}

impl ReceivingSide {
    fn new(requests: Requests) -> Result<ReceivingSide, Box<dyn Error>> {
        let spec = CodecSpec {
            codec: Codec::Vp8,
            clock_rate: Frequency::NINETY_KHZ,
            octet_align: false,
        };
        let mut settings = SessionSettings::live();
        settings.formats.push({
            let mut format = Format::new(VP8, spec);
            format.nack = true;
            format.pli = true;
            format
        });
        if requests != Requests::None {
            let longest_wait = (requests == Requests::ByRoundTrip).then_some(LONGEST_WAIT);
            settings.feedback = Some({
                let mut settings = FeedbackSettings::live(OWN_SSRC, b"me@host".to_vec());
                settings.longest_wait = longest_wait;
                // The way back carries requests alone.
                settings.report_interval = None;
                settings
            });
        }
        Ok(ReceivingSide {
            session: Session::new(settings)?,
            released: 0,
            decodable: 0,
        })
    }

    /// Counts the units, and those that a decoder can show. Sends the requests: reduced-size compound packets (RFC 5506).
    fn poll(&mut self, now: u64, back: &mut Way) -> Result<(), Box<dyn Error>> {
        while let Some(event) = self.session.poll(Ticks(now)) {
            match event {
                Event::Unit {
                    decodable, unit, ..
                } => {
                    unit?;
                    self.released += 1;
                    self.decodable += u64::from(decodable);
                }
                Event::Feedback { packet, .. } => back.send(now, &packet?),
                // A refused frame is a loss like another: the session requests a keyframe.
                _ => {}
            }
        }
        Ok(())
    }
}

/// Released and decodable units in thousandths of the sent frames.
fn run(round_trip: u64, lost: u64, requests: Requests) -> Result<[u64; 2], Box<dyn Error>> {
    let mut there = Way::new(1, lost, round_trip / 2);
    let mut back = Way::new(2, lost, round_trip / 2);
    let mut sending = SendingSide::new()?;
    let mut receiving = ReceivingSide::new(requests)?;
    for now in 0..LENGTH + 2_000 {
        for feedback in back.arrived(now) {
            sending.answer(&mut there, now, &feedback)?;
        }
        if now % INTERVAL == 0 && now < LENGTH {
            sending.send(&mut there, now)?;
        }
        for datagram in there.arrived(now) {
            receiving.session.receive(Ticks(now), &datagram)?;
        }
        receiving.poll(now, &mut back)?;
    }
    receiving.session.finish(Ticks(LENGTH + 2_000));
    receiving.poll(LENGTH + 2_000, &mut back)?;
    let share = |count: u64| count * 1_000 / sending.frames;
    Ok([share(receiving.released), share(receiving.decodable)])
}

fn main() -> Result<(), Box<dyn Error>> {
    println!("| round trip, loss | no requests | wait 200 ms | wait by the round trip |");
    println!("|---|---|---|---|");
    for (round_trip, lost) in [(20, 5), (20, 20), (80, 5), (80, 20), (150, 5), (150, 20)] {
        let results = [
            run(round_trip, lost, Requests::None)?,
            run(round_trip, lost, Requests::Fixed)?,
            run(round_trip, lost, Requests::ByRoundTrip)?,
        ];
        let percent = |it: u64| format!("{}.{} %", it / 10, it % 10);
        let cells = results
            .map(|[released, decodable]| format!("{}; {}", percent(released), percent(decodable)));
        println!("| {round_trip} ms, {lost} % | {} |", cells.join(" | "));
        let [[_, none], [_, fixed], [_, by_round_trip]] = results;
        // At 20 ms both waits have room for all six requests of a packet. Where all six or their answers are lost, the frames up to the
        // next keyframe are lost too: 1 or 2 in a hundred.
        assert!(none < fixed && fixed <= by_round_trip + 20, "requests help");
        assert!(
            lost > 5 || by_round_trip >= 980,
            "at 5 % loss nearly all frames can be shown"
        );
    }
    Ok(())
}
