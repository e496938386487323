//! A session: two videos and an audio stream on one port, over a simulated network that loses 2 % and delays by up to 30 ms. A stray
//! packet comes too. One video leaves by a BYE, and the rest end at the end. It fails unless every datagram is accounted for:
//!
//! ```sh
//! cargo run --example session
//! ```
//!
//! - Name each payload type of the session description in `SessionSettings::formats`.
//! - Call `poll` until `None` after each datagram and at `next_deadline`.
//! - Make a decoder at `Event::Begun`, and drop it at `Event::Ended`.

use codec_payload::rtcp::Goodbye;
use codec_payload::{
    Codec, CodecPacketizer, CodecSpec, Event, ExtensionValues, Format, Frequency, MediaTime,
    Sample, Sender, SenderSettings, Session, SessionSettings, Ticks,
};
use std::collections::BTreeMap;
use std::error::Error;

const VP8: u8 = 96;
const OPUS: u8 = 111;
const FRAMES: u64 = 300;

/// A sender with the time of its last frame.
struct Source {
    sender: Sender,
    interval: u64,
    until: u64,
}

fn source(payload_type: u8, ssrc: u32, until: u64) -> Result<Source, Box<dyn Error>> {
    let (codec, rate, interval) = match payload_type {
        VP8 => (Codec::Vp8, Frequency::NINETY_KHZ, 33),
        _ => (Codec::Opus, Frequency::FORTY_EIGHT_KHZ, 20),
    };
    let packetizer = CodecPacketizer::try_from(codec)?;
    let sender = Sender::new(
        packetizer,
        SenderSettings::for_stream(payload_type, ssrc, rate),
    )?;
    Ok(Source {
        sender,
        interval,
        until,
    })
}

fn format(payload_type: u8, codec: Codec, clock_rate: Frequency) -> Format {
    let spec = CodecSpec {
        codec,
        clock_rate,
        octet_align: false,
    };
    Format::new(payload_type, spec)
}

/// Datagrams on their way, by the time of their arrival.
struct Network {
    chance: u32,
    on_the_way: BTreeMap<(u64, u32), Vec<u8>>,
}

impl Network {
    fn send(&mut self, now: u64, datagram: &[u8]) {
        self.chance = self
            .chance
            .wrapping_mul(1_664_525)
            .wrapping_add(1_013_904_223);
        if (self.chance >> 16) % 50 != 0 {
            let at = now + 20 + u64::from((self.chance >> 8) % 10);
            self.on_the_way.insert((at, self.chance), datagram.to_vec());
        }
    }

    fn deliver(&mut self, session: &mut Session, now: u64) -> Result<(), Box<dyn Error>> {
        while let Some(first) = self.on_the_way.first_entry() {
            if first.key().0 > now {
                break;
            }
            session.receive(Ticks(now), &first.remove())?;
        }
        Ok(())
    }
}

/// Counts the units of each stream.
fn drain(session: &mut Session, now: u64, units: &mut BTreeMap<u32, u64>) {
    while let Some(event) = session.poll(Ticks(now)) {
        match event {
            Event::Begun {
                ssrc, payload_type, ..
            } => {
                println!("{now:5} ms: stream {ssrc} of payload type {payload_type} begins");
            }
            Event::Unit { ssrc, unit, .. } => {
                *units.entry(ssrc).or_default() += u64::from(unit.is_ok());
            }
            Event::TooLarge { ssrc, unit, .. } => {
                println!(
                    "{now:5} ms: stream {ssrc} loses a frame of {} bytes",
                    unit.bytes.len()
                );
            }
            Event::Refused { ssrc, fault, .. } => {
                println!("{now:5} ms: stream {ssrc} loses a frame: {fault}");
            }
            Event::Ended { ssrc, why, .. } => println!("{now:5} ms: stream {ssrc} ends: {why:?}"),
            // The settings request nothing: see examples/session_requests.rs.
            _ => {}
        }
    }
}

fn main() -> Result<(), Box<dyn Error>> {
    let mut settings = SessionSettings::live();
    settings
        .formats
        .push(format(VP8, Codec::Vp8, Frequency::NINETY_KHZ));
    settings
        .formats
        .push(format(OPUS, Codec::Opus, Frequency::FORTY_EIGHT_KHZ));
    let mut session = Session::new(settings)?;
    let end = FRAMES * 33;
    let mut sources = [
        source(VP8, 1, end)?,
        source(VP8, 2, end / 2)?,
        source(OPUS, 3, end)?,
    ];
    let mut network = Network {
        chance: 7,
        on_the_way: BTreeMap::new(),
    };
    let mut units = BTreeMap::new();
    network.send(0, &[0x80, OPUS, 0, 1, 0, 0, 0, 1, 0, 0, 0, 99, 1]);
    for now in 0..end + 100 {
        for source in &mut sources {
            if now % source.interval != 0 || now >= source.until {
                continue;
            }
            source.sender.send(&Sample {
                rtp_time: MediaTime::from_90khz(now * 90),
                bytes: &[0; 900],
                start_of_talk_spurt: false,
                ext_vals: ExtensionValues::default(),
            })?;
            for datagram in source.sender.datagrams() {
                network.send(now, datagram);
            }
        }
        if now == end / 2 {
            let mut bye = Vec::new();
            Goodbye {
                ssrcs: &2u32.to_be_bytes(),
                reason: None,
            }
            .write(&mut bye)?;
            network.on_the_way.insert((now + 30, 0), bye);
        }
        network.deliver(&mut session, now)?;
        drain(&mut session, now, &mut units);
    }
    session.finish(Ticks(end + 100));
    drain(&mut session, end + 100, &mut units);
    let counts = session.counts();
    println!("units {units:?}, {counts:?}");
    assert_eq!(session.stream_count(), 0);
    // Datagrams that no stream took are counted apart, whatever a peer sends.
    let apart =
        counts.rtcp + counts.malformed + counts.unknown + counts.refused + counts.unassociated;
    assert_eq!(counts.received, apart + counts.ended);
    assert!(units[&1] > 280 && units[&2] > 140 && units[&3] > 470);
    Ok(())
}
