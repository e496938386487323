//! What a datagram takes in a session that requests what it misses, if the peer chooses the numbers:
//!
//!   hostile KIND SIZE COUNT
//!
//! - `frames`: VP8 of SIZE packets a frame, of which none is lost.
//! - `gap`: SIZE packets of VP8 are held behind one lost packet.
//! - `gaps`: of SIZE held packets each follows a lost one.
//! - `no_media`: each second number, SIZE of them, was a packet without media; then one packet of media comes ahead of all.
//! - `opens`: the same as `gaps`, and each further packet follows a lost one.
//! - `fills`: the same as `gaps`, and each further packet is a lost one, the lowest first.
//! - `paddings`: the same as `no_media`, and each further packet is one without media behind a lost one.
//! - `repeats`: SIZE packets are held behind a lost one, and each further packet is one of them.
//! - `jumps`: SIZE packets are held behind a lost one, and each further packet has a number far from all others.
//! - `times`: each further packet of VP8 is a frame whose RTP time is anywhere.
//! - `reports`: each further datagram is RTCP: SIZE receiver reports of 31 blocks.
//! - `goodbyes`: each further datagram is RTCP: SIZE times a BYE of 31 SSRCs that send nothing.
//! - `requests`: each further datagram is RTCP: a NACK with SIZE pairs.
//! - `blocks`: each further packet of Opus is RED with SIZE redundant blocks, whose numbers are lost.
//! - `strays`: SIZE packets of as many SSRCs came before, and all places are taken.
//! - `numbered`: SIZE packets with transport-wide numbers came before, and each further packet has the next one.
//!
//! With `-plain` after the kind the sender answers no requests for missing packets.
//!
//! After that each of COUNT datagrams is polled until it has no event, and the next deadline is asked for. The difference of two
//! runs under callgrind, divided by the difference of their datagrams, is what such a datagram takes; what makes the datagrams does
//! not count (`--toggle-collect=hostile::Load::receive`).

use codec_payload::feedback::TransportSettings;
use codec_payload::session::{FeedbackSettings, Format, Session, SessionSettings};
use codec_payload::stream::RedSettings;
use codec_payload::{Codec, CodecSpec, Frequency, Ticks};

const VP8: u8 = 96;
const PADDING: u8 = 97;

const OPUS: u8 = 111;
const RED: u8 = 63;
/// The id of the header extension with transport-wide numbers.
const NUMBERED: u8 = 7;

fn session(nack: bool) -> Session {
    let spec = CodecSpec {
        codec: Codec::Vp8,
        clock_rate: Frequency::NINETY_KHZ,
        octet_align: false,
    };
    let mut settings = SessionSettings::live();
    settings.formats.push({
        let mut format = Format::new(VP8, spec);
        format.nack = nack;
        format.pli = true;
        format
    });
    let audio = CodecSpec {
        codec: Codec::Opus,
        clock_rate: Frequency::FORTY_EIGHT_KHZ,
        octet_align: false,
    };
    settings.formats.push({
        let mut format = Format::new(OPUS, audio);
        format.red = Some(RedSettings {
            payload_type: RED,
            step: 960,
            retransmission: None,
        });
        format.nack = nack;
        format
    });
    settings.no_media.push(PADDING);
    settings.limit = 65_536;
    settings.max_streams = 64;
    settings.feedback = Some(FeedbackSettings::live(1, b"me@host".to_vec()));
    settings.transport = Some(TransportSettings::live(NUMBERED));
    Session::new(settings).expect("settings that can be met")
}

/// A packet of 20 bytes of this stream: `first` begins a frame, `last` ends it.
fn packet(ssrc: u32, number: u32, frame: u32, first: bool, last: bool) -> Vec<u8> {
    let mut out = vec![0x80, VP8 | u8::from(last) << 7];
    out.extend((number as u16).to_be_bytes());
    out.extend(frame.wrapping_mul(3_000).to_be_bytes());
    out.extend(ssrc.to_be_bytes());
    out.extend(if first { [0x10, 0x11] } else { [0, 7] });
    out.resize(20, 7);
    out
}

/// A packet with this transport-wide number (RFC 8285, section 4.2).
fn numbered(number: u32) -> Vec<u8> {
    let [high, low] = (number as u16).to_be_bytes();
    let mut out = packet(5, number, number, true, true);
    out[0] |= 0x10;
    let extension = [0xBE, 0xDE, 0, 1, NUMBERED << 4 | 1, high, low, 0];
    out.splice(12..12, extension);
    out
}

/// A packet without media.
fn padding(number: u32) -> Vec<u8> {
    let mut out = vec![0x80, PADDING];
    out.extend((number as u16).to_be_bytes());
    out.extend([0, 0, 0, 0, 0, 0, 0, 5]);
    out
}

/// A packet of RED: `blocks` redundant blocks of one byte, each 20 ms before the next.
fn red(number: u32, blocks: u32) -> Vec<u8> {
    let mut out = vec![0x80, RED];
    out.extend((number as u16).to_be_bytes());
    out.extend((number * 960).to_be_bytes());
    out.extend(5_u32.to_be_bytes());
    for place in (1..=blocks).rev() {
        let offset = (place * 960).min(16_383);
        out.extend((0x8000_0000 | u32::from(OPUS) << 24 | offset << 10 | 1).to_be_bytes());
    }
    out.push(OPUS);
    out.extend(vec![7; blocks as usize + 1]);
    out
}

/// A packet of RTCP with this count, type and body of whole words.
fn rtcp(count: u8, packet_type: u8, body: &[u32]) -> Vec<u8> {
    let mut out = vec![0x80 | count, packet_type];
    out.extend((body.len() as u16).to_be_bytes());
    body.iter().for_each(|word| out.extend(word.to_be_bytes()));
    out
}

/// Many packets of RTCP in one datagram, each of 31 SSRCs that send nothing; `words` for each of them.
fn compound(packet_type: u8, words: u32, packets: u32) -> Vec<u8> {
    let own = if packet_type == 201 { 1 } else { 0 };
    let body: Vec<u32> = (0..own + 31 * words).map(|place| 1_000 + place).collect();
    (0..packets)
        .flat_map(|_| rtcp(31, packet_type, &body))
        .collect()
}

struct Load {
    session: Session,
    now: u64,
    events: u64,
}

impl Load {
    /// Under callgrind only what is below this call counts, so not what makes a datagram.
    #[inline(never)]
    fn receive(&mut self, datagram: &[u8]) {
        let now = Ticks(self.now / 1_000);
        self.session.receive(now, datagram).expect("memory");
        while self.session.poll(now).is_some() {
            self.events += 1;
        }
        self.events += u64::from(self.session.next_deadline().is_some_and(|at| at <= now));
    }
}

/// The datagrams before those that are counted.
fn prepare(load: &mut Load, kind: &str, size: u32) {
    (0..2).for_each(|number| load.receive(&packet(5, number, number, true, true)));
    match kind {
        "times" | "reports" | "goodbyes" | "requests" | "blocks" => {}
        "frames" => (2..size.max(3)).for_each(|number| {
            load.receive(&packet(
                5,
                number,
                2,
                number == 2,
                number + 1 == size.max(3),
            ))
        }),
        "gap" | "repeats" | "jumps" => {
            (3..3 + size).for_each(|number| load.receive(&packet(5, number, 2, number == 3, false)))
        }
        "gaps" | "opens" | "fills" => (1..=size)
            .for_each(|place| load.receive(&packet(5, 1 + 2 * place, 2, place == 1, false))),
        "no_media" | "paddings" => {
            (1..=size).for_each(|place| load.receive(&padding(1 + 2 * place)))
        }
        "strays" => (0..size).for_each(|place| load.receive(&packet(place << 8, 0, 0, true, true))),
        "numbered" => (2..2 + size).for_each(|number| load.receive(&numbered(number))),
        other => panic!("{other}: none of the kinds"),
    }
}

/// A datagram of those that are counted.
fn datagram(kind: &str, size: u32, place: u32) -> Vec<u8> {
    match kind {
        "frames" => {
            let (frame, part) = (3 + place / size, place % size);
            packet(5, size.max(3) + place, frame, part == 0, part + 1 == size)
        }
        "gap" => packet(5, 3 + size + place, 3 + place, false, false),
        "gaps" => packet(5, 2 + 2 * size + place, 3 + place, false, false),
        "no_media" => packet(5, 2 + 2 * size + place, 3 + place, false, false),
        "opens" => packet(5, 3 + 2 * (size + place), 3 + place, false, false),
        "fills" => packet(5, 2 + 2 * place, 2, false, false),
        "paddings" => padding(3 + 2 * (size + place)),
        "repeats" => packet(5, 3 + place % size, 2, false, false),
        "jumps" => packet(5, 20_000 + 7_001 * place, 3 + place, false, false),
        "times" => packet(5, 2 + place, place.wrapping_mul(0x9e37_79b9), true, true),
        "reports" => compound(201, 6, size),
        "goodbyes" => compound(203, 1, size),
        "requests" => rtcp(1, 205, &vec![9; 2 + size as usize]),
        "blocks" => red(1 + 40 * place, size),
        "numbered" => numbered(2 + size + place),
        _ => packet((1 << 28) + (place << 8), 0, 0, true, true),
    }
}

fn main() {
    let words: Vec<String> = std::env::args().collect();
    let [_, kind, size, count] = &words[..] else {
        panic!("hostile KIND SIZE COUNT");
    };
    let (size, count): (u32, u32) = (size.parse().unwrap(), count.parse().unwrap());
    let (kind, nack) = match kind.strip_suffix("-plain") {
        Some(kind) => (kind, false),
        None => (&kind[..], true),
    };
    let mut load = Load {
        session: session(nack),
        now: 0,
        events: 0,
    };
    prepare(&mut load, kind, size);
    let datagrams: Vec<Vec<u8>> = (0..count)
        .map(|place| datagram(kind, size, place))
        .collect();
    let before = std::time::Instant::now();
    for datagram in &datagrams {
        load.now += 1;
        load.receive(datagram);
    }
    let nanos = before.elapsed().as_nanos() / u128::from(count.max(1));
    println!("{nanos} ns a datagram, {} events", load.events);
}
