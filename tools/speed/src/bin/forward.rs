//! Forwards packets of VP8 to viewers:
//!
//!   forward KIND LEFT COUNT
//!
//! Before the packets that count, so many packets of an upper layer are left out, one between two that are written. KIND is what a
//! counted packet is:
//!
//! - `write`: the next packet, to 32 viewers. It has 1,100 bytes, 17 packets a frame and a PictureID of 15 bits.
//! - `late`: a packet that comes below all that were left out.
//! - `again`: a packet with such a number is looked up for a request, and written again.
//! - `leave`: the next packet is left out.
//!
//! The difference of two runs under callgrind, divided by the difference of their counts, is what a packet takes.

use codec_payload::Codec;
use codec_payload::forward::{ForwardSettings, Forwarded, Forwarder};
use codec_payload::history::{History, HistorySettings};
use codec_payload::rtp::packet::RtpPacket;

const VIEWERS: usize = 32;
/// How many packets come between the first one and those that are left out. `late` loses them, and passes them afterwards.
const BEFORE: u64 = 1_024;

/// The packet with this number.
fn packet(number: u64, out: &mut [u8]) {
    let picture = number / 17;
    out[0] = 0x80;
    out[1] = 96 | if number % 17 == 16 { 0x80 } else { 0 };
    out[2..4].copy_from_slice(&(number as u16).to_be_bytes());
    out[4..8].copy_from_slice(&((picture * 3_000) as u32).to_be_bytes());
    out[8..12].copy_from_slice(&7_u32.to_be_bytes());
    out[12] = if number.is_multiple_of(17) { 0x90 } else { 0x80 };
    out[13] = 0xC0;
    out[14] = 0x80 | (picture >> 8) as u8 & 0x7F;
    out[15] = picture as u8;
    out[16] = (picture / 2) as u8;
    if number.is_multiple_of(17) {
        out[17] = if number == 0 { 0x10 } else { 0x11 };
    }
}

struct Load {
    viewers: Vec<Forwarder>,
    store: History,
    bytes: Vec<u8>,
    out: Vec<u8>,
    next: u64,
}

impl Load {
    fn new() -> Load {
        let viewer = |place| {
            let settings = ForwardSettings {
                codec: Codec::Vp8,
                ssrc: 1_000 + place,
                payload_type: 96,
                first_number: 77 * place as u16,
                first_time: 5,
                retransmissions: None,
            };
            let mut viewer = Forwarder::new(settings).unwrap();
            viewer.want(7);
            viewer
        };
        let settings = HistorySettings {
            limit: 16_384,
            interval: 0,
            stream: None,
        };
        Load {
            viewers: (0..VIEWERS as u32).map(viewer).collect(),
            store: History::new(settings).unwrap(),
            bytes: vec![7; 1_112],
            out: Vec::with_capacity(1_500),
            next: 0,
        }
    }

    /// Writes the next packet for the first of the viewers, or leaves it out, and keeps it.
    fn go_on(&mut self, writes: bool) {
        packet(self.next, &mut self.bytes);
        self.store.keep(&self.bytes).unwrap();
        let packet = RtpPacket::parse(&self.bytes).unwrap();
        let answer = if writes {
            self.viewers[0].write(self.next * 50, &packet, &mut self.out)
        } else {
            self.viewers[0].leave_out(&packet, &mut self.out)
        };
        assert!(answer.is_ok());
        self.next += 1;
    }
}

/// Writes the next packet for each viewer.
#[inline(never)]
fn write(load: &mut Load) {
    let packet = RtpPacket::parse(&load.bytes).unwrap();
    for viewer in &mut load.viewers {
        let answer = viewer.write(load.next * 50, &packet, &mut load.out);
        assert!(matches!(answer, Ok(Forwarded::Written | Forwarded::Began)));
    }
}

/// Writes a packet that comes late.
#[inline(never)]
fn late(load: &mut Load) {
    let packet = RtpPacket::parse(&load.bytes).unwrap();
    let answer = load.viewers[0].write(load.next * 50, &packet, &mut load.out);
    assert_eq!(answer, Ok(Forwarded::Written));
}

/// Answers a request for a number of the viewer's stream.
#[inline(never)]
fn again(load: &mut Load, number: u16) {
    let packet = load.viewers[0].requested(number, &load.store).unwrap();
    assert_eq!(load.viewers[0].write_again(&packet, &mut load.out), Ok(true));
}

/// Leaves the next packet out.
#[inline(never)]
fn leave(load: &mut Load) {
    let packet = RtpPacket::parse(&load.bytes).unwrap();
    let answer = load.viewers[0].leave_out(&packet, &mut load.out);
    assert_eq!(answer, Ok(Forwarded::LeftOut));
}

fn main() {
    let words: Vec<String> = std::env::args().collect();
    let [_, kind, left, count] = &words[..] else {
        panic!("forward KIND LEFT COUNT");
    };
    let (left, count): (u64, u64) = (left.parse().unwrap(), count.parse().unwrap());
    let mut load = Load::new();
    if kind == "write" {
        for _ in 0..count {
            packet(load.next, &mut load.bytes);
            write(&mut load);
            load.next += 1;
        }
        return;
    }
    load.go_on(true);
    let first = load.next;
    for _ in 0..BEFORE {
        if kind == "late" {
            load.next += 1; // lost between the source and the server
        } else {
            load.go_on(true);
        }
    }
    for _ in 0..left {
        load.go_on(false);
        load.go_on(true);
    }
    for place in 0..count {
        match kind.as_str() {
            "late" => {
                packet(first + place, &mut load.bytes);
                late(&mut load);
            }
            "again" => again(&mut load, (first + place) as u16),
            "leave" => {
                packet(load.next, &mut load.bytes);
                load.next += 1;
                leave(&mut load);
            }
            _ => panic!("no such kind: {kind}"),
        }
    }
}
