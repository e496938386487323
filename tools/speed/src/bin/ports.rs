//! Passes datagrams through a port with FEC:
//!
//!   ports KIND COUNT
//!
//! KIND is what a counted datagram is, in a port of 64 streams:
//!
//! - `plain`: a packet of VP8 without RED, of a stream without FEC. It has 1,200 bytes and a header extension.
//! - `audio`: a packet of 100 bytes without RED.
//! - `media`: a packet of VP8 in RED.
//! - `last`: the same, of the last of 64 streams.
//! - `fec`: a packet of FEC over 4 packets of media, of which none is lost, and those packets.
//! - `rebuild`: the same, and one is lost: what the rebuilt packet takes is among it.
//! - `stranger`: the first packet of a stream, in a port that is full of streams with one packet.
//!
//! The difference of two runs under callgrind, divided by the difference of their counts, is what a datagram takes.

use codec_payload::fec::{FecPort, FecPortSettings, FecWriter, LateIds};
use codec_payload::payloads::Payloads;
use codec_payload::rtp::{PacketHeader, RtpPacket};

const RED: u8 = 116;
const ULPFEC: u8 = 117;
const VP8: u8 = 96;

fn port() -> FecPort {
    FecPort::new(FecPortSettings {
        red_type: RED,
        fec_type: ULPFEC,
        red_retransmission: Some(118),
        retransmissions: Vec::new(),
        late_ids: LateIds {
            transport_number: Some(3),
            abs_send_time: Some(2),
            ..LateIds::default()
        },
        bytes: 512 * 1_500,
        max_streams: 64,
    })
    .expect("settings that can be met")
}

/// A packet of VP8 with a header extension, in RED or not.
fn packet(ssrc: u32, number: u16, size: usize, is_red: bool) -> Vec<u8> {
    let mut bytes = vec![0x90, if is_red { RED } else { VP8 }];
    bytes.extend(number.to_be_bytes());
    bytes.extend([0, 0, 0, 9]);
    bytes.extend(ssrc.to_be_bytes());
    bytes.extend([0xbe, 0xde, 0, 2, 0x31]);
    bytes.extend(number.to_be_bytes());
    bytes.extend([0x22, 1, 2, 3, 0]);
    if is_red {
        bytes.push(VP8);
    }
    bytes.resize(size, number as u8);
    bytes
}

/// The packet as FEC protects it: without RED, and with zeros in the late elements.
fn protected(in_red: &[u8]) -> Vec<u8> {
    let mut bytes = in_red.to_vec();
    bytes.remove(24);
    bytes[1] = VP8;
    for place in [17, 18, 20, 21, 22] {
        bytes[place] = 0;
    }
    bytes
}

/// FEC over packets, in RED.
fn fec(number: u16, packets: &[Vec<u8>]) -> Vec<u8> {
    let protected: Vec<Vec<u8>> = packets.iter().map(|it| protected(it)).collect();
    let lent: Vec<&[u8]> = protected.iter().map(Vec::as_slice).collect();
    let writer = FecWriter {
        protection: 1,
        keyframe_protection: 1,
    };
    let mut out = Payloads::new(0, 0).expect("memory");
    writer.write(false, &lent, &mut out).expect("a frame");
    let last = RtpPacket::parse(&packets[0]).expect("a packet").header;
    let header = PacketHeader {
        sequence_number: number,
        ..last
    };
    let payload = [&[ULPFEC], out.get(0)].concat();
    let mut bytes = Vec::new();
    let packet = RtpPacket {
        header,
        payload: &payload,
        padding: 0,
    };
    packet.write(&mut bytes).expect("memory");
    bytes
}

/// The datagrams that count.
fn datagrams(kind: &str, count: u32) -> Vec<Vec<u8>> {
    let one = |n: u32| match kind {
        "plain" => packet(900, n as u16, 1_200, false),
        "audio" => packet(900, n as u16, 100, false),
        "media" => packet(1, 1_000 + n as u16, 1_200, true),
        "last" => packet(64, 1_000 + n as u16, 1_200, true),
        _ => packet(1_000 + n, n as u16, 1_200, true),
    };
    let frame = |n: u32| {
        let first = 1_000 + 5 * n as u16;
        let mut all: Vec<Vec<u8>> = (0..4).map(|i| packet(1, first + i, 1_200, true)).collect();
        all.push(fec(first + 4, &all));
        if kind == "rebuild" {
            all.remove(1);
        }
        all
    };
    match kind {
        "fec" | "rebuild" => (0..count).flat_map(frame).collect(),
        _ => (0..count).map(one).collect(),
    }
}

#[inline(never)]
fn pass(port: &mut FecPort, datagrams: &[Vec<u8>], out: &mut Vec<u8>) -> usize {
    let mut sum = 0;
    for datagram in datagrams {
        let passed = port.receive(datagram, out).expect("memory");
        sum += passed.bytes(datagram, out).len();
        while let Some(packet) = port.next_rebuilt().expect("memory") {
            sum += packet.len();
        }
    }
    sum
}

fn main() {
    let words: Vec<String> = std::env::args().collect();
    let count = words[2].parse().expect("a count");
    let mut port = port();
    let mut out = Vec::new();
    // Streams from 1 on, of which those of `stranger` have one packet each; all others are live.
    let packets = if words[1] == "stranger" { 1 } else { 20 };
    for ssrc in 1..=64 {
        for number in 0..packets {
            let datagram = packet(ssrc, 900 + number, 1_200, true);
            port.receive(&datagram, &mut out).expect("memory");
        }
    }
    let all = datagrams(&words[1], count);
    println!("{}", pass(&mut port, &all, &mut out));
}
