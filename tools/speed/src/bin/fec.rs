//! Receives packets of a stream with FEC, and sends them:
//!
//!   fec KIND PACKETS COUNT
//!
//! KIND is what is counted. Packets have 1,200 bytes, those of groups of 48 have 1,500.
//!
//! - `media`: a packet of media while none is lost. `whole`: FEC over PACKETS packets, none of which is lost.
//! - `rebuild`: FEC over PACKETS packets, one of which is lost and is rebuilt. `beside`: the same while 64 packets of FEC protect the same
//!   packets and miss two each.
//! - `marks`: a packet of media that 64 packets of FEC with 48 bits protect, each of which misses two.
//! - `window`: the first packet of another window, after 512 packets of media.
//! - `push`: a packet of a frame of PACKETS is sent in RED. `finish`: the FEC of such a frame, one packet for three.
//!
//! The difference of two runs under callgrind, divided by the difference of their counts, is what a datagram takes.

use codec_payload::fec::{
    FecReceiver, FecSender, FecSenderSettings, FecSettings, FecWriter, LateIds,
};
use codec_payload::payloads::Payloads;

const SSRC: u32 = 7;
const RED: u8 = 116;
const ULPFEC: u8 = 117;
const MEDIA: u8 = 96;

/// A packet of media without RED.
fn media(number: u16, size: usize) -> Vec<u8> {
    let mut out = vec![0x80, MEDIA];
    out.extend(number.to_be_bytes());
    out.extend(u32::from(number).to_be_bytes());
    out.extend(SSRC.to_be_bytes());
    out.resize(size, number as u8);
    out
}

/// A datagram of RED with one block.
fn in_red(number: u16, kind: u8, contents: &[u8]) -> Vec<u8> {
    let mut out = media(number, 12);
    out[1] = RED;
    out.push(kind);
    out.extend(contents);
    out
}

/// FEC over numbers from `base` on by a mask of 48 bits, whose sums are those of `packets`.
fn fec(base: u16, mask: u64, packets: &[Vec<u8>]) -> Vec<u8> {
    let longest = packets.iter().map(Vec::len).max().unwrap_or(12);
    let mut sum = vec![0; longest];
    let mut size = 0;
    for packet in packets {
        size ^= (packet.len() - 12) as u16;
        sum.iter_mut()
            .zip(packet)
            .for_each(|(to, from)| *to ^= from);
    }
    let mut out = vec![0x40 | sum[0] & 0x3f, sum[1]];
    out.extend(base.to_be_bytes());
    out.extend(&sum[4..8]);
    out.extend(size.to_be_bytes());
    out.extend((longest as u16 - 12).to_be_bytes());
    out.extend(&mask.to_be_bytes()[2..]);
    out.extend(&sum[12..]);
    out
}

fn new_receiver() -> FecReceiver {
    FecReceiver::new(FecSettings {
        ssrc: SSRC,
        red_type: RED,
        fec_type: ULPFEC,
        late_ids: LateIds::default(),
        bytes: 1 << 20,
    })
    .unwrap()
}

/// Passes a datagram, and says whether a packet is rebuilt.
#[inline(never)]
fn counted(receiver: &mut FecReceiver, datagram: &[u8]) -> bool {
    receiver.receive(datagram).unwrap();
    receiver.next_rebuilt().unwrap().is_some()
}

/// Passes a datagram that does not count.
#[inline(never)]
fn passed(receiver: &mut FecReceiver, datagram: &[u8]) {
    receiver.receive(datagram).unwrap();
    assert!(receiver.next_rebuilt().unwrap().is_none());
}

/// Fills a receiver with a group whose packet `lost` does not come, and returns its FEC.
fn group(receiver: &mut FecReceiver, base: u16, packets: usize, lost: usize) -> Vec<u8> {
    let size = if packets == 48 { 1_500 } else { 1_200 };
    let all: Vec<Vec<u8>> = (0..packets).map(|i| media(base + i as u16, size)).collect();
    for (place, packet) in all.iter().enumerate() {
        if place != lost {
            passed(receiver, &in_red(base + place as u16, MEDIA, &packet[12..]));
        }
    }
    let mask = ((1 << packets) - 1) << (48 - packets);
    in_red(base + packets as u16, ULPFEC, &fec(base, mask, &all))
}

fn receive(kind: &str, packets: usize, count: usize) {
    for round in 0..count {
        let mut receiver = new_receiver();
        let base = 1_000 + 100 * round as u16;
        let lost = if kind == "whole" {
            packets
        } else {
            packets / 2
        };
        if kind == "marks" || kind == "beside" {
            // Two or more of the protected numbers are missing.
            let first = if kind == "beside" { base - 1 } else { base };
            for n in 0..64 {
                let strange = fec(first, (1 << 48) - 1, &[vec![n; 1_300]]);
                passed(&mut receiver, &in_red(base + 500, ULPFEC, &strange));
            }
        }
        let datagram = match kind {
            "media" | "marks" => {
                for place in 0..packets as u16 {
                    passed(&mut receiver, &in_red(base + place, MEDIA, &[1; 1_187]));
                }
                in_red(base + packets as u16, MEDIA, &[1; 1_187])
            }
            "window" => {
                for place in 0..packets as u16 {
                    passed(&mut receiver, &in_red(base + place, MEDIA, &[1; 1_187]));
                }
                in_red(base + 40_000, MEDIA, &[1; 1_187])
            }
            "beside" => {
                let fec = group(&mut receiver, base, packets, lost);
                // Each datagram tries two packets of FEC: after these all were tried.
                for place in 0..40 {
                    passed(&mut receiver, &in_red(base + 100 + place, MEDIA, &[1; 100]));
                }
                fec
            }
            _ => group(&mut receiver, base, packets, lost),
        };
        let rebuilds = counted(&mut receiver, &datagram);
        assert_eq!(rebuilds, kind == "rebuild" || kind == "beside");
    }
}

#[inline(never)]
fn counted_push(sender: &mut FecSender, packet: &[u8], out: &mut Vec<u8>) {
    sender.push(packet, out).unwrap();
}

#[inline(never)]
fn counted_finish(sender: &mut FecSender, out: &mut Payloads) {
    sender.finish_frame(false, out).unwrap();
}

fn send(packets: u16, count: usize) {
    let mut sender = FecSender::new(FecSenderSettings {
        ssrc: SSRC,
        red_type: RED,
        fec_type: ULPFEC,
        first_number: 1,
        writer: FecWriter {
            protection: 85,
            keyframe_protection: 85,
        },
        late_ids: LateIds::default(),
    })
    .unwrap();
    let (mut out, mut behind) = (Vec::new(), Payloads::new(0, 0).unwrap());
    let mut number = 0u16;
    for _ in 0..count {
        for _ in 0..packets {
            let packet = media(number, 1_200);
            number = number.wrapping_add(1);
            counted_push(&mut sender, &packet, &mut out);
        }
        counted_finish(&mut sender, &mut behind);
        assert_eq!(behind.len(), usize::from((packets + 1) / 3));
    }
}

fn main() {
    let words: Vec<String> = std::env::args().collect();
    let [_, kind, packets, count] = &words[..] else {
        panic!("fec KIND PACKETS COUNT");
    };
    let (packets, count): (usize, usize) = (packets.parse().unwrap(), count.parse().unwrap());
    match kind.as_str() {
        "push" | "finish" => send(packets as u16, count),
        _ => receive(kind, packets, count),
    }
}
