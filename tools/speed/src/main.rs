//! `speed CODEC SIZE CALL COUNT` makes one call COUNT times, and prints the nanoseconds of one call: the least of 12 rounds.
//!
//! CALL is `copy`, `packetize`, `packetize_into` or `depacketize`; `none` makes no call, and shows what the program itself takes.

use codec_payload::*;
use std::hint::black_box;
use std::time::Instant;

const ROUNDS: u32 = 12;

/// A frame that the codec takes.
fn frame(codec: Codec, size: usize) -> Vec<u8> {
    if codec != Codec::Av1 {
        return vec![0x86; size];
    }
    let mut leb = [0; 9];
    let count = wire::encode_leb_u63(size as u64, &mut leb);
    [&[0x12, 0, 0x32][..], &leb[..count], &vec![0x10; size]].concat()
}

/// The least time of a call in nanoseconds.
fn timed(count: u32, mut call: impl FnMut()) -> f64 {
    let mut least = f64::MAX;
    for _ in 0..ROUNDS {
        let began = Instant::now();
        for _ in 0..count {
            call();
        }
        least = least.min(began.elapsed().as_nanos() as f64 / f64::from(count));
    }
    least
}

fn main() -> Result<(), Box<dyn std::error::Error>> {
    let words: Vec<String> = std::env::args().collect();
    let [_, codec, size, call, count] = words.as_slice() else {
        return Err("usage: speed CODEC SIZE CALL COUNT".into());
    };
    let (codec, size, count) = (codec.parse()?, size.parse()?, count.parse()?);
    let frame = frame(codec, size);
    let mut packetizer: CodecPacketizer =
        CodecPacketizer::from_codec(codec).ok_or("no packetizer")?;
    let mut depacketizer: CodecDepacketizer =
        CodecDepacketizer::from_codec(codec).ok_or("no depacketizer")?;
    let packets = packetizer.packetize(1_200, &frame)?;
    let (mut out, mut bytes) = (Payloads::new(12, 0)?, Vec::new());
    let time = match call.as_str() {
        "none" => timed(count, || {}),
        "copy" => {
            let mut copy = vec![0; frame.len()];
            timed(count, || {
                copy.copy_from_slice(black_box(&frame));
                black_box(&mut copy);
            })
        }
        "packetize" => timed(count, || {
            drop(black_box(packetizer.packetize(1_200, black_box(&frame))))
        }),
        "packetize_into" => timed(count, || {
            packetizer
                .packetize_into(1_200, black_box(&frame), &mut out)
                .unwrap()
        }),
        "depacketize" => timed(count, || {
            bytes.clear();
            let mut extra = CodecExtra::None;
            for packet in &packets {
                depacketizer
                    .depacketize(black_box(packet), &mut bytes, &mut extra)
                    .unwrap();
            }
            black_box((&bytes, extra));
        }),
        _ => return Err("no such call".into()),
    };
    println!("{time:.1}");
    Ok(())
}
