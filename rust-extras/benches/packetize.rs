//! Times of `packetize`, `packetize_into` and `depacketize`, and of a copy of the same bytes.

use codec_payload::*;
use criterion::{BenchmarkId, Criterion, Throughput, black_box, criterion_group, criterion_main};

/// A frame that the codec takes.
fn frame(codec: Codec, size: usize) -> Vec<u8> {
    match codec {
        Codec::Av1 => {
            let (low, high) = ((size % 128) as u8 | 0x80, (size / 128) as u8);
            [&[0x12, 0, 0x32, low, high][..], &vec![0x10; size]].concat()
        }
        _ => vec![0x86; size],
    }
}

fn formats(criterion: &mut Criterion) {
    for (codec, size) in [
        (Codec::Opus, 120),
        (Codec::Vp8, 1_000),
        (Codec::Vp8, 16_000),
        (Codec::Vp9, 1_000),
        (Codec::Vp9, 16_000),
        (Codec::Av1, 1_000),
        (Codec::Av1, 16_000),
    ] {
        let frame = frame(codec, size);
        let mut packetizer: CodecPacketizer = CodecPacketizer::from_codec(codec).unwrap();
        let packets = packetizer.packetize(1_200, &frame).unwrap();
        let mut group = criterion.benchmark_group(codec.to_string());
        group.throughput(Throughput::Bytes(size as u64));
        group.bench_function(BenchmarkId::new("copy", size), |it| {
            it.iter(|| black_box(&frame).to_vec())
        });
        group.bench_function(BenchmarkId::new("packetize", size), |it| {
            it.iter(|| packetizer.packetize(1_200, black_box(&frame)))
        });
        let mut out = Payloads::new(12, 0).unwrap();
        group.bench_function(BenchmarkId::new("packetize_into", size), |it| {
            it.iter(|| packetizer.packetize_into(1_200, black_box(&frame), &mut out));
        });
        let mut depacketizer: CodecDepacketizer = CodecDepacketizer::from_codec(codec).unwrap();
        let mut bytes = Vec::new();
        group.bench_function(BenchmarkId::new("depacketize", size), |it| {
            it.iter(|| {
                let mut extra = CodecExtra::None;
                bytes.clear();
                for packet in &packets {
                    depacketizer
                        .depacketize(black_box(packet), &mut bytes, &mut extra)
                        .unwrap();
                }
            });
        });
        group.finish();
    }
}

criterion_group!(benches, formats);
criterion_main!(benches);
