//! The generated crate beside the proved library, in one process: each call of both answers the same.
//!
//! `twin COUNT` makes COUNT random sequences of calls of packetizers, depacketizers, receivers, sessions, histories, limits of
//! waiting, paths and offers each; `twin FOLDER` takes the sequences of depacketizers and receivers from the fuzzer's corpora, FOLDER/depacketize and FOLDER/receiver. `twin
//! changed COUNT` prints what the crate reads of COUNT changed copies of the session description on its standard input, as
//! c/tests/descriptions.c does.

#[path = "../../../rust/tests/sdp/dump.rs"]
mod descriptions;
mod histories;
#[path = "../../fuzz/src/input.rs"]
mod input;
mod paths;
mod proved;
mod proved_history;
mod proved_session;
mod random;
mod sessions;
mod waits;

use codec_payload::jitter::WaitLimits;
use codec_payload::stream::{Receiver, ReceiverSettings, RedSettings, Retransmission};
use codec_payload::{
    Codec, CodecDepacketizer, CodecExtra, CodecPacketizer, CodecSpec, Depacketizer, Frequency,
    Packetizer, Ticks, Vp8Packetizer, Vp9PacketizerMode,
};
use histories::histories;
use input::Input;
use paths::{offers, paths};
use random::random_bytes;
use sessions::sessions;
use std::collections::HashMap;
use std::fmt::Debug;
use waits::waits;

const FLEXIBLE: u32 = 1;
const VP8_IDS: u32 = 2;
const OCTET_ALIGN: u32 = 4;
/// Codecs, their numbers in the header and their clock rates.
const CODECS: [(Codec, u32, u32); 10] = [
    (Codec::Opus, 0, 48_000),
    (Codec::PCMU, 1, 8_000),
    (Codec::G722, 3, 8_000),
    (Codec::CN, 4, 8_000),
    (Codec::AmrWb, 5, 16_000),
    (Codec::Vp8, 9, 90_000),
    (Codec::Vp9, 10, 90_000),
    (Codec::Av1, 11, 90_000),
    (Codec::Null, 12, 90_000),
    (Codec::Tele, 13, 8_000),
];

/// `CPAY_OUT_OF_MEMORY`. No allocation is refused here, so no call may answer it.
const OUT_OF_MEMORY: u32 = 17;

/// How many calls were compared, and which fault is which status.
#[derive(Default)]
struct Compared {
    calls: u64,
    faults: HashMap<String, u32>,
}

impl Compared {
    /// The same fault has the same status each time, and is not out of memory.
    fn fault(&mut self, fault: &dyn Debug, status: u32) {
        let text = format!("{fault:?}");
        assert!(
            !text.contains("OutOfMemory") && !text.contains("AllocError"),
            "{text}, and no memory was refused"
        );
        let known = *self.faults.entry(text).or_insert(status);
        assert_eq!(known, status, "{fault:?}");
    }

    /// Compares two answers.
    fn answers<T: PartialEq + Debug>(
        &mut self,
        ours: Result<T, impl Debug>,
        theirs: Result<T, u32>,
    ) {
        self.calls += 1;
        match (ours, theirs) {
            (Ok(ours), Ok(theirs)) => assert_eq!(ours, theirs),
            (Err(fault), Err(status)) => {
                assert_ne!(status, OUT_OF_MEMORY, "{fault:?}");
                self.fault(&fault, status);
            }
            (ours, theirs) => panic!("{ours:?} and {theirs:?}"),
        }
    }
}

fn codec(input: &mut Input) -> (CodecSpec, proved::Spec) {
    let (codec, number, rate) = CODECS[usize::from(input.byte()) % CODECS.len()];
    let flags = u32::from(input.byte()) & 7;
    let clock_rate = Frequency::make(rate).unwrap();
    let spec = CodecSpec {
        codec,
        clock_rate,
        octet_align: flags & OCTET_ALIGN != 0,
    };
    (
        spec,
        proved::Spec {
            codec: number,
            rate,
            flags,
        },
    )
}

fn depacketizer(spec: &CodecSpec) -> CodecDepacketizer {
    let mut it = CodecDepacketizer::from_codec(spec.codec).unwrap();
    it.configure_for(spec);
    it
}

fn packetizer(spec: &CodecSpec, flags: u32, id: u16) -> CodecPacketizer {
    if spec.codec == Codec::Vp8 && flags & VP8_IDS != 0 {
        return CodecPacketizer::Vp8(Vp8Packetizer::with_picture_id(id));
    }
    let mode = if flags & FLEXIBLE != 0 {
        Vp9PacketizerMode::Flexible
    } else {
        Vp9PacketizerMode::NonFlexible
    };
    let mut it = CodecPacketizer::new(spec.codec, mode, id).unwrap();
    it.configure_for(spec);
    it
}

/// A frame, which is often one of the codec.
fn frame(codec: Codec, input: &mut Input) -> Vec<u8> {
    let size = if input.byte() & 3 == 0 {
        usize::from(input.word()) % 3_000
    } else {
        usize::from(input.byte() % 80)
    };
    let frame = input.take(size);
    match codec {
        Codec::Av1 if input.byte() & 1 == 0 => {
            [&[0x12, 0, 0x0a, 3, 1, 2, 3, 0x30][..], frame].concat()
        }
        Codec::AmrWb if input.byte() & 1 == 0 => [&[0x44][..], &[7; 60]].concat(),
        _ => frame.to_vec(),
    }
}

fn packetize(input: &mut Input, compared: &mut Compared) {
    let (spec, theirs) = codec(input);
    let id = input.word() % 32_768;
    let mut ours = packetizer(&spec, theirs.flags, id);
    let mut theirs = proved::Packetizer::new(theirs, id).unwrap();
    for _ in 0..6 {
        let mtu = if input.byte() & 1 == 0 {
            usize::from(input.byte())
        } else {
            usize::from(input.word()) % 1_500
        };
        let frame = frame(spec.codec, input);
        let nackable = ours.nackable();
        let packets = ours.packetize(mtu, &frame).map(|it| {
            it.into_iter()
                .map(|payload| (payload, nackable))
                .collect::<Vec<_>>()
        });
        compared.answers(packets, theirs.packetize(mtu, &frame));
    }
}

fn extra_of(extra: &CodecExtra) -> [u64; 3] {
    match extra {
        CodecExtra::None => [0, 0, 0],
        CodecExtra::Vp8(it) => [1, it.is_keyframe.into(), it.picture_id.unwrap_or(0)],
        CodecExtra::Vp9(it) => [2, it.is_keyframe.into(), it.picture_id.unwrap_or(0)],
        CodecExtra::Av1(it) => [3, it.is_keyframe.into(), 0],
        CodecExtra::Tele(_) => [4, 0, 0],
        _ => unreachable!("this version has no other"),
    }
}

fn depacketize(input: &mut Input, compared: &mut Compared) {
    let (spec, theirs) = codec(input);
    let mut ours = depacketizer(&spec);
    let mut theirs = proved::Depacketizer::new(theirs).unwrap();
    let (mut out, mut extra) = (Vec::new(), CodecExtra::None);
    while !input.is_empty() {
        if input.byte() & 0x80 != 0 {
            compared.answers(
                Ok::<_, ()>((std::mem::take(&mut out), extra_of(&extra))),
                theirs.take(),
            );
            extra = CodecExtra::None;
        }
        let payload = input.some();
        compared.answers(
            ours.depacketize(payload, &mut out, &mut extra),
            theirs.depacketize(payload),
        );
    }
    compared.answers(Ok::<_, ()>((out, extra_of(&extra))), theirs.take());
}

/// Settings of a receiver, and the same as the shim reads them.
fn settings(spec: &CodecSpec, input: &mut Input) -> (ReceiverSettings, [u64; 9]) {
    let how = input.byte();
    let hold_back = (how & 1 == 0).then(|| usize::from(input.byte() % 9));
    let max_wait = (how & 2 != 0).then(|| u64::from(input.byte()));
    let limit = if how & 16 == 0 {
        4_096
    } else {
        1 + u64::from(input.byte() % 40)
    };
    let (forward, backward) = if how & 32 == 0 {
        (3_000, 1_000)
    } else {
        (input.word(), input.word())
    };
    let step = if how & 4 != 0 {
        1 + u32::from(input.byte())
    } else {
        0
    };
    let retransmission = u64::from(how & 8 != 0) * 2;
    let mut ours = ReceiverSettings::for_stream(96, spec.codec, spec.clock_rate);
    ours.no_media = vec![97, 13];
    ours.ssrc = Some(1);
    ours.wait_limits = {
        let mut limits = WaitLimits::live();
        limits.hold_back = hold_back;
        limits.start = usize::from(input.byte() % 5);
        limits.max_wait = max_wait;
        limits
    };
    ours.red = (step > 0).then_some(RedSettings {
        payload_type: 63,
        step,
        retransmission: (retransmission > 0).then_some(99),
    });
    ours.retransmission = (retransmission > 0).then_some(Retransmission {
        ssrc: 2,
        payload_type: 98,
    });
    (ours.limit, ours.forward, ours.backward) = (limit as usize, forward, backward);
    let values = [
        hold_back.map_or(usize::MAX, |it| it) as u64,
        ours.wait_limits.start as u64,
        max_wait.unwrap_or(u64::MAX),
        limit,
        forward.into(),
        backward.into(),
        1_000,
        step.into(),
        retransmission,
    ];
    (ours, values)
}

/// A datagram, which is mostly of the stream and near the number before.
fn datagram(kind: u8, how: u8, number: &mut u16, input: &mut Input) -> Vec<u8> {
    if kind == 5 {
        return input.some().to_vec();
    }
    *number = match kind {
        6..12 => number.wrapping_add(1),
        12 => number.wrapping_sub(u16::from(how / 16)),
        13 => number.wrapping_add(u16::from(how / 16)),
        14 => input.word(),
        _ => *number,
    };
    let flags = input.byte();
    let payload_type = [96, 63, 98, 97, 99, 96, 96, 96][usize::from(flags >> 4 & 7)];
    let is_again = payload_type == 98 || payload_type == 99;
    let mut bytes = vec![
        0x80 | if flags & 0x80 != 0 {
            input.byte() & 0x3f
        } else {
            0
        },
        payload_type | (flags & 1) << 7,
    ];
    bytes.extend(number.to_be_bytes());
    bytes.extend(u32::to_be_bytes(if flags & 2 == 0 {
        u32::from(*number / 3) * 90
    } else {
        u32::from(input.word())
    }));
    bytes.extend(u32::to_be_bytes(if is_again { 2 } else { 1 }));
    if is_again {
        bytes.extend(number.wrapping_sub(u16::from(how / 16)).to_be_bytes());
    }
    bytes.extend(input.some());
    bytes
}

fn receive(input: &mut Input, compared: &mut Compared) {
    let (spec, theirs) = codec(input);
    let (settings, values) = settings(&spec, input);
    let ours: Result<Receiver, _> = Receiver::new(depacketizer(&spec), settings);
    let theirs = proved::Receiver::new(theirs, &values);
    assert_eq!(ours.is_ok(), theirs.is_some());
    let (Ok(mut ours), Some(mut theirs)) = (ours, theirs) else {
        return;
    };
    let (mut now, mut number) = (0_u64, input.word());
    while !input.is_empty() {
        let how = input.byte();
        match how % 16 {
            0 | 1 => pop(&mut ours, &mut theirs, now, compared),
            2 => now = now.wrapping_add(u64::from(how / 16) * u64::from(input.byte())),
            3 => assert_eq!(
                ours.missing(usize::from(how)).collect::<Vec<_>>(),
                theirs.missing(usize::from(how))
            ),
            4 if how >> 4 == 0 => {
                ours.finish().unwrap();
                theirs.finish();
            }
            4 => assert_eq!(ours.next_deadline().map(|it| it.0), theirs.next_deadline()),
            kind => {
                let datagram = datagram(kind, how, &mut number, input);
                let ours = ours
                    .receive(Ticks(now), &datagram)
                    .map(|outcome| format!("{outcome:?}"));
                compared.calls += 1;
                match (ours, theirs.receive(now, &datagram)) {
                    // Each outcome has a number, which is remembered as the status of a fault is.
                    (Ok(outcome), Ok(number)) => compared.fault(&outcome, number),
                    (Err(fault), Err(status)) => {
                        assert_ne!(status, OUT_OF_MEMORY, "{fault:?}");
                        compared.fault(&fault, status);
                    }
                    (ours, theirs) => panic!("{ours:?} and {theirs:?}"),
                }
            }
        }
    }
    let (all, packets) = (ours.counters(), ours.counters().packets);
    let counts = [
        all.received,
        all.malformed,
        packets.released,
        packets.evicted,
        packets.recovered,
        packets.late,
        packets.suspect,
        packets.duplicates,
        packets.units,
    ];
    assert_eq!(counts, theirs.counts());
}

fn pop(ours: &mut Receiver, theirs: &mut proved::Receiver, now: u64, compared: &mut Compared) {
    let unit = ours
        .pop(Ticks(now))
        .map(|it| it.expect("there is memory").into_result());
    let time = ours.unit_time().unwrap_or(0);
    let unit = unit.map(|it| {
        it.map(|it| {
            let range = it.seq_range();
            (
                [range.start().0, range.end().0, time, it.contiguous.into()],
                it.bytes,
            )
        })
    });
    match (unit, theirs.pop(now)) {
        (None, None) => compared.calls += 1,
        (Some(ours), Some(theirs)) => compared.answers(ours, theirs),
        (ours, theirs) => panic!("{ours:?} and {theirs:?}"),
    }
}

type Sequence = fn(&mut Input, &mut Compared);

/// Prints the sections that are read from changed copies of a session description.
fn print_changed(count: &str) {
    let given = std::io::read_to_string(std::io::stdin()).expect("a description of UTF-8");
    for seed in 0..count.parse().expect("a count") {
        let text = descriptions::changed(&given, seed);
        print!("{}", descriptions::dump(&text));
    }
}

fn main() {
    let mut words = std::env::args().skip(1);
    let word = words
        .next()
        .expect("usage: twin COUNT | twin FOLDER | twin changed COUNT");
    if word == "changed" {
        return print_changed(&words.next().expect("a count"));
    }
    let sequences: [(&str, Sequence); 8] = [
        ("packetize", packetize),
        ("depacketize", depacketize),
        ("receiver", receive),
        ("session", sessions),
        ("history", histories),
        ("wait", waits),
        ("path", paths),
        ("offer", offers),
    ];
    let mut calls = 0;
    for (name, sequence) in sequences {
        let mut compared = Compared::default();
        if let Ok(count) = word.parse::<u64>() {
            for seed in 0..count {
                sequence(&mut Input(&random_bytes(seed)), &mut compared);
            }
        } else if let Ok(files) = std::fs::read_dir(format!("{word}/{name}")) {
            for file in files {
                let bytes = std::fs::read(file.expect("a file").path()).expect("it can be read");
                sequence(&mut Input(&bytes), &mut compared);
            }
        }
        println!(
            "{name}: {} calls, {} kinds of faults and outcomes",
            compared.calls,
            compared.faults.len()
        );
        calls += compared.calls;
    }
    println!("twin: {calls} calls of both, all the same");
}
