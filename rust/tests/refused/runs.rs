//! Sinks, payloaders and whole runs: with each allocation refused in turn, what the call answered and the state after it. The
//! library for C does not have these calls; `tools/refused` does the same for its calls.

use super::{LEFT, MADE};
use codec_payload::schedule::{RedRun, Run, Step, run_schedule};
use codec_payload::*;

/// How many allocations a call makes at most, what it prints with all memory, and what it may print if one is refused.
struct Wanted {
    allocations: usize,
    whole: &'static str,
    refused: &'static [&'static str],
}

/// Refuses each allocation of a call in turn. `tell` returns the answer and the state after it as text; it has memory.
fn refuse_each<T, R>(
    wanted: &Wanted,
    make: impl Fn() -> T,
    call: impl Fn(&mut T) -> R,
    tell: impl Fn(T, R) -> String,
) {
    let mut on = make();
    MADE.set(0);
    let answer = call(&mut on);
    let count = MADE.get();
    assert_eq!(tell(on, answer), wanted.whole);
    assert!(count <= wanted.allocations, "{count} allocations");
    let mut found = Vec::new();
    for place in 0..count {
        let mut on = make();
        LEFT.set(place);
        let answer = call(&mut on);
        LEFT.set(usize::MAX);
        found.push(tell(on, answer));
    }
    for text in &found {
        assert!(wanted.refused.contains(&text.as_str()), "{text}");
    }
    for text in wanted.refused {
        assert!(found.iter().any(|it| it == text), "{text} never comes");
    }
}

fn digits(bytes: &[u8]) -> String {
    bytes.iter().map(|it| format!("{it:02x}")).collect()
}

/// Each packet of a sink, as its number and its payload.
fn packets(sink: &MemorySink) -> String {
    let packets = sink.packets().iter();
    packets
        .map(|it| format!(" {}: {}", it.seq_no.0, digits(&it.payload)))
        .collect()
}

fn answer(answer: Result<(), PacketError>) -> String {
    match answer {
        Ok(()) => "ok".into(),
        Err(fault) => format!("fault {}", fault.number()),
    }
}

/// A sample of payload type 96, at that many ticks of 8 kHz.
fn sample(time: u64, bytes: &[u8]) -> ToPayload {
    ToPayload {
        pt: Pt::new_with_value(96),
        wallclock: Ticks(0),
        rtp_time: MediaTime::new(time, Frequency::EIGHT_KHZ),
        bytes: bytes.to_vec(),
        start_of_talk_spurt: false,
        ext_vals: ExtensionValues::default(),
    }
}

fn packet(number: SeqNo, time: u32, payload: Vec<u8>) -> OutgoingPacket {
    OutgoingPacket {
        pt: Pt::new_with_value(96),
        seq_no: number,
        rtp_time: time,
        wallclock: Ticks(0),
        marker: false,
        nackable: false,
        ext_vals: ExtensionValues::default(),
        payload,
    }
}

#[test]
fn memory_sink_send() {
    refuse_each(
        &Wanted {
            allocations: 1,
            whole: "ok 1: 0102, next 2",
            refused: &["fault 17, next 1"],
        },
        || (MemorySink::new(1), vec![1, 2]),
        |(sink, payload)| sink.send(packet(SeqNo(1), 0, std::mem::take(payload))),
        |(mut sink, _), sent| {
            format!(
                "{}{}, next {}",
                answer(sent),
                packets(&sink),
                sink.next_seq_no().0
            )
        },
    );
}

/// The packet after it shows what the sender in RED remembered.
#[test]
fn red_sink_send() {
    let types = [63, 111].map(Pt::new_with_value);
    refuse_each(
        &Wanted {
            allocations: 3,
            whole: "ok, then 1: 6f0102 2: ef0f00026f010203",
            refused: &[
                "fault 17, then 1: 6f03",
                "fault 17, then 1: ef0f00026f010203",
            ],
        },
        || {
            (
                MemorySink::new(1),
                RedSender::new(types[0], types[1], &[1]),
                vec![1, 2],
            )
        },
        |(sink, sender, payload)| {
            RedSink::new(sink, sender, 1_200).send(packet(SeqNo(1), 0, std::mem::take(payload)))
        },
        |(mut sink, mut sender, _), sent| {
            let mut red = RedSink::new(&mut sink, &mut sender, 1_200);
            let number = red.next_seq_no();
            red.send(packet(number, 960, vec![3]))
                .expect("there is memory");
            format!("{}, then{}", answer(sent), packets(&sink))
        },
    );
}

/// A sample of VP8 in five packets. The sample after it, in one packet, shows the picture id.
#[test]
fn push_sample() {
    let first = sample(0, &[0x90, 0x91, 0x92, 0x93, 0x94]);
    let packetizer = || CodecPacketizer::Vp8(Vp8Packetizer::with_picture_id(0x20));
    refuse_each(
        &Wanted {
            allocations: 8,
            whole: "ok 1: 90802090 2: 80802091 3: 80802092 4: 80802093 5: 80802094, then 6: 90802195",
            refused: &[
                "fault 17, then 1: 90802095",
                "fault 17, then 1: 90802195",
                "fault 17 1: 90802090 2: 80802091 3: 80802092 4: 80802093, then 5: 90802195",
            ],
        },
        || {
            let payloader: Payloader =
                Payloader::with_packetizer(packetizer(), Frequency::EIGHT_KHZ);
            (payloader, MemorySink::new(1))
        },
        |(payloader, sink)| payloader.push_sample(&first, 4, sink),
        |(mut payloader, mut sink), sent| {
            let before = packets(&sink);
            let second = sample(960, &[0x95]);
            payloader
                .push_sample(&second, 4, &mut sink)
                .expect("there is memory");
            let after = packets(&sink);
            format!("{}{before}, then{}", answer(sent), &after[before.len()..])
        },
    );
}

/// Opus at 8 kHz.
const OPUS: CodecSpec = CodecSpec {
    codec: Codec::Opus,
    clock_rate: Frequency::EIGHT_KHZ,
    octet_align: false,
};

fn payloader() -> Payloader {
    Payloader::new(OPUS, Vp9PacketizerMode::NonFlexible, 0).expect("Opus has one")
}

fn buffer() -> DepacketizingBuffer {
    DepacketizingBuffer::new(
        CodecDepacketizer::from_codec(Codec::Opus).expect("Opus has one"),
        0,
    )
}

fn unit(popped: Option<Result<Depacketized, PacketError>>) -> String {
    match popped {
        None => " none".into(),
        Some(Err(fault)) => format!(" fault {}", fault.number()),
        Some(Ok(unit)) => {
            let (first, last) = unit.seq_range().into_inner();
            let contiguous = u8::from(unit.contiguous);
            format!(
                " unit {} {} {contiguous} {}",
                first.0,
                last.0,
                digits(&unit.bytes)
            )
        }
    }
}

/// The units that a run popped, or its fault; the packets in the sink, and what the buffer holds.
fn run_and_state(
    run: Result<Run, PacketError>,
    sink: &MemorySink,
    buffer: &DepacketizingBuffer,
) -> String {
    let run = match run {
        Ok(run) => run.pops.into_iter().map(unit).collect(),
        Err(fault) => format!(" fault {}", fault.number()),
    };
    let state = format!(" held {} ready {}", buffer.held(), buffer.ready());
    format!("run{run}{}{state}", packets(sink))
}

/// All units that can be popped.
fn rest(mut buffer: DepacketizingBuffer) -> String {
    let popped = std::iter::from_fn(|| buffer.pop());
    popped.map(|it| unit(Some(it))).collect()
}

/// One sample of Opus in two packets, and then the rest of the buffer.
#[test]
fn a_run() {
    const STEPS: [Step; 6] = [
        Step::Send { sample: 0, mtu: 2 },
        Step::Push(0),
        Step::Push(1),
        Step::Pop,
        Step::Pop,
        Step::Pop,
    ];
    let samples = [sample(960, &[0x90, 0x90, 0x91])];
    refuse_each(
        &Wanted {
            allocations: 17,
            whole: "run unit 10 10 1 9090 unit 11 11 1 91 none 10: 9090 11: 91 held 0 ready 0, then",
            refused: &[
                "run fault 17 held 0 ready 0, then",
                "run fault 17 10: 9090 11: 91 held 0 ready 0, then",
                "run fault 17 10: 9090 11: 91 held 1 ready 1, then unit 10 10 1 9090",
                "run fault 17 10: 9090 11: 91 held 2 ready 2, then unit 10 10 1 9090 unit 11 11 1 91",
                "run fault 17 10: 9090 11: 91 held 1 ready 1, then unit 11 11 1 91",
            ],
        },
        || (payloader(), buffer(), MemorySink::new(10)),
        |(payloader, buffer, sink)| run_schedule(payloader, buffer, sink, &samples, &STEPS, None),
        |(_, buffer, sink), run| {
            format!(
                "{}, then{}",
                run_and_state(run, &sink, &buffer),
                rest(buffer)
            )
        },
    );
}

/// Two samples of Opus in RED, of whose packets only the second is pushed. The payload that is wrapped after the run shows the
/// payloads that the sender remembers.
#[test]
fn a_run_in_red() {
    const STEPS: [Step; 4] = [
        Step::Send {
            sample: 0,
            mtu: 1_199,
        },
        Step::Send {
            sample: 1,
            mtu: 1_199,
        },
        Step::Push(1),
        Step::Pop,
    ];
    let samples = [sample(0, &[0x90, 0x90]), sample(160, &[0x91])];
    let receiver = RedReceiver::new(96, 160).expect("the step is in range");
    let types = [63, 96].map(Pt::new_with_value);
    refuse_each(
        &Wanted {
            allocations: 21,
            whole: "run unit 10 10 1 9090 10: 609090 11: e002800260909091 held 1 ready 1, wraps e0028001609192, then unit 11 11 1 91",
            refused: &[
                "run fault 17 held 0 ready 0, wraps 6092, then",
                "run fault 17 held 0 ready 0, wraps e005000260909092, then",
                "run fault 17 10: 609090 held 0 ready 0, wraps e005000260909092, then",
                "run fault 17 10: 609090 11: e002800260909091 held 0 ready 0, wraps e0028001609192, then",
                "run fault 17 10: 609090 11: e002800260909091 held 1 ready 1, wraps e0028001609192, then unit 10 10 1 9090",
                "run fault 17 10: 609090 11: e002800260909091 held 2 ready 2, wraps e0028001609192, then unit 10 10 1 9090 unit 11 11 1 91",
            ],
        },
        || {
            (
                payloader(),
                buffer(),
                RedSender::new(types[0], types[1], &[1]),
                MemorySink::new(10),
            )
        },
        |(payloader, buffer, sender, sink)| {
            let red = RedRun {
                sender,
                budget: 1_200,
                receiver: &receiver,
            };
            run_schedule(payloader, buffer, sink, &samples, &STEPS, Some(red))
        },
        |(_, buffer, mut sender, sink), run| {
            let run = run_and_state(run, &sink, &buffer);
            let next = sender
                .wrap(vec![0x92], 320, 1_200)
                .expect("there is memory");
            format!("{run}, wraps {}, then{}", digits(&next), rest(buffer))
        },
    );
}
