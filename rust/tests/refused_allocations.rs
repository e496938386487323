//! With the feature `fallible`, each allocation of each call is refused in turn: the call reports out of memory, and a second call
//! with memory succeeds or fails as its input says. Nothing aborts.
#![cfg(feature = "fallible")]

#[path = "refused/choice.rs"]
mod choice;
#[allow(dead_code, reason = "the tests of sessions use the rest")]
#[path = "sessions/datagrams.rs"]
mod datagrams;
#[path = "refused/descriptors.rs"]
mod descriptors;
#[path = "refused/fec.rs"]
mod fec;
#[path = "refused/runs.rs"]
mod runs;

use codec_payload::jitter::{JitterBuffer, Outcome, WaitLimits};
use codec_payload::media::av1::{Av1SequenceHeader, front_obu, write_av1c};
use codec_payload::rtp::{ExtensionIds, RtpPacket};
use codec_payload::sender::{Sample, Sender, SenderSettings};
use codec_payload::session::{
    Arrival, Event, FeedbackSettings, Session, SessionSettings, SsrcPair,
};
use codec_payload::stream::{ReceiveError, Receiver, ReceiverSettings, RedSettings};
use codec_payload::*;
use datagrams::*;
use std::alloc::{GlobalAlloc, Layout, System};
use std::cell::Cell;

thread_local! {
    /// How many allocations this thread may still make, and how many it made.
    static LEFT: Cell<usize> = const { Cell::new(usize::MAX) };
    static MADE: Cell<usize> = const { Cell::new(0) };
}

/// The system's allocator, which refuses one allocation.
struct Refusing;

fn is_refused() -> bool {
    MADE.set(MADE.get() + 1);
    let left = LEFT.get();
    LEFT.set(left.saturating_sub(1));
    left == 0
}

// SAFETY: it passes each call on to `System`, or returns null, which an allocator may.
unsafe impl GlobalAlloc for Refusing {
    unsafe fn alloc(&self, layout: Layout) -> *mut u8 {
        if is_refused() {
            std::ptr::null_mut()
        } else {
            unsafe { System.alloc(layout) }
        }
    }

    unsafe fn dealloc(&self, place: *mut u8, layout: Layout) {
        unsafe { System.dealloc(place, layout) }
    }

    unsafe fn realloc(&self, place: *mut u8, layout: Layout, size: usize) -> *mut u8 {
        if is_refused() {
            std::ptr::null_mut()
        } else {
            unsafe { System.realloc(place, layout, size) }
        }
    }
}

#[global_allocator]
static ALLOCATOR: Refusing = Refusing;

/// How a call ended.
#[derive(Clone, Copy, Debug, PartialEq)]
enum End {
    Done,
    OutOfMemory,
    OtherFault,
}

fn end_of(answer: Result<(), PacketError>) -> End {
    match answer {
        Ok(()) => End::Done,
        Err(PacketError::OutOfMemory) => End::OutOfMemory,
        Err(_) => End::OtherFault,
    }
}

/// Refuses each allocation of a call in turn. `make` makes what the call works on, with all memory that it asks for. Returns how many
/// allocations were refused.
fn refuse_each<T>(name: &str, make: impl Fn() -> T, call: impl Fn(&mut T) -> End) -> usize {
    let mut on = make();
    MADE.set(0);
    let wanted = call(&mut on);
    let count = MADE.get();
    assert_ne!(wanted, End::OutOfMemory, "{name}: with all memory");
    for place in 0..count {
        let mut on = make();
        LEFT.set(place);
        let end = call(&mut on);
        LEFT.set(usize::MAX);
        assert_eq!(
            end,
            End::OutOfMemory,
            "{name}: allocation {place} of {count}"
        );
        assert_ne!(
            call(&mut on),
            End::OutOfMemory,
            "{name}: after allocation {place}"
        );
    }
    count
}

const CODECS: [Codec; 11] = [
    Codec::Opus,
    Codec::PCMU,
    Codec::PCMA,
    Codec::G722,
    Codec::CN,
    Codec::AmrWb,
    Codec::Tele,
    Codec::Vp8,
    Codec::Vp9,
    Codec::Av1,
    Codec::Null,
];

fn packetizer(codec: Codec) -> CodecPacketizer {
    CodecPacketizer::from_codec(codec).expect("it has one")
}

fn depacketizer(codec: Codec) -> CodecDepacketizer {
    CodecDepacketizer::from_codec(codec).expect("it has one")
}

/// A frame of a codec that takes several packets at an MTU of 100, if the format has such.
fn frame(codec: Codec) -> Vec<u8> {
    match codec {
        Codec::CN => vec![40, 1, 2],
        Codec::Tele => vec![5, 0x8a, 3, 0x20],
        Codec::AmrWb => [vec![0x04], vec![7; 17]].concat(),
        Codec::Av1 => [
            vec![0x12, 0, 0x0a, 3, 1, 2, 3, 0x32, 0x96, 1],
            vec![0x10; 150],
            [0x32, 1, 9].repeat(20),
        ]
        .concat(),
        _ => vec![0x82; 350],
    }
}

fn meta(number: u64, marker: bool) -> RtpMeta {
    let time = MediaTime::from_90khz(3_000);
    let mut meta = RtpMeta::of(number.into(), time, 96.into(), Ticks(number));
    meta.header.marker = marker;
    meta
}

/// A buffer with the packets of one frame.
fn filled(codec: Codec, packets: &[Vec<u8>]) -> DepacketizingBuffer {
    let mut buffer = DepacketizingBuffer::new(depacketizer(codec), 0);
    for (place, payload) in packets.iter().enumerate() {
        buffer
            .push(
                meta(place as u64, place + 1 == packets.len()),
                payload.clone(),
            )
            .expect("there is memory");
    }
    buffer
}

#[test]
fn formats() {
    let mut refused = 0;
    for codec in CODECS {
        let frame = frame(codec);
        let packets = packetizer(codec)
            .packetize(100, &frame)
            .expect("it is a frame");
        refused += refuse_each(
            &format!("packetize {codec}"),
            || packetizer(codec),
            |it| end_of(it.packetize(100, &frame).map(drop)),
        );
        refused += refuse_each(
            &format!("packetize_into {codec}"),
            || (packetizer(codec), Payloads::new(12, 0).unwrap()),
            |(it, out)| end_of(it.packetize_into(100, &frame, out)),
        );
        refused += refuse_each(
            &format!("depacketize {codec}"),
            || depacketizer(codec),
            |it| end_of(it.depacketize(&packets[0], &mut Vec::new(), &mut CodecExtra::None)),
        );
        refused += refuse_each(
            &format!("push {codec}"),
            || {
                (
                    DepacketizingBuffer::new(depacketizer(codec), 0),
                    Some(packets[0].clone()),
                )
            },
            |(buffer, payload)| match payload.take() {
                Some(payload) => end_of(buffer.push(meta(0, true), payload)),
                None => End::Done,
            },
        );
        refused += refuse_each(
            &format!("pop {codec}"),
            || filled(codec, &packets),
            |it| match it.pop() {
                Some(answer) => end_of(answer.map(drop)),
                None => End::OtherFault,
            },
        );
        refused += refuse_each(
            &format!("pop_unit {codec}"),
            || (filled(codec, &packets), PoppedUnit::new()),
            |(it, unit)| match it.pop_unit(unit) {
                Some(answer) => end_of(answer),
                None => End::OtherFault,
            },
        );
    }
    println!("formats: {refused} refused");
    assert!(refused > 100, "{refused}");
}

#[test]
fn queues_that_grow_and_shrink() {
    let many: Vec<_> = (0..600).map(|_| vec![1]).collect();
    let refused = refuse_each(
        "pop of one of 600",
        || filled(Codec::Opus, &many),
        |it| match it.pop() {
            Some(answer) => end_of(answer.map(drop)),
            None => End::OtherFault,
        },
    );
    assert!(refused >= 2, "{refused}");
    // Queues give memory back while units leave; refusing that changes nothing.
    let mut buffer = filled(Codec::Opus, &many);
    let mut unit = PoppedUnit::new();
    // The first unit finds memory for all, which are of one size.
    let first = buffer.pop_unit(&mut unit);
    assert!(matches!(first, Some(Ok(()))));
    LEFT.set(0);
    let mut popped = 1;
    while let Some(answer) = buffer.pop_unit(&mut unit) {
        popped += usize::from(answer.is_ok());
    }
    LEFT.set(usize::MAX);
    assert_eq!(popped, 600);
}

#[test]
fn redundancy() {
    let sender = || {
        let mut red = RedSender::new(63.into(), 96.into(), &[1, 2]);
        for time in 0..4 {
            red.wrap(vec![time as u8; 30], time * 960, 1_200).unwrap();
        }
        (red, Some(vec![4; 30]))
    };
    let wrapped = sender().0.wrap(vec![4; 30], 4 * 960, 1_200).unwrap();
    let mut refused = refuse_each("wrap", sender, |(red, payload)| match payload.take() {
        Some(payload) => end_of(red.wrap(payload, 4 * 960, 1_200).map(drop)),
        None => End::Done,
    });
    refused += refuse_each(
        "decode",
        || (),
        |()| end_of(RedDecoder::decode(&wrapped).map(drop)),
    );
    let receiver = RedReceiver::new(96, 960).unwrap();
    refused += refuse_each(
        "recover",
        || (),
        |()| end_of(receiver.recover(4.into(), 4 * 960, &wrapped).map(drop)),
    );
    println!("redundancy: {refused} refused");
    assert!(refused > 3, "{refused}");
}

fn sender() -> Result<Sender, sender::SenderError> {
    let settings = SenderSettings {
        mtu: 100,
        ..SenderSettings::for_stream(96, 7, Frequency::NINETY_KHZ)
    };
    Sender::new(packetizer(Codec::Vp8), settings)
}

fn sample(bytes: &[u8]) -> Sample<'_> {
    Sample {
        rtp_time: MediaTime::from_90khz(0),
        bytes,
        start_of_talk_spurt: false,
        ext_vals: ExtensionValues::default(),
    }
}

#[test]
fn datagrams() {
    let mut sent = sender().unwrap();
    sent.send(&sample(&[0x10; 250])).unwrap();
    let first = sent.datagram(0).to_vec();
    let mut refused = refuse_each(
        "a sender",
        || (),
        |()| match sender() {
            Ok(_) => End::Done,
            Err(sender::SenderError::OutOfMemory) => End::OutOfMemory,
            Err(_) => End::OtherFault,
        },
    );
    refused += refuse_each(
        "send",
        || sender().unwrap(),
        |it| end_of(it.send(&sample(&[0x10; 250]))),
    );
    let receiver = || {
        let mut settings = ReceiverSettings::for_stream(96, Codec::Vp8, Frequency::NINETY_KHZ);
        settings.wait_limits = WaitLimits::file();
        settings.ssrc = Some(7);
        settings.red = Some(RedSettings {
            payload_type: 63,
            step: 960,
            retransmission: None,
        });
        Receiver::new(depacketizer(Codec::Vp8), settings).unwrap()
    };
    refused += refuse_each("receive", receiver, |it: &mut Receiver| {
        match it.receive(Ticks(0), &first) {
            Ok(_) => End::Done,
            Err(ReceiveError::OutOfMemory) => End::OutOfMemory,
            Err(_) => End::OtherFault,
        }
    });
    let full = || {
        let mut it: Receiver = receiver();
        for datagram in sent.datagrams() {
            it.receive(Ticks(0), datagram).unwrap();
        }
        it
    };
    refused += refuse_each("pop of a receiver", full, |it| match it.pop(Ticks(0)) {
        Some(answer) => end_of(answer.map_err(PacketError::from).map(drop)),
        None => End::OtherFault,
    });
    let waiting = || {
        let mut settings = ReceiverSettings::for_stream(96, Codec::Vp8, Frequency::NINETY_KHZ);
        settings.wait_limits = WaitLimits::file();
        let mut it: Receiver = Receiver::new(depacketizer(Codec::Vp8), settings).unwrap();
        assert_eq!(it.receive(Ticks(0), &first), Ok(Outcome::Undecided));
        it
    };
    let ends = refuse_each("the end of a receiver", waiting, |it| {
        let is_open = it.counters().undecided == 1;
        match it.finish() {
            Ok(()) => {
                assert_eq!((it.counters().undecided, it.held()), (0, 1));
                End::Done
            }
            Err(AllocError) => {
                assert!(is_open && it.counters().undecided == 1 && it.held() == 0);
                End::OutOfMemory
            }
        }
    });
    assert!(ends > 0, "the packet that waits takes memory");
    refused += ends;
    let packet = RtpPacket::parse(&first).unwrap();
    refused += refuse_each("an RTP packet", Vec::new, |out| {
        out.clear();
        end_of(packet.write(out).map_err(|_| PacketError::OutOfMemory))
    });
    println!("datagrams: {refused} refused");
    assert!(refused > 8, "{refused}");
}

/// An Opus packet of that number.
fn header(number: u16) -> RtpHeader {
    RtpHeader {
        payload_type: Pt::new_with_value(111),
        sequence_number: number,
        timestamp: 960 * u32::from(number),
        ssrc: 7,
        marker: false,
        ext_vals: ExtensionValues::default(),
    }
}

/// A jitter buffer that received packet 100, and then the suspect packet 30,000.
fn suspicious() -> JitterBuffer {
    let mut it = JitterBuffer::new(
        depacketizer(Codec::Opus),
        Frequency::FORTY_EIGHT_KHZ,
        WaitLimits::file(),
    );
    let first = it.push(Ticks(0), header(100), vec![1]);
    assert_eq!(first, Ok(Outcome::Held));
    let second = it.push(Ticks(1), header(30_000), vec![2]);
    assert_eq!(second, Ok(Outcome::Suspect));
    it
}

/// The bytes of all units, once the stream has ended.
fn units(it: &mut JitterBuffer) -> Vec<Vec<u8>> {
    it.finish();
    let mut units = Vec::new();
    while let Some(unit) = it.pop(Ticks(9)) {
        units.push(unit.unwrap().bytes);
    }
    units
}

/// Refuses each allocation of the call that confirms a restart. Nothing has changed then, and no packet is lost.
fn refuse_restart(
    call: impl Fn(&mut JitterBuffer, Vec<u8>) -> Result<bool, PacketError>,
    all: &[Vec<u8>],
) {
    let mut it = suspicious();
    let payload = vec![3];
    MADE.set(0);
    assert_eq!(call(&mut it, payload), Ok(true));
    let count = MADE.get();
    assert_eq!(units(&mut it), all);
    assert!(count >= 2, "{count}");
    for place in 0..count {
        let mut it = suspicious();
        let before = (it.counters(), it.held());
        let payload = vec![3];
        LEFT.set(place);
        let end = call(&mut it, payload);
        LEFT.set(usize::MAX);
        assert_eq!(end, Err(PacketError::OutOfMemory), "{place} of {count}");
        assert_eq!((it.counters(), it.held()), before);
        assert_eq!(call(&mut it, vec![3]), Ok(true), "{place} of {count}");
        assert_eq!(units(&mut it), all, "{place} of {count}");
    }
}

#[test]
fn restarts_lose_no_packet() {
    refuse_restart(
        |it, payload| {
            let outcome = it.push(Ticks(2), header(30_001), payload)?;
            Ok(outcome == Outcome::Restarted(true))
        },
        &[vec![1], vec![2], vec![3]],
    );
    refuse_restart(
        |it, _| {
            it.push_no_media(30_001)?;
            Ok(it.counters().restarts == 1 && it.held() == 2)
        },
        &[vec![1], vec![2]],
    );
}

#[test]
fn values_and_media() {
    let ids = {
        let mut ids = ExtensionIds::default();
        ids.video_orientation = Some(1);
        ids
    };
    let values = ExtensionValues {
        video_orientation: Some(3),
        ..ExtensionValues::default()
    };
    let mut refused = refuse_each("values", Vec::new, |out| {
        out.clear();
        end_of(
            ids.write(&values, out)
                .map(drop)
                .map_err(|_| PacketError::OutOfMemory),
        )
    });
    let unit = [0x0a, 0x0a, 0, 0, 0, 2, 0xaf, 0xf7, 0x9b, 0x5f, 0x20, 8];
    let (obu, _) = front_obu(&unit).unwrap();
    let header = Av1SequenceHeader::parse(obu.payload).unwrap();
    refused += refuse_each("av1C", Vec::new, |out| {
        out.clear();
        end_of(write_av1c(&header, &unit, out).map_err(|_| PacketError::OutOfMemory))
    });
    println!("values and media: {refused} refused");
    assert!(refused >= 2, "{refused}");
}

/// A session that requests what its streams miss, under a name.
fn requesting() -> Session {
    let mut settings = SessionSettings::live();
    settings.formats.push({
        let mut format = opus_format();
        format.nack = true;
        format.retransmission = Some(97);
        format
    });
    settings.feedback = Some({
        let mut settings = FeedbackSettings::live(1, b"me@host".to_vec());
        settings.cname = vec![b'n'; 20];
        settings.has_report = true;
        settings
    });
    Session::new(settings).expect("settings that can be met")
}

/// A datagram that begins a stream changes nothing if an allocation is refused.
#[test]
fn streams_that_request() {
    let first = opus(7, 1);
    let refused = refuse_each("the first datagram", requesting, |session| {
        match session.receive(Ticks(0), &first) {
            Ok(_) => End::Done,
            Err(AllocError) => End::OutOfMemory,
        }
    });
    assert!(refused >= 3, "{refused}");
}

/// If an allocation is refused, the request is reported as out of memory, and the next poll returns it.
#[test]
fn requests_of_a_session() {
    let received = || {
        let mut session = requesting();
        for number in [1, 2, 4] {
            session.receive(Ticks(0), &opus(7, number)).unwrap();
        }
        session
    };
    let missing_one = || {
        let mut session = received();
        while session.poll(Ticks(0)).is_some() {}
        session
    };
    let mut refused = refuse_each(
        "a poll with a request",
        missing_one,
        |session| match session.poll(Ticks(10)) {
            Some(Event::Feedback { packet: Ok(_), .. }) => End::Done,
            Some(Event::Feedback {
                packet: Err(AllocError),
                ..
            }) => End::OutOfMemory,
            _ => End::OtherFault,
        },
    );
    refused += refuse_each(
        "a poll that finds a number missing",
        || {
            let mut session = received();
            for _ in 0..3 {
                let _ = session.poll(Ticks(0));
            }
            session
        },
        |session| match session.poll(Ticks(0)) {
            None => End::Done,
            Some(Event::Feedback {
                packet: Err(AllocError),
                ..
            }) => End::OutOfMemory,
            Some(_) => End::OtherFault,
        },
    );
    assert!(refused >= 8, "{refused}");
}

/// A poll whose report finds no memory returns the error and changes nothing: the next poll returns the whole report.
#[test]
fn report_of_a_session() {
    let due = || {
        let mut session = requesting();
        for number in [1, 2, 4] {
            session.receive(Ticks(0), &opus(7, number)).unwrap();
        }
        while session.poll(Ticks(0)).is_some() {}
        // The requests of the missing number are over.
        session.receive(Ticks(1), &opus(7, 3)).unwrap();
        while session.poll(Ticks(1)).is_some() {}
        session.receive(Ticks(2), &opus(7, 6)).unwrap();
        session.receive(Ticks(2), &opus(7, 5)).unwrap();
        while session.poll(Ticks(2)).is_some() {}
        session.receive(Ticks(3), &opus(7, 8)).unwrap();
        while session.poll(Ticks(900)).is_some() {}
        session
    };
    let wanted = {
        let mut session = due();
        loop {
            match session.poll(Ticks(1_000)) {
                Some(Event::Report { packet }) => break packet.unwrap(),
                event => assert!(event.is_some()),
            }
        }
    };
    // 8 packets are expected, and 1 is lost: 256 / 8.
    assert_eq!(&wanted[12..16], &[32, 0, 0, 1]);
    let refused = refuse_each("a poll with a report", due, |session| {
        loop {
            match session.poll(Ticks(1_000)) {
                Some(Event::Report { packet: Ok(packet) }) => {
                    assert_eq!(packet, wanted);
                    return End::Done;
                }
                Some(Event::Report {
                    packet: Err(AllocError),
                })
                | Some(Event::Feedback { packet: Err(_), .. }) => return End::OutOfMemory,
                event => assert!(event.is_some()),
            }
        }
    });
    assert!(refused >= 3, "{refused}");
}

/// A session of VP8 with retransmissions and of Opus in RED, that requests what it misses. Only the given number of allocations
/// succeed.
struct Life {
    session: Session,
    left: usize,
    refused: bool,
    events: Vec<String>,
}

impl Life {
    fn new(left: usize) -> Life {
        let mut settings = SessionSettings::live();
        settings.formats = answered_formats();
        settings.telephone_events = vec![EVENTS];
        settings.pairs = vec![SsrcPair {
            ssrc: 5,
            retransmission: 50,
        }];
        settings.max_streams = 3;
        settings.feedback = Some({
            let mut settings = FeedbackSettings::live(1, b"me@host".to_vec());
            settings.cname = vec![b'n'; 20];
            settings.has_report = true;
            settings
        });
        Life {
            session: Session::new(settings).expect("settings that can be met"),
            left,
            refused: false,
            events: Vec::new(),
        }
    }

    /// Makes a call, and notes whether an allocation was refused in it. All later allocations succeed.
    fn call<T>(&mut self, call: impl FnOnce(&mut Session) -> T) -> T {
        MADE.set(0);
        LEFT.set(self.left);
        let answer = call(&mut self.session);
        LEFT.set(usize::MAX);
        self.refused = MADE.get() > self.left;
        self.left = if self.refused {
            usize::MAX
        } else {
            self.left - MADE.get()
        };
        answer
    }

    /// The counters of the session and of each stream, and the number of held packets.
    fn state(&self) -> String {
        let streams = (0..self.session.stream_count()).map(|place| self.session.stream_at(place));
        let streams: Vec<_> = streams.collect();
        format!("{:?} {streams:?}", self.session.counts())
    }

    /// If memory ran out, nothing has changed, and the datagram is passed again. If it ran out for a block of RED, the same
    /// datagram brings the block.
    fn receive(&mut self, now: u64, datagram: &[u8]) {
        let before = self.state();
        let answer = self.call(|session| session.receive(Ticks(now), datagram));
        let blocks = ReceiveError::BlocksOutOfMemory;
        match answer {
            Err(AllocError) => assert_eq!((self.refused, self.state()), (true, before)),
            Ok(Arrival::Faulty { fault, .. }) if fault == blocks => assert!(self.refused),
            Ok(_) => return,
        }
        assert!(self.session.receive(Ticks(now), datagram).is_ok());
    }

    /// Polls until there is no event. If memory ran out, the next poll returns the same event.
    fn poll(&mut self, now: u64) {
        while let Some(event) = self.call(|session| session.poll(Ticks(now))) {
            match event {
                Event::Unit { unit: Err(_), .. }
                | Event::Feedback { packet: Err(_), .. }
                | Event::Report { packet: Err(_) } => assert!(self.refused),
                event => self.events.push(format!("{now}: {event:?}")),
            }
        }
    }

    /// All that happens to a session: streams begin, packets are lost and requested, RED and retransmissions bring them, a stray
    /// is replaced, and streams end in each way.
    fn live(&mut self) {
        let again = packet(RTX, 50, 9, 9_000, &[&[0, 3], vp8_frame(false)].concat());
        let block = [0x80 | OPUS, 0x0f, 0, 2, OPUS, 3, 7, 4, 7];
        let datagrams = [
            (0, vp8(5, 1, true)),
            (5, opus(6, 1)),
            (20, vp8(5, 2, false)),
            (25, opus(6, 2)),
            (40, vp8(5, 4, false)),
            (60, packet(RED, 6, 4, 3_840, &block)),
            (80, opus(99, 1)),
            (100, packet(EVENTS, 5, 5, 12_000, &[1, 2, 3, 4])),
            (120, again),
            (140, opus(7, 1)),
            (160, vp8(5, 9, false)),
            (180, bye(6)),
            (900, opus(7, 2)),
        ];
        for (now, datagram) in datagrams {
            self.receive(now, &datagram);
            self.poll(now);
            while let Some(at) = self.session.next_deadline().filter(|at| at.0 < now + 15) {
                self.poll(at.0);
            }
        }
        self.call(|session| session.end(Ticks(900), 7));
        self.poll(900);
        self.call(|session| session.finish(Ticks(910)));
        self.poll(910);
        assert_eq!(self.session.stream_count(), 0);
        let counts = self.session.counts();
        assert_eq!(counts.received, counts.rtcp + counts.ended);
    }
}

/// Each allocation in the life of a session is refused in turn, and the events are the same.
#[test]
fn a_session_from_its_first_datagram_to_its_end() {
    let mut whole = Life::new(usize::MAX);
    whole.live();
    let count = usize::MAX - whole.left;
    println!("a session: {count} refused, {} events", whole.events.len());
    assert!(count > 80 && whole.events.len() > 15);
    for place in 0..count {
        let mut life = Life::new(place);
        life.live();
        assert!(life.left > count, "allocation {place} was not refused");
        assert_eq!(life.events, whole.events, "allocation {place} of {count}");
    }
}

/// A packet of telephone events that finds no memory is not counted, no stream takes it, and it can be passed again.
#[test]
fn telephone_events_of_a_session() {
    let received = || {
        let mut settings = SessionSettings::live();
        settings.formats.push(opus_format());
        settings.telephone_events.push(EVENTS);
        let mut session = Session::new(settings).expect("settings that can be met");
        session.receive(Ticks(0), &opus(7, 1)).unwrap();
        session
    };
    let digit = packet(EVENTS, 7, 2, 960, &[1, 10, 0, 160]);
    let refused = refuse_each("telephone events", received, |session| {
        let end = match session.receive(Ticks(0), &digit) {
            Ok(_) => End::Done,
            Err(AllocError) => End::OutOfMemory,
        };
        let waits = matches!(session.poll(Ticks(0)), Some(Event::Telephone { .. }));
        let taken = session.stream_at(0).unwrap().taken;
        let counted = session.counts().received == taken;
        match (end, waits, taken) {
            (End::Done, true, 2) | (End::OutOfMemory, false, 1) if counted => end,
            _ => End::OtherFault,
        }
    });
    assert!(refused >= 3, "{refused}");
}

/// A pair that finds no memory leaves the pairs that were named before.
#[test]
fn pairs_of_a_session() {
    let again = [0x80, 97, 0, 9, 0, 0, 0, 2, 0, 0, 0, 70, 0, 2, 1, 2];
    let named = || {
        let mut session = requesting();
        session.add_pair(7, 70).unwrap();
        session.receive(Ticks(0), &opus(7, 1)).unwrap();
        session
    };
    let refused = refuse_each("a pair", named, |session| match session.add_pair(8, 80) {
        Ok(()) => End::Done,
        Err(AllocError) => {
            // The packet goes to its stream, for which there is no memory either.
            let arrival = session.receive(Ticks(0), &again);
            assert!(!matches!(arrival, Ok(Arrival::Unassociated)));
            End::OutOfMemory
        }
    });
    assert!(refused >= 1, "{refused}");
}

/// A buffer of Opus with packets of these numbers.
fn holding(numbers: impl Iterator<Item = u64>) -> DepacketizingBuffer {
    let depacketizer = CodecDepacketizer::from_codec(Codec::Opus).unwrap();
    let mut buffer = DepacketizingBuffer::with_limit(depacketizer, 9_000, 10_000);
    for number in numbers {
        push_number(&mut buffer, number).unwrap();
    }
    buffer
}

fn push_number(buffer: &mut DepacketizingBuffer, number: u64) -> Result<(), PacketError> {
    let time = MediaTime::from_90khz(number);
    let meta = RtpMeta::of(SeqNo(number), time, Pt::from(96), Ticks(number));
    buffer.push(meta, Vec::new())
}

/// Above 1,024 packets the queue asks for tiers of 1,024 places, each before it is needed. A refused push changes nothing, and the
/// next one stores the packet.
#[test]
fn tiers_of_a_queue() {
    for held in [1_024, 1_025, 2_049] {
        for number in [2 * held + 1, held | 1, 3] {
            let make = || (holding((1..=held).map(|it| 2 * it)), Vec::with_capacity(1));
            let count = refuse_each(
                &format!("{number} beside {held} packets"),
                make,
                |(buffer, before): &mut (DepacketizingBuffer, Vec<usize>)| {
                    let held = buffer.held();
                    let end = end_of(push_number(buffer, number));
                    let expected = held + usize::from(end == End::Done && before.is_empty());
                    assert_eq!(buffer.held(), expected, "{number}");
                    if end == End::Done {
                        before.push(held);
                    }
                    assert_eq!(buffer.holds(SeqNo(number)), end == End::Done);
                    end
                },
            );
            assert!(count >= 2, "{count} allocations for {number} beside {held}");
        }
    }
}
