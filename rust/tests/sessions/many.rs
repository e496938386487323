//! Many sessions at once, each with one sender: each is what it is alone. And the memory of a session and of a stream.

use crate::datagrams::*;
use crate::live_bytes;
use codec_payload::rtcp::{CompoundRule, RtcpPacket, read_compound};
use codec_payload::session::*;
use codec_payload::stream::Receiver;
use codec_payload::*;
use std::collections::BTreeMap;

/// An event as a caller keeps it.
#[derive(Debug, PartialEq)]
enum Told {
    Begun,
    Unit(Vec<u8>),
    Requests(Vec<u8>),
    Report(Vec<u8>),
    Ended,
}

/// A session with a sender of audio or video that answers its requests. The network loses every tenth packet.
struct Call {
    session: Session,
    ssrc: u32,
    number: u16,
    dice: Dice,
    /// The retransmissions on their way, by the time at which they come.
    on_the_way: BTreeMap<u64, Vec<u16>>,
    told: Vec<Told>,
}

fn settings() -> SessionSettings {
    let mut settings = SessionSettings::live();
    settings.formats = vec![
        {
            let mut format = answered_vp8();
            format.retransmission = None;
            format
        },
        answered_opus(),
    ];
    settings.feedback = Some(FeedbackSettings::live(1, b"me@host".to_vec()));
    settings
}

impl Call {
    fn new(ssrc: u32) -> Call {
        Call {
            session: Session::new(settings()).expect("settings that can be met"),
            ssrc,
            number: 0,
            dice: Dice(ssrc),
            on_the_way: BTreeMap::new(),
            told: Vec::new(),
        }
    }

    /// Sends a packet unless the network loses it. Every second sender sends video, with a keyframe each 50 frames.
    fn send(&mut self, now: u64, number: u16) {
        let datagram = if self.ssrc % 2 == 0 {
            vp8(self.ssrc, number, number % 50 == 0)
        } else {
            opus(self.ssrc, number)
        };
        if self.dice.below(10) > 0 {
            let arrival = self.session.receive(Ticks(now), &datagram);
            assert!(matches!(arrival, Ok(Arrival::Stream { .. })));
        }
    }

    /// The sender answers a NACK after 40 ms.
    fn answer(&mut self, now: u64, packet: &[u8]) {
        for packet in read_compound(CompoundRule::ReducedSize, packet).expect("it is RTCP") {
            if let RtcpPacket::Nack(nack) = packet {
                let due = self.on_the_way.entry(now + 40).or_default();
                due.extend(nack.numbers());
            }
        }
    }

    /// The next 20 ms: retransmissions, the next packet, and all events.
    fn step(&mut self, now: u64) {
        let later = self.on_the_way.split_off(&(now + 1));
        for number in std::mem::replace(&mut self.on_the_way, later)
            .into_values()
            .flatten()
        {
            self.send(now, number);
        }
        self.send(now, self.number);
        self.number += 1;
        self.poll(now);
    }

    fn poll(&mut self, now: u64) {
        while let Some(event) = self.session.poll(Ticks(now)) {
            let told = match event {
                Event::Begun { .. } => Told::Begun,
                Event::Unit { unit, .. } => Told::Unit(unit.expect("it is valid").bytes),
                Event::Refused { fault, .. } => unreachable!("{fault}"),
                Event::Feedback { packet, .. } => Told::Requests(packet.expect("there is memory")),
                Event::Telephone { .. } => unreachable!("nobody sends telephone events"),
                Event::Report { packet } => Told::Report(packet.expect("there is memory")),
                Event::Ended { .. } => Told::Ended,
                _ => unreachable!("this version has no other"),
            };
            if let Told::Requests(packet) = &told {
                self.answer(now, packet);
            }
            self.told.push(told);
        }
    }

    fn finish(&mut self, now: u64) {
        self.session.finish(Ticks(now));
        self.poll(now);
    }
}

/// Runs this many sessions at once, their datagrams in turn, and each of them again alone.
fn each_is_what_it_is_alone(sessions: u32, steps: u64) {
    let mut calls: Vec<_> = (0..sessions).map(Call::new).collect();
    for step in 0..steps {
        calls.iter_mut().for_each(|call| call.step(20 * step));
    }
    let (mut units, mut requests) = (0, 0);
    for call in &mut calls {
        call.finish(20 * steps);
        let mut alone = Call::new(call.ssrc);
        (0..steps).for_each(|step| alone.step(20 * step));
        alone.finish(20 * steps);
        assert_eq!(call.told, alone.told, "session {}", call.ssrc);
        assert_eq!(
            (call.told.first(), call.told.last()),
            (Some(&Told::Begun), Some(&Told::Ended))
        );
        units += call
            .told
            .iter()
            .filter(|it| matches!(it, Told::Unit(_)))
            .count() as u64;
        requests += call
            .told
            .iter()
            .filter(|it| matches!(it, Told::Requests(_)))
            .count();
    }
    let packets = u64::from(sessions) * steps;
    println!("{sessions} sessions, {packets} packets, {units} units, {requests} requests");
    assert!(20 * units > 19 * packets && requests > sessions as usize);
}

#[test]
fn many_sessions_at_once() {
    each_is_what_it_is_alone(200, 50);
}

#[test]
#[ignore = "takes a minute: cargo test --release --test sessions -- --ignored"]
fn ten_thousand_sessions_at_once() {
    each_is_what_it_is_alone(10_000, 100);
}

/// How many bytes a value holds behind it.
fn bytes_behind<T>(make: impl FnOnce() -> T) -> (T, usize) {
    let before = live_bytes();
    let made = make();
    (made, live_bytes().wrapping_sub(before))
}

/// A stream of this SSRC gets this many packets, of which one comes late. All units leave: it is idle.
fn play(session: &mut Session, ssrc: u32, packets: u16, datagram: impl Fn(u32, u16) -> Vec<u8>) {
    for place in 0..packets {
        let number = match place {
            20 => 21,
            21 => 20,
            place => place,
        };
        let now = Ticks(20 * u64::from(place));
        session
            .receive(now, &datagram(ssrc, number))
            .expect("there is memory");
        while session.poll(now).is_some() {}
    }
}

/// docs/use/SESSION.md has these figures.
#[test]
fn memory_of_sessions_and_streams() {
    let (_session, session) =
        bytes_behind(|| Session::new(settings()).expect("settings that can be met"));
    println!(
        "a session: {} bytes, and {session} behind it",
        size_of::<Session>()
    );
    assert!(size_of::<Session>() + session <= 1_250);
    println!("a receiver: {} bytes", size_of::<Receiver>());
    assert!(size_of::<Receiver>() <= 1_300);
    type Datagram = fn(u32, u16) -> Vec<u8>;
    let audio: Datagram = opus;
    let video: Datagram = |ssrc, number| vp8(ssrc, number, number == 0);
    let lines = [
        ("audio", audio, 40, 2_900),
        ("audio", audio, 1_500, 4_820),
        ("video", video, 40, 3_040),
        ("video", video, 6_000, 8_040),
    ];
    for (name, datagram, packets, most) in lines {
        // The list of streams has places for a power of two.
        let (session, streams) = bytes_behind(|| {
            let mut session = Session::new(settings()).expect("settings that can be met");
            (0..16).for_each(|ssrc| play(&mut session, ssrc, packets, datagram));
            session
        });
        let held: usize = (0..16)
            .filter_map(|place| session.stream_at(place))
            .map(|it| it.held)
            .sum();
        let one = streams / 16;
        println!("an idle stream of {name} after {packets} packets: {one} bytes");
        assert!(held == 0 && one <= most, "{one} bytes, {held} packets held");
    }
}
