//! What a receiver answers, event by event.

use crate::Fail;
use codec_payload::codec::{CodecDepacketizer, NoBox};
use codec_payload::jitter::jitter_buffer::{Outcome, WaitLimits};
use codec_payload::keyframes::unit_gate::FromKeyframe;
use codec_payload::rtp::values::ExtensionIds;
use codec_payload::stream::pops::Popped;
use codec_payload::stream::receiver::{Receiver, ReceiverSettings};
use codec_payload::wire::{Codec, Frequency, Ticks};

/// What happens.
#[derive(Clone, Copy, Debug)]
pub enum Event {
    /// A packet of Opus arrives at a time, under a number; its one byte is the low byte of the number.
    Packet(u64, u16),
    /// Packets of consecutive numbers arrive at time 0: the first number, and how many.
    Packets(u16, u16),
    /// A packet of padding alone.
    Padding(u16),
    /// A telephone event beside the audio.
    Tele(u16),
    /// A packet of another SSRC.
    OtherSsrc(u16),
    /// A packet of a payload type that nobody knows.
    OtherType(u16),
    Rtcp,
    /// Bytes that are not an RTP packet.
    Noise,
    /// Pops at a time, until no unit is returned.
    Pops(u64),
    /// When pops may give more.
    Deadline,
    /// From now on the receiver waits so.
    Waits(WaitLimits),
    Finish,
}

/// The wait limits of most test vectors.
pub const WAITS: WaitLimits = {
    let mut limits = WaitLimits::live();
    limits.hold_back = Some(1_000);
    limits.start = 0;
    limits.max_wait = Some(50);
    limits
};

/// The first frame waits for a second one.
pub const STARTS_LATER: WaitLimits = {
    let mut limits = WaitLimits::live();
    limits.hold_back = Some(1_000);
    limits.start = 1;
    limits.max_wait = Some(50);
    limits
};

/// A longer wait.
pub const WAITS_LONGER: WaitLimits = {
    let mut limits = WaitLimits::live();
    limits.hold_back = Some(1_000);
    limits.start = 0;
    limits.max_wait = Some(100);
    limits
};

/// An RTP packet of 13 bytes: its payload type, number and SSRC, and a byte.
pub fn packet(payload_type: u8, number: u16, ssrc: u8, byte: u8) -> [u8; 13] {
    let [high, low] = number.to_be_bytes();
    // The RTP time of numbers right below 0 is right below 0 too.
    let wrapped = if number >= 0xff00 { 0xff } else { 0 };
    [
        0x80,
        payload_type,
        high,
        low,
        wrapped,
        wrapped,
        high,
        low,
        0,
        0,
        0,
        ssrc,
        byte,
    ]
}

/// A packet of one byte of padding.
fn padding(number: u16) -> [u8; 13] {
    let mut bytes = packet(96, number, 7, 1);
    bytes[0] = 0xa0;
    bytes
}

/// A receiver of Opus under SSRC 7 and payload type 96, with telephone events under 101.
pub fn receiver_of(wait_limits: WaitLimits, limit: usize) -> Result<Receiver<NoBox>, Fail> {
    receiver_for(Some(7), wait_limits, limit)
}

/// The same under that SSRC, or any.
pub fn receiver_for(
    ssrc: Option<u32>,
    wait_limits: WaitLimits,
    limit: usize,
) -> Result<Receiver<NoBox>, Fail> {
    let depack: CodecDepacketizer<NoBox> =
        CodecDepacketizer::from_codec(Codec::Opus).ok_or("no depacketizer")?;
    let settings = {
        let mut settings = ReceiverSettings::live_audio(96, Frequency::FORTY_EIGHT_KHZ);
        settings.no_media = vec![101];
        settings.ssrc = ssrc;
        settings.red = None;
        settings.retransmission = None;
        settings.extension_ids = ExtensionIds::default();
        settings.tick_rate = Frequency::make(1_000).ok_or("a rate")?;
        settings.wait_limits = wait_limits;
        settings.limit = limit;
        settings.forward = 3_000;
        settings.backward = 1_000;
        settings.from_keyframe = FromKeyframe::Mark;
        settings.max_unit = None;
        settings.dependency_descriptor = None;
        settings
    };
    Ok(Receiver::new(depack, settings).map_err(|_| "settings out of range")?)
}

/// A letter for each outcome; a capital for two stored packets.
fn letter_of(outcome: Outcome) -> char {
    match outcome {
        Outcome::Held => 'h',
        Outcome::HeldAndEvicted => 'e',
        Outcome::Duplicate => 'd',
        Outcome::Late => 'l',
        Outcome::Suspect => 's',
        Outcome::Restarted(true) => 'R',
        Outcome::Restarted(false) => 'r',
        Outcome::NoMedia => 'n',
        Outcome::OtherStream => 'o',
        Outcome::Rtcp => 'c',
        Outcome::Undecided => 'u',
        _ => unreachable!("this version has no other"),
    }
}

/// The letter of a datagram, or an exclamation mark if it is not an RTP packet.
pub fn take(receiver: &mut Receiver<NoBox>, now: u64, bytes: &[u8]) -> char {
    match receiver.receive(Ticks(now), bytes) {
        Ok(outcome) => letter_of(outcome),
        Err(_) => '!',
    }
}

/// The first byte of the unit that a pop gives.
fn byte_popped(receiver: &mut Receiver<NoBox>, now: u64) -> Option<u8> {
    match receiver.pop(Ticks(now)) {
        Some(Ok(Popped::Unit(unit))) => unit.bytes.first().copied(),
        _ => None,
    }
}

/// The bytes of the units that pops at that time give, and a dot.
pub fn pop_all(receiver: &mut Receiver<NoBox>, now: u64, told: &mut String) {
    while let Some(byte) = byte_popped(receiver, now) {
        told.push_str(&format!(" {byte}"));
    }
    told.push('.');
}

/// When pops may give more.
fn deadline(receiver: &Receiver<NoBox>, told: &mut String) {
    match receiver.next_deadline() {
        Some(at) => told.push_str(&format!("@{}", at.0)),
        None => told.push_str("@-"),
    }
}

/// The datagram that comes.
fn bytes_of(event: Event) -> [u8; 13] {
    match event {
        Event::Packet(_, n) => packet(96, n, 7, (n % 256) as u8),
        Event::Padding(n) => padding(n),
        Event::Tele(n) => packet(101, n, 7, 1),
        Event::OtherSsrc(n) => packet(96, n, 8, 1),
        Event::OtherType(n) => packet(97, n, 7, 1),
        Event::Rtcp => packet(200, 1, 7, 1),
        _ => [1; 13],
    }
}

/// When it comes.
fn time_of(event: Event) -> u64 {
    match event {
        Event::Packet(now, _) => now,
        _ => 0,
    }
}

/// A datagram comes.
fn arrive(receiver: &mut Receiver<NoBox>, event: Event, told: &mut String) {
    let bytes = bytes_of(event);
    told.push(take(receiver, time_of(event), &bytes));
}

/// `count` packets arrive.
fn arrive_all(receiver: &mut Receiver<NoBox>, from: u16, count: u16, told: &mut String) {
    for n in from..from + count {
        arrive(receiver, Event::Packet(0, n), told);
    }
}

/// The receiver waits in another way, and says so.
fn wait_by(receiver: &mut Receiver<NoBox>, wait_limits: WaitLimits, told: &mut String) {
    receiver.set_wait_limits(wait_limits);
    let says_so = receiver.wait_limits() == wait_limits;
    told.push(if says_so { 'w' } else { '?' });
}

fn step(receiver: &mut Receiver<NoBox>, event: Event, told: &mut String) {
    match event {
        Event::Packets(from, count) => arrive_all(receiver, from, count, told),
        Event::Pops(now) => pop_all(receiver, now, told),
        Event::Deadline => deadline(receiver, told),
        Event::Waits(wait_limits) => wait_by(receiver, wait_limits, told),
        Event::Finish => receiver.finish().unwrap(),
        _ => arrive(receiver, event, told),
    }
}

/// What the events come to: a letter for each datagram, a unit's byte for each pop and a dot after them.
pub fn told_of(wait_limits: WaitLimits, events: &[Event]) -> Result<String, Fail> {
    let mut receiver = receiver_of(wait_limits, 4_096)?;
    let mut told = String::new();
    for event in events {
        step(&mut receiver, *event, &mut told);
    }
    Ok(told)
}
