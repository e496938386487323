//! A frame that the depacketizer refuses is a separate answer: the stream continues, and `Err` is out of memory alone.
//!
//! The frame is one of VP8 that ends in its payload descriptor (RFC 7741, section 4.2: X and L are set, and TL0PICIDX is the last
//! byte). It comes under the SSRC and the next number of the stream, as any peer can send it.

use codec_payload::session::{Event, Format, Session, SessionSettings};
use codec_payload::stream::{Popped, Receiver, ReceiverSettings};
use codec_payload::{
    Codec, CodecDepacketizer, CodecSpec, Frequency, PacketError, PoppedUnit, Ticks,
};
use std::error::Error;

const CUT: [u8; 3] = [0x90, 0x40, 0];
/// A descriptor of one byte, and the header of a keyframe of 16 x 16 (RFC 6386, section 9.1).
const KEY: [u8; 11] = [0x10, 0x10, 0, 0, 0x9d, 0x01, 0x2a, 0x10, 0, 0x10, 0];

fn packet(number: u8, payload: &[u8]) -> Vec<u8> {
    let header = [0x80, 0xe0, 0, number, 0, 0, 9 * number, 0, 0, 0, 0, 7];
    [&header, payload].concat()
}

/// Three frames whose second is refused.
fn datagrams() -> [Vec<u8>; 3] {
    [packet(2, &KEY), packet(3, &CUT), packet(4, &KEY)]
}

fn receiver() -> Result<Receiver, Box<dyn Error>> {
    let depacketizer = CodecDepacketizer::from_codec(Codec::Vp8).ok_or("VP8 is supported")?;
    let settings = ReceiverSettings::for_stream(96, Codec::Vp8, Frequency::NINETY_KHZ);
    let mut receiver = Receiver::new(depacketizer, settings)?;
    for datagram in datagrams() {
        receiver.receive(Ticks(0), &datagram)?;
    }
    Ok(receiver)
}

/// `u` for a unit, `l` for one that is too large, and the number of the fault of a refused frame.
fn word<U>(popped: Popped<U>) -> String {
    match popped {
        Popped::Unit(_) => "u".to_string(),
        Popped::TooLarge(_) => "l".to_string(),
        Popped::Refused(fault) => format!("{}", fault.number()),
    }
}

#[test]
fn pops_go_on_after_a_refused_frame() -> Result<(), Box<dyn Error>> {
    let mut words = [String::new(), String::new()];
    let mut one = receiver()?;
    while let Some(popped) = one.pop(Ticks(0)) {
        words[0] += &word(popped?);
    }
    let (mut other, mut unit) = (receiver()?, PoppedUnit::new());
    while let Some(popped) = other.pop_unit(Ticks(0), &mut unit) {
        words[1] += &word(popped?);
    }
    assert_eq!(words, ["u11u", "u11u"]);
    for receiver in [&one, &other] {
        let packets = receiver.counters().packets;
        assert_eq!((packets.units, packets.refused, packets.left), (2, 1, 1));
    }
    Ok(())
}

#[test]
fn iterators_skip_and_count_refused_frames() -> Result<(), Box<dyn Error>> {
    let mut receiver = receiver()?;
    let mut units = receiver.units(Ticks(0));
    assert_eq!(units.next().transpose()?.map(|it| it.bytes.len()), Some(10));
    assert_eq!(units.refused(), 0);
    assert!(units.next().transpose()?.is_some());
    assert_eq!(units.refused(), 1);
    assert!(units.next().is_none() && units.next().is_none());
    assert_eq!(receiver.drain(Ticks(0))?.count(), 0);
    Ok(())
}

#[test]
fn malformed_datagrams_are_counted() -> Result<(), Box<dyn Error>> {
    let mut receiver = receiver()?;
    assert_eq!(receiver.receive_any(Ticks(1), b"hello")?, None);
    assert_eq!(receiver.receive_any(Ticks(1), &[])?, None);
    assert!(receiver.receive_any(Ticks(1), &packet(5, &KEY))?.is_some());
    assert_eq!(receiver.counters().malformed, 2);
    Ok(())
}

#[test]
fn a_session_reports_a_refused_frame() -> Result<(), Box<dyn Error>> {
    let mut settings = SessionSettings::live();
    let spec = CodecSpec {
        codec: Codec::Vp8,
        clock_rate: Frequency::NINETY_KHZ,
        octet_align: false,
    };
    settings.formats.push(Format::new(96, spec));
    let mut session = Session::new(settings)?;
    for datagram in datagrams() {
        session.receive(Ticks(0), &datagram)?;
    }
    session.finish(Ticks(1));
    let mut words = String::new();
    while let Some(event) = session.poll(Ticks(1)) {
        words += match event {
            Event::Begun { .. } => "b",
            Event::Unit { unit, .. } => unit.map(|_| "u")?,
            Event::Refused {
                ssrc: 7,
                payload_type: 96,
                fault: PacketError::ErrVP8CorruptedPacket,
            } => "r",
            Event::Ended { .. } => "e",
            other => return Err(format!("{other:?}").into()),
        };
    }
    assert_eq!(words, "burue");
    Ok(())
}
