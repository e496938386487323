//! Out of memory only if memory was refused: no allocator refuses here, and no call may say so, however large its input is.
//!
//! No contract can exclude a body that gives up at some size, since any call that takes memory may run out of it. So each input is
//! far beyond what a call of real media has: numbers, blocks, pairs, streams, events, bytes.

#[allow(dead_code, reason = "the tests of sessions use the rest")]
#[path = "sessions/datagrams.rs"]
mod datagrams;

use codec_payload::jitter::Outcome;
use codec_payload::rtcp::{CompoundRule, RtcpPacket, read_compound};
use codec_payload::*;
use datagrams::*;

type Fail = Box<dyn std::error::Error>;

const OWN: u32 = 1;

/// A session of all formats with feedback, whose streams are announced by their first packets.
fn session(change: impl Fn(&mut SessionSettings)) -> Session {
    let mut settings = SessionSettings::live();
    settings.formats = answered_formats();
    settings.telephone_events.push(EVENTS);
    settings.probation = 1;
    settings.max_streams = 2_000;
    settings.limit = 4_096;
    for limits in [&mut settings.audio, &mut settings.video] {
        (limits.start, limits.max_wait) = (0, Some(60_000));
    }
    settings.feedback = Some(FeedbackSettings::live(OWN, b"me@host".to_vec()));
    change(&mut settings);
    Session::new(settings).expect("settings that can be met")
}

/// All events, of which none may say that memory ran out.
fn events(session: &mut Session, now: u64) -> Vec<Event> {
    let mut events = Vec::new();
    while let Some(event) = session.poll(Ticks(now)) {
        match &event {
            Event::Unit { unit, .. } => assert!(unit.is_ok(), "a unit"),
            Event::Feedback { packet, .. } => assert!(packet.is_ok(), "requests"),
            Event::Report { packet } => assert!(packet.is_ok(), "a report"),
            _ => {}
        }
        events.push(event);
    }
    events
}

/// The numbers that the feedback among the events requests.
fn requested(events: &[Event]) -> Vec<u16> {
    let mut numbers = Vec::new();
    for event in events {
        let Event::Feedback {
            packet: Ok(packet), ..
        } = event
        else {
            continue;
        };
        for packet in read_compound(CompoundRule::ReducedSize, packet).unwrap() {
            if let RtcpPacket::Nack(nack) = packet {
                numbers.extend(nack.numbers());
            }
        }
    }
    numbers
}

#[test]
fn a_thousand_missing_numbers_are_requested() -> Result<(), Fail> {
    // A run of missing numbers, and each second number: as many pairs of a NACK as numbers allow.
    for (step, wanted) in [(900, 899), (2, 400)] {
        let mut session = session(|_| {});
        session.receive(Ticks(0), &vp8(5, 0, true))?;
        let last = if step == 2 { 800 } else { step };
        for number in (step..=last).step_by(step.into()) {
            session.receive(Ticks(1), &vp8(5, number, false))?;
        }
        let mut numbers = Vec::new();
        for now in 2..400 {
            numbers.extend(requested(&events(&mut session, now)));
        }
        numbers.sort_unstable();
        numbers.dedup();
        assert_eq!(numbers.len(), wanted, "each {step}th");
    }
    Ok(())
}

#[test]
fn a_thousand_streams_are_received_and_reported() -> Result<(), Fail> {
    let mut session = session(|settings| {
        let feedback = settings.feedback.as_mut().unwrap();
        feedback.report_interval = Some(1_000);
        feedback.max_report = usize::MAX;
    });
    for number in 0..3 {
        for ssrc in 0..1_000 {
            session.receive(Ticks(0), &opus(100 + ssrc, number))?;
        }
    }
    let mut all = events(&mut session, 0);
    for now in [999, 1_000, 2_000, 2_001] {
        all.extend(events(&mut session, now));
    }
    let begun = all.iter().filter(|it| matches!(it, Event::Begun { .. }));
    assert_eq!(begun.count(), 1_000);
    let mut reported = 0;
    for event in &all {
        let Event::Report { packet: Ok(packet) } = event else {
            continue;
        };
        for packet in read_compound(CompoundRule::Full, packet)? {
            if let RtcpPacket::ReceiverReport(report) = packet {
                reported += (0..).map_while(|place| report.block(place)).count();
            }
        }
    }
    assert!(reported >= 1_000, "{reported} blocks");
    Ok(())
}

#[test]
fn a_thousand_pairs_are_kept() -> Result<(), Fail> {
    let mut session = session(|_| {});
    for ssrc in 0..1_000 {
        session.add_pair(ssrc, 10_000 + ssrc)?;
    }
    for ssrc in 0..1_000 {
        session.remove_pair(ssrc);
    }
    Ok(())
}

#[test]
fn telephone_events_wait() -> Result<(), Fail> {
    let mut session = session(|_| {});
    session.receive(Ticks(0), &opus(5, 0))?;
    for number in 1..17_u16 {
        let report = [number as u8, 0x8a, 3, 0x20];
        let datagram = packet(EVENTS, 5, number, 960 * u32::from(number), &report);
        session.receive(Ticks(0), &datagram)?;
    }
    let all = events(&mut session, 0);
    let told = all
        .iter()
        .filter(|it| matches!(it, Event::Telephone { .. }));
    let dropped = session.counts().telephone_dropped;
    assert_eq!(told.count() as u64 + dropped, 16);
    Ok(())
}

#[test]
fn datagrams_of_65_507_bytes() -> Result<(), Fail> {
    let payload = [vp8_frame(true), &[7; 65_484]].concat();
    let large = packet(VP8, 5, 0, 0, &payload);
    assert_eq!(large.len(), 65_507);
    let mut session = session(|_| {});
    session.receive(Ticks(0), &large)?;
    let units: Vec<_> = events(&mut session, 0)
        .into_iter()
        .filter_map(|it| match it {
            Event::Unit { unit, .. } => unit.ok(),
            _ => None,
        })
        .collect();
    assert_eq!(units[0].bytes.len(), payload.len() - 1);
    let mut history = History::new(HistorySettings {
        limit: 2_000,
        interval: 0,
        stream: None,
    })?;
    for number in 0..2_000 {
        history.keep(&packet(VP8, 5, number, 0, &payload[..20_000]))?;
    }
    Ok(())
}

#[test]
fn a_frame_of_twenty_thousand_packets_is_sent() -> Result<(), Fail> {
    for codec in [Codec::Vp8, Codec::Vp9, Codec::Av1, Codec::Opus] {
        let frame = match codec {
            Codec::Av1 => [&[0x32, 0x80, 0x89, 0x7a][..], &vec![0x10; 2_000_000]].concat(),
            _ => vec![0x82; 2_000_000],
        };
        let settings = SenderSettings::for_stream(96, 7, Frequency::NINETY_KHZ);
        let settings = SenderSettings {
            mtu: 100,
            ..settings
        };
        let mut sender = Sender::new(CodecPacketizer::try_from(codec)?, settings)?;
        sender.send(&Sample {
            rtp_time: MediaTime::from_90khz(0),
            bytes: &frame,
            start_of_talk_spurt: false,
            ext_vals: Default::default(),
        })?;
        assert!(sender.len() >= 20_000, "{codec:?}: {}", sender.len());
    }
    Ok(())
}

#[test]
fn thirty_blocks_of_red_are_received() -> Result<(), Fail> {
    let mut settings = ReceiverSettings::for_stream(OPUS, Codec::Opus, Frequency::FORTY_EIGHT_KHZ);
    settings.ssrc = Some(7);
    settings.red = Some(RedSettings {
        payload_type: RED,
        step: 100,
        retransmission: None,
    });
    let depacketizer = CodecDepacketizer::try_from(Codec::Opus)?;
    let mut receiver = Receiver::new(depacketizer, settings)?;
    receiver.receive(Ticks(0), &packet(OPUS, 7, 0, 0, &[0]))?;
    // RFC 2198, section 3: F and the type, 14 bits of the offset and 10 of the length, for each block.
    let mut payload = Vec::new();
    for back in (1..=30_u32).rev() {
        payload.push(0x80 | OPUS);
        payload.extend(&((back * 100) << 10 | 1).to_be_bytes()[1..]);
    }
    payload.push(OPUS);
    payload.extend((1..=31).collect::<Vec<u8>>());
    let outcome = receiver.receive(Ticks(1), &packet(RED, 7, 31, 3_100, &payload))?;
    assert!(matches!(outcome, Outcome::Held), "{outcome:?}");
    let units: Vec<_> = receiver.drain(Ticks(2))?.collect::<Result<_, _>>()?;
    assert!(units.len() >= 9, "{} units", units.len());
    Ok(())
}

#[test]
fn all_payload_types_without_media_are_kept() -> Result<(), Fail> {
    let mut settings = ReceiverSettings::for_stream(OPUS, Codec::Opus, Frequency::FORTY_EIGHT_KHZ);
    settings.ssrc = Some(7);
    settings.no_media = (0..128).filter(|&it| it != OPUS).collect();
    let depacketizer = CodecDepacketizer::try_from(Codec::Opus)?;
    let mut receiver = Receiver::new(depacketizer, settings)?;
    for number in 0..4_000_u16 {
        let payload_type = if number % 3 == 0 { OPUS } else { NOISE };
        receiver.receive(Ticks(0), &packet(payload_type, 7, number, 960, &[1]))?;
    }
    assert_eq!(receiver.counters().malformed, 0);
    Ok(())
}

#[test]
fn the_largest_buffer_is_filled() -> Result<(), Fail> {
    let mut settings = ReceiverSettings::for_stream(96, Codec::Vp8, Frequency::NINETY_KHZ);
    settings.ssrc = Some(7);
    settings.limit = 65_533;
    let depacketizer = CodecDepacketizer::try_from(Codec::Vp8)?;
    let mut receiver = Receiver::new(depacketizer, settings)?;
    for number in 0..20_000_u16 {
        // Packets in the middle of a frame, which stay.
        receiver.receive(Ticks(0), &packet(96, 7, number, 0, &[0; 30])[..])?;
    }
    assert!(receiver.held() > 10_000, "{}", receiver.held());
    assert_eq!(receiver.missing(usize::MAX).count(), 0);
    Ok(())
}

#[test]
fn compound_packets_of_many_parts_are_read() -> Result<(), Fail> {
    let mut bytes = Vec::new();
    for _ in 0..2_000 {
        bytes.extend(goodbye(&(0..31).collect::<Vec<u32>>()));
    }
    let mut session = session(|_| {});
    assert!(matches!(session.receive(Ticks(0), &bytes)?, Arrival::Rtcp));
    Ok(())
}
