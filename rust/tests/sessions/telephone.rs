//! Telephone events beside audio (RFC 4733): digits between packets of Opus.

use crate::Fail;
use crate::datagrams::*;
use codec_payload::interface::TelephoneEvent;
use codec_payload::jitter::Outcome;
use codec_payload::session::*;
use codec_payload::*;

/// A session of Opus with telephone events beside it, whose stream is announced by its first packet.
fn session() -> Session {
    let mut settings = SessionSettings::live();
    settings.audio.start = 0;
    settings.probation = 1;
    settings.formats = vec![opus_format()];
    settings.no_media.push(NOISE);
    settings.telephone_events.push(EVENTS);
    Session::new(settings).expect("settings that can be met")
}

/// A report (RFC 4733, section 2.3): the event, E and the volume, and the duration.
fn report(event: u8, is_end: bool, duration: u16) -> Vec<u8> {
    let mut bytes = vec![event, u8::from(is_end) << 7 | 10];
    bytes.extend(duration.to_be_bytes());
    bytes
}

/// A packet of telephone events that began at this RTP time.
fn events(ssrc: u32, number: u16, time: u32, marker: bool, reports: &[u8]) -> Vec<u8> {
    let mut bytes = packet(EVENTS, ssrc, number, time, reports);
    bytes[1] = EVENTS | u8::from(marker) << 7;
    bytes
}

/// A packet of telephone events, as a poll returns it.
#[derive(Debug, PartialEq)]
struct Told {
    ssrc: u32,
    payload_type: u8,
    rtp_time: u32,
    marker: bool,
    payload: Vec<u8>,
}

/// The events until there is none: telephone events, and the first bytes of units.
fn poll(session: &mut Session, now: u64) -> (Vec<Told>, Vec<u8>) {
    let (mut told, mut units) = (Vec::new(), Vec::new());
    while let Some(event) = session.poll(Ticks(now)) {
        match event {
            Event::Telephone {
                ssrc,
                payload_type,
                rtp_time,
                marker,
                payload,
            } => {
                assert!(units.is_empty(), "telephone events come first");
                told.push(Told {
                    ssrc,
                    payload_type,
                    rtp_time,
                    marker,
                    payload,
                });
            }
            Event::Unit { unit, .. } => units.push(unit.expect("it is valid").bytes[0]),
            Event::Refused { fault, .. } => unreachable!("{fault}"),
            Event::Begun { .. }
            | Event::Ended { .. }
            | Event::Feedback { .. }
            | Event::Report { .. } => {}
            _ => unreachable!("this version has no other"),
        }
    }
    (told, units)
}

fn outcome(arrival: Arrival) -> Option<Outcome> {
    match arrival {
        Arrival::Stream { outcome, .. } => Some(outcome),
        _ => None,
    }
}

/// The packets of a digit as RFC 4733, section 2.5.1, sends them: 20 ms apart with a growing duration, the first one with the
/// marker, and the last one three times. All have the RTP time of its start.
fn digit(digit: u8, first_number: u16) -> Vec<Vec<u8>> {
    let time = 960 * u32::from(first_number);
    let durations = [
        (960, false),
        (1_920, false),
        (2_880, true),
        (2_880, true),
        (2_880, true),
    ];
    durations
        .iter()
        .zip(first_number..)
        .map(|((duration, is_end), number)| {
            let reports = report(digit, *is_end, *duration);
            events(5, number, time, number == first_number, &reports)
        })
        .collect()
}

#[test]
fn digits_between_packets_of_audio() -> Result<(), Fail> {
    let mut session = session();
    let mut now = 0;
    let mut send = |session: &mut Session, bytes: &[u8]| {
        now += 20;
        session.receive(Ticks(now), bytes).map(|it| (now, it))
    };
    let mut digits = Vec::new();
    let mut units = Vec::new();
    for (place, digit_sent) in [1, 9, 0].into_iter().enumerate() {
        let first = 10 * place as u16 + 1;
        for number in first..first + 5 {
            let (now, arrival) = send(&mut session, &opus(5, number))?;
            assert_eq!(outcome(arrival), Some(Outcome::Held));
            let (told, more) = poll(&mut session, now);
            // No packet of audio waits for the numbers of telephone events before it.
            assert_eq!((told, &more[..]), (vec![], &[number as u8][..]));
            units.extend(more);
        }
        for bytes in digit(digit_sent, first + 5) {
            let (now, arrival) = send(&mut session, &bytes)?;
            assert_eq!(outcome(arrival), Some(Outcome::NoMedia));
            assert_eq!(session.next_deadline(), Some(Ticks(0)));
            let (told, more) = poll(&mut session, now);
            assert_eq!((told.len(), more), (1, vec![]));
            assert_ne!(session.next_deadline(), Some(Ticks(0)));
            digits.extend(told);
        }
    }
    assert_eq!(units.len(), 15);
    assert_eq!(digits.len(), 15);
    for (place, packets) in digits.chunks(5).enumerate() {
        let (digit, time) = ([1, 9, 0][place], 960 * (10 * place as u32 + 6));
        for (k, packet) in packets.iter().enumerate() {
            assert_eq!((packet.ssrc, packet.payload_type), (5, EVENTS));
            assert_eq!((packet.rtp_time, packet.marker), (time, k == 0));
            let duration = [960, 1_920, 2_880, 2_880, 2_880][k];
            assert_eq!(packet.payload, report(digit, k >= 2, duration));
            let read = TelephoneEvent::parse_all(&packet.payload, Frequency::FORTY_EIGHT_KHZ);
            let read: Vec<_> = read.ok_or("whole reports")?.collect();
            assert_eq!((read.len(), read[0].event, read[0].end), (1, digit, k >= 2));
            // Nanoseconds of ticks at 48 kHz.
            assert_eq!(read[0].duration, u64::from(duration) * 1_000_000 / 48);
        }
    }
    assert_eq!(session.counts().telephone_dropped, 0);
    Ok(())
}

/// Packets that wait come in the order of arrival, before units and before the end of their stream.
#[test]
fn they_come_first_and_in_order() -> Result<(), Fail> {
    let mut session = session();
    session.receive(Ticks(0), &opus(5, 1))?;
    session.receive(Ticks(0), &events(5, 3, 7, false, &report(2, false, 1)))?;
    session.receive(Ticks(0), &events(5, 2, 7, true, &report(1, false, 1)))?;
    session.end(Ticks(0), 5);
    session.finish(Ticks(0));
    let (told, units) = poll(&mut session, 0);
    let events: Vec<u8> = told.iter().map(|it| it.payload[0]).collect();
    assert_eq!((&events[..], &units[..]), (&[2, 1][..], &[1][..]));
    assert_eq!(session.stream_count(), 0);
    Ok(())
}

/// Several reports in one packet, and payloads that are none.
#[test]
fn payloads_are_passed_on_as_they_came() -> Result<(), Fail> {
    let mut session = session();
    session.receive(Ticks(0), &opus(5, 1))?;
    let two = [report(1, true, 800), report(2, false, 160)].concat();
    for (number, payload) in [(2, &two[..]), (3, &[1, 2, 3]), (4, &[])] {
        session.receive(Ticks(0), &events(5, number, 960, true, payload))?;
    }
    let (told, _) = poll(&mut session, 0);
    let payloads: Vec<_> = told.into_iter().map(|it| it.payload).collect();
    assert_eq!(payloads, [two.clone(), vec![1, 2, 3], vec![]]);
    let rate = Frequency::EIGHT_KHZ;
    let read = TelephoneEvent::parse_all(&payloads[0], rate).ok_or("whole reports")?;
    let read: Vec<_> = read
        .map(|it| (it.event, it.end, it.volume, it.duration))
        .collect();
    assert_eq!(
        read,
        [(1, true, 10, 100_000_000), (2, false, 10, 20_000_000)]
    );
    assert!(TelephoneEvent::parse_all(&payloads[1], rate).is_none());
    Ok(())
}

/// Without a stream, with a payload type of `no_media`, or as RTCP nothing waits.
#[test]
fn other_datagrams_do_not_wait() -> Result<(), Fail> {
    let mut session = session();
    let early = events(5, 1, 0, true, &report(1, false, 160));
    assert_eq!(session.receive(Ticks(0), &early)?, Arrival::Unknown);
    session.receive(Ticks(0), &opus(5, 2))?;
    let noise = packet(NOISE, 5, 3, 0, &[64]);
    assert_eq!(
        outcome(session.receive(Ticks(0), &noise)?),
        Some(Outcome::NoMedia)
    );
    session.receive(Ticks(0), &events(6, 1, 0, true, &report(1, false, 160)))?;
    session.receive(Ticks(0), &bye(7))?;
    assert_eq!(poll(&mut session, 0), (vec![], vec![2]));
    Ok(())
}

/// A format of telephone events is a separate stream.
#[test]
fn a_format_of_telephone_events() -> Result<(), Fail> {
    let mut settings = SessionSettings::live();
    settings.probation = 1;
    settings.audio.start = 0;
    settings.formats = vec![format(EVENTS, Codec::Tele, Frequency::EIGHT_KHZ)];
    let mut session = Session::new(settings)?;
    session.receive(Ticks(0), &events(5, 1, 0, true, &report(8, false, 160)))?;
    assert_eq!(poll(&mut session, 0), (vec![], vec![8]));
    Ok(())
}

/// At most 32 wait, and the others are counted. The places are free again after polls.
#[test]
fn thirty_three_at_once() -> Result<(), Fail> {
    let mut session = session();
    session.receive(Ticks(0), &opus(5, 1))?;
    for number in 2..42 {
        let bytes = events(5, number, 960, false, &report(number as u8, false, 160));
        assert_eq!(
            outcome(session.receive(Ticks(0), &bytes)?),
            Some(Outcome::NoMedia)
        );
    }
    assert_eq!(session.counts().telephone_dropped, 8);
    // A packet of nobody is not one that was dropped here.
    session.receive(Ticks(0), &events(6, 1, 960, false, &report(1, false, 160)))?;
    let counts = session.counts();
    assert_eq!(
        (counts.telephone_dropped, counts.unknown, counts.received),
        (8, 1, 42)
    );
    let (told, _) = poll(&mut session, 0);
    let kept: Vec<u8> = told.iter().map(|it| it.payload[0]).collect();
    assert_eq!(kept, (2..34).collect::<Vec<u8>>());
    session.receive(
        Ticks(0),
        &events(5, 42, 960, false, &report(42, false, 160)),
    )?;
    assert_eq!(poll(&mut session, 0).0.len(), 1);
    assert_eq!(session.counts().telephone_dropped, 8);
    Ok(())
}

/// The network repeats a packet: each arrival is an event, and the RTP time says that it is the same digit.
#[test]
fn repeats_of_the_network() -> Result<(), Fail> {
    let mut session = session();
    session.receive(Ticks(0), &opus(5, 1))?;
    let bytes = events(5, 2, 960, true, &report(1, false, 160));
    session.receive(Ticks(0), &bytes)?;
    session.receive(Ticks(0), &bytes)?;
    let (told, _) = poll(&mut session, 0);
    assert_eq!(told.len(), 2);
    assert_eq!(told[0], told[1]);
    Ok(())
}
