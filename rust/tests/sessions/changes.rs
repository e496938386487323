//! Sessions: a sender that continues in another format under its SSRC.

use crate::Fail;
use crate::datagrams::*;
use codec_payload::session::*;
use codec_payload::stream::RedSettings;
use codec_payload::*;

/// A format whose packets and keyframes are requested.
fn requested(payload_type: u8, codec: Codec, clock_rate: Frequency) -> Format {
    {
        let mut format = format(payload_type, codec, clock_rate);
        format.nack = true;
        format.pli = true;
        format
    }
}

/// A session that requests, and in which telephone events and comfort noise are formats.
fn session() -> Session {
    let mut settings = SessionSettings::live();
    (settings.audio.start, settings.video.start) = (0, 0);
    settings.feedback = Some({
        let mut settings = FeedbackSettings::live(1, b"me@host".to_vec());
        settings.report_interval = None;
        settings
    });
    let eight_khz = Frequency::make(8_000).unwrap();
    let red = Some(RedSettings {
        payload_type: RED,
        step: 960,
        retransmission: None,
    });
    settings.formats = vec![
        requested(VP8, Codec::Vp8, Frequency::NINETY_KHZ),
        requested(VP9, Codec::Vp9, Frequency::NINETY_KHZ),
        {
            let mut format = requested(OPUS, Codec::Opus, Frequency::FORTY_EIGHT_KHZ);
            format.red = red;
            format
        },
        requested(PCMU, Codec::PCMU, eight_khz),
        requested(EVENTS, Codec::Tele, eight_khz),
        requested(NOISE, Codec::CN, eight_khz),
    ];
    Session::new(settings).expect("settings that can be met")
}

/// A packet of SSRC 5.
fn packet_of_5(payload_type: u8, number: u8, payload: &[u8]) -> Vec<u8> {
    let time = 256 * u32::from(number);
    packet(payload_type, 5, number.into(), time, payload)
}

/// A delta frame of one packet. VP8: RFC 7741, section 4.2; VP9: B and E of RFC 9628, section 4.2.
fn frame(payload_type: u8, number: u8) -> Vec<u8> {
    let payload: &[u8] = match payload_type {
        VP8 => &[0x10, 1, number],
        VP9 => &[0x4c, 1, number],
        NOISE => &[64],
        EVENTS => &[1, 10, 0, 160],
        _ => &[number, 7],
    };
    packet_of_5(payload_type, number, payload)
}

/// The events of a poll, each as a line; units by payload type.
fn told(session: &mut Session, now: u64) -> Vec<String> {
    let mut lines = Vec::new();
    while let Some(event) = session.poll(Ticks(now)) {
        lines.push(match event {
            Event::Begun { payload_type, .. } => format!("begun {payload_type}"),
            Event::Unit { payload_type, .. } => format!("unit {payload_type}"),
            Event::Refused { payload_type, .. } => format!("refused {payload_type}"),
            Event::Feedback { payload_type, .. } => format!("feedback {payload_type}"),
            Event::Telephone { payload_type, .. } => format!("telephone {payload_type}"),
            Event::Report { .. } => "report".to_string(),
            Event::Ended {
                payload_type, why, ..
            } => format!("ended {payload_type} {why:?}"),
            _ => unreachable!("this version has no other"),
        });
    }
    lines
}

/// Receives a frame of each number, 20 ms apart, and polls after each. Returns the events and the time after the last one.
fn send(
    session: &mut Session,
    payload_type: u8,
    numbers: impl Iterator<Item = u8>,
    from: u64,
) -> Result<(Vec<String>, u64), Fail> {
    let mut lines = Vec::new();
    let mut now = from;
    for number in numbers {
        session.receive(Ticks(now), &frame(payload_type, number))?;
        lines.extend(told(session, now));
        now += 20;
    }
    Ok((lines, now))
}

fn count(lines: &[String], line: &str) -> usize {
    lines.iter().filter(|other| *other == line).count()
}

#[test]
fn the_earlier_stream_ends_and_gives_what_it_holds() -> Result<(), Fail> {
    let mut session = session();
    let (lines, now) = send(&mut session, VP8, (1..=4).chain([6]), 0)?;
    assert_eq!(count(&lines, "unit 96"), 4, "{lines:?}");
    let (lines, _) = send(&mut session, VP9, 7..=40, now)?;
    assert_eq!(count(&lines, "begun 98"), 1);
    assert_eq!(count(&lines, "unit 98"), 34);
    // The frame behind the gap.
    assert_eq!(count(&lines, "unit 96"), 1);
    let ended = lines.iter().position(|line| line == "ended 96 Changed");
    let ended = ended.ok_or("the earlier stream ends")?;
    let later = &lines[ended..];
    assert_eq!(count(later, "feedback 96") + count(later, "unit 96"), 0);
    assert_eq!(session.stream_count(), 1);
    assert_eq!(session.stream_at(0).ok_or("a stream")?.payload_type, VP9);
    Ok(())
}

/// The last datagram of the earlier stream came at 60 ms.
#[test]
fn it_ends_200_ms_after_its_last_datagram() -> Result<(), Fail> {
    let mut session = session();
    let (_, now) = send(&mut session, VP8, 1..=4, 0)?;
    let (lines, now) = send(&mut session, VP9, 5..=13, now)?;
    assert_eq!((now, count(&lines, "ended 96 Changed")), (260, 0));
    let (lines, _) = send(&mut session, VP9, 14..=14, now)?;
    assert_eq!(lines[0], "ended 96 Changed");
    Ok(())
}

#[test]
fn a_sender_that_goes_back_gets_a_new_stream() -> Result<(), Fail> {
    let mut session = session();
    let mut now = 0;
    let mut all = Vec::new();
    for (payload_type, numbers) in [(VP8, 1..=20), (VP9, 21..=40), (VP8, 41..=60)] {
        let (lines, after) = send(&mut session, payload_type, numbers, now)?;
        assert_eq!(count(&lines, &format!("unit {payload_type}")), 20);
        all.extend(lines);
        now = after;
    }
    let ends: Vec<&String> = all
        .iter()
        .filter(|line| !line.starts_with("unit"))
        .collect();
    let wanted = [
        "begun 96",
        "begun 98",
        "ended 96 Changed",
        "begun 96",
        "ended 98 Changed",
    ];
    let ends: Vec<&str> = ends.iter().map(|line| line.as_str()).collect();
    assert_eq!(
        ends.iter()
            .filter(|line| !line.starts_with("feedback"))
            .collect::<Vec<_>>(),
        wanted.iter().collect::<Vec<_>>()
    );
    Ok(())
}

/// Two packets of the earlier format that are a second late begin a stream. It leaves, and the later one stays.
#[test]
fn late_packets_end_no_stream_that_goes_on() -> Result<(), Fail> {
    let mut session = session();
    let (_, now) = send(&mut session, VP8, 1..=4, 0)?;
    let (_, now) = send(&mut session, VP9, 5..=54, now)?;
    let (mut lines, _) = send(&mut session, VP8, 2..=3, now)?;
    let (more, _) = send(&mut session, VP9, 55..=94, now)?;
    lines.extend(more);
    assert_eq!(count(&lines, "begun 96"), 1);
    assert_eq!(count(&lines, "ended 96 Changed"), 1);
    assert_eq!(
        count(&lines, "begun 98") + count(&lines, "ended 98 Changed"),
        0
    );
    assert_eq!(count(&lines, "unit 98"), 40);
    Ok(())
}

/// One packet of another format announces no stream, and ends none, however long the earlier stream is silent.
#[test]
fn one_packet_ends_nothing() -> Result<(), Fail> {
    let mut session = session();
    let (_, now) = send(&mut session, VP8, 1..=4, 0)?;
    let (lines, _) = send(&mut session, VP9, 5..=5, now + 5_000)?;
    assert_eq!(lines, [""; 0]);
    assert_eq!(session.stream_count(), 2);
    Ok(())
}

/// Telephone events and comfort noise are sent in turn with audio: nobody leaves.
#[test]
fn formats_in_turn_stay() -> Result<(), Fail> {
    for beside in [EVENTS, NOISE] {
        let mut session = session();
        let (_, now) = send(&mut session, PCMU, 1..=10, 0)?;
        let (lines, now) = send(&mut session, beside, 11..=40, now)?;
        assert_eq!(count(&lines, &format!("begun {beside}")), 1);
        let (more, _) = send(&mut session, PCMU, 41..=60, now)?;
        assert_eq!(session.stream_count(), 2);
        let all = [lines, more].concat();
        assert!(!all.iter().any(|line| line.starts_with("ended")), "{all:?}");
    }
    Ok(())
}

/// Audio changes as video does. RED over a format is no other format.
#[test]
fn audio_changes_and_red_is_the_same_format() -> Result<(), Fail> {
    let mut session = session();
    let (_, now) = send(&mut session, OPUS, 1..=10, 0)?;
    let mut at = now;
    for number in 11..=40 {
        session.receive(Ticks(at), &packet_of_5(RED, number, &[OPUS, number, 7]))?;
        assert!(!told(&mut session, at).contains(&"ended 111 Changed".into()));
        at += 20;
    }
    assert_eq!(session.stream_count(), 1);
    let (lines, _) = send(&mut session, PCMU, 41..=60, at)?;
    assert_eq!(count(&lines, "ended 111 Changed"), 1);
    Ok(())
}

/// Every datagram is counted once, also those of the streams that left.
#[test]
fn counts_stay_whole() -> Result<(), Fail> {
    let mut session = session();
    let mut now = 0;
    for round in 0..4 {
        let payload_type = [VP8, VP9][round % 2];
        let from = 1 + 20 * round as u8;
        now = send(&mut session, payload_type, from..=from + 19, now)?.1;
    }
    let counts = session.counts();
    assert_eq!(counts.received, 80);
    let held: u64 = (0..session.stream_count())
        .filter_map(|place| session.stream_at(place))
        .map(|stream| stream.taken)
        .sum();
    assert_eq!(counts.ended + held, 80);
    assert_eq!(session.stream_count(), 1);
    Ok(())
}
