//! How long the streams of a format wait: as the session's limits say, by the round trip, or by how late missing packets arrive.

use crate::Fail;
use crate::datagrams::*;
use codec_payload::session::*;
use codec_payload::waiting::AdaptiveWaitSettings;
use codec_payload::*;

/// A session of Opus without requests and of VP8 with requests, whose streams wait so.
fn session(wait: Waiting) -> Session {
    session_within(wait, AdaptiveWaitSettings::live())
}

fn session_within(wait: Waiting, late: AdaptiveWaitSettings) -> Session {
    let mut settings = SessionSettings::live();
    settings.late = late;
    settings.formats = vec![
        {
            let mut format = answered_vp8();
            format.wait = wait;
            format
        },
        {
            let mut format = opus_format();
            format.retransmission = Some(RTX + 3);
            format.wait = wait;
            format
        },
    ];
    settings.pairs = vec![SsrcPair {
        ssrc: 7,
        retransmission: 70,
    }];
    (settings.audio.max_wait, settings.video.max_wait) = (Some(100), Some(200));
    (settings.audio.start, settings.video.start) = (0, 0);
    settings.feedback = Some(FeedbackSettings::live(1, b"me@host".to_vec()));
    Session::new(settings).expect("settings that can be met")
}

fn polled(session: &mut Session, now: u64) -> usize {
    let mut units = 0;
    while let Some(event) = session.poll(Ticks(now)) {
        units += usize::from(matches!(event, Event::Unit { .. }));
    }
    units
}

fn max_wait(session: &Session, ssrc: u32, payload_type: u8) -> Option<u64> {
    session
        .receiver_of(ssrc, payload_type)
        .and_then(|receiver| receiver.wait_limits().max_wait)
}

/// Each sixth packet is lost, and arrives `late` ms after the one behind it, as a retransmission under its own SSRC. The limit after
/// `rounds` of them.
fn limit_after(session: &mut Session, rounds: u16, late: u64) -> Result<Option<u64>, Fail> {
    for round in 0..rounds {
        let at = 1_000 * u64::from(round);
        for number in (0..6).filter(|number| *number != 1) {
            let now = at + 20 * number;
            session.receive(Ticks(now), &opus(7, 6 * round + number as u16))?;
            polled(session, now);
        }
        let lost = 6 * round + 1;
        let again = packet(
            RTX + 3,
            70,
            round,
            960 * u32::from(lost),
            &[&lost.to_be_bytes()[..], &[1, 7]].concat(),
        );
        session.receive(Ticks(at + 40 + late), &again)?;
        polled(session, at + 40 + late);
    }
    Ok(max_wait(session, 7, OPUS))
}

/// 5/4 of the greatest age, at least 200 ms before eight missing packets arrived, and at most 400 ms: as the settings say.
#[test]
fn waiting_follows_late_packets() -> Result<(), Fail> {
    for (rounds, late_by, limit) in [
        (1, 64, 200),
        (7, 64, 200),
        (8, 64, 80),
        (8, 300, 375),
        (8, 400, 400),
    ] {
        let mut session = session(Waiting::Late);
        assert_eq!(
            limit_after(&mut session, rounds, late_by)?,
            Some(limit),
            "{rounds} packets {late_by} ms late"
        );
    }
    Ok(())
}

/// A packet that comes after its frame was discarded counts too, or the limit would never rise again.
#[test]
fn packets_that_come_too_late_count() -> Result<(), Fail> {
    let settings = {
        let mut settings = AdaptiveWaitSettings::live();
        settings.first = 0;
        settings
    };
    let mut session = session_within(Waiting::Late, settings);
    session.receive(Ticks(0), &opus(7, 0))?;
    assert_eq!(max_wait(&session, 7, OPUS), Some(20));
    assert_eq!(limit_after(&mut session, 1, 80)?, Some(100));
    Ok(())
}

/// The session's limits stay, whatever the round trip and whatever comes late.
#[test]
fn a_fixed_wait_stays() -> Result<(), Fail> {
    let mut session = session(Waiting::Fixed);
    assert_eq!(limit_after(&mut session, 8, 64)?, Some(100));
    for number in [1, 2, 4] {
        session.receive(Ticks(9_000), &vp8(5, number, number == 1))?;
    }
    assert_eq!(max_wait(&session, 5, VP8), Some(200));
    Ok(())
}

/// Video waits for the first answers, for `longest_wait`: 1,500 ms by default. Audio without requests waits as the limits say.
#[test]
fn the_round_trip_is_the_default() -> Result<(), Fail> {
    assert_eq!(vp8_format().wait, Waiting::RoundTrip);
    let mut session = session(Waiting::RoundTrip);
    assert_eq!(limit_after(&mut session, 8, 64)?, Some(100));
    for number in [1, 2, 4] {
        session.receive(Ticks(9_000), &vp8(5, number, number == 1))?;
    }
    assert_eq!(max_wait(&session, 5, VP8), Some(1_500));
    Ok(())
}

/// A round trip that is measured changes nothing where waiting follows late packets.
#[test]
fn one_rule_sets_the_limit() -> Result<(), Fail> {
    let mut session = session(Waiting::Late);
    for number in [1, 2, 4] {
        session.receive(Ticks(0), &vp8(5, number, number == 1))?;
    }
    for now in [0, 10] {
        polled(&mut session, now);
    }
    assert_eq!(max_wait(&session, 5, VP8), Some(200));
    let lost = [&[0, 3][..], vp8_frame(false)].concat();
    session.add_pair(5, 50)?;
    session.receive(Ticks(150), &packet(RTX, 50, 1, 9_000, &lost))?;
    assert_eq!(session.stream_at(0).unwrap().round_trip, Some(140));
    assert_eq!(max_wait(&session, 5, VP8), Some(200));
    Ok(())
}

/// The frame behind a gap is released at the limit, which `next_deadline` knows.
#[test]
fn frames_wait_for_the_limit() -> Result<(), Fail> {
    let mut session = session(Waiting::Late);
    limit_after(&mut session, 8, 64)?;
    session.receive(Ticks(8_000), &opus(7, 48))?;
    assert_eq!(polled(&mut session, 8_000), 1);
    session.receive(Ticks(8_040), &opus(7, 50))?;
    assert_eq!(polled(&mut session, 8_040), 0);
    assert_eq!(session.next_deadline(), Some(Ticks(8_120)));
    assert_eq!(
        (polled(&mut session, 8_119), polled(&mut session, 8_120)),
        (0, 1)
    );
    Ok(())
}

/// What polls answer at each millisecond, if a clock has so many ticks in one. Of 400 frames each ninth is lost, and nobody answers.
fn answers_by(ticks: u64) -> Vec<(u64, String)> {
    let mut settings = SessionSettings::live();
    settings.formats = answered_formats();
    settings.feedback = Some(FeedbackSettings::live(1, b"me@host".to_vec()));
    settings.set_tick_rate(Frequency::make(1_000 * ticks as u32).unwrap());
    let mut session = Session::new(settings).unwrap();
    let mut answers = Vec::new();
    for now in 0..45_000 {
        if now % 30 == 0 && now < 12_000 && now / 30 % 9 != 5 {
            let number = (now / 30) as u16;
            session
                .receive(Ticks(now * ticks), &vp8(7, number, number % 60 == 0))
                .unwrap();
        }
        while let Some(event) = session.poll(Ticks(now * ticks)) {
            let text = match event {
                // Its jitter and its times are rounded to the ticks of the clock.
                Event::Report { .. } => "Report".to_string(),
                // The times of arrival of its packets are in ticks.
                Event::Unit { rtp_time, unit, .. } => {
                    format!("Unit {rtp_time:?} {:?}", unit.unwrap().bytes)
                }
                other => format!("{other:?}"),
            };
            answers.push((now, text));
        }
    }
    answers
}

#[test]
fn a_session_by_microseconds_answers_as_one_by_milliseconds() {
    let answers = answers_by(1);
    assert!(answers.iter().any(|(_, text)| text.starts_with("Ended")));
    assert!(
        answers
            .iter()
            .filter(|(_, text)| text.starts_with("Feedback"))
            .count()
            > 40
    );
    let other = answers_by(1_000);
    for (one, two) in answers.iter().zip(&other) {
        assert_eq!(one, two);
    }
    assert_eq!(answers.len(), other.len());
}
