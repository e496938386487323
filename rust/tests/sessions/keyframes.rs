//! Keyframes that the caller of a session asks for, as a server whose viewer sent a PLI: they share the limit of the session's own
//! requests.

use crate::Fail;
use crate::datagrams::*;
use codec_payload::rtcp::{CompoundRule, RtcpPacket, read_compound};
use codec_payload::session::*;
use codec_payload::*;

/// A session that requests packets, and keyframes of VP8. A frame waits for 20 ms.
fn session(change: impl Fn(&mut SessionSettings)) -> Session {
    let mut settings = SessionSettings::live();
    settings.formats = vec![answered_vp8(), answered_opus()];
    for limits in [&mut settings.audio, &mut settings.video] {
        (limits.start, limits.max_wait) = (0, Some(20));
    }
    let mut feedback = FeedbackSettings::live(1, b"me@host".to_vec());
    (feedback.longest_wait, feedback.report_interval) = (None, None);
    feedback.keyframe_interval = 500;
    settings.feedback = Some(feedback);
    change(&mut settings);
    Session::new(settings).expect("settings that can be met")
}

/// The packets of requests of all polls: how many numbers and how many PLIs each has.
fn requested(session: &mut Session, now: u64) -> Vec<(usize, usize)> {
    let mut requests = Vec::new();
    while let Some(event) = session.poll(Ticks(now)) {
        if let Event::Feedback { packet, ssrc, .. } = event {
            let (mut numbers, mut pictures) = (0, 0);
            for packet in read_compound(CompoundRule::ReducedSize, &packet.unwrap()).unwrap() {
                match packet {
                    RtcpPacket::Nack(nack) => numbers += nack.numbers().count(),
                    RtcpPacket::PictureLoss(picture) => {
                        assert_eq!((picture.sender_ssrc, picture.media_ssrc), (1, ssrc));
                        pictures += 1;
                    }
                    _ => {}
                }
            }
            requests.push((numbers, pictures));
        }
    }
    requests
}

/// A session whose stream 5 of VP8 has released a keyframe and a frame at 0 ms.
fn playing(change: impl Fn(&mut SessionSettings)) -> Result<Session, Fail> {
    let mut session = session(change);
    for number in [1, 2] {
        session.receive(Ticks(0), &vp8(5, number, number == 1))?;
    }
    assert_eq!(requested(&mut session, 0), []);
    Ok(session)
}

/// The moments of PLIs until `end`, of a caller who polls at each deadline only.
fn asked_until(session: &mut Session, end: u64) -> Vec<u64> {
    let mut times = Vec::new();
    while let Some(at) = session.next_deadline().filter(|at| at.0 < end) {
        for (_, pictures) in requested(session, at.0) {
            times.extend((0..pictures).map(|_| at.0));
        }
    }
    times
}

#[test]
fn a_pli_leaves_at_once() -> Result<(), Fail> {
    let mut session = playing(|_| {})?;
    assert_eq!(session.request_keyframe(5), KeyframeAnswer::Requested);
    assert_eq!(session.next_deadline(), Some(Ticks(0)));
    assert_eq!(requested(&mut session, 7), [(0, 1)]);
    assert_eq!(requested(&mut session, 7), []);
    assert_eq!(asked_until(&mut session, 25_000), []);
    Ok(())
}

/// Three viewers ask within the interval of 500 ms: the first PLI at 10 ms, and one for the other two at 510 ms.
#[test]
fn viewers_share_one_limit() -> Result<(), Fail> {
    let mut session = playing(|_| {})?;
    assert_eq!(session.request_keyframe(5), KeyframeAnswer::Requested);
    assert_eq!(requested(&mut session, 10), [(0, 1)]);
    for now in [20, 300] {
        assert_eq!(session.request_keyframe(5), KeyframeAnswer::Requested);
        assert_eq!(requested(&mut session, now), []);
    }
    assert_eq!(session.next_deadline(), Some(Ticks(510)));
    assert_eq!(asked_until(&mut session, 25_000), [510]);
    Ok(())
}

/// The session's own PLI at 20 ms, for a frame that was discarded, is in the limit too.
#[test]
fn the_sessions_own_requests_count() -> Result<(), Fail> {
    let mut session = playing(|s| s.formats[0].nack = false)?;
    session.receive(Ticks(0), &vp8(5, 4, false))?;
    assert_eq!(asked_until(&mut session, 100), [20]);
    session.receive(Ticks(100), &vp8(5, 5, true))?;
    assert_eq!(requested(&mut session, 100), []);
    assert_eq!(session.request_keyframe(5), KeyframeAnswer::Requested);
    assert_eq!(asked_until(&mut session, 25_000), [520]);
    Ok(())
}

/// One packet has the NACK of number 3 and the PLI.
#[test]
fn a_pli_goes_beside_a_nack() -> Result<(), Fail> {
    let mut session = playing(|s| s.video.max_wait = Some(1_000))?;
    session.receive(Ticks(0), &vp8(5, 4, false))?;
    assert_eq!(requested(&mut session, 0), []);
    assert_eq!(session.request_keyframe(5), KeyframeAnswer::Requested);
    assert_eq!(requested(&mut session, 10), [(1, 1)]);
    Ok(())
}

/// A request waits from 20 ms on, and a keyframe comes before the limit ends: it is the one that was asked for.
#[test]
fn a_keyframe_answers_what_waits() -> Result<(), Fail> {
    for keyframe in [true, false] {
        let mut session = playing(|_| {})?;
        session.request_keyframe(5);
        assert_eq!(requested(&mut session, 10), [(0, 1)]);
        session.request_keyframe(5);
        session.receive(Ticks(50), &vp8(5, 3, keyframe))?;
        assert_eq!(requested(&mut session, 50), []);
        let again: &[u64] = if keyframe { &[] } else { &[510] };
        assert_eq!(asked_until(&mut session, 25_000), again);
        // What is asked for after the keyframe is another one.
        session.receive(Ticks(25_000), &vp8(5, 4, false))?;
        session.request_keyframe(5);
        assert_eq!(requested(&mut session, 25_000), [(0, 1)]);
    }
    Ok(())
}

/// A PLI that is lost is repeated as long as the caller asks: at 0, 500, 1,000 and 1,500 ms, and not after the keyframe of 1,600 ms.
#[test]
fn it_can_be_called_each_time() -> Result<(), Fail> {
    let mut session = playing(|_| {})?;
    let mut times = Vec::new();
    for now in 0..1_600 {
        assert_eq!(session.request_keyframe(5), KeyframeAnswer::Requested);
        if now % 50 == 49 {
            session.receive(Ticks(now), &vp8(5, 3 + (now / 50) as u16, false))?;
        }
        for (_, pictures) in requested(&mut session, now) {
            times.extend((0..pictures).map(|_| now));
        }
    }
    assert_eq!(times, [0, 500, 1_000, 1_500]);
    session.receive(Ticks(1_600), &vp8(5, 35, true))?;
    assert_eq!(requested(&mut session, 1_600), []);
    assert_eq!(asked_until(&mut session, 25_000), []);
    Ok(())
}

#[test]
fn no_pli_is_sent_without_an_agreement() -> Result<(), Fail> {
    // The format has no `nack pli`.
    let mut without = playing(|s| s.formats[0].pli = false)?;
    // The session sends no feedback.
    let mut silent = playing(|s| s.feedback = None)?;
    for session in [&mut without, &mut silent] {
        assert_eq!(session.request_keyframe(5), KeyframeAnswer::NotNegotiated);
        assert_eq!(requested(session, 10), []);
    }
    // Audio.
    let mut audio = session(|_| {});
    for number in [1, 2] {
        audio.receive(Ticks(0), &opus(7, number))?;
    }
    assert_eq!(requested(&mut audio, 0), []);
    assert_eq!(audio.request_keyframe(7), KeyframeAnswer::NotNegotiated);
    assert_eq!(requested(&mut audio, 10), []);
    Ok(())
}

#[test]
fn a_stream_that_is_missing_or_ends_is_not_asked() -> Result<(), Fail> {
    let mut session = playing(|_| {})?;
    assert_eq!(session.request_keyframe(6), KeyframeAnswer::NoStream);
    assert_eq!(requested(&mut session, 1), []);
    session.receive(Ticks(1), &bye(5))?;
    assert_eq!(session.request_keyframe(5), KeyframeAnswer::NoStream);
    for now in [1, 201] {
        assert_eq!(requested(&mut session, now), []);
    }
    assert_eq!((session.stream_count(), session.next_deadline()), (0, None));
    assert_eq!(session.request_keyframe(5), KeyframeAnswer::NoStream);
    Ok(())
}

/// A request is dropped with its stream: the next stream of the SSRC does not send it.
#[test]
fn a_request_ends_with_its_stream() -> Result<(), Fail> {
    let mut session = playing(|_| {})?;
    session.request_keyframe(5);
    session.end(Ticks(0), 5);
    assert_eq!(requested(&mut session, 0), []);
    assert_eq!(session.stream_count(), 0);
    for number in [3, 4] {
        session.receive(Ticks(1), &vp8(5, number, number == 3))?;
    }
    assert_eq!(requested(&mut session, 1), []);
    Ok(())
}

#[test]
fn a_stream_in_probation_asks_once_it_is_announced() -> Result<(), Fail> {
    let mut session = session(|_| {});
    session.receive(Ticks(0), &vp8(5, 1, false))?;
    assert_eq!(session.request_keyframe(5), KeyframeAnswer::Requested);
    assert_eq!(
        (session.poll(Ticks(0)).is_none(), session.next_deadline()),
        (true, None)
    );
    session.receive(Ticks(30), &vp8(5, 2, false))?;
    assert_eq!(requested(&mut session, 30), [(0, 1)]);
    Ok(())
}

/// Nothing is requested of a sender that was silent for more than 2 s. The request leaves with its next datagram.
#[test]
fn a_silent_sender_is_asked_once_it_sends() -> Result<(), Fail> {
    let mut session = playing(|_| {})?;
    assert_eq!(session.request_keyframe(5), KeyframeAnswer::Requested);
    assert_eq!(requested(&mut session, 2_001), []);
    assert_eq!(asked_until(&mut session, 20_000), []);
    session.receive(Ticks(20_000), &vp8(5, 3, false))?;
    assert_eq!(requested(&mut session, 20_000), [(0, 1)]);
    Ok(())
}

/// Each layer has its own limit.
#[test]
fn two_streams_are_asked_apart() -> Result<(), Fail> {
    let mut session = playing(|_| {})?;
    for number in [1, 2] {
        session.receive(Ticks(0), &vp8(6, number, number == 1))?;
    }
    assert_eq!(requested(&mut session, 0), []);
    session.request_keyframe(6);
    assert_eq!(requested(&mut session, 1), [(0, 1)]);
    session.request_keyframe(5);
    assert_eq!(requested(&mut session, 2), [(0, 1)]);
    Ok(())
}
