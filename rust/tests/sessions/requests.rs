//! What a session requests by itself: which packets, when, and of which streams.

use crate::Fail;
use crate::datagrams::*;
use codec_payload::feedback::RequestCounts;
use codec_payload::rtcp::{CompoundRule, RtcpPacket, read_compound};
use codec_payload::session::*;
use codec_payload::*;

const OWN: u32 = 0x0102_0304;

/// A session that requests packets of both formats, and keyframes of VP8. Its streams wait for a second.
fn session(change: impl Fn(&mut SessionSettings)) -> Session {
    let mut settings = SessionSettings::live();
    settings.formats = vec![answered_vp8(), answered_opus()];
    settings.pairs.push(SsrcPair {
        ssrc: 5,
        retransmission: 50,
    });
    for limits in [&mut settings.audio, &mut settings.video] {
        (limits.start, limits.max_wait) = (0, Some(1_000));
    }
    settings.feedback = Some({
        let mut settings = FeedbackSettings::live(OWN, b"me@host".to_vec());
        settings.keyframe_interval = 500;
        settings
    });
    change(&mut settings);
    Session::new(settings).expect("settings that can be met")
}

/// Video waits for 20 ms, also until the first answer.
fn always_20_ms(settings: &mut SessionSettings) {
    settings.video.max_wait = Some(20);
    settings.feedback.as_mut().unwrap().longest_wait = None;
}

/// A request: the SSRC of the stream, the numbers of its NACKs, and how many PLIs it has.
type Request = (u32, Vec<u16>, usize);

fn read(packet: &[u8]) -> Request {
    let (mut to, mut numbers, mut pictures) = (0, Vec::new(), 0);
    for packet in read_compound(CompoundRule::ReducedSize, packet).unwrap() {
        match packet {
            RtcpPacket::Nack(nack) => {
                assert_eq!(nack.sender_ssrc, OWN);
                to = nack.media_ssrc;
                numbers.extend(nack.numbers());
            }
            RtcpPacket::PictureLoss(picture) => {
                assert_eq!(picture.sender_ssrc, OWN);
                to = picture.media_ssrc;
                pictures += 1;
            }
            _ => {}
        }
    }
    (to, numbers, pictures)
}

/// The requests of a poll.
fn requested(session: &mut Session, now: u64) -> Vec<Request> {
    let mut requests = Vec::new();
    while let Some(event) = session.poll(Ticks(now)) {
        if let Event::Feedback { ssrc, packet, .. } = event {
            let request = read(&packet.unwrap());
            assert_eq!(request.0, ssrc);
            requests.push(request);
        }
    }
    requests
}

/// The times at which numbers are requested until `end`, by a caller who polls at each deadline only.
fn requested_until(session: &mut Session, end: u64) -> Vec<(u64, Vec<u16>)> {
    let mut all = Vec::new();
    while let Some(at) = session.next_deadline().filter(|at| at.0 < end) {
        for (_, numbers, _) in requested(session, at.0) {
            all.push((at.0, numbers));
        }
    }
    all
}

#[test]
fn a_lost_packet_is_requested_at_the_stated_times() -> Result<(), Fail> {
    let mut session = session(|s| {
        s.audio.max_wait = Some(10_000);
        s.feedback.as_mut().unwrap().nack.tries = 3;
    });
    for number in [1, 2, 4] {
        session.receive(Ticks(0), &opus(7, number))?;
    }
    assert_eq!(requested(&mut session, 0), []);
    assert_eq!(session.next_deadline(), Some(Ticks(10)));
    assert_eq!(requested(&mut session, 9), []);
    // First after 10 ms, then each 100 ms, and three times in all.
    assert_eq!(
        requested_until(&mut session, 9_000),
        [(10, vec![3]), (110, vec![3]), (210, vec![3])]
    );
    Ok(())
}

#[test]
fn a_number_that_came_is_not_requested() -> Result<(), Fail> {
    let mut session = session(|_| {});
    for number in [1, 2, 4, 6] {
        session.receive(Ticks(0), &opus(7, number))?;
    }
    assert_eq!(requested(&mut session, 0), []);
    session.receive(Ticks(5), &opus(7, 3))?;
    assert_eq!(requested(&mut session, 5), []);
    assert_eq!(requested(&mut session, 10), [(7, vec![5], 0)]);
    session.receive(Ticks(20), &opus(7, 5))?;
    assert_eq!(requested_until(&mut session, 5_000), []);
    Ok(())
}

#[test]
fn a_number_behind_a_released_frame_is_not_requested() -> Result<(), Fail> {
    let mut session = session(|s| s.audio.max_wait = Some(50));
    for number in [1, 2, 4] {
        session.receive(Ticks(0), &opus(7, number))?;
    }
    assert_eq!(
        requested_until(&mut session, 5_000),
        [(10, vec![3])],
        "the frame behind the gap is released after 50 ms"
    );
    Ok(())
}

#[test]
fn a_keyframe_is_requested_once_an_interval() -> Result<(), Fail> {
    let mut session = session(always_20_ms);
    for number in [1, 2, 4] {
        session.receive(Ticks(0), &vp8(5, number, number == 1))?;
    }
    let mut times = Vec::new();
    for now in 0..1_600 {
        if now % 33 == 0 {
            let number = 5 + (now / 33) as u16;
            session.receive(Ticks(now), &vp8(5, number, false))?;
        }
        for (_, _, pictures) in requested(&mut session, now) {
            times.extend((0..pictures).map(|_| now));
        }
    }
    assert_eq!(times, [20, 520, 1_020, 1_520]);
    session.receive(Ticks(1_600), &vp8(5, 54, true))?;
    assert_eq!(requested(&mut session, 1_600), []);
    session.receive(Ticks(2_100), &vp8(5, 55, false))?;
    assert_eq!(requested(&mut session, 2_100), []);
    Ok(())
}

#[test]
fn two_streams_have_their_own_requests() -> Result<(), Fail> {
    let mut session = session(|_| {});
    for number in [1, 2, 4] {
        session.receive(Ticks(0), &opus(7, number))?;
        session.receive(Ticks(0), &opus(8, 10 * number))?;
    }
    assert_eq!(requested(&mut session, 0), []);
    let numbers = |low: u16, high: u16| (low..high).collect::<Vec<_>>();
    let others = [numbers(11, 20), numbers(21, 40)].concat();
    assert_eq!(
        requested(&mut session, 10),
        [(7, vec![3], 0), (8, others, 0)]
    );
    Ok(())
}

#[test]
fn a_stream_in_probation_requests_nothing() -> Result<(), Fail> {
    let mut session = session(|s| s.probation = 3);
    for number in [1, 3] {
        session.receive(Ticks(0), &opus(7, number))?;
    }
    assert_eq!(requested_until(&mut session, 1_000), []);
    session.receive(Ticks(100), &opus(7, 4))?;
    assert!(matches!(
        session.poll(Ticks(100)),
        Some(Event::Begun { ssrc: 7, .. })
    ));
    assert_eq!(requested(&mut session, 100), []);
    assert_eq!(requested(&mut session, 110), [(7, vec![2], 0)]);
    Ok(())
}

#[test]
fn a_stream_that_leaves_requests_nothing() -> Result<(), Fail> {
    let mut session = session(|s| s.audio.max_wait = Some(10_000));
    for number in [1, 2, 4] {
        session.receive(Ticks(0), &opus(7, number))?;
    }
    assert_eq!(requested(&mut session, 0), []);
    // A BYE (RFC 3550, section 6.6): the stream takes packets for 200 ms more.
    session.receive(Ticks(5), &[0x81, 203, 0, 1, 0, 0, 0, 7])?;
    assert_eq!(session.next_deadline(), Some(Ticks(205)));
    for now in 5..300 {
        assert_eq!(requested(&mut session, now), []);
    }
    assert_eq!(session.stream_count(), 0);
    Ok(())
}

#[test]
fn formats_say_what_is_requested() -> Result<(), Fail> {
    for (nack, pli) in [(false, false), (false, true), (true, false), (true, true)] {
        let mut session = session(|s| {
            (s.formats[0].nack, s.formats[0].pli) = (nack, pli);
            always_20_ms(s);
        });
        for number in [1, 2, 4] {
            session.receive(Ticks(0), &vp8(5, number, number == 1))?;
        }
        let (mut numbers, mut pictures) = (0, 0);
        for now in 0..100 {
            for request in requested(&mut session, now) {
                numbers += request.1.len();
                pictures += request.2;
            }
        }
        assert_eq!((numbers, pictures), (usize::from(nack), usize::from(pli)));
    }
    Ok(())
}

#[test]
fn without_settings_nothing_is_requested() -> Result<(), Fail> {
    let mut session = session(|s| s.feedback = None);
    for number in [1, 2, 4] {
        session.receive(Ticks(0), &opus(7, number))?;
    }
    assert_eq!(requested(&mut session, 0), []);
    assert_eq!(session.next_deadline(), Some(Ticks(1_000)));
    assert_eq!(requested_until(&mut session, 9_000), []);
    Ok(())
}

/// Two requests are answered after 40 ms, by retransmissions under their own SSRC or by the packets themselves. So the next number is
/// requested each 9/8 of that, and 5 ms more.
#[test]
fn two_answers_measure_the_round_trip() -> Result<(), Fail> {
    let again = |number: u8, lost: u8| {
        let payload = [&[0, lost][..], vp8_frame(false)].concat();
        packet(RTX, 50, number.into(), 9_000, &payload)
    };
    let retransmitted = [again(1, 3), again(2, 5)];
    let cases = [
        (Some(RTX), retransmitted),
        (None, [vp8(5, 3, false), vp8(5, 5, false)]),
    ];
    for (retransmission, answers) in cases {
        let mut session = session(|s| {
            s.formats[0].retransmission = retransmission;
            s.video.max_wait = Some(10_000);
        });
        for number in [1, 2, 4, 6] {
            session.receive(Ticks(0), &vp8(5, number, number == 1))?;
        }
        assert_eq!(requested(&mut session, 0), []);
        assert_eq!(requested(&mut session, 10), [(5, vec![3, 5], 0)]);
        for answer in answers {
            session.receive(Ticks(50), &answer)?;
        }
        assert_eq!(session.stream_at(0).unwrap().round_trip, Some(40));
        session.receive(Ticks(50), &vp8(5, 8, false))?;
        assert_eq!(requested(&mut session, 50), []);
        let times: Vec<u64> = requested_until(&mut session, 200)
            .iter()
            .map(|request| request.0)
            .collect();
        assert_eq!(times, [60, 110, 160]);
    }
    Ok(())
}

/// Number 3 is requested and comes by itself 2 ms later, since the network overtook it. Its sender would answer under the payload
/// type of retransmissions, so this says nothing about the round trip.
#[test]
fn a_late_packet_is_no_answer() -> Result<(), Fail> {
    let mut session = session(|_| {});
    for number in [1, 2, 4] {
        session.receive(Ticks(0), &vp8(5, number, number == 1))?;
    }
    assert_eq!(requested(&mut session, 0), []);
    assert_eq!(requested(&mut session, 10), [(5, vec![3], 0)]);
    session.receive(Ticks(12), &vp8(5, 3, false))?;
    assert_eq!(requested(&mut session, 12), []);
    assert_eq!(session.stream_at(0).unwrap().round_trip, None);
    Ok(())
}

/// A decoder needs a keyframe, and the sender stops at 0 ms: it is asked each 500 ms, for 2 s.
#[test]
fn a_silent_sender_is_not_asked() -> Result<(), Fail> {
    let mut session = session(always_20_ms);
    for number in [1, 2, 4] {
        session.receive(Ticks(0), &vp8(5, number, number == 1))?;
    }
    let mut times = Vec::new();
    while let Some(at) = session.next_deadline().filter(|at| at.0 < 20_000) {
        for (_, _, pictures) in requested(&mut session, at.0) {
            times.extend((0..pictures).map(|_| at.0));
        }
    }
    assert_eq!(times, [20, 520, 1_020, 1_520]);
    // It is asked again once it sends.
    session.receive(Ticks(20_000), &vp8(5, 5, false))?;
    assert_eq!(requested(&mut session, 20_000), [(5, vec![], 1)]);
    Ok(())
}

/// Numbers 3 and 5 are requested at 10 ms and answered at `answered`. So a frame behind the next gap waits until six requests of a number
/// left, 9/8 of the round trip and 5 ms apart, and the last one was answered: within the session's limit of 200 ms and the longest wait.
#[test]
fn waiting_follows_the_round_trip() -> Result<(), Fail> {
    let cases = [
        // 10 + 6 * 20, since two requests are at least 20 ms apart
        (Some(1_500), 20, 200),
        // 10 + 6 * (70 + 8 + 5)
        (Some(1_500), 80, 508),
        // 10 + 6 * (160 + 20 + 5)
        (Some(1_500), 170, 1_120),
        (Some(1_000), 170, 1_000),
        (Some(100), 80, 200),
        (None, 80, 200),
    ];
    for (longest_wait, answered, wait) in cases {
        let mut session = session(|s| {
            s.formats[0].retransmission = None;
            s.video.max_wait = Some(200);
            s.feedback.as_mut().unwrap().longest_wait = longest_wait;
        });
        for number in [1, 2, 4, 6] {
            session.receive(Ticks(0), &vp8(5, number, number == 1))?;
        }
        assert_eq!(requested(&mut session, 0), []);
        assert_eq!(requested(&mut session, 10), [(5, vec![3, 5], 0)]);
        let limits = |session: &Session| session.receiver_of(5, VP8).unwrap().wait_limits();
        session.receive(Ticks(answered), &vp8(5, 3, false))?;
        // One answer alone may be a packet that came by itself.
        let patient = longest_wait.map_or(200, |longest| longest.max(200));
        assert_eq!(limits(&session).max_wait, Some(patient));
        session.receive(Ticks(answered), &vp8(5, 5, false))?;
        assert_eq!(
            session.stream_at(0).unwrap().round_trip,
            Some(answered - 10)
        );
        // The numbers that were requested with 100 ms until their next request are no longer missing.
        assert_eq!(requested(&mut session, answered), []);
        session.receive(Ticks(answered), &vp8(5, 7, false))?;
        assert_eq!(limits(&session).max_wait, Some(wait));
        assert_eq!(limits(&session).start, 0);
    }
    Ok(())
}

/// A report measured 160 ms before the first loss: the second request leaves after 9/8 of that and 5 ms, and a frame waits for six of
/// them. `None` later: nothing was answered, so the second request leaves after 100 ms.
#[test]
fn a_report_sets_the_round_trip() -> Result<(), Fail> {
    for (reported, second, wait) in [(Some(160), 195, 1_120), (None, 110, 1_500)] {
        let mut session = session(|s| s.video.max_wait = Some(200));
        for number in [1, 2] {
            session.receive(Ticks(0), &vp8(5, number, number == 1))?;
        }
        session.set_round_trip(5, VP8, Some(80));
        session.set_round_trip(5, VP8, reported);
        session.set_round_trip(5, OPUS, Some(7));
        session.set_round_trip(6, VP8, Some(7));
        assert_eq!(session.stream_at(0).unwrap().round_trip, reported);
        session.receive(Ticks(0), &vp8(5, 4, false))?;
        let limits = session.receiver_of(5, VP8).unwrap().wait_limits();
        assert_eq!(limits.max_wait, Some(wait));
        let times: Vec<u64> = requested_until(&mut session, second + 1)
            .iter()
            .map(|request| request.0)
            .collect();
        assert_eq!(times, [10, second]);
    }
    Ok(())
}

/// While a frame waits four requests of a number leave: they are at most a quarter of the wait apart, and not less than 20 ms.
#[test]
fn tries_fit_the_wait() -> Result<(), Fail> {
    let cases = [
        (400, 1, vec![10, 110, 210, 310]),
        (120, 1, vec![10, 40, 70, 100]),
        (60, 1, vec![10, 30, 50]),
        // A clock of microseconds.
        (400_000, 1_000, vec![10_000, 110_000, 210_000, 310_000]),
    ];
    for (wait, tick, expected) in cases {
        let mut session = session(|s| {
            s.formats[0].wait = Waiting::Fixed;
            s.video.max_wait = Some(wait);
            s.idle_timeout *= tick;
            let feedback = s.feedback.as_mut().unwrap();
            let nack = &mut feedback.nack;
            for time in [
                &mut nack.first_wait,
                &mut nack.retry,
                &mut nack.shortest_retry,
                &mut nack.longest_retry,
                &mut feedback.silence,
                &mut feedback.keyframe_interval,
            ] {
                *time *= tick;
            }
        });
        for number in [1, 2, 4] {
            session.receive(Ticks(0), &vp8(5, number, number == 1))?;
        }
        let times: Vec<u64> = requested_until(&mut session, wait)
            .iter()
            .map(|request| request.0)
            .collect();
        assert_eq!(times, expected);
    }
    Ok(())
}

/// A packet that nobody asked for comes 1 ms after a request, as a probe of Chromium does; all answers take 160 ms. 14 packets are lost,
/// each 20th, of which each is requested once but for the first, whose second request leaves after 100 ms.
#[test]
fn a_probe_does_not_shorten_the_round_trip() -> Result<(), Fail> {
    let mut session = session(|s| s.video.max_wait = Some(200));
    let again = |of: u16, number: u16| {
        let payload = [&of.to_be_bytes()[..], vp8_frame(false)].concat();
        packet(RTX, 50, number, u32::from(of) * 3_000, &payload)
    };
    let (mut answers, mut probe, mut count) = (Vec::new(), None, 0);
    let (mut rtx, mut asked, mut decodable) = (0, Vec::new(), 0);
    for now in 0..10_000 {
        let number = (now / 33) as u16 + 1;
        if now % 33 == 0 && number < 300 && number % 20 != 0 {
            session.receive(Ticks(now), &vp8(5, number, number == 1))?;
        }
        let due = |answer: &(u64, u16)| answer.0 == now;
        for (_, of) in answers.iter().copied().filter(due).chain(probe.filter(due)) {
            rtx += 1;
            session.receive(Ticks(now), &again(of, rtx))?;
        }
        while let Some(event) = session.poll(Ticks(now)) {
            match event {
                Event::Unit {
                    decodable: shown, ..
                } => decodable += usize::from(shown),
                Event::Feedback { packet, .. } => {
                    for number in read(&packet?).1 {
                        count += 1;
                        if !asked.contains(&number) {
                            asked.push(number);
                            answers.push((now + 160, number));
                            probe = probe.or(Some((now + 1, number)));
                        }
                    }
                }
                _ => {}
            }
        }
        if number > 65 {
            assert_eq!(session.stream_at(0).unwrap().round_trip, Some(160));
        }
    }
    assert!(count <= 20, "{count} requests of 14 numbers");
    assert_eq!((asked.len(), decodable), (14, 299));
    Ok(())
}

/// The round trip is 45 ms, and frames wait for 100 ms. Number 5 is requested each 25 ms, a quarter of that. The answer is expected at
/// 310 ms, and the frame behind it would be released at 300 ms. Then number 6 comes, which was only late: from now on the first complete
/// frame waits until 370 ms, so the answer is in time. Without this request a unit would be lost.
#[test]
fn an_answer_expected_too_late_can_come_in_time() -> Result<(), Fail> {
    let mut session = session(|s| {
        s.audio.max_wait = Some(100);
        s.formats[1].wait = Waiting::Fixed;
    });
    for number in [1, 2, 4] {
        session.receive(Ticks(0), &opus(7, number))?;
    }
    assert_eq!(requested(&mut session, 0), []);
    assert_eq!(requested(&mut session, 10), [(7, vec![3], 0)]);
    session.receive(Ticks(55), &opus(7, 3))?;
    assert_eq!(session.stream_at(0).unwrap().round_trip, Some(45));
    session.receive(Ticks(200), &opus(7, 7))?;
    assert_eq!(requested(&mut session, 200), []);
    for now in [210, 235, 260] {
        assert_eq!(requested(&mut session, now), [(7, vec![5, 6], 0)]);
    }
    let due = |session: &Session| session.receiver_of(7, OPUS).unwrap().next_deadline();
    assert_eq!(due(&session), Some(Ticks(300)));
    session.receive(Ticks(270), &opus(7, 6))?;
    assert_eq!(due(&session), Some(Ticks(370)));
    assert_eq!(requested(&mut session, 285), [(7, vec![5], 0)]);
    assert_eq!(requested(&mut session, 300), []);
    session.receive(Ticks(310), &opus(7, 5))?;
    let mut units = 0;
    while let Some(event) = session.poll(Ticks(310)) {
        units += usize::from(matches!(event, Event::Unit { .. }));
    }
    assert_eq!(units, 3);
    Ok(())
}

/// RFC 3550, sections 6.4.2 and 6.5: an empty report and the name come first.
#[test]
fn packets_carry_a_report_and_a_name() -> Result<(), Fail> {
    let mut session = session(|s| {
        let feedback = s.feedback.as_mut().unwrap();
        (feedback.has_report, feedback.cname) = (true, vec![b'n'; 255]);
    });
    for number in [1, 2, 4] {
        session.receive(Ticks(0), &opus(7, number))?;
    }
    requested(&mut session, 0);
    let Some(Event::Feedback { packet, .. }) = session.poll(Ticks(10)) else {
        panic!("number 3 is due");
    };
    let packet = packet?;
    // An empty receiver report (type 201), then a description (202) of 66 words with one chunk: SSRC, CNAME (1), length, name.
    assert_eq!(packet[..8], [0x80, 201, 0, 1, 1, 2, 3, 4]);
    assert_eq!(packet[8..19], [0x81, 202, 0, 66, 1, 2, 3, 4, 1, 255, b'n']);
    assert_eq!(read(&packet), (7, vec![3], 0));
    Ok(())
}

/// The first loss of a stream over a round trip of 160 ms: number 3 is lost, and so is the first answer. The frame behind it is complete
/// at 33 ms, so by the session's limit of 200 ms it is released at 233 ms, and no frame up to the next keyframe can be shown. The
/// answer to the second request arrives a round trip after it.
#[test]
fn a_first_loss_waits_for_the_first_answer() -> Result<(), Fail> {
    let cases = [
        // Waiting follows the round trip: by the default, and by a bound that is too short.
        (Some(800), true, true),
        (Some(200), true, false),
        // Waiting does not follow the round trip; or the sender does not answer NACKs, so no answer can come.
        (None, true, false),
        (Some(800), false, false),
    ];
    for (longest_wait, nack, shown) in cases {
        let mut session = session(|s| {
            s.formats[0].retransmission = None;
            s.formats[0].nack = nack;
            s.video.max_wait = Some(200);
            s.feedback.as_mut().unwrap().longest_wait = longest_wait;
        });
        session.receive(Ticks(0), &vp8(5, 1, true))?;
        session.receive(Ticks(0), &vp8(5, 2, false))?;
        let (mut asked, mut answered, mut shown_units, mut units) = (0, None, 0, 0);
        for now in 0..2_000 {
            if answered == Some(now) {
                session.receive(Ticks(now), &vp8(5, 3, false))?;
            }
            // A frame each 33 ms, 28 of them.
            if now % 33 == 0 && (1..29).contains(&(now / 33)) {
                session.receive(Ticks(now), &vp8(5, 3 + (now / 33) as u16, false))?;
            }
            while let Some(event) = session.poll(Ticks(now)) {
                match event {
                    Event::Unit { decodable, .. } => {
                        units += 1;
                        shown_units += usize::from(decodable);
                    }
                    Event::Feedback { packet, .. } => {
                        asked += read(&packet?).1.iter().filter(|it| **it == 3).count();
                        // The answer to the first request is lost.
                        if asked == 2 && answered.is_none() {
                            answered = Some(now + 160);
                        }
                    }
                    _ => {}
                }
            }
        }
        let expected = if shown { (31, 31) } else { (30, 2) };
        assert_eq!((units, shown_units), expected, "{longest_wait:?} {nack}");
    }
    Ok(())
}

/// Audio does not wait for a first answer: a lost packet of audio delays what follows by the session's limit.
#[test]
fn audio_waits_as_the_session_says_until_the_first_answer() -> Result<(), Fail> {
    let mut session = session(|s| s.audio.max_wait = Some(100));
    for number in [1, 2] {
        session.receive(Ticks(0), &opus(7, number))?;
    }
    let limits = session.receiver_of(7, OPUS).unwrap().wait_limits();
    assert_eq!(limits.max_wait, Some(100));
    Ok(())
}

/// Each number and each keyframe in a packet of feedback is counted, also what is requested again. The event that ends the stream
/// leaves its last counts.
#[test]
fn requests_are_counted_up_to_the_end() -> Result<(), Fail> {
    let mut session = session(always_20_ms);
    for number in [1, 2, 4, 5, 8] {
        session.receive(Ticks(0), &vp8(5, number, number == 1))?;
        session.receive(Ticks(0), &opus(7, number))?;
    }
    assert!(session.last_stream().is_none());
    let mut sent = [(5, RequestCounts::default()), (7, RequestCounts::default())];
    for now in 0..1_500 {
        for (ssrc, numbers, keyframes) in requested(&mut session, now) {
            let (_, counts) = sent.iter_mut().find(|it| it.0 == ssrc).unwrap();
            counts.numbers += numbers.len() as u64;
            counts.keyframes += keyframes as u64;
        }
        let told = [0, 1].map(|at| session.stream_at(at).unwrap());
        assert_eq!(told.map(|it| (it.ssrc, it.requests)), sent, "{now}");
    }
    assert!(sent[0].1.keyframes > 1 && sent[1].1.numbers > 3, "{sent:?}");
    assert_eq!(sent[1].1.keyframes, 0);
    session.end(Ticks(1_500), 7);
    let mut ended = false;
    while let Some(event) = session.poll(Ticks(1_500)) {
        if let Event::Ended { ssrc, .. } = event {
            let last = session.last_stream().ok_or("no stream ended")?;
            assert_eq!((ssrc, last.ssrc, last.requests), (7, 7, sent[1].1));
            assert_eq!((last.taken, last.held), (5, 0));
            let size = opus(7, 1).len() as u64 - 12;
            assert_eq!(last.bytes, 5 * size);
            let packets = last.counters.packets;
            assert_eq!((packets.released, packets.units), (5, 5));
            ended = true;
        }
    }
    assert!(ended && session.stream_count() == 1);
    Ok(())
}
