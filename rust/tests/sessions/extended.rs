//! Extended reports of a session (RFC 3611, sections 4.4 and 4.5): its reference time, the answers to it, and its answers to others.
//!
//! Expected bytes were written by hand after the figures of the RFC.

use crate::Fail;
use crate::datagrams::*;
use codec_payload::feedback::RequestCounts;
use codec_payload::rtcp::{CompoundRule, ReceiverReport, RtcpPacket, read_compound};
use codec_payload::session::*;
use codec_payload::xr::{Dlrr, ExtendedReport, XR, write_dlrr, write_reference_time};
use codec_payload::*;

const OWN: u32 = 0x0a0b_0c0d;
const PEER: u32 = 0x0102_0304;

fn session(ssrc: u32, change: impl FnOnce(&mut SessionSettings, &mut FeedbackSettings)) -> Session {
    let mut settings = SessionSettings::live();
    settings.formats = answered_formats();
    let mut feedback = FeedbackSettings::live(ssrc, b"me".to_vec());
    change(&mut settings, &mut feedback);
    settings.feedback = Some(feedback);
    Session::new(settings).expect("settings that can be met")
}

/// The reports of the polls at a time.
fn reports(session: &mut Session, now: u64) -> Result<Vec<Vec<u8>>, Fail> {
    let mut all = Vec::new();
    while let Some(event) = session.poll(Ticks(now)) {
        if let Event::Report { packet } = event {
            all.push(packet?);
        }
    }
    Ok(all)
}

/// The only report of a time.
fn report(session: &mut Session, now: u64) -> Result<Vec<u8>, Fail> {
    let all = reports(session, now)?;
    assert_eq!(all.len(), 1, "at {now}");
    Ok(all.into_iter().next().expect("one"))
}

/// Announces a stream of Opus.
fn announce(session: &mut Session, now: u64, ssrc: u32) -> Result<(), Fail> {
    for number in [1, 2] {
        session.receive(Ticks(now), &opus(ssrc, number))?;
    }
    assert_eq!(reports(session, now)?, Vec::<Vec<u8>>::new());
    Ok(())
}

/// The reference time, and the answer to `ssrc`, in a compound packet.
fn extended(packet: &[u8], ssrc: u32) -> Result<(Option<u64>, Option<Dlrr>), Fail> {
    let (mut time, mut answer) = (None, None);
    for packet in read_compound(CompoundRule::Full, packet)? {
        let RtcpPacket::Other(other) = packet else {
            continue;
        };
        if other.packet_type == XR {
            let report = ExtendedReport::read(other.body)?;
            time = time.or(report.reference_time());
            answer = answer.or(report.dlrr(ssrc));
        }
    }
    Ok((time, answer))
}

fn middle(time: u64) -> u32 {
    (time >> 16) as u32
}

/// An answer of PEER to OWN.
fn answer(last_rr: u32, delay: u32) -> Result<Vec<u8>, Fail> {
    let mut out = Vec::new();
    let dlrr = Dlrr {
        ssrc: OWN,
        last_rr,
        delay,
    };
    write_dlrr(PEER, dlrr, &mut out)?;
    Ok(out)
}

fn round_trip(session: &Session, place: usize) -> Option<u64> {
    session.stream_at(place).expect("a stream").round_trip
}

#[test]
fn each_report_has_a_reference_time() -> Result<(), Fail> {
    let mut session = session(OWN, |_, _| {});
    announce(&mut session, 1_500, 5)?;
    let packet = report(&mut session, 2_500)?;
    // An RR with one block is 32 bytes, the name in SDES 16. Then version 2, type 207, 4 words; SSRC; block type 4, 2 words; 2.5 s.
    assert_eq!(
        packet[48..],
        [
            0x80, 207, 0, 4, 0x0a, 0x0b, 0x0c, 0x0d, //
            4, 0, 0, 2, 0, 0, 0, 2, 0x80, 0, 0, 0,
        ]
    );
    let (time, answer) = extended(&report(&mut session, 3_750)?, PEER)?;
    assert_eq!((time, answer), (Some(0x0000_0003_c000_0000), None));
    Ok(())
}

/// The middle 32 bits are never 0: at the start of the clock, and 65,536 s later, they would be.
#[test]
fn a_reference_time_is_never_0() -> Result<(), Fail> {
    for (start, time) in [
        (0, 0x0000_0000_0001_0000_u64),
        (65_536_000, 0x0001_0000_0001_0000),
        (131_072_000, 0x0002_0000_0001_0000),
    ] {
        let mut session = session(OWN, |_, feedback| feedback.report_interval = Some(1));
        let begin = u64::saturating_sub(start, 1);
        for number in [1, 2] {
            session.receive(Ticks(begin), &opus(5, number))?;
        }
        reports(&mut session, begin)?;
        if start > 0 {
            assert_eq!(extended(&report(&mut session, start)?, PEER)?.0, Some(time));
        }
        assert_eq!(
            xr::reference_time(Ticks(start), SessionSettings::live().tick_rate),
            time
        );
    }
    Ok(())
}

#[test]
fn without_extended_reports() -> Result<(), Fail> {
    let mut session = session(OWN, |_, feedback| feedback.extended = false);
    announce(&mut session, 0, 5)?;
    assert_eq!(report(&mut session, 1_000)?.len(), 48);
    session.receive(Ticks(1_200), &answer(0x0001_0000, 0)?)?;
    assert_eq!(round_trip(&session, 0), None);
    let mut time = Vec::new();
    write_reference_time(PEER, 0x0000_0001_0000_0000, &mut time)?;
    session.receive(Ticks(1_200), &time)?;
    assert_eq!(report(&mut session, 2_000)?.len(), 48);
    Ok(())
}

/// A peer 160 ms away takes 37 ms to answer. The round trip counts for all streams, those that begin later too.
#[test]
fn an_answer_tells_the_round_trip() -> Result<(), Fail> {
    let mut session = session(OWN, |_, _| {});
    announce(&mut session, 0, 5)?;
    session.receive(Ticks(0), &vp8(6, 70, true))?;
    let (time, _) = extended(&report(&mut session, 1_000)?, PEER)?;
    let last = middle(time.expect("a time"));
    assert_eq!(last, 0x0001_0000);
    // For another receiver.
    let mut other = Vec::new();
    let dlrr = Dlrr {
        ssrc: OWN + 1,
        last_rr: last,
        delay: 0,
    };
    write_dlrr(PEER, dlrr, &mut other)?;
    session.receive(Ticks(1_010), &other)?;
    assert_eq!(round_trip(&session, 0), None);
    // 37 ms are 2,424.8 units.
    session.receive(Ticks(1_197), &answer(last, 2_425)?)?;
    assert_eq!(
        [round_trip(&session, 0), round_trip(&session, 1)],
        [Some(160); 2]
    );
    session.receive(Ticks(1_198), &opus(7, 1))?;
    assert_eq!(round_trip(&session, 2), Some(160));
    // Below 0 by up to 100 ms it is 0; below that, and above 60 s, it is none.
    session.receive(Ticks(1_200), &answer(last, 13_107 + 6_553)?)?;
    assert_eq!(round_trip(&session, 0), Some(0));
    session.receive(Ticks(1_200), &answer(last, 13_107 + 6_600)?)?;
    session.receive(Ticks(61_100), &answer(last, 0)?)?;
    session.receive(Ticks(1_200), &answer(0, 0)?)?;
    assert_eq!(round_trip(&session, 0), Some(0));
    session.receive(Ticks(61_000), &answer(last, 0)?)?;
    assert_eq!(round_trip(&session, 2), Some(60_000));
    Ok(())
}

/// The report after three without an answer ends it.
#[test]
fn three_reports_without_an_answer() -> Result<(), Fail> {
    let mut session = session(OWN, |settings, _| settings.idle_timeout = 60_000);
    announce(&mut session, 0, 5)?;
    let (time, _) = extended(&report(&mut session, 1_000)?, PEER)?;
    session.receive(Ticks(1_100), &answer(middle(time.expect("a time")), 0)?)?;
    for now in [2_000, 3_000, 4_000] {
        assert_eq!(round_trip(&session, 0), Some(100), "before {now}");
        report(&mut session, now)?;
    }
    assert_eq!(round_trip(&session, 0), Some(100));
    report(&mut session, 5_000)?;
    assert_eq!(round_trip(&session, 0), None);
    // An answer counts again.
    session.receive(Ticks(5_170), &answer(0x0005_0000, 0)?)?;
    assert_eq!(round_trip(&session, 0), Some(170));
    Ok(())
}

/// A session that sends only answers too: there is an empty report for it.
#[test]
fn a_reference_time_is_answered_once() -> Result<(), Fail> {
    let mut session = session(OWN, |_, _| {});
    let mut times = Vec::new();
    write_reference_time(9, 0x0000_0001_0000_0000, &mut times)?;
    write_reference_time(PEER, 0x1234_5678_9abc_def0, &mut times)?;
    assert_eq!(session.next_deadline(), None);
    session.receive(Ticks(500), &times)?;
    assert_eq!(reports(&mut session, 500)?, Vec::<Vec<u8>>::new());
    assert_eq!(session.next_deadline(), Some(Ticks(1_500)));
    assert_eq!(reports(&mut session, 1_499)?, Vec::<Vec<u8>>::new());
    let packet = report(&mut session, 1_500)?;
    // An empty RR, the name, the own time, and then the latest of the two with a second of delay.
    let mut expected = Vec::new();
    let empty = ReceiverReport {
        ssrc: OWN,
        blocks: &[],
        extension: &[],
    };
    empty.write(&mut expected)?;
    expected.extend([
        0x81, 202, 0, 3, 0x0a, 0x0b, 0x0c, 0x0d, 1, 2, b'm', b'e', 0, 0, 0, 0,
    ]);
    expected.extend([
        0x80, 207, 0, 4, 0x0a, 0x0b, 0x0c, 0x0d, 4, 0, 0, 2, 0, 0, 0, 1, 0x80, 0, 0, 0,
    ]);
    expected.extend([
        0x80, 207, 0, 5, 0x0a, 0x0b, 0x0c, 0x0d, 5, 0, 0, 3, 1, 2, 3, 4,
    ]);
    expected.extend([0x56, 0x78, 0x9a, 0xbc, 0, 1, 0, 0]);
    assert_eq!(packet, expected);
    // Nothing waits now, and no stream is announced.
    assert_eq!(session.next_deadline(), None);
    assert_eq!(reports(&mut session, 9_000)?, Vec::<Vec<u8>>::new());
    Ok(())
}

/// The room for blocks counts 44 bytes.
#[test]
fn the_size_of_a_report() -> Result<(), Fail> {
    for (most, blocks, len) in [
        (0, 1, 92),
        (92, 1, 92),
        (115, 1, 92),
        (116, 2, 116),
        (1_200, 46, 1_180),
    ] {
        let mut session = session(OWN, |settings, feedback| {
            settings.max_streams = 64;
            feedback.max_report = most;
        });
        for ssrc in 1..=64 {
            for number in [1, 2] {
                session.receive(Ticks(0), &opus(ssrc, number))?;
            }
        }
        reports(&mut session, 0)?;
        let mut time = Vec::new();
        write_reference_time(PEER, 0x0000_0001_0000_0000, &mut time)?;
        session.receive(Ticks(0), &time)?;
        let packet = report(&mut session, 1_000)?;
        let count: usize = read_compound(CompoundRule::Full, &packet)?
            .map(|packet| match packet {
                RtcpPacket::ReceiverReport(report) => report.blocks.len() / 24,
                _ => 0,
            })
            .sum();
        assert_eq!((count, packet.len()), (blocks, len), "{most} bytes");
        assert_eq!(extended(&packet, PEER)?.1.map(|it| it.delay), Some(65_536));
    }
    Ok(())
}

/// Two sessions 80 ms apart each way, which send media to each other. Some retransmissions come by themselves, just after a request.
#[test]
fn two_sessions_measure_each_other() -> Result<(), Fail> {
    let make = |ssrc| {
        session(ssrc, |settings, _| {
            settings.pairs = vec![SsrcPair {
                ssrc: 7,
                retransmission: 8,
            }];
        })
    };
    let mut ends = [make(OWN), make(PEER)];
    // To whom, when, what.
    let mut flying: Vec<(usize, u64, Vec<u8>)> = Vec::new();
    let mut measured = 0;
    for now in 0..10_000_u64 {
        let number = u16::try_from(now / 20 + 1)?;
        if now % 20 == 0 && number % 25 != 0 {
            for end in &mut ends {
                end.receive(Ticks(now), &opus(5, number))?;
            }
        }
        let (here, later): (Vec<_>, Vec<_>) = flying.into_iter().partition(|it| it.1 == now);
        flying = later;
        for (to, _, packet) in here {
            ends[to].receive(Ticks(now), &packet)?;
        }
        for (from, end) in ends.iter_mut().enumerate() {
            while let Some(event) = end.poll(Ticks(now)) {
                if let Event::Report { packet } = event {
                    flying.push((1 - from, now + 80, packet?));
                }
            }
            if now <= 3_000 {
                continue;
            }
            if let Some(info) = end.stream_at(0) {
                let trip = info.round_trip.expect("a round trip");
                assert!((160..=163).contains(&trip), "{trip} at {now}");
                measured += 1;
            }
        }
    }
    assert_eq!(measured, 2 * 6_999);
    Ok(())
}

/// The retransmission of a packet (RFC 4588, section 4).
fn again(number: u16, of: &[u8]) -> Vec<u8> {
    let mut payload = of[2..4].to_vec();
    payload.extend(&of[12..]);
    let time = u32::from_be_bytes([of[4], of[5], of[6], of[7]]);
    packet(RTX, 8, number, time, &payload)
}

/// Each 20th packet of 300 is lost, and comes again 160 ms after its first request. One retransmission that nobody asked for comes 1 ms
/// after a request. Returns the round trip of each second, and how many numbers were requested.
fn lossy(has_probe: bool, answers: bool) -> Result<(Vec<Option<u64>>, u32), Fail> {
    let mut session = session(OWN, |settings, _| {
        settings.pairs = vec![SsrcPair {
            ssrc: 7,
            retransmission: 8,
        }];
    });
    let media = |number: u16| vp8(7, number, number == 1);
    let (mut asked, mut flying, mut again_number) = ([0; 301], Vec::<(u64, Vec<u8>)>::new(), 0);
    let (mut trips, mut probe_at) = (Vec::new(), u64::MAX);
    for now in 0..11_000_u64 {
        let number = u16::try_from(now / 33 + 1)?;
        if now % 33 == 0 && number <= 300 && number % 20 != 0 {
            session.receive(Ticks(now), &media(number))?;
        }
        if has_probe && now == probe_at {
            flying.push((now, again(9_000, &media(20))));
        }
        let (here, later): (Vec<_>, Vec<_>) = flying.into_iter().partition(|it| it.0 == now);
        flying = later;
        for (_, packet) in here {
            session.receive(Ticks(now), &packet)?;
        }
        while let Some(event) = session.poll(Ticks(now)) {
            let numbers = match event {
                Event::Feedback { packet, .. } => requested(&packet?)?,
                Event::Report { packet } if answers => {
                    let time = extended(&packet?, PEER)?.0.expect("a time");
                    // 37 ms are 2,424.8 units.
                    flying.push((now + 160 + 37, answer(middle(time), 2_425)?));
                    Vec::new()
                }
                _ => Vec::new(),
            };
            for number in numbers {
                asked[usize::from(number)] += 1;
                if asked[usize::from(number)] == 1 {
                    again_number += 1;
                    flying.push((now + 160, again(again_number, &media(number))));
                    if number == 20 {
                        probe_at = now + 1;
                    }
                }
            }
        }
        if now % 1_000 == 999 {
            trips.push(round_trip(&session, 0));
        }
    }
    Ok((trips, asked.iter().sum()))
}

/// The numbers of the NACKs of a packet.
fn requested(packet: &[u8]) -> Result<Vec<u16>, Fail> {
    let mut numbers = Vec::new();
    for packet in read_compound(CompoundRule::ReducedSize, packet)? {
        if let RtcpPacket::Nack(nack) = packet {
            numbers.extend(nack.numbers());
        }
    }
    Ok(numbers)
}

#[test]
fn a_probe_moves_no_round_trip() -> Result<(), Fail> {
    for (has_probe, answers) in [(false, false), (true, false), (false, true), (true, true)] {
        let (trips, asked) = lossy(has_probe, answers)?;
        let from = if answers { 2 } else { 4 };
        assert!(
            trips[from..].iter().all(|it| matches!(it, Some(160..=163))),
            "{trips:?}"
        );
        assert!(asked <= 20, "{asked} requests, {has_probe} {answers}");
    }
    Ok(())
}

/// Whatever DLRR comes, the round trip is none or within 0 and 60 s.
#[test]
fn forged_answers() -> Result<(), Fail> {
    let mut session = session(OWN, |settings, _| settings.idle_timeout = u64::MAX);
    announce(&mut session, 0, 5)?;
    let mut state = 88_172_645_463_325_252_u64;
    let mut next = || {
        state ^= state << 13;
        state ^= state >> 7;
        state ^= state << 17;
        state
    };
    let mut now = 0;
    for _ in 0..200_000 {
        now += next() % 50;
        let mut datagram = answer(next() as u32, next() as u32)?;
        match next() % 4 {
            0 => {
                datagram = answer(
                    ((now * 65_536 / 1_000) as u32).wrapping_sub((next() % 70_000) as u32),
                    (next() % 70_000) as u32,
                )?
            }
            1 => {
                let at = (next() % datagram.len() as u64) as usize;
                datagram[at] = next() as u8;
            }
            2 => datagram.truncate((next() % 25) as usize),
            _ => write_reference_time(next() as u32, next(), &mut datagram)?,
        }
        session.receive(Ticks(now), &datagram)?;
        reports(&mut session, now)?;
        if let Some(trip) = round_trip(&session, 0) {
            assert!(trip <= 60_000, "{trip}");
        }
        assert_eq!(
            session.stream_at(0).expect("a stream").requests,
            RequestCounts::default()
        );
    }
    Ok(())
}
