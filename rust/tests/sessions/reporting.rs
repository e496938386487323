//! The receiver reports that a session sends by itself: when, about which streams, and as which packet. Extended reports are off here;
//! `extended.rs` has them.

use crate::Fail;
use crate::datagrams::*;
use codec_payload::rtcp::{CompoundRule, ReportBlock, RtcpPacket, read_compound};
use codec_payload::session::*;
use codec_payload::*;
use std::collections::BTreeMap;

const OWN: u32 = 0x0a0b_0c0d;

/// A session with reports, and what `change` does to its settings.
fn session(change: impl FnOnce(&mut SessionSettings, &mut FeedbackSettings)) -> Session {
    let mut settings = SessionSettings::live();
    settings.formats = vec![opus_format(), vp8_format()];
    let mut feedback = FeedbackSettings::live(OWN, b"me@host".to_vec());
    feedback.extended = false;
    change(&mut settings, &mut feedback);
    settings.feedback = Some(feedback);
    Session::new(settings).expect("settings that can be met")
}

/// A compound packet, read: the blocks of each receiver report, and the names of OWN.
type Read = (Vec<Vec<ReportBlock>>, Vec<Vec<u8>>);

fn read(packet: &[u8]) -> Result<Read, Fail> {
    let (mut reports, mut names) = (Vec::new(), Vec::new());
    for packet in read_compound(CompoundRule::Full, packet)? {
        match packet {
            RtcpPacket::ReceiverReport(report) => {
                assert!(names.is_empty(), "the name comes last");
                assert_eq!((report.ssrc, report.extension), (OWN, &[][..]));
                reports.push((0..).map_while(|index| report.block(index)).collect());
            }
            RtcpPacket::SourceDescription(description) => {
                for chunk in description.chunks() {
                    assert_eq!(chunk.ssrc, OWN);
                    names.extend(chunk.cname().map(<[u8]>::to_vec));
                }
            }
            _ => return Err("there is nothing else".into()),
        }
    }
    Ok((reports, names))
}

/// The reports of the polls at a time.
fn reports(session: &mut Session, now: u64) -> Result<Vec<Read>, Fail> {
    let mut all = Vec::new();
    while let Some(event) = session.poll(Ticks(now)) {
        if let Event::Report { packet } = event {
            all.push(read(&packet?)?);
        }
    }
    Ok(all)
}

/// SSRC, fraction, lost packets and highest number of each block.
fn short(blocks: &[ReportBlock]) -> Vec<(u32, u8, u32, u32)> {
    let one = |b: &ReportBlock| {
        let lost = b.cumulative_lost;
        (b.ssrc, b.fraction_lost, lost, b.highest_sequence_number)
    };
    blocks.iter().map(one).collect()
}

#[test]
fn a_report_each_second() -> Result<(), Fail> {
    let mut session = session(|_, feedback| feedback.cname = b"me".to_vec());
    for number in [10, 11, 13, 15] {
        session.receive(Ticks(500), &opus(5, number))?;
    }
    // A stream in probation.
    session.receive(Ticks(500), &vp8(6, 70, true))?;
    assert_eq!(reports(&mut session, 500)?, []);
    assert_eq!(session.next_deadline(), Some(Ticks(600)));
    assert_eq!(reports(&mut session, 1_499)?, []);
    assert_eq!(session.next_deadline(), Some(Ticks(1_500)));
    // 6 are expected, 2 are lost: 2 * 256 / 6 (RFC 3550, section A.3).
    let [(packets, names)] = &reports(&mut session, 1_500)?[..] else {
        return Err("there is one".into());
    };
    assert_eq!(names, &[b"me".to_vec()]);
    assert_eq!(packets.len(), 1);
    assert_eq!(short(&packets[0]), [(5, 85, 2, 15)]);
    assert_eq!(reports(&mut session, 1_500)?, []);

    // The other stream is announced, and the fraction counts from the last report on: 5 are expected, 1 is lost.
    for number in [16, 17, 18, 20] {
        session.receive(Ticks(1_600), &opus(5, number))?;
    }
    session.receive(Ticks(1_600), &vp8(6, 71, false))?;
    assert_eq!(reports(&mut session, 2_499)?, []);
    // The poll is late: the next report is one interval after it.
    let [(packets, _)] = &reports(&mut session, 2_900)?[..] else {
        return Err("there is one".into());
    };
    assert_eq!(short(&packets[0]), [(5, 51, 3, 20), (6, 0, 0, 71)]);
    assert_eq!(reports(&mut session, 3_899)?, []);
    assert_eq!(session.next_deadline(), Some(Ticks(3_900)));
    assert_eq!(reports(&mut session, 3_900)?.len(), 1);
    Ok(())
}

#[test]
fn blocks_in_groups_of_31() -> Result<(), Fail> {
    for (count, groups) in [
        (1, &[1][..]),
        (31, &[31]),
        (32, &[31, 1]),
        (62, &[31, 31]),
        (70, &[31, 31, 8]),
    ] {
        let mut session = session(|settings, feedback| {
            settings.max_streams = 100;
            feedback.max_report = usize::MAX;
        });
        for ssrc in 1..=count {
            session.receive(Ticks(0), &opus(ssrc, 1))?;
            session.receive(Ticks(0), &opus(ssrc, 2))?;
        }
        assert_eq!(reports(&mut session, 0)?, []);
        let [(packets, names)] = &reports(&mut session, 1_000)?[..] else {
            return Err("there is one packet".into());
        };
        let sizes: Vec<_> = packets.iter().map(Vec::len).collect();
        assert_eq!(
            (&sizes[..], &names[..]),
            (groups, &[b"me@host".to_vec()][..])
        );
        let told: Vec<_> = packets.iter().flatten().map(|block| block.ssrc).collect();
        assert_eq!(told, (1..=count).collect::<Vec<_>>());
    }
    Ok(())
}

/// Announces streams with these SSRCs.
fn announce(session: &mut Session, ssrcs: impl Iterator<Item = u32>) -> Result<(), Fail> {
    for ssrc in ssrcs {
        session.receive(Ticks(0), &opus(ssrc, 1))?;
        session.receive(Ticks(0), &opus(ssrc, 2))?;
    }
    Ok(())
}

/// The length of the one report at a time, and the SSRCs that it is about.
fn turn(session: &mut Session, now: u64) -> Result<(usize, Vec<u32>), Fail> {
    let mut found = None;
    while let Some(event) = session.poll(Ticks(now)) {
        if let Event::Report { packet } = event {
            let packet = packet?;
            let blocks = read(&packet)?.0.into_iter().flatten();
            let ssrcs = blocks.map(|block| block.ssrc).collect();
            assert!(found.replace((packet.len(), ssrcs)).is_none(), "one report");
        }
    }
    Ok(found.ok_or("there is one")?)
}

/// 1,200 bytes are a description of 20, two reports of 8, and 48 blocks of 24 (RFC 3550, sections 6.4.2 and 6.5).
#[test]
fn streams_take_turns() -> Result<(), Fail> {
    let mut session = session(|settings, _| settings.max_streams = 200);
    announce(&mut session, 1..=100)?;
    assert_eq!(reports(&mut session, 0)?, []);
    for round in [1_000, 4_000] {
        let first = turn(&mut session, round)?;
        assert_eq!(first, (1_188, (1..=48).collect()));
        let second = turn(&mut session, round + 1_000)?;
        assert_eq!(second, (1_188, (49..=96).collect()));
        let third = turn(&mut session, round + 2_000)?;
        assert_eq!(third, (124, (97..=100).collect()));
    }
    // Streams that begin in a round are the last of it, and streams that end leave it.
    assert_eq!(turn(&mut session, 7_000)?.1, (1..=48).collect::<Vec<_>>());
    announce(&mut session, 101..=104)?;
    for ssrc in (1..=10).chain(50..=59) {
        session.end(Ticks(7_500), ssrc);
    }
    let rest: Vec<u32> = (49..=49).chain(60..=104).collect();
    assert_eq!(turn(&mut session, 8_000)?.1, rest);
    assert_eq!(
        turn(&mut session, 9_000)?.1,
        (11..=49).chain(60..=68).collect::<Vec<_>>()
    );
    Ok(())
}

/// As many blocks as fit, and at least one.
#[test]
fn the_size_of_a_report() -> Result<(), Fail> {
    for (most, len, blocks) in [
        (0, 52, 1),
        (52, 52, 1),
        (75, 52, 1),
        (76, 76, 2),
        (771, 748, 30),
        (772, 772, 31),
        (803, 772, 31),
        (804, 804, 32),
        (1_523, 1_500, 61),
        (1_524, 1_524, 62),
        (1_556, 1_556, 63),
    ] {
        let mut session = session(|settings, feedback| {
            settings.max_streams = 64;
            feedback.max_report = most;
        });
        announce(&mut session, 1..=64)?;
        assert_eq!(reports(&mut session, 0)?, []);
        let report = turn(&mut session, 1_000)?;
        assert_eq!(report, (len, (1..=blocks).collect()), "{most} bytes");
    }
    Ok(())
}

/// Of two streams with one SSRC the later one, once it is announced.
#[test]
fn a_change_of_format() -> Result<(), Fail> {
    let mut session = session(|settings, _| settings.formats.push(pcmu_format()));
    for number in [1, 2] {
        session.receive(Ticks(0), &opus(5, number))?;
        session.receive(Ticks(0), &opus(6, number))?;
    }
    session.receive(Ticks(900), &packet(PCMU, 5, 40, 0, &[1; 160]))?;
    assert_eq!(reports(&mut session, 900)?, []);
    let told = reports(&mut session, 1_900)?;
    assert_eq!(short(&told[0].0[0]), [(5, 0, 0, 2), (6, 0, 0, 2)]);
    // Packets of both formats in turn, so that both streams stay.
    for number in [41, 43] {
        session.receive(Ticks(2_000), &opus(5, number))?;
        session.receive(Ticks(2_000), &packet(PCMU, 5, number, 0, &[1; 160]))?;
    }
    let told = reports(&mut session, 2_900)?;
    // 4 are expected, and 1 is lost.
    assert_eq!(short(&told[0].0[0]), [(6, 0, 0, 2), (5, 64, 1, 43)]);
    Ok(())
}

/// Without an announced stream there is no report, and no deadline; the interval begins again with the next stream.
#[test]
fn a_report_needs_an_announced_stream() -> Result<(), Fail> {
    let mut session = session(|_, _| {});
    session.receive(Ticks(0), &opus(5, 1))?;
    assert_eq!(reports(&mut session, 5_000)?, []);
    assert_eq!(session.next_deadline(), None);
    session.receive(Ticks(5_000), &opus(5, 2))?;
    assert_eq!(reports(&mut session, 5_000)?, []);
    assert_eq!(reports(&mut session, 6_000)?.len(), 1);
    session.end(Ticks(6_000), 5);
    assert_eq!(reports(&mut session, 9_000)?, []);
    assert_eq!(session.next_deadline(), None);
    for number in [1, 2] {
        session.receive(Ticks(9_000), &opus(7, number))?;
    }
    assert_eq!(reports(&mut session, 9_000)?, []);
    assert_eq!(reports(&mut session, 9_999)?, []);
    assert_eq!(reports(&mut session, 10_000)?.len(), 1);
    Ok(())
}

#[test]
fn intervals() -> Result<(), Fail> {
    let begin = |interval| -> Result<Session, Fail> {
        let mut session = session(|_, feedback| feedback.report_interval = interval);
        for number in [1, 2] {
            session.receive(Ticks(7), &opus(5, number))?;
        }
        Ok(session)
    };
    // None: no reports.
    let mut off = begin(None)?;
    assert_eq!(reports(&mut off, 7)?, []);
    assert_eq!(reports(&mut off, 20_000)?, []);
    // 0 counts as 1.
    for interval in [0, 1] {
        let mut each = begin(Some(interval))?;
        assert_eq!(reports(&mut each, 7)?, []);
        for now in 8..40 {
            assert_eq!(reports(&mut each, now)?.len(), 1);
        }
        // A late poll sends one report.
        assert_eq!(reports(&mut each, 100)?.len(), 1);
    }
    // 64 bits hold no time for it.
    let mut never = begin(Some(u64::MAX))?;
    assert_eq!(reports(&mut never, 7)?, []);
    assert_eq!(reports(&mut never, 25_000)?, []);
    // Without feedback there is none.
    let mut settings = SessionSettings::live();
    settings.formats = vec![opus_format()];
    let mut none = Session::new(settings).expect("settings that can be met");
    for number in [1, 2] {
        none.receive(Ticks(7), &opus(5, number))?;
    }
    assert_eq!(reports(&mut none, 7)?, []);
    assert_eq!(reports(&mut none, 5_000)?, []);
    Ok(())
}

/// An announced stream of which no packet counts has no block: the report is empty (RFC 3550, section 6.4.2).
#[test]
fn an_empty_report() -> Result<(), Fail> {
    let mut session = session(|settings, feedback| {
        settings.formats = answered_formats();
        feedback.report_interval = Some(50);
        feedback.cname = vec![b'n'; 255];
    });
    // RED whose block is longer than the packet.
    session.receive(
        Ticks(0),
        &packet(RED, 5, 1, 0, &[0x80 | OPUS, 0, 0x3f, 0xff, OPUS]),
    )?;
    session.receive(Ticks(0), &bye(5))?;
    assert_eq!(session.report(Ticks(0), 5, OPUS), None);
    assert_eq!(reports(&mut session, 0)?, []);
    let told = reports(&mut session, 50)?;
    assert_eq!(told, [(vec![vec![]], vec![vec![b'n'; 255]])]);
    Ok(())
}

/// The counters of RFC 3550, sections A.3 and A.8, written once more.
#[derive(Default)]
struct Counts {
    base: u32,
    highest: u32,
    received: u32,
    expected_prior: u32,
    received_prior: u32,
    transit: Option<u32>,
    jitter: u32,
    /// LSR, and when the sender report arrived.
    sender: Option<(u32, u64)>,
}

impl Counts {
    /// A packet whose number is near; the clock of the session has milliseconds, and RTP 48 kHz.
    fn arrive(&mut self, now: u64, number: u32, time: u32) {
        if self.received == 0 {
            (self.base, self.highest) = (number, number);
        }
        self.received += 1;
        self.highest = self.highest.max(number);
        let transit = (48 * now as u32).wrapping_sub(time);
        if let Some(before) = self.transit {
            let d = (transit.wrapping_sub(before) as i32).unsigned_abs();
            self.jitter = self.jitter + d - ((self.jitter + 8) >> 4);
        }
        self.transit = Some(transit);
    }

    fn block(&mut self, now: u64, ssrc: u32) -> ReportBlock {
        let expected = self.highest - self.base + 1;
        let expected_interval = expected - self.expected_prior;
        let received_interval = self.received - self.received_prior;
        (self.expected_prior, self.received_prior) = (expected, self.received);
        let lost = i64::from(expected_interval) - i64::from(received_interval);
        let fraction = if expected_interval == 0 || lost <= 0 {
            0
        } else {
            ((lost << 8) / i64::from(expected_interval)).min(255) as u8
        };
        let (lsr, since) = self.sender.unwrap_or((0, now));
        ReportBlock {
            ssrc,
            fraction_lost: fraction,
            cumulative_lost: expected.wrapping_sub(self.received) & 0x00ff_ffff,
            highest_sequence_number: self.highest,
            jitter: self.jitter >> 4,
            last_sender_report: lsr,
            delay_since_sender_report: ((now - since) * 65_536 / 1_000) as u32,
        }
    }
}

/// A sender report without blocks (RFC 3550, section 6.4.1).
fn sender_report(ssrc: u32, ntp: u64) -> Vec<u8> {
    let mut bytes = vec![0x80, 200, 0, 6];
    bytes.extend(ssrc.to_be_bytes());
    bytes.extend(ntp.to_be_bytes());
    bytes.extend([0; 12]);
    bytes
}

/// Random schedules of three senders, whose packets are lost, repeated, early and late: each report has the counters of each.
#[test]
fn reports_beside_the_counters_of_rfc_3550() -> Result<(), Fail> {
    let mut checked = 0;
    for seed in 0..40 {
        let mut dice = Dice(seed);
        let mut session = session(|_, feedback| feedback.report_interval = Some(300));
        let mut counts = BTreeMap::<u32, Counts>::new();
        let mut numbers = [100_u32; 3];
        let mut due = None;
        for now in (0..6_000).step_by(10) {
            let sender = dice.below(3);
            let (ssrc, number) = (5 + sender, &mut numbers[sender as usize]);
            match dice.below(10) {
                0 => *number += 1,
                1 => {
                    let ntp = u64::from(dice.below(u32::MAX)) << 16;
                    session.receive(Ticks(now), &sender_report(ssrc, ntp))?;
                    if let Some(counts) = counts.get_mut(&ssrc) {
                        counts.sender = Some(((ntp >> 16) as u32, now));
                    }
                }
                kind => {
                    *number += u32::from(kind != 2);
                    let told = *number - if kind == 3 { dice.below(5) } else { 0 };
                    let early = counts.get(&ssrc).is_none_or(|it| told >= it.base);
                    if early {
                        session.receive(Ticks(now), &opus(ssrc, told as u16))?;
                        counts
                            .entry(ssrc)
                            .or_default()
                            .arrive(now, told, 960 * told);
                    }
                }
            }
            let told = reports(&mut session, now)?;
            let announced: Vec<_> = (0..session.stream_count())
                .filter_map(|place| session.stream_at(place))
                .filter(|it| it.stage != Stage::Probation)
                .map(|it| it.ssrc)
                .collect();
            if due.is_some_and(|at| at <= now) {
                let wanted: Vec<_> = announced
                    .iter()
                    .map(|ssrc| counts.get_mut(ssrc).unwrap().block(now, *ssrc))
                    .collect();
                let names = vec![b"me@host".to_vec()];
                assert_eq!(told, [(vec![wanted], names)], "seed {seed} at {now}");
                (due, checked) = (Some(now + 300), checked + 1);
            } else {
                assert_eq!(told, []);
                if !announced.is_empty() && due.is_none() {
                    due = Some(now + 300);
                }
            }
        }
    }
    assert!(checked > 700, "{checked}");
    Ok(())
}

/// Statistics beside the reports of the session: looking changes no fraction (RFC 3550, section A.3: it is about the packets since
/// the previous report).
#[test]
fn looking_at_a_block_changes_nothing() -> Result<(), Fail> {
    let mut session = session(|_, _| {});
    let look = |session: &Session, now| session.peek_report(Ticks(now), 5, OPUS);
    assert_eq!(look(&session, 0), None);
    for number in [10, 11, 13, 15] {
        session.receive(Ticks(500), &opus(5, number))?;
        let block = look(&session, 500).ok_or("a packet counts")?;
        assert_eq!(block.highest_sequence_number, u32::from(number));
    }
    assert_eq!(session.peek_report(Ticks(500), 5, VP8), None);
    assert_eq!(session.peek_report(Ticks(500), 6, OPUS), None);
    // 6 are expected, 2 are lost: 2 * 256 / 6.
    let before = look(&session, 500).ok_or("a block")?;
    assert_eq!((before.fraction_lost, before.cumulative_lost), (85, 2));
    assert_eq!(reports(&mut session, 500)?, []);
    // The report of the session has the same fraction, however often somebody looked.
    let [(packets, _)] = &reports(&mut session, 1_500)?[..] else {
        return Err("there is one".into());
    };
    assert_eq!(packets.concat(), [before]);
    // Since then nothing was expected, and 2 of 6 are lost in all.
    let after = look(&session, 1_500).ok_or("a block")?;
    assert_eq!((after.fraction_lost, after.cumulative_lost), (0, 2));
    // `report` returns what a look would have returned.
    session.receive(Ticks(1_600), &opus(5, 17))?;
    let looked = look(&session, 1_600);
    assert_eq!(session.report(Ticks(1_600), 5, OPUS), looked);
    // 2 are expected since then, 1 is lost.
    assert_eq!(
        looked.map(|block| (block.fraction_lost, block.cumulative_lost)),
        Some((128, 3))
    );
    Ok(())
}
