//! Reports of a session: what sender reports say of the clock of a stream, and the blocks of receiver reports.

use crate::Fail;
use crate::datagrams::*;
use codec_payload::rtcp::{CompoundRule, ReceiverReport, ReportBlock, RtcpPacket, read_compound};
use codec_payload::session::*;
use codec_payload::*;

/// A session with a clock of this rate.
fn session(tick_rate: u32) -> Session {
    let mut settings = SessionSettings::live();
    settings.tick_rate = Frequency::make(tick_rate).unwrap();
    settings.formats = vec![opus_format(), vp8_format()];
    Session::new(settings).expect("settings that can be met")
}

/// A sender report without blocks (RFC 3550, section 6.4.1).
fn sender_report(ssrc: u32, seconds: u32, fraction: u32, rtp_time: u32) -> Vec<u8> {
    let mut bytes = vec![0x80, 200, 0, 6];
    for word in [ssrc, seconds, fraction, rtp_time, 3, 9] {
        bytes.extend(word.to_be_bytes());
    }
    bytes
}

fn clock(session: &Session, place: usize) -> Option<SenderClock> {
    let stream = session.stream_at(place).unwrap();
    let clock = session.sender_clock(stream.ssrc, stream.payload_type);
    assert_eq!(clock, stream.sender_clock);
    clock
}

/// Figure 2 of RFC 3550: a report of 46,853.125 s arrives, and 5.250 s later a block is made.
#[test]
fn the_block_of_the_figure_in_rfc_3550() -> Result<(), Fail> {
    let mut session = session(1_000);
    session.receive(Ticks(100_000), &opus(5, 10))?;
    let report = sender_report(5, 0xb44d_b705, 0x2000_0000, 7_777);
    session.receive(Ticks(100_010), &report)?;
    let expected = ReportBlock {
        ssrc: 5,
        fraction_lost: 0,
        cumulative_lost: 0,
        highest_sequence_number: 10,
        jitter: 0,
        last_sender_report: 0xb705_2000,
        delay_since_sender_report: 0x0005_4000,
    };
    assert_eq!(session.report(Ticks(105_260), 5, OPUS), Some(expected));
    let known = SenderClock {
        ntp_time: 0xb44d_b705_2000_0000,
        rtp_time: 7_777,
        arrived: Ticks(100_010),
    };
    assert_eq!(clock(&session, 0), Some(known));
    Ok(())
}

/// Losses and repeated packets by RFC 3550, appendix A.3. Packets of 20 ms arrive every 20 ms, so there is no jitter.
#[test]
fn losses_since_the_last_report() -> Result<(), Fail> {
    let mut session = session(1_000);
    let arrive = |session: &mut Session, numbers: &[u16]| -> Result<(), Fail> {
        for number in numbers {
            session.receive(Ticks(20 * u64::from(*number)), &opus(5, *number))?;
        }
        Ok(())
    };
    let lost = |session: &mut Session| {
        let block = session.report(Ticks(400), 5, OPUS).unwrap();
        assert_eq!(
            (
                block.last_sender_report,
                block.delay_since_sender_report,
                block.jitter
            ),
            (0, 0, 0)
        );
        (
            block.fraction_lost,
            block.cumulative_lost,
            block.highest_sequence_number,
        )
    };
    assert_eq!(session.report(Ticks(0), 5, OPUS), None);
    arrive(&mut session, &[10, 11, 13, 15])?;
    // 6 expected, 2 lost: 2 * 256 / 6.
    assert_eq!(lost(&mut session), (85, 2, 15));
    arrive(&mut session, &[16, 17, 18, 20])?;
    // 5 expected since then, 1 lost: 256 / 5.
    assert_eq!(lost(&mut session), (51, 3, 20));
    assert_eq!(lost(&mut session), (0, 3, 20));
    // Each packet counts as it arrives: 4 more than are lost are -1 in 24 bits.
    arrive(&mut session, &[20, 20, 20, 20])?;
    assert_eq!(lost(&mut session), (0, 0x00ff_ffff, 20));
    Ok(())
}

#[test]
fn a_block_is_about_one_stream() -> Result<(), Fail> {
    let mut session = session(1_000);
    for number in [10, 12] {
        session.receive(Ticks(0), &opus(5, number))?;
    }
    for number in [70, 71] {
        session.receive(Ticks(0), &opus(6, number))?;
        session.receive(Ticks(0), &vp8(5, number, true))?;
    }
    session.receive(Ticks(0), &sender_report(6, 1, 0, 0))?;
    let mut told = |ssrc, payload_type| {
        let block = session.report(Ticks(1_000), ssrc, payload_type)?;
        Some((
            block.ssrc,
            block.cumulative_lost,
            block.highest_sequence_number,
            block.last_sender_report,
            block.delay_since_sender_report,
        ))
    };
    assert_eq!(told(6, OPUS), Some((6, 0, 71, 0x1_0000, 65_536)));
    assert_eq!(told(5, VP8), Some((5, 0, 71, 0, 0)));
    assert_eq!(told(5, OPUS), Some((5, 1, 12, 0, 0)));
    assert_eq!(told(6, VP8), None);
    assert_eq!(told(7, OPUS), None);
    Ok(())
}

#[test]
fn the_latest_report_of_the_ssrc_counts() -> Result<(), Fail> {
    let mut session = session(1_000);
    // Before the stream there is nothing to note.
    session.receive(Ticks(0), &sender_report(5, 9, 9, 9))?;
    session.receive(Ticks(1), &opus(5, 1))?;
    session.receive(Ticks(1), &vp8(5, 1, true))?;
    session.receive(Ticks(1), &opus(6, 1))?;
    assert_eq!((clock(&session, 0), clock(&session, 2)), (None, None));
    assert_eq!(session.sender_clock(7, OPUS), None);

    // Both streams of the SSRC; of two reports in one datagram the last.
    let mut both = sender_report(5, 1, 2, 3);
    both.extend(sender_report(6, 7, 8, 9));
    both.extend(sender_report(5, 4, 5, 6));
    session.receive(Ticks(30), &both)?;
    let of = |ntp_time, rtp_time| {
        Some(SenderClock {
            ntp_time,
            rtp_time,
            arrived: Ticks(30),
        })
    };
    let five = of(0x4_0000_0005, 6);
    assert_eq!((clock(&session, 0), clock(&session, 1)), (five, five));
    assert_eq!(clock(&session, 2), of(0x7_0000_0008, 9));

    // No part of a compound packet with a fault counts.
    let mut faulty = sender_report(5, 1, 1, 1);
    faulty.push(0x80);
    assert_eq!(session.receive(Ticks(40), &faulty)?, Arrival::Malformed);
    // Nor does a packet of another type, or a report with another SSRC.
    let mut other = sender_report(5, 1, 1, 1);
    other[1] = 204;
    assert_eq!(session.receive(Ticks(40), &other)?, Arrival::Rtcp);
    session.receive(Ticks(40), &sender_report(0x0500_0000, 1, 1, 1))?;
    assert_eq!((clock(&session, 0), clock(&session, 1)), (five, five));
    Ok(())
}

/// The delay by other clocks than milliseconds, and beyond 32 bits.
#[test]
fn delays_by_the_clock_of_the_session() -> Result<(), Fail> {
    for (tick_rate, ticks, delay) in [
        (1_000_000_000, 5_250_000_000, 0x5_4000),
        (48_000, 48_000, 65_536),
        (48_000, 1, 1),
        (1_000_000, 15, 0),
        (1_000_000, 16, 1),
        (1, 65_535, 0xffff_0000),
        (1, 65_536, 0xffff_ffff),
        (1, u64::MAX - 7, 0xffff_ffff),
    ] {
        let mut session = session(tick_rate);
        session.receive(Ticks(7), &opus(5, 1))?;
        session.receive(Ticks(7), &sender_report(5, 1, 0, 0))?;
        let block = session.report(Ticks(7 + ticks), 5, OPUS).unwrap();
        assert_eq!(block.delay_since_sender_report, delay);
        // A clock that runs back: the report counts as just arrived.
        let block = session.report(Ticks(6), 5, OPUS).unwrap();
        assert_eq!(block.delay_since_sender_report, 0);
    }
    Ok(())
}

/// A block is written, and comes back.
#[test]
fn a_block_can_be_sent() -> Result<(), Fail> {
    let mut session = session(1_000);
    for number in [10, 10, 10] {
        session.receive(Ticks(0), &opus(5, number))?;
    }
    let block = session.report(Ticks(0), 5, OPUS).unwrap();
    let (mut blocks, mut datagram) = (Vec::new(), Vec::new());
    block.write(&mut blocks)?;
    let report = ReceiverReport {
        ssrc: 1,
        blocks: &blocks,
        extension: &[],
    };
    report.write(&mut datagram)?;
    let mut packets = read_compound(CompoundRule::Full, &datagram)?;
    let Some(RtcpPacket::ReceiverReport(read)) = packets.next() else {
        return Err("a receiver report is read".into());
    };
    assert_eq!((read.ssrc, read.block(0)), (1, Some(block)));
    assert_eq!(block.cumulative_lost, 0x00ff_fffe);
    Ok(())
}

#[test]
fn wall_clock_times_of_units() {
    let clock = SenderClock {
        ntp_time: 0xb44d_b705_2000_0000,
        rtp_time: 90_000,
        arrived: Ticks(3),
    };
    let at = |rtp_time: u64| clock.ntp_at(rtp_time, Frequency::NINETY_KHZ);
    assert_eq!(at(90_000), 0xb44d_b705_2000_0000);
    // One second later, half a second before, and a second before: 5 s - 1 s.
    assert_eq!(at(180_000), 0xb44d_b706_2000_0000);
    assert_eq!(at(45_000), 0xb44d_b704_a000_0000);
    assert_eq!(at(0), 0xb44d_b704_2000_0000);
    // Two seconds before, past 0; with and without the high bits of an event's time.
    assert_eq!(at(0xffff_ffff - 89_999), 0xb44d_b703_2000_0000);
    assert_eq!(at((1 << 32) - 90_000), 0xb44d_b703_2000_0000);
    assert_eq!(at(5 * (1 << 32) + 180_000), 0xb44d_b706_2000_0000);
    // 2^31 ticks on or back: back. 2^31 / 90,000 s are 23,860.929 s.
    let half = 23_860 * (1 << 32) + (83_648 << 32) / 90_000;
    assert_eq!(at(90_000 + (1 << 31)), clock.ntp_time - half);
    // The NTP time wraps in 2036.
    let late = SenderClock {
        ntp_time: u64::MAX,
        ..clock
    };
    assert_eq!(late.ntp_at(180_000, Frequency::NINETY_KHZ), 0xffff_ffff);
}

/// A compound packet is read to its end: a report behind a BYE counts, whether of a stream that leaves or of another one.
#[test]
fn reports_behind_a_bye_in_one_datagram() -> Result<(), Fail> {
    let mut session = session(1_000);
    session.receive(Ticks(0), &opus(5, 10))?;
    session.receive(Ticks(0), &opus(6, 10))?;
    let mut compound = sender_report(6, 1, 0, 100);
    compound.extend(bye(5));
    compound.extend(sender_report(5, 2, 0, 200));
    compound.extend(sender_report(6, 3, 0, 300));
    assert_eq!(session.receive(Ticks(10), &compound)?, Arrival::Rtcp);
    let times = [0, 1].map(|place| clock(&session, place).map(|clock| clock.rtp_time));
    assert_eq!(times, [Some(200), Some(300)]);
    let stages = [0, 1].map(|place| session.stream_at(place).unwrap().stage);
    assert!(matches!(stages[0], Stage::Leaving(Ending::Bye, _)));
    assert!(!matches!(stages[1], Stage::Leaving(..)));
    Ok(())
}

/// Cut off in its last packet, the same datagram changes nothing.
#[test]
fn a_cut_compound_packet_states_nothing() -> Result<(), Fail> {
    let mut session = session(1_000);
    session.receive(Ticks(0), &opus(5, 10))?;
    let mut compound = sender_report(5, 1, 0, 100);
    compound.extend(bye(5));
    compound.pop();
    assert_eq!(session.receive(Ticks(10), &compound)?, Arrival::Malformed);
    assert_eq!(clock(&session, 0), None);
    assert_eq!(session.stream_at(0).unwrap().stage, Stage::Probation);
    Ok(())
}

/// A packet of Opus with this RTP time.
fn opus_at(number: u16, time: u32) -> Vec<u8> {
    let mut datagram = opus(5, number);
    datagram[4..8].copy_from_slice(&time.to_be_bytes());
    datagram
}

/// The block of stream 5: lost packets in total as 24 bits, the highest number, and the jitter.
fn told(session: &mut Session, now: u64) -> (u8, u32, u32, u32) {
    let block = session.report(Ticks(now), 5, OPUS).unwrap();
    (
        block.fraction_lost,
        block.cumulative_lost,
        block.highest_sequence_number,
        block.jitter,
    )
}

/// A sender begins again on its SSRC within the windows with other RTP times. The report is about the new sender
/// from the packet on that confirms it (RFC 3550, appendix A.1: base number and counts are those of that packet): nothing is lost, no
/// packet counts twice, and the distance between the two clocks is no jitter.
#[test]
fn reports_begin_again_at_a_restart_within_the_windows() -> Result<(), Fail> {
    for back in [40, 400] {
        for offset in [0x1234_5678, 0x9abc_def0] {
            let mut session = session(1_000);
            let mut now = 0;
            // The first 500 numbers, of which 508 is lost.
            for number in (500..=1_000_u16).filter(|number| *number != 508) {
                session.receive(Ticks(now), &opus_at(number, 960 * u32::from(number)))?;
                now += 20;
            }
            assert_eq!(told(&mut session, now), (0, 1, 1_000, 0));
            let begin = 1_001 - back;
            let mut confirmed = None;
            for place in 0..300_u16 {
                let number = begin + place;
                let time = 960 * u32::from(place) + offset;
                session.receive(Ticks(now), &opus_at(number, time))?;
                let restarts = session.stream_at(0).unwrap().counters.packets.restarts;
                if restarts == 1 && confirmed.is_none() {
                    confirmed = Some(number);
                    assert_eq!(told(&mut session, now), (0, 0, u32::from(number), 0));
                }
                now += 20;
            }
            // Two packets whose numbers were noted: every fourth is.
            assert!(confirmed.is_some_and(|number| number < begin + 16));
            let highest = u32::from(begin) + 299;
            assert_eq!(told(&mut session, now), (0, 0, highest, 0), "{back}");
            // Of the next four one is lost: 256 / 4.
            for place in [300, 302, 303_u16] {
                let time = 960 * u32::from(place) + offset;
                session.receive(
                    Ticks(now + 20 * u64::from(place - 300)),
                    &opus_at(begin + place, time),
                )?;
            }
            assert_eq!(
                told(&mut session, now + 80),
                (64, 1, highest + 4, 0),
                "{back}"
            );
        }
    }
    Ok(())
}

/// A packet that is far from all others is not counted, if none follows it (RFC 3550, appendix A.1).
#[test]
fn a_suspect_packet_does_not_count() -> Result<(), Fail> {
    let mut session = session(1_000);
    for number in 100..200_u16 {
        let now = Ticks(20 * u64::from(number));
        session.receive(now, &opus_at(number, 960 * u32::from(number)))?;
        // The same number again, with a time that is 2^30 ticks away: of another sender.
        if number == 148 {
            session.receive(now, &opus_at(number, (1 << 30) + 960 * u32::from(number)))?;
        }
    }
    assert_eq!(session.stream_at(0).unwrap().counters.packets.suspect, 1);
    assert_eq!(told(&mut session, 4_000), (0, 0, 199, 0));
    Ok(())
}
