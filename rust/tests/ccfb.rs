//! Congestion control feedback. The bytes were written by hand after the figure and the text of RFC 8888, section 3.1.

use codec_payload::ccfb::*;
use codec_payload::congestion::{ArrivalLog, quarters};
use codec_payload::rtcp::{CompoundRule, RtcpPacket, read_compound};

type Fail = Box<dyn std::error::Error>;

fn metric(ecn: u8, offset: u16) -> Option<PacketMetric> {
    Some(PacketMetric { ecn, offset })
}

/// Version 2, format 11, type 205, 9 words after the first. Stream 2 begins at number 65,535 with three packets: R and ECT(0) with an
/// offset of 1, one that did not arrive, and CE with the largest offset; two bytes fill the block. Stream 3 reports nothing. Stream 4
/// reports on two packets, one over range and one unavailable.
const PACKET: [u8; 48] = [
    0x8b, 205, 0, 11, 0, 0, 0, 1, //
    0, 0, 0, 2, 0xff, 0xff, 0, 3, 0xc0, 1, 0, 0, 0xff, 0xfd, 0, 0, //
    0, 0, 0, 3, 0x12, 0x34, 0, 0, //
    0, 0, 0, 4, 0, 9, 0, 2, 0x9f, 0xfe, 0x9f, 0xff, //
    0x89, 0xab, 0xcd, 0xef,
];

fn feedback() -> CongestionFeedback {
    let report = |ssrc, first, metrics| StreamReport {
        ssrc,
        first,
        metrics,
    };
    CongestionFeedback {
        sender_ssrc: 1,
        reports: vec![
            report(2, 65_535, vec![metric(2, 1), None, metric(3, 8_189)]),
            report(3, 0x1234, vec![]),
            report(4, 9, vec![metric(0, OVER_RANGE), metric(0, UNAVAILABLE)]),
        ],
        timestamp: 0x89ab_cdef,
    }
}

fn assert_same(one: &CongestionFeedback, other: &CongestionFeedback) {
    assert_eq!(
        (one.sender_ssrc, one.timestamp),
        (other.sender_ssrc, other.timestamp)
    );
    assert_eq!(one.reports.len(), other.reports.len());
    for (a, b) in one.reports.iter().zip(&other.reports) {
        assert_eq!((a.ssrc, a.first, &a.metrics), (b.ssrc, b.first, &b.metrics));
    }
}

#[test]
fn the_packet_of_the_figure_is_written_and_read() -> Result<(), Fail> {
    let mut out = vec![9];
    assert!(feedback().fits());
    feedback().write(&mut out)?;
    assert_eq!(out[0], 9);
    assert_eq!(out[1..], PACKET);
    let mut packets = read_compound(CompoundRule::ReducedSize, &PACKET)?;
    let Some(RtcpPacket::Other(packet)) = packets.next() else {
        return Err("no packet".into());
    };
    assert_eq!((packet.packet_type, packet.count), (205, 11));
    assert_same(&CongestionFeedback::read(packet.body)?, &feedback());
    Ok(())
}

/// The RFC: without R the other 15 bits are ignored.
#[test]
fn what_is_ignored_may_have_any_bits() -> Result<(), Fail> {
    let mut body = PACKET[4..].to_vec();
    body[14..16].copy_from_slice(&[0x7f, 0xff]);
    body[18..20].copy_from_slice(&[1, 2]);
    assert_same(&CongestionFeedback::read(&body)?, &feedback());
    Ok(())
}

#[test]
fn faults_are_named_in_reading_order() {
    let fault = |body: &[u8]| match CongestionFeedback::read(body) {
        Err(CcfbError::Fault(fault)) => Some(fault),
        _ => None,
    };
    assert_eq!(fault(&[0; 7]), Some(CcfbFault::TooShort));
    assert_eq!(fault(&[0; 8]), None);
    assert_eq!(fault(&[0; 12]), Some(CcfbFault::BlockTooShort));
    assert_eq!(fault(&[0; 16]), None);
    let block = |count: u16, size: usize| {
        let [high, low] = count.to_be_bytes();
        let head = [0, 0, 0, 1, 0, 0, 0, 2, 0, 0, high, low];
        fault(&[&head[..], &vec![0; size], &[0; 4]].concat())
    };
    assert_eq!(block(3, 4), Some(CcfbFault::MetricsTooShort));
    assert_eq!(block(3, 8), None);
    assert_eq!(block(16_385, 0), Some(CcfbFault::TooMany));
    assert_eq!(block(16_384, 32_768), None);
}

#[test]
fn what_has_no_spelling_does_not_fit() {
    let one = |metrics| CongestionFeedback {
        sender_ssrc: 1,
        reports: vec![StreamReport {
            ssrc: 2,
            first: 0,
            metrics,
        }],
        timestamp: 0,
    };
    assert!(one(vec![metric(3, 8_191)]).fits());
    assert!(!one(vec![metric(4, 0)]).fits());
    assert!(!one(vec![None, metric(0, 8_192)]).fits());
    assert!(one(vec![None; MAX_METRICS]).fits());
    assert!(!one(vec![None; MAX_METRICS + 1]).fits());
    // 7 blocks of 32,776 bytes and one of 32,700 are the most that a packet has room for.
    let mut large = one(vec![None; MAX_METRICS]);
    for count in [MAX_METRICS; 6].into_iter().chain([16_346]) {
        large.reports.push(StreamReport {
            ssrc: 3,
            first: 0,
            metrics: vec![None; count],
        });
    }
    assert!(large.fits());
    let mut out = Vec::new();
    large.write(&mut out).unwrap();
    assert_eq!((out.len(), &out[2..4]), (262_144, &[255, 255][..]));
    assert_same(&CongestionFeedback::read(&out[4..]).unwrap(), &large);
    large.reports[7].metrics.push(None);
    assert!(!large.fits());
}

/// Offsets are in units of 1/1,024 s, rounded down: 4,000 quarters of a millisecond are 1,024.
#[test]
fn offsets_count_back_from_the_report() {
    assert_eq!(offset_for(4_000, 4_000), 0);
    assert_eq!(offset_for(4_000, 0), 1_024);
    assert_eq!(offset_for(3, 0), 0);
    assert_eq!(offset_for(4, 0), 1);
    assert_eq!(offset_for(100, 100u32.wrapping_sub(400)), 102);
    assert_eq!(offset_for(31_992, 0), 8_189);
    assert_eq!(offset_for(31_993, 0), OVER_RANGE);
    assert_eq!(offset_for(1 << 31, 0), UNAVAILABLE);
    assert_eq!(offset_for((1 << 31) - 1, 0), OVER_RANGE);
    assert_eq!(offset_for(5, 6), UNAVAILABLE);
}

/// Number 65,535 arrived 100 ms before the report, 0 is missing, and 1 arrived 50 ms before it.
#[test]
fn a_log_of_a_stream_is_reported() -> Result<(), Fail> {
    let mut log = ArrivalLog::new(100)?;
    log.arrived(65_535, quarters(900_000))?;
    log.arrived(1, quarters(950_000))?;
    let now = quarters(1_000_000);
    let report = stream_report(7, &log, now, 10)?;
    assert_eq!((report.ssrc, report.first), (7, 65_535));
    assert_eq!(report.metrics, [metric(0, 102), None, metric(0, 51)]);
    let report = stream_report(7, &log, now, 2)?;
    assert_eq!(report.metrics, [metric(0, 102), None]);
    log.mark_reported(2);
    let report = stream_report(7, &log, now, 2)?;
    assert_eq!((report.first, report.metrics), (1, vec![metric(0, 51)]));
    Ok(())
}

/// Random bytes are read or refused, and what is read is written as it is read.
#[test]
fn hostile_bytes_are_read_or_refused() {
    let mut seed = 1u32;
    let mut read = 0;
    for _ in 0..20_000 {
        let mut body = PACKET[4..].to_vec();
        for _ in 0..3 {
            seed = seed.wrapping_mul(1_664_525).wrapping_add(1_013_904_223);
            let place = (seed >> 16) as usize % body.len();
            body[place] = (seed >> 8) as u8;
        }
        body.truncate(body.len() - (seed >> 28) as usize);
        let Ok(feedback) = CongestionFeedback::read(&body) else {
            continue;
        };
        read += 1;
        assert!(feedback.fits());
        let mut out = Vec::new();
        feedback.write(&mut out).unwrap();
        assert_same(&CongestionFeedback::read(&out[4..]).unwrap(), &feedback);
    }
    assert!(read > 1_000);
}
