//! Feedback for congestion control: vectors of the drafts and of a peer, and random runs of a log beside a map.

mod random;

use codec_payload::Ticks;
use codec_payload::congestion::*;
use codec_payload::feedback::{FeedbackSource, TransportReporter, TransportSettings};
use codec_payload::rtcp::{CompoundRule, RtcpPacket, read_compound};
use random::Dice;
use std::collections::HashMap;

type Fail = Box<dyn std::error::Error>;

/// A vector of the tests of pion/rtcp: number 153 arrived 148 quarters of a millisecond after the reference time 4,057,090; count 23.
#[test]
fn a_packet_of_a_peer_is_read() -> Result<(), Fail> {
    let bytes = [0, 153, 0, 1, 61, 232, 2, 23, 32, 1, 148, 1];
    let read = read_transport_feedback(&bytes)?;
    assert_eq!((read.base, read.counter), (153, 23));
    assert_eq!(read.reference, 4_057_090 * 256);
    assert_eq!(read.statuses, [Some(4_057_090 * 256 + 148)]);
    Ok(())
}

/// Feedback from number 1 on with `count` statuses, these chunks, and deltas of 1.
fn feedback(count: u8, chunks: &[u8], deltas: usize) -> Vec<u8> {
    [
        &[0, 1, 0, count, 0, 0, 0, 0][..],
        chunks,
        &vec![1; deltas][..],
    ]
    .concat()
}

/// Which of the packets arrived.
fn arrived(bytes: &[u8]) -> Result<Vec<u8>, TransportError> {
    let read = read_transport_feedback(bytes)?;
    Ok(read
        .statuses
        .iter()
        .map(|it| u8::from(it.is_some()))
        .collect())
}

/// The chunks of the draft, sections 3.1.3 and 3.1.4.
#[test]
fn chunks_of_the_draft_are_read() {
    assert_eq!(arrived(&feedback(221, &[0x00, 0xdd], 0)), Ok(vec![0; 221]));
    let reserved = Err(TransportError::Fault(TransportFault::ReservedStatus));
    assert_eq!(arrived(&feedback(24, &[0x60, 0x18], 0)), reserved);
    let bits = [0, 1, 1, 1, 1, 1, 0, 0, 0, 1, 1, 1, 0, 0];
    assert_eq!(arrived(&feedback(14, &[0x9f, 0x1c], 8)), Ok(bits.to_vec()));
    let pairs = [0, 1, 1, 1, 1, 0, 0];
    assert_eq!(arrived(&feedback(7, &[0xc5, 0x50], 4)), Ok(pairs.to_vec()));
}

#[test]
fn faults_are_named_in_reading_order() {
    let fault = |bytes: &[u8]| arrived(bytes).unwrap_err();
    let named = TransportError::Fault;
    assert_eq!(fault(&[0; 7]), named(TransportFault::HeaderTooShort));
    assert_eq!(
        fault(&feedback(1, &[0x20], 0)),
        named(TransportFault::ChunksTooShort)
    );
    assert_eq!(
        fault(&feedback(8, &[0x20, 0x07], 1)),
        named(TransportFault::ChunksTooShort)
    );
    assert_eq!(
        fault(&feedback(2, &[0x20, 0x02], 1)),
        named(TransportFault::DeltasTooShort)
    );
    assert_eq!(
        fault(&feedback(1, &[0x40, 0x01], 1)),
        named(TransportFault::DeltasTooShort)
    );
}

/// Number 65,535 arrived at 1,000, 0 at 1,299, 1 is missing, 2 arrived at 1,300. By the draft: base 65,535, four statuses, the
/// reference 3 (of 64 ms) and count 7; a vector of two bits (small, large, missing, small); deltas 232, 299, 1; two bytes of zeros.
#[test]
fn a_log_is_reported_as_the_draft_has_it() -> Result<(), Fail> {
    let mut log = ArrivalLog::new(100)?;
    log.arrived(65_535, 1_000)?;
    log.arrived(2, 1_300)?;
    log.arrived(0, 1_299)?;
    let mut control = Vec::new();
    take_report(&mut log, 7, 10, &mut control)?;
    let wanted = [255, 255, 0, 4, 0, 0, 3, 7, 216, 64, 232, 1, 43, 1, 0, 0];
    assert_eq!(control, wanted);
    assert!(!log.has_unreported());
    // Number 1 comes late: it is reported again, with the number after it.
    log.arrived(1, 1_400)?;
    assert_eq!(log.first_unreported(), 1);
    assert_eq!(log.unreported(), [Some(1_400), Some(1_300)]);
    // As a packet: version 2, format 15, type 205, 6 words after the first; RFC 4585, section 6.1.
    let mut packet = Vec::new();
    write_transport_packet(1, 2, &wanted, &mut packet)?;
    assert_eq!(packet[..12], [0x8f, 205, 0, 6, 0, 0, 0, 1, 0, 0, 0, 2]);
    assert_eq!(packet[12..], wanted);
    let mut packets = read_compound(CompoundRule::ReducedSize, &packet)?;
    assert!(matches!(packets.next(), Some(RtcpPacket::Other(_))));
    Ok(())
}

#[test]
fn windows_out_of_range_are_refused() {
    assert_eq!(ArrivalLog::new(0).unwrap_err(), ArrivalLogError::Window);
    assert_eq!(
        ArrivalLog::new(32_769).unwrap_err(),
        ArrivalLogError::Window
    );
    assert!(ArrivalLog::new(1).is_ok() && ArrivalLog::new(MAX_WINDOW).is_ok());
}

/// 1,000,003 bits per second are 250,000 times 4, and 3 that do not fit in 18 binary digits. The head of the packet is of RFC 4585,
/// section 6.1: format 15, type 206; the media SSRC is 0.
#[test]
fn a_bitrate_is_written_and_read() -> Result<(), Fail> {
    let mut packet = Vec::new();
    write_remb_packet(5, 1_000_003, &[1, 2, 3, 4], &mut packet)?;
    let wanted = [
        0x8f, 206, 0, 5, 0, 0, 0, 5, 0, 0, 0, 0, 82, 69, 77, 66, 1, 11, 208, 144, 1, 2, 3, 4,
    ];
    assert_eq!(packet, wanted);
    let read = read_remb(&packet[12..])?;
    assert_eq!((read.bitrate, read.ssrcs), (1_000_000, &[1, 2, 3, 4][..]));
    assert_eq!(read_remb(&wanted[12..19]), Err(RembFault::TooShort));
    assert_eq!(read_remb(&wanted[12..23]), Err(RembFault::SourcesTooShort));
    assert_eq!(
        read_remb(b"RENB\x01\x0b\xd0\x90\x01\x02\x03\x04"),
        Err(RembFault::NotRemb)
    );
    assert_eq!(read_remb(b"REMB\x00\xff\xff\xff"), Err(RembFault::TooLarge));
    Ok(())
}

/// A packet of SSRC 7 with this transport-wide number under id 5, in the one-byte form (RFC 8285, section 4.2).
fn numbered(number: u16) -> Vec<u8> {
    let [high, low] = number.to_be_bytes();
    let head = [0x90, 96, 0, 1, 0, 0, 0, 0, 0, 0, 0, 7, 0xbe, 0xde, 0, 1];
    [&head[..], &[0x51, high, low, 0, 1, 2, 3]].concat()
}

fn reporter(size: usize) -> TransportReporter {
    TransportReporter::new({
        let mut settings = TransportSettings::live(5);
        settings.interval = 100;
        settings.size = size;
        settings.window = 2_048;
        settings
    })
    .unwrap()
}

/// The control information of a packet without report and name.
fn control(packet: &[u8]) -> TransportFeedback {
    assert_eq!(packet[..2], [0x8f, 205]);
    assert_eq!(packet[4..12], [0, 0, 0, 1, 0, 0, 0, 7]);
    read_transport_feedback(&packet[12..]).unwrap()
}

#[test]
fn feedback_is_due_after_the_interval() -> Result<(), Fail> {
    let source = FeedbackSource::new(1, Vec::new(), false).unwrap();
    let mut reporter = reporter(1_100);
    assert_eq!(reporter.next_deadline(), None);
    // A datagram without a number, and one that is no RTP packet, change nothing.
    reporter.receive(4, &[0x80, 96, 0, 1, 0, 0, 0, 0, 0, 0, 0, 7, 9])?;
    reporter.receive(4, &[0x80, 200])?;
    assert_eq!(reporter.take_due(Ticks(0), &source)?, None);
    reporter.receive(400, &numbered(65_534))?;
    assert_eq!(reporter.next_deadline(), Some(Ticks(0)));
    let read = control(&reporter.take_due(Ticks(50), &source)?.unwrap());
    assert_eq!(
        (read.base, read.counter, read.statuses),
        (65_534, 0, vec![Some(400)])
    );
    // The next one waits; it reports what is missing, too.
    reporter.receive(440, &numbered(0))?;
    assert_eq!(reporter.next_deadline(), Some(Ticks(150)));
    assert_eq!(reporter.take_due(Ticks(149), &source)?, None);
    let read = control(&reporter.take_due(Ticks(150), &source)?.unwrap());
    assert_eq!(
        (read.base, read.counter, read.statuses),
        (65_535, 1, vec![None, Some(440)])
    );
    assert_eq!(reporter.next_deadline(), None);
    // A packet that was reported as missing comes: it is reported again, with those after it.
    reporter.receive(480, &numbered(65_535))?;
    let read = control(&reporter.take_due(Ticks(250), &source)?.unwrap());
    assert_eq!(
        (read.base, read.statuses),
        (65_535, vec![Some(480), Some(440)])
    );
    reporter.restart();
    assert_eq!(reporter.next_deadline(), None);
    Ok(())
}

#[test]
fn much_is_reported_in_several_packets_at_once() -> Result<(), Fail> {
    let source = FeedbackSource::new(1, Vec::new(), false).unwrap();
    let mut reporter = reporter(100); // (700 - 89) / 16 = 38 numbers
    for number in 0..100 {
        reporter.receive(u32::from(number) * 40, &numbered(number))?;
    }
    let mut bases = Vec::new();
    while let Some(packet) = reporter.take_due(Ticks(0), &source)? {
        let read = control(&packet);
        assert!(packet.len() <= 112);
        bases.push((read.base, read.statuses.len()));
    }
    assert_eq!(bases, [(0, 38), (38, 38), (76, 24)]);
    Ok(())
}

#[test]
fn feedback_follows_report_and_name() -> Result<(), Fail> {
    let source = FeedbackSource::new(1, b"me".to_vec(), true).unwrap();
    let mut reporter = reporter(1_100);
    reporter.receive(0, &numbered(1))?;
    let packet = reporter.take_due(Ticks(0), &source)?.unwrap();
    let kinds: Vec<u8> = read_compound(CompoundRule::Full, &packet)?
        .map(|it| match it {
            RtcpPacket::ReceiverReport(_) => 201,
            RtcpPacket::SourceDescription(_) => 202,
            RtcpPacket::Other(_) => 205,
            _ => 0,
        })
        .collect();
    assert_eq!(kinds, [201, 202, 205]);
    Ok(())
}

/// Reports all that is unreported, reads each report again, and compares it with the first time of each number.
fn report_all(
    log: &mut ArrivalLog,
    counter: &mut u8,
    most: usize,
    seen: &HashMap<u16, u32>,
) -> Result<(), Fail> {
    while log.has_unreported() {
        let (base, left) = (log.first_unreported(), log.unreported().len());
        let mut control = Vec::new();
        take_report(log, *counter, most, &mut control)?;
        let count = left - log.unreported().len();
        assert!(0 < count && count <= most && control.len() % 4 == 0);
        assert!(count < 2 || control.len() <= (16 * count + 89) / 7);
        control.extend([9; 4]); // bytes behind the feedback are not read
        let read = read_transport_feedback(&control)?;
        assert_eq!(
            (read.base, read.counter, read.statuses.len()),
            (base, *counter, count)
        );
        for (number, time) in (0..).zip(&read.statuses) {
            assert!(time.is_none_or(|it| seen[&base.wrapping_add(number)] == it));
        }
        *counter = counter.wrapping_add(1);
    }
    Ok(())
}

#[test]
fn reports_have_the_first_time_of_each_number() -> Result<(), Fail> {
    let mut random = Dice(88_172_645_463_325_252);
    for run in 0..150 {
        let mut log =
            ArrivalLog::new(1 + random.below(if run % 3 == 0 { 40 } else { 3_000 }) as usize)?;
        let (mut number, mut now) = (random.below(65_536), random.below(1 << 32) as u32);
        let (mut counter, mut seen) = (0, HashMap::new());
        for _ in 0..200 {
            let jump = [1, 1, 1, 1, 2, 5, 30, 600][random.below(8) as usize];
            number += 1 + random.below(jump);
            now = now.wrapping_add([0, 1, 4, 300, 40_000][random.below(5) as usize]);
            let behind = if random.below(6) == 0 {
                random.below(20)
            } else {
                0
            };
            let it = number.wrapping_sub(behind) as u16;
            let before = (log.first_unreported(), log.unreported().to_vec());
            log.arrived(it, now)?;
            if before != (log.first_unreported(), log.unreported().to_vec()) {
                seen.insert(it, now);
            }
            if random.below(4) == 0 {
                report_all(
                    &mut log,
                    &mut counter,
                    1 + random.below(600) as usize,
                    &seen,
                )?;
            }
        }
    }
    Ok(())
}

#[test]
fn any_bytes_are_read_or_refused() {
    let mut random = Dice(1_234_567);
    for _ in 0..50_000 {
        let bytes: Vec<u8> = (0..random.below(40))
            .map(|_| random.below(256) as u8)
            .collect();
        let mut short = bytes.clone();
        if let Some(count) = short.get_mut(2) {
            *count = 0; // at most 255 statuses
        }
        let _ = (read_transport_feedback(&short), read_remb(&bytes));
    }
}
