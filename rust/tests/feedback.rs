//! The requests of one stream as RTCP packets: which bytes, and when.

use codec_payload::Ticks;
use codec_payload::feedback::{FeedbackSource, StreamRequests};
use codec_payload::requests::NackSettings;
use codec_payload::rtcp::{CompoundRule, RtcpPacket, read_compound};

const OWN: u32 = 0x0102_0304;
const MEDIA: u32 = 0x0A0B_0C0D;

fn source(cname: &[u8], has_report: bool) -> FeedbackSource {
    FeedbackSource::new(OWN, cname.to_vec(), has_report).unwrap()
}

fn requests() -> StreamRequests {
    StreamRequests::new(MEDIA, NackSettings::live(), 500)
}

/// The packet that is due.
fn due(requests: &mut StreamRequests, now: u64) -> Option<Vec<u8>> {
    requests.take_due(Ticks(now), &source(b"", false)).unwrap()
}

/// The numbers of the NACKs of a packet, and how many PLIs it has.
fn asked(packet: &[u8]) -> (Vec<u16>, usize) {
    let (mut numbers, mut pictures) = (Vec::new(), 0);
    for packet in read_compound(CompoundRule::ReducedSize, packet).unwrap() {
        match packet {
            RtcpPacket::Nack(nack) => numbers.extend(nack.numbers()),
            RtcpPacket::PictureLoss(_) => pictures += 1,
            _ => {}
        }
    }
    (numbers, pictures)
}

/// RFC 4585, sections 6.2.1 and 6.3.1: 5, 6 and 21 are a pair of PID 5 and BLP bits 0 and 15; 22 is one more pair.
#[test]
fn a_packet_of_reduced_size_has_a_nack_and_a_pli() {
    let mut requests = requests();
    requests.update(Ticks(0), &[5, 6, 21, 22], true).unwrap();
    assert_eq!(
        due(&mut requests, 10).unwrap(),
        [
            0x81, 205, 0, 4, 1, 2, 3, 4, 10, 11, 12, 13, 0, 5, 0x80, 0x01, 0, 22, 0, 0, //
            0x81, 206, 0, 2, 1, 2, 3, 4, 10, 11, 12, 13,
        ]
    );
    assert_eq!(due(&mut requests, 10), None);
}

/// RFC 3550, sections 6.4.2, 6.5 and 6.5.1.
#[test]
fn a_full_packet_begins_with_a_report_and_a_name() {
    let mut requests = requests();
    requests.update(Ticks(0), &[], true).unwrap();
    let packet = requests
        .take_due(Ticks(0), &source(b"a@b", true))
        .unwrap()
        .unwrap();
    assert_eq!(
        packet,
        [
            0x80, 201, 0, 1, 1, 2, 3, 4, //
            0x81, 202, 0, 3, 1, 2, 3, 4, 1, 3, b'a', b'@', b'b', 0, 0, 0, //
            0x81, 206, 0, 2, 1, 2, 3, 4, 10, 11, 12, 13,
        ]
    );
    assert!(read_compound(CompoundRule::Full, &packet).is_ok());
}

#[test]
fn a_name_has_at_most_255_bytes() {
    assert!(FeedbackSource::new(OWN, vec![b'x'; 255], true).is_some());
    assert!(FeedbackSource::new(OWN, vec![b'x'; 256], true).is_none());
}

#[test]
fn numbers_are_requested_only_while_they_are_missing() {
    let mut requests = requests();
    requests
        .update(Ticks(0), &[65_535, 65_536, 65_540], false)
        .unwrap();
    assert_eq!(due(&mut requests, 9), None);
    requests.update(Ticks(9), &[65_536, 65_540], false).unwrap();
    assert_eq!(asked(&due(&mut requests, 10).unwrap()), (vec![0, 4], 0));
    requests.update(Ticks(11), &[65_540], false).unwrap();
    assert_eq!(requests.next_deadline(), Some(Ticks(110)));
    assert_eq!(due(&mut requests, 109), None);
    assert_eq!(asked(&due(&mut requests, 110).unwrap()), (vec![4], 0));
}

#[test]
fn a_number_is_requested_at_most_six_times() {
    let mut requests = requests();
    let mut times = 0;
    for now in 0..5_000 {
        requests.update(Ticks(now), &[7], false).unwrap();
        times += usize::from(due(&mut requests, now).is_some());
    }
    assert_eq!((times, requests.next_deadline()), (6, None));
}

#[test]
fn keyframes_are_requested_each_interval_while_one_is_wanted() {
    let mut requests = requests();
    let mut moments = Vec::new();
    for now in 0..3_000 {
        let wants = (100..1_200).contains(&now) || now >= 2_900;
        requests.update(Ticks(now), &[], wants).unwrap();
        if let Some(packet) = due(&mut requests, now) {
            assert_eq!(asked(&packet), (vec![], 1));
            moments.push(now);
        }
    }
    assert_eq!(moments, [100, 600, 1_100, 2_900]);
}

/// A keyframe that is needed beside what the receiver reports is due at once, and within the interval once it has passed.
#[test]
fn a_keyframe_can_be_needed_for_another_reason() {
    let mut requests = requests();
    requests.update(Ticks(0), &[], false).unwrap();
    assert!(requests.is_idle() && !requests.is_keyframe_due(Ticks(0)));
    requests.want_keyframe();
    assert!(!requests.is_idle() && requests.is_keyframe_due(Ticks(0)));
    assert_eq!(requests.next_deadline(), Some(Ticks(0)));
    assert_eq!(asked(&due(&mut requests, 30).unwrap()), (vec![], 1));
    assert_eq!(requests.next_deadline(), Some(Ticks(530)));
    assert!(!requests.is_keyframe_due(Ticks(529)) && requests.is_keyframe_due(Ticks(530)));
    requests.update(Ticks(530), &[], false).unwrap();
    assert!(requests.is_idle() && due(&mut requests, 530).is_none());
}

#[test]
fn the_deadline_is_when_the_next_packet_is_due() {
    let mut requests = requests();
    assert_eq!(requests.next_deadline(), None);
    requests.update(Ticks(50), &[3], false).unwrap();
    assert_eq!(requests.next_deadline(), Some(Ticks(60)));
    requests.update(Ticks(50), &[3], true).unwrap();
    assert_eq!(requests.next_deadline(), Some(Ticks(0)));
    assert!(due(&mut requests, 50).is_some());
    assert_eq!(requests.next_deadline(), Some(Ticks(60)));
}

/// The round trip is measured: 9/8 of 40 ms and 5 ms more until the next request (`NackSettings`). One answer alone may be a packet that
/// came by itself, so it makes no request earlier.
#[test]
fn two_answers_set_the_time_between_two_requests() {
    for (answers, next) in [(1, 160), (2, 110)] {
        let mut requests = requests();
        requests.update(Ticks(0), &[1, 2], false).unwrap();
        assert!(due(&mut requests, 10).is_some());
        (1..=answers).for_each(|number| requests.answered(Ticks(50), number));
        assert_eq!(requests.round_trip(), Some(40));
        requests.update(Ticks(50), &[3], false).unwrap();
        assert_eq!(asked(&due(&mut requests, 60).unwrap()), (vec![3], 0));
        assert_eq!(requests.next_deadline(), Some(Ticks(next)));
    }
}

/// With a round trip of 400 ms a keyframe is requested again after 600 ms, not after the interval of 500 ms.
#[test]
fn a_keyframe_on_its_way_is_not_requested_again() {
    let mut requests = requests();
    requests.set_reported(Some(400));
    requests.update(Ticks(0), &[], true).unwrap();
    assert_eq!(asked(&due(&mut requests, 0).unwrap()), (vec![], 1));
    assert_eq!(requests.next_deadline(), Some(Ticks(600)));
    requests.set_reported(Some(40));
    assert_eq!(asked(&due(&mut requests, 600).unwrap()), (vec![], 1));
    assert_eq!(requests.next_deadline(), Some(Ticks(1_100)));
}

/// 70,000 numbers are missing; each NACK fits into a packet, and no number is requested twice.
#[test]
fn any_capacity_fits_into_a_packet() {
    let settings = {
        let mut settings = NackSettings::live();
        settings.capacity = usize::MAX;
        settings.tries = 1;
        settings
    };
    let mut requests = StreamRequests::new(MEDIA, settings, 500);
    let missing: Vec<u64> = (0..140_000).step_by(2).collect();
    requests.update(Ticks(0), &missing, false).unwrap();
    let (numbers, _) = asked(&due(&mut requests, 10).unwrap());
    assert_eq!(numbers.len(), 65_533);
    assert_eq!(due(&mut requests, 1_000), None);
}

/// Only a number that was in a packet counts as requested, by its 16 bits, and only as long as it is missing.
#[test]
fn requested_numbers() {
    let mut requests = requests();
    requests.update(Ticks(0), &[65_541, 65_550], false).unwrap();
    assert!(!requests.has_requested(5));
    requests
        .update(Ticks(9), &[65_541, 65_550, 65_551], false)
        .unwrap();
    assert_eq!(asked(&due(&mut requests, 10).unwrap()).0, [5, 14]);
    assert_eq!(
        [5, 14, 15, 6].map(|n| requests.has_requested(n)),
        [true, true, false, false]
    );
    requests
        .update(Ticks(11), &[65_550, 65_551], false)
        .unwrap();
    assert_eq!(
        [5, 14, 15].map(|n| requests.has_requested(n)),
        [false, true, false]
    );
}
