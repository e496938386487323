//! When missing packets and keyframes are requested.

use codec_payload::Ticks;
use codec_payload::requests::{KeyframeRequests, NackSchedule, NackSettings};

/// The numbers that are due at a moment.
fn due(schedule: &mut NackSchedule, now: u64) -> Vec<u16> {
    let mut numbers = Vec::new();
    schedule.take_due(Ticks(now), &mut numbers).unwrap();
    numbers
}

/// Each moment at which the number is requested, if the caller calls at each deadline alone.
fn moments_of(schedule: &mut NackSchedule, number: u16) -> Vec<u64> {
    let mut moments = Vec::new();
    while let Some(Ticks(at)) = schedule.next_deadline() {
        let numbers = due(schedule, at);
        assert!(!numbers.is_empty(), "a number is due at its deadline");
        if numbers.contains(&number) {
            moments.push(at);
        }
    }
    moments
}

#[test]
fn a_missing_number_is_requested_six_times_each_100_ms() {
    let mut schedule = NackSchedule::new(NackSettings::live());
    schedule.refresh(Ticks(1_000), &[70_000]).unwrap();
    assert_eq!(due(&mut schedule, 1_009), []);
    let low = (70_000 % 65_536) as u16;
    assert_eq!(
        moments_of(&mut schedule, low),
        [1_010, 1_110, 1_210, 1_310, 1_410, 1_510]
    );
    assert_eq!(due(&mut schedule, u64::MAX), []);
}

#[test]
fn a_number_that_arrives_is_not_requested() {
    let mut schedule = NackSchedule::new(NackSettings::live());
    schedule.refresh(Ticks(0), &[5, 6, 9]).unwrap();
    schedule.refresh(Ticks(9), &[6, 9]).unwrap();
    assert_eq!(due(&mut schedule, 10), [6, 9]);
    schedule.refresh(Ticks(50), &[9, 12]).unwrap();
    assert_eq!(schedule.next_deadline(), Some(Ticks(60)));
    assert_eq!(due(&mut schedule, 60), [12]);
    assert_eq!(due(&mut schedule, 110), [9]);
    schedule.refresh(Ticks(111), &[]).unwrap();
    assert_eq!(schedule.next_deadline(), None);
}

#[test]
fn the_same_numbers_again_keep_their_times() {
    let mut schedule = NackSchedule::new(NackSettings::live());
    for now in 0..=10 {
        schedule.refresh(Ticks(now), &[5, 6]).unwrap();
        assert_eq!(schedule.next_deadline(), Some(Ticks(10)));
    }
    assert_eq!(due(&mut schedule, 10), [5, 6]);
    schedule.refresh(Ticks(60), &[5, 6]).unwrap();
    assert_eq!(schedule.next_deadline(), Some(Ticks(110)));
    assert_eq!(due(&mut schedule, 109), []);
    assert_eq!(due(&mut schedule, 110), [5, 6]);
}

#[test]
fn the_capacity_applies_to_the_same_numbers_again() {
    let mut schedule = NackSchedule::new({
        let mut settings = NackSettings::live();
        settings.capacity = 2;
        settings
    });
    schedule.refresh(Ticks(0), &[5, 6]).unwrap();
    schedule.refresh(Ticks(1), &[5, 6, 7]).unwrap();
    schedule.refresh(Ticks(2), &[5, 6, 7]).unwrap();
    assert_eq!(due(&mut schedule, 100), [5, 6]);
}

#[test]
fn a_number_that_is_missing_again_begins_anew() {
    let mut schedule = NackSchedule::new(NackSettings::live());
    schedule.refresh(Ticks(0), &[5]).unwrap();
    assert_eq!(due(&mut schedule, 10), [5]);
    schedule.refresh(Ticks(20), &[]).unwrap();
    schedule.refresh(Ticks(30), &[5]).unwrap();
    assert!(!schedule.has_requested(5));
    assert_eq!(due(&mut schedule, 40), [5]);
    assert!(schedule.has_requested(5));
}

/// Numbers that are requested at 10 ms, and answered after these times.
fn answered_after(times: &[u64]) -> NackSchedule {
    let numbers: Vec<u64> = (1..=times.len() as u64).collect();
    let mut schedule = NackSchedule::new(NackSettings::live());
    schedule.refresh(Ticks(0), &numbers).unwrap();
    assert_eq!(due(&mut schedule, 10).len(), times.len());
    for (number, time) in (1..).zip(times) {
        schedule.answered(Ticks(10 + time), number);
    }
    schedule
}

#[test]
fn the_round_trip_is_the_median_of_five_answers() {
    let cases: [(&[u64], u64); 9] = [
        (&[160], 160),
        (&[1, 160], 160),
        (&[160, 1], 160),
        (&[1, 160, 161], 160),
        (&[160, 161, 162, 1], 161),
        (&[160, 1, 161, 999, 162], 161),
        // Of six the oldest no longer counts: it rises as well as it falls.
        (&[10, 10, 10, 80, 80, 80], 80),
        (&[80, 80, 80, 10, 10, 10], 10),
        (&[1, 1, 160, 160, 160], 160),
    ];
    for (times, trip) in cases {
        assert_eq!(answered_after(times).round_trip(), Some(trip), "{times:?}");
    }
    let mut schedule = answered_after(&[80, 80]);
    schedule.answered(Ticks(5_000), 77);
    assert_eq!(schedule.round_trip(), Some(80), "77 was not requested");
}

#[test]
fn the_retry_time_follows_the_round_trip() {
    // 80 + 80 / 8 + 10 / 2; not below 20 and not above 400; by one answer not below 100.
    let cases: [(&[u64], u64); 6] = [
        (&[], 100),
        (&[80], 100),
        (&[80, 80], 95),
        (&[4, 4], 20),
        (&[900, 900], 400),
        (&[200], 230),
    ];
    for (times, retry) in cases {
        assert_eq!(answered_after(times).retry_time(), retry, "{times:?}");
    }
}

/// All six tries, the first after 10 ms, each with the time until the next one: 10 + 6 * 95. While a number is missing that was requested
/// with 100 ms until its next request, 10 + 6 * 100.
#[test]
fn a_packet_is_worth_waiting_for_until_its_last_request_is_answered() {
    for times in [&[][..], &[80]] {
        assert_eq!(answered_after(times).answer_time(), None);
    }
    let mut schedule = answered_after(&[80, 80]);
    assert_eq!(schedule.answer_time(), Some(610));
    schedule.refresh(Ticks(90), &[]).unwrap();
    assert_eq!(schedule.answer_time(), Some(580));
}

#[test]
fn a_report_counts_in_place_of_the_answers() {
    let mut schedule = answered_after(&[1]);
    schedule.set_reported(Some(160));
    let (trip, retry) = (schedule.round_trip(), schedule.retry_time());
    assert_eq!((trip, retry), (Some(160), 160 + 160 / 8 + 5));
    schedule.refresh(Ticks(20), &[]).unwrap();
    assert_eq!(schedule.answer_time(), Some(10 + 6 * 185));
    schedule.set_reported(None);
    let (trip, retry) = (schedule.round_trip(), schedule.retry_time());
    assert_eq!((trip, retry), (Some(1), 100));
}

/// A number is measured from its first request on: the second one may be what is answered, so the time is long, and not short.
#[test]
fn a_second_request_does_not_shorten_the_round_trip() {
    let mut schedule = NackSchedule::new(NackSettings::live());
    schedule.refresh(Ticks(0), &[1, 2]).unwrap();
    assert_eq!(due(&mut schedule, 10), [1, 2]);
    assert_eq!(due(&mut schedule, 110), [1, 2]);
    schedule.answered(Ticks(170), 1);
    schedule.answered(Ticks(170), 2);
    assert_eq!(schedule.round_trip(), Some(160));
}

#[test]
fn the_lowest_numbers_are_followed_up_to_the_capacity() {
    let settings = {
        let mut settings = NackSettings::live();
        settings.capacity = 2;
        settings.first_wait = 0;
        settings
    };
    let mut schedule = NackSchedule::new(settings);
    schedule.refresh(Ticks(0), &[3, 3, 8, 5, 9]).unwrap();
    assert_eq!(due(&mut schedule, 0), [3, 8]);
    schedule.refresh(Ticks(1), &[8, 9, 10]).unwrap();
    assert_eq!(due(&mut schedule, 1), [9]);
}

#[test]
fn no_request_comes_after_the_end_of_the_clock() {
    let mut schedule = NackSchedule::new(NackSettings::live());
    schedule.refresh(Ticks(u64::MAX - 50), &[1]).unwrap();
    assert_eq!(due(&mut schedule, u64::MAX - 40), [1]);
    assert_eq!(schedule.next_deadline(), None);
    assert_eq!(due(&mut schedule, u64::MAX), []);
}

#[test]
fn settings_of_zero_request_nothing() {
    for settings in [
        {
            let mut settings = NackSettings::live();
            settings.tries = 0;
            settings
        },
        {
            let mut settings = NackSettings::live();
            settings.capacity = 0;
            settings
        },
    ] {
        let mut schedule = NackSchedule::new(settings);
        schedule.refresh(Ticks(0), &[1, 2]).unwrap();
        assert_eq!(schedule.next_deadline(), None);
        assert_eq!(due(&mut schedule, 1_000), []);
    }
}

#[test]
fn keyframes_are_requested_at_once_and_then_each_500_ms() {
    let mut requests = KeyframeRequests::new(500);
    assert!(!requests.take_due(Ticks(0)));
    assert_eq!(requests.next_deadline(), None);
    requests.set_wanted(true);
    assert!(requests.take_due(Ticks(70)));
    assert!(!requests.take_due(Ticks(569)));
    assert_eq!(requests.next_deadline(), Some(Ticks(570)));
    assert!(requests.take_due(Ticks(570)));
    requests.set_wanted(false);
    assert!(!requests.take_due(Ticks(2_000)));
    requests.set_wanted(true);
    assert!(requests.take_due(Ticks(2_000)));
    requests.set_wanted(false);
    requests.set_wanted(true);
    assert!(
        !requests.take_due(Ticks(2_499)),
        "the interval counts across keyframes"
    );
}
