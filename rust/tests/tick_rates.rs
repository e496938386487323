//! Settings for clocks with other numbers of ticks per second: each time is the least number of ticks that is not shorter.

use codec_payload::Frequency;
use codec_payload::feedback::TransportSettings;
use codec_payload::session::{FeedbackSettings, SessionSettings};
use codec_payload::stream::{ReceiverSettings, ticks_at};

const RATES: [u32; 8] = [
    1,
    7,
    1_000,
    48_000,
    90_000,
    1_000_000,
    1_000_000_000,
    u32::MAX,
];

fn rate(hertz: u32) -> Frequency {
    Frequency::make(hertz).unwrap()
}

/// Whether so many ticks of a clock of this rate are the shortest time of at least so many milliseconds.
fn is_least(ticks: u64, hertz: u32, milliseconds: u64) -> bool {
    let wanted = u128::from(milliseconds) * u128::from(hertz);
    u128::from(ticks) * 1_000 >= wanted && u128::from(ticks - 1) * 1_000 < wanted
}

#[test]
fn a_receiver_waits_as_long_by_each_clock() {
    for hertz in RATES {
        let mut settings = ReceiverSettings::live_video_with_nack(96, Frequency::NINETY_KHZ);
        settings.set_tick_rate(rate(hertz));
        assert!(
            is_least(settings.wait_limits.max_wait.unwrap(), hertz, 200),
            "{hertz}"
        );
        assert_eq!(
            (settings.tick_rate, settings.clock_rate),
            (rate(hertz), Frequency::NINETY_KHZ)
        );
        assert_eq!(settings.wait_limits.start, 2);
        let mut file = ReceiverSettings::file(96, Frequency::NINETY_KHZ);
        file.set_tick_rate(rate(hertz));
        assert_eq!(file.wait_limits.max_wait, None);
    }
}

#[test]
fn all_times_of_a_session_are_the_same_by_each_clock() {
    for hertz in RATES {
        let mut settings = SessionSettings::live();
        settings.feedback = Some(FeedbackSettings::live(1, b"me".to_vec()));
        settings.transport = Some(TransportSettings::live(3));
        settings.set_tick_rate(rate(hertz));
        let (feedback, transport) = (settings.feedback.unwrap(), settings.transport.unwrap());
        let (nack, late) = (feedback.nack, settings.late);
        let times = [
            (settings.audio.max_wait.unwrap(), 100),
            (settings.video.max_wait.unwrap(), 200),
            (late.shortest, 20),
            (late.longest, 400),
            (late.first, 200),
            (late.lost_after, 1_000),
            (settings.idle_timeout, 30_000),
            (settings.bye_wait, 200),
            (feedback.keyframe_interval, 100),
            (feedback.silence, 2_000),
            (feedback.longest_wait.unwrap(), 1_500),
            (feedback.report_interval.unwrap(), 1_000),
            (nack.first_wait, 10),
            (nack.retry, 100),
            (nack.shortest_retry, 20),
            (nack.longest_retry, 400),
            (transport.interval, 100),
        ];
        for (ticks, milliseconds) in times {
            assert!(
                is_least(ticks, hertz, milliseconds),
                "{hertz}: {ticks} of {milliseconds}"
            );
        }
        assert_eq!(
            (settings.tick_rate, settings.probation, settings.limit),
            (rate(hertz), 2, 4_096)
        );
        assert_eq!(
            (nack.tries, nack.capacity, transport.window),
            (6, 1_024, 2_048)
        );
        assert_eq!(
            (
                feedback.ssrc,
                feedback.cname.as_slice(),
                feedback.max_report
            ),
            (1, &b"me"[..], 1_200)
        );
    }
}

#[test]
fn times_beyond_64_bits_are_the_greatest() {
    assert_eq!(
        ticks_at(rate(1_000), rate(1_000_000_000), u64::MAX / 1_000_000),
        u64::MAX / 1_000_000 * 1_000_000
    );
    assert_eq!(
        ticks_at(rate(1_000), rate(1_000_000_000), u64::MAX / 1_000_000 + 1),
        u64::MAX
    );
    assert_eq!(ticks_at(rate(1), rate(u32::MAX), u64::MAX), u64::MAX);
    // 2^64 - 1 is (2^32 - 1)(2^32 + 1).
    assert_eq!(ticks_at(rate(u32::MAX), rate(1), u64::MAX), 4_294_967_297);
    assert_eq!(ticks_at(rate(u32::MAX), rate(1), 1), 1);
    assert_eq!(ticks_at(rate(5), rate(7), 0), 0);
}
