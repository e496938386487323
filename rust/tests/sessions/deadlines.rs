//! After a poll without an event, in which no packet left, no poll has one before `next_deadline`.

use crate::Fail;
use crate::datagrams::*;
use codec_payload::jitter::WaitLimits;
use codec_payload::keyframes::FromKeyframe;
use codec_payload::session::*;
use codec_payload::*;
use std::collections::BTreeMap;

/// A frame of VP8 in one packet, with a picture id and temporal layers of four frames each (RFC 7741, section 4.2).
fn layered(number: u16, is_sync: bool, is_keyframe: bool) -> Vec<u8> {
    let picture = (number & 0x7fff).to_be_bytes();
    let layer = [0u8, 2, 1, 2][usize::from(number % 4)];
    let base = (number / 4) as u8;
    let layers = layer << 6 | u8::from(is_sync) << 5;
    let [high, low] = picture;
    let mut bytes = vec![0x90, 0xe0, 0x80 | high, low, base, layers];
    bytes.extend([u8::from(!is_keyframe), 0, 0, 0x9d, 1, 0x2a, 64, 0, 64, 0]);
    bytes
}

fn video(ssrc: u32, number: u16, frame: &[u8]) -> Vec<u8> {
    packet(VP8 | 0x80, ssrc, number, 900 * u32::from(number), frame)
}

fn settings(limits: WaitLimits) -> SessionSettings {
    let mut settings = SessionSettings::live();
    settings.formats = vec![
        {
            let mut format = vp8_format();
            format.nack = true;
            format.pli = true;
            format
        },
        opus_format(),
    ];
    settings.no_media.push(NOISE);
    (settings.audio, settings.video) = (limits, limits);
    settings
}

fn random(dice: &mut Dice) -> SessionSettings {
    let mut settings = settings({
        let mut limits = WaitLimits::live();
        limits.hold_back = (dice.below(2) == 0).then(|| dice.below(6) as usize);
        limits.start = dice.below(4) as usize;
        limits.max_wait = (dice.below(3) > 0).then(|| dice.below(120).into());
        limits
    });
    if dice.below(3) == 0 {
        settings.limit = 8 + dice.below(20) as usize;
    }
    settings.from_keyframe =
        [FromKeyframe::Off, FromKeyframe::Mark, FromKeyframe::Drop][dice.below(3) as usize];
    settings.probation = dice.below(3).into();
    settings.idle_timeout = 500 + u64::from(dice.below(3_000));
    settings.bye_wait = dice.below(300).into();
    settings.feedback = (dice.below(2) == 0).then(|| {
        let mut settings = FeedbackSettings::live(9, b"me@host".to_vec());
        settings.report_interval = (dice.below(2) == 0).then_some(1_000);
        settings.silence = 200;
        settings
    });
    settings
}

/// A datagram of one of three senders, which lose packets and send some twice.
fn datagram(dice: &mut Dice, numbers: &mut [u16; 3]) -> Vec<u8> {
    let ssrc = dice.below(3);
    let number = &mut numbers[ssrc as usize];
    *number = match dice.below(12) {
        0 => number.wrapping_sub(dice.below(6) as u16),
        1 | 2 => number.wrapping_add(2),
        3 => number.wrapping_add(3),
        _ => number.wrapping_add(1),
    };
    let number = *number;
    let time = 900 * u32::from(number);
    match dice.below(100) {
        0 => goodbye(&[ssrc]),
        1..20 => packet(NOISE, ssrc, number, time, &[64]),
        20..35 if ssrc == 1 => packet(OPUS, ssrc, number, time, &[1, 7]),
        _ => {
            let (is_sync, is_keyframe) = (dice.below(8) == 0, dice.below(40) == 0);
            video(ssrc, number, &layered(number, is_sync, is_keyframe))
        }
    }
}

fn held(session: &Session) -> usize {
    let streams = (0..session.stream_count()).filter_map(|place| session.stream_at(place));
    streams.map(|it| it.held).sum()
}

/// Polls until there is no event. Returns whether no packet left in the last poll.
fn drain(session: &mut Session, now: u64) -> bool {
    loop {
        let before = held(session);
        if session.poll(Ticks(now)).is_none() {
            return held(session) == before;
        }
    }
}

fn run(seed: u32, seen: &mut BTreeMap<(bool, bool), u64>) -> Result<(), Fail> {
    let mut dice = Dice(seed);
    let mut session = Session::new(random(&mut dice)).expect("settings that can be met");
    let mut numbers = [0, 65_500, 100];
    let mut now = 0;
    for _ in 0..300 {
        let bytes = datagram(&mut dice, &mut numbers);
        session.receive(Ticks(now), &bytes)?;
        now += u64::from(dice.below(12));
        if dice.below(3) == 0 {
            continue;
        }
        let is_whole = drain(&mut session, now);
        // Times before the deadline, one after another.
        for _ in 0..dice.below(4) {
            let later = now + u64::from(dice.below(40));
            if session.next_deadline().is_some_and(|at| at.0 <= later) {
                break;
            }
            let event = session.poll(Ticks(later));
            assert!(event.is_none() || !is_whole, "{event:?} at {later}");
            *seen.entry((is_whole, event.is_some())).or_default() += 1;
            now = later;
            if event.is_some() {
                break;
            }
        }
    }
    Ok(())
}

#[test]
fn no_event_before_the_deadline() -> Result<(), Fail> {
    let mut seen = BTreeMap::new();
    for seed in 0..1_500 {
        run(seed, &mut seen)?;
    }
    println!("{seen:?}");
    assert!(seen[&(true, false)] > 100_000);
    // Where packets left there can be an event, as below.
    assert!(seen[&(false, true)] > 50);
    assert!(seen[&(false, false)] > 10_000);
    Ok(())
}

/// A number without media follows a frame that a poll skipped. The next poll goes past that number.
#[test]
fn a_poll_that_skips_a_frame() -> Result<(), Fail> {
    let mut session = Session::new(settings({
        let mut limits = WaitLimits::live();
        limits.hold_back = Some(1);
        limits.start = 0;
        limits.max_wait = Some(100);
        limits
    }))
    .expect("settings that can be met");
    for number in [100, 101] {
        let frame = layered(number, true, number == 100);
        session.receive(Ticks(0), &video(7, number, &frame))?;
    }
    drain(&mut session, 0);
    // Packet 102 is lost, and the frame in 103 needs it. Packet 104 is comfort noise.
    session.receive(Ticks(10), &video(7, 103, &layered(103, false, false)))?;
    session.receive(Ticks(10), &packet(NOISE, 7, 104, 93_600, &[64]))?;
    assert!(drain(&mut session, 10));
    session.receive(Ticks(20), &video(7, 105, &layered(108, true, true)))?;
    assert!(session.poll(Ticks(20)).is_none());
    assert_eq!(
        (held(&session), session.next_deadline()),
        (1, Some(Ticks(120)))
    );
    let event = session.poll(Ticks(21));
    assert!(matches!(event, Some(Event::Unit { .. })), "{event:?}");
    Ok(())
}
