//! `poll_into` beside `poll`: two sessions get the same datagrams, many of them broken, and must return the same events with the
//! same units. And how often a poll allocates.

use crate::datagrams::*;
use crate::{allocations, live_bytes};
use codec_payload::session::*;
use codec_payload::*;

/// An event, and its unit if it has one, as text.
fn text<U: std::fmt::Debug>(event: &Event<U>, unit: Option<&PoppedUnit>) -> String {
    let (name, fields) = match event {
        Event::Begun { ssrc, payload_type } => ("begun", format!("{ssrc} {payload_type}")),
        Event::Unit {
            ssrc,
            payload_type,
            rtp_time,
            decodable,
            keyframe,
            ..
        } => (
            "unit",
            format!("{ssrc} {payload_type} {rtp_time:?} {decodable} {keyframe}"),
        ),
        Event::TooLarge {
            ssrc, payload_type, ..
        } => ("too large", format!("{ssrc} {payload_type}")),
        Event::Refused {
            ssrc,
            payload_type,
            fault,
        } => ("refused", format!("{ssrc} {payload_type} {fault:?}")),
        Event::Feedback {
            ssrc,
            payload_type,
            packet,
        } => ("feedback", format!("{ssrc} {payload_type} {packet:?}")),
        Event::Telephone {
            ssrc,
            payload_type,
            rtp_time,
            marker,
            payload,
        } => (
            "telephone",
            format!("{ssrc} {payload_type} {rtp_time} {marker} {payload:?}"),
        ),
        Event::Report { packet } => ("report", format!("{packet:?}")),
        Event::Ended {
            ssrc,
            payload_type,
            why,
        } => ("ended", format!("{ssrc} {payload_type} {why:?}")),
        other => panic!("an event that this test does not know: {other:?}"),
    };
    let unit = unit.map(|it| {
        let packets: Vec<RtpMeta> = (0..it.packets()).map(|place| it.meta(place)).collect();
        format!(
            "{:?} {} {:?} {:?} {packets:?} {:?}",
            it.time,
            it.contiguous,
            it.bytes,
            it.codec_extra,
            it.ext_vals()
        )
    });
    format!("{name} {fields} {unit:?}")
}

fn session(max_unit: usize) -> Session {
    let mut settings = SessionSettings::live();
    settings.formats = answered_formats();
    settings.formats.push(pcmu_format());
    settings.no_media = vec![NOISE];
    settings.telephone_events = vec![EVENTS];
    settings.max_streams = 4;
    settings.max_unit = Some(max_unit);
    settings.feedback = Some({
        let mut settings = FeedbackSettings::live(9, b"me@host".to_vec());
        settings.report_interval = Some(400);
        settings
    });
    Session::new(settings).expect("settings that can be met")
}

/// The next datagram: audio, video of several packets, telephone events, comfort noise or a BYE, some lost before it; every eighth
/// one is broken.
fn datagram(dice: &mut Dice, number: &mut u16) -> Vec<u8> {
    *number = number.wrapping_add([1, 1, 1, 1, 2, 3][dice.below(6) as usize]);
    let (ssrc, number) = (1 + dice.below(3), *number);
    let time = u32::from(number / 3) * 3_000;
    let mut bytes = match dice.below(12) {
        0..4 => opus(ssrc, number),
        4..6 => vp8(ssrc, number, dice.below(4) == 0),
        6 => packet(VP8, ssrc, number, time, &[0x10, 0x10, 0, 0, 0x9D, 1, 0x2A]),
        // A descriptor that ends before its second octet.
        7 if dice.below(2) == 0 => packet(VP8, ssrc, number, time + 1, &[0x90]),
        7 => packet(VP8, ssrc, number, time, &[7; 90]),
        8 => packet(EVENTS, ssrc, number, time, &[1, 0x0A, 0, 160]),
        9 => packet(NOISE, ssrc, number, time, &[40]),
        10 => packet(PCMU, ssrc, number, time, &[number as u8; 160]),
        _ if dice.below(8) == 0 => bye(ssrc),
        _ => packet(RED, ssrc, number, time, &[OPUS, number as u8, 7]),
    };
    if dice.below(8) == 0 {
        let place = dice.below(bytes.len() as u32) as usize;
        bytes[place] ^= 1 << dice.below(8);
        bytes.truncate(bytes.len() - dice.below(3) as usize);
    }
    bytes
}

/// Polls both sessions until they have no event, and notes which events came.
fn poll_all(pair: &mut [Session; 2], unit: &mut PoppedUnit, now: Ticks, came: &mut Vec<String>) {
    let [one, other] = pair;
    loop {
        let got = one.poll_into(now, unit);
        let wanted = other.poll(now);
        assert_eq!(one.next_deadline(), other.next_deadline());
        assert_eq!(one.counts(), other.counts());
        let (Some(got), Some(wanted)) = (&got, &wanted) else {
            assert!(got.is_none() && wanted.is_none(), "{got:?} {wanted:?}");
            return;
        };
        let own = match wanted {
            Event::Unit { unit, .. } => unit.as_ref().ok(),
            Event::TooLarge { unit, .. } => Some(unit),
            _ => None,
        };
        let lent = match got {
            Event::Unit { unit: popped, .. } => popped.as_ref().ok().map(|()| &*unit),
            Event::TooLarge { .. } => Some(&*unit),
            _ => None,
        };
        let text = text(got, lent);
        assert_eq!(text, self::text(wanted, own));
        came.push(text);
    }
}

#[test]
fn both_polls_return_the_same_events() {
    let mut came = Vec::new();
    for seed in 0..20 {
        let mut dice = Dice(seed);
        let mut pair = [session(100), session(100)];
        let mut unit = PoppedUnit::new();
        let (mut number, mut now) = (dice.below(65_536) as u16, 0);
        for _ in 0..600 {
            now += u64::from(dice.below(12));
            let bytes = datagram(&mut dice, &mut number);
            let [one, other] = &mut pair;
            assert_eq!(
                one.receive(Ticks(now), &bytes),
                other.receive(Ticks(now), &bytes)
            );
            if dice.below(3) == 0 {
                poll_all(&mut pair, &mut unit, Ticks(now), &mut came);
            }
        }
        for session in &mut pair {
            session.finish(Ticks(now));
        }
        poll_all(&mut pair, &mut unit, Ticks(now + 1), &mut came);
    }
    // Each kind of event came, so each was compared.
    for name in [
        "begun",
        "unit",
        "too large",
        "refused",
        "feedback",
        "telephone",
        "report",
        "ended",
    ] {
        let count = came.iter().filter(|it| it.starts_with(name)).count();
        assert!(count > 20, "{count} events are {name}");
    }
}

/// Receives packets of Opus, and returns how many allocations their polls made, and how many units came.
fn poll_audio(mut next: impl FnMut(&mut Session, Ticks) -> bool) -> (usize, usize) {
    let mut settings = SessionSettings::live();
    settings.formats = vec![opus_format()];
    let mut session = Session::new(settings).expect("settings that can be met");
    let (mut made, mut units) = (0, 0);
    for number in 0..200u16 {
        let now = Ticks(20 * u64::from(number));
        session.receive(now, &opus(1, number)).expect("memory");
        let (more, came) = allocations(|| {
            let mut came = 0;
            while next(&mut session, now) {
                came += 1;
            }
            came
        });
        if number >= 100 {
            made += more;
            units += came;
        }
    }
    (made, units)
}

#[test]
fn a_unit_in_memory_that_is_used_again_takes_no_allocation() {
    let mut unit = PoppedUnit::new();
    let into = poll_audio(|session, now| session.poll_into(now, &mut unit).is_some());
    assert_eq!(into, (0, 100));
    // The bytes of each unit, and what is known of its packets.
    let owned = poll_audio(|session, now| session.poll(now).is_some());
    assert_eq!(owned, (200, 100));
}

#[test]
fn a_poll_without_a_unit_takes_no_memory() {
    let mut session = session(100);
    let before = live_bytes();
    let (made, event) = allocations(|| session.poll(Ticks(0)).is_some());
    assert!(!event);
    assert_eq!((made, live_bytes()), (0, before));
}
