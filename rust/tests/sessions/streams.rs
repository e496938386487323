//! Sessions: which stream a datagram is of, when streams begin and end, and that a stream is what a receiver alone makes of its
//! datagrams.

use crate::Fail;
use crate::datagrams::*;
use codec_payload::jitter::Outcome;
use codec_payload::sender::{Sample, Sender, SenderSettings};
use codec_payload::session::*;
use codec_payload::stream::{ReceiveError, Receiver, ReceiverSettings, Retransmission};
use codec_payload::*;

/// A session whose streams wait for nothing at their start.
fn session(change: impl Fn(&mut SessionSettings)) -> Session {
    let mut settings = SessionSettings::live();
    (settings.audio.start, settings.video.start) = (0, 0);
    settings.formats = answered_formats();
    settings.no_media.push(EVENTS);
    change(&mut settings);
    Session::new(settings).expect("settings that can be met")
}

/// The events of a poll, each as a line.
fn told(session: &mut Session, now: u64) -> Vec<String> {
    let mut lines = Vec::new();
    while let Some(event) = session.poll(Ticks(now)) {
        lines.push(match event {
            Event::Begun { ssrc, payload_type } => format!("begun {ssrc} {payload_type}"),
            Event::Unit { ssrc, unit, .. } => {
                let unit = unit.expect("there is memory");
                format!("unit {ssrc} {:?}", unit.bytes)
            }
            Event::Refused { ssrc, fault, .. } => format!("fault {ssrc} {fault}"),
            Event::Feedback { ssrc, .. } => format!("feedback {ssrc}"),
            Event::Telephone { ssrc, .. } => format!("telephone {ssrc}"),
            Event::Report { .. } => "report".to_string(),
            Event::Ended { ssrc, why, .. } => format!("ended {ssrc} {why:?}"),
            _ => unreachable!("this version has no other"),
        });
    }
    lines
}

/// Every datagram is counted once.
fn assert_sum(session: &Session) {
    let c = session.counts();
    let mut sum = c.rtcp + c.malformed + c.unknown + c.refused + c.unassociated + c.ended;
    for place in 0..session.stream_count() {
        let stream = session.stream_at(place).unwrap();
        assert_eq!(stream.taken, stream.counters.received);
        sum += stream.taken;
    }
    assert_eq!(c.received, sum);
}

#[test]
fn two_packets_announce_a_stream() -> Result<(), Fail> {
    let mut session = session(|_| {});
    session.receive(Ticks(0), &opus(5, 10))?;
    assert_eq!(told(&mut session, 0), [""; 0]);
    assert_eq!(session.stream_at(0).unwrap().stage, Stage::Probation);
    session.receive(Ticks(20), &opus(5, 11))?;
    assert_eq!(
        told(&mut session, 20),
        ["begun 5 111", "unit 5 [10, 7]", "unit 5 [11, 7]"]
    );
    assert_sum(&session);
    Ok(())
}

#[test]
fn streams_are_apart_by_ssrc_and_format() -> Result<(), Fail> {
    let mut session = session(|s| s.probation = 1);
    session.receive(Ticks(0), &opus(5, 10))?;
    session.receive(Ticks(0), &opus(6, 10))?;
    session.receive(Ticks(0), &packet(VP8, 5, 900, 0, &[0x10, 1, 2]))?;
    assert_eq!(session.stream_count(), 3);
    assert_eq!(
        told(&mut session, 0),
        [
            "begun 5 111",
            "unit 5 [10, 7]",
            "begun 6 111",
            "unit 6 [10, 7]",
            "begun 5 96",
            "unit 5 [1, 2]"
        ]
    );
    Ok(())
}

#[test]
fn datagrams_of_no_stream_are_counted() -> Result<(), Fail> {
    let mut session = session(|_| {});
    assert_eq!(session.receive(Ticks(0), &[])?, Arrival::Malformed);
    assert_eq!(session.receive(Ticks(0), &[0x16; 40])?, Arrival::Malformed);
    assert_eq!(
        session.receive(Ticks(0), &packet(100, 5, 1, 1, &[1]))?,
        Arrival::Unknown
    );
    assert_eq!(
        session.receive(Ticks(0), &packet(EVENTS, 5, 1, 1, &[1]))?,
        Arrival::Unknown
    );
    assert_eq!(
        session.receive(Ticks(0), &packet(RTX, 5, 1, 1, &[0, 1, 1]))?,
        Arrival::Unassociated
    );
    assert_eq!(session.receive(Ticks(0), &bye(5))?, Arrival::Rtcp);
    // The length of this BYE counts bytes, not words.
    let mut wrong = bye(5);
    wrong[3] = 4;
    assert_eq!(session.receive(Ticks(0), &wrong)?, Arrival::Malformed);
    assert_eq!(session.stream_count(), 0);
    assert_eq!(session.counts().received, 7);
    assert_sum(&session);
    Ok(())
}

#[test]
fn a_stray_gives_way_and_an_announced_stream_does_not() -> Result<(), Fail> {
    let mut session = session(|s| s.max_streams = 4);
    for stray in 0..100 {
        session.receive(Ticks(0), &opus(1_000 + stray, 1))?;
    }
    assert_eq!(session.stream_count(), 4);
    for number in 1..=2 {
        session.receive(Ticks(0), &opus(5, number))?;
    }
    assert_eq!(told(&mut session, 0).len(), 3);
    for stray in 0..100 {
        session.receive(Ticks(0), &opus(2_000 + stray, 1))?;
    }
    assert!((0..4).any(|place| session.stream_at(place).unwrap().ssrc == 5));
    assert_eq!(session.counts().ended, 197);
    assert_sum(&session);
    Ok(())
}

#[test]
fn no_place_for_a_stream() -> Result<(), Fail> {
    let mut session = session(|s| (s.max_streams, s.probation) = (1, 1));
    session.receive(Ticks(0), &opus(5, 1))?;
    assert_eq!(session.receive(Ticks(0), &opus(6, 1))?, Arrival::Refused);
    assert_eq!(session.counts().refused, 1);
    assert_sum(&session);
    Ok(())
}

#[test]
fn bye_waits_for_what_is_on_its_way() -> Result<(), Fail> {
    let mut session = session(|_| {});
    for number in [1, 2, 4] {
        session.receive(Ticks(0), &opus(5, number))?;
    }
    session.receive(Ticks(10), &bye(5))?;
    assert_eq!(told(&mut session, 10).len(), 3);
    // Number 3 comes late, and number 4 waits for it.
    session.receive(Ticks(60), &opus(5, 3))?;
    assert_eq!(told(&mut session, 60), ["unit 5 [3, 7]", "unit 5 [4, 7]"]);
    assert_eq!(session.next_deadline(), Some(Ticks(210)));
    assert_eq!(told(&mut session, 209), [""; 0]);
    assert_eq!(told(&mut session, 210), ["ended 5 Bye"]);
    assert_eq!(session.stream_count(), 0);
    assert_sum(&session);
    Ok(())
}

#[test]
fn a_bye_with_a_fault_behind_it_ends_nothing() -> Result<(), Fail> {
    let mut session = session(|s| s.probation = 1);
    session.receive(Ticks(0), &opus(5, 1))?;
    let mut compound = bye(5);
    compound.extend([0x81, 203, 0, 9]);
    assert_eq!(session.receive(Ticks(0), &compound)?, Arrival::Malformed);
    assert_eq!(session.stream_at(0).unwrap().stage, Stage::Playing);
    Ok(())
}

#[test]
fn silence_ends_a_stream() -> Result<(), Fail> {
    let mut session = session(|s| (s.idle_timeout, s.probation) = (1_000, 1));
    session.receive(Ticks(5), &opus(5, 1))?;
    told(&mut session, 5);
    assert_eq!(session.next_deadline(), Some(Ticks(1_005)));
    assert_eq!(told(&mut session, 1_004), [""; 0]);
    assert_eq!(told(&mut session, 1_005), ["ended 5 Timeout"]);
    Ok(())
}

#[test]
fn finish_gives_all() -> Result<(), Fail> {
    let mut session = session(|_| {});
    session.receive(Ticks(0), &opus(5, 1))?;
    session.receive(Ticks(0), &opus(6, 1))?;
    session.receive(Ticks(0), &opus(6, 3))?;
    session.finish(Ticks(0));
    assert_eq!(session.receive(Ticks(0), &opus(7, 1))?, Arrival::Refused);
    assert_eq!(
        told(&mut session, 0),
        [
            "begun 5 111",
            "unit 5 [1, 7]",
            "ended 5 ByCall",
            "begun 6 111",
            "unit 6 [1, 7]",
            "unit 6 [3, 7]",
            "ended 6 ByCall"
        ]
    );
    assert_eq!((session.stream_count(), session.next_deadline()), (0, None));
    assert_eq!(session.counts().ended, 3);
    Ok(())
}

#[test]
fn the_caller_ends_one_ssrc() -> Result<(), Fail> {
    let mut session = session(|s| s.probation = 1);
    session.receive(Ticks(0), &opus(5, 1))?;
    session.receive(Ticks(0), &opus(6, 1))?;
    session.end(Ticks(0), 5);
    assert_eq!(
        told(&mut session, 0),
        [
            "begun 5 111",
            "unit 5 [1, 7]",
            "ended 5 ByCall",
            "begun 6 111",
            "unit 6 [1, 7]"
        ]
    );
    Ok(())
}

#[test]
fn retransmissions_of_a_pair_and_packets_without_media() -> Result<(), Fail> {
    let mut session = session(|s| {
        s.pairs.push(SsrcPair {
            ssrc: 5,
            retransmission: 50,
        })
    });
    for number in [1, 2, 4] {
        let payload = [0x10, number as u8];
        session.receive(
            Ticks(0),
            &packet(VP8, 5, number, 3_000 * u32::from(number), &payload),
        )?;
    }
    assert_eq!(told(&mut session, 0).len(), 3);
    let again = packet(RTX, 50, 1, 9_000, &[0, 3, 0x10, 3]);
    let arrival = session.receive(Ticks(30), &again)?;
    assert!(matches!(
        arrival,
        Arrival::Stream {
            ssrc: 5,
            payload_type: VP8,
            ..
        }
    ));
    assert_eq!(told(&mut session, 30), ["unit 5 [3]", "unit 5 [4]"]);
    session.receive(Ticks(40), &packet(EVENTS, 5, 5, 15_000, &[1]))?;
    session.receive(Ticks(40), &packet(VP8, 5, 6, 18_000, &[0x10, 6]))?;
    assert_eq!(told(&mut session, 40), ["unit 5 [6]"]);
    assert_sum(&session);
    Ok(())
}

#[test]
fn red_begins_a_stream_of_its_format() -> Result<(), Fail> {
    let mut session = session(|s| s.probation = 1);
    // RFC 2198, section 3: one block of 960 ticks before and of 2 bytes, and the primary block.
    let payload = [0x80 | OPUS, 0x0f, 0x00, 0x02, OPUS, 9, 7, 10, 7];
    session.receive(Ticks(0), &packet(RED, 5, 10, 9_600, &payload))?;
    let lines = told(&mut session, 0);
    assert_eq!(lines[0], "begun 5 111");
    assert_eq!(lines.last().unwrap(), "unit 5 [10, 7]");
    Ok(())
}

/// The settings that a session gives to the receiver of VP8 under SSRC 5.
fn alone() -> Result<Receiver, Fail> {
    let mut settings = ReceiverSettings::live_video(VP8, Frequency::NINETY_KHZ);
    settings.wait_limits = SessionSettings::live().video;
    settings.wait_limits.start = 0;
    settings.no_media.push(EVENTS);
    settings.ssrc = Some(5);
    settings.retransmission = Some(Retransmission {
        ssrc: 50,
        payload_type: RTX,
    });
    let depacketizer = CodecDepacketizer::from_codec(Codec::Vp8).ok_or("VP8 is supported")?;
    Ok(Receiver::new(depacketizer, settings)?)
}

fn units_of(receiver: &mut Receiver, now: u64) -> Vec<String> {
    let mut lines = Vec::new();
    while let Some(unit) = receiver.pop(Ticks(now)) {
        let unit = unit.expect("there is memory").unit().expect("it is valid");
        lines.push(format!("unit 5 {:?}", unit.bytes));
    }
    lines
}

#[test]
fn a_stream_is_a_receiver_of_its_datagrams() -> Result<(), Fail> {
    for seed in 0..20 {
        let mut dice = Dice(seed);
        let mut session = session(|s| {
            s.probation = 1;
            s.max_streams = 3;
            s.pairs.push(SsrcPair {
                ssrc: 5,
                retransmission: 50,
            });
        });
        let mut receiver = alone()?;
        let packetizer = CodecPacketizer::from_codec(Codec::Vp8).ok_or("VP8 is supported")?;
        let settings = SenderSettings::for_stream(VP8, 5, Frequency::NINETY_KHZ);
        let mut sender: Sender = Sender::new(packetizer, settings)?;
        let mut units = Vec::new();
        let mut expected = Vec::new();
        for frame in 0..200u64 {
            let now = frame * 33;
            let bytes = vec![frame as u8; 10 + dice.below(3_000) as usize];
            sender.send(&Sample {
                rtp_time: MediaTime::from_90khz(frame * 3_000),
                bytes: &bytes,
                start_of_talk_spurt: false,
                ext_vals: ExtensionValues::default(),
            })?;
            for datagram in sender.datagrams() {
                if frame > 0 && dice.below(10) == 0 {
                    continue;
                }
                session.receive(Ticks(now), datagram)?;
                receiver.receive(Ticks(now), datagram)?;
                // Others do not disturb it.
                session.receive(
                    Ticks(now),
                    &opus(7 + dice.below(3), dice.below(65_536) as u16),
                )?;
            }
            let lines = told(&mut session, now);
            units.extend(lines.into_iter().filter(|line| line.starts_with("unit 5 ")));
            expected.extend(units_of(&mut receiver, now));
            assert_sum(&session);
        }
        assert!(units.len() > 100);
        assert_eq!(units, expected);
    }
    Ok(())
}

#[test]
fn hostile_datagrams_are_counted() -> Result<(), Fail> {
    let mut dice = Dice(1);
    let mut session = session(|s| (s.max_streams, s.limit) = (8, 20));
    for now in 0..100_000u64 {
        let kinds = [VP8, RTX, OPUS, RED, EVENTS, 100, 72, 73, 75];
        let payload_type = kinds[dice.below(9) as usize];
        let (ssrc, number) = (dice.below(12), dice.below(65_536) as u16);
        let mut bytes = packet(payload_type, ssrc, number, dice.below(100_000), &[]);
        for _ in 0..dice.below(20) {
            bytes.push(dice.below(256) as u8);
        }
        if dice.below(20) == 0 {
            bytes = bye(ssrc);
        }
        bytes.truncate(bytes.len() - dice.below(4) as usize);
        session.receive(Ticks(now), &bytes)?;
        if dice.below(50) == 0 {
            told(&mut session, now);
        }
        assert!(session.stream_count() <= 8);
        if now % 100 == 0 {
            assert_sum(&session);
        }
    }
    session.finish(Ticks(100_000));
    told(&mut session, 100_000);
    assert_eq!(session.stream_count(), 0);
    assert_sum(&session);
    Ok(())
}

/// Packet 3 is lost, and packet 6 is a keyframe again: the last byte of each unit, whether a decoder can show the unit, and whether it
/// is a keyframe.
#[test]
fn units_say_whether_a_decoder_can_show_them() -> Result<(), Fail> {
    let mut session = session(|_| {});
    for number in [1, 2, 4, 5, 6, 7] {
        session.receive(Ticks(0), &vp8(7, number, number == 1 || number == 6))?;
    }
    let mut units = Vec::new();
    while let Some(event) = session.poll(Ticks(1_000)) {
        if let Event::Unit {
            decodable,
            keyframe,
            unit,
            ..
        } = event
        {
            units.push((unit?.bytes.last().copied(), decodable, keyframe));
        }
    }
    assert_eq!(
        units,
        [
            (Some(1), true, true),
            (Some(2), true, false),
            (Some(4), false, false),
            (Some(5), false, false),
            (Some(6), true, true),
            (Some(7), true, false)
        ]
    );
    Ok(())
}

/// A payload that a receiver refuses is an arrival with the fault, and the stream continues: RED whose last block has no header
/// (RFC 2198, section 3), and a retransmission without its original number (RFC 4588, section 4).
#[test]
fn refused_payloads_are_faulty() -> Result<(), Fail> {
    let mut session = session(|s| {
        s.probation = 1;
        s.pairs.push(SsrcPair {
            ssrc: 6,
            retransmission: 60,
        });
    });
    session.receive(Ticks(0), &opus(5, 10))?;
    session.receive(Ticks(0), &vp8(6, 20, true))?;
    let red = Arrival::Faulty {
        ssrc: 5,
        payload_type: OPUS,
        fault: ReceiveError::Red,
    };
    let retransmission = Arrival::Faulty {
        ssrc: 6,
        payload_type: VP8,
        fault: ReceiveError::Retransmission,
    };
    let truncated = packet(RED, 5, 11, 960, &[0x80 | OPUS, 0, 0]);
    assert_eq!(session.receive(Ticks(20), &truncated)?, red);
    let short = packet(RTX, 60, 1, 0, &[0]);
    assert_eq!(session.receive(Ticks(20), &short)?, retransmission);
    let counted = |place| {
        let stream = session.stream_at(place).expect("a stream");
        (stream.taken, stream.counters.malformed)
    };
    assert_eq!((counted(0), counted(1)), ((2, 1), (2, 1)));
    let held = Arrival::Stream {
        ssrc: 5,
        payload_type: OPUS,
        outcome: Outcome::Held,
    };
    assert_eq!(session.receive(Ticks(40), &opus(5, 11))?, held);
    assert_sum(&session);
    Ok(())
}
