//! The feedback for congestion control that a session sends by itself: about which datagrams, when, and as which packet.

use crate::Fail;
use crate::datagrams::*;
use codec_payload::congestion::{TransportFeedback, read_transport_feedback};
use codec_payload::feedback::TransportSettings;
use codec_payload::rtcp::{CompoundRule, RtcpPacket, read_compound};
use codec_payload::*;

const OWN: u32 = 0x0a0b_0c0d;
const ID: u8 = 5;

/// A session that reports the arrivals of its transport, and what `change` does to its settings.
fn session(change: impl FnOnce(&mut SessionSettings, &mut FeedbackSettings)) -> Session {
    let mut settings = SessionSettings::live();
    settings.formats = vec![answered_vp8(), opus_format()];
    settings.transport = Some(TransportSettings::live(ID));
    let mut feedback = FeedbackSettings::live(OWN, b"me@host".to_vec());
    feedback.report_interval = None;
    change(&mut settings, &mut feedback);
    settings.feedback = Some(feedback);
    Session::new(settings).expect("settings that can be met")
}

/// An RTP packet with this transport-wide number under ID, in the one-byte form (RFC 8285, section 4.2).
fn numbered(number: u16, datagram: &[u8]) -> Vec<u8> {
    let [high, low] = number.to_be_bytes();
    let extension = [0xbe, 0xde, 0, 1, ID << 4 | 1, high, low, 0];
    let mut bytes = [&datagram[..12], &extension, &datagram[12..]].concat();
    bytes[0] |= 0x10;
    bytes
}

/// The feedback of one packet, and the SSRC that it is about. `names`: how many packets are in front of it.
fn read(packet: &[u8], names: usize) -> Result<(u32, TransportFeedback), Fail> {
    let rule = match names {
        0 => CompoundRule::ReducedSize,
        _ => CompoundRule::Full,
    };
    let packets: Vec<_> = read_compound(rule, packet)?.collect();
    assert_eq!(packets.len(), names + 1);
    let Some(RtcpPacket::Other(other)) = packets.last() else {
        return Err("the feedback comes last".into());
    };
    assert_eq!((other.packet_type, other.count), (205, 15));
    assert_eq!(other.body[..4], OWN.to_be_bytes());
    let media = u32::from_be_bytes(other.body[4..8].try_into()?);
    Ok((media, read_transport_feedback(&other.body[8..])?))
}

/// The feedback of the polls at a time.
fn feedback(session: &mut Session, now: u64) -> Result<Vec<(u32, TransportFeedback)>, Fail> {
    let mut all = Vec::new();
    while let Some(event) = session.poll(Ticks(now)) {
        if let Event::TransportFeedback { packet } = event {
            all.push(read(&packet?, 0)?);
        }
    }
    Ok(all)
}

/// The first number of a feedback, and the time of each number, or none.
type Statuses = (u16, Vec<Option<u32>>);

/// The first number and the statuses of each feedback at a time.
fn statuses(session: &mut Session, now: u64) -> Result<Vec<Statuses>, Fail> {
    let all = feedback(session, now)?.into_iter();
    Ok(all.map(|(_, it)| (it.base, it.statuses)).collect())
}

/// Quarters of a millisecond.
fn at(milliseconds: u32) -> Option<u32> {
    Some(4 * milliseconds)
}

/// The first feedback is due at once, each later one 100 ms after the one before, if something arrived.
#[test]
fn feedback_each_interval() -> Result<(), Fail> {
    let mut session = session(|_, _| {});
    assert_eq!(session.next_deadline(), None);
    session.receive(Ticks(1_000), &numbered(65_535, &opus(9, 1)))?;
    assert_eq!(session.next_deadline(), Some(Ticks(0)));
    let all = feedback(&mut session, 1_000)?;
    let [(media, first)] = &all[..] else {
        return Err("there is one".into());
    };
    assert_eq!((*media, first.base, first.counter), (9, 65_535, 0));
    assert_eq!(first.statuses, [at(1_000)]);
    assert_eq!(statuses(&mut session, 1_050)?, []);
    session.receive(Ticks(1_060), &numbered(1, &opus(9, 2)))?;
    session.receive(Ticks(1_070), &numbered(2, &opus(9, 3)))?;
    assert_eq!(statuses(&mut session, 1_099)?, []);
    assert_eq!(session.next_deadline(), Some(Ticks(1_100)));
    // Number 0 is missing.
    let second = (0, vec![None, at(1_060), at(1_070)]);
    assert_eq!(statuses(&mut session, 1_100)?, [second]);
    assert_eq!(statuses(&mut session, 2_000)?, []);
    Ok(())
}

/// The time of arrival may be finer than the ticks: 1,500.75 ms are 6,003 quarters.
#[test]
fn times_finer_than_ticks() -> Result<(), Fail> {
    let mut session = session(|_, _| {});
    session.receive_at(Ticks(1), 1_500_999, &numbered(1, &opus(9, 1)))?;
    assert_eq!(statuses(&mut session, 1)?, [(1, vec![Some(6_003)])]);
    Ok(())
}

/// A packet that comes after it was reported as missing is reported, and all after it again, as libwebrtc does.
#[test]
fn a_late_packet_is_reported() -> Result<(), Fail> {
    let mut session = session(|_, _| {});
    session.receive(Ticks(10), &numbered(6, &opus(9, 1)))?;
    session.receive(Ticks(11), &numbered(8, &opus(9, 3)))?;
    assert_eq!(
        statuses(&mut session, 20)?,
        [(6, vec![at(10), None, at(11)])]
    );
    session.receive(Ticks(30), &numbered(7, &opus(9, 2)))?;
    // A repetition: its first time counts, and it is not reported again.
    session.receive(Ticks(31), &numbered(6, &opus(9, 1)))?;
    assert_eq!(statuses(&mut session, 120)?, [(7, vec![at(30), at(11)])]);
    assert_eq!(session.next_deadline(), session_deadline(&session));
    Ok(())
}

/// When a stream has an event: the feedback is not among the causes.
fn session_deadline(session: &Session) -> Option<Ticks> {
    session
        .next_deadline()
        .filter(|deadline| deadline.0 >= 30_000)
}

/// The network carried each of them, so each counts, whatever the session does with it.
#[test]
fn each_rtp_packet_counts() -> Result<(), Fail> {
    let mut session = session(|_, _| {});
    let resent = packet(RTX, 77, 1, 3_000, &[0, 1, 0x10, 0x10, 0, 0]);
    let mut padding = packet(OPUS, 9, 4, 3_840, &[0, 0, 0, 4]);
    padding[0] |= 0x20;
    let datagrams = [
        opus(9, 1),
        vp8(8, 1, true),
        resent,
        packet(100, 9, 2, 1_920, &[1]), // a payload type that nobody knows
        padding,
        opus(9, 1), // a duplicate under a number of its own
    ];
    for (number, datagram) in (40..).zip(&datagrams) {
        session.receive(Ticks(u64::from(number)), &numbered(number, datagram))?;
    }
    // Without a number: a packet without the extension, one with another element, RTCP, and what is none of these.
    session.receive(Ticks(50), &opus(9, 5))?;
    let mut other = numbered(90, &opus(9, 6));
    other[16] = (ID + 1) << 4 | 1;
    session.receive(Ticks(50), &other)?;
    session.receive(Ticks(50), &bye(9))?;
    session.receive(Ticks(50), &[1, 2, 3])?;
    let times = (40..46).map(at).collect();
    assert_eq!(statuses(&mut session, 60)?, [(40, times)]);
    Ok(())
}

/// A sender report of 17 blocks reads as RTP with an extension (RFC 5761, section 4); it has no number.
#[test]
fn rtcp_has_no_number() -> Result<(), Fail> {
    let mut report = vec![0; 28 + 17 * 24];
    (report[0], report[1]) = (0x80 | 17, 200);
    let words = (report.len() / 4 - 1) as u16;
    report[2..4].copy_from_slice(&words.to_be_bytes());
    // CSRC count 1: the extension would begin behind 16 bytes.
    report[16..24].copy_from_slice(&[0xbe, 0xde, 0, 1, ID << 4 | 1, 0, 7, 0]);
    assert!(codec_payload::rtp::RtpPacket::parse(&report).is_ok());
    let mut session = session(|_, _| {});
    assert_eq!(session.receive(Ticks(1), &report)?, Arrival::Rtcp);
    assert_eq!(statuses(&mut session, 1)?, []);
    assert_eq!(session.next_deadline(), None);
    Ok(())
}

/// With reports the packet is a compound packet (RFC 3550, section 6.1).
#[test]
fn feedback_in_a_compound_packet() -> Result<(), Fail> {
    let mut session = session(|_, feedback| feedback.has_report = true);
    session.receive(Ticks(3), &numbered(1, &opus(9, 1)))?;
    let Some(Event::TransportFeedback { packet }) = session.poll(Ticks(3)) else {
        return Err("feedback is due".into());
    };
    let packet = packet?;
    let (media, feedback) = read(&packet, 2)?;
    assert_eq!((media, feedback.statuses), (9, vec![at(3)]));
    assert!(packet.windows(7).any(|bytes| bytes == b"me@host"));
    Ok(())
}

/// Control information of 24 bytes has few numbers, so there are several packets; all are due at once (docs/use/FEEDBACK.md).
#[test]
fn much_is_split() -> Result<(), Fail> {
    let mut session = session(|settings, _| {
        if let Some(transport) = &mut settings.transport {
            transport.size = 24;
        }
    });
    for number in 0..40 {
        session.receive(Ticks(5), &numbered(number, &opus(9, number)))?;
    }
    let all = feedback(&mut session, 5)?;
    assert!(all.len() > 1);
    let counters: Vec<u8> = all.iter().map(|(_, it)| it.counter).collect();
    assert_eq!(counters, (0..all.len() as u8).collect::<Vec<_>>());
    let statuses: Vec<_> = all.into_iter().flat_map(|(_, it)| it.statuses).collect();
    assert_eq!(statuses, vec![at(5); 40]);
    Ok(())
}

/// The events of streams and reports come first.
#[test]
fn other_events_come_first() -> Result<(), Fail> {
    let mut session = session(|settings, _| {
        (settings.probation, settings.audio.start) = (1, 0);
    });
    session.receive(Ticks(5), &numbered(1, &opus(9, 1)))?;
    let mut kinds = Vec::new();
    while let Some(event) = session.poll(Ticks(5)) {
        kinds.push(match event {
            Event::Begun { .. } => "begun",
            Event::Unit { .. } => "unit",
            Event::TransportFeedback { .. } => "feedback",
            _ => "other",
        });
    }
    assert_eq!(kinds, ["begun", "unit", "feedback"]);
    Ok(())
}

/// Numbers behind the window are ignored until the log begins again by a call.
#[test]
fn a_transport_begins_anew() -> Result<(), Fail> {
    let mut session = session(|_, _| {});
    session.receive(Ticks(1), &numbered(30_000, &opus(9, 1)))?;
    assert_eq!(statuses(&mut session, 1)?.len(), 1);
    session.receive(Ticks(200), &numbered(2, &opus(9, 2)))?;
    assert_eq!(statuses(&mut session, 200)?, []);
    session.restart_transport();
    session.receive(Ticks(201), &numbered(3, &opus(9, 3)))?;
    assert_eq!(statuses(&mut session, 201)?, [(3, vec![at(201)])]);
    Ok(())
}

/// Without these settings, or without a sender of feedback, nothing is reported.
#[test]
fn no_feedback_without_settings() -> Result<(), Fail> {
    let without = session(|settings, _| settings.transport = None);
    let mut settings = SessionSettings::live();
    settings.formats = vec![opus_format()];
    settings.transport = Some(TransportSettings::live(ID));
    let alone = Session::new(settings)?;
    for mut session in [without, alone] {
        session.receive(Ticks(1), &numbered(1, &opus(9, 1)))?;
        assert_eq!(statuses(&mut session, 1)?, []);
        session.restart_transport();
    }
    Ok(())
}

#[test]
fn settings_of_a_transport_have_faults() {
    let fault = |id, window| {
        let mut settings = SessionSettings::live();
        settings.formats = vec![opus_format()];
        let live = TransportSettings::live(id);
        settings.transport = Some({
            let mut settings = live;
            settings.window = window;
            settings
        });
        settings.check().err()
    };
    assert_eq!(fault(1, 1), None);
    assert_eq!(fault(255, 32_768), None);
    assert_eq!(fault(0, 0), Some(SessionSettingsError::TransportId));
    assert_eq!(fault(1, 0), Some(SessionSettingsError::TransportWindow));
    assert_eq!(
        fault(1, 32_769),
        Some(SessionSettingsError::TransportWindow)
    );
}

/// The settings are those of the description: the id of `a=extmap`, if a format has `transport-cc`.
#[test]
fn descriptions_set_the_transport() -> Result<(), Fail> {
    const MAP: &str =
        "a=extmap:7 http://www.ietf.org/id/draft-holmer-rmcat-transport-wide-cc-extensions-01\r\n";
    const WANTS: &str = "a=rtcp-fb:96 transport-cc\r\n";
    let found = |lines: &str| -> Result<_, Fail> {
        let text =
            format!("v=0\r\nm=video 9 UDP/TLS/RTP/SAVPF 96\r\na=rtpmap:96 VP8/90000\r\n{lines}");
        Ok(sdp::session_settings(&sdp::read(&text)?)?.transport)
    };
    assert_eq!(
        found(&format!("{MAP}{WANTS}"))?,
        Some(TransportSettings::live(7))
    );
    assert_eq!(
        found(&format!("{MAP}a=rtcp-fb:* transport-cc\r\n"))?,
        Some(TransportSettings::live(7))
    );
    assert_eq!(found(MAP)?, None);
    assert_eq!(found(WANTS)?, None);
    Ok(())
}
