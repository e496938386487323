//! The settings of sessions. What each description gives was written by hand.

use crate::dump::{changed, reason};
use codec_payload::rtp::ExtensionIds;
use codec_payload::sdp::{self, MAX_PAIRS, SessionError};
use codec_payload::session::{
    Arrival, Event, Format, Session, SessionSettings, SsrcPair, StreamNameIds,
};
use codec_payload::{Codec, CodecSpec, Frequency, Ticks};
use std::fmt::Write;

const DESCRIPTOR: &str =
    "https://aomediacodec.github.io/av1-rtp-spec/#dependency-descriptor-rtp-header-extension";

type Fail = Box<dyn std::error::Error>;

fn settings(text: &str) -> Result<SessionSettings, SessionError> {
    sdp::session_settings(&sdp::read(text).expect("lines without a fault"))
}

/// A format as a line.
fn line(format: &Format) -> String {
    let rate = format.spec.clock_rate.get();
    let mut line = format!("{} {:?}/{rate}", format.payload_type, format.spec.codec);
    if let Some(red) = format.red {
        write!(line, " red {}/{}", red.payload_type, red.step).unwrap();
    }
    if let Some(rtx) = format.retransmission {
        write!(line, " rtx {rtx}").unwrap();
    }
    for (is_set, name) in [(format.nack, " nack"), (format.pli, " pli")] {
        line.push_str(if is_set { name } else { "" });
    }
    line
}

/// The settings that a description gives, as lines.
fn dump(text: &str) -> Vec<String> {
    let settings = settings(text).unwrap();
    let mut lines: Vec<String> = settings.formats.iter().map(line).collect();
    lines.push(format!("no media {:?}", settings.no_media));
    lines.push(format!("telephone events {:?}", settings.telephone_events));
    for pair in &settings.pairs {
        lines.push(format!("pair {} {}", pair.ssrc, pair.retransmission));
    }
    let (audio, video) = (settings.audio.max_wait, settings.video.max_wait);
    lines.push(format!("wait {} {}", audio.unwrap(), video.unwrap()));
    lines
}

#[test]
fn chromium() {
    let text = include_str!("../../../c/tests/sdp/chromium.sdp");
    let wanted = [
        "111 Opus/48000 red 63/960",
        "9 G722/8000",
        "0 PCMU/8000",
        "8 PCMA/8000",
        "96 Vp8/90000 rtx 97 nack pli",
        "45 Av1/90000 rtx 46 nack pli",
        "98 Vp9/90000 rtx 99 nack pli",
        "100 Vp9/90000 rtx 101 nack pli",
        "no media [13, 120]",
        "telephone events [110, 126]",
        "pair 27689401 1659217349",
        "wait 100 200",
    ];
    assert_eq!(dump(text), wanted);
    let ids = {
        let mut ids = ExtensionIds::default();
        ids.video_orientation = Some(13);
        ids.video_content_type = Some(6);
        ids.video_timing = Some(7);
        ids.audio_level = Some(1);
        ids
    };
    let settings = settings(text).unwrap();
    assert_eq!(settings.extension_ids, ids);
    let name_ids = {
        let mut ids = StreamNameIds::default();
        ids.mid = Some(4);
        ids.rid = Some(10);
        ids.repaired_rid = Some(11);
        ids
    };
    assert_eq!(settings.name_ids, name_ids);
    assert!(settings.feedback.is_none());
}

/// The descriptor has an id in each section that lists it; here in one of two.
#[test]
fn descriptors() {
    let text = include_str!("../../../c/tests/sdp/layers.sdp");
    assert_eq!(settings(text).unwrap().dependency_descriptor, Some(13));
    let text = format!("{AUDIO}{}", &text[text.find("m=video").unwrap()..]);
    assert_eq!(settings(&text).unwrap().dependency_descriptor, Some(13));
    assert_eq!(settings(AUDIO).unwrap().dependency_descriptor, None);
    let media = sdp::read(&text).unwrap();
    for (section, wanted) in media.iter().zip([(0, None), (98, Some(13))]) {
        let receiver = section.receiver_settings(wanted.0).unwrap().unwrap();
        assert_eq!(receiver.dependency_descriptor, wanted.1);
    }
}

#[test]
fn firefox() {
    let wanted = [
        "109 Opus/48000",
        "9 G722/8000",
        "0 PCMU/8000",
        "8 PCMA/8000",
        "120 Vp8/90000 rtx 124 nack pli",
        "121 Vp9/90000 rtx 125 nack pli",
        "99 Av1/90000 rtx 100 nack pli",
        "no media [123]",
        "telephone events [101]",
        "pair 3310425182 44369015",
        "wait 100 200",
    ];
    assert_eq!(
        dump(include_str!("../../../c/tests/sdp/firefox.sdp")),
        wanted
    );
}

#[test]
fn gstreamer() {
    let wanted = [
        "96 Vp8/90000 rtx 100 nack pli",
        "97 Opus/48000 red 102/960 rtx 104 nack",
        "no media [99, 103]",
        "telephone events []",
        "pair 1111 3396958610",
        "pair 2222 178515863",
        "wait 200 200",
    ];
    assert_eq!(
        dump(include_str!("../../../c/tests/sdp/gstreamer.sdp")),
        wanted
    );
}

#[test]
fn pion() {
    let wanted = [
        "111 Opus/48000",
        "9 G722/8000",
        "0 PCMU/8000",
        "8 PCMA/8000",
        "96 Vp8/90000 rtx 97 nack pli",
        "98 Vp9/90000 rtx 99 nack pli",
        "100 Vp9/90000 rtx 101 nack pli",
        "no media [116]",
        "telephone events []",
        "wait 100 200",
    ];
    assert_eq!(dump(include_str!("../../../c/tests/sdp/pion.sdp")), wanted);
}

fn packet(payload_type: u8, ssrc: u32, number: u8, payload: &[u8]) -> Vec<u8> {
    let mut bytes = vec![0x80, payload_type, 0, number, 0, 0, number, 0];
    bytes.extend(ssrc.to_be_bytes());
    bytes.extend(payload);
    bytes
}

/// The payload type of the stream that takes a packet.
fn stream(session: &mut Session, datagram: &[u8]) -> Result<Option<(u32, u8)>, Fail> {
    match session.receive(Ticks(0), datagram)? {
        Arrival::Stream {
            ssrc, payload_type, ..
        } => Ok(Some((ssrc, payload_type))),
        Arrival::Faulty { fault, .. } => Err(fault.into()),
        _ => Ok(None),
    }
}

/// Packets as Chromium sends them: VP8, its retransmission, and Opus in RED (RFC 2198: 0x6f is the header of the primary block).
#[test]
fn a_session_of_chromium() -> Result<(), Fail> {
    let text = include_str!("../../../c/tests/sdp/chromium.sdp");
    let (video, again, audio) = (27_689_401, 1_659_217_349, 3_859_731_468);
    let mut session = Session::new(settings(text)?).expect("settings that can be met");
    let vp8 = packet(96, video, 1, &[0x10, 1]);
    assert_eq!(stream(&mut session, &vp8)?, Some((video, 96)));
    let retransmission = packet(97, again, 9, &[0, 2, 0x10, 1]);
    assert_eq!(stream(&mut session, &retransmission)?, Some((video, 96)));
    let red = packet(63, audio, 1, &[0x6f, 1, 2]);
    assert_eq!(stream(&mut session, &red)?, Some((audio, 111)));
    let events = packet(110, audio, 2, &[1, 0, 0, 1]);
    assert_eq!(stream(&mut session, &events)?, Some((audio, 111)));
    let Some(Event::Telephone { ssrc, payload, .. }) = session.poll(Ticks(0)) else {
        return Err("telephone events come out".into());
    };
    assert_eq!((ssrc, payload), (audio, vec![1, 0, 0, 1]));
    assert_eq!(stream(&mut session, &packet(102, 1, 1, &[1]))?, None);
    assert_eq!(session.counts().unknown, 1);
    Ok(())
}

const AUDIO: &str = "m=audio 9 RTP/AVP 0\n";

#[test]
fn faults_by_name() {
    let video = |types: &str, lines: &str| format!("{AUDIO}m=video 9 RTP/AVP {types}\n{lines}");
    let orientation = "urn:3gpp:video-orientation";
    let level = "urn:ietf:params:rtp-hdrext:ssrc-audio-level";
    let extensions = |one: &str, other: &str| {
        format!(
            "{AUDIO}a=extmap:{one}\nm=video 9 RTP/AVP 96\na=rtpmap:96 VP8/90000\na=extmap:{other}\n"
        )
    };
    for (text, fault) in [
        (String::new(), SessionError::NoMedia),
        (
            "m=application 9 UDP/DTLS/SCTP webrtc-datachannel\n".into(),
            SessionError::NoMedia,
        ),
        (
            "m=video 9 RTP/AVP 102\na=rtpmap:102 H264/90000\n".into(),
            SessionError::NoMedia,
        ),
        (
            video("0", "a=rtpmap:0 VP8/90000\n"),
            SessionError::PayloadType(0),
        ),
        (
            video("0", "a=rtpmap:0 rtx/90000\na=fmtp:0 apt=96\n"),
            SessionError::PayloadType(0),
        ),
        (
            extensions(&format!("3 {level}"), &format!("4 {level}")),
            SessionError::ExtensionId(4),
        ),
        (
            extensions(&format!("3 {level}"), &format!("3 {orientation}")),
            SessionError::ExtensionId(3),
        ),
        (
            extensions(
                "5 urn:ietf:params:rtp-hdrext:sdes:mid",
                &format!("5 {orientation}"),
            ),
            SessionError::ExtensionId(5),
        ),
        (
            extensions(&format!("6 {DESCRIPTOR}"), &format!("7 {DESCRIPTOR}")),
            SessionError::ExtensionId(7),
        ),
    ] {
        assert_eq!(settings(&text).unwrap_err(), fault, "{text}");
    }
    let mut media = sdp::read(AUDIO).unwrap();
    media[0].formats[0].payload_type = 128;
    let fault = sdp::session_settings(&media).unwrap_err();
    assert_eq!(fault, SessionError::PayloadType(128));
    assert_eq!(
        fault.to_string(),
        "payload type 128 is 64 to 95, exceeds 127 or has two uses"
    );
}

/// The table that the reader in C is compared with too.
#[test]
fn clashes() {
    let mut rows = 0;
    for row in include_str!("../../../c/tests/sdp/clashes.txt").lines() {
        if row.is_empty() || row.starts_with('#') {
            continue;
        }
        let mut parts = row.splitn(3, '|');
        let mut part = || parts.next().expect("VALUE|ERROR|DESCRIPTION");
        let (value, error, text) = (part(), part(), part().replace("\\n", "\n"));
        match settings(&text) {
            Ok(_) => assert_eq!(("0", "no error"), (value, error), "{row}"),
            Err(fault) => assert_eq!(format!("{error} ({value})"), reason(fault), "{row}"),
        }
        rows += 1;
    }
    assert!(rows > 15);
}

/// Two sections with one payload type: a sender is asked only for what both sections agree on. The first RTX counts.
#[test]
fn sections_are_joined() {
    let section = |lines: &str| {
        format!(
            "m=video 9 RTP/AVP 96 97\na=rtpmap:96 VP8/90000\na=rtpmap:97 rtx/90000\na=fmtp:97 apt=96\n{lines}"
        )
    };
    let one = section("a=rtcp-fb:96 nack\na=rtcp-fb:96 nack pli\na=ssrc-group:FID 1 2\n");
    let two = section("a=rtcp-fb:96 nack\na=ssrc-group:FID 3 4\n");
    let wanted = [
        "96 Vp8/90000 rtx 97 nack",
        "no media []",
        "telephone events []",
        "pair 1 2",
        "pair 3 4",
        "wait 100 200",
    ];
    assert_eq!(dump(&format!("{one}{two}")), wanted);
}

/// RED that names no payload type is over the first format of its section, and RED that names one is over that one.
#[test]
fn red_over_a_format() {
    let audio = |fmtp: &str| {
        format!(
            "m=audio 9 RTP/AVP 0 111 63\na=rtpmap:111 opus/48000/2\na=rtpmap:63 red/48000/2\na=ptime:60\n{fmtp}"
        )
    };
    let lines = |text: &str| dump(text)[..2].to_vec();
    assert_eq!(
        lines(&audio("")),
        ["0 PCMU/8000 red 63/480", "111 Opus/48000"]
    );
    assert_eq!(
        lines(&audio("a=fmtp:63 111/111\n")),
        ["0 PCMU/8000", "111 Opus/48000 red 63/2880"]
    );
    let text = audio("a=fmtp:63 111/111\n");
    let media = sdp::read(&text).unwrap();
    assert_eq!(media[0].session_format(63), None);
    assert_eq!(media[0].session_format(7), None);
    let spec = CodecSpec {
        codec: Codec::PCMU,
        clock_rate: Frequency::make(8_000).unwrap(),
        octet_align: false,
    };
    assert_eq!(media[0].session_format(0), Some(Format::new(0, spec)));
}

/// Whatever is read gives settings or a fault by name.
#[test]
fn changed_descriptions() {
    let mut made = 0;
    for given in [
        include_str!("../../../c/tests/sdp/chromium.sdp"),
        include_str!("../../../c/tests/sdp/rfcs.sdp"),
    ] {
        for seed in 0..300 {
            let text = changed(given, seed);
            let Ok(media) = sdp::read(&text) else {
                continue;
            };
            if let Ok(settings) = sdp::session_settings(&media) {
                assert!(!settings.formats.is_empty());
                assert_eq!(settings.check(), Ok(()), "{text}");
                made += 1;
            }
        }
    }
    assert!(made > 50, "{made}");
}

#[test]
fn bounds_of_pairs() {
    let groups = |from: usize, count: usize| -> String {
        let groups =
            (from..from + count).map(|at| format!("a=ssrc-group:FID {} {}\n", 2 * at, 2 * at + 1));
        groups.collect()
    };
    let text = |sections: usize| -> String {
        let sections = (0..sections).map(|at| AUDIO.to_string() + &groups(100 * at, 64));
        sections.collect()
    };
    let most = settings(&text(MAX_PAIRS / 64)).unwrap();
    assert_eq!(most.pairs.len(), MAX_PAIRS);
    let last = SsrcPair {
        ssrc: 3_126,
        retransmission: 3_127,
    };
    assert_eq!(most.pairs.last(), Some(&last));
    let fault = settings(&text(MAX_PAIRS / 64 + 1)).unwrap_err();
    assert_eq!(fault, SessionError::TooManyPairs);
}

/// Extended reports that measure the round trip (RFC 3611, section 5.1).
#[test]
fn receiver_round_trip() {
    for (of_session, of_section, wanted) in [
        ("", "", [false, false]),
        ("", "a=rtcp-xr:rcvr-rtt=all\r\n", [true, false]),
        ("", "a=rtcp-xr:rcvr-rtt=sender\r\n", [true, false]),
        (
            "",
            "a=rtcp-xr:stat-summary=loss,dup rcvr-rtt=all:10000\r\n",
            [true, false],
        ),
        ("a=rtcp-xr:rcvr-rtt=sender:300\r\n", "", [true, true]),
        (
            "a=rtcp-xr:voip-metrics\r\n",
            "a=rtcp-xr:rcvr-rtt\r\na=rtcp-xr:rcvr-rtt=some\r\n",
            [false, false],
        ),
    ] {
        let text = format!(
            "v=0\r\n{of_session}m=audio 9 RTP/AVP 0\r\n{of_section}m=video 9 RTP/AVP 96\r\na=rtpmap:96 VP8/90000\r\n\
             m=application 9 UDP/DTLS/SCTP webrtc-datachannel\r\na=rtcp-xr:rcvr-rtt=all\r\n"
        );
        let media = sdp::read(&text).expect("lines without a fault");
        let found = [0, 1].map(|place: usize| media[place].has_receiver_rtt);
        assert_eq!(found, wanted, "{of_session} {of_section}");
        assert!(!media[2].has_receiver_rtt);
    }
}

/// The settings of a port with FEC, as text.
fn fec(text: &str) -> Option<String> {
    let media = sdp::read(text).expect("lines without a fault");
    let settings = sdp::fec_port_settings(&media).expect("there is memory")?;
    let pairs = settings.retransmissions.iter();
    let pairs: Vec<(u8, u8)> = pairs.map(|it| (it.media, it.retransmission)).collect();
    let late = settings.late_ids;
    Some(format!(
        "red {} {:?} fec {} rtx {pairs:?} late {:?} {:?} {:?} {:?}",
        settings.red_type,
        settings.red_retransmission,
        settings.fec_type,
        late.transport_number,
        late.abs_send_time,
        late.transmission_offset,
        late.video_timing,
    ))
}

/// Settings of a port with FEC: of video with both lines alone.
#[test]
fn fec_of_video() {
    let chromium = include_str!("../../../c/tests/sdp/chromium.sdp");
    assert_eq!(
        fec(chromium).as_deref(),
        Some(
            "red 118 Some(119) fec 120 rtx [(96, 97), (45, 46), (98, 99), (100, 101)] late Some(3) Some(2) Some(14) Some(7)"
        )
    );
    let video = "m=video 9 RTP/AVP 96 116 117\r\na=rtpmap:96 VP8/90000\r\n";
    let both = "a=rtpmap:116 red/90000\r\na=rtpmap:117 ULPFEC/90000\r\n";
    let ids = "a=extmap:3 http://www.ietf.org/id/draft-holmer-rmcat-transport-wide-cc-extensions-01\r\n\
        a=extmap:14 urn:ietf:params:rtp-hdrext:toffset\r\n";
    assert_eq!(
        fec(&format!("v=0\r\n{video}{both}{ids}")).as_deref(),
        Some("red 116 None fec 117 rtx [] late Some(3) None Some(14) None")
    );
    // Other error correction, RED over named payload types, no video, payload types that look like RTCP.
    for text in [
        both.replace("ULPFEC", "flexfec-03"),
        both.replace("red/90000\r\n", "red/90000\r\na=fmtp:116 96/96\r\n"),
        both.replace("116 red", "115 red"),
    ] {
        assert_eq!(fec(&format!("v=0\r\n{video}{text}")), None, "{text}");
    }
    let audio = "m=audio 9 RTP/AVP 0 116 117\r\n";
    assert_eq!(fec(&format!("v=0\r\n{audio}{both}")), None);
    let low = format!("v=0\r\n{video}{both}").replace("117", "72");
    assert_eq!(fec(&low), None);
}
