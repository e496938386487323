//! Session descriptions: `c/tests/sdp` has descriptions of Chromium (`layers` with the dependency descriptor), Firefox, GStreamer and
//! pion, examples of the RFCs (`beside`: what they say beside formats), and sections that join formats. What is read of each was written by hand after the RFCs, as was the
//! table of faults.

mod dump;
mod session;

use codec_payload::sdp::{self, ErrorKind, MAX_FINGERPRINTS, MAX_MEDIA, MAX_SOURCES};
use dump::{changed, dump};
use std::time::{Duration, Instant};

const DESCRIPTIONS: [(&str, &str); 8] = [
    (
        include_str!("../../../c/tests/sdp/beside.sdp"),
        include_str!("../../../c/tests/sdp/beside.txt"),
    ),
    (
        include_str!("../../../c/tests/sdp/chromium.sdp"),
        include_str!("../../../c/tests/sdp/chromium.txt"),
    ),
    (
        include_str!("../../../c/tests/sdp/layers.sdp"),
        include_str!("../../../c/tests/sdp/layers.txt"),
    ),
    (
        include_str!("../../../c/tests/sdp/firefox.sdp"),
        include_str!("../../../c/tests/sdp/firefox.txt"),
    ),
    (
        include_str!("../../../c/tests/sdp/gstreamer.sdp"),
        include_str!("../../../c/tests/sdp/gstreamer.txt"),
    ),
    (
        include_str!("../../../c/tests/sdp/pion.sdp"),
        include_str!("../../../c/tests/sdp/pion.txt"),
    ),
    (
        include_str!("../../../c/tests/sdp/joined.sdp"),
        include_str!("../../../c/tests/sdp/joined.txt"),
    ),
    (
        include_str!("../../../c/tests/sdp/rfcs.sdp"),
        include_str!("../../../c/tests/sdp/rfcs.txt"),
    ),
];

#[test]
fn descriptions_of_peers() {
    for (given, wanted) in DESCRIPTIONS {
        assert_eq!(dump(given), wanted);
    }
}

#[test]
fn faults() {
    let mut rows = 0;
    for row in include_str!("../../../c/tests/sdp/faults.txt").lines() {
        if row.is_empty() || row.starts_with('#') {
            continue;
        }
        let mut parts = row.splitn(3, '|');
        let mut part = || parts.next().expect("LINE|ERROR|DESCRIPTION");
        let (line, error, text) = (part(), part(), part().replace("\\n", "\n"));
        match sdp::read(&text) {
            Ok(_) => assert_eq!(("0", "no error"), (line, error), "{row}"),
            Err(fault) => assert_eq!(format!("line {line}: {error}"), fault.to_string(), "{row}"),
        }
        rows += 1;
    }
    assert!(rows > 100);
}

#[test]
fn bounds() {
    let line = "m=audio 9 RTP/AVP 0\n";
    assert_eq!(sdp::read(&line.repeat(MAX_MEDIA)).unwrap().len(), MAX_MEDIA);
    let fault = sdp::read(&line.repeat(MAX_MEDIA + 1)).unwrap_err();
    assert_eq!(
        (fault.line, fault.kind),
        (MAX_MEDIA + 1, ErrorKind::TooManyMedia)
    );
    let sources = |count: usize| {
        let lines: String = (0..count).map(|ssrc| format!("a=ssrc:{ssrc}\n")).collect();
        format!("{line}{lines}")
    };
    let text = sources(MAX_SOURCES);
    assert_eq!(sdp::read(&text).unwrap()[0].sources.len(), MAX_SOURCES);
    let text = sources(MAX_SOURCES + 1);
    assert_eq!(
        sdp::read(&text).unwrap_err().kind,
        ErrorKind::TooManySources
    );
    assert_eq!(sdp::read("").unwrap(), []);
    let fingerprints = "a=fingerprint:sha-256 AB\n".repeat(MAX_FINGERPRINTS);
    let text = format!("{fingerprints}{line}{fingerprints}{line}");
    let found = sdp::read(&text).unwrap();
    assert_eq!(found[0].transport.fingerprints.len(), MAX_FINGERPRINTS);
    assert_eq!(found[1], sdp::read(&text).unwrap()[1]);
    let fault = sdp::read(&format!("{text}{fingerprints}a=fingerprint:sha-1 CD\n")).unwrap_err();
    assert_eq!(fault.kind, ErrorKind::TooManyFingerprints);
    assert_eq!(fault.line, 3 * MAX_FINGERPRINTS + 3);
}

/// Descriptions of a megabyte, most with 100,000 lines. In time that grows with the square of the lines, each would take minutes.
#[test]
fn long_descriptions() {
    let audio = "m=audio 9 RTP/AVP 0\n";
    let types: String = (0..128).map(|it| format!(" {it}")).collect();
    let all = format!("m=video 9 RTP/AVPF{types}\n");
    let many = |line: &str| line.repeat(1_000_000 / line.len());
    let sessions = "a=fingerprint:x 00\n".repeat(MAX_FINGERPRINTS) + &many("a=setup:active\n");
    let texts = [
        format!("{audio}{}", many("a=mid:0\n")),
        format!("{audio}{}", many("a=candidate:1 1 udp 1 a 9 typ host\n")),
        format!("{audio}{}", many("a=rid:1 send\n")),
        format!("{audio}{}", many("a=simulcast:send 1;2 recv 3,~4\n")),
        format!("{audio}a=simulcast:send {}1\n", many("1;")),
        format!("{audio}a=fingerprint:sha-256 {}AB\n", many("AB:")),
        format!("{audio}a=fmtp:0 {}\n", many("x;")),
        format!("{all}{}", many("a=rtcp-fb:* nack\n")),
        format!("{sessions}{}", audio.repeat(MAX_MEDIA)),
        many("a=group:LS\n"),
        format!("a=group:LS {}\n", many("a ")),
        many("a\n"),
    ];
    for text in texts {
        let start = Instant::now();
        let groups = sdp::groups(&text).unwrap();
        let mids: usize = groups.iter().map(|it| it.mids().count()).sum();
        assert!(groups.len() + mids < text.len());
        drop(sdp::read(&text));
        assert!(start.elapsed() < Duration::from_secs(60), "{}", &text[..40]);
    }
}

/// What a section has more of than C has room for: the crate has all of it.
#[test]
fn long_lists() {
    let line = "m=video 9 RTP/AVP 34\n";
    let text = format!(
        "{line}{}{}{}a=simulcast:send {}1\n",
        "a=candidate:1 1 udp 1 192.0.2.1 9 typ host\n".repeat(66),
        "a=rid:1 send\n".repeat(18),
        "a=msid:a b\n".repeat(10),
        "1;".repeat(33),
    );
    let media = &sdp::read(&text).unwrap()[0];
    assert_eq!(media.transport.candidates.len(), 66);
    assert_eq!(
        (media.rids.len(), media.msids.len(), media.layers.len()),
        (18, 10, 34)
    );
    assert_eq!(media.layers[33].stream, 33);
}

/// Whatever is read makes receivers, else `dump` fails. Texts that are not ASCII are read too.
#[test]
fn changed_descriptions() {
    for (given, _) in DESCRIPTIONS {
        for seed in 0..300 {
            dump(&changed(given, seed));
        }
    }
    for text in [
        "ü",
        "a=ü",
        "m=ü 9 RTP/AVP 0",
        "m=audio 9 RTP/AVP 96\na=rtpmap:96 ü/8000\n",
        "a=group:ü ü\nm=ü 9 RTP/AVP 0\na=mid:ü\na=msid:ü ü\na=fmtp:0 ü",
        "m=audio 9 RTP/AVP 0\na=candidate:ü 1 ü 1 ü 9 typ ü\na=rid:1 send ü\na=rid:ü send",
        "a=fingerprint:ü AB\na=ice-options:ü\na=fingerprint:x ü:AB",
        "m=audio 9 RTP/AVP 0\na=simulcast:send ~ü",
        "a=ice-ufrag:üüüü",
    ] {
        dump(text);
    }
}
