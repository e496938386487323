//! Settings that no session can meet: each is refused by name, and what a session accepts begins streams.

use crate::Fail;
use crate::datagrams::*;
use codec_payload::session::SessionSettingsError as Fault;
use codec_payload::session::*;
use codec_payload::stream::RedSettings;
use codec_payload::*;

const OPUS_SPEC: CodecSpec = CodecSpec {
    codec: Codec::Opus,
    clock_rate: Frequency::FORTY_EIGHT_KHZ,
    octet_align: false,
};

/// Opus 111 in RED 63, with retransmissions 97 and those of RED 98; VP8 96; comfort noise 13; telephone events 101.
fn whole() -> SessionSettings {
    let mut settings = SessionSettings::live();
    let vp8 = CodecSpec {
        codec: Codec::Vp8,
        clock_rate: Frequency::NINETY_KHZ,
        octet_align: false,
    };
    settings.formats = vec![
        {
            let mut format = Format::new(111, OPUS_SPEC);
            format.red = Some(RedSettings {
                payload_type: 63,
                step: 960,
                retransmission: Some(98),
            });
            format.retransmission = Some(97);
            format
        },
        Format::new(96, vp8),
    ];
    settings.no_media = vec![13];
    settings.telephone_events = vec![101];
    settings.feedback = Some(FeedbackSettings::live(1, b"me@host".to_vec()));
    settings
}

/// The fault of these settings after a change. A session has the same.
fn fault(change: impl FnOnce(&mut SessionSettings)) -> Option<Fault> {
    let mut settings = whole();
    change(&mut settings);
    let fault = settings.check().err();
    assert_eq!(Session::new(settings.clone()).err(), fault);
    fault
}

fn red(s: &mut SessionSettings) -> &mut RedSettings {
    s.formats[0].red.as_mut().unwrap()
}

fn range(format: Option<usize>, payload_type: u8) -> Option<Fault> {
    Some(Fault::PayloadType {
        format,
        payload_type,
    })
}

fn twice(format: Option<usize>, payload_type: u8) -> Option<Fault> {
    Some(Fault::TwoMeanings {
        format,
        payload_type,
    })
}

#[test]
fn numbers_out_of_range() {
    assert_eq!(fault(|_| {}), None);
    assert_eq!(fault(|s| s.limit = 0), Some(Fault::Limit));
    assert_eq!(fault(|s| s.limit = 1), None);
    assert_eq!(fault(|s| s.limit = 65_536), None);
    assert_eq!(fault(|s| s.limit = 65_537), Some(Fault::Limit));
    assert_eq!(fault(|s| s.max_streams = 0), Some(Fault::MaxStreams));
    for step in [0, 16_384, u32::MAX] {
        assert_eq!(fault(|s| red(s).step = step), Some(Fault::RedStep(0)));
    }
    for step in [1, 16_383] {
        assert_eq!(fault(|s| red(s).step = step), None);
    }
    for (len, is_right) in [(0, false), (1, true), (255, true), (256, false)] {
        let found = fault(|s| s.feedback.as_mut().unwrap().cname = vec![b'n'; len]);
        assert_eq!(found, (!is_right).then_some(Fault::Cname), "{len} bytes");
    }
    assert_eq!(fault(|s| s.feedback = None), None);
    assert_eq!(fault(|s| s.formats.clear()), None);
}

#[test]
fn codecs_without_a_depacketizer() {
    for codec in [
        Codec::H264,
        Codec::H265,
        Codec::H266,
        Codec::Rtx,
        Codec::Red,
        Codec::Unknown,
    ] {
        assert_eq!(
            fault(|s| s.formats[1].spec.codec = codec),
            Some(Fault::Codec(1))
        );
        assert!(CodecDepacketizer::<NoBox>::from_codec(codec).is_none());
    }
}

/// RFC 5761, section 4: with a marker the second byte of 64 to 95 is one of RTCP.
#[test]
fn payload_types_out_of_range() {
    for t in [64, 72, 95, 128, 200, 255] {
        assert_eq!(fault(|s| s.formats[0].payload_type = t), range(Some(0), t));
        assert_eq!(fault(|s| s.formats[1].payload_type = t), range(Some(1), t));
        assert_eq!(fault(|s| red(s).payload_type = t), range(Some(0), t));
        let found = fault(|s| s.formats[0].retransmission = Some(t));
        assert_eq!(found, range(Some(0), t));
        assert_eq!(
            fault(|s| red(s).retransmission = Some(t)),
            range(Some(0), t)
        );
        assert_eq!(fault(|s| s.no_media.push(t)), range(None, t));
        assert_eq!(fault(|s| s.telephone_events.push(t)), range(None, t));
    }
    for t in [0, 62, 99, 127] {
        assert_eq!(fault(|s| s.formats[0].payload_type = t), None);
        assert_eq!(fault(|s| s.no_media.push(t)), None);
    }
}

#[test]
fn payload_types_with_two_meanings() {
    // The later format has the fault.
    for t in [111, 63, 97, 98] {
        assert_eq!(fault(|s| s.formats[1].payload_type = t), twice(Some(1), t));
        let found = fault(|s| s.formats[1].retransmission = Some(t));
        assert_eq!(found, twice(Some(1), t));
        let own = RedSettings {
            payload_type: t,
            step: 1,
            retransmission: None,
        };
        assert_eq!(fault(|s| s.formats[1].red = Some(own)), twice(Some(1), t));
        assert_eq!(fault(|s| s.no_media.push(t)), twice(None, t));
        assert_eq!(fault(|s| s.telephone_events.push(t)), twice(None, t));
    }
    // Within a format.
    assert_eq!(fault(|s| red(s).payload_type = 111), twice(Some(0), 111));
    for t in [111, 63] {
        let found = fault(|s| s.formats[0].retransmission = Some(t));
        assert_eq!(found, twice(Some(0), t));
    }
    for t in [111, 63, 97] {
        assert_eq!(
            fault(|s| red(s).retransmission = Some(t)),
            twice(Some(0), t)
        );
    }
    // Comfort noise twice is one meaning, and telephone events too; one of both has two.
    assert_eq!(fault(|s| s.no_media.push(13)), None);
    assert_eq!(fault(|s| s.telephone_events.push(101)), None);
    assert_eq!(fault(|s| s.telephone_events.push(13)), twice(None, 13));
}

/// The type of retransmitted RED packets is used only beside one of retransmissions.
#[test]
fn what_is_not_used_is_not_checked() {
    for t in [63, 64, 96, 111, 200] {
        let found = fault(|s| {
            s.formats[0].retransmission = None;
            red(s).retransmission = Some(t);
        });
        assert_eq!(found, None, "{t}");
    }
}

#[test]
fn the_first_fault_is_told() {
    let all = |s: &mut SessionSettings| {
        s.feedback.as_mut().unwrap().cname.clear();
        s.telephone_events.push(13);
        s.no_media.push(64);
        s.formats[1].spec.codec = Codec::H264;
        red(s).step = 0;
        s.formats[0].payload_type = 128;
        s.max_streams = 0;
        s.limit = 0;
    };
    type Mend = fn(&mut SessionSettings);
    let mends: [(Mend, Option<Fault>); 8] = [
        (|s| s.limit = 1, Some(Fault::MaxStreams)),
        (|s| s.max_streams = 1, range(Some(0), 128)),
        (|s| s.formats[0].payload_type = 111, Some(Fault::RedStep(0))),
        (|s| red(s).step = 1, Some(Fault::Codec(1))),
        (|s| s.formats[1].spec.codec = Codec::Vp8, range(None, 64)),
        (|s| s.no_media = vec![13], twice(None, 13)),
        (|s| s.telephone_events = vec![101], Some(Fault::Cname)),
        (|s| s.feedback.as_mut().unwrap().cname.push(b'n'), None),
    ];
    assert_eq!(fault(all), Some(Fault::Limit));
    for done in 1..=mends.len() {
        let found = fault(|s| {
            all(s);
            for (mend, _) in &mends[..done] {
                mend(s);
            }
        });
        assert_eq!(found, mends[done - 1].1, "after {done} mends");
    }
}

#[test]
fn faults_say_what_is_wrong() {
    let text = |change: fn(&mut SessionSettings)| fault(change).unwrap().to_string();
    assert_eq!(
        text(|s| s.formats[1].spec.codec = Codec::H264),
        "the codec of format 1 has no depacketizer"
    );
    assert_eq!(
        text(|s| s.formats[1].payload_type = 72),
        "payload type 72 is not 0 to 63 or 96 to 127"
    );
    assert_eq!(
        text(|s| s.formats[1].payload_type = 111),
        "payload type 111 has two meanings"
    );
}

/// Each format of accepted settings begins a stream.
#[test]
fn accepted_formats_begin_streams() -> Result<(), Fail> {
    for codec in [
        Codec::Opus,
        Codec::PCMU,
        Codec::PCMA,
        Codec::G722,
        Codec::CN,
        Codec::AmrWb,
        Codec::Vp8,
        Codec::Vp9,
        Codec::Av1,
        Codec::Null,
        Codec::Tele,
    ] {
        for t in (0..64).chain(96..128) {
            let mut settings = SessionSettings::live();
            settings.formats = vec![Format::new(t, CodecSpec { codec, ..OPUS_SPEC })];
            let mut session = Session::new(settings)?;
            for marker in [false, true] {
                let mut datagram = packet(t, 5, 1 + u16::from(marker), 0, &[0; 8]);
                datagram[1] |= u8::from(marker) << 7;
                let arrival = session.receive(Ticks(0), &datagram)?;
                assert!(
                    matches!(arrival, Arrival::Stream { ssrc: 5, payload_type, .. } if payload_type == t),
                    "{codec:?} {t}: {arrival:?}"
                );
            }
        }
    }
    Ok(())
}
