//! The names of streams in header extensions: which packets set them, which values count, and when a session reports them.

use crate::datagrams::*;
use crate::{Fail, allocations};
use codec_payload::jitter::Outcome;
use codec_payload::session::{StreamName, StreamNameIds, StreamNames};
use codec_payload::*;

const MID: u8 = 3;
const RID: u8 = 4;
const REPAIRED: u8 = 11;

/// A session of VP8, of Opus and of telephone events that reads all three names.
fn session(change: impl FnOnce(&mut SessionSettings)) -> Session {
    let mut settings = SessionSettings::live();
    settings.formats = answered_formats();
    settings.telephone_events = vec![EVENTS];
    settings.name_ids = {
        let mut ids = StreamNameIds::default();
        ids.mid = Some(MID);
        ids.rid = Some(RID);
        ids.repaired_rid = Some(REPAIRED);
        ids
    };
    change(&mut settings);
    Session::new(settings).expect("settings that can be met")
}

/// The packet with these elements in its header extension: in the one-byte form if each has 1 to 16 bytes (RFC 8285, section 4.2),
/// otherwise in the two-byte form (section 4.3).
pub fn with_elements(datagram: &[u8], elements: &[(u8, &[u8])]) -> Vec<u8> {
    let is_short = elements.iter().all(|(_, it)| (1..=16).contains(&it.len()));
    let mut extension = Vec::new();
    for (id, bytes) in elements {
        match is_short {
            true => extension.push(id << 4 | (bytes.len() - 1) as u8),
            false => extension.extend([*id, bytes.len() as u8]),
        }
        extension.extend(*bytes);
    }
    extension.resize(extension.len().next_multiple_of(4), 0);
    let profile: u16 = if is_short { 0xbede } else { 0x1000 };
    let words = (extension.len() / 4) as u16;
    let head = [profile.to_be_bytes(), words.to_be_bytes()].concat();
    let mut bytes = [&datagram[..12], &head, &extension, &datagram[12..]].concat();
    bytes[0] |= 0x10;
    bytes
}

fn name(bytes: &[u8]) -> Option<StreamName> {
    StreamName::new(bytes)
}

/// The names of each stream that begins in the polls at a time.
fn begun(session: &mut Session, now: u64) -> Vec<(u32, StreamNames)> {
    let mut all = Vec::new();
    while let Some(event) = session.poll(Ticks(now)) {
        if let Event::Begun { ssrc, payload_type } = event {
            let names = session.names_of(ssrc, payload_type);
            all.push((ssrc, names.expect("an announced stream exists")));
        }
    }
    all
}

/// Three layers of a simulcast, of which each has its RID in its first packet alone.
#[test]
fn layers_of_a_simulcast_are_told_apart() -> Result<(), Fail> {
    let mut session = session(|_| {});
    for (ssrc, rid) in [(7, b"h"), (8, b"m"), (9, b"l")] {
        let first = with_elements(&vp8(ssrc, 1, true), &[(MID, b"video"), (RID, rid)]);
        session.receive(Ticks(0), &first)?;
        session.receive(Ticks(1), &vp8(ssrc, 2, false))?;
    }
    let layers = begun(&mut session, 1);
    let told: Vec<_> = layers.iter().map(|(ssrc, it)| (*ssrc, it.rid)).collect();
    assert_eq!(told, [(7, name(b"h")), (8, name(b"m")), (9, name(b"l"))]);
    for (ssrc, names) in layers {
        assert_eq!((names.mid, names.repaired_rid), (name(b"video"), None));
        assert_eq!(session.names_of(ssrc, OPUS), None);
    }
    assert_eq!(session.names_of(10, VP8), None);
    Ok(())
}

/// Without ids nothing is read, and an id that no element has changes nothing.
#[test]
fn names_are_read_under_their_ids_alone() -> Result<(), Fail> {
    let elements: [(u8, &[u8]); 2] = [(MID, b"0"), (RID, b"hi")];
    let first = with_elements(&vp8(7, 1, true), &elements);
    let mut none = session(|it| it.name_ids = StreamNameIds::default());
    none.receive(Ticks(0), &first)?;
    assert_eq!(none.names_of(7, VP8), Some(StreamNames::default()));
    let mut other = session(|it| it.name_ids.mid = Some(5));
    other.receive(Ticks(0), &first)?;
    let names = other.names_of(7, VP8).ok_or("there is a stream")?;
    assert_eq!((names.mid, names.rid), (None, name(b"hi")));
    Ok(())
}

/// The latest value of each name holds. A value without a byte or of more than 32 is ignored, and so is one in a packet that the
/// stream drops.
#[test]
fn the_latest_value_of_an_accepted_packet_holds() -> Result<(), Fail> {
    let mut session = session(|_| {});
    let mid = |session: &Session| session.names_of(7, VP8).and_then(|it| it.mid);
    let with = |number, value: &[u8]| with_elements(&vp8(7, number, true), &[(MID, value)]);
    let (longest, longer) = ([b'a'; 32], [b'a'; 33]);
    let rows: [(u16, &[u8], &[u8]); 5] = [
        (100, b"first", b"first"),
        (101, b"second", b"second"),
        (102, b"", b"second"),
        (103, &longest, &longest),
        (104, &longer, &longest),
    ];
    for (number, value, wanted) in rows {
        session.receive(Ticks(0), &with(number, value))?;
        assert_eq!(mid(&session), name(wanted), "{number} {value:?}");
    }
    let dropped = |session: &mut Session, number| {
        let arrival = session.receive(Ticks(0), &with(number, b"dropped"));
        match arrival {
            Ok(Arrival::Stream { outcome, .. }) => outcome,
            other => unreachable!("{other:?}"),
        }
    };
    assert_eq!(dropped(&mut session, 104), Outcome::Duplicate);
    assert_eq!(dropped(&mut session, 40_000), Outcome::Suspect);
    begun(&mut session, 0);
    assert_eq!(dropped(&mut session, 99), Outcome::Late);
    assert_eq!(mid(&session), name(&longest));
    // A packet without the element leaves it.
    session.receive(Ticks(0), &vp8(7, 105, false))?;
    assert_eq!(mid(&session), name(&longest));
    Ok(())
}

/// Retransmissions and packets without media have names too. A name allocates nothing.
#[test]
fn other_packets_of_a_stream_have_names() -> Result<(), Fail> {
    let mut session = session(|it| {
        it.pairs = vec![SsrcPair {
            ssrc: 7,
            retransmission: 70,
        }];
    });
    session.receive(Ticks(0), &vp8(7, 1, true))?;
    let original = [&[0, 2][..], vp8_frame(false)].concat();
    let again = packet(RTX, 70, 1, 6_000, &original);
    let again = with_elements(&again, &[(MID, b"v"), (REPAIRED, b"h")]);
    let plain = packet(RTX, 70, 2, 9_000, &[&[0, 3][..], vp8_frame(false)].concat());
    let (more, arrival) = allocations(|| session.receive(Ticks(1), &again));
    arrival?;
    let (without, arrival) = allocations(|| session.receive(Ticks(1), &plain));
    arrival?;
    assert!(more <= without + 1, "{more} {without}");
    let names = session.names_of(7, VP8).ok_or("there is a stream")?;
    let wanted = (name(b"v"), None, name(b"h"));
    assert_eq!((names.mid, names.rid, names.repaired_rid), wanted);
    session.receive(Ticks(2), &opus(5, 1))?;
    let event = packet(EVENTS, 5, 2, 960, &[1, 0x80, 0, 160]);
    session.receive(Ticks(2), &with_elements(&event, &[(MID, b"a")]))?;
    let names = session.names_of(5, OPUS).ok_or("there is a stream")?;
    assert_eq!(names.mid, name(b"a"));
    Ok(())
}

/// A stream in another format begins with the names of its SSRC, since its sender need not send them again. A name that its own packets
/// have replaces the one from before, and the earlier stream keeps its own. Another SSRC begins without names.
#[test]
fn each_stream_has_its_own_names() -> Result<(), Fail> {
    let mut session = session(|it| {
        it.formats
            .push(format(VP9, Codec::Vp9, Frequency::NINETY_KHZ))
    });
    session.receive(Ticks(0), &with_elements(&vp8(7, 1, true), &[(MID, b"v")]))?;
    session.receive(Ticks(0), &vp8(7, 2, true))?;
    session.receive(Ticks(1), &packet(VP9, 7, 3, 9_000, &[0x0c, 1]))?;
    assert_eq!(session.names_of(7, VP9).and_then(|it| it.mid), name(b"v"));
    let renamed = with_elements(&packet(VP9, 7, 4, 12_000, &[0x0c, 1]), &[(MID, b"w")]);
    session.receive(Ticks(2), &renamed)?;
    assert_eq!(session.names_of(7, VP9).and_then(|it| it.mid), name(b"w"));
    assert_eq!(session.names_of(7, VP8).and_then(|it| it.mid), name(b"v"));
    session.receive(Ticks(2), &vp8(8, 1, true))?;
    assert_eq!(session.names_of(8, VP8), Some(StreamNames::default()));
    Ok(())
}

/// Names with the same bytes are equal, and are written as their bytes.
#[test]
fn names_are_bytes() {
    assert_eq!(
        name(b"hi").map(|it| it.as_bytes().to_vec()),
        Some(b"hi".to_vec())
    );
    assert_ne!(name(b"hi"), name(b"hi\0"));
    assert_eq!((name(b""), name(&[7; 33])), (None, None));
    assert_eq!(
        format!("{:?}", name(b"a").expect("it fits")),
        "StreamName([97])"
    );
}

/// A sender that begins again under another SSRC has the names of the stream that it had.
#[test]
fn a_new_ssrc_of_a_known_sender() -> Result<(), Fail> {
    let mut session = session(|it| it.probation = 1);
    let mut begin = |ssrc, mid: &[u8], rid: &[u8]| {
        let elements: &[(u8, &[u8])] = match (mid, rid) {
            (b"", _) => &[],
            (mid, b"") => &[(MID, mid)],
            (mid, rid) => &[(MID, mid), (RID, rid)],
        };
        let datagram = match elements {
            [] => vp8(ssrc, 1, true),
            some => with_elements(&vp8(ssrc, 1, true), some),
        };
        session.receive(Ticks(0), &datagram)?;
        begun(&mut session, 0);
        Ok::<_, Fail>(session.former_ssrc(ssrc, VP8))
    };
    assert_eq!(begin(1, b"0", b"h")?, None);
    assert_eq!(begin(2, b"0", b"m")?, None);
    assert_eq!(begin(3, b"1", b"h")?, None);
    assert_eq!(begin(4, b"0", b"h")?, Some(1));
    assert_eq!(begin(5, b"1", b"")?, None);
    assert_eq!(begin(6, b"1", b"")?, Some(5));
    assert_eq!((begin(7, b"", b"")?, begin(8, b"", b"")?), (None, None));
    assert_eq!(session.former_ssrc(4, OPUS), None);
    session.end(Ticks(0), 1);
    begun(&mut session, 0);
    assert_eq!(session.former_ssrc(4, VP8), None);
    Ok(())
}
