//! Numbers that carry no media: lost padding and lost error correction are not requested, and no frame waits for them.

use crate::Fail;
use crate::datagrams::*;
use crate::names::with_elements;
use codec_payload::session::*;
use codec_payload::stream::RedSettings;
use codec_payload::*;

/// Error correction (ULPFEC) in RED, under the SSRC of the media.
const FEC: u8 = 120;
/// RED over VP8 and its error correction.
const RED_VIDEO: u8 = 118;
const DESCRIPTOR: u8 = 5;

/// A session of VP8 whose packets and keyframes are requested, as for live streams, with this change.
fn session(change: impl FnOnce(&mut SessionSettings)) -> Session {
    let mut settings = SessionSettings::live();
    settings.formats = vec![answered_vp8()];
    settings.no_media = vec![FEC];
    settings.video.start = 0;
    settings.feedback = Some(FeedbackSettings::live(1, b"me@host".to_vec()));
    change(&mut settings);
    Session::new(settings).expect("settings that can be met")
}

/// A whole picture of VP8: with a PictureID of 15 bits (RFC 7741, section 4.2), or without one.
fn picture(id: Option<u16>, is_key: bool) -> Vec<u8> {
    let frame = vp8_frame(is_key);
    let Some(id) = id else {
        return frame.to_vec();
    };
    [&[0x90, 0x80, 0x80 | (id >> 8) as u8, id as u8], &frame[1..]].concat()
}

/// What a viewer saw of a stream.
#[derive(Debug, Default, PartialEq, Eq)]
struct Seen {
    units: usize,
    decodable: usize,
    packets_requested: u64,
    keyframes_requested: u64,
    longest: u64,
}

/// Plays pictures, one each 33 ms, of which picture `i` has the time `3,000 i`. `sent` returns the datagrams of a picture that arrive, by
/// its index.
fn play(session: &mut Session, pictures: u64, sent: impl Fn(u64) -> Vec<Vec<u8>>) -> Seen {
    let mut seen = Seen::default();
    for now in 0..pictures * 33 + 2_000 {
        if now % 33 == 0 && now / 33 < pictures {
            for datagram in sent(now / 33) {
                session
                    .receive(Ticks(now), &datagram)
                    .expect("there is memory");
            }
        }
        while let Some(event) = session.poll(Ticks(now)) {
            if let Event::Unit {
                rtp_time,
                decodable,
                ..
            } = event
            {
                let time = rtp_time.expect("a unit has a time") % (1 << 32);
                seen.units += 1;
                seen.decodable += usize::from(decodable);
                seen.longest = seen.longest.max(now - time / 3_000 * 33);
            }
        }
    }
    let requests = session.stream_at(0).expect("there is a stream").requests;
    seen.packets_requested = requests.numbers;
    seen.keyframes_requested = requests.keyframes;
    seen
}

/// After each ninth picture a packet of padding is lost: nothing is requested, and only the first picture waits, for the second packet of
/// the stream. If the pictures have no ids, each lost packet is requested, and holds pictures back.
#[test]
fn lost_padding() {
    let sent = |has_ids: bool| {
        move |i: u64| {
            let number = (65_000 + i + (i + 1) / 9) as u16;
            let id = has_ids.then_some((32_700 + i as u16) % 32_768);
            let payload = picture(id, i == 0);
            vec![packet(VP8, 7, number, 3_000 * i as u32, &payload)]
        }
    };
    let all = Seen {
        units: 607,
        decodable: 607,
        packets_requested: 0,
        keyframes_requested: 0,
        longest: 33,
    };
    assert_eq!(play(&mut session(|_| {}), 607, sent(true)), all);
    let without = play(&mut session(|_| {}), 607, sent(false));
    assert!(
        without.packets_requested >= 67 && without.longest > 100,
        "{without:?}"
    );
}

/// Pictures in RED (RFC 2198), each with a packet of ULPFEC behind it under the next number, as Chromium sends them. One packet of error
/// correction is lost: all pictures are decodable, and nothing is requested.
#[test]
fn lost_error_correction() {
    let sent = |has_ids: bool| {
        move |i: u64| {
            let (number, time) = (2 * i as u16, 3_000 * i as u32);
            let media = [&[VP8][..], &picture(has_ids.then_some(i as u16), i == 0)].concat();
            let mut datagrams = vec![packet(RED_VIDEO, 7, number, time, &media)];
            if i != 10 {
                let fec = [&[FEC][..], &[0; 24]].concat();
                let mut datagram = packet(RED_VIDEO, 7, number + 1, time, &fec);
                datagram[1] &= 0x7f;
                datagrams.push(datagram);
            }
            datagrams
        }
    };
    let with_red = |settings: &mut SessionSettings| {
        settings.formats[0].red = Some(RedSettings {
            payload_type: RED_VIDEO,
            step: 3_000,
            retransmission: None,
        });
    };
    let seen = play(&mut session(with_red), 60, sent(true));
    assert_eq!((seen.units, seen.decodable), (60, 60));
    assert_eq!((seen.packets_requested, seen.keyframes_requested), (0, 0));
    assert!(seen.longest <= 40, "{seen:?}");
    let without = play(&mut session(with_red), 60, sent(false));
    assert!(without.packets_requested > 0, "{without:?}");
}

/// A picture with a dependency descriptor that begins and ends its frame (AV1 RTP specification, appendix A).
fn described(number: u16, frame_number: u16) -> Vec<u8> {
    let time = 3_000 * u32::from(frame_number);
    let datagram = packet(VP8, 7, number, time, &picture(None, frame_number == 0));
    let [high, low] = frame_number.to_be_bytes();
    with_elements(&datagram, &[(DESCRIPTOR, &[0xc0, high, low])])
}

/// The frame_numbers of dependency descriptors say the same, if the session has their id.
#[test]
fn lost_padding_beside_descriptors() {
    let missing = |id: Option<u8>| -> Result<Vec<u64>, Fail> {
        let mut session = session(|settings| settings.dependency_descriptor = id);
        for (number, frame_number) in [(10, 0), (11, 1), (14, 2), (20, 4)] {
            session.receive(Ticks(0), &described(number, frame_number))?;
        }
        let receiver = session.receiver_of(7, VP8).ok_or("there is a stream")?;
        Ok(receiver.missing(100).map(|it| it % 65_536).collect())
    };
    assert_eq!(
        missing(Some(DESCRIPTOR)).unwrap(),
        (15..20).collect::<Vec<_>>()
    );
    let all: Vec<u64> = [12, 13].into_iter().chain(15..20).collect();
    assert_eq!(missing(None).unwrap(), all);
    assert_eq!(missing(Some(DESCRIPTOR + 1)).unwrap(), all);
}

/// A retransmission ends a picture, beside lost padding: both are missing until it comes.
#[test]
fn a_retransmission_closes_a_range() -> Result<(), Fail> {
    let mut session = session(|settings| {
        settings.pairs = vec![SsrcPair {
            ssrc: 7,
            retransmission: 70,
        }];
    });
    let missing = |session: &Session| -> Vec<u64> {
        let receiver = session.receiver_of(7, VP8).expect("there is a stream");
        receiver.missing(100).map(|it| it % 65_536).collect()
    };
    session.receive(Ticks(0), &packet(VP8, 7, 10, 0, &picture(Some(1), true)))?;
    let mut first = packet(VP8, 7, 11, 3_000, &picture(Some(2), false));
    first[1] &= 0x7f;
    session.receive(Ticks(0), &first)?;
    session.receive(
        Ticks(0),
        &packet(VP8, 7, 15, 6_000, &picture(Some(3), false)),
    )?;
    assert_eq!(missing(&session), [12, 13, 14]);
    let again = [&12u16.to_be_bytes()[..], &[0x80, 0x80, 0x80, 2, 9]].concat();
    session.receive(Ticks(1), &packet(RTX, 70, 900, 3_000, &again))?;
    assert!(missing(&session).is_empty());
    Ok(())
}
