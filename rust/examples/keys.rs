//! The keys of a telephone (DTMF). They arrive as telephone events beside the audio (RFC 4733); one packet arrives twice, and one key
//! is held for longer than a report can say:
//!
//! ```sh
//! cargo run --example keys
//! ```
//!
//! - A key has some eight packets with the same RTP time. Count it once for each SSRC and RTP time.
//! - A key of more than 65,535 ticks is sent in segments, each with its own RTP time (section 2.5.1.3).

use codec_payload::interface::TelephoneEvent;
use codec_payload::{Event, Frequency, Session, Ticks, sdp};
use std::collections::BTreeMap;

const OFFER: &str = "v=0\nm=audio 9 RTP/AVP 0 101\na=rtpmap:101 telephone-event/8000\n";

/// The keys of a telephone by their codes (RFC 4733, section 3.2).
const KEYS: &[u8; 16] = b"0123456789*#ABCD";

/// A packet of G.711 or of telephone events: payload type, number, RTP time and payload.
fn packet(payload_type: u8, number: u8, time: u32, payload: &[u8]) -> Vec<u8> {
    [
        &[0x80, payload_type, 0, number],
        &time.to_be_bytes()[..],
        &[0, 0, 0, 7],
        payload,
    ]
    .concat()
}

fn main() -> Result<(), Box<dyn std::error::Error>> {
    let mut session = Session::new(sdp::session_settings(&sdp::read(OFFER)?)?)?;
    let mut keys = String::new();
    // For each SSRC the latest RTP time, and the event that goes on in another segment.
    let mut latest = BTreeMap::<u32, (u32, Option<u8>)>::new();
    for datagram in [
        packet(0, 1, 160, &[0xff; 160]),
        packet(101, 2, 320, &[4, 10, 0, 160]),
        packet(101, 3, 320, &[4, 0x80 | 10, 1, 64]),
        packet(101, 3, 320, &[4, 0x80 | 10, 1, 64]),
        packet(101, 4, 960, &[2, 10, 0, 160]),
        packet(0, 5, 1_280, &[0xff; 160]),
        packet(101, 6, 1_600, &[7, 10, 0xff, 0xff]),
        packet(101, 7, 67_135, &[7, 0x80 | 10, 1, 64]),
    ] {
        session.receive(Ticks(0), &datagram)?;
        while let Some(event) = session.poll(Ticks(0)) {
            let Event::Telephone {
                ssrc,
                rtp_time,
                payload,
                ..
            } = event
            else {
                continue;
            };
            let Some(report) = TelephoneEvent::parse(&payload, Frequency::EIGHT_KHZ) else {
                continue;
            };
            let before = latest.get(&ssrc).copied();
            if before.is_some_and(|(last, _)| rtp_time.wrapping_sub(last) > 1 << 31) {
                continue; // a late packet of an earlier key
            }
            let is_known = before
                .is_some_and(|(last, segment)| last == rtp_time || segment == Some(report.event));
            let is_full = !report.end && payload.get(2..4) == Some(&[0xff, 0xff]);
            let of_this = before
                .filter(|(last, _)| *last == rtp_time)
                .and_then(|(_, segment)| segment);
            latest.insert(
                ssrc,
                (rtp_time, if is_full { Some(report.event) } else { of_this }),
            );
            if !is_known {
                keys.extend(
                    KEYS.get(usize::from(report.event))
                        .map(|key| char::from(*key)),
                );
            }
        }
    }
    println!("keys {keys}");
    assert_eq!(keys, "427");
    Ok(())
}
