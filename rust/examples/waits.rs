//! Waits that follow the network: the streams of a format wait as long as missing packets are late.
//!
//! ```sh
//! cargo run --example waits
//! ```
//!
//! The rules:
//! - `wait` of a format says how its streams wait. `Waiting::Late` keeps an `AdaptiveWait` for each stream: which number arrived and
//!   which are missing, by each datagram that the stream takes. `late` of the session's settings has its bounds.
//! - `next_deadline` reports when a frame has waited for long enough.
//!
//! The network is simulated: the second of six packets is lost, and its retransmission arrives 64 ms after the third.

use codec_payload::session::Waiting;
use codec_payload::{Event, Session, Ticks, sdp};

type Fail = Box<dyn std::error::Error>;

const OFFER: &str =
    "v=0\nm=audio 9 RTP/AVP 0 97\na=rtpmap:97 rtx/8000\na=fmtp:97 apt=0\na=ssrc-group:FID 7 9\n";
const RTX: u8 = 97;

// ---- The recipe ----

/// A session whose streams wait as long as missing packets are late.
fn session() -> Result<Session, Fail> {
    let mut settings = sdp::session_settings(&sdp::read(OFFER)?)?;
    for format in &mut settings.formats {
        format.wait = Waiting::Late;
    }
    Ok(Session::new(settings)?)
}

fn deadline(session: &Session) -> u64 {
    session.next_deadline().map_or(0, |Ticks(at)| at)
}

/// Polls until there is no event. Returns the number of units.
fn poll(session: &mut Session, now: u64) -> usize {
    let mut units = 0;
    while let Some(event) = session.poll(Ticks(now)) {
        units += usize::from(matches!(event, Event::Unit { .. }));
    }
    units
}

// ---- The simulated network ----

/// A packet of G.711, or its retransmission.
fn packet(number: u8, again: bool) -> Vec<u8> {
    let (payload_type, ssrc) = if again { (RTX, 9) } else { (0, 7) };
    let header = [
        0x80,
        payload_type,
        0,
        number,
        0,
        0,
        number,
        0,
        0,
        0,
        0,
        ssrc,
    ];
    let payload: &[u8] = if again { &[0, number, 1] } else { &[1] };
    [&header, payload].concat()
}

fn main() -> Result<(), Fail> {
    let (mut session, mut units) = (session()?, 0);
    for number in 0..48 {
        let now = 20 * u64::from(number);
        if number % 6 == 1 {
            continue;
        }
        if number % 6 == 0 && number > 0 {
            session.receive(Ticks(now - 16), &packet(number - 5, true))?;
        }
        session.receive(Ticks(now), &packet(number, false))?;
        units += poll(&mut session, now);
    }
    let before = deadline(&session);
    // After the eighth retransmission the limit is 5/4 of 64 ms, so the next packet behind a gap is released after 80 ms.
    session.receive(Ticks(944), &packet(43, true))?;
    session.receive(Ticks(980), &packet(49, false))?;
    units += poll(&mut session, 980);
    let after = deadline(&session);
    println!("{units} units, a deadline at {before} ms and then at {after} ms");
    assert_eq!((before, after), (1_080, 1_060));
    Ok(())
}
