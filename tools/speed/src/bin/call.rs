//! Passes the datagrams of a captured call to a session, each at its time, with polls until there is no event:
//!
//!   call SDP PCAP
//!
//! - SDP: the session description of the sender. Requests are made, and go nowhere.
//! - PCAP: a capture of tcpdump, little-endian, with microseconds, of UDP over IPv4 over Ethernet.
//!
//! It prints how many datagrams the function `counted` had, inside which tools/measure/front_door.py counts instructions by
//! callgrind.

use codec_payload::sdp;
use codec_payload::session::{Event, FeedbackSettings, Session};
use codec_payload::{PoppedUnit, Ticks};
use std::error::Error;

/// The lengths of the headers of a capture, of a packet in it, of Ethernet, and of UDP.
const CAPTURE: usize = 24;
const RECORD: usize = 16;
const ETHERNET: usize = 14;
const UDP: usize = 8;

fn number_at(bytes: &[u8], at: usize) -> usize {
    u32::from_le_bytes(bytes[at..at + 4].try_into().unwrap()) as usize
}

/// The payload of a frame of Ethernet with IPv4 and UDP.
fn datagram_in(frame: &[u8]) -> Option<&[u8]> {
    if frame.get(12..14)? != [8, 0] || *frame.get(23)? != 17 {
        return None;
    }
    let start = ETHERNET + 4 * usize::from(frame[14] & 15) + UDP;
    let size = u16::from_be_bytes(frame.get(start - 4..start - 2)?.try_into().unwrap());
    frame.get(start..start + usize::from(size).checked_sub(UDP)?)
}

#[inline(never)]
fn counted(session: &mut Session, now: Ticks, datagram: &[u8], unit: &mut PoppedUnit) -> usize {
    let mut units = 0;
    session.receive(now, datagram).unwrap();
    while let Some(event) = session.poll_into(now, unit) {
        units += usize::from(matches!(event, Event::Unit { unit: Ok(()), .. }));
    }
    units
}

fn main() -> Result<(), Box<dyn Error>> {
    let words: Vec<String> = std::env::args().collect();
    let [_, description, capture] = &words[..] else {
        return Err("call SDP PCAP".into());
    };
    let mut settings = sdp::session_settings(&sdp::read(&std::fs::read_to_string(description)?)?)?;
    settings.feedback = Some(FeedbackSettings::live(1, b"bench".to_vec()));
    let mut session = Session::new(settings)?;
    let (mut unit, mut done, mut units) = (PoppedUnit::new(), 0, 0);
    let bytes = std::fs::read(capture)?;
    let mut rest = &bytes[CAPTURE..];
    while rest.len() > RECORD {
        let (record, behind) = rest.split_at(RECORD);
        let now = 1_000 * number_at(record, 0) + number_at(record, 4) / 1_000;
        let (frame, behind) = behind.split_at(number_at(record, 8).min(behind.len()));
        if let Some(datagram) = datagram_in(frame) {
            units += counted(&mut session, Ticks(now as u64), datagram, &mut unit);
            done += 1;
        }
        rest = behind;
    }
    if units == 0 {
        return Err("no unit".into());
    }
    println!("{done}");
    Ok(())
}
