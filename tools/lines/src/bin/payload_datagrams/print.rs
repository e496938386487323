//! The lines of the output.

use crate::digits::hex_text;
use codec_payload::jitter::{MissingNumbers, Outcome};
use codec_payload::sender::Sender;
use codec_payload::stream::{Counters, Popped, ReceptionReport};
use codec_payload::{AllocError, PacketError, Ticks};

/// The word of an outcome.
pub fn word_of(outcome: Outcome) -> &'static str {
    match outcome {
        Outcome::Held => "held",
        Outcome::HeldAndEvicted => "evicted",
        Outcome::Duplicate => "duplicate",
        Outcome::Late => "late",
        Outcome::Suspect => "suspect",
        Outcome::Restarted(true) => "restarted",
        Outcome::Restarted(false) => "restarted alone",
        Outcome::NoMedia => "no media",
        Outcome::OtherStream => "other stream",
        Outcome::Rtcp => "rtcp",
        Outcome::Undecided => "undecided",
        _ => unreachable!("this version has no other"),
    }
}

/// What a pop gave, and the RTP time of the latest unit.
pub fn popped_line(popped: Option<Result<Popped, AllocError>>, time: Option<u64>) -> String {
    match popped {
        None => "none".into(),
        Some(Err(_)) => format!("fault {}", PacketError::OutOfMemory.number()),
        Some(Ok(Popped::Refused(fault))) => format!("fault {}", fault.number()),
        Some(Ok(Popped::TooLarge(unit))) => format!("too large {}", unit.bytes.len()),
        Some(Ok(Popped::Unit(unit))) => {
            let numbers = unit.seq_range();
            let (first, last) = (numbers.start().0, numbers.end().0);
            let contiguous = u8::from(unit.contiguous);
            let time = time.unwrap_or(0);
            let bytes = hex_text(&unit.bytes);
            format!("unit {first} {last} {contiguous} {time} {bytes}")
        }
    }
}

/// When a pop may give more.
pub fn deadline_line(deadline: Option<Ticks>) -> String {
    match deadline {
        Some(at) => format!("deadline {}", at.0),
        None => "deadline -".into(),
    }
}

/// The numbers that are missing.
pub fn missing_line(missing: MissingNumbers<'_>) -> String {
    let mut text = String::from("missing");
    for number in missing {
        text += &format!(" {number}");
    }
    text
}

/// How many datagrams had which outcome.
pub fn counters_line(counters: &Counters, held: usize) -> String {
    let packets = &counters.packets;
    let rows = [
        ("received", counters.received),
        ("recovered", packets.recovered),
        ("rtcp", counters.rtcp),
        ("malformed", counters.malformed),
        ("other", counters.other_streams),
        ("undecided", counters.undecided),
        ("no_media", packets.no_media),
        ("duplicates", packets.duplicates),
        ("late", packets.late),
        ("suspect", packets.suspect),
        ("evicted", packets.evicted),
        ("held", held as u64),
        ("released", packets.released),
        ("left", packets.left),
        ("restarts", packets.restarts),
        ("retransmitted", packets.retransmitted),
        ("units", packets.units),
    ];
    let mut text = String::from("counters");
    for (name, count) in rows.iter().filter(|(_, count)| *count > 0) {
        text += &format!(" {name} {count}");
    }
    text
}

/// The fields of a receiver report.
pub fn report_line(report: Option<ReceptionReport>) -> String {
    match report {
        Some(report) => format!(
            "report {} {} {} {}",
            report.fraction_lost, report.cumulative_lost, report.highest, report.jitter
        ),
        None => "report -".into(),
    }
}

/// The datagrams of a sample, or why it has none.
pub fn sent_lines(answer: Result<(), PacketError>, sender: &Sender) -> String {
    let mut text = match answer {
        Ok(()) => format!("sent {}\n", sender.len()),
        Err(fault) => format!("refused {}\n", fault.number()),
    };
    for place in 0..sender.len() {
        text += &format!("datagram {}\n", hex_text(sender.datagram(place)));
    }
    text
}
