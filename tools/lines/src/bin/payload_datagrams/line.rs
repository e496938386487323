//! The lines of the input.

use crate::codecs::{codec_named, is_octet_aligned};
use crate::digits::hex_field;
use crate::setup::{SenderSetup, Setting, Stream};
use codec_payload::jitter::WaitLimits;
use codec_payload::stream::{RedSettings, Retransmission};
use codec_payload::{CodecSpec, Frequency};
use payload_lines::numbers::{decimal, truth};

/// A line of the input, without its newline.
#[derive(Debug)]
pub enum Line {
    Stream(Stream),
    Set(Setting),
    Receive,
    Send(SenderSetup),
    Event(Event),
    Datagram {
        now: u64,
        bytes: Vec<u8>,
    },
    Packet(Vec<u8>),
    Sample {
        time: u64,
        talk_spurt: bool,
        bytes: Vec<u8>,
    },
}

/// A question to a receiver.
#[derive(Clone, Copy, Debug)]
pub enum Event {
    Pop(u64),
    Deadline,
    Missing(usize),
    Finish,
    Restart,
    Counters,
    Report,
}

impl Line {
    /// The line that a text spells, whose fields have one space between them. `None` for any other text.
    pub fn parse(text: &str) -> Option<Line> {
        let fields: Vec<&str> = text.split(' ').collect();
        match fields[..] {
            ["datagram", now, bytes] => Some(Line::Datagram {
                now: number(now)?,
                bytes: hex_field(bytes)?,
            }),
            ["packet", bytes] => hex_field(bytes).map(Line::Packet),
            ["sample", time, talk_spurt, bytes] => Some(Line::Sample {
                time: number(time)?,
                talk_spurt: truth(talk_spurt)?,
                bytes: hex_field(bytes)?,
            }),
            ["stream", codec, rate, payload_type] => {
                stream_of(codec, rate, payload_type).map(Line::Stream)
            }
            ["send", codec, rate, payload_type, ssrc, first, mtu] => {
                Some(Line::Send(SenderSetup {
                    stream: stream_of(codec, rate, payload_type)?,
                    ssrc: number(ssrc)?,
                    first_number: number(first)?,
                    mtu: number(mtu)?,
                }))
            }
            ["receive"] => Some(Line::Receive),
            _ => event_of(&fields)
                .map(Line::Event)
                .or_else(|| setting_of(&fields).map(Line::Set)),
        }
    }
}

/// A question to a receiver.
fn event_of(fields: &[&str]) -> Option<Event> {
    match *fields {
        ["pop", now] => Some(Event::Pop(number(now)?)),
        ["deadline"] => Some(Event::Deadline),
        ["missing", most] => Some(Event::Missing(number(most)?)),
        ["finish"] => Some(Event::Finish),
        ["restart"] => Some(Event::Restart),
        ["counters"] => Some(Event::Counters),
        ["report"] => Some(Event::Report),
        _ => None,
    }
}

/// A setting of a receiver.
fn setting_of(fields: &[&str]) -> Option<Setting> {
    match *fields {
        ["wait", hold_back, start, max_wait] => Some(Setting::Wait({
            let mut limits = WaitLimits::live();
            limits.hold_back = optional(hold_back)?;
            limits.start = number(start)?;
            limits.max_wait = optional(max_wait)?;
            limits
        })),
        ["limit", packets] => Some(Setting::Limit(number(packets)?)),
        ["windows", forward, backward] => Some(Setting::Windows {
            forward: number(forward)?,
            backward: number(backward)?,
        }),
        ["ssrc", ssrc] => Some(Setting::Ssrc(number(ssrc)?)),
        ["no_media", payload_type] => Some(Setting::NoMedia(number(payload_type)?)),
        ["red", payload_type, step] => Some(Setting::Red(RedSettings {
            payload_type: number(payload_type)?,
            step: number(step)?,
            retransmission: None,
        })),
        ["again", ssrc, payload_type] => Some(Setting::Again(Retransmission {
            ssrc: number(ssrc)?,
            payload_type: number(payload_type)?,
        })),
        ["ticks", rate] => Some(Setting::TickRate(Frequency::make(number(rate)?)?)),
        _ => None,
    }
}

/// A codec and its payload type.
fn stream_of(codec: &str, rate: &str, payload_type: &str) -> Option<Stream> {
    let spec = CodecSpec {
        codec: codec_named(codec)?,
        clock_rate: Frequency::make(number(rate)?)?,
        octet_align: is_octet_aligned(codec),
    };
    Some(Stream {
        spec,
        payload_type: number(payload_type)?,
    })
}

/// The number that decimal digits spell, if it fits the type.
fn number<T: TryFrom<u64>>(field: &str) -> Option<T> {
    T::try_from(decimal(field)?).ok()
}

/// A number, or `-` for none.
fn optional<T: TryFrom<u64>>(field: &str) -> Option<Option<T>> {
    match field {
        "-" => Some(None),
        _ => number(field).map(Some),
    }
}
