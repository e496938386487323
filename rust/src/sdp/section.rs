//! The lines of a section.
//!
//! A section is read twice: first its `m=` and `a=rtpmap` lines, which say what each payload type is, then all others. So the order
//! of the lines does not matter.

use super::text::{byte, number, parts, trimmed, without_end, word};
use super::transport::{Part, Transport, group, read_flag, read_value};
use super::{Error, ErrorKind, Feedback, Format, Kind, MAX_SOURCES, Media, Role, Source};
use crate::memory::{AllocError, TryVec};
use crate::wire::{Codec, CodecSpec, Frequency};
use alloc::vec::Vec;

type Read = Result<(), ErrorKind>;

const MAX_PAYLOAD_TYPE: u8 = 127;
/// In microseconds.
const MAX_PACKET_TIME: u32 = 100_000_000;
/// The letters of lines (RFC 8866, section 5).
const LETTERS: &[u8] = b"vosiuepcbtrzkam";
/// Ids of an offer, whose answer chooses an id (RFC 8285, section 6).
const FIRST_UNASSIGNED_ID: u32 = 4_096;
const LAST_UNASSIGNED_ID: u32 = 4_351;

/// Payload types that need no `a=rtpmap` (RFC 3551, section 6): name, rate and channels.
const STATIC_TYPES: [(u8, &str, u32, u8); 24] = [
    (0, "PCMU", 8_000, 1),
    (3, "GSM", 8_000, 1),
    (4, "G723", 8_000, 1),
    (5, "DVI4", 8_000, 1),
    (6, "DVI4", 16_000, 1),
    (7, "LPC", 8_000, 1),
    (8, "PCMA", 8_000, 1),
    (9, "G722", 8_000, 1),
    (10, "L16", 44_100, 2),
    (11, "L16", 44_100, 1),
    (12, "QCELP", 8_000, 1),
    (13, "CN", 8_000, 1),
    (14, "MPA", 90_000, 1),
    (15, "G728", 8_000, 1),
    (16, "DVI4", 11_025, 1),
    (17, "DVI4", 22_050, 1),
    (18, "G729", 8_000, 1),
    (25, "CelB", 90_000, 1),
    (26, "JPEG", 90_000, 1),
    (28, "nv", 90_000, 1),
    (31, "H261", 90_000, 1),
    (32, "MPV", 90_000, 1),
    (33, "MP2T", 90_000, 1),
    (34, "H263", 90_000, 1),
];

/// The header extensions whose ids are given, by URI.
const URIS: [&str; 13] = [
    "http://www.webrtc.org/experiments/rtp-hdrext/abs-capture-time",
    "urn:3gpp:video-orientation",
    "http://www.webrtc.org/experiments/rtp-hdrext/video-content-type",
    "http://www.webrtc.org/experiments/rtp-hdrext/video-timing",
    "http://www.webrtc.org/experiments/rtp-hdrext/video-layers-allocation00",
    "urn:ietf:params:rtp-hdrext:ssrc-audio-level",
    "urn:ietf:params:rtp-hdrext:sdes:mid",
    "urn:ietf:params:rtp-hdrext:sdes:rtp-stream-id",
    "urn:ietf:params:rtp-hdrext:sdes:repaired-rtp-stream-id",
    "http://www.ietf.org/id/draft-holmer-rmcat-transport-wide-cc-extensions-01",
    "http://www.webrtc.org/experiments/rtp-hdrext/abs-send-time",
    "urn:ietf:params:rtp-hdrext:toffset",
    "https://aomediacodec.github.io/av1-rtp-spec/#dependency-descriptor-rtp-header-extension",
];

/// The id of an extension of [`URIS`].
fn id_of<'m>(media: &'m mut Media<'_>, place: usize) -> &'m mut Option<u8> {
    match place {
        0 => &mut media.extension_ids.abs_capture_time,
        1 => &mut media.extension_ids.video_orientation,
        2 => &mut media.extension_ids.video_content_type,
        3 => &mut media.extension_ids.video_timing,
        4 => &mut media.extension_ids.layers_allocation,
        5 => &mut media.extension_ids.audio_level,
        6 => &mut media.other_ids.mid,
        7 => &mut media.other_ids.rid,
        8 => &mut media.other_ids.repaired_rid,
        9 => &mut media.other_ids.transport_cc,
        10 => &mut media.other_ids.send_time,
        11 => &mut media.other_ids.transmission_offset,
        _ => &mut media.other_ids.dependency_descriptor,
    }
}

fn has_id(media: &mut Media<'_>, id: u8) -> bool {
    (0..URIS.len()).any(|place| *id_of(media, place) == Some(id))
}

/// A section that is read.
struct Section<'a> {
    media: Media<'a>,
    is_session: bool,
    /// SSRCs of repair alone.
    repair: Vec<u32>,
}

/// Reads the lines of a section, or, without `session`, those in front of the first one. `line` is the number of the first.
pub(super) fn read<'a>(
    lines: &'a str,
    line: usize,
    session: Option<&Media<'a>>,
) -> Result<Media<'a>, Error> {
    let mut section = Section {
        media: Media {
            line,
            ..Media::default()
        },
        is_session: session.is_none(),
        repair: Vec::new(),
    };
    if let Some(session) = session {
        section.media.direction = session.direction;
        section.media.transport = Transport::of_session(&session.transport);
    }
    for pass in [Section::read_formats, Section::read_attribute] {
        for (place, text) in lines.split_inclusive('\n').enumerate() {
            pass(&mut section, without_end(text)).map_err(|kind| Error {
                line: line + place,
                kind,
            })?;
        }
    }
    let Section {
        mut media, repair, ..
    } = section;
    media
        .sources
        .retain(|source| !repair.contains(&source.ssrc));
    Ok(media)
}

/// A section takes fingerprints of the session if it has none, and ids for extensions that have no id in the section.
pub(super) fn inherit<'a>(
    media: &mut Media<'a>,
    session: &mut Media<'a>,
) -> Result<(), AllocError> {
    media.is_encrypted |= session.is_encrypted;
    media.has_receiver_rtt |= media.is_rtp && session.has_receiver_rtt;
    media.transport.inherit_fingerprints(&session.transport)?;
    for place in 0..URIS.len() {
        let of_session = *id_of(session, place);
        let Some(id) = of_session.filter(|id| !has_id(media, *id)) else {
            continue;
        };
        let of_media = id_of(media, place);
        *of_media = of_media.or(Some(id));
    }
    Ok(())
}

/// Adds the ids of another section of the same port. An id that differs is the error.
pub(super) fn join_ids(all: &mut Media<'_>, section: &Media<'_>) -> Result<(), u8> {
    let mut section = Media {
        extension_ids: section.extension_ids,
        other_ids: section.other_ids,
        ..Media::default()
    };
    for place in 0..URIS.len() {
        let Some(id) = *id_of(&mut section, place) else {
            continue;
        };
        let known = *id_of(all, place);
        match known {
            Some(known) if known == id => {}
            None if !has_id(all, id) => *id_of(all, place) = Some(id),
            _ => return Err(id),
        }
    }
    Ok(())
}

/// The format of a name.
fn described(payload_type: u8, name: &str, rate: Option<Frequency>, channels: u8) -> Format<'_> {
    let is = |other: &str| name.eq_ignore_ascii_case(other);
    let is_correction = ["ulpfec", "parityfec", "flexfec", "flexfec-03"]
        .iter()
        .any(|other| is(other));
    let role = match (name.parse().unwrap_or(Codec::Unknown), rate) {
        (Codec::CN, _) => Role::ComfortNoise,
        (Codec::Tele, _) => Role::TelephoneEvents,
        (Codec::Rtx, _) => Role::Retransmission { of: None },
        (Codec::Red, _) => Role::Red { over: None },
        (
            codec @ (Codec::Opus
            | Codec::PCMU
            | Codec::PCMA
            | Codec::G722
            | Codec::AmrWb
            | Codec::Vp8
            | Codec::Vp9
            | Codec::Av1),
            Some(clock_rate),
        ) => Role::Media(CodecSpec {
            codec,
            clock_rate,
            octet_align: false,
        }),
        _ if is_correction => Role::ErrorCorrection,
        _ => Role::Ignored,
    };
    Format {
        payload_type,
        role,
        name,
        clock_rate: rate,
        channels,
        profile: 0,
        fmtp: "",
        feedback: Feedback::default(),
    }
}

fn payload_type(text: &str) -> Result<u8, ErrorKind> {
    byte(text, MAX_PAYLOAD_TYPE).ok_or(ErrorKind::PayloadType)
}

fn ssrc(text: &str) -> Result<u32, ErrorKind> {
    number(text, u32::MAX).ok_or(ErrorKind::Ssrc)
}

/// `rcvr-rtt=all:10000 stat-summary=loss`
fn has_receiver_rtt(mut rest: &str) -> bool {
    loop {
        let format = word(&mut rest);
        match format
            .strip_prefix("rcvr-rtt=")
            .map(|mode| parts(mode, ':').0)
        {
            Some("all" | "sender") => return true,
            _ if format.is_empty() => return false,
            _ => {}
        }
    }
}

impl<'a> Section<'a> {
    /// Reads what says the formats: the first pass.
    fn read_formats(&mut self, line: &'a str) -> Read {
        if let Some(value) = line.strip_prefix("m=") {
            return self.read_media(value);
        }
        match line.strip_prefix("a=rtpmap:") {
            Some(value) if self.media.is_rtp => self.read_rtpmap(value),
            _ => Ok(()),
        }
    }

    /// Reads all else: the second pass.
    fn read_attribute(&mut self, line: &'a str) -> Read {
        match line.as_bytes() {
            [] => return Ok(()),
            [letter, b'=', ..] if LETTERS.contains(letter) => {}
            _ => return Err(ErrorKind::Line),
        }
        let Some(attribute) = line.strip_prefix("a=") else {
            return Ok(());
        };
        let Some((name, value)) = attribute.split_once(':') else {
            self.media.has_rtcp_mux |= self.media.is_rtp && attribute == "rtcp-mux";
            read_flag(&mut self.media, attribute, self.is_session);
            return Ok(());
        };
        self.media.is_encrypted |= name == "crypto" || name == "fingerprint";
        match name {
            "extmap" => self.read_extmap(value),
            "group" if self.is_session => group(value).map(drop),
            "rtcp-xr" if self.is_session || self.media.is_rtp => {
                self.media.has_receiver_rtt |= has_receiver_rtt(value);
                Ok(())
            }
            _ if self.is_session => read_value(&mut self.media, Part::Session, name, value),
            _ if !self.media.is_rtp => read_value(&mut self.media, Part::Other, name, value),
            "fmtp" => self.read_fmtp(value),
            "rtcp-fb" => self.read_feedback(value),
            "ssrc" => self.read_ssrc(value),
            "ssrc-group" => self.read_group(value),
            "ptime" => self.read_packet_time(value),
            _ => read_value(&mut self.media, Part::Rtp, name, value),
        }
    }

    /// `audio 49170/2 UDP/TLS/RTP/SAVPF 111 0`
    fn read_media(&mut self, mut rest: &'a str) -> Read {
        let (kind, port, protocol) = (word(&mut rest), word(&mut rest), word(&mut rest));
        let port = number(parts(port, '/').0, u16::MAX.into()).ok_or(ErrorKind::Media)?;
        if kind.is_empty() || protocol.is_empty() {
            return Err(ErrorKind::Media);
        }
        self.media.port = port as u16;
        self.media.media_type = kind;
        self.media.protocol = protocol;
        self.media.kind = if kind.eq_ignore_ascii_case("audio") {
            Kind::Audio
        } else if kind.eq_ignore_ascii_case("video") {
            Kind::Video
        } else {
            Kind::Other
        };
        for layer in protocol.split('/') {
            self.media.is_rtp |= layer.eq_ignore_ascii_case("RTP");
            self.media.is_encrypted |= layer.starts_with("SAVP");
        }
        while self.media.is_rtp {
            let text = word(&mut rest);
            if text.is_empty() {
                break;
            }
            self.add_format(payload_type(text)?)?;
        }
        if self.media.is_rtp && self.media.formats.is_empty() {
            return Err(ErrorKind::Media);
        }
        Ok(())
    }

    fn add_format(&mut self, payload_type: u8) -> Read {
        if self.media.format(payload_type).is_some() {
            return Ok(());
        }
        let known = STATIC_TYPES.iter().find(|known| known.0 == payload_type);
        let format = match known {
            Some(&(_, name, rate, channels)) => {
                described(payload_type, name, Frequency::make(rate), channels)
            }
            None => described(payload_type, "", None, 1),
        };
        Ok(self.media.formats.try_push(format)?)
    }

    fn format(&mut self, payload_type: u8) -> Option<&mut Format<'a>> {
        self.media
            .formats
            .iter_mut()
            .find(|format| format.payload_type == payload_type)
    }

    /// `111 opus/48000/2`
    fn read_rtpmap(&mut self, mut rest: &'a str) -> Read {
        let payload_type = payload_type(word(&mut rest))?;
        let (name, numbers) = parts(word(&mut rest), '/');
        let (rate, channels) = parts(numbers, '/');
        let rate = number(rate, u32::MAX).and_then(Frequency::make);
        let channels = match channels {
            "" => Some(1),
            _ => byte(channels, u8::MAX).filter(|&channels| channels > 0),
        };
        let (Some(rate), Some(channels), false) = (rate, channels, name.is_empty()) else {
            return Err(ErrorKind::Rtpmap);
        };
        if let Some(format) = self.format(payload_type) {
            *format = described(payload_type, name, Some(rate), channels);
        }
        Ok(())
    }

    /// `97 apt=96`, `111 minptime=10;useinbandfec=1`
    fn read_fmtp(&mut self, mut rest: &'a str) -> Read {
        let payload_type = payload_type(word(&mut rest))?;
        let Some(format) = self.format(payload_type) else {
            return Ok(());
        };
        format.fmtp = trimmed(rest);
        if let Role::Red { over } = &mut format.role {
            *over = Some(primary_of(word(&mut rest)).ok_or(ErrorKind::Fmtp)?);
            return Ok(());
        }
        for parameter in rest.split(';') {
            let (key, value) = parts(parameter, '=');
            read_parameter(format, trimmed(key), trimmed(value)).ok_or(ErrorKind::Fmtp)?;
        }
        Ok(())
    }

    /// `96 nack pli`, `* nack` (RFC 4585, section 4.2)
    fn read_feedback(&mut self, mut rest: &str) -> Read {
        let (types, kind, parameter) = (word(&mut rest), word(&mut rest), word(&mut rest));
        let only = match types {
            "*" => None,
            _ => Some(payload_type(types)?),
        };
        if kind.is_empty() {
            return Err(ErrorKind::RtcpFb);
        }
        for format in &mut self.media.formats {
            if only.is_none_or(|payload_type| format.payload_type == payload_type) {
                add_feedback(&mut format.feedback, kind, parameter);
            }
        }
        Ok(())
    }

    /// `3/sendonly urn:3gpp:video-orientation`. If one extension has two ids, the first counts.
    fn read_extmap(&mut self, mut rest: &str) -> Read {
        let (mapped, uri) = (word(&mut rest), word(&mut rest));
        let id = match number(parts(mapped, '/').0, LAST_UNASSIGNED_ID) {
            Some(FIRST_UNASSIGNED_ID..) if !uri.is_empty() => return Ok(()),
            Some(id @ 1..=255) if !uri.is_empty() => id as u8,
            _ => return Err(ErrorKind::Extmap),
        };
        let Some(place) = URIS.iter().position(|known| *known == uri) else {
            return Ok(());
        };
        if id_of(&mut self.media, place).is_some() {
            return Ok(());
        }
        if has_id(&mut self.media, id) {
            return Err(ErrorKind::Extmap);
        }
        *id_of(&mut self.media, place) = Some(id);
        Ok(())
    }

    /// Finds a source, and adds it if there is room. Returns its place.
    fn source(&mut self, ssrc: u32) -> Result<usize, ErrorKind> {
        let sources = &mut self.media.sources;
        if let Some(place) = sources.iter().position(|source| source.ssrc == ssrc) {
            return Ok(place);
        }
        if sources.len() == MAX_SOURCES {
            return Err(ErrorKind::TooManySources);
        }
        sources.try_push(Source {
            ssrc,
            retransmission: None,
        })?;
        Ok(sources.len() - 1)
    }

    /// `7 cname:..`
    fn read_ssrc(&mut self, mut rest: &str) -> Read {
        self.source(ssrc(word(&mut rest))?).map(drop)
    }

    /// `FID 7 9`: after the first SSRC of FID (retransmissions), FEC and FEC-FR (RFC 5956) repair alone follows.
    fn read_group(&mut self, mut rest: &str) -> Read {
        let semantics = word(&mut rest);
        let is = |other: &str| semantics.eq_ignore_ascii_case(other);
        let repairs = is("FID") || is("FEC") || is("FEC-FR");
        let mut first = None;
        loop {
            let text = word(&mut rest);
            if text.is_empty() {
                return Ok(());
            }
            let ssrc = ssrc(text)?;
            match first {
                Some(place) if repairs => {
                    self.add_repair(ssrc)?;
                    let source: &mut Source = &mut self.media.sources[place];
                    if is("FID") {
                        source.retransmission.get_or_insert(ssrc);
                    }
                }
                _ => first = Some(self.source(ssrc)?),
            }
        }
    }

    fn add_repair(&mut self, ssrc: u32) -> Read {
        if self.repair.len() == MAX_SOURCES {
            return Err(ErrorKind::TooManySources);
        }
        Ok(self.repair.try_push(ssrc)?)
    }

    /// Milliseconds, with a fraction or without.
    fn read_packet_time(&mut self, mut rest: &str) -> Read {
        let (whole, fraction) = parts(word(&mut rest), '.');
        let whole = number(whole, MAX_PACKET_TIME / 1_000).ok_or(ErrorKind::Ptime)?;
        let mut time = whole * 1_000;
        let mut unit = 100;
        for digit in fraction.chars() {
            time += unit * digit.to_digit(10).ok_or(ErrorKind::Ptime)?;
            unit /= 10;
        }
        if time == 0 || time > MAX_PACKET_TIME {
            return Err(ErrorKind::Ptime);
        }
        self.media.packet_time = Some(time);
        Ok(())
    }
}

/// The first payload type of `111/111`, the list of RED (RFC 2198, section 5).
fn primary_of(list: &str) -> Option<u8> {
    let list = list.strip_suffix('/').unwrap_or(list);
    let mut types = list.split('/').map(|text| byte(text, MAX_PAYLOAD_TYPE));
    let primary = types.next()??;
    types.all(|other| other.is_some()).then_some(primary)
}

/// Reads a parameter of `a=fmtp`. `None` if its value is out of range.
fn read_parameter(format: &mut Format<'_>, key: &str, value: &str) -> Option<()> {
    let is = |other: &str| key.eq_ignore_ascii_case(other);
    match &mut format.role {
        Role::Retransmission { of } if is("apt") => *of = Some(byte(value, MAX_PAYLOAD_TYPE)?),
        Role::Media(spec) => match spec.codec {
            Codec::Vp9 if is("profile-id") => format.profile = byte(value, u8::MAX)?,
            Codec::Av1 if is("profile") => format.profile = byte(value, u8::MAX)?,
            Codec::AmrWb => return read_amr_wb(&mut format.role, key, value),
            _ => {}
        },
        _ => {}
    }
    Some(())
}

/// A parameter of AMR-WB. CRCs, sorting and interleaving (RFC 4867, section 8.1) are payloads that the crate does not read.
fn read_amr_wb(role: &mut Role, key: &str, value: &str) -> Option<()> {
    let is = |other: &str| key.eq_ignore_ascii_case(other);
    let mut is_unsupported = is("interleaving");
    if is("crc") || is("robust-sorting") {
        is_unsupported = byte(value, 1)? == 1;
    }
    match role {
        _ if is_unsupported => *role = Role::Ignored,
        Role::Media(spec) if is("octet-align") => spec.octet_align = byte(value, 1)? == 1,
        _ => {}
    }
    Some(())
}

fn add_feedback(feedback: &mut Feedback, kind: &str, parameter: &str) {
    let is = |other: &str| kind.eq_ignore_ascii_case(other);
    feedback.nack |= is("nack") && parameter.is_empty();
    feedback.pli |= is("nack") && parameter.eq_ignore_ascii_case("pli");
    feedback.fir |= is("ccm") && parameter.eq_ignore_ascii_case("fir");
    feedback.transport_cc |= is("transport-cc");
    feedback.remb |= is("goog-remb");
}
