//! From a session description (SDP, RFC 8866) to the settings of receivers and of sessions.
//!
//! What a section says beside formats is lent from the text: names, direction, layers, ICE and DTLS.
//!
//! Written by hand and not proved. Any text may be given: [`read`] does not panic. It reads the text twice; time and memory are in
//! proportion to its length.
//!
//! ```
//! use codec_payload::sdp::{Role, self};
//!
//! # fn main() -> Result<(), Box<dyn std::error::Error>> {
//! let media = sdp::read("v=0\r\nm=audio 9 RTP/AVP 111 0\r\na=rtpmap:111 opus/48000/2\r\na=ptime:60\r\n")?;
//! assert!(matches!(media[0].formats[0].role, Role::Media(spec) if spec.clock_rate.get() == 48_000));
//! assert!(media[0].receiver_settings(111)?.is_some());
//!
//! let text = "v=0\r\na=setup:actpass\r\nm=video 9 UDP/TLS/RTP/SAVPF 96\r\na=mid:1\r\na=rid:h send\r\na=rid:l send\r\n\
//!     a=simulcast:send h;~l\r\na=ice-ufrag:5NkD\r\na=fmtp:96 max-fr=30\r\n";
//! let video = &sdp::read(text)?[0];
//! assert_eq!((video.mid, video.transport.ice_ufrag), (Some("1"), Some("5NkD")));
//! assert_eq!(video.transport.setup, Some(sdp::Setup::ActPass));
//! assert!(video.layers[1].rid == "l" && video.layers[1].is_paused);
//! assert_eq!(video.formats[0].fmtp, "max-fr=30");
//!
//! let fault = sdp::read("v=0\r\nm=audio 9 RTP/AVP 128\r\n").unwrap_err();
//! assert_eq!(fault.to_string(), "line 2: payload type is not 0 to 127");
//! # Ok(())
//! # }
//! ```

mod fec;
mod port;
mod section;
mod text;
mod transport;

pub use fec::fec_port_settings;
pub use port::{MAX_PAIRS, SessionError, pairs, session_settings};
pub use transport::{Direction, Fingerprint, Group, Layer, Msid, Rid, Setup, Transport, groups};

use crate::memory::{AllocError, TryVec};
use crate::rtp::ExtensionIds;
use crate::stream::{ReceiverSettings, RedSettings, Retransmission};
use crate::wire::{CodecSpec, Frequency};
use alloc::vec::Vec;
use core::fmt;

/// The highest number of `m=` sections of a description.
pub const MAX_MEDIA: usize = 1_024;
/// The highest number of SSRCs of a section, and of SSRCs of repair apart from them.
pub const MAX_SOURCES: usize = 128;
/// The highest number of fingerprints of a section.
pub const MAX_FINGERPRINTS: usize = 8;

const DEFAULT_PACKET_TIME: u32 = 20_000;
const MAX_RED_STEP: u64 = 16_383;

/// What a payload type is for.
#[derive(Clone, Copy, Debug, PartialEq, Eq)]
#[non_exhaustive]
pub enum Role {
    /// Media of a codec of this crate.
    Media(CodecSpec),
    /// Redundant audio, or video with error correction (RFC 2198). `over` is the payload type of the primary block, if `a=fmtp`
    /// gives it.
    Red { over: Option<u8> },
    /// Retransmissions (RFC 4588) of the payload type that `apt` gives.
    Retransmission { of: Option<u8> },
    /// Telephone events (RFC 4733).
    TelephoneEvents,
    /// Comfort noise (RFC 3389).
    ComfortNoise,
    /// Forward error correction (RFC 5109, RFC 8627).
    ErrorCorrection,
    /// A codec that this crate lacks, or a payload type without `a=rtpmap`.
    Ignored,
}

/// Which feedback `a=rtcp-fb` agrees on for a payload type (RFC 4585, section 4.2).
#[derive(Clone, Copy, Debug, Default, PartialEq, Eq)]
pub struct Feedback {
    /// `nack`: packets may be requested.
    pub nack: bool,
    /// `nack pli`: keyframes may be requested.
    pub pli: bool,
    /// `ccm fir` (RFC 5104, section 7.1).
    pub fir: bool,
    /// `transport-cc`.
    pub transport_cc: bool,
    /// `goog-remb`.
    pub remb: bool,
}

/// A payload type of an `m=` line, with its `a=rtpmap`, `a=fmtp` and `a=rtcp-fb` lines.
#[derive(Clone, Copy, Debug, PartialEq, Eq)]
pub struct Format<'a> {
    /// 0 to 127.
    pub payload_type: u8,
    pub role: Role,
    /// The encoding name, as it was written; empty if there is none.
    pub name: &'a str,
    /// The rate of the RTP clock. `None` if neither `a=rtpmap` nor RFC 3551 gives it.
    pub clock_rate: Option<Frequency>,
    /// The channels of audio; 1 if the description gives none.
    pub channels: u8,
    /// VP9: `profile-id` (RFC 9628, section 6); AV1: `profile`. 0 by default.
    pub profile: u8,
    pub feedback: Feedback,
    /// What follows the payload type in its last `a=fmtp` (RFC 8866, section 6.15). Empty if there is none.
    pub fmtp: &'a str,
}

/// An SSRC of media, by `a=ssrc` or `a=ssrc-group` (RFC 5576). SSRCs of repair alone are left out.
#[derive(Clone, Copy, Debug, PartialEq, Eq)]
pub struct Source {
    pub ssrc: u32,
    /// The second SSRC of its FID group, for retransmissions.
    pub retransmission: Option<u32>,
}

/// Ids of further header extensions: of names of streams ([`SessionSettings::name_ids`]), of the transport, of the dependency
/// descriptor ([`SessionSettings::dependency_descriptor`]), and of times that this crate neither reads nor writes. `None` if absent.
///
/// [`SessionSettings::name_ids`]: crate::session::SessionSettings::name_ids
/// [`SessionSettings::dependency_descriptor`]: crate::session::SessionSettings::dependency_descriptor
#[derive(Clone, Copy, Debug, Default, PartialEq, Eq)]
pub struct OtherIds {
    /// `sdes:mid` (RFC 9143).
    pub mid: Option<u8>,
    /// `sdes:rtp-stream-id` (RFC 8852).
    pub rid: Option<u8>,
    /// `sdes:repaired-rtp-stream-id` (RFC 8852).
    pub repaired_rid: Option<u8>,
    /// Transport-wide sequence numbers.
    pub transport_cc: Option<u8>,
    /// abs-send-time.
    pub send_time: Option<u8>,
    /// Transmission time offset (RFC 5450).
    pub transmission_offset: Option<u8>,
    /// Dependency descriptor (AV1 RTP specification, appendix A).
    pub dependency_descriptor: Option<u8>,
}

/// The kind of media of a section.
#[derive(Clone, Copy, Debug, Default, PartialEq, Eq)]
pub enum Kind {
    Audio,
    Video,
    #[default]
    Other,
}

/// An `m=` section. All text is lent from the description. If a line that may occur once occurs again, the last one counts.
#[derive(Clone, Debug, Default, PartialEq, Eq)]
pub struct Media<'a> {
    /// The number of its `m=` line, from 1.
    pub line: usize,
    pub kind: Kind,
    /// The first word of the `m=` line, such as `audio`, which an answer repeats.
    pub media_type: &'a str,
    /// The third word of the `m=` line, such as `UDP/TLS/RTP/SAVPF`.
    pub protocol: &'a str,
    /// The port of RTP. 0: the section is refused, or, with `is_bundle_only`, bundled with another.
    pub port: u16,
    /// Whether its protocol is RTP; else it has no formats.
    pub is_rtp: bool,
    /// SRTP, by protocol (RFC 3711, RFC 5764), `a=crypto` or `a=fingerprint`.
    pub is_encrypted: bool,
    /// Whether RTCP comes on the port of RTP (RFC 5761).
    pub has_rtcp_mux: bool,
    /// `a=rtcp-xr` with `rcvr-rtt`, for all or for senders (RFC 3611, section 5.1), in the section or the session: extended reports
    /// measure the round trip. Repeat the line in an answer; [`FeedbackSettings`] have it by default.
    ///
    /// [`FeedbackSettings`]: crate::session::FeedbackSettings
    pub has_receiver_rtt: bool,
    /// `a=bundle-only`: port 0 refuses nothing (RFC 9143, section 6).
    pub is_bundle_only: bool,
    /// `a=ptime`, in microseconds.
    pub packet_time: Option<u32>,
    /// Ids of header extensions (RFC 8285).
    pub extension_ids: ExtensionIds,
    pub other_ids: OtherIds,
    /// In the order of the `m=` line.
    pub formats: Vec<Format<'a>>,
    /// In the order of their first lines.
    pub sources: Vec<Source>,
    /// `a=mid`: the name of the section (RFC 5888, section 4).
    pub mid: Option<&'a str>,
    /// That of the session, if the section has none.
    pub direction: Direction,
    /// ICE and DTLS.
    pub transport: Transport<'a>,
    /// Empty if the section is not RTP, as are `rids` and `layers`.
    pub msids: Vec<Msid<'a>>,
    pub rids: Vec<Rid<'a>>,
    /// Layers of simulcast, in the order of the line.
    pub layers: Vec<Layer<'a>>,
}

/// What is wrong with a line.
#[derive(Clone, Copy, Debug, PartialEq, Eq)]
#[non_exhaustive]
pub enum ErrorKind {
    /// Not a letter of RFC 8866, section 5, and `=`.
    Line,
    /// `m=` without media, port 0 to 65535, protocol, or formats of RTP.
    Media,
    /// A payload type is not a number from 0 to 127.
    PayloadType,
    /// Not NAME/RATE or NAME/RATE/CHANNELS, or a number in it is 0.
    Rtpmap,
    /// A parameter that is read has no value of its range.
    Fmtp,
    /// No id, an id above 255, no URI, or one id for two extensions.
    Extmap,
    /// An SSRC is not a number of 32 bits.
    Ssrc,
    /// Not a number of milliseconds above 0, at most 100,000.
    Ptime,
    /// `a=rtcp-fb` without a type.
    RtcpFb,
    /// `a=mid` is not one word.
    Mid,
    /// `a=msid` is not one or two words.
    Msid,
    /// `a=rid` without an id of letters, digits, `-`, `_`, or without `send` or `recv`.
    Rid,
    /// `a=simulcast` is not `send` or `recv` with ids, each at most once.
    Simulcast,
    /// Not 4 to 256 letters, digits, `+`, `/`, or, of older peers, `-`, `_`, `=`, `#`.
    IceUfrag,
    /// Not 22 to 256 of the same characters.
    IcePwd,
    /// `a=ice-options` without an option.
    IceOptions,
    /// Not at least eight words, the seventh `typ`.
    Candidate,
    /// Not a hash function, and pairs of hexadecimal digits with `:` between them.
    Fingerprint,
    /// None of `active`, `passive`, `actpass` and `holdconn`.
    Setup,
    /// `a=group` without semantics.
    Group,
    /// More than [`MAX_MEDIA`] sections.
    TooManyMedia,
    /// More than [`MAX_SOURCES`] SSRCs in a section.
    TooManySources,
    /// More than [`MAX_FINGERPRINTS`] of a section.
    TooManyFingerprints,
    /// Out of memory; only with the feature `fallible`.
    OutOfMemory,
}

impl fmt::Display for ErrorKind {
    fn fmt(&self, f: &mut fmt::Formatter<'_>) -> fmt::Result {
        f.write_str(match self {
            ErrorKind::Line => "not a line of SDP",
            ErrorKind::Media => "m= line without media, port, protocol or formats",
            ErrorKind::PayloadType => "payload type is not 0 to 127",
            ErrorKind::Rtpmap => "rtpmap is not NAME/RATE or NAME/RATE/CHANNELS",
            ErrorKind::Fmtp => "fmtp parameter out of range",
            ErrorKind::Extmap => "extmap without id or URI, or id used twice",
            ErrorKind::Ssrc => "SSRC is not a number of 32 bits",
            ErrorKind::Ptime => "ptime is not a time of at most 100000 milliseconds",
            ErrorKind::RtcpFb => "rtcp-fb without a type",
            ErrorKind::Mid => "mid is not one word",
            ErrorKind::Msid => "msid is not one or two words",
            ErrorKind::Rid => "rid without id, or without send or recv",
            ErrorKind::Simulcast => "simulcast is not send or recv with ids",
            ErrorKind::IceUfrag => "ice-ufrag is not 4 to 256 characters of ICE",
            ErrorKind::IcePwd => "ice-pwd is not 22 to 256 characters of ICE",
            ErrorKind::IceOptions => "ice-options without an option",
            ErrorKind::Candidate => "candidate lacks a field",
            ErrorKind::Fingerprint => {
                "fingerprint is not a hash function and pairs of hexadecimal digits"
            }
            ErrorKind::Setup => "setup is not active, passive, actpass or holdconn",
            ErrorKind::Group => "group without semantics",
            ErrorKind::TooManyMedia => "more than 1024 media sections",
            ErrorKind::TooManySources => "more than 128 SSRCs in a section",
            ErrorKind::TooManyFingerprints => "more than 8 fingerprints in a section",
            ErrorKind::OutOfMemory => "out of memory",
        })
    }
}

impl From<AllocError> for ErrorKind {
    fn from(_: AllocError) -> Self {
        ErrorKind::OutOfMemory
    }
}

/// A line at fault.
#[derive(Clone, Copy, Debug, PartialEq, Eq)]
pub struct Error {
    /// From 1.
    pub line: usize,
    pub kind: ErrorKind,
}

impl fmt::Display for Error {
    fn fmt(&self, f: &mut fmt::Formatter<'_>) -> fmt::Result {
        write!(f, "line {}: {}", self.line, self.kind)
    }
}

impl core::error::Error for Error {}

/// Reads all `m=` sections of a description, in order.
///
/// Lines end with LF or CRLF. Attributes that this crate does not need are ignored, as are attributes of a payload type that the
/// `m=` line does not have.
///
/// # Errors
///
/// A line is malformed. If several are, the error names one of them.
pub fn read(text: &str) -> Result<Vec<Media<'_>>, Error> {
    let mut rest = text;
    let mut line = 1;
    let mut session = Media::default();
    let mut found = Vec::new();
    if !rest.starts_with("m=") {
        let (lines, count) = text::section(&mut rest);
        session = section::read(lines, line, None)?;
        line += count;
    }
    while !rest.is_empty() {
        if found.len() == MAX_MEDIA {
            let kind = ErrorKind::TooManyMedia;
            return Err(Error { line, kind });
        }
        let (lines, count) = text::section(&mut rest);
        let mut media = section::read(lines, line, Some(&session))?;
        section::inherit(&mut media, &mut session)
            .and_then(|()| found.try_push(media))
            .map_err(|fault| Error {
                line,
                kind: fault.into(),
            })?;
        line += count;
    }
    Ok(found)
}

impl<'a> Media<'a> {
    /// Returns the format of a payload type.
    #[must_use]
    pub fn format(&self, payload_type: u8) -> Option<&Format<'a>> {
        self.formats
            .iter()
            .find(|format| format.payload_type == payload_type)
    }

    /// Returns settings of a receiver for media of a payload type, or `None` if the section has no media of it.
    ///
    /// - Wait limits: for live audio or video, with retransmission if `a=rtcp-fb` has nack for the payload type.
    /// - RED: the RED format over the payload type, or one that names no payload type. The step is `a=ptime`, 20 ms by default, in
    ///   ticks of the RTP clock, 1 to 16,383. Its retransmissions have the first format of RTX whose `apt` is the RED format.
    /// - If the section has exactly one SSRC of media, it is the SSRC of the stream. If it has retransmissions, and a format of
    ///   RTX has the payload type as `apt`, they are set too.
    /// - Types without media: telephone events, comfort noise, error correction. Ids of header extensions, with the id of the
    ///   dependency descriptor.
    ///
    /// # Errors
    ///
    /// [`AllocError`] if memory runs out; only with the feature `fallible`.
    pub fn receiver_settings(
        &self,
        payload_type: u8,
    ) -> Result<Option<ReceiverSettings>, AllocError> {
        let Some(format) = self.format(payload_type) else {
            return Ok(None);
        };
        let Role::Media(spec) = format.role else {
            return Ok(None);
        };
        let limits = match (self.kind, format.feedback.nack) {
            (Kind::Video, true) => ReceiverSettings::live_video_with_nack,
            (Kind::Video, false) => ReceiverSettings::live_video,
            (_, true) => ReceiverSettings::live_audio_with_nack,
            (_, false) => ReceiverSettings::live_audio,
        };
        let mut settings = limits(payload_type, spec.clock_rate);
        settings.extension_ids = self.extension_ids;
        settings.dependency_descriptor = self.other_ids.dependency_descriptor;
        settings.red = self.red_settings(payload_type, spec.clock_rate, true);
        if let [source] = self.sources[..] {
            settings.ssrc = Some(source.ssrc);
            settings.retransmission = self.retransmission(source, payload_type);
        }
        for format in &self.formats {
            if let Role::TelephoneEvents | Role::ComfortNoise | Role::ErrorCorrection = format.role
            {
                settings.no_media.try_push(format.payload_type)?;
            }
        }
        Ok(Some(settings))
    }

    /// RED over the payload type, or, with `any`, RED that names no payload type.
    fn red_settings(
        &self,
        payload_type: u8,
        clock_rate: Frequency,
        any: bool,
    ) -> Option<RedSettings> {
        let red = |over| {
            self.formats
                .iter()
                .find(|format| format.role == Role::Red { over })
        };
        let named = red(Some(payload_type));
        let format = named.or_else(|| red(None).filter(|_| any))?;
        Some(RedSettings {
            payload_type: format.payload_type,
            step: self.red_step(clock_rate),
            retransmission: self.retransmission_type(format.payload_type),
        })
    }

    /// The packet time in ticks of the RTP clock, within what RED can express (RFC 2198, section 3: 14 bits).
    fn red_step(&self, clock_rate: Frequency) -> u32 {
        let time = self.packet_time.unwrap_or(DEFAULT_PACKET_TIME);
        let step = u64::from(time) * u64::from(clock_rate.get()) / 1_000_000;
        step.clamp(1, MAX_RED_STEP) as u32
    }

    fn retransmission(&self, source: Source, payload_type: u8) -> Option<Retransmission> {
        Some(Retransmission {
            ssrc: source.retransmission?,
            payload_type: self.retransmission_type(payload_type)?,
        })
    }

    /// The payload type of the retransmissions of a payload type.
    fn retransmission_type(&self, payload_type: u8) -> Option<u8> {
        let of = Some(payload_type);
        let mut formats = self.formats.iter();
        let format = formats.find(|format| format.role == Role::Retransmission { of })?;
        Some(format.payload_type)
    }
}
