//! The settings of a session from the sections of a port.

use super::section::join_ids;
use super::{Media, Role};
use crate::feedback::TransportSettings;
use crate::jitter::WaitLimits;
use crate::memory::{AllocError, TryVec};
use crate::session::{Format, SessionSettings, SessionSettingsError, SsrcPair, StreamNameIds};
use crate::stream::RedSettings;
use crate::wire::Codec;
use core::fmt;

/// The highest number of pairs of SSRCs in the settings of a session.
pub const MAX_PAIRS: usize = 1_024;

const PAYLOAD_TYPES: usize = 128;

/// Why the sections of a port give no settings of a session.
#[derive(Clone, Copy, Debug, PartialEq, Eq)]
#[non_exhaustive]
pub enum SessionError {
    /// No section has media of a codec of this crate.
    NoMedia,
    /// This payload type is 64 to 95 (RFC 5761, section 4) or above 127, or two sections use it differently.
    PayloadType(u8),
    /// Two sections use this id for different header extensions, or another id for the same one.
    ExtensionId(u8),
    /// More than [`MAX_PAIRS`] pairs of SSRCs.
    TooManyPairs,
    /// Out of memory; only with the feature `fallible`.
    OutOfMemory,
}

impl fmt::Display for SessionError {
    fn fmt(&self, f: &mut fmt::Formatter<'_>) -> fmt::Result {
        match self {
            SessionError::NoMedia => f.write_str("no media of a supported codec"),
            SessionError::PayloadType(it) => {
                write!(
                    f,
                    "payload type {it} is 64 to 95, exceeds 127 or has two uses"
                )
            }
            SessionError::ExtensionId(it) => {
                write!(f, "header extension id {it} differs between sections")
            }
            SessionError::TooManyPairs => f.write_str("more than 1024 pairs of SSRCs"),
            SessionError::OutOfMemory => f.write_str("out of memory"),
        }
    }
}

impl core::error::Error for SessionError {}

impl From<AllocError> for SessionError {
    fn from(_: AllocError) -> Self {
        SessionError::OutOfMemory
    }
}

/// Returns settings of a session that receives these sections on one port: all sections of a bundle (RFC 9143), or the one section
/// of a port of its own. Leave out sections that were refused. Sections that are not RTP are ignored.
///
/// - Formats: those of [`Media::session_format`], in the order of the sections. If two sections have a payload type, packets or
///   keyframes of it are requested only if both agree on that. If RED that names no payload type would be over two formats, it is
///   over the first.
/// - Telephone events: polls return their packets.
/// - Types without media: comfort noise, error correction.
/// - Pairs of SSRCs: those of [`pairs`].
/// - Ids of header extensions: those of all sections, of values, of names of streams (MID, RID and repaired RID), and of the
///   dependency descriptor.
/// - Transport: [`TransportSettings::live`] with the id of transport-wide-cc, if a section has its `a=extmap` and a format of the
///   session has `a=rtcp-fb` with `transport-cc`. So pass the description that both sides agreed on, or the offer if you accept both.
/// - Wait limits: for live audio and video, with retransmission if a format of the kind has `nack`.
/// - All else is as in [`SessionSettings::live`]. Nothing is requested until you set `feedback`.
///
/// A session can meet the settings: [`SessionSettings::check`] finds no fault. The cost is a step for each pair of formats and for
/// each SSRC.
///
/// # Errors
///
/// - `NoMedia`: no section has media of a codec of this crate.
/// - `PayloadType`: two sections use a payload type differently, so that a packet does not say what it is; or the settings would
///   have one of 64 to 95, whose packets can look like RTCP on the same port.
/// - `ExtensionId`: the sections use the ids of header extensions differently.
/// - `TooManyPairs`: more than [`MAX_PAIRS`] pairs.
/// - `OutOfMemory`: only with the feature `fallible`.
///
/// ```
/// use codec_payload::sdp;
///
/// # fn main() -> Result<(), Box<dyn std::error::Error>> {
/// let text = "v=0\r\nm=audio 9 RTP/AVP 0\r\nm=video 9 RTP/AVP 96 97\r\na=rtpmap:96 VP8/90000\r\na=rtcp-fb:96 nack\r\n\
///     a=rtpmap:97 rtx/90000\r\na=fmtp:97 apt=96\r\na=ssrc-group:FID 7 9\r\n";
/// let settings = sdp::session_settings(&sdp::read(text)?)?;
/// assert_eq!(settings.formats[1].retransmission, Some(97));
/// assert_eq!((settings.pairs[0].ssrc, settings.pairs[0].retransmission), (7, 9));
/// # Ok(())
/// # }
/// ```
pub fn session_settings(media: &[Media<'_>]) -> Result<SessionSettings, SessionError> {
    let mut port = Port {
        settings: SessionSettings::live(),
        roles: [None; PAYLOAD_TYPES],
        ids: Media::default(),
        has_transport_feedback: false,
    };
    (port.settings.audio, port.settings.video) = (WaitLimits::live(), WaitLimits::live());
    for section in media.iter().filter(|section| section.is_rtp) {
        port.add(section)?;
    }
    let mut settings = port.settings;
    if settings.formats.is_empty() {
        return Err(SessionError::NoMedia);
    }
    for pair in pairs(media) {
        if settings.pairs.len() == MAX_PAIRS {
            return Err(SessionError::TooManyPairs);
        }
        settings.pairs.try_push(pair)?;
    }
    settings.extension_ids = port.ids.extension_ids;
    settings.name_ids = name_ids(&port.ids);
    settings.dependency_descriptor = port.ids.other_ids.dependency_descriptor;
    settings.transport = transport(&port.ids, port.has_transport_feedback);
    set_wait_limits(&mut settings);
    match settings.check() {
        Err(
            SessionSettingsError::PayloadType { payload_type, .. }
            | SessionSettingsError::TwoMeanings { payload_type, .. },
        ) => Err(SessionError::PayloadType(payload_type)),
        _ => Ok(settings),
    }
}

/// The ids of the extensions that name streams.
fn name_ids(ids: &Media<'_>) -> StreamNameIds {
    StreamNameIds {
        mid: ids.other_ids.mid,
        rid: ids.other_ids.rid,
        repaired_rid: ids.other_ids.repaired_rid,
    }
}

/// How arrivals are reported, if these ids have one of transport-wide-cc and feedback about it is wanted.
fn transport(ids: &Media<'_>, is_wanted: bool) -> Option<TransportSettings> {
    let id = ids.other_ids.transport_cc.filter(|_| is_wanted)?;
    Some(TransportSettings::live(id))
}

/// Sets how long frames wait: with retransmission if a format of their kind has `nack`.
fn set_wait_limits(settings: &mut SessionSettings) {
    let has_nack = |video: bool| {
        let mut formats = settings.formats.iter();
        formats.any(|format| format.nack && is_video(format.spec.codec) == video)
    };
    let (audio, video) = (has_nack(false), has_nack(true));
    if audio {
        settings.audio = WaitLimits::live_with_nack();
    }
    if video {
        settings.video = WaitLimits::live_video_with_nack();
    }
}

pub(super) fn is_video(codec: Codec) -> bool {
    matches!(codec, Codec::Vp8 | Codec::Vp9 | Codec::Av1)
}

/// Returns the pairs of SSRCs of these sections (`a=ssrc-group:FID`), in order. If a later description has others, pass each to
/// [`Session::add_pair`].
///
/// [`Session::add_pair`]: crate::session::Session::add_pair
pub fn pairs<'m>(media: &'m [Media<'_>]) -> impl Iterator<Item = SsrcPair> + 'm {
    let sources = media.iter().flat_map(|section| &section.sources);
    sources.filter_map(|source| {
        Some(SsrcPair {
            ssrc: source.ssrc,
            retransmission: source.retransmission?,
        })
    })
}

impl Media<'_> {
    /// Returns the format of a session for a payload type of media, or `None` if the section has no media of it.
    ///
    /// - RED: the RED format over the payload type. RED that names no payload type is over the first format of media of its
    ///   section: a session finds the stream of a RED packet by its payload type alone. The step is that of
    ///   [`Media::receiver_settings`]. Video has no RED if the section lists `ulpfec` or other error correction: a
    ///   [`FecPort`](crate::fec::FecPort) in front of the session reads it ([`fec_port_settings`](super::fec_port_settings)). Without one
    ///   refuse `red` and `ulpfec` of video.
    /// - Retransmissions: the first format of RTX whose `apt` is the payload type, and for RED the first one whose `apt` is RED's.
    /// - `nack` and `pli`: by `a=rtcp-fb`.
    #[must_use]
    pub fn session_format(&self, payload_type: u8) -> Option<Format> {
        let format = self.format(payload_type)?;
        let Role::Media(spec) = format.role else {
            return None;
        };
        let is_first = self.first_media() == Some(payload_type);
        let red = if is_video(spec.codec) && self.has_error_correction() {
            None
        } else {
            self.red_settings(payload_type, spec.clock_rate, is_first)
        };
        Some(Format {
            red,
            retransmission: self.retransmission_type(payload_type),
            nack: format.feedback.nack,
            pli: format.feedback.pli,
            ..Format::new(payload_type, spec)
        })
    }

    /// Whether the section has error correction, which video has in RED. A port with FEC reads this RED.
    fn has_error_correction(&self) -> bool {
        let mut formats = self.formats.iter();
        formats.any(|format| format.role == Role::ErrorCorrection)
    }

    /// Whether `a=rtcp-fb` of the payload type has `transport-cc`.
    fn has_transport_feedback(&self, payload_type: u8) -> bool {
        let format = self.format(payload_type);
        format.is_some_and(|format| format.feedback.transport_cc)
    }

    fn first_media(&self) -> Option<u8> {
        let mut formats = self.formats.iter();
        let first = formats.find(|format| matches!(format.role, Role::Media(_)));
        first.map(|format| format.payload_type)
    }
}

/// The sections so far.
struct Port {
    settings: SessionSettings,
    /// What each payload type is for.
    roles: [Option<Role>; PAYLOAD_TYPES],
    /// The ids of header extensions.
    ids: Media<'static>,
    /// Whether a format of the session has feedback about the transport.
    has_transport_feedback: bool,
}

impl Port {
    fn add(&mut self, section: &Media<'_>) -> Result<(), SessionError> {
        join_ids(&mut self.ids, section).map_err(SessionError::ExtensionId)?;
        for format in &section.formats {
            let payload_type = format.payload_type;
            let fault = SessionError::PayloadType(payload_type);
            let known = self.roles.get_mut(usize::from(payload_type));
            let known = known.ok_or(fault)?;
            match known {
                Some(role) if *role != format.role => return Err(fault),
                Some(_) => self.join(section, payload_type),
                None => {
                    *known = Some(format.role);
                    self.add_type(section, payload_type, format.role)?;
                }
            }
        }
        Ok(())
    }

    /// Adds a payload type that no earlier section has.
    fn add_type(
        &mut self,
        section: &Media<'_>,
        payload_type: u8,
        role: Role,
    ) -> Result<(), AllocError> {
        match role {
            Role::TelephoneEvents => self.settings.telephone_events.try_push(payload_type)?,
            Role::ComfortNoise | Role::ErrorCorrection => {
                self.settings.no_media.try_push(payload_type)?;
            }
            _ => {}
        }
        let Some(mut format) = section.session_format(payload_type) else {
            return Ok(());
        };
        self.has_transport_feedback |= section.has_transport_feedback(payload_type);
        format.red = format.red.filter(|red| !self.has_red(red));
        self.settings.formats.try_push(format)
    }

    /// Whether an earlier format is sent in this RED, which names no payload type then.
    fn has_red(&self, red: &RedSettings) -> bool {
        let mut others = self.settings.formats.iter().filter_map(|format| format.red);
        others.any(|other| other.payload_type == red.payload_type)
    }

    /// Joins a format with the same one of an earlier section.
    fn join(&mut self, section: &Media<'_>, payload_type: u8) {
        let Some(other) = section.session_format(payload_type) else {
            return;
        };
        let red = other.red.filter(|red| !self.has_red(red));
        let mut formats = self.settings.formats.iter_mut();
        if let Some(format) = formats.find(|format| format.payload_type == payload_type) {
            format.red = format.red.or(red);
            format.retransmission = format.retransmission.or(other.retransmission);
            format.nack &= other.nack;
            format.pli &= other.pli;
        }
    }
}
