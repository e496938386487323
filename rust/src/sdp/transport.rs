//! What a section says beside formats: names of sections, streams and layers, direction, ICE, DTLS.

use super::text::{only_word, trimmed, without_end, word};
use super::{Error, ErrorKind, MAX_FINGERPRINTS, Media};
use crate::memory::{AllocError, TryVec};
use alloc::vec::Vec;

/// Which way media of a section goes, as the author of the description sees it (RFC 8866, section 6.7).
#[derive(Clone, Copy, Debug, Default, PartialEq, Eq)]
pub enum Direction {
    #[default]
    SendRecv,
    SendOnly,
    RecvOnly,
    Inactive,
}

/// `a=setup`: who begins DTLS (RFC 4145, section 4; RFC 5763, section 5).
#[derive(Clone, Copy, Debug, PartialEq, Eq)]
pub enum Setup {
    Active,
    Passive,
    ActPass,
    HoldConn,
}

/// `a=fingerprint`: of a certificate for DTLS (RFC 8122, section 5).
#[derive(Clone, Copy, Debug, PartialEq, Eq)]
pub struct Fingerprint<'a> {
    /// The hash function, such as `sha-256`. Compare it without case.
    pub hash: &'a str,
    /// Pairs of hexadecimal digits, with `:` between them.
    pub value: &'a str,
}

/// ICE (RFC 8839) and DTLS of a section.
///
/// What a section lacks is that of the session, except candidates. In a bundle only the first section of the group needs these
/// lines (RFC 9143, section 7.1.3).
#[derive(Clone, Debug, Default, PartialEq, Eq)]
pub struct Transport<'a> {
    /// `a=ice-ufrag` (section 5.4), 4 to 256 characters.
    pub ice_ufrag: Option<&'a str>,
    /// `a=ice-pwd`, 22 to 256 characters.
    pub ice_pwd: Option<&'a str>,
    /// `a=ice-options` (section 5.6): words. Empty if there are none.
    pub ice_options: &'a str,
    /// `a=ice-lite` of the session (section 5.3).
    pub is_ice_lite: bool,
    /// `a=end-of-candidates` (RFC 8840).
    pub has_end_of_candidates: bool,
    pub setup: Option<Setup>,
    /// At most [`MAX_FINGERPRINTS`].
    pub fingerprints: Vec<Fingerprint<'a>>,
    /// What follows `a=candidate:` (section 5.1) in each line: at least eight words.
    pub candidates: Vec<&'a str>,
}

/// `a=msid`: a stream and a track of a section (RFC 8830, section 2).
#[derive(Clone, Copy, Debug, PartialEq, Eq)]
pub struct Msid<'a> {
    /// `-`: a track without stream.
    pub stream: &'a str,
    /// Empty if there is none.
    pub track: &'a str,
}

/// `a=rid`: a layer, or another stream that packets name by its id (RFC 8851, section 4).
#[derive(Clone, Copy, Debug, PartialEq, Eq)]
pub struct Rid<'a> {
    pub id: &'a str,
    /// `send`; else `recv`, as the author of the description sees it.
    pub is_sent: bool,
    /// Such as `pt=97;max-width=1280`. Empty if there are none.
    pub restrictions: &'a str,
}

/// A layer of `a=simulcast` (RFC 8853, section 5.1).
#[derive(Clone, Copy, Debug, PartialEq, Eq)]
pub struct Layer<'a> {
    /// Its id, of an `a=rid` line.
    pub rid: &'a str,
    /// `send`; else `recv`.
    pub is_sent: bool,
    /// The number of its simulcast stream, from 0 in each direction. Alternatives have the same number.
    pub stream: usize,
    /// `~`: not sent at first.
    pub is_paused: bool,
}

/// `a=group`: sections that belong together (RFC 5888, section 5).
#[derive(Clone, Copy, Debug, PartialEq, Eq)]
pub struct Group<'a> {
    /// Such as `BUNDLE` (RFC 9143).
    pub semantics: &'a str,
    mids: &'a str,
}

impl<'a> Group<'a> {
    /// Returns the `mid` of each section, in order.
    pub fn mids(&self) -> impl Iterator<Item = &'a str> + use<'a> {
        let mut rest = self.mids;
        core::iter::from_fn(move || Some(word(&mut rest)).filter(|mid| !mid.is_empty()))
    }
}

/// Reads the groups in front of the first `m=` section, in order. Other lines are ignored: [`read`] finds what is wrong with them.
///
/// # Errors
///
/// `Group`: a group has no semantics. `OutOfMemory`: only with the feature `fallible`.
///
/// ```
/// use codec_payload::sdp;
///
/// # fn main() -> Result<(), sdp::Error> {
/// let groups = sdp::groups("v=0\r\na=group:BUNDLE 0 1\r\nm=audio 9 RTP/AVP 0\r\na=mid:0\r\n")?;
/// assert_eq!(groups[0].semantics, "BUNDLE");
/// assert!(groups[0].mids().eq(["0", "1"]));
/// # Ok(())
/// # }
/// ```
///
/// [`read`]: super::read
pub fn groups(text: &str) -> Result<Vec<Group<'_>>, Error> {
    let mut found = Vec::new();
    for (place, line) in text.split_inclusive('\n').enumerate() {
        let line = without_end(line);
        if line.starts_with("m=") {
            break;
        }
        let Some(value) = line.strip_prefix("a=group:") else {
            continue;
        };
        let read = group(value).and_then(|group| Ok(found.try_push(group)?));
        read.map_err(|kind| Error {
            line: place + 1,
            kind,
        })?;
    }
    Ok(found)
}

/// `BUNDLE 0 1`
pub(super) fn group(mut rest: &str) -> Result<Group<'_>, ErrorKind> {
    let semantics = word(&mut rest);
    let mids = trimmed(rest);
    match semantics {
        "" => Err(ErrorKind::Group),
        _ => Ok(Group { semantics, mids }),
    }
}

impl<'a> Transport<'a> {
    /// What a section begins with.
    pub(super) fn of_session(session: &Transport<'a>) -> Transport<'a> {
        Transport {
            fingerprints: Vec::new(),
            candidates: Vec::new(),
            ..*session
        }
    }

    /// A section without fingerprints has those of the session (RFC 8122, section 5).
    pub(super) fn inherit_fingerprints(
        &mut self,
        session: &Transport<'a>,
    ) -> Result<(), AllocError> {
        if self.fingerprints.is_empty() {
            for fingerprint in &session.fingerprints {
                self.fingerprints.try_push(*fingerprint)?;
            }
        }
        Ok(())
    }
}

/// Where a line stands.
#[derive(Clone, Copy, PartialEq, Eq, PartialOrd, Ord)]
pub(super) enum Part {
    /// In front of the first section.
    Session,
    /// In a section that is not RTP.
    Other,
    /// In a section of RTP.
    Rtp,
}

/// Reads an attribute with a value, if it is one of these.
pub(super) fn read_value<'a>(
    media: &mut Media<'a>,
    part: Part,
    name: &str,
    value: &'a str,
) -> Result<(), ErrorKind> {
    let transport = &mut media.transport;
    match name {
        "ice-ufrag" => transport.ice_ufrag = Some(secret(value, 4).ok_or(ErrorKind::IceUfrag)?),
        "ice-pwd" => transport.ice_pwd = Some(secret(value, 22).ok_or(ErrorKind::IcePwd)?),
        "ice-options" => transport.ice_options = options(value).ok_or(ErrorKind::IceOptions)?,
        "setup" => transport.setup = Some(setup(value).ok_or(ErrorKind::Setup)?),
        "fingerprint" => add_fingerprint(&mut transport.fingerprints, value)?,
        _ if part == Part::Session => {}
        "mid" => media.mid = Some(only_word(value).ok_or(ErrorKind::Mid)?),
        "candidate" => {
            let candidate = candidate(value).ok_or(ErrorKind::Candidate)?;
            transport.candidates.try_push(candidate)?;
        }
        _ if part == Part::Other => {}
        "msid" => media.msids.try_push(msid(value).ok_or(ErrorKind::Msid)?)?,
        "rid" => media.rids.try_push(rid(value).ok_or(ErrorKind::Rid)?)?,
        "simulcast" => read_simulcast(&mut media.layers, value)?,
        _ => {}
    }
    Ok(())
}

/// Reads an attribute without a value, if it is one of these.
pub(super) fn read_flag(media: &mut Media<'_>, name: &str, is_session: bool) {
    match name {
        "sendrecv" => media.direction = Direction::SendRecv,
        "sendonly" => media.direction = Direction::SendOnly,
        "recvonly" => media.direction = Direction::RecvOnly,
        "inactive" => media.direction = Direction::Inactive,
        "bundle-only" => media.is_bundle_only = true,
        "ice-lite" if is_session => media.transport.is_ice_lite = true,
        "end-of-candidates" => media.transport.has_end_of_candidates = true,
        _ => {}
    }
}

/// `5NkD`: `least` to 256 letters, digits, `+` and `/` (RFC 8839, section 5.4), and four characters of older peers.
fn secret(value: &str, least: usize) -> Option<&str> {
    let is_known = |byte: u8| byte.is_ascii_alphanumeric() || b"+/-_=#".contains(&byte);
    only_word(value).filter(|it| (least..=256).contains(&it.len()) && it.bytes().all(is_known))
}

/// `trickle ice2` (RFC 8839, section 5.6)
fn options(value: &str) -> Option<&str> {
    Some(trimmed(value)).filter(|it| !it.is_empty())
}

/// `actpass` (RFC 4145, section 4)
fn setup(value: &str) -> Option<Setup> {
    let role = only_word(value)?;
    let known = [
        ("active", Setup::Active),
        ("passive", Setup::Passive),
        ("actpass", Setup::ActPass),
        ("holdconn", Setup::HoldConn),
    ];
    let found = known.iter().find(|it| role.eq_ignore_ascii_case(it.0))?;
    Some(found.1)
}

/// `sha-256 AB:CD:..` (RFC 8122, section 5)
fn add_fingerprint<'a>(
    known: &mut Vec<Fingerprint<'a>>,
    mut rest: &'a str,
) -> Result<(), ErrorKind> {
    let hash = word(&mut rest);
    let is_byte = |it: &str| it.len() == 2 && it.bytes().all(|digit| digit.is_ascii_hexdigit());
    let value = only_word(rest).filter(|it| it.split(':').all(is_byte));
    let value = value.ok_or(ErrorKind::Fingerprint)?;
    if known.len() == MAX_FINGERPRINTS {
        return Err(ErrorKind::TooManyFingerprints);
    }
    Ok(known.try_push(Fingerprint { hash, value })?)
}

/// `1 1 UDP 2130706431 203.0.113.141 8998 typ host` (RFC 8839, section 5.1)
fn candidate(value: &str) -> Option<&str> {
    let mut rest = value;
    let mut seventh = "";
    for _ in 0..7 {
        seventh = word(&mut rest);
    }
    let has_form = seventh.eq_ignore_ascii_case("typ") && !word(&mut rest).is_empty();
    has_form.then(|| trimmed(value))
}

/// `- a300c720` (RFC 8830, section 2)
fn msid(mut rest: &str) -> Option<Msid<'_>> {
    let (stream, track) = (word(&mut rest), word(&mut rest));
    let has_form = !stream.is_empty() && trimmed(rest).is_empty();
    has_form.then_some(Msid { stream, track })
}

/// Whether a text is a restriction identifier (RFC 8851, section 10).
fn is_rid(text: &str) -> bool {
    let is_known = |byte: u8| byte.is_ascii_alphanumeric() || byte == b'-' || byte == b'_';
    !text.is_empty() && text.bytes().all(is_known)
}

/// Whether a direction of `a=rid` and of `a=simulcast` is `send`; else it must be `recv`.
fn is_send(direction: &str) -> Option<bool> {
    match direction {
        "send" => Some(true),
        "recv" => Some(false),
        _ => None,
    }
}

/// `1 send pt=97;max-width=1280` (RFC 8851, section 4)
fn rid(mut rest: &str) -> Option<Rid<'_>> {
    let id = word(&mut rest);
    let is_sent = is_send(word(&mut rest))?;
    is_rid(id).then_some(Rid {
        id,
        is_sent,
        restrictions: trimmed(rest),
    })
}

/// `send 1,~4;2 recv c` (RFC 8853, section 5.1)
fn read_simulcast<'a>(layers: &mut Vec<Layer<'a>>, mut rest: &'a str) -> Result<(), ErrorKind> {
    layers.clear();
    let first = is_send(word(&mut rest)).ok_or(ErrorKind::Simulcast)?;
    add_layers(layers, word(&mut rest), first)?;
    let (second, others) = (word(&mut rest), word(&mut rest));
    if second.is_empty() {
        return Ok(());
    }
    if is_send(second) != Some(!first) || !trimmed(rest).is_empty() {
        return Err(ErrorKind::Simulcast);
    }
    add_layers(layers, others, !first)
}

/// `1,~4;2`: streams, each with its alternatives.
fn add_layers<'a>(
    layers: &mut Vec<Layer<'a>>,
    list: &'a str,
    is_sent: bool,
) -> Result<(), ErrorKind> {
    for (stream, alternatives) in list.split(';').enumerate() {
        for text in alternatives.split(',') {
            let rid = text.strip_prefix('~').unwrap_or(text);
            if !is_rid(rid) {
                return Err(ErrorKind::Simulcast);
            }
            layers.try_push(Layer {
                rid,
                is_sent,
                stream,
                is_paused: rid.len() < text.len(),
            })?;
        }
    }
    Ok(())
}
