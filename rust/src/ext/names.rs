//! Codecs by their names in SDP, and numbers as text.

use crate::wire::{Codec, Frequency, MediaTime, Pt, SeqNo};
use core::fmt;
use core::str::FromStr;

/// The encoding names of SDP (RFC 8866, section 6.6), and `null` for payloads without a format.
const NAMES: [(Codec, &str); 16] = [
    (Codec::Opus, "opus"),
    (Codec::PCMU, "PCMU"),
    (Codec::PCMA, "PCMA"),
    (Codec::G722, "G722"),
    (Codec::CN, "CN"),
    (Codec::AmrWb, "AMR-WB"),
    (Codec::H264, "H264"),
    (Codec::H265, "H265"),
    (Codec::H266, "H266"),
    (Codec::Vp8, "VP8"),
    (Codec::Vp9, "VP9"),
    (Codec::Av1, "AV1"),
    (Codec::Null, "null"),
    (Codec::Tele, "telephone-event"),
    (Codec::Rtx, "rtx"),
    (Codec::Red, "red"),
];

/// Writes the encoding name of SDP, `null` for [`Codec::Null`] and `unknown` for [`Codec::Unknown`].
impl fmt::Display for Codec {
    fn fmt(&self, f: &mut fmt::Formatter<'_>) -> fmt::Result {
        f.pad(
            NAMES
                .iter()
                .find(|(codec, _)| codec == self)
                .map_or("unknown", |(_, name)| name),
        )
    }
}

/// The text is not an encoding name of a codec of this crate.
#[derive(Clone, Copy, Debug, PartialEq, Eq)]
pub struct UnknownCodec;

impl fmt::Display for UnknownCodec {
    fn fmt(&self, f: &mut fmt::Formatter<'_>) -> fmt::Result {
        f.write_str("unknown codec name")
    }
}

impl core::error::Error for UnknownCodec {}

/// Reads an encoding name of SDP. Upper and lower case are the same.
///
/// # Errors
///
/// [`UnknownCodec`] for all other texts.
impl FromStr for Codec {
    type Err = UnknownCodec;

    fn from_str(text: &str) -> Result<Self, UnknownCodec> {
        NAMES
            .iter()
            .find(|(_, name)| name.eq_ignore_ascii_case(text))
            .map(|(codec, _)| *codec)
            .ok_or(UnknownCodec)
    }
}

impl fmt::Display for Pt {
    fn fmt(&self, f: &mut fmt::Formatter<'_>) -> fmt::Result {
        self.value().fmt(f)
    }
}

impl fmt::Display for SeqNo {
    fn fmt(&self, f: &mut fmt::Formatter<'_>) -> fmt::Result {
        self.0.fmt(f)
    }
}

/// Writes the rate in hertz, as `90000 Hz`.
impl fmt::Display for Frequency {
    fn fmt(&self, f: &mut fmt::Formatter<'_>) -> fmt::Result {
        write!(f, "{} Hz", self.get())
    }
}

/// Writes ticks and rate, as `3000/90000`.
impl fmt::Display for MediaTime {
    fn fmt(&self, f: &mut fmt::Formatter<'_>) -> fmt::Result {
        write!(f, "{}/{}", self.numer(), self.frequency().get())
    }
}
