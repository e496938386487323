//! Conversions between numbers of this crate and those of Rust.

use crate::codec::{CodecDepacketizer, CodecPacketizer};
use crate::rtp::RtpError;
use crate::stream::ReceiveError;
use crate::wire::{Codec, Frequency, MediaTime, Pt, SeqNo, Ticks};
use core::fmt;
use core::ops::Deref;
use core::time::Duration;

impl From<u64> for SeqNo {
    fn from(number: u64) -> Self {
        SeqNo(number)
    }
}

impl From<SeqNo> for u64 {
    fn from(number: SeqNo) -> Self {
        number.0
    }
}

impl Deref for SeqNo {
    type Target = u64;

    fn deref(&self) -> &u64 {
        &self.0
    }
}

impl SeqNo {
    /// Returns the 16 bits that the RTP header has.
    #[must_use]
    pub fn as_u16(self) -> u16 {
        self.0 as u16
    }
}

impl From<u8> for Pt {
    fn from(value: u8) -> Self {
        Pt::new_with_value(value)
    }
}

impl From<Pt> for u8 {
    fn from(payload_type: Pt) -> Self {
        payload_type.value()
    }
}

impl From<u64> for Ticks {
    fn from(ticks: u64) -> Self {
        Ticks(ticks)
    }
}

/// A rate of 0 Hz.
#[derive(Clone, Copy, Debug, PartialEq, Eq)]
pub struct ZeroFrequency;

impl fmt::Display for ZeroFrequency {
    fn fmt(&self, f: &mut fmt::Formatter<'_>) -> fmt::Result {
        f.write_str("a frequency of 0 Hz")
    }
}

impl core::error::Error for ZeroFrequency {}

/// # Errors
///
/// [`ZeroFrequency`] for 0.
impl TryFrom<u32> for Frequency {
    type Error = ZeroFrequency;

    fn try_from(hertz: u32) -> Result<Self, ZeroFrequency> {
        Frequency::make(hertz).ok_or(ZeroFrequency)
    }
}

impl From<Frequency> for u32 {
    fn from(rate: Frequency) -> Self {
        rate.get()
    }
}

/// The time since tick 0, rounded down to whole nanoseconds.
impl From<MediaTime> for Duration {
    fn from(time: MediaTime) -> Self {
        let rate = u64::from(time.frequency().get());
        let nanos = time.numer() % rate * 1_000_000_000 / rate;
        // Below a second, so it has 30 bits.
        Duration::new(time.numer() / rate, nanos as u32)
    }
}

/// A datagram that is not an RTP packet.
impl From<RtpError> for ReceiveError {
    fn from(error: RtpError) -> Self {
        ReceiveError::Rtp(error)
    }
}

/// A codec that this crate does not packetize: H.264 and its kin, and names that stand for no payloads.
#[derive(Clone, Copy, Debug, PartialEq, Eq)]
pub struct UnsupportedCodec(pub Codec);

impl fmt::Display for UnsupportedCodec {
    fn fmt(&self, f: &mut fmt::Formatter<'_>) -> fmt::Result {
        write!(f, "{:?} is not supported", self.0)
    }
}

impl core::error::Error for UnsupportedCodec {}

/// As [`CodecPacketizer::from_codec`], with an error that names the codec.
///
/// # Errors
///
/// [`UnsupportedCodec`].
impl TryFrom<Codec> for CodecPacketizer {
    type Error = UnsupportedCodec;

    fn try_from(codec: Codec) -> Result<Self, UnsupportedCodec> {
        CodecPacketizer::from_codec(codec).ok_or(UnsupportedCodec(codec))
    }
}

/// As [`CodecDepacketizer::from_codec`], with an error that names the codec.
///
/// # Errors
///
/// [`UnsupportedCodec`].
impl TryFrom<Codec> for CodecDepacketizer {
    type Error = UnsupportedCodec;

    fn try_from(codec: Codec) -> Result<Self, UnsupportedCodec> {
        CodecDepacketizer::from_codec(codec).ok_or(UnsupportedCodec(codec))
    }
}
