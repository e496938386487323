//! Formats and datagrams of the tests of sessions.

use codec_payload::session::Format;
use codec_payload::stream::RedSettings;
use codec_payload::*;

pub const VP8: u8 = 96;
/// Retransmissions of VP8.
pub const RTX: u8 = 97;
pub const VP9: u8 = 98;
/// G.711.
pub const PCMU: u8 = 0;
pub const OPUS: u8 = 111;
/// RED over Opus.
pub const RED: u8 = 63;
/// Telephone events.
pub const EVENTS: u8 = 126;
/// Comfort noise (RFC 3389).
pub const NOISE: u8 = 13;

/// A format of audio or video without retransmissions.
pub fn format(payload_type: u8, codec: Codec, clock_rate: Frequency) -> Format {
    let spec = CodecSpec {
        codec,
        clock_rate,
        octet_align: false,
    };
    Format::new(payload_type, spec)
}

pub fn vp8_format() -> Format {
    format(VP8, Codec::Vp8, Frequency::NINETY_KHZ)
}

pub fn opus_format() -> Format {
    format(OPUS, Codec::Opus, Frequency::FORTY_EIGHT_KHZ)
}

pub fn pcmu_format() -> Format {
    format(
        PCMU,
        Codec::PCMU,
        Frequency::make(8_000).expect("it is not 0"),
    )
}

/// VP8 with retransmissions, whose sender answers requests.
pub fn answered_vp8() -> Format {
    {
        let mut format = vp8_format();
        format.retransmission = Some(RTX);
        format.nack = true;
        format.pli = true;
        format
    }
}

/// Opus, whose sender answers requests.
pub fn answered_opus() -> Format {
    {
        let mut format = opus_format();
        format.nack = true;
        format
    }
}

/// Both, with Opus in RED.
pub fn answered_formats() -> Vec<Format> {
    let red = RedSettings {
        payload_type: RED,
        step: 960,
        retransmission: None,
    };
    vec![answered_vp8(), {
        let mut format = answered_opus();
        format.red = Some(red);
        format
    }]
}

/// An RTP packet with the marker (RFC 3550, section 5.1).
pub fn packet(payload_type: u8, ssrc: u32, number: u16, time: u32, payload: &[u8]) -> Vec<u8> {
    let mut bytes = vec![0x80, payload_type | 0x80];
    bytes.extend(number.to_be_bytes());
    bytes.extend(time.to_be_bytes());
    bytes.extend(ssrc.to_be_bytes());
    bytes.extend(payload);
    bytes
}

/// A packet of Opus, identified by the first byte of its payload.
pub fn opus(ssrc: u32, number: u16) -> Vec<u8> {
    packet(
        OPUS,
        ssrc,
        number,
        960 * u32::from(number),
        &[number as u8, 7],
    )
}

/// The payload of a VP8 frame in one packet without picture ids (RFC 7741, section 4.2; RFC 6386, section 9.1).
pub fn vp8_frame(is_key: bool) -> &'static [u8] {
    if is_key {
        &[0x10, 0x10, 0, 0, 0x9D, 0x01, 0x2A, 0x10, 0, 0x10, 0]
    } else {
        &[0x10, 0x11, 0, 0]
    }
}

/// A packet of VP8 with such a frame, identified by its last byte.
pub fn vp8(ssrc: u32, number: u16, is_key: bool) -> Vec<u8> {
    let payload = [vp8_frame(is_key), &[number as u8]].concat();
    packet(VP8, ssrc, number, 3_000 * u32::from(number), &payload)
}

/// A BYE of one source.
pub fn bye(ssrc: u32) -> Vec<u8> {
    goodbye(&[ssrc])
}

/// A BYE (RFC 3550, section 6.6) in a compound packet of reduced size (RFC 5506).
pub fn goodbye(ssrcs: &[u32]) -> Vec<u8> {
    let count = ssrcs.len() as u8;
    let mut bytes = vec![0x80 | count, 203, 0, count];
    bytes.extend(ssrcs.iter().flat_map(|it| it.to_be_bytes()));
    bytes
}

/// A small generator of numbers.
pub struct Dice(pub u32);

impl Dice {
    pub fn below(&mut self, n: u32) -> u32 {
        self.0 = self.0.wrapping_mul(1_664_525).wrapping_add(1_013_904_223);
        (self.0 >> 8) % n
    }
}
