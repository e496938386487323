//! The names of codecs in lines.

use codec_payload::Codec;

/// The codec with that name.
pub fn codec_named(name: &str) -> Option<Codec> {
    match name {
        "opus" => Some(Codec::Opus),
        "pcmu" => Some(Codec::PCMU),
        "pcma" => Some(Codec::PCMA),
        "g722" => Some(Codec::G722),
        "cn" => Some(Codec::CN),
        "amrwb" | "amrwb-octet" => Some(Codec::AmrWb),
        "vp8" => Some(Codec::Vp8),
        "vp9" => Some(Codec::Vp9),
        "av1" => Some(Codec::Av1),
        "tele" => Some(Codec::Tele),
        "null" => Some(Codec::Null),
        _ => None,
    }
}

/// Whether payloads of the codec with that name have the octet-aligned layout of AMR-WB.
pub fn is_octet_aligned(name: &str) -> bool {
    name == "amrwb-octet"
}
