//! The types of audio without fields, as values.
//!
//! Each name of a type is a value too, as the name of a unit struct is. These types share their code, so the names are aliases of
//! generic types, whose values need braces.
#![allow(non_upper_case_globals)]

use crate::{plain, tele};

/// The packetizer of Opus.
pub const OpusPacketizer: plain::OpusPacketizer = plain::OpusPacketizer {};
/// The packetizer of G.711 and G.722.
pub const G7xxPacketizer: plain::G7xxPacketizer = plain::G7xxPacketizer {};
/// The packetizer of G.711.
pub const G711Packetizer: plain::G711Packetizer = plain::G711Packetizer {};
/// The packetizer of G.722.
pub const G722Packetizer: plain::G722Packetizer = plain::G722Packetizer {};
/// The packetizer of comfort noise.
pub const ComfortNoisePacketizer: plain::ComfortNoisePacketizer = plain::ComfortNoisePacketizer {};
/// The packetizer of telephone events.
pub const TelephoneEventPacketizer: tele::TelephoneEventPacketizer =
    tele::TelephoneEventPacketizer {};
/// The depacketizer of Opus.
pub const OpusDepacketizer: plain::OpusDepacketizer = plain::OpusDepacketizer {};
/// The depacketizer of G.711 and G.722.
pub const G711Depacketizer: plain::G711Depacketizer = plain::G711Depacketizer {};
/// The depacketizer of Null.
pub const NullDepacketizer: plain::NullDepacketizer = plain::NullDepacketizer {};
