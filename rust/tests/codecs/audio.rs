//! The worked examples of the audio formats: what a new packetizer or depacketizer of a format answers.

use codec_payload::memory::AllocError;

mod amr_wb;
mod plain;
mod tele;

use crate::tables::{Frame, assert_received, assert_sent, packetize};
use codec_payload::amr_wb::{AmrWbDepacketizer, AmrWbPacketizer};
use codec_payload::error::PacketError;
use codec_payload::plain::{
    ComfortNoiseDepacketizer, ComfortNoisePacketizer, G7xxPacketizer, G711Depacketizer,
    NullDepacketizer, NullPacketizer, OpusDepacketizer, OpusPacketizer,
};
use codec_payload::tele::{TelephoneEventDepacketizer, TelephoneEventPacketizer};

/// Whose packetizer and depacketizer a row is of.
#[derive(Clone, Copy)]
pub enum Format {
    AmrWb { octet_align: bool },
    ComfortNoise,
    Telephone,
    Opus,
    G711,
    Null,
}

/// What a new packetizer answers.
pub fn sent(format: Format, mtu: usize, frame: &[u8]) -> Result<Vec<Vec<u8>>, PacketError> {
    match format {
        Format::AmrWb { octet_align } => {
            packetize(&mut AmrWbPacketizer { octet_align }, mtu, frame)
        }
        Format::ComfortNoise => packetize(&mut ComfortNoisePacketizer {}, mtu, frame),
        Format::Telephone => packetize(&mut TelephoneEventPacketizer {}, mtu, frame),
        Format::Opus => packetize(&mut OpusPacketizer {}, mtu, frame),
        Format::G711 => packetize(&mut G7xxPacketizer {}, mtu, frame),
        Format::Null => packetize(&mut NullPacketizer, mtu, frame),
    }
}

/// What a new depacketizer makes of a payload behind the one byte 7.
pub fn assert_received_as(
    name: &str,
    format: Format,
    payload: &[u8],
    wanted: &Result<&[u8], PacketError>,
) -> Result<(), AllocError> {
    match format {
        Format::AmrWb { octet_align } => {
            let mut depacketizer = AmrWbDepacketizer { octet_align };
            assert_received(name, &mut depacketizer, payload, wanted)
        }
        Format::ComfortNoise => {
            let mut depacketizer = ComfortNoiseDepacketizer;
            assert_received(name, &mut depacketizer, payload, wanted)
        }
        Format::Telephone => {
            let mut depacketizer = TelephoneEventDepacketizer::default();
            assert_received(name, &mut depacketizer, payload, wanted)
        }
        Format::Opus => {
            let mut depacketizer = OpusDepacketizer {};
            assert_received(name, &mut depacketizer, payload, wanted)
        }
        Format::G711 => {
            let mut depacketizer = G711Depacketizer {};
            assert_received(name, &mut depacketizer, payload, wanted)
        }
        Format::Null => {
            let mut depacketizer = NullDepacketizer {};
            assert_received(name, &mut depacketizer, payload, wanted)
        }
    }
}

/// A frame that a new packetizer of a format is given.
pub struct SentRow {
    name: &'static str,
    format: Format,
    frame: Frame,
}

/// The packets of each row's frame.
pub fn assert_all_sent(rows: &[SentRow]) {
    for row in rows {
        let answer = sent(row.format, row.frame.mtu, row.frame.bytes);
        assert_sent(row.name, &answer, &row.frame.packets);
    }
}

/// A payload that a new depacketizer of a format is given, and what it makes of it behind the one byte 7.
pub struct ReceivedRow {
    name: &'static str,
    format: Format,
    payload: &'static [u8],
    wanted: Result<&'static [u8], PacketError>,
}

/// What each row's payload gives.
pub fn assert_all_received(rows: &[ReceivedRow]) -> Result<(), AllocError> {
    for row in rows {
        assert_received_as(row.name, row.format, row.payload, &row.wanted)?;
    }
    Ok(())
}
