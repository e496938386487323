//! The worked examples of comfort noise, Opus, G.711 and Null, whose payloads are bytes of their frames.

use crate::Fail;
use crate::audio::{Format, ReceivedRow, SentRow, assert_all_received, assert_all_sent};
use crate::tables::Frame;
use codec_payload::error::PacketError;
use codec_payload::interface::Packetizer;
use codec_payload::plain::ComfortNoisePacketizer;

/// A comfort noise payload.
const NOISE: [u8; 3] = [0x2a, 0x80, 0x40];

/// A payload is the whole frame or a piece of it.
static SENT: [SentRow; 6] = [
    SentRow {
        name: "cn-one-packet-no-marker",
        format: Format::ComfortNoise,
        frame: Frame {
            mtu: 1_200,
            bytes: &NOISE,
            packets: Ok(&[&NOISE]),
        },
    },
    SentRow {
        name: "cn-mtu-2-fault",
        format: Format::ComfortNoise,
        frame: Frame {
            mtu: 2,
            bytes: &NOISE,
            packets: Err(PacketError::ErrPayloadTooLarge),
        },
    },
    SentRow {
        name: "opus-two-pieces",
        format: Format::Opus,
        frame: Frame {
            mtu: 2,
            bytes: &[0x90, 0x90, 0x90],
            packets: Ok(&[&[0x90, 0x90], &[0x90]]),
        },
    },
    SentRow {
        name: "opus-mtu-zero",
        format: Format::Opus,
        frame: Frame {
            mtu: 0,
            bytes: &[0x90, 0x90, 0x90],
            packets: Ok(&[]),
        },
    },
    SentRow {
        name: "other-codecs-once, G.711",
        format: Format::G711,
        frame: Frame {
            mtu: 2,
            bytes: &[1, 2, 3],
            packets: Ok(&[&[1, 2], &[3]]),
        },
    },
    SentRow {
        name: "other-codecs-once, Null",
        format: Format::Null,
        frame: Frame {
            mtu: 2,
            bytes: &[1, 2, 3],
            packets: Ok(&[&[1, 2, 3]]),
        },
    },
];

/// The result is the payload.
static RECEIVED: [ReceivedRow; 5] = [
    ReceivedRow {
        name: "cn-one-packet-no-marker",
        format: Format::ComfortNoise,
        payload: &NOISE,
        wanted: Ok(&[7, 0x2a, 0x80, 0x40]),
    },
    ReceivedRow {
        name: "cn-empty-fault",
        format: Format::ComfortNoise,
        payload: &[],
        wanted: Err(PacketError::ErrShortPacket),
    },
    ReceivedRow {
        name: "other-codecs-once, Opus",
        format: Format::Opus,
        payload: &[1, 2],
        wanted: Ok(&[7, 1, 2]),
    },
    ReceivedRow {
        name: "other-codecs-once, G.711",
        format: Format::G711,
        payload: &[1, 2],
        wanted: Ok(&[7, 1, 2]),
    },
    ReceivedRow {
        name: "other-codecs-once, Null",
        format: Format::Null,
        payload: &[],
        wanted: Ok(&[7]),
    },
];

#[test]
fn frames_and_payloads() -> Result<(), Fail> {
    assert_all_sent(&SENT);
    assert_all_received(&RECEIVED)?;
    Ok(())
}

/// Comfort noise has no marker, and starts no talk spurt.
#[test]
fn cn_one_packet_no_marker() {
    let mut packetizer = ComfortNoisePacketizer {};
    assert!(!packetizer.is_marker(&NOISE, None, true));
    assert!(!packetizer.marks_talkspurt());
}
