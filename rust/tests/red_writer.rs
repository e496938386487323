//! A writer of datagrams in RED. Bytes by RFC 2198, section 3: F, payload type, offset of 14 bits, length of 10 bits.

use codec_payload::red_writer::{RedWriteError, RedWriter, RedWriterError};
use codec_payload::rtp::RtpError;
use codec_payload::sender::{Sample, Sender, SenderSettings};
use codec_payload::stream::{Receiver, ReceiverSettings, RedSettings};
use codec_payload::*;

type Fail = Box<dyn std::error::Error>;

const RATE: Frequency = Frequency::FORTY_EIGHT_KHZ;

/// A packet of payload type 111, SSRC 7, and a time 960 ticks after the one before.
fn packet(number: u8, payload: &[u8]) -> Vec<u8> {
    let time = (u32::from(number) * 960).to_be_bytes();
    let mut bytes = vec![0x80, 111, 0, number];
    bytes.extend_from_slice(&time);
    bytes.extend_from_slice(&[0, 0, 0, 7]);
    bytes.extend_from_slice(payload);
    bytes
}

#[test]
fn earlier_payloads_are_repeated() -> Result<(), Fail> {
    let mut writer = RedWriter::new(63, 111, &[1, 2], 1_200)?;
    let mut out = Vec::new();
    writer.write(&packet(0, b"aa"), &mut out)?;
    assert_eq!(out[..2], [0x80, 63]);
    assert_eq!(out[12..], [111, b'a', b'a']);
    writer.write(&packet(1, b"b"), &mut out)?;
    // 960 ticks are 0x3c0: 14 bits, before the 10 bits of the length.
    assert_eq!(
        out[12..],
        [0x80 | 111, 0x0f, 0x00, 2, 111, b'a', b'a', b'b']
    );
    writer.write(&packet(2, b"c"), &mut out)?;
    assert_eq!(out[..12], [&[0x80, 63][..], &packet(2, b"")[2..]].concat());
    let wanted = [
        0xef, 0x1e, 0x00, 2, 0xef, 0x0f, 0x00, 1, 111, b'a', b'a', b'b', b'c',
    ];
    assert_eq!(out[12..], wanted);
    Ok(())
}

#[test]
fn what_does_not_fit_is_left_out() -> Result<(), Fail> {
    let mut writer = RedWriter::new(63, 111, &[1, 2], 8)?;
    let mut out = Vec::new();
    writer.write(&packet(0, b"aa"), &mut out)?;
    // One byte, the header of a block, and two bytes more are eight with the payload.
    writer.write(&packet(1, b"b"), &mut out)?;
    assert_eq!(out.len(), 12 + 8);
    writer.write(&packet(2, b"cc"), &mut out)?;
    assert_eq!(out.len(), 12 + 8);
    // Eight bytes do not fit with the last header, so the packet keeps its payload type.
    let long = packet(3, b"dddddddd");
    writer.write(&long, &mut out)?;
    assert_eq!(out, long);
    Ok(())
}

#[test]
fn other_payload_types_are_copied() -> Result<(), Fail> {
    let mut writer = RedWriter::new(63, 111, &[1], 1_200)?;
    let mut out = Vec::new();
    writer.write(&packet(0, b"a"), &mut out)?;
    let mut event = packet(1, &[1, 10, 0, 160]);
    event[1] = 101;
    writer.write(&event, &mut out)?;
    assert_eq!(out, event);
    writer.write(&packet(2, b"c"), &mut out)?;
    // The payload right before among those of the media is two packets older.
    assert_eq!(out[12..], [0xef, 0x1e, 0x00, 1, 111, b'a', b'c']);
    Ok(())
}

#[test]
fn faults_leave_no_output() -> Result<(), Fail> {
    let new = |red, media, distances: &[u32]| RedWriter::new(red, media, distances, 1_200).err();
    assert_eq!(new(63, 128, &[9]), Some(RedWriterError::MediaType));
    assert_eq!(new(128, 111, &[9]), Some(RedWriterError::RedType));
    assert_eq!(new(111, 111, &[9]), Some(RedWriterError::RedType));
    assert_eq!(new(63, 111, &[9]), Some(RedWriterError::Distances));
    assert_eq!(new(63, 111, &[2, 2]), Some(RedWriterError::Distances));
    assert_eq!(new(63, 111, &[]), None);

    let mut writer = RedWriter::new(63, 111, &[1], 1_200)?;
    let mut out = vec![1, 2, 3];
    let answer = writer.write(&[0x80; 11], &mut out);
    assert_eq!(answer, Err(RedWriteError::Rtp(RtpError::HeaderTooShort)));
    assert!(out.is_empty());
    Ok(())
}

/// Every third packet is lost, and each is recovered.
#[test]
fn a_receiver_recovers_lost_packets() -> Result<(), Fail> {
    let opus = CodecPacketizer::from_codec(Codec::Opus).ok_or("no packetizer")?;
    let mut sender: Sender = Sender::new(opus, SenderSettings::for_stream(111, 7, RATE))?;
    let mut writer = RedWriter::new(63, 111, &[1, 2], 1_189)?;
    let settings = {
        let mut settings = ReceiverSettings::for_stream(111, Codec::Opus, RATE);
        settings.ssrc = Some(7);
        settings.red = Some(RedSettings {
            payload_type: 63,
            step: 960,
            retransmission: None,
        });
        settings
    };
    let opus = CodecDepacketizer::from_codec(Codec::Opus).ok_or("no depacketizer")?;
    let mut receiver: Receiver = Receiver::new(opus, settings)?;
    let (mut out, mut units) = (Vec::new(), Vec::new());
    for n in 0..60_u8 {
        let now = Ticks(u64::from(n) * 20_000_000);
        sender.send(&Sample {
            rtp_time: MediaTime::new(u64::from(n) * 960, RATE),
            bytes: &[n; 40],
            start_of_talk_spurt: false,
            ext_vals: ExtensionValues::default(),
        })?;
        for datagram in sender.datagrams() {
            writer.write(datagram, &mut out)?;
            if n % 3 != 1 {
                receiver.receive(now, &out)?;
            }
        }
        while let Some(unit) = receiver.pop(now) {
            units.push(unit?.into_result()?.bytes);
        }
    }
    let wanted: Vec<Vec<u8>> = (0..60).map(|n| vec![n; 40]).collect();
    assert_eq!(units, wanted);
    Ok(())
}
