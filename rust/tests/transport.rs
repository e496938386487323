//! The sending side of a transport: numbers and times of sent packets, numbers in datagrams, and feedback in compound packets.

use codec_payload::Ticks;
use codec_payload::congestion::*;
use codec_payload::feedback::{FeedbackSource, TransportReporter, TransportSettings};
use codec_payload::rtcp::{CompoundRule, RtcpError};
use codec_payload::rtp::{RtpError, RtpPacket, extension_value};
use codec_payload::transport::*;

type Fail = Box<dyn std::error::Error>;

#[test]
fn limits_out_of_range_are_refused() {
    assert_eq!(SentPackets::new(0).unwrap_err(), SentPacketsError::Limit);
    assert_eq!(
        SentPackets::new(32_769).unwrap_err(),
        SentPacketsError::Limit
    );
    assert!(SentPackets::new(1).is_ok() && SentPackets::new(MAX_SENT).is_ok());
}

/// Numbers count modulo 2^16, and the last three times are known.
#[test]
fn sent_packets_are_numbered_and_remembered() -> Result<(), Fail> {
    let mut sent = SentPackets::new(3)?;
    assert_eq!(sent.sent_at(65_535), None);
    for n in 0..70_000u64 {
        let number = sent.assign(Ticks(10 * n))?;
        assert_eq!(u64::from(number), n % 65_536);
        assert_eq!(sent.sent_at(number), Some(Ticks(10 * n)));
        assert_eq!(sent.sent_at(number.wrapping_add(1)), None);
        if n >= 3 {
            assert_eq!(
                sent.sent_at(number.wrapping_sub(2)),
                Some(Ticks(10 * n - 20))
            );
            assert_eq!(sent.sent_at(number.wrapping_sub(3)), None);
        }
    }
    Ok(())
}

/// Packet 65,535 was sent at 100 and arrived, 0 at 110 and did not, 1 at 120 and arrived; 65,534 is not remembered.
#[test]
fn feedback_is_read_with_the_times_of_sending() -> Result<(), Fail> {
    let mut sent = SentPackets::new(3)?;
    for _ in 0..65_535 {
        sent.assign(Ticks(0))?;
    }
    for at in [100, 110, 120] {
        sent.assign(Ticks(at))?;
    }
    let feedback = TransportFeedback {
        base: 65_534,
        reference: 0,
        counter: 0,
        statuses: vec![Some(4), Some(8), None, Some(9)],
    };
    let result = |number, sent: Option<u64>, received| PacketResult {
        number,
        sent: sent.map(Ticks),
        received,
    };
    let wanted = [
        result(65_534, None, Some(4)),
        result(65_535, Some(100), Some(8)),
        result(0, Some(110), None),
        result(1, Some(120), Some(9)),
    ];
    assert_eq!(sent.results(&feedback)?, wanted);
    Ok(())
}

/// A packet of SSRC 7 with four bytes of payload, and an extension with this profile and these words.
fn datagram(profile: u16, words: &[u8]) -> Vec<u8> {
    let head = [0xb0, 0xe0, 0, 1, 0, 0, 0, 2, 0, 0, 0, 7];
    let [p1, p0] = profile.to_be_bytes();
    let count = words.len() as u8 / 4;
    [&head[..], &[p1, p0, 0, count], words, b"abcd", &[0, 0, 3]].concat()
}

fn numbered(id: u8, number: u16, datagram: &[u8]) -> Result<Vec<u8>, NumberingError> {
    let mut out = vec![9];
    let done = write_numbered(id, number, datagram, &mut out);
    assert_eq!(out[0], 9);
    assert!(done.is_ok() || out.len() == 1);
    done.map(|()| out[1..].to_vec())
}

/// The extensions were written by hand after RFC 8285, sections 4.2 and 4.3.
#[test]
fn a_number_is_put_in_the_extension() -> Result<(), Fail> {
    // Without an extension: one word.
    let plain = [0x80, 96, 0, 1, 0, 0, 0, 2, 0, 0, 0, 7, 1];
    let wanted = [
        0x90, 96, 0, 1, 0, 0, 0, 2, 0, 0, 0, 7, 0xbe, 0xde, 0, 1, 0x51, 0x12, 0x34, 0, 1,
    ];
    assert_eq!(numbered(5, 0x1234, &plain)?, wanted);
    // The number replaces the one that was there, and comes last.
    assert_eq!(
        numbered(
            5,
            0xfffe,
            &datagram(0xbede, &[0x51, 1, 2, 0x30, 7, 0, 0, 0])
        )?,
        datagram(0xbede, &[0x30, 7, 0x51, 0xff, 0xfe, 0, 0, 0])
    );
    // An id above 14 needs the two-byte form.
    assert_eq!(
        numbered(15, 0x0102, &datagram(0xbede, &[0x30, 7, 0, 0]))?,
        datagram(0x1000, &[3, 1, 7, 15, 2, 1, 2, 0])
    );
    let written = numbered(15, 0x0102, &datagram(0xbede, &[0x30, 7, 0, 0]))?;
    let packet = RtpPacket::parse(&written)?;
    assert_eq!(
        extension_value(15, &packet.header.extension),
        Some(&[1, 2][..])
    );
    assert_eq!((packet.payload, packet.padding), (&b"abcd"[..], 3));
    Ok(())
}

#[test]
fn datagrams_without_room_get_no_number() {
    assert_eq!(
        numbered(5, 1, &[0x80, 96]),
        Err(NumberingError::Rtp(RtpError::HeaderTooShort))
    );
    assert_eq!(
        numbered(5, 1, &datagram(0x1234, &[0; 4])),
        Err(NumberingError::OtherProfile)
    );
    assert_eq!(
        numbered(0, 1, &datagram(0xbede, &[0; 4])),
        Err(NumberingError::NoRoom)
    );
    // 65,535 words of elements of one byte: the id of the number makes them elements of the two-byte form.
    let words: Vec<u8> = [0x30, 7].repeat(2 * 65_535);
    let mut long = vec![0x90, 96, 0, 1, 0, 0, 0, 2, 0, 0, 0, 7, 0xbe, 0xde, 255, 255];
    long.extend_from_slice(&words);
    assert_eq!(numbered(15, 1, &long), Err(NumberingError::NoRoom));
}

/// From one end to the other: what a reporter sends is read with the times of the sender.
#[test]
fn a_report_is_read_by_the_sender() -> Result<(), Fail> {
    let mut sent = SentPackets::new(100)?;
    let mut reporter = TransportReporter::new({
        let mut settings = TransportSettings::live(5);
        settings.interval = 100;
        settings.size = 1_100;
        settings.window = 2_048;
        settings
    })?;
    let plain = [0x80, 96, 0, 1, 0, 0, 0, 2, 0, 0, 0, 7, 1];
    for at in 0..20u64 {
        let datagram = numbered(5, sent.assign(Ticks(at))?, &plain)?;
        // Each third packet is lost; the others take 30 ms.
        if at % 3 != 2 {
            reporter.receive(4 * (at as u32 + 30), &datagram)?;
        }
    }
    let source = FeedbackSource::new(1, b"me".to_vec(), true).unwrap();
    let packet = reporter.take_due(Ticks(50), &source)?.unwrap();
    let messages: Vec<_> =
        read_messages(CompoundRule::Full, MessageKind::Transport, &packet)?.collect();
    assert_eq!(messages.len(), 1);
    assert_eq!((messages[0].sender_ssrc, messages[0].media_ssrc), (1, 7));
    let feedback = read_transport_feedback(messages[0].control)?;
    for (n, result) in sent.results(&feedback)?.iter().enumerate() {
        let arrived = (n % 3 != 2).then(|| 4 * (n as u32 + 30));
        assert_eq!(result.received, arrived);
        assert_eq!(result.sent, Some(Ticks(n as u64)));
    }
    Ok(())
}

/// Messages of other types and formats are skipped, and so is one that ends inside its SSRCs.
#[test]
fn messages_are_found_among_packets() -> Result<(), Fail> {
    let mut packet = vec![0x80, 201, 0, 1, 0, 0, 0, 1];
    write_remb_packet(2, 1_000, &[0, 0, 0, 7], &mut packet)?;
    packet.extend_from_slice(&[0x8f, 205, 0, 1, 0, 0, 0, 3]);
    write_transport_packet(3, 4, &[1, 2, 3, 4], &mut packet)?;
    packet.extend_from_slice(&[0x81, 206, 0, 2, 0, 0, 0, 3, 0, 0, 0, 4]);
    let read = |kind| read_messages(CompoundRule::Full, kind, &packet);
    let found: Vec<_> = read(MessageKind::Transport)?.collect();
    assert_eq!(found.len(), 1);
    assert_eq!((found[0].sender_ssrc, found[0].media_ssrc), (3, 4));
    assert_eq!(found[0].control, [1, 2, 3, 4]);
    let found: Vec<_> = read(MessageKind::Application)?.collect();
    assert_eq!(found.len(), 1);
    assert_eq!(read_remb(found[0].control)?.bitrate, 1_000);
    let cut = read_messages(
        CompoundRule::Full,
        MessageKind::Transport,
        &packet[..packet.len() - 1],
    );
    assert_eq!(cut.unwrap_err(), RtcpError::PacketTooShort);
    Ok(())
}
