//! Packets that are written, byte by byte after the figures of the RFCs, and read again.

use crate::Fail;
use codec_payload::rtcp::compound::{CompoundRule, read_compound};
use codec_payload::rtcp::items::{FullIntraEntry, ReportBlock};
use codec_payload::rtcp::nack::pack_numbers;
use codec_payload::rtcp::packet::{
    FullIntraRequest, Goodbye, Nack, PictureLoss, ReceiverReport, RtcpPacket, SenderReport,
    SourceDescription,
};
use codec_payload::rtcp::sdes::{CNAME, SdesItem, write_chunk};
use codec_payload::rtcp::writing::{padding_fits, write_cname, write_padded};

#[test]
fn compound_written() -> Result<(), Fail> {
    let block = ReportBlock {
        ssrc: 0x7968_d608,
        fraction_lost: 1,
        cumulative_lost: 2,
        highest_sequence_number: 0x728d,
        jitter: 309,
        last_sender_report: 0xd867_3cae,
        delay_since_sender_report: 8975,
    };
    let mut blocks = Vec::new();
    block.write(&mut blocks)?;
    let mut out = Vec::new();
    let report = ReceiverReport {
        ssrc: 1,
        blocks: &blocks,
        extension: &[],
    };
    if report.blocks.len() == 24 {
        report.write(&mut out)?;
    }
    write_cname(1, b"me@host", &mut out)?;
    PictureLoss {
        sender_ssrc: 1,
        media_ssrc: 2,
    }
    .write(&mut out)?;
    let wanted: [u8; 64] = [
        0x81, 201, 0, 7, 0, 0, 0, 1, 0x79, 0x68, 0xd6, 0x08, 1, 0, 0, 2, 0, 0, 0x72, 0x8d, 0, 0, 1,
        0x35, 0xd8, 0x67, 0x3c, 0xae, 0, 0, 0x23, 0x0f, 0x81, 202, 0, 4, 0, 0, 0, 1, 1, 7, b'm',
        b'e', b'@', b'h', b'o', b's', b't', 0, 0, 0, 0x81, 206, 0, 2, 0, 0, 0, 1, 0, 0, 0, 2,
    ];
    assert_eq!(out.as_slice(), wanted.as_slice());
    let mut packets = read_compound(CompoundRule::Full, &out)
        .ok()
        .ok_or("what was written is read")?;
    let Some(RtcpPacket::ReceiverReport(again)) = packets.next() else {
        return Err("the first is the report".into());
    };
    assert_eq!(again.block(0), Some(block));
    let Some(RtcpPacket::SourceDescription(description)) = packets.next() else {
        return Err("the second is the description".into());
    };
    let chunk = description.chunks().next().ok_or("it has a chunk")?;
    assert_eq!(chunk.cname(), Some(b"me@host".as_slice()));
    Ok(())
}

#[test]
fn numbers_packed() -> Result<(), Fail> {
    let mut pairs = Vec::new();
    pack_numbers(&[65_534, 65_535, 0, 14, 15, 100, 116, 117, 90], &mut pairs)?;
    let wanted: [u8; 20] = [
        0xff, 0xfe, 0x80, 0x03, 0, 15, 0, 0, 0, 100, 0x80, 0, 0, 117, 0, 0, 0, 90, 0, 0,
    ];
    assert_eq!(pairs.as_slice(), wanted.as_slice());
    let mut out = Vec::new();
    let nack = Nack {
        sender_ssrc: 1,
        media_ssrc: 2,
        pairs: &pairs,
    };
    if nack.pairs.len() == 20 {
        nack.write(&mut out)?;
    }
    assert_eq!(
        &out[..12],
        [0x81, 205, 0, 7, 0, 0, 0, 1, 0, 0, 0, 2].as_slice()
    );
    assert_eq!(out.len(), 32);
    Ok(())
}

#[test]
fn others_written() -> Result<(), Fail> {
    let mut entries = Vec::new();
    FullIntraEntry {
        ssrc: 9,
        sequence_number: 5,
    }
    .write(&mut entries)?;
    let mut out = Vec::new();
    let request = FullIntraRequest {
        sender_ssrc: 1,
        media_ssrc: 0,
        entries: &entries,
    };
    if request.entries.len() == 8 {
        request.write(&mut out)?;
    }
    Goodbye {
        ssrcs: &[0, 0, 0, 3],
        reason: Some(b"ok"),
    }
    .write(&mut out)?;
    Goodbye {
        ssrcs: &[],
        reason: None,
    }
    .write(&mut out)?;
    SenderReport {
        ssrc: 1,
        ntp_seconds: 2,
        ntp_fraction: 3,
        rtp_time: 4,
        packet_count: 5,
        octet_count: 6,
        blocks: &[],
        extension: &[],
    }
    .write(&mut out)?;
    let wanted: [u8; 64] = [
        0x84, 206, 0, 4, 0, 0, 0, 1, 0, 0, 0, 0, 0, 0, 0, 9, 5, 0, 0, 0, 0x81, 203, 0, 2, 0, 0, 0,
        3, 2, b'o', b'k', 0, 0x80, 203, 0, 0, 0x80, 200, 0, 6, 0, 0, 0, 1, 0, 0, 0, 2, 0, 0, 0, 3,
        0, 0, 0, 4, 0, 0, 0, 5, 0, 0, 0, 6,
    ];
    assert_eq!(out.as_slice(), wanted.as_slice());
    Ok(())
}

/// NAME is 2 (RFC 3550, section 6.5.2).
const NAME: u8 = 2;

/// Two chunks: one with two items, of whose 4 + 4 + 8 bytes 15 are used, and one without items.
const CHUNKS: [u8; 24] = [
    0, 0, 0, 1, 1, 2, b'm', b'e', 2, 5, b'A', b'l', b'i', b'c', b'e', 0, 0, 0, 0, 2, 0, 0, 0, 0,
];

#[test]
fn several_chunks_written() -> Result<(), Fail> {
    let items = [
        SdesItem {
            kind: CNAME,
            text: b"me",
        },
        SdesItem {
            kind: NAME,
            text: b"Alice",
        },
    ];
    let mut chunks = Vec::new();
    write_chunk(1, &items, &mut chunks)?;
    write_chunk(2, &[], &mut chunks)?;
    assert_eq!(chunks, CHUNKS);
    let description = SourceDescription {
        count: 2,
        chunks: &chunks,
    };
    assert!(description.fits());
    let mut out = Vec::new();
    description.write(&mut out)?;
    assert_eq!(out[..4], [0x82, 202, 0, 6]);
    assert_eq!(out[4..], CHUNKS);
    let mut packets = read_compound(CompoundRule::ReducedSize, &out)?;
    let Some(RtcpPacket::SourceDescription(again)) = packets.next() else {
        return Err("it is a description".into());
    };
    let found: Vec<_> = again.chunks().collect();
    assert_eq!(found.len(), 2);
    assert!(found[0].items().eq(items));
    assert_eq!((found[1].ssrc, found[1].items().count()), (2, 0));
    Ok(())
}

/// Each length of a text ends its chunk with one to four bytes of 0, and comes back.
#[test]
fn every_length_of_a_text() -> Result<(), Fail> {
    let text = [b'x'; 255];
    for len in 0..=255 {
        let item = SdesItem {
            kind: CNAME,
            text: &text[..len],
        };
        let mut chunks = Vec::new();
        write_chunk(7, &[item], &mut chunks)?;
        assert_eq!(chunks.len(), (6 + len) / 4 * 4 + 4);
        assert!(chunks[6 + len..].iter().all(|byte| *byte == 0));
        let description = SourceDescription {
            count: 1,
            chunks: &chunks,
        };
        let mut out = Vec::new();
        description.write(&mut out)?;
        let mut cname = Vec::new();
        write_cname(7, item.text, &mut cname)?;
        assert_eq!(out, cname);
    }
    Ok(())
}

#[test]
fn what_does_not_fit() {
    let long = [b'x'; 256];
    let fits = |kind, text| SdesItem { kind, text }.fits();
    assert!(fits(255, &long[..255]));
    assert!(!fits(0, b"x"));
    assert!(!fits(1, &long));
    let fits = |count, chunks| SourceDescription { count, chunks }.fits();
    assert!(fits(0, &[]));
    assert!(fits(2, &CHUNKS));
    assert!(!fits(3, &CHUNKS));
    assert!(!fits(2, &CHUNKS[..23]));
    assert!(!fits(32, &[0; 32 * 8]));
    assert!(fits(31, &[0; 31 * 8]));
    assert!(fits(1, &[0; 262_140]));
    assert!(!fits(1, &[0; 262_144]));
    let packet = [0x80, 203, 0, 0];
    for padding in 0..=255u8 {
        assert_eq!(
            padding_fits(&packet, padding),
            padding > 0 && padding % 4 == 0
        );
    }
    assert!(!padding_fits(&[0xa0, 203, 0, 0], 4));
    assert!(!padding_fits(&packet[..3], 4));
    assert!(!padding_fits(&[0x80; 262_144], 4));
    assert!(padding_fits(&[0x80; 262_140], 4));
}

/// A PLI with padding behind a report: P is set and the length counts the padding (RFC 3550, section 6.4.1).
#[test]
fn the_last_is_padded() -> Result<(), Fail> {
    let loss = PictureLoss {
        sender_ssrc: 1,
        media_ssrc: 2,
    };
    let mut last = Vec::new();
    loss.write(&mut last)?;
    for padding in (4..=252u8).step_by(4) {
        let report = ReceiverReport {
            ssrc: 1,
            blocks: &[],
            extension: &[],
        };
        let mut out = Vec::new();
        report.write(&mut out)?;
        write_padded(&last, padding, &mut out)?;
        assert_eq!(out.len(), 20 + usize::from(padding));
        assert_eq!(out[8..12], [0xa1, 206, 0, 2 + padding / 4]);
        assert_eq!(out[12..20], last[4..]);
        let (count, zeros) = out[20..].split_last().ok_or("it has padding")?;
        assert_eq!(*count, padding);
        assert!(zeros.iter().all(|byte| *byte == 0));
        let mut packets = read_compound(CompoundRule::Full, &out)?.skip(1);
        assert_eq!(packets.next(), Some(RtcpPacket::PictureLoss(loss)));
        assert_eq!(packets.next(), None);
    }
    Ok(())
}
