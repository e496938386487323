//! Packets that are read: from captures of calls of Chromium, and by hand after the figures of the RFCs.

use crate::Fail;
use codec_payload::rtcp::compound::{CompoundRule, read_compound};
use codec_payload::rtcp::items::{FullIntraEntry, ReportBlock};
use codec_payload::rtcp::packet::{OtherPacket, PictureLoss, RtcpError, RtcpPacket};

/// A sender report without report blocks, a source description with a CNAME, and an extended report (type 207), of a call.
const SENDER: [u8; 80] = [
    0x80, 0xc8, 0x00, 0x06, 0x4c, 0x78, 0xb9, 0x0d, 0xee, 0xaf, 0xd8, 0x79, 0x28, 0xb0, 0xe1, 0xb4,
    0xb1, 0x73, 0x35, 0x68, 0x00, 0x00, 0x00, 0x16, 0x00, 0x00, 0x3e, 0x93, 0x81, 0xca, 0x00, 0x06,
    0x4c, 0x78, 0xb9, 0x0d, 0x01, 0x10, 0x6f, 0x57, 0x4c, 0x61, 0x49, 0x55, 0x59, 0x6b, 0x66, 0x62,
    0x69, 0x2b, 0x69, 0x51, 0x6d, 0x68, 0x00, 0x00, 0x80, 0xcf, 0x00, 0x05, 0x4c, 0x78, 0xb9, 0x0d,
    0x05, 0x00, 0x00, 0x03, 0x00, 0x00, 0x00, 0x01, 0xd8, 0x79, 0x18, 0xae, 0x00, 0x00, 0x0f, 0xdf,
];

/// A receiver report with two report blocks, and an extended report, of a call.
const RECEIVER: [u8; 76] = [
    0x82, 0xc9, 0x00, 0x0d, 0x00, 0x00, 0x00, 0x01, 0x70, 0xc6, 0x21, 0x4b, 0x00, 0x00, 0x00, 0x00,
    0x00, 0x00, 0x7f, 0x7f, 0x00, 0x00, 0x00, 0xe1, 0xd8, 0x67, 0x3c, 0xae, 0x00, 0x00, 0x23, 0x0f,
    0x79, 0x68, 0xd6, 0x08, 0x00, 0x00, 0x00, 0x00, 0x00, 0x00, 0x72, 0x8d, 0x00, 0x00, 0x01, 0x35,
    0xd8, 0x67, 0x3c, 0xae, 0x00, 0x00, 0x23, 0x0f, 0x80, 0xcf, 0x00, 0x04, 0x00, 0x00, 0x00, 0x01,
    0x04, 0x00, 0x00, 0x02, 0xee, 0xaf, 0xd8, 0x67, 0x60, 0xe6, 0x5b, 0xea,
];

/// Feedback of transport-wide congestion control with three bytes of padding, alone in its datagram, of a call.
const CONGESTION: [u8; 28] = [
    0xaf, 0xcd, 0x00, 0x06, 0x00, 0x00, 0x00, 0x01, 0x79, 0x68, 0xd6, 0x08, 0x00, 0x01, 0x00, 0x03,
    0x01, 0x55, 0x7e, 0x00, 0x20, 0x03, 0x2d, 0x08, 0x26, 0x00, 0x00, 0x03,
];

#[test]
fn sender_report_of_a_call() -> Result<(), Fail> {
    let mut packets = read_compound(CompoundRule::Full, &SENDER)
        .ok()
        .ok_or("the bytes are a compound packet")?;
    let Some(RtcpPacket::SenderReport(report)) = packets.next() else {
        return Err("the first is a sender report".into());
    };
    assert_eq!(report.ssrc, 0x4c78_b90d);
    assert_eq!(report.ntp_seconds, 0xeeaf_d879);
    assert_eq!(report.ntp_fraction, 0x28b0_e1b4);
    assert_eq!(report.rtp_time, 0xb173_3568);
    assert_eq!(report.packet_count, 22);
    assert_eq!(report.octet_count, 16_019);
    assert_eq!(report.blocks.len(), 0);
    assert_eq!(report.extension.len(), 0);
    assert_eq!(report.block(0), None);
    let Some(RtcpPacket::SourceDescription(description)) = packets.next() else {
        return Err("the second is a source description".into());
    };
    let mut chunks = description.chunks();
    let chunk = chunks.next().ok_or("it has a chunk")?;
    assert_eq!(chunk.ssrc, 0x4c78_b90d);
    assert_eq!(chunk.cname(), Some(b"oWLaIUYkfbi+iQmh".as_slice()));
    let mut items = chunk.items();
    assert!(items.next().is_some());
    assert!(items.next().is_none());
    assert!(chunks.next().is_none());
    let Some(RtcpPacket::Other(other)) = packets.next() else {
        return Err("the third is of another type".into());
    };
    assert_eq!(other.packet_type, 207);
    assert_eq!(other.count, 0);
    assert_eq!(other.body, &SENDER[60..]);
    assert_eq!(packets.next(), None);
    Ok(())
}

#[test]
fn receiver_report_of_a_call() -> Result<(), Fail> {
    let mut packets = read_compound(CompoundRule::Full, &RECEIVER)
        .ok()
        .ok_or("the bytes are a compound packet")?;
    let Some(RtcpPacket::ReceiverReport(report)) = packets.next() else {
        return Err("the first is a receiver report".into());
    };
    assert_eq!(report.ssrc, 1);
    assert_eq!(
        report.block(1),
        Some(ReportBlock {
            ssrc: 0x7968_d608,
            fraction_lost: 0,
            cumulative_lost: 0,
            highest_sequence_number: 0x728d,
            jitter: 309,
            last_sender_report: 0xd867_3cae,
            delay_since_sender_report: 8975,
        })
    );
    assert!(report.block(0).is_some());
    assert_eq!(report.block(2), None);
    assert!(packets.next().is_some());
    assert_eq!(packets.next(), None);
    Ok(())
}

#[test]
fn reduced_size_of_a_call() -> Result<(), Fail> {
    assert_eq!(
        read_compound(CompoundRule::Full, &CONGESTION).err(),
        Some(RtcpError::FirstNotReport)
    );
    let mut packets = read_compound(CompoundRule::ReducedSize, &CONGESTION)
        .ok()
        .ok_or("the bytes are a packet")?;
    assert_eq!(
        packets.next(),
        Some(RtcpPacket::Other(OtherPacket {
            packet_type: 205,
            count: 15,
            body: &CONGESTION[4..25],
        }))
    );
    assert_eq!(packets.next(), None);
    Ok(())
}

/// A generic NACK of the packets 65534, 65535, 0 and 14, and of 100 and 116 (RFC 4585, section 6.2.1).
const NACK: [u8; 20] = [
    0x81, 205, 0, 4, 0, 0, 0, 1, 0, 0, 0, 2, 0xff, 0xfe, 0x80, 0x03, 0, 100, 0x80, 0,
];

#[test]
fn missing_numbers() -> Result<(), Fail> {
    let mut packets = read_compound(CompoundRule::ReducedSize, &NACK)
        .ok()
        .ok_or("the bytes are a packet")?;
    let Some(RtcpPacket::Nack(nack)) = packets.next() else {
        return Err("it is a NACK".into());
    };
    assert_eq!(nack.sender_ssrc, 1);
    assert_eq!(nack.media_ssrc, 2);
    let mut numbers = nack.numbers();
    for wanted in [65_534u16, 65_535, 0, 14, 100, 116] {
        assert_eq!(numbers.next(), Some(wanted));
    }
    assert_eq!(numbers.next(), None);
    Ok(())
}

/// An empty receiver report, a PLI, a FIR with one entry, and a BYE of two sources with a reason of two bytes.
const MANY: [u8; 60] = [
    0x80, 201, 0, 1, 0, 0, 0, 7, 0x81, 206, 0, 2, 0, 0, 0, 1, 0, 0, 0, 2, 0x84, 206, 0, 4, 0, 0, 0,
    1, 0, 0, 0, 0, 0, 0, 0, 9, 5, 0, 0, 0, 0x82, 203, 0, 4, 0, 0, 0, 3, 0, 0, 0, 4, 2, b'o', b'k',
    0, 0, 0, 0, 4,
];

#[test]
fn many_packets() -> Result<(), Fail> {
    let mut bytes = MANY;
    // P is set in the last packet: its last four bytes are padding.
    bytes[40] = 0xa2;
    let mut packets = read_compound(CompoundRule::Full, &bytes)
        .ok()
        .ok_or("the bytes are a compound packet")?;
    assert!(packets.next().is_some());
    assert_eq!(
        packets.next(),
        Some(RtcpPacket::PictureLoss(PictureLoss {
            sender_ssrc: 1,
            media_ssrc: 2,
        }))
    );
    let Some(RtcpPacket::FullIntra(request)) = packets.next() else {
        return Err("the third is a FIR".into());
    };
    assert_eq!(
        request.entry(0),
        Some(FullIntraEntry {
            ssrc: 9,
            sequence_number: 5,
        })
    );
    assert_eq!(request.entry(1), None);
    let Some(RtcpPacket::Goodbye(goodbye)) = packets.next() else {
        return Err("the fourth is a BYE".into());
    };
    assert_eq!(goodbye.count(), 2);
    assert_eq!(goodbye.ssrc(0), Some(3));
    assert_eq!(goodbye.ssrc(1), Some(4));
    assert_eq!(goodbye.ssrc(2), None);
    assert_eq!(goodbye.reason, Some(b"ok".as_slice()));
    assert_eq!(packets.next(), None);
    Ok(())
}

/// Bytes, and the fault that they are refused for.
struct Refused {
    name: &'static str,
    bytes: &'static [u8],
    fault: RtcpError,
}

/// The first byte is V P and the count, then come the packet type and the length in words after the header.
const REFUSED: [Refused; 20] = [
    Refused {
        name: "nothing",
        bytes: &[],
        fault: RtcpError::HeaderTooShort,
    },
    Refused {
        name: "three-bytes-of-another-version",
        bytes: &[0, 200, 0],
        fault: RtcpError::HeaderTooShort,
    },
    Refused {
        name: "version-1",
        bytes: &[0x40, 206, 0, 9],
        fault: RtcpError::WrongVersion,
    },
    Refused {
        name: "three-bytes-after-a-packet",
        bytes: &[0x80, 201, 0, 1, 0, 0, 0, 7, 0x80, 201, 0],
        fault: RtcpError::HeaderTooShort,
    },
    Refused {
        name: "version-3-in-the-second-packet",
        bytes: &[0x80, 201, 0, 1, 0, 0, 0, 7, 0xc0, 201, 0, 9],
        fault: RtcpError::WrongVersion,
    },
    Refused {
        name: "length-past-the-end",
        bytes: &[0xa0, 201, 0, 2, 0, 0, 0, 7, 0, 0, 0],
        fault: RtcpError::PacketTooShort,
    },
    Refused {
        name: "padding-before-another-packet",
        bytes: &[0xa0, 201, 0, 2, 0, 0, 0, 7, 0, 0, 0, 4, 0x80, 201, 0, 9],
        fault: RtcpError::PaddingNotLast,
    },
    Refused {
        name: "padding-of-0",
        bytes: &[0xa0, 201, 0, 1, 0, 0, 0, 0],
        fault: RtcpError::PaddingOfZero,
    },
    Refused {
        name: "padding-of-more-than-the-packet",
        bytes: &[0xa0, 201, 0, 1, 0, 0, 0, 5],
        fault: RtcpError::PaddingTooLong,
    },
    Refused {
        name: "padding-of-a-header-alone",
        bytes: &[0xa0, 201, 0, 0],
        fault: RtcpError::PaddingTooLong,
    },
    Refused {
        name: "padding-that-is-the-whole-report",
        bytes: &[0xa0, 201, 0, 1, 0, 0, 0, 4],
        fault: RtcpError::ReportTooShort,
    },
    Refused {
        name: "a-report-block-is-missing",
        bytes: &[0x81, 201, 0, 1, 0, 0, 0, 7],
        fault: RtcpError::ReportTooShort,
    },
    Refused {
        name: "sender-report-of-five-words",
        bytes: &[
            0x80, 200, 0, 5, 0, 0, 0, 7, 0, 0, 0, 0, 0, 0, 0, 0, 0, 0, 0, 0, 0, 0, 0, 0,
        ],
        fault: RtcpError::ReportTooShort,
    },
    Refused {
        name: "description-without-its-chunk",
        bytes: &[0x81, 202, 0, 0],
        fault: RtcpError::ChunkTooShort,
    },
    Refused {
        name: "items-without-an-end",
        bytes: &[0x81, 202, 0, 2, 0, 0, 0, 7, 1, 2, b'o', b'k'],
        fault: RtcpError::ItemsTooShort,
    },
    Refused {
        name: "goodbye-of-two-sources-in-a-word",
        bytes: &[0x82, 203, 0, 1, 0, 0, 0, 7],
        fault: RtcpError::GoodbyeTooShort,
    },
    Refused {
        name: "reason-of-four-bytes-in-a-word",
        bytes: &[0x80, 203, 0, 1, 4, 0, 0, 0],
        fault: RtcpError::ReasonTooShort,
    },
    Refused {
        name: "nack-without-pairs",
        bytes: &[0x81, 205, 0, 2, 0, 0, 0, 1, 0, 0, 0, 2],
        fault: RtcpError::NackWrongLength,
    },
    Refused {
        name: "picture-loss-with-a-word",
        bytes: &[0x81, 206, 0, 3, 0, 0, 0, 1, 0, 0, 0, 2, 0, 0, 0, 0],
        fault: RtcpError::PictureLossWrongLength,
    },
    Refused {
        name: "full-intra-of-half-an-entry",
        bytes: &[0x84, 206, 0, 3, 0, 0, 0, 1, 0, 0, 0, 2, 0, 0, 0, 0],
        fault: RtcpError::FullIntraWrongLength,
    },
];

#[test]
fn each_fault() {
    for row in &REFUSED {
        assert_eq!(
            read_compound(CompoundRule::ReducedSize, row.bytes).err(),
            Some(row.fault),
            "in {}",
            row.name
        );
    }
    assert_eq!(
        read_compound(CompoundRule::Full, &[0x40, 206, 0, 9]).err(),
        Some(RtcpError::WrongVersion)
    );
    assert_eq!(
        read_compound(CompoundRule::Full, &[0x80, 206, 0, 9]).err(),
        Some(RtcpError::FirstNotReport)
    );
    assert_eq!(
        read_compound(CompoundRule::ReducedSize, &[0x81, 205, 0, 1, 0, 0, 0, 1]).err(),
        Some(RtcpError::FeedbackTooShort)
    );
}
