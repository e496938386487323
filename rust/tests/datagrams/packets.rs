//! RTP packets: faults in reading order, the shortest and a full packet, written packets, and RTCP on the same port.

use crate::Fail;
use codec_payload::rtp::elements::Element;
use codec_payload::rtp::packet::{HeaderExtension, PacketHeader, RtpError, RtpPacket, is_rtcp};

/// A packet, and the fault that it is refused for.
struct Refused {
    name: &'static str,
    bytes: &'static [u8],
    fault: RtpError,
}

/// Twelve bytes that are a packet alone: version 2, type 96, number 0x1234, time 0x56789abc, source 0xdef01234.
const FIXED: [u8; 12] = [
    0x80, 0x60, 0x12, 0x34, 0x56, 0x78, 0x9a, 0xbc, 0xde, 0xf0, 0x12, 0x34,
];

/// P, X and M are set, and there are two CSRCs, an extension of one word in the one-byte form, and three bytes of padding.
const FULL: [u8; 33] = [
    0xb2, 0xe0, 0x12, 0x34, 0x56, 0x78, 0x9a, 0xbc, 0xde, 0xf0, 0x12, 0x34, 0, 0, 0, 1, 0, 0, 0, 2,
    0xbe, 0xde, 0, 1, 0x10, 0xaa, 0x20, 0xbb, 0x90, 0x80, 9, 9, 3,
];

/// The first byte is V P X CC, the second M and the type; number, time and source follow in ten bytes, and then the bytes that the
/// name of the test vector describes (RFC 3550, section 5.1).
const REFUSED: [Refused; 12] = [
    Refused {
        name: "nothing",
        bytes: &[],
        fault: RtpError::HeaderTooShort,
    },
    Refused {
        name: "eleven-bytes-of-another-version",
        bytes: &[0, 0x60, 0, 0, 0, 0, 0, 0, 0, 0, 0],
        fault: RtpError::HeaderTooShort,
    },
    Refused {
        name: "version-1",
        bytes: &[0x40, 0x60, 0, 0, 0, 0, 0, 0, 0, 0, 0, 0],
        fault: RtpError::WrongVersion,
    },
    Refused {
        name: "version-3-with-csrcs-that-are-missing",
        bytes: &[0xcf, 0x60, 0, 0, 0, 0, 0, 0, 0, 0, 0, 0],
        fault: RtpError::WrongVersion,
    },
    Refused {
        name: "a-byte-of-a-csrc-is-missing",
        bytes: &[0x81, 0x60, 0, 0, 0, 0, 0, 0, 0, 0, 0, 0, 1, 2, 3],
        fault: RtpError::CsrcsTooShort,
    },
    Refused {
        name: "csrcs-before-the-extension",
        bytes: &[0x9f, 0x60, 0, 0, 0, 0, 0, 0, 0, 0, 0, 0, 1, 2, 3, 4],
        fault: RtpError::CsrcsTooShort,
    },
    Refused {
        name: "three-bytes-of-an-extension",
        bytes: &[0x90, 0x60, 0, 0, 0, 0, 0, 0, 0, 0, 0, 0, 0xbe, 0xde, 0],
        fault: RtpError::ExtensionHeaderTooShort,
    },
    Refused {
        name: "the-longest-extension-of-three-bytes",
        bytes: &[
            0x90, 0x60, 0, 0, 0, 0, 0, 0, 0, 0, 0, 0, 0xbe, 0xde, 0xff, 0xff, 1, 2, 3,
        ],
        fault: RtpError::ExtensionTooShort,
    },
    Refused {
        name: "a-byte-of-the-extension-is-missing-before-padding",
        bytes: &[
            0xb0, 0x60, 0, 0, 0, 0, 0, 0, 0, 0, 0, 0, 0xbe, 0xde, 0, 1, 1, 2, 0,
        ],
        fault: RtpError::ExtensionTooShort,
    },
    Refused {
        name: "padding-of-0",
        bytes: &[0xa0, 0x60, 0, 0, 0, 0, 0, 0, 0, 0, 0, 0, 1, 0],
        fault: RtpError::PaddingOfZero,
    },
    Refused {
        name: "padding-of-one-more-than-is-left",
        bytes: &[0xa0, 0x60, 0, 0, 0, 0, 0, 0, 0, 0, 0, 0, 1, 3],
        fault: RtpError::PaddingTooLong,
    },
    Refused {
        name: "padding-and-nothing-left",
        bytes: &[0xa0, 0x60, 0, 0, 0, 0, 0, 0, 0, 0, 0, 1],
        fault: RtpError::PaddingTooLong,
    },
];

#[test]
fn faults_in_reading_order() {
    for row in &REFUSED {
        assert_eq!(
            RtpPacket::parse(row.bytes).err(),
            Some(row.fault),
            "in {}",
            row.name
        );
    }
}

#[test]
fn least_packet() -> Result<(), Fail> {
    let packet = RtpPacket::parse(&FIXED)
        .ok()
        .ok_or("the bytes are a packet")?;
    let header = PacketHeader {
        marker: false,
        payload_type: 96,
        sequence_number: 0x1234,
        timestamp: 0x5678_9abc,
        ssrc: 0xdef0_1234,
        csrcs: &[],
        extension: None,
    };
    assert_eq!(packet.header, header);
    assert_eq!(packet.payload.len(), 0);
    assert_eq!(packet.padding, 0);
    assert_eq!(packet.header.csrc(0), None);
    Ok(())
}

#[test]
fn full_packet() -> Result<(), Fail> {
    let packet = RtpPacket::parse(&FULL)
        .ok()
        .ok_or("the bytes are a packet")?;
    let header = packet.header;
    assert!(header.marker);
    assert_eq!(header.payload_type, 96);
    assert_eq!(header.csrc_count(), 2);
    assert_eq!(header.csrc(0), Some(1));
    assert_eq!(header.csrc(1), Some(2));
    assert_eq!(header.csrc(2), None);
    assert_eq!(packet.payload, [0x90, 0x80]);
    assert_eq!(packet.padding, 3);
    let extension = header.extension.ok_or("it has an extension")?;
    assert_eq!(extension.profile, 0xbede);
    let mut elements = extension.elements().ok_or("it has elements")?;
    assert_eq!(
        elements.next(),
        Some(Element {
            id: 1,
            bytes: &[0xaa]
        })
    );
    assert_eq!(
        elements.next(),
        Some(Element {
            id: 2,
            bytes: &[0xbb]
        })
    );
    assert_eq!(elements.next(), None);
    assert!(!elements.is_cut());
    Ok(())
}

#[test]
fn written_again() -> Result<(), Fail> {
    let packet = RtpPacket::parse(&FULL)
        .ok()
        .ok_or("the bytes are a packet")?;
    let mut out = Vec::new();
    if packet.header.fits() {
        assert_eq!(packet.header.size(), 28);
        packet.write(&mut out)?;
    }
    assert_eq!(out.len(), 33);
    let mut wanted = FULL;
    wanted[30] = 0;
    wanted[31] = 0;
    assert_eq!(out, wanted);
    let again = RtpPacket::parse(&out)
        .ok()
        .ok_or("what was written is a packet")?;
    assert_eq!(again.header, packet.header);
    assert_eq!(again.payload, packet.payload);
    assert_eq!(again.padding, 3);
    Ok(())
}

#[test]
fn rtcp() {
    for (second, wanted) in [
        (191u8, false),
        (192, true),
        (200, true),
        (223, true),
        (224, false),
        (96, false),
    ] {
        assert_eq!(is_rtcp(&[0x80, second]), wanted);
    }
    assert!(!is_rtcp(&[200]));
    let extension = HeaderExtension {
        profile: 0x1234,
        bytes: &[1, 2, 3],
    };
    assert!(!extension.fits());
    assert!(extension.elements().is_none());
}

/// The fault of the first `len` bytes of a full packet: the header has 12 bytes, two CSRCs 8, the header of the extension 4, its
/// word 4, and then come two bytes of payload and three of padding.
fn fault_of_beginning(len: usize) -> Option<RtpError> {
    match len {
        0..=11 => Some(RtpError::HeaderTooShort),
        12..=19 => Some(RtpError::CsrcsTooShort),
        20..=23 => Some(RtpError::ExtensionHeaderTooShort),
        24..=27 => Some(RtpError::ExtensionTooShort),
        // Nothing is left, or the last byte, 0x90, 0x80 or 9, counts more than is left.
        28..=32 => Some(RtpError::PaddingTooLong),
        _ => None,
    }
}

#[test]
fn every_beginning() {
    for len in 0..=FULL.len() {
        assert_eq!(
            RtpPacket::parse(&FULL[..len]).err(),
            fault_of_beginning(len),
            "of {len} bytes"
        );
    }
}

/// A packet of 255 bytes after the header, each with this value, with P set.
fn padded(count: u8) -> [u8; 267] {
    let mut bytes = [count; 267];
    bytes[..12].copy_from_slice(&FIXED);
    bytes[0] = 0xa0;
    bytes
}

#[test]
fn every_padding() {
    assert_eq!(
        RtpPacket::parse(&padded(0)).err(),
        Some(RtpError::PaddingOfZero)
    );
    for count in 1..=255u8 {
        let found = match RtpPacket::parse(&padded(count)) {
            Ok(packet) => Some((packet.payload.len(), packet.padding)),
            Err(_) => None,
        };
        assert_eq!(found, Some((255 - usize::from(count), count)));
    }
}

/// A packet with `csrcs` CSRCs, 0 to 15, whose bytes are all 7, and an extension of `words` words.
fn extended(csrcs: u8, words: u8) -> [u8; 200] {
    let csrcs = csrcs % 16;
    let mut bytes = [7; 200];
    bytes[..12].copy_from_slice(&FIXED);
    bytes[0] = 0x90 + csrcs;
    let at = 12 + 4 * usize::from(csrcs);
    bytes[at..at + 4].copy_from_slice(&[0x12, 0x34, 0, words]);
    bytes
}

#[test]
fn every_count_of_csrcs_and_words() {
    for csrcs in 0..=15u8 {
        for words in 0..=30u8 {
            let found = match RtpPacket::parse(&extended(csrcs, words)) {
                Ok(packet) => Some((packet.header.csrc_count(), packet.payload.len())),
                Err(_) => None,
            };
            let before = 16 + 4 * (usize::from(csrcs) + usize::from(words));
            let wanted = if before <= 200 {
                Some((usize::from(csrcs), 200 - before))
            } else {
                None
            };
            assert_eq!(found, wanted, "{csrcs} CSRCs, {words} words");
        }
    }
}
