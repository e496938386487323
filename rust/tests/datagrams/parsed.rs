//! A receiver that is given parsed datagrams does what one does that is given their bytes.

use crate::Fail;
use crate::events::{WAITS, packet, receiver_for};
use codec_payload::rtp::RtpError;
use codec_payload::stream::ParsedDatagram;
use codec_payload::wire::Ticks;

/// A picture loss indication (RFC 4585, section 6.3.1).
const PLI: [u8; 12] = [0x81, 206, 0, 2, 0, 0, 0, 1, 0, 0, 0, 7];

/// Datagrams: packets of two streams, one of them with padding alone, RTCP, and bytes of neither.
fn datagrams() -> Vec<Vec<u8>> {
    let mut padding = packet(96, 12, 7, 1);
    padding[0] |= 0x20;
    vec![
        packet(96, 500, 8, 1).to_vec(),
        packet(96, 10, 7, 10).to_vec(),
        packet(96, 11, 7, 11).to_vec(),
        padding.to_vec(),
        PLI.to_vec(),
        packet(96, 13, 8, 13).to_vec(),
        packet(95, 14, 7, 14).to_vec(),
        vec![0x80; 11],
        vec![0; 20],
        Vec::new(),
        packet(96, 15, 7, 15).to_vec(),
    ]
}

#[test]
fn a_parsed_datagram_is_received_as_its_bytes() -> Result<(), Fail> {
    for ssrc in [None, Some(7)] {
        let mut plain = receiver_for(ssrc, WAITS, 64)?;
        let mut parsed = receiver_for(ssrc, WAITS, 64)?;
        for (at, bytes) in datagrams().iter().enumerate() {
            let now = Ticks(at as u64);
            let datagram = ParsedDatagram::parse(bytes);
            assert_eq!(
                plain.receive(now, bytes),
                parsed.receive_parsed(now, &datagram),
                "datagram {at}"
            );
            assert_eq!(plain.counters(), parsed.counters(), "datagram {at}");
        }
        assert_eq!(plain.ssrc(), Some(7));
        assert_eq!(plain.held(), 3);
        assert_eq!(parsed.held(), 3);
    }
    Ok(())
}

#[test]
fn a_parsed_datagram_tells_what_it_is() -> Result<(), Fail> {
    let bytes = packet(96, 10, 7, 1);
    let datagram = ParsedDatagram::parse(&bytes);
    assert!(!datagram.is_rtcp());
    assert_eq!(datagram.bytes(), bytes);
    let header = datagram.packet().as_ref().map_err(|fault| *fault)?.header;
    assert_eq!(
        (header.payload_type, header.ssrc, header.sequence_number),
        (96, 7, 10)
    );
    assert!(ParsedDatagram::parse(&PLI).is_rtcp());
    let short = ParsedDatagram::parse(&bytes[..11]);
    assert_eq!(short.packet().err(), Some(RtpError::HeaderTooShort));
    Ok(())
}
