//! Ports with FEC.

use crate::input::Input;
use codec_payload::parts::fec::{FecPort, FecPortSettings, LateIds, Passed, RetransmissionType};
use codec_payload::parts::rtp::RtpPacket;

const RED: u8 = 116;
const ULPFEC: u8 = 117;
const LATE: LateIds = LateIds {
    transport_number: Some(3),
    abs_send_time: Some(2),
    transmission_offset: Some(14),
    video_timing: Some(6),
};

/// A datagram of one of four SSRCs, with this payload type.
fn datagram(input: &mut Input, payload_type: u8, number: u16) -> Vec<u8> {
    let (first, ssrc) = (input.byte(), input.byte() % 4);
    let mut bytes = vec![0x80 | (first & 0x3f), payload_type];
    bytes.extend(number.to_be_bytes());
    bytes.extend([0, 0, 0, 9, 0, 0, 0, ssrc]);
    bytes.extend(input.some());
    bytes
}

/// Whether a packet has an element that is filled in late.
fn has_late(packet: &RtpPacket<'_>) -> bool {
    let elements = packet.header.extension.and_then(|it| it.elements());
    elements.is_some_and(|mut all| all.any(|element| [2, 3, 6, 14].contains(&element.id)))
}

/// Any datagrams: nothing panics, what passes is no longer than the datagram and a packet without RED, and what is rebuilt is a packet of RTP
/// without late elements, one at most for each packet of FEC.
pub fn ports(input: &mut Input) {
    let mut port = FecPort::new(FecPortSettings {
        red_type: RED,
        fec_type: ULPFEC,
        red_retransmission: Some(118),
        retransmissions: vec![RetransmissionType {
            media: 96,
            retransmission: 97,
        }],
        late_ids: LATE,
        bytes: 512 * usize::from(input.word()),
        max_streams: 1 + usize::from(input.byte() % 3),
    })
    .expect("settings that can be met");
    let (mut number, mut out) = (0u16, Vec::new());
    while !input.0.is_empty() {
        let kind = input.byte();
        number = number.wrapping_add(u16::from(kind >> 4));
        let bytes = match kind % 8 {
            0 | 1 => datagram(input, 96, number),
            2..=4 => datagram(input, RED, number),
            5 => datagram(input, ULPFEC, number),
            6 => datagram(input, 118, number),
            _ => {
                let ssrc = u32::from(kind >> 3) % 4;
                if kind >> 7 == 0 {
                    port.restart(ssrc);
                } else {
                    port.end(ssrc);
                }
                input.some().to_vec()
            }
        };
        if port.receive(&bytes, &mut out).expect("memory") == Passed::Instead {
            assert!(out.len() <= bytes.len());
            let packet = RtpPacket::parse(&out).expect("an RTP packet");
            assert_ne!(packet.header.payload_type, RED);
        }
        if let Some(packet) = port.next_rebuilt().expect("memory") {
            assert!(!has_late(
                &RtpPacket::parse(&packet).expect("an RTP packet")
            ));
            assert_eq!(port.next_rebuilt().expect("memory"), None);
        }
        let counts = port.counts();
        assert!(counts.rebuilt <= counts.fec, "more packets than FEC");
    }
}
