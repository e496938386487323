//! Receivers of FEC.

use crate::input::Input;
use codec_payload::parts::fec::{FecReceiver, FecSettings, LateIds};
use codec_payload::parts::rtp::RtpPacket;

const SSRC: u32 = 7;

/// A datagram of the stream with this payload type: media or FEC, without RED.
fn datagram(input: &mut Input, payload_type: u8, number: u16) -> Vec<u8> {
    let mut bytes = vec![0x80 | (input.byte() & 0x3f), payload_type];
    bytes.extend(number.to_be_bytes());
    bytes.extend([0, 0, 0, 9]);
    bytes.extend(SSRC.to_be_bytes());
    bytes.extend(input.some());
    bytes
}

/// Any datagrams: nothing panics, what is rebuilt is an RTP packet of the stream, at most one for each datagram, and one for each packet of FEC.
pub fn fec(input: &mut Input) {
    let mut receiver = FecReceiver::new(FecSettings {
        ssrc: SSRC,
        red_type: 116,
        fec_type: 117,
        late_ids: LateIds {
            transport_number: Some(3),
            abs_send_time: Some(2),
            transmission_offset: Some(14),
            video_timing: Some(6),
        },
        bytes: 512 * usize::from(input.word()),
    })
    .expect("memory");
    let (mut fecs, mut number) = (0u32, 0u16);
    while !input.0.is_empty() {
        let kind = input.byte();
        number = number.wrapping_add(u16::from(kind >> 4));
        let bytes = match kind % 8 {
            0..=3 => datagram(input, 96, number),
            4 => datagram(input, 117, number),
            5 => {
                let mut bytes = datagram(input, 117, number);
                let base = number.wrapping_sub(u16::from(input.byte() % 48));
                if let Some(place) = bytes.get_mut(14..16) {
                    place.copy_from_slice(&base.to_be_bytes());
                }
                bytes
            }
            6 => datagram(input, 116, number),
            _ => {
                receiver.restart();
                input.some().to_vec()
            }
        };
        receiver.receive(&bytes).expect("memory");
        fecs += u32::from(kind % 8 > 3);
        if let Some(packet) = receiver.next_rebuilt().expect("memory") {
            assert!(fecs > 0, "more packets than FEC");
            fecs -= 1;
            assert_eq!(
                RtpPacket::parse(&packet)
                    .expect("an RTP packet")
                    .header
                    .ssrc,
                SSRC
            );
            assert_eq!(receiver.next_rebuilt().expect("memory"), None);
        }
    }
}
