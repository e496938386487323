//! The parts of an RTP packet, printed.

use crate::digits::hex_text;
use codec_payload::rtp::{RtpPacket, is_rtcp};

/// The type of a datagram: `rtcp`, the parts of an RTP packet, or the fault.
pub fn packet_lines(bytes: &[u8]) -> String {
    if is_rtcp(bytes) {
        return "rtcp\n".into();
    }
    match RtpPacket::parse(bytes) {
        Ok(packet) => parts(&packet),
        Err(fault) => format!("malformed: {fault}\n"),
    }
}

/// The header in one line, each CSRC and each element of the extension in one, and the payload in one.
fn parts(packet: &RtpPacket<'_>) -> String {
    let header = &packet.header;
    let mut text = format!(
        "rtp {} {} {} {} {}\n",
        header.payload_type,
        u8::from(header.marker),
        header.sequence_number,
        header.timestamp,
        header.ssrc
    );
    for index in 0..header.csrc_count() {
        text += &format!("csrc {}\n", header.csrc(index).unwrap_or(0));
    }
    if let Some(extension) = &header.extension {
        let bytes = hex_text(extension.bytes);
        text += &format!("extension {} {bytes}\n", extension.profile);
        for element in extension.elements().into_iter().flatten() {
            text += &format!("element {} {}\n", element.id, hex_text(element.bytes));
        }
    }
    text + &format!("payload {} {}\n", hex_text(packet.payload), packet.padding)
}
