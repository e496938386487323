//! Datagrams for a session: RTP of five SSRCs, and RTCP that is right, wrong or hostile.

use crate::input::Input;

/// The latest sequence number of each SSRC, 0 to 4.
pub type Numbers = [u16; 5];

/// An RTP packet, mostly near the latest number of its SSRC. SSRC 2 retransmits packets of SSRC 1 (RFC 4588).
pub fn rtp(ssrc: u8, numbers: &mut Numbers, input: &mut Input) -> Vec<u8> {
    let original = numbers[1];
    let number = &mut numbers[usize::from(ssrc)];
    *number = match input.byte() {
        0 => input.word(),
        step @ 1..24 => number.wrapping_sub(step.into()),
        step @ 24..48 => number.wrapping_add(u16::from(step - 22)),
        _ => number.wrapping_add(1),
    };
    let flags = input.byte();
    let payload_type = match (ssrc, flags >> 4 & 15) {
        (2, 0..12) => 98,
        (_, other) => [
            96, 96, 96, 96, 96, 96, 63, 63, 100, 100, 98, 97, 102, 103, 13, 77,
        ][usize::from(other)],
    };
    let first = if flags & 12 == 12 { input.byte() } else { 0 };
    let mut bytes = vec![0x80 | first & 0x3f, payload_type | (flags & 1) << 7];
    bytes.extend(number.to_be_bytes());
    let time = if flags & 2 == 0 {
        u32::from(*number / 3) * 90
    } else {
        u32::from(input.word()) << 16
    };
    bytes.extend(time.to_be_bytes());
    bytes.extend(u32::from(ssrc).to_be_bytes());
    if payload_type == 98 {
        let back = u16::from(input.byte() % 32);
        bytes.extend(original.wrapping_sub(back).to_be_bytes());
    }
    bytes.extend(input.some());
    bytes
}

/// Up to four RTCP packets, one after another or one in another: any type and count, lists of SSRCs or any bytes as the body,
/// and a length in words, in bytes instead of words, or any.
pub fn rtcp(input: &mut Input) -> Vec<u8> {
    let mut bytes = Vec::new();
    for _ in 0..=input.byte() % 4 {
        let how = input.byte();
        let count = input.byte() & 31;
        let packet_type = match how & 7 {
            0..3 => 203,
            3 => 205,
            4 => 206,
            _ => 192 + input.byte() % 32,
        };
        let mut body = body(how, packet_type, count, input);
        if how & 8 != 0 && !bytes.is_empty() {
            body.append(&mut bytes);
        }
        let length = match how >> 6 {
            0 => body.len(),
            1 if how & 4 != 0 => input.word().into(),
            _ => body.len() / 4,
        };
        bytes.extend([0x80 | (how & 32) | count, packet_type]);
        bytes.extend((length as u16).to_be_bytes());
        bytes.extend(body);
    }
    let cut = usize::from(input.byte()).saturating_sub(240);
    bytes.truncate(bytes.len().saturating_sub(cut));
    bytes
}

/// The body of an RTCP packet: SSRCs for a BYE, two SSRCs and a flood of pairs for a NACK, or any bytes.
fn body(how: u8, packet_type: u8, count: u8, input: &mut Input) -> Vec<u8> {
    match packet_type {
        203 if how & 16 == 0 => (0..count)
            .flat_map(|_| u32::from(input.byte() % 8).to_be_bytes())
            .collect(),
        205 if how & 16 == 0 => [1, 77]
            .into_iter()
            .chain((0..input.word() % 400).map(|pair| u32::from(pair) << 16 | 0xffff))
            .flat_map(u32::to_be_bytes)
            .collect(),
        _ => input.some().to_vec(),
    }
}
