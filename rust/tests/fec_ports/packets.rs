//! Packets of a sender with FEC.

use codec_payload::fec::LateIds;

pub const RED: u8 = 116;
pub const ULPFEC: u8 = 117;
pub const RED_AGAIN: u8 = 118;
pub const VP8: u8 = 96;
pub const VP8_AGAIN: u8 = 97;
pub const VP9: u8 = 98;

/// Ids as Chromium offers them: toffset 14, abs-send-time 2, transport-wide number 3, video-timing 6.
pub const LATE: LateIds = LateIds {
    transport_number: Some(3),
    abs_send_time: Some(2),
    transmission_offset: Some(14),
    video_timing: Some(6),
};

/// A packet without RED.
#[derive(Clone, Debug)]
pub struct Packet {
    pub ssrc: u32,
    pub number: u16,
    pub time: u32,
    pub marker: bool,
    pub payload_type: u8,
    pub csrcs: Vec<u8>,
    /// Elements of the header extension in the one-byte form.
    pub elements: Vec<(u8, Vec<u8>)>,
    pub payload: Vec<u8>,
}

impl Packet {
    pub fn new(ssrc: u32, number: u16, payload: &[u8]) -> Packet {
        Packet {
            ssrc,
            number,
            time: 3_000,
            marker: false,
            payload_type: VP8,
            csrcs: Vec::new(),
            elements: Vec::new(),
            payload: payload.to_vec(),
        }
    }

    fn written(&self, payload_type: u8, words: &[u8], payload: &[u8]) -> Vec<u8> {
        let mut out = vec![0x80 | (self.csrcs.len() / 4) as u8];
        out.push(u8::from(self.marker) << 7 | payload_type);
        out.extend(self.number.to_be_bytes());
        out.extend(self.time.to_be_bytes());
        out.extend(self.ssrc.to_be_bytes());
        out.extend(&self.csrcs);
        if !self.elements.is_empty() {
            out[0] |= 0x10;
            out.extend([0xbe, 0xde, 0, (words.len() / 4) as u8]);
            out.extend(words);
        }
        out.extend(payload);
        out
    }

    /// The words of the header extension. `late`: what an element that is filled in late becomes.
    fn words(&self, late: impl Fn(u8, &[u8]) -> Vec<u8>) -> Vec<u8> {
        let mut words = Vec::new();
        for (id, value) in &self.elements {
            let element = [&[id << 4 | (value.len() as u8 - 1)], &value[..]].concat();
            match id {
                2 | 3 | 6 | 14 => words.extend(late(*id, &element)),
                _ => words.extend(element),
            }
        }
        words.resize(words.len().next_multiple_of(4), 0);
        words
    }

    /// The packet as it leaves.
    pub fn bytes(&self) -> Vec<u8> {
        let words = self.words(|_, element| element.to_vec());
        self.written(self.payload_type, &words, &self.payload)
    }

    /// The packet as it leaves in RED.
    pub fn in_red(&self) -> Vec<u8> {
        let words = self.words(|_, element| element.to_vec());
        let payload = [&[self.payload_type], &self.payload[..]].concat();
        self.written(RED, &words, &payload)
    }

    /// The packet as FEC protects it: zeros in the late elements, of video-timing from the eighth byte of its value on.
    pub fn protected(&self) -> Vec<u8> {
        let words = self.words(|id, element| {
            let mut element = element.to_vec();
            let from = if id == 6 { 8 } else { 1 };
            element[from..].fill(0);
            element
        });
        self.written(self.payload_type, &words, &self.payload)
    }

    /// The packet as a session gets it once it is rebuilt: padding in the place of the late elements.
    pub fn rebuilt(&self) -> Vec<u8> {
        let words = self.words(|_, element| vec![0; element.len()]);
        self.written(self.payload_type, &words, &self.payload)
    }

    /// A packet of FEC for packets, under the number and with the SSRC of this one, in RED.
    pub fn fec_in_red(&self, base: u16, packets: &[Packet]) -> Vec<u8> {
        let protected: Vec<Vec<u8>> = packets.iter().map(Packet::protected).collect();
        let fec = Packet {
            payload_type: ULPFEC,
            payload: fec_of(base, &protected),
            ..self.clone()
        };
        fec.in_red()
    }
}

/// A packet of FEC with a mask of 16 bits, after sections 7.3 and 7.4 of RFC 5109.
fn fec_of(base: u16, packets: &[Vec<u8>]) -> Vec<u8> {
    let longest = packets.iter().map(|p| p.len() - 12).max().unwrap_or(0);
    let (mut head, mut size, mut mask) = ([0u8; 8], 0u16, 0u16);
    let mut payload = vec![0u8; longest];
    for packet in packets {
        for i in 0..8 {
            head[i] ^= packet[i];
        }
        size ^= (packet.len() - 12) as u16;
        for (to, from) in payload.iter_mut().zip(&packet[12..]) {
            *to ^= from;
        }
        let number = u16::from_be_bytes([packet[2], packet[3]]);
        mask |= 1 << (15 - number.wrapping_sub(base));
    }
    let mut out = vec![head[0] & 0x3f, head[1]];
    out.extend(base.to_be_bytes());
    out.extend(&head[4..8]);
    out.extend(size.to_be_bytes());
    out.extend((longest as u16).to_be_bytes());
    out.extend(mask.to_be_bytes());
    out.extend(payload);
    out
}
