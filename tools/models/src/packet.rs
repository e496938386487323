//! RTP packets as bytes (RFC 3550, section 5.1), written here and not by the library.

/// A packet without CSRCs, extension and padding.
#[derive(Clone, Debug, PartialEq, Eq)]
pub struct Packet {
    pub ssrc: u32,
    pub payload_type: u8,
    pub marker: bool,
    pub number: u16,
    pub time: u32,
    pub payload: Vec<u8>,
}

impl Packet {
    pub fn bytes(&self) -> Vec<u8> {
        let mut bytes = vec![0x80, u8::from(self.marker) << 7 | self.payload_type];
        bytes.extend(self.number.to_be_bytes());
        bytes.extend(self.time.to_be_bytes());
        bytes.extend(self.ssrc.to_be_bytes());
        bytes.extend(&self.payload);
        bytes
    }
}
