//! `bytes::Bytes` for payloads and units.

use bytes::Bytes;
use codec_payload::{
    Depacketized, Depacketizer, DepacketizingBuffer, PacketError, Packetizer, RtpMeta,
};

/// Packetizes into [`Bytes`]. No payload is copied once more: each keeps the memory that the packetizer wrote it to.
///
/// # Errors
///
/// The errors of [`Packetizer::packetize`].
pub fn packetize(
    packetizer: &mut dyn Packetizer,
    mtu: usize,
    frame: &[u8],
) -> Result<Vec<Bytes>, PacketError> {
    Ok(packetizer
        .packetize(mtu, frame)?
        .into_iter()
        .map(Bytes::from)
        .collect())
}

/// Pushes a payload. Copies it if other handles share its memory, or if it is a part of a larger one.
///
/// # Errors
///
/// The errors of [`DepacketizingBuffer::push`].
pub fn push<B: Depacketizer>(
    buffer: &mut DepacketizingBuffer<B>,
    meta: RtpMeta,
    payload: Bytes,
) -> Result<(), PacketError> {
    buffer.push(meta, payload.into())
}

/// Returns the bytes of a unit, without a copy.
pub fn bytes_of(unit: Depacketized) -> Bytes {
    unit.bytes.into()
}

#[cfg(test)]
mod tests {
    use super::*;
    use codec_payload::{
        CodecDepacketizer, MediaTime, OpusDepacketizer, OpusPacketizer, Pt, SeqNo, Ticks,
    };

    #[test]
    fn bytes_go_through() {
        let packets = packetize(&mut OpusPacketizer {}, 1_200, &[1, 2, 3]).unwrap();
        let mut buffer: DepacketizingBuffer =
            DepacketizingBuffer::new(CodecDepacketizer::Opus(OpusDepacketizer {}), 0);
        let meta = RtpMeta::of(SeqNo(1), MediaTime::from_90khz(0), Pt::from(96), Ticks(0));
        push(&mut buffer, meta, packets[0].clone()).unwrap();
        assert_eq!(
            bytes_of(buffer.pop().unwrap().unwrap()),
            Bytes::from_static(&[1, 2, 3])
        );
    }
}
