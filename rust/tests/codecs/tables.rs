//! Rows of tables for packetizers and depacketizers, and what is asserted of them.

use crate::Fail;
use crate::asserts::{assert_bytes, assert_same};
use codec_payload::error::PacketError;
use codec_payload::interface::{CodecExtra, Depacketizer, Packetizer};
use codec_payload::memory::{AllocError, TryVec};

/// A frame that a packetizer is given.
pub struct Frame {
    pub mtu: usize,
    pub bytes: &'static [u8],
    /// Its packets, or the fault.
    pub packets: Result<&'static [&'static [u8]], PacketError>,
}

/// Fails if the parts differ from the expected ones.
pub fn assert_parts(name: &str, parts: &[Vec<u8>], wanted: &[&[u8]]) {
    assert_same(name, &parts.len(), &wanted.len());
    for (place, (part, bytes)) in parts.iter().zip(wanted).enumerate() {
        assert_eq!(part.as_slice(), *bytes, "part {place} of {name}");
    }
}

/// The packets of a frame, each of them whole, or its fault.
pub fn assert_sent(
    name: &str,
    answer: &Result<Vec<Vec<u8>>, PacketError>,
    wanted: &Result<&[&[u8]], PacketError>,
) {
    match (answer, wanted) {
        (Ok(packets), Ok(payloads)) => assert_parts(name, packets, payloads),
        (Err(fault), Err(named)) => assert_same(name, fault, named),
        _ => panic!("{name} gives {answer:?} in place of {wanted:?}"),
    }
}

/// What a packetizer makes of a frame.
pub fn packetize<P: Packetizer>(
    packetizer: &mut P,
    mtu: usize,
    frame: &[u8],
) -> Result<Vec<Vec<u8>>, PacketError> {
    packetizer.packetize(mtu, frame)
}

/// Frames that one packetizer is given one after another.
pub fn assert_frames<P: Packetizer>(name: &str, packetizer: &mut P, frames: &[Frame]) {
    for frame in frames {
        let answer = packetizer.packetize(frame.mtu, frame.bytes);
        assert_sent(name, &answer, &frame.packets);
    }
}

/// What a call answered, or nothing where it found no memory. Any other fault fails the test.
pub fn found<T>(answer: Result<T, PacketError>) -> Result<Option<T>, Fail> {
    match answer {
        Ok(value) => Ok(Some(value)),
        Err(PacketError::OutOfMemory) => Ok(None),
        Err(_) => Err(Fail::from("another fault")),
    }
}

/// Bytes with one byte repeated in the middle.
pub fn filled(front: &[u8], filling: u8, count: usize, back: &[u8]) -> Result<Vec<u8>, AllocError> {
    let mut bytes = Vec::try_from_slice(front)?;
    for _ in 0..count {
        bytes.try_push(filling)?;
    }
    bytes.try_extend(back)?;
    Ok(bytes)
}

/// A depacketizer, and the unit that it reassembled so far.
pub struct Unit<D> {
    pub depacketizer: D,
    pub out: Vec<u8>,
    pub extra: CodecExtra,
}

impl<D: Depacketizer> Unit<D> {
    /// Nothing so far.
    pub fn new(depacketizer: D) -> Self {
        Unit {
            depacketizer,
            out: Vec::new(),
            extra: CodecExtra::None,
        }
    }

    /// Goes on with a payload.
    pub fn take(&mut self, payload: &[u8]) -> Result<(), PacketError> {
        self.depacketizer
            .depacketize(payload, &mut self.out, &mut self.extra)
    }
}

/// What a depacketizer made of a payload.
pub struct Received {
    pub answer: Result<(), PacketError>,
    /// The byte 7, and what was put behind it.
    pub out: Vec<u8>,
    pub extra: CodecExtra,
}

/// What a depacketizer makes of a payload behind the one byte 7.
pub fn receive<D: Depacketizer>(
    depacketizer: &mut D,
    payload: &[u8],
) -> Result<Received, AllocError> {
    let mut out = Vec::try_from_slice(&[7])?;
    let mut extra = CodecExtra::None;
    let answer = depacketizer.depacketize(payload, &mut out, &mut extra);
    Ok(Received { answer, out, extra })
}

/// The bytes, or the fault, which leaves the byte 7, and the extra as it was.
pub fn assert_out(name: &str, received: &Received, wanted: &Result<&[u8], PacketError>) {
    match (&received.answer, wanted) {
        (Ok(()), Ok(bytes)) => assert_bytes(name, &received.out, bytes),
        (Err(fault), Err(named)) => {
            assert_same(name, fault, named);
            assert_bytes(name, &received.out, &[7]);
            assert_same(name, &received.extra, &CodecExtra::None);
        }
        (answer, _) => panic!("{name} gives {answer:?} in place of {wanted:?}"),
    }
}

/// What a payload gives behind the one byte 7, or its fault, which leaves that byte, and the extra as it was.
pub fn assert_received<D: Depacketizer>(
    name: &str,
    depacketizer: &mut D,
    payload: &[u8],
    wanted: &Result<&[u8], PacketError>,
) -> Result<(), AllocError> {
    let received = receive(depacketizer, payload)?;
    assert_out(name, &received, wanted);
    Ok(())
}
