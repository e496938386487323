//! A custom codec, as in docs/develop/RATTLE.md.

use crate::Fail;
use crate::asserts::assert_bytes;
use crate::library::{bytes_and_markers, sample};
use codec_payload::codec::{BoxedPacketizer, CodecPacketizer, Packetizer};
use codec_payload::error::PacketError;
use codec_payload::memory::TryVec;
use codec_payload::payload::{MemorySink, Payloader};
use codec_payload::wire::{Frequency, ToPayload};

/// Sends each byte of a frame in a separate packet.
#[derive(Debug)]
pub(super) struct EachByte;

impl Packetizer for EachByte {
    // What callers may rely on is the author's choice. These promise nothing, and owe no proof.

    fn packetize(&mut self, _mtu: usize, b: &[u8]) -> Result<Vec<Vec<u8>>, PacketError> {
        let mut packets = Vec::new();
        for byte in b {
            packets.try_push(Vec::try_from_slice(&[*byte])?)?;
        }
        Ok(packets)
    }

    fn is_marker(&mut self, _data: &[u8], _previous: Option<&[u8]>, last: bool) -> bool {
        last
    }

    fn marks_talkspurt(&self) -> bool {
        false
    }

    fn nackable(&self) -> bool {
        true
    }
}

/// Sends a sample twice: by its codec's type, and by a box whose contents are known when the program runs.
fn send_twice(sample: &ToPayload, sink: &mut MemorySink) -> Result<(), PacketError> {
    let own = CodecPacketizer::Boxed(EachByte);
    let mut payloader = Payloader::with_packetizer(own, Frequency::EIGHT_KHZ);
    payloader.push_sample(sample, 1_200, sink)?;

    let boxed = CodecPacketizer::Boxed(BoxedPacketizer(Box::new(EachByte)));
    let mut payloader = Payloader::with_packetizer(boxed, Frequency::EIGHT_KHZ);
    payloader.push_sample(sample, 1_200, sink)
}

#[test]
fn a_codec_of_ones_own() -> Result<(), Fail> {
    let mut sink = MemorySink::new(1);
    send_twice(&sample(960, &[1, 2])?, &mut sink)?;
    let sent = bytes_and_markers(&sink)?;
    assert_bytes("what is sent", &sent, &[1, 0, 2, 1, 1, 0, 2, 1]);
    Ok(())
}
