//! A custom codec that counts its calls. Its frames are two packets, of which the marked one ends the frame.

use crate::Fail;
use crate::asserts::assert_bytes;
use crate::library::{Ended, bytes_and_markers, bytes_of_units, run_steps, samples_of};
use codec_payload::buffer::DepacketizingBuffer;
use codec_payload::codec::{
    CodecDepacketizer, CodecExtra, CodecPacketizer, Depacketizer, Packetizer,
};
use codec_payload::error::PacketError;
use codec_payload::memory::TryVec;
use codec_payload::payload::Payloader;
use codec_payload::schedule::Step;
use codec_payload::wire::Frequency;

/// Puts each byte of a frame in a packet, behind how often it was asked to packetize and how often for a marker.
#[derive(Debug)]
struct CountingPacketizer {
    frames: u8,
    markers: u8,
}

impl Packetizer for CountingPacketizer {
    fn packetize(&mut self, _mtu: usize, b: &[u8]) -> Result<Vec<Vec<u8>>, PacketError> {
        self.frames = self.frames.wrapping_add(1);
        let mut packets = Vec::new();
        for byte in b {
            packets.try_push(Vec::try_from_slice(&[self.frames, self.markers, *byte])?)?;
        }
        Ok(packets)
    }

    fn is_marker(&mut self, _data: &[u8], _previous: Option<&[u8]>, last: bool) -> bool {
        self.markers = self.markers.wrapping_add(1);
        last
    }

    fn marks_talkspurt(&self) -> bool {
        false
    }

    fn nackable(&self) -> bool {
        true
    }
}

/// Puts before each payload how many it has read, and ends a frame where the marker is set.
#[derive(Debug)]
struct CountingDepacketizer {
    payloads: u8,
}

impl Depacketizer for CountingDepacketizer {
    fn out_size_hint(&self, packets_size: usize) -> Option<usize> {
        Some(packets_size)
    }

    fn depacketize(
        &mut self,
        packet: &[u8],
        out: &mut Vec<u8>,
        _codec_extra: &mut CodecExtra,
    ) -> Result<(), PacketError> {
        self.payloads = self.payloads.wrapping_add(1);
        out.try_push(self.payloads)?;
        out.try_extend(packet)?;
        Ok(())
    }

    fn is_partition_head(&self, _packet: &[u8]) -> bool {
        true
    }

    fn is_partition_tail(&self, marker: bool, _packet: &[u8]) -> bool {
        marker
    }
}

const TWO_FRAMES: [Step; 9] = [
    Step::Send {
        sample: 0,
        mtu: 1_200,
    },
    Step::Send {
        sample: 1,
        mtu: 1_200,
    },
    Step::Push(3),
    Step::Push(1),
    Step::Push(0),
    Step::Push(2),
    Step::Pop,
    Step::Pop,
    Step::Pop,
];

/// A run of two frames of two bytes, whose packets arrive out of order.
fn run_counting() -> Result<Ended, Fail> {
    let pack = CodecPacketizer::Boxed(CountingPacketizer {
        frames: 0,
        markers: 0,
    });
    let mut payloader = Payloader::with_packetizer(pack, Frequency::FORTY_EIGHT_KHZ);
    let depack = CodecDepacketizer::Boxed(CountingDepacketizer { payloads: 0 });
    let mut buffer = DepacketizingBuffer::new(depack, 0);
    let samples = samples_of(&[&[70, 80], &[90, 100]])?;
    Ok(run_steps(
        &mut payloader,
        &mut buffer,
        &samples,
        &TWO_FRAMES,
        None,
    )?)
}

#[test]
fn own_codec_is_asked_once() -> Result<(), Fail> {
    let ended = run_counting()?;
    let sent = bytes_and_markers(&ended.sink)?;
    let wanted = [1, 0, 70, 0, 1, 0, 80, 1, 2, 2, 90, 0, 2, 2, 100, 1];
    assert_bytes("what is sent", &sent, &wanted);
    let units = bytes_of_units(&ended.run)?;
    let wanted = [1, 1, 0, 70, 2, 1, 0, 80, 3, 2, 2, 90, 4, 2, 2, 100, 255];
    assert_bytes("what comes out", &units, &wanted);
    Ok(())
}
