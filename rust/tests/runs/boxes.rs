//! Codecs that a caller brings in a box: nothing is taken for granted of them.

use crate::Fail;
use crate::asserts::{assert_bytes, assert_holds, assert_same, assert_shown};
use crate::library::{
    Ended, bytes_and_markers, bytes_of_units, counts_of, push, run_steps, sample, samples_of, send,
};
use crate::own_codec::EachByte;
use codec_payload::buffer::{Depacketized, DepacketizingBuffer, RtpMeta};
use codec_payload::codec::{
    BoxedDepacketizer, BoxedPacketizer, CodecDepacketizer, CodecExtra, CodecPacketizer,
    Depacketizer, Packetizer,
};
use codec_payload::error::PacketError;
use codec_payload::memory::{AllocError, TryVec};
use codec_payload::payload::{MemorySink, Payloader};
use codec_payload::schedule::Step;
use codec_payload::wire::{Frequency, MediaTime, Pt, SeqNo, Ticks};

/// Answers an empty packet and one longer than the MTU, and marks where a talk spurt starts.
#[derive(Debug)]
struct Lawless;

impl Packetizer for Lawless {
    fn packetize(&mut self, _mtu: usize, b: &[u8]) -> Result<Vec<Vec<u8>>, PacketError> {
        let mut packets = Vec::new();
        packets.try_push(Vec::new())?;
        packets.try_push(Vec::try_from_slice(b)?)?;
        Ok(packets)
    }

    fn is_marker(&mut self, _data: &[u8], _previous: Option<&[u8]>, _last: bool) -> bool {
        false
    }

    fn marks_talkspurt(&self) -> bool {
        true
    }

    fn nackable(&self) -> bool {
        true
    }
}

/// Sends each byte in a packet, marks one that repeats the packet before, and has no packet asked for again.
#[derive(Debug)]
struct MarksRepeats;

impl Packetizer for MarksRepeats {
    fn packetize(&mut self, mtu: usize, b: &[u8]) -> Result<Vec<Vec<u8>>, PacketError> {
        EachByte {}.packetize(mtu, b)
    }

    fn is_marker(&mut self, data: &[u8], previous: Option<&[u8]>, _last: bool) -> bool {
        match previous {
            Some(before) => before == data,
            None => false,
        }
    }

    fn marks_talkspurt(&self) -> bool {
        false
    }

    fn nackable(&self) -> bool {
        false
    }
}

/// Each packet ends a unit, and begins one where `heads` says so; each is appended, or refused with 11.
#[derive(Debug)]
struct EachPacket {
    heads: bool,
    refuses: bool,
}

impl Depacketizer for EachPacket {
    fn out_size_hint(&self, packets_size: usize) -> Option<usize> {
        Some(packets_size)
    }

    fn depacketize(
        &mut self,
        packet: &[u8],
        out: &mut Vec<u8>,
        _codec_extra: &mut CodecExtra,
    ) -> Result<(), PacketError> {
        if self.refuses {
            return Err(PacketError::ErrVP8CorruptedPacket);
        }
        out.try_extend(packet)?;
        Ok(())
    }

    fn is_partition_head(&self, _packet: &[u8]) -> bool {
        self.heads
    }

    fn is_partition_tail(&self, _marker: bool, _packet: &[u8]) -> bool {
        true
    }
}

fn meta(number: u64) -> RtpMeta {
    let time = MediaTime::new(number, Frequency::FORTY_EIGHT_KHZ);
    RtpMeta::of(SeqNo(number), time, Pt::new_with_value(96), Ticks(0))
}

/// What a payloader over that box sends of frames at an MTU.
fn sent_of(packetizer: BoxedPacketizer, frames: &[&[u8]], mtu: usize) -> Result<MemorySink, Fail> {
    let packetizer = CodecPacketizer::Boxed(packetizer);
    let mut payloader = Payloader::with_packetizer(packetizer, Frequency::EIGHT_KHZ);
    let mut sink = MemorySink::new(1);
    for frame in frames {
        send(&mut payloader, &sample(960, frame)?, mtu, &mut sink)?;
    }
    Ok(sink)
}

#[test]
fn box_byte_a_packet() -> Result<(), Fail> {
    let each_byte = BoxedPacketizer(Box::new(EachByte {}));
    let sink = sent_of(each_byte, &[&[1, 2]], 1_200)?;
    let sent = bytes_and_markers(&sink)?;
    assert_bytes("what is sent", &sent, &[1, 0, 2, 1]);
    Ok(())
}

const TWO_PACKETS: [Step; 6] = [
    Step::Send {
        sample: 0,
        mtu: 1_200,
    },
    Step::Push(0),
    Step::Push(1),
    Step::Pop,
    Step::Pop,
    Step::Pop,
];

/// A run with both boxes over a frame of two bytes.
fn run_boxes() -> Result<Ended, Fail> {
    let each_byte = BoxedPacketizer(Box::new(EachByte {}));
    let packetizer = CodecPacketizer::Boxed(each_byte);
    let mut payloader = Payloader::with_packetizer(packetizer, Frequency::EIGHT_KHZ);
    let each_packet = EachPacket {
        heads: true,
        refuses: false,
    };
    let each_packet = BoxedDepacketizer(Box::new(each_packet));
    let mut buffer = DepacketizingBuffer::new(CodecDepacketizer::Boxed(each_packet), 0);
    let samples = samples_of(&[&[1, 2]])?;
    Ok(run_steps(
        &mut payloader,
        &mut buffer,
        &samples,
        &TWO_PACKETS,
        None,
    )?)
}

#[test]
fn box_run_two_units() -> Result<(), Fail> {
    let ended = run_boxes()?;
    let counts = counts_of(&ended.run, "a refused sample")?;
    assert_same("packets of the sample", &counts.as_slice(), &[2].as_slice());
    let units = bytes_of_units(&ended.run)?;
    assert_bytes("what comes out", &units, &[1, 2, 255]);
    Ok(())
}

/// What a pop answers: a unit, a fault of that number, or nothing.
type Answer = Option<Result<(), u8>>;

fn answer_of(answer: Option<Result<Depacketized, PacketError>>) -> Answer {
    match answer {
        Some(Ok(_)) => Some(Ok(())),
        Some(Err(fault)) => Some(Err(fault.number())),
        None => None,
    }
}

/// What pops of a buffer over that box answer, into which two packets were pushed, and then how many it holds.
fn answers_of(each_packet: EachPacket, pops: usize) -> Result<(Vec<Answer>, usize), Fail> {
    let each_packet = BoxedDepacketizer(Box::new(each_packet));
    let mut buffer = DepacketizingBuffer::new(CodecDepacketizer::Boxed(each_packet), 0);
    push(&mut buffer, meta(1), &[1])?;
    push(&mut buffer, meta(2), &[2])?;
    let mut answers = Vec::new();
    for _ in 0..pops {
        answers.try_push(answer_of(buffer.pop()))?;
    }
    Ok((answers, buffer.held()))
}

/// A box that refuses both of two packets, each of which begins a unit, and a box that never reads, since no packet begins a unit: the
/// answers of the pops, and the number of held packets after them.
#[test]
fn box_refuses_everything() -> Result<(), Fail> {
    let both = [Some(Err(11)), Some(Err(11)), None];
    for (name, heads, wanted, held) in [
        ("box-refuses-everything", true, both.as_slice(), 0),
        ("box-heads-all-false", false, [None].as_slice(), 2),
    ] {
        let each_packet = EachPacket {
            heads,
            refuses: true,
        };
        let (answers, left) = answers_of(each_packet, wanted.len())?;
        assert_same(name, &(answers.as_slice(), left), &(wanted, held));
    }
    Ok(())
}

/// The length of each packet, and whether it has the marker.
fn lengths_and_markers(sink: &MemorySink) -> Result<Vec<(usize, bool)>, AllocError> {
    let mut sent = Vec::new();
    for packet in sink.packets() {
        sent.try_push((packet.payload.len(), packet.marker))?;
    }
    Ok(sent)
}

#[test]
fn box_lawless_packets_sent() -> Result<(), Fail> {
    let lawless = BoxedPacketizer(Box::new(Lawless));
    let sink = sent_of(lawless, &[&[1, 2, 3]], 2)?;
    let sent = lengths_and_markers(&sink)?;
    assert_same(
        "what is sent",
        &sent.as_slice(),
        &[(0, true), (3, true)].as_slice(),
    );
    Ok(())
}

/// Whether a packet may be asked for again.
fn has_nackable(sink: &MemorySink) -> bool {
    for packet in sink.packets() {
        if packet.nackable {
            return true;
        }
    }
    false
}

/// The packet before is the last that the sink holds, also of the sample before. No clause says so.
#[test]
fn a_box_is_told_the_packet_before() -> Result<(), Fail> {
    let marks = BoxedPacketizer(Box::new(MarksRepeats));
    let sink = sent_of(marks, &[&[7, 7, 8], &[8]], 1)?;
    let sent = bytes_and_markers(&sink)?;
    assert_bytes("what is sent", &sent, &[7, 0, 7, 1, 8, 0, 8, 1]);
    assert_holds("packets that are not asked for again", !has_nackable(&sink));
    Ok(())
}

/// What is in a box is not shown.
#[test]
fn debug_of_boxed_packetizers() -> Result<(), Fail> {
    let sends = BoxedPacketizer(Box::new(EachByte {}));
    assert_shown(&sends, "BoxedPacketizer")?;
    assert_shown(&CodecPacketizer::Boxed(sends), "Boxed")?;
    Ok(())
}

#[test]
fn debug_of_boxed_depacketizers() -> Result<(), Fail> {
    let each_packet = EachPacket {
        heads: true,
        refuses: true,
    };
    let reads = BoxedDepacketizer(Box::new(each_packet));
    assert_shown(&reads, "BoxedDepacketizer")?;
    assert_shown(&CodecDepacketizer::Boxed(reads), "Boxed")?;
    Ok(())
}
