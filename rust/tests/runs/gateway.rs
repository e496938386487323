//! The example of an audio gateway in docs/develop/RATTLE.md.

use crate::Fail;
use crate::asserts::assert_bytes;
use crate::library::{buffer_of, payloader_of, sample};
use codec_payload::buffer::{DepacketizingBuffer, RtpMeta};
use codec_payload::error::PacketError;
use codec_payload::memory::TryVec;
use codec_payload::payload::{MemorySink, OutgoingPacket, Payloader, RedSink};
use codec_payload::red::{Recovered, RedReceiver, RedSender};
use codec_payload::wire::{
    Codec, ExtensionValues, Frequency, MediaTime, Pt, RtpHeader, Ticks, ToPayload,
};

/// The most bytes of a payload in RED.
const BUDGET: usize = 1_200;

/// The data of a packet that was found in a RED payload.
fn found(packet: &Recovered<'_>) -> RtpMeta {
    RtpMeta {
        received: Ticks(0),
        time: MediaTime::new(u64::from(packet.rtp_time), Frequency::FORTY_EIGHT_KHZ),
        seq_no: packet.seq_no,
        header: RtpHeader {
            payload_type: Pt::new_with_value(96),
            sequence_number: (packet.seq_no.0 % (1 << 16)) as u16,
            timestamp: packet.rtp_time,
            ssrc: 0,
            marker: false,
            ext_vals: ExtensionValues::default(),
        },
        last_sender_info: None,
    }
}

/// Sends each frame of 20 milliseconds in RED (payload type 63), with the frame before it and the third before it. The MTU is
/// one byte less than the budget, so that each frame fits into its packet.
fn send_in_red(
    payloader: &mut Payloader,
    frames: &[ToPayload],
    stream: &mut MemorySink,
) -> Result<(), PacketError> {
    let mut red = RedSender::new(Pt::new_with_value(63), Pt::new_with_value(96), &[1, 3]);
    for frame in frames {
        let mut sink = RedSink::new(stream, &mut red, BUDGET);
        payloader.push_sample(frame, BUDGET - 1, &mut sink)?;
    }
    Ok(())
}

/// Pushes what a packet holds: itself, and the frames that it repeats. The buffer drops those that it has.
fn receive(
    receiver: &RedReceiver,
    packet: &OutgoingPacket,
    buffer: &mut DepacketizingBuffer,
) -> Result<(), PacketError> {
    for one in &receiver.recover(packet.seq_no, packet.rtp_time, &packet.payload)? {
        buffer.push(found(one), Vec::try_from_slice(one.payload)?)?;
    }
    Ok(())
}

/// The packets of eight frames, each of which has its number as its only byte.
fn sent_frames() -> Result<MemorySink, Fail> {
    let mut frames = Vec::new();
    for number in 0..8u8 {
        frames.try_push(sample(u64::from(number) * 960, &[number])?)?;
    }
    let mut payloader = payloader_of(Codec::Opus, Frequency::FORTY_EIGHT_KHZ)?;
    let mut stream = MemorySink::new(1);
    send_in_red(&mut payloader, &frames, &mut stream)?;
    Ok(stream)
}

/// The bytes of all units that a buffer gives.
fn pop_all(buffer: &mut DepacketizingBuffer) -> Result<Vec<u8>, PacketError> {
    let mut units = Vec::new();
    while let Some(unit) = buffer.pop() {
        units.try_extend(&unit?.bytes)?;
    }
    Ok(units)
}

/// The frames that are released if the packets with these indices arrive.
fn units_of(arrived: &[usize]) -> Result<Vec<u8>, Fail> {
    let stream = sent_frames()?;
    let receiver = RedReceiver::new(96, 960).ok_or("no step")?;
    let mut buffer = buffer_of(Codec::Opus)?;
    for index in arrived {
        let packet = stream.packets().get(*index).ok_or("no packet")?;
        receive(&receiver, packet, &mut buffer)?;
    }
    Ok(pop_all(&mut buffer)?)
}

/// One lost packet; three in a row, of which the next packet repeats the first and the last, and the one after it the second;
/// and two at the end, which nothing repeats.
#[test]
fn lost_frames_come_back() -> Result<(), Fail> {
    let all = [0, 1, 2, 3, 4, 5, 6, 7];
    for (name, arrived, wanted) in [
        ("one lost", [0, 1, 3, 4, 5, 6, 7].as_slice(), all.as_slice()),
        ("three lost", &[0, 1, 5, 6, 7], &all),
        (
            "two lost at the end",
            &[0, 1, 2, 3, 4, 5],
            &[0, 1, 2, 3, 4, 5],
        ),
    ] {
        assert_bytes(name, &units_of(arrived)?, wanted);
    }
    Ok(())
}
