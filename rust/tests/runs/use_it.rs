//! The example of docs/develop/RATTLE.md.

use crate::Fail;
use crate::asserts::{assert_bytes, assert_count, assert_holds};
use crate::library::samples_of;
use codec_payload::buffer::{Depacketized, DepacketizingBuffer, RtpMeta};
use codec_payload::codec::{CodecDepacketizer, Vp9PacketizerMode};
use codec_payload::error::PacketError;
use codec_payload::memory::TryVec;
use codec_payload::payload::{MemorySink, OutgoingPacket, Payloader};
use codec_payload::wire::{Codec, CodecSpec, Frequency, MediaTime, RtpHeader, Ticks, ToPayload};

/// What is known of a packet that came as it was sent.
fn received(packet: &OutgoingPacket, clock_rate: Frequency) -> RtpMeta {
    RtpMeta {
        received: Ticks(0),
        time: MediaTime::new(u64::from(packet.rtp_time), clock_rate),
        seq_no: packet.seq_no,
        header: RtpHeader {
            payload_type: packet.pt,
            sequence_number: (packet.seq_no.0 % (1 << 16)) as u16,
            timestamp: packet.rtp_time,
            ssrc: 0,
            marker: packet.marker,
            ext_vals: packet.ext_vals,
        },
        last_sender_info: None,
    }
}

/// Sends samples and receives their packets. A codec without payloads has no units.
fn send_and_receive(
    spec: CodecSpec,
    samples: &[ToPayload],
) -> Result<Vec<Depacketized>, PacketError> {
    let mut units = Vec::new();

    // A sender cuts samples into packets of at most 1,200 bytes, which go to a sink: yours implements `PacketSink`.
    let Some(mut payloader) = Payloader::new(spec, Vp9PacketizerMode::NonFlexible, 0) else {
        return Ok(units);
    };
    let mut sink = MemorySink::new(1);
    for sample in samples {
        payloader.push_sample(sample, 1_200, &mut sink)?;
    }

    // A receiver of the same specification pushes packets as they come, in any order, and takes the units that are ready.
    let Some(mut depacketizer) = CodecDepacketizer::from_codec(spec.codec) else {
        return Ok(units);
    };
    depacketizer.configure_for(&spec);
    let mut buffer = DepacketizingBuffer::new(depacketizer, 30);
    for packet in sink.packets() {
        let payload = Vec::try_from_slice(&packet.payload)?;
        buffer.push(received(packet, spec.clock_rate), payload)?;
    }
    while let Some(unit) = buffer.pop() {
        units.try_push(unit?)?;
    }
    Ok(units)
}

/// Each unit is a sample, and follows the one before.
fn assert_received(units: &[Depacketized], samples: &[ToPayload]) {
    assert_count("units", units.len(), samples.len());
    for (unit, sample) in units.iter().zip(samples) {
        assert_bytes("a unit", &unit.bytes, &sample.bytes);
        assert_holds("units that follow", unit.contiguous);
    }
}

/// Speech of AMR-WB in octet-aligned payloads: receivers of the other layout would refuse it.
#[test]
fn what_is_sent_is_received() -> Result<(), Fail> {
    let spec = CodecSpec {
        codec: Codec::AmrWb,
        clock_rate: Frequency::make(16_000).ok_or("a rate")?,
        octet_align: true,
    };
    let samples = samples_of(&[&[0x74], &[0x4c, 1, 2, 3, 4, 0x50]])?;
    let units = send_and_receive(spec, &samples)?;
    assert_received(&units, &samples);
    let red = CodecSpec {
        codec: Codec::Red,
        ..spec
    };
    let units = send_and_receive(red, &samples)?;
    assert_count("units of RED", units.len(), 0);
    Ok(())
}
