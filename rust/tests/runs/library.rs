//! Calls of the library that several tests make. None has a contract, so what the library promises of a call is no part of
//! the proof of a test.

use crate::Fail;
use codec_payload::buffer::{Depacketized, DepacketizingBuffer, RtpMeta};
use codec_payload::codec::{
    CodecDepacketizer, CodecExtra, Depacketizer, Packetizer, Vp9PacketizerMode,
};
use codec_payload::error::PacketError;
use codec_payload::memory::{AllocError, TryVec};
use codec_payload::payload::{MemorySink, Payloader};
use codec_payload::schedule::{RedRun, Run, Step, run_schedule};
use codec_payload::wire::{
    Codec, CodecSpec, ExtensionValues, Frequency, MediaTime, Pt, Ticks, ToPayload,
};

/// A depacketizer of a built-in codec.
pub(super) fn depacketizer_of(codec: Codec) -> Result<CodecDepacketizer, Fail> {
    Ok(CodecDepacketizer::from_codec(codec).ok_or("no depacketizer")?)
}

/// A depacketizer of a built-in codec with a specification.
pub(super) fn depacketizer_for(spec: &CodecSpec) -> Result<CodecDepacketizer, Fail> {
    let mut depacketizer = depacketizer_of(spec.codec)?;
    depacketizer.configure_for(spec);
    Ok(depacketizer)
}

/// What such a depacketizer makes of a payload.
pub(super) fn received(spec: &CodecSpec, payload: &[u8]) -> Result<(Vec<u8>, CodecExtra), Fail> {
    let mut out = Vec::new();
    let mut extra = CodecExtra::None;
    depacketizer_for(spec)?.depacketize(payload, &mut out, &mut extra)?;
    Ok((out, extra))
}

/// An empty buffer of a built-in codec, which holds nothing back.
pub(super) fn buffer_of(codec: Codec) -> Result<DepacketizingBuffer, Fail> {
    let depacketizer = depacketizer_of(codec)?;
    Ok(DepacketizingBuffer::new(depacketizer, 0))
}

/// Pushes a packet with a copy of a payload.
pub(super) fn push<D: Depacketizer>(
    buffer: &mut DepacketizingBuffer<D>,
    meta: RtpMeta,
    payload: &[u8],
) -> Result<(), PacketError> {
    buffer.push(meta, Vec::try_from_slice(payload)?)
}

/// Returns the released unit. If no unit is due, the test fails with the message that is passed last.
pub(super) fn pop_unit(
    buffer: &mut DepacketizingBuffer,
    missing: &str,
) -> Result<Depacketized, Fail> {
    Ok(buffer.pop().ok_or(missing)??)
}

/// A payloader of a codec in its default mode.
pub(super) fn payloader_of(codec: Codec, clock_rate: Frequency) -> Result<Payloader, Fail> {
    let spec = CodecSpec {
        codec,
        clock_rate,
        octet_align: false,
    };
    Ok(Payloader::new(spec, Vp9PacketizerMode::NonFlexible, 0).ok_or("no packetizer")?)
}

/// Sends a sample into a sink.
pub(super) fn send<P: Packetizer>(
    payloader: &mut Payloader<P>,
    sample: &ToPayload,
    mtu: usize,
    sink: &mut MemorySink,
) -> Result<(), PacketError> {
    payloader.push_sample(sample, mtu, sink)
}

/// What is left when a run has ended.
pub(super) struct Ended {
    pub run: Run,
    pub sink: MemorySink,
    /// How many packets the buffer holds.
    pub held: usize,
}

/// A run over an unused sink, whose first number is 10.
pub(super) fn run_steps<P: Packetizer, D: Depacketizer>(
    payloader: &mut Payloader<P>,
    buffer: &mut DepacketizingBuffer<D>,
    samples: &[ToPayload],
    steps: &[Step],
    red: Option<RedRun<'_>>,
) -> Result<Ended, PacketError> {
    let mut sink = MemorySink::new(10);
    let run = run_schedule(payloader, buffer, &mut sink, samples, steps, red)?;
    Ok(Ended {
        run,
        sink,
        held: buffer.held(),
    })
}

/// A sample of payload type 96, at that many ticks of 48 kHz, that starts a talk spurt.
pub(super) fn sample(time: u64, bytes: &[u8]) -> Result<ToPayload, Fail> {
    Ok(ToPayload {
        pt: Pt::new_with_value(96),
        wallclock: Ticks(5),
        rtp_time: MediaTime::new(time, Frequency::FORTY_EIGHT_KHZ),
        bytes: Vec::try_from_slice(bytes)?,
        start_of_talk_spurt: true,
        ext_vals: ExtensionValues::default(),
    })
}

/// A sample of each frame, 960 ticks apart.
pub(super) fn samples_of(frames: &[&[u8]]) -> Result<Vec<ToPayload>, Fail> {
    let mut samples = Vec::new();
    let mut time = 0u64;
    for frame in frames {
        time = time.wrapping_add(960);
        samples.try_push(sample(time, frame)?)?;
    }
    Ok(samples)
}

/// For each packet its bytes and then its marker.
pub(super) fn bytes_and_markers(sink: &MemorySink) -> Result<Vec<u8>, AllocError> {
    let mut sent = Vec::new();
    for packet in sink.packets() {
        sent.try_extend(&packet.payload)?;
        sent.try_push(u8::from(packet.marker))?;
    }
    Ok(sent)
}

/// How many packets each sample gave. Where one was refused, the test fails with the words that are passed last.
pub(super) fn counts_of(run: &Run, refused: &str) -> Result<Vec<usize>, Fail> {
    let mut counts = Vec::new();
    for sent in &run.sends {
        if sent.fault.is_some() {
            return Err(refused.into());
        }
        counts.try_push(sent.count)?;
    }
    Ok(counts)
}

/// The bytes of the released units, and 255 for each other answer of a pop.
pub(super) fn bytes_of_units(run: &Run) -> Result<Vec<u8>, AllocError> {
    let mut bytes = Vec::new();
    for pop in &run.pops {
        match pop {
            Some(Ok(unit)) => bytes.try_extend(&unit.bytes)?,
            _ => bytes.try_push(255)?,
        }
    }
    Ok(bytes)
}
