//! What frames say of themselves.

use crate::input::Input;
use codec_payload::Codec;
use codec_payload::media::amr_wb::{AmrWbFrames, amr_wb_ticks};
use codec_payload::media::av1::{Av1Obus, Av1SequenceHeader, Av1TemporalUnit, operating_point};
use codec_payload::media::frame_info;
use codec_payload::media::opus::OpusPacket;
use codec_payload::media::vp8::Vp8FrameHeader;
use codec_payload::media::vp9::{Vp9FrameHeader, Vp9Frames};

/// Any bytes as a frame of any codec: nothing panics, and all parts lie within the frame.
pub fn media(input: &mut Input) {
    let index = input.byte();
    let bytes = input.0;
    for codec in [
        Codec::Opus,
        Codec::AmrWb,
        Codec::Vp8,
        Codec::Vp9,
        Codec::Av1,
        Codec::PCMU,
        Codec::Null,
        Codec::Tele,
    ] {
        let _ = frame_info(codec, bytes);
    }
    let _ = (
        Vp8FrameHeader::parse(bytes),
        Vp9FrameHeader::parse(bytes),
        Av1SequenceHeader::parse(bytes),
    );
    let _ = (
        Av1TemporalUnit::parse(bytes),
        operating_point(bytes, index),
        amr_wb_ticks(bytes),
    );
    if let Ok(packet) = OpusPacket::parse(bytes) {
        // At most 120 ms (RFC 6716, section 3.2.5).
        assert!(packet.ticks() <= 5_760);
    }
    let obus: usize = Av1Obus::new(bytes)
        .map_while(Result::ok)
        .map(|obu| obu.payload.len() + 1)
        .sum();
    assert!(obus <= bytes.len());
    assert!(AmrWbFrames::new(bytes).map_while(Result::ok).count() <= bytes.len());
    if let Ok(frames) = Vp9Frames::parse(bytes) {
        // At most eight frames (VP9 bitstream specification, annex B).
        assert!(frames.count() <= 8);
    }
}
