//! A sender and a receiver of VP8, and their settings.

use crate::Fail;
use codec_payload::codec::{CodecDepacketizer, CodecPacketizer, NoBox};
use codec_payload::jitter::jitter_buffer::WaitLimits;
use codec_payload::keyframes::unit_gate::FromKeyframe;
use codec_payload::rtp::values::ExtensionIds;
use codec_payload::sender::{Sender, SenderSettings};
use codec_payload::stream::receiver::{Receiver, ReceiverSettings};
use codec_payload::wire::{Codec, ExtensionValues, Frequency, MediaTime, Pt, Ticks, ToPayload};

/// Of a sender from number 65,535 on.
pub fn sender_settings() -> Result<SenderSettings, Fail> {
    Ok(SenderSettings {
        ssrc: 7,
        payload_type: 96,
        first_number: 65_535,
        clock_rate: Frequency::make(90_000).ok_or("a rate")?,
        mtu: 3,
        tailroom: 0,
        extension_ids: ExtensionIds::default(),
    })
}

/// A sender. A payload has at most three bytes; the first is its descriptor (RFC 7741, section 4.2), so a frame of three bytes gives
/// two datagrams.
pub fn sender_of() -> Result<Sender<NoBox>, Fail> {
    let pack = CodecPacketizer::from_codec(Codec::Vp8).ok_or("no packetizer")?;
    Ok(Sender::new(pack, sender_settings()?).map_err(|_| "settings out of range")?)
}

/// Of a receiver of what that sender sends.
pub fn receiver_settings(wait_limits: WaitLimits) -> Result<ReceiverSettings, Fail> {
    Ok({
        let mut settings =
            ReceiverSettings::live_audio(96, Frequency::make(90_000).ok_or("a rate")?);
        settings.no_media = Vec::new();
        settings.ssrc = Some(7);
        settings.red = None;
        settings.retransmission = None;
        settings.extension_ids = ExtensionIds::default();
        settings.tick_rate = Frequency::make(1_000).ok_or("a rate")?;
        settings.wait_limits = wait_limits;
        settings.limit = 4_096;
        settings.forward = 3_000;
        settings.backward = 1_000;
        settings.from_keyframe = FromKeyframe::Mark;
        settings.max_unit = None;
        settings.dependency_descriptor = None;
        settings
    })
}

/// A receiver of VP8.
pub fn receiver_of(wait_limits: WaitLimits) -> Result<Receiver<NoBox>, Fail> {
    let depack = CodecDepacketizer::from_codec(Codec::Vp8).ok_or("no depacketizer")?;
    Ok(Receiver::new(depack, receiver_settings(wait_limits)?)
        .map_err(|_| "settings out of range")?)
}

/// A frame at that many ticks of 90 kHz.
pub fn sample_of(time: u64, frame: &[u8]) -> ToPayload {
    ToPayload {
        pt: Pt::new_with_value(96),
        wallclock: Ticks(0),
        rtp_time: MediaTime::from_90khz(time),
        bytes: frame.to_vec(),
        start_of_talk_spurt: false,
        ext_vals: ExtensionValues::default(),
    }
}
