//! What a receiver and a sender are made of.

use codec_payload::jitter::WaitLimits;
use codec_payload::keyframes::FromKeyframe;
use codec_payload::rtp::ExtensionIds;
use codec_payload::sender::{Sender, SenderError, SenderSettings};
use codec_payload::stream::{
    Receiver, ReceiverSettings, RedSettings, Retransmission, SettingsError,
};
use codec_payload::{CodecDepacketizer, CodecPacketizer, CodecSpec, Frequency};

/// A codec, and the payload type of its packets.
#[derive(Clone, Copy, Debug)]
pub struct Stream {
    pub spec: CodecSpec,
    pub payload_type: u8,
}

/// What a line sets of a receiver.
#[derive(Clone, Copy, Debug)]
pub enum Setting {
    Wait(WaitLimits),
    Limit(usize),
    Windows { forward: u16, backward: u16 },
    Ssrc(u32),
    NoMedia(u8),
    Red(RedSettings),
    Again(Retransmission),
    TickRate(Frequency),
}

/// What a receiver is to be made of.
#[derive(Debug)]
pub struct Draft {
    spec: CodecSpec,
    settings: ReceiverSettings,
}

impl Draft {
    /// The default settings of a stream, with a clock that ticks once a millisecond.
    pub fn new(stream: Stream) -> Draft {
        Draft {
            spec: stream.spec,
            settings: {
                let mut settings =
                    ReceiverSettings::live_audio(stream.payload_type, stream.spec.clock_rate);
                settings.no_media = Vec::new();
                settings.ssrc = None;
                settings.red = None;
                settings.retransmission = None;
                settings.extension_ids = ExtensionIds::default();
                settings.tick_rate = Frequency::make(1_000).expect("it is above 0");
                settings.wait_limits = WaitLimits::file();
                settings.limit = 4_096;
                settings.forward = 3_000;
                settings.backward = 1_000;
                settings.from_keyframe = FromKeyframe::Mark;
                settings.max_unit = None;
                settings.dependency_descriptor = None;
                settings
            },
        }
    }

    /// One setting more.
    pub fn set(&mut self, setting: Setting) {
        let settings = &mut self.settings;
        match setting {
            Setting::Wait(wait_limits) => settings.wait_limits = wait_limits,
            Setting::Limit(limit) => settings.limit = limit,
            Setting::Windows { forward, backward } => {
                settings.forward = forward;
                settings.backward = backward;
            }
            Setting::Ssrc(ssrc) => settings.ssrc = Some(ssrc),
            Setting::NoMedia(payload_type) => settings.no_media.push(payload_type),
            Setting::Red(red) => settings.red = Some(red),
            Setting::Again(retransmission) => settings.retransmission = Some(retransmission),
            Setting::TickRate(rate) => settings.tick_rate = rate,
        }
    }

    /// The receiver, or which setting is out of range. `None` for a codec that has no depacketizer.
    pub fn receiver(self) -> Option<Result<Receiver, SettingsError>> {
        let mut depack: CodecDepacketizer = CodecDepacketizer::from_codec(self.spec.codec)?;
        depack.configure_for(&self.spec);
        Some(Receiver::new(depack, self.settings))
    }
}

/// What a sender is made of.
#[derive(Clone, Copy, Debug)]
pub struct SenderSetup {
    pub stream: Stream,
    pub ssrc: u32,
    pub first_number: u16,
    pub mtu: usize,
}

/// The sender, or which setting is out of range. `None` for a codec that has no packetizer.
pub fn sender_of(setup: SenderSetup) -> Option<Result<Sender, SenderError>> {
    let mut pack: CodecPacketizer = CodecPacketizer::from_codec(setup.stream.spec.codec)?;
    pack.configure_for(&setup.stream.spec);
    let settings = SenderSettings {
        ssrc: setup.ssrc,
        payload_type: setup.stream.payload_type,
        first_number: setup.first_number,
        clock_rate: setup.stream.spec.clock_rate,
        mtu: setup.mtu,
        tailroom: 0,
        extension_ids: ExtensionIds::default(),
    };
    Some(Sender::new(pack, settings))
}
