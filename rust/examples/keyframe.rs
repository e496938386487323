//! Keyframe requests: after a loss, drops frames that a decoder cannot use and requests a keyframe (PLI, RFC 4585, section 6.3.1). The
//! simulated network loses 1 %. It fails unless the decoder gets nine frames of ten, and only decodable ones:
//!
//! ```sh
//! cargo run --example keyframe
//! ```
//!
//! - `contiguous` reports that no frame is missing between this one and the previous one. It does not report whether the frames that
//!   this one refers to arrived. After one gap drop every frame until a keyframe, also the contiguous ones.
//! - Ask `media::frame_info` whether a frame is a keyframe. The `codec_extra` of a unit comes from payload descriptors, which some
//!   senders of VP9 fill in wrongly.
//! - A fault of `pop` other than out of memory is a lost frame too; the loop continues.
//! - Repeat the request, at most once per interval, until a keyframe arrives.
//! - If `left` of the counters grows while no unit is released, request a keyframe too (docs/use/LIMITS.md).

use codec_payload::media::frame_info;
use codec_payload::rtcp::PictureLoss;
use codec_payload::{
    Codec, CodecDepacketizer, CodecPacketizer, Depacketized, ExtensionValues, Frequency, MediaTime,
    Popped, Receiver, ReceiverSettings, Sample, Sender, SenderSettings, Ticks,
};
use std::error::Error;

const FRAMES: u64 = 900;
const FRAME: usize = 2_000;
const INTERVAL: u64 = 33;
const REQUEST_INTERVAL: u64 = 300;
const ANSWER: u64 = 60;

/// Decides which frames a decoder can use.
struct KeyframeFilter {
    codec: Codec,
    needs_keyframe: bool,
    asked_at: Option<u64>,
}

impl KeyframeFilter {
    /// The first frame has to be a keyframe too.
    fn new(codec: Codec) -> KeyframeFilter {
        KeyframeFilter {
            codec,
            needs_keyframe: true,
            asked_at: None,
        }
    }

    fn is_decodable(&mut self, unit: &Depacketized) -> bool {
        let info = frame_info(self.codec, &unit.bytes);
        self.needs_keyframe |= info.is_err() || !unit.contiguous;
        if info.is_ok_and(|info| info.keyframe == Some(true)) {
            (self.needs_keyframe, self.asked_at) = (false, None);
        }
        !self.needs_keyframe
    }

    /// Returns whether to send a PLI now.
    fn should_ask(&mut self, now: u64) -> bool {
        let is_due =
            self.needs_keyframe && self.asked_at.is_none_or(|at| now - at >= REQUEST_INTERVAL);
        if is_due {
            self.asked_at = Some(now);
        }
        is_due
    }
}

/// What the decoder got.
struct Decoder {
    filter: KeyframeFilter,
    decoded: u64,
    dropped: u64,
    wrong: u64,
    last: u32,
}

impl Decoder {
    fn take(&mut self, receiver: &mut Receiver, now: u64) -> Result<(), Box<dyn Error>> {
        while let Some(popped) = receiver.pop(Ticks(now)) {
            let Popped::Unit(unit) = popped? else {
                self.filter.needs_keyframe = true;
                continue;
            };
            if !self.filter.is_decodable(&unit) {
                self.dropped += 1;
                continue;
            }
            // A decoder needs a keyframe, or the frame right before this one.
            let this = u32::from_le_bytes(unit.bytes[FRAME - 4..].try_into()?);
            self.wrong += u64::from(unit.bytes[0] & 1 == 1 && this != self.last + 1);
            self.last = this;
            self.decoded += 1;
        }
        Ok(())
    }
}

/// A VP8 frame that ends with its number.
fn vp8(keyframe: bool, number: u32) -> Vec<u8> {
    let mut frame = vec![0; FRAME];
    let tag = u32::from(!keyframe) | 1 << 4 | 100 << 5; // shown; a first partition of 100 bytes
    frame[..3].copy_from_slice(&tag.to_le_bytes()[..3]);
    if keyframe {
        frame[3..10].copy_from_slice(&[0x9d, 0x01, 0x2a, 0x40, 0x01, 0xf0, 0x00]); // start code, 320 x 240
    }
    frame[FRAME - 4..].copy_from_slice(&number.to_le_bytes());
    frame
}

/// The simulated sender, and the network that loses one datagram in a hundred.
struct Network {
    sender: Sender,
    chance: u32,
    number: u32,
    keyframes: u32,
    keyframe_at: Option<u64>,
}

impl Network {
    fn send(&mut self, receiver: &mut Receiver, now: u64) -> Result<(), Box<dyn Error>> {
        let keyframe = self.keyframe_at.is_some_and(|at| at <= now);
        if keyframe {
            self.keyframe_at = None;
            self.keyframes += 1;
        }
        self.number += 1;
        self.sender.send(&Sample {
            rtp_time: MediaTime::from_90khz(now * 90),
            bytes: &vp8(keyframe, self.number),
            start_of_talk_spurt: false,
            ext_vals: ExtensionValues::default(),
        })?;
        for datagram in self.sender.datagrams() {
            self.chance = self
                .chance
                .wrapping_mul(1_664_525)
                .wrapping_add(1_013_904_223);
            if (self.chance >> 16) % 100 != 0 {
                receiver.receive_any(Ticks(now), datagram)?;
            }
        }
        Ok(())
    }
}

fn main() -> Result<(), Box<dyn Error>> {
    let packetizer = CodecPacketizer::try_from(Codec::Vp8)?;
    let depacketizer = CodecDepacketizer::try_from(Codec::Vp8)?;
    let mut receiver = Receiver::new(
        depacketizer,
        ReceiverSettings::for_stream(96, Codec::Vp8, Frequency::NINETY_KHZ),
    )?;
    let mut network = Network {
        sender: Sender::new(
            packetizer,
            SenderSettings::for_stream(96, 7, Frequency::NINETY_KHZ),
        )?,
        chance: 5,
        number: 0,
        keyframes: 0,
        keyframe_at: Some(0),
    };
    let mut decoder = Decoder {
        filter: KeyframeFilter::new(Codec::Vp8),
        decoded: 0,
        dropped: 0,
        wrong: 0,
        last: 0,
    };
    let mut requests = 0;
    for now in (0..FRAMES * INTERVAL).step_by(33) {
        network.send(&mut receiver, now)?;
        decoder.take(&mut receiver, now)?;
        if decoder.filter.should_ask(now) {
            let mut pli = Vec::new();
            PictureLoss {
                sender_ssrc: 8,
                media_ssrc: 7,
            }
            .write(&mut pli)?;
            assert_eq!(pli.len(), 12);
            requests += 1;
            network.keyframe_at = network.keyframe_at.or(Some(now + ANSWER));
        }
    }
    let Decoder {
        decoded,
        dropped,
        wrong,
        ..
    } = decoder;
    let keyframes = network.keyframes;
    println!(
        "{decoded} frames decoded, {dropped} dropped, {requests} requests, {keyframes} keyframes, {wrong} undecodable"
    );
    assert!(wrong == 0 && decoded >= FRAMES * 9 / 10);
    Ok(())
}
