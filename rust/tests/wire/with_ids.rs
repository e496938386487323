//! A sender of VP8 with picture ids. Each frame has two datagrams, and each eighth is a keyframe.

use crate::Fail;
use crate::forwarded::link_with;
use crate::sides::{sample_of, sender_settings};
use codec_payload::codec::{CodecPacketizer, NoBox};
use codec_payload::schedule::forwarded::ForwardLink;
use codec_payload::sender::{Sender, SenderSettings};
use codec_payload::vp8::Vp8Packetizer;
use codec_payload::wire::{Codec, ToPayload};

/// First ids: the ids begin in one byte and go on in two, wrap, or stay in two bytes.
pub const FIRST_IDS: [u16; 4] = [0, 100, 300, 32_700];

/// The frame with that index. A payload has at most seven bytes, of which three or four are the descriptor: two datagrams.
pub fn frame_of(index: usize) -> [u8; 5] {
    let [high, low] = (index as u16).to_be_bytes();
    [u8::from(index % 8 != 0), 0xa5, high, low, 0x5a]
}

pub fn samples(frames: usize) -> Vec<ToPayload> {
    (0..frames)
        .map(|index| sample_of(index as u64 * 3_000, &frame_of(index)))
        .collect()
}

/// A sender whose first frame has this picture id, a forwarder and a viewer.
pub fn link_from(id: u16) -> Result<ForwardLink<NoBox, NoBox>, Fail> {
    let settings = SenderSettings {
        mtu: 7,
        ..sender_settings()?
    };
    let pack = CodecPacketizer::Vp8(Vp8Packetizer::with_picture_id(id));
    let sender = Sender::new(pack, settings).map_err(|_| "settings out of range")?;
    link_with(Codec::Vp8, sender)
}
