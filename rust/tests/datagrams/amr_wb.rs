//! AMR-WB with 23 frames a packet: frames wait by the clock, and not by how many there are.

use crate::Fail;
use crate::events::take;
use codec_payload::codec::{CodecDepacketizer, NoBox};
use codec_payload::jitter::jitter_buffer::WaitLimits;
use codec_payload::keyframes::unit_gate::FromKeyframe;
use codec_payload::rtp::values::ExtensionIds;
use codec_payload::stream::pops::Popped;
use codec_payload::stream::receiver::{Receiver, ReceiverSettings};
use codec_payload::wire::{Codec, Frequency, Ticks};

/// 23 frames of 6.60 kbit/s, 132 bits each, in the octet-aligned form of RFC 4867: a byte, 23 entries, and 17 bytes a frame.
fn packet(number: u8) -> [u8; 427] {
    let mut bytes = [0; 427];
    bytes[..12].copy_from_slice(&[0x80, 96, 0, number, 0, 0, 0, number, 0, 0, 0, 7]);
    bytes[12] = 0xf0;
    bytes[13..35].fill(0x84);
    bytes[35] = 0x04;
    bytes
}

fn receiver_of() -> Result<Receiver<NoBox>, Fail> {
    let mut depack: CodecDepacketizer<NoBox> =
        CodecDepacketizer::from_codec(Codec::AmrWb).ok_or("no depacketizer")?;
    if let CodecDepacketizer::AmrWb(d) = &mut depack {
        d.octet_align = true;
    }
    let settings = {
        let mut settings =
            ReceiverSettings::live_audio(96, Frequency::make(16_000).ok_or("a rate")?);
        settings.no_media = Vec::new();
        settings.ssrc = Some(7);
        settings.red = None;
        settings.retransmission = None;
        settings.extension_ids = ExtensionIds::default();
        settings.tick_rate = Frequency::make(1_000).ok_or("a rate")?;
        settings.wait_limits = {
            let mut limits = WaitLimits::live();
            limits.hold_back = Some(30);
            limits.start = 0;
            limits.max_wait = Some(100);
            limits
        };
        settings.limit = 4_096;
        settings.forward = 3_000;
        settings.backward = 1_000;
        settings.from_keyframe = FromKeyframe::Mark;
        settings.max_unit = None;
        settings.dependency_descriptor = None;
        settings
    };
    Ok(Receiver::new(depack, settings).map_err(|_| "settings out of range")?)
}

/// The packets that arrive at a time, and the number of units that pops at that time return.
struct Moment {
    now: u64,
    packet: Option<u8>,
    units: usize,
}

/// A packet each 460 ms; the second is lost, and the third waits for 100 ms.
const MOMENTS: [Moment; 4] = [
    Moment {
        now: 0,
        packet: Some(1),
        units: 1,
    },
    Moment {
        now: 920,
        packet: Some(3),
        units: 0,
    },
    Moment {
        now: 1_019,
        packet: None,
        units: 0,
    },
    Moment {
        now: 1_020,
        packet: None,
        units: 1,
    },
];

/// How many units pops give at that time.
fn units_at(receiver: &mut Receiver<NoBox>, now: u64) -> usize {
    (0..4)
        .filter(|_| matches!(receiver.pop(Ticks(now)), Some(Ok(Popped::Unit(_)))))
        .count()
}

#[test]
fn frames_wait_by_the_clock() -> Result<(), Fail> {
    let mut receiver = receiver_of()?;
    for moment in &MOMENTS {
        if let Some(number) = moment.packet {
            assert_eq!(take(&mut receiver, moment.now, &packet(number)), 'h');
        }
        assert_eq!(
            units_at(&mut receiver, moment.now),
            moment.units,
            "at {}",
            moment.now
        );
    }
    Ok(())
}
