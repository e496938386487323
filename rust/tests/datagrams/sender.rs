//! A sender: its datagrams byte for byte, and the result at a receiver for the datagrams that arrive.

use crate::Fail;
use crate::events::{STARTS_LATER, pop_all, receiver_for, take};
use codec_payload::codec::{CodecPacketizer, NoBox};
use codec_payload::rtp::values::ExtensionIds;
use codec_payload::sender::{Counts, Sample, Sender, SenderError, SenderSettings};
use codec_payload::stream::receiver::Receiver;
use codec_payload::wire::{Codec, ExtensionValues, Frequency, MediaTime};

/// Under payload type 96, in payloads of at most two bytes.
fn settings() -> SenderSettings {
    SenderSettings {
        ssrc: 0x0102_0304,
        payload_type: 96,
        first_number: 65_535,
        clock_rate: Frequency::FORTY_EIGHT_KHZ,
        mtu: 2,
        tailroom: 16,
        extension_ids: {
            let mut ids = ExtensionIds::default();
            ids.audio_level = Some(6);
            ids
        },
    }
}

fn sender_of(settings: SenderSettings) -> Result<Sender<NoBox>, Fail> {
    let pack = CodecPacketizer::from_codec(Codec::Opus).ok_or("no packetizer")?;
    Ok(Sender::new(pack, settings).map_err(|_| "settings out of range")?)
}

/// Why these settings give no sender.
fn refusal(settings: SenderSettings) -> Result<Option<SenderError>, Fail> {
    let pack: CodecPacketizer<NoBox> =
        CodecPacketizer::from_codec(Codec::Opus).ok_or("no packetizer")?;
    Ok(Sender::new(pack, settings).err())
}

/// Sends a sample with speech at -10 dBov.
fn speak(sender: &mut Sender<NoBox>, time: u64, bytes: &[u8]) -> bool {
    let sample = Sample {
        rtp_time: MediaTime::new(time, Frequency::FORTY_EIGHT_KHZ),
        bytes,
        start_of_talk_spurt: true,
        ext_vals: ExtensionValues {
            audio_level: Some(-10),
            voice_activity: Some(true),
            ..ExtensionValues::default()
        },
    };
    sender.send(&sample).is_ok()
}

/// The datagram at a place; empty if there is none.
fn datagram(sender: &Sender<NoBox>, place: usize) -> &[u8] {
    if place < sender.len() {
        return sender.datagram(place);
    }
    &[]
}

/// Three bytes in two packets (RFC 3550, section 5.1), with the level of the audio (RFC 6464) in the one-byte form of RFC 8285.
const SPOKEN: [&[u8]; 3] = [
    &[
        0x90, 0xe0, 0xff, 0xff, 0, 0, 0x03, 0xc0, 1, 2, 3, 4, 0xbe, 0xde, 0, 1, 0x60, 0x8a, 0, 0,
        0x11, 0x22,
    ],
    &[
        0x90, 0xe0, 0, 0, 0, 0, 0x03, 0xc0, 1, 2, 3, 4, 0xbe, 0xde, 0, 1, 0x60, 0x8a, 0, 0, 0x33,
    ],
    &[],
];

#[test]
fn a_sample_in_two_datagrams() -> Result<(), Fail> {
    let mut sender = sender_of(settings())?;
    assert!(speak(&mut sender, 960, &[0x11, 0x22, 0x33]));
    for (place, wanted) in SPOKEN.iter().enumerate() {
        assert_eq!(datagram(&sender, place), *wanted, "at {place}");
    }
    let counts = Counts {
        packets: 2,
        octets: 3,
        rtp_time: Some(960),
    };
    assert_eq!(sender.counts(), counts);
    assert_eq!(sender.next_number(), 1);
    Ok(())
}

#[test]
fn settings_out_of_range() -> Result<(), Fail> {
    let mut changed = settings();
    changed.extension_ids.video_timing = Some(6);
    assert_eq!(refusal(changed)?, Some(SenderError::ExtensionIds));
    changed.tailroom = 65_536;
    assert_eq!(refusal(changed)?, Some(SenderError::Tailroom));
    changed.payload_type = 128;
    assert_eq!(refusal(changed)?, Some(SenderError::PayloadType));
    assert_eq!(refusal(settings())?, None);
    Ok(())
}

/// The network loses each fifth datagram, and brings each seventh twice.
fn deliver(sender: &Sender<NoBox>, receiver: &mut Receiver<NoBox>, n: u8, told: &mut String) {
    if n % 5 == 4 {
        return;
    }
    let times = if n % 7 == 3 { 2 } else { 1 };
    for _ in 0..times {
        told.push(take(receiver, u64::from(n), datagram(sender, 0)));
    }
}

#[test]
fn over_a_network_that_loses_and_repeats() -> Result<(), Fail> {
    let mut sender = sender_of(settings())?;
    let mut receiver = receiver_for(Some(0x0102_0304), STARTS_LATER, 4_096)?;
    let mut told = String::new();
    for n in 0..20u8 {
        assert!(speak(&mut sender, u64::from(n), &[n]));
        deliver(&sender, &mut receiver, n, &mut told);
    }
    receiver.finish().unwrap();
    pop_all(&mut receiver, 20, &mut told);
    assert_eq!(
        told,
        "hhhhdhhhhhdhhhhhhdh 0 1 2 3 5 6 7 8 10 11 12 13 15 16 17 18."
    );
    let counters = receiver.counters();
    assert_eq!(counters.received, 19);
    assert_eq!(counters.packets.duplicates, 3);
    assert_eq!(counters.packets.units, 16);
    assert_eq!(sender.counts().packets, 20);
    Ok(())
}
