//! Calls that use memory again allocate nothing once it has grown.

use codec_payload::contiguity::{Vp8Contiguity, Vp9Contiguity};
use codec_payload::sender::{Sample, Sender, SenderSettings};
use codec_payload::stream::{Receiver, ReceiverSettings, RedSettings, SettingsError};
use codec_payload::*;
use std::alloc::{GlobalAlloc, Layout, System};
use std::cell::Cell;

thread_local! {
    static ALLOCATIONS: Cell<usize> = const { Cell::new(0) };
}

/// The system's allocator, which counts the calls of each thread.
struct Counting;

// SAFETY: it passes each call on to `System`.
unsafe impl GlobalAlloc for Counting {
    unsafe fn alloc(&self, layout: Layout) -> *mut u8 {
        ALLOCATIONS.set(ALLOCATIONS.get() + 1);
        unsafe { System.alloc(layout) }
    }

    unsafe fn dealloc(&self, place: *mut u8, layout: Layout) {
        unsafe { System.dealloc(place, layout) }
    }

    unsafe fn realloc(&self, place: *mut u8, layout: Layout, size: usize) -> *mut u8 {
        ALLOCATIONS.set(ALLOCATIONS.get() + 1);
        unsafe { System.realloc(place, layout, size) }
    }
}

#[global_allocator]
static ALLOCATOR: Counting = Counting;

/// How many allocations a call makes.
fn allocations(call: impl FnOnce()) -> usize {
    let before = ALLOCATIONS.get();
    call();
    ALLOCATIONS.get() - before
}

fn packetizer(codec: Codec) -> CodecPacketizer {
    CodecPacketizer::from_codec(codec).unwrap()
}

#[test]
fn packetizers() {
    for codec in [
        Codec::Opus,
        Codec::G722,
        Codec::Vp8,
        Codec::Vp9,
        Codec::Null,
    ] {
        let frame = [0x86; 5_000];
        let (mut packetizer, mut out) = (packetizer(codec), Payloads::new(12, 0).unwrap());
        packetizer.packetize_into(1_200, &frame, &mut out).unwrap();
        let again = allocations(|| packetizer.packetize_into(1_200, &frame, &mut out).unwrap());
        assert_eq!(again, 0, "{codec}");
        // A vector of packets, and a vector for each of them.
        let count = out.len();
        assert_eq!(
            allocations(|| drop(packetizer.packetize(1_200, &frame).unwrap())),
            1 + count,
            "{codec}"
        );
    }
}

#[test]
fn senders_and_red() {
    let settings = SenderSettings::for_stream(96, 7, Frequency::NINETY_KHZ);
    let mut sender: Sender = Sender::new(packetizer(Codec::Vp8), settings).unwrap();
    let sample = Sample {
        rtp_time: MediaTime::from_90khz(0),
        bytes: &[0x10; 5_000],
        start_of_talk_spurt: false,
        ext_vals: ExtensionValues::default(),
    };
    sender.send(&sample).unwrap();
    assert_eq!(allocations(|| sender.send(&sample).unwrap()), 0);
    let (mut red, mut out) = (
        RedSender::new(Pt::from(63), Pt::from(96), &[1, 2]),
        Vec::new(),
    );
    for time in 0..20 {
        red.wrap_into(&[1; 100], time * 960, 1_200, &mut out)
            .unwrap();
    }
    assert_eq!(
        allocations(|| red.wrap_into(&[1; 100], 20 * 960, 1_200, &mut out).unwrap()),
        0
    );
}

#[test]
fn pops() {
    let mut buffer: DepacketizingBuffer =
        DepacketizingBuffer::new(CodecDepacketizer::Opus(OpusDepacketizer {}), 0);
    for number in 0..40 {
        let meta = RtpMeta::of(
            SeqNo(number),
            MediaTime::from_90khz(number),
            Pt::from(96),
            Ticks(0),
        );
        buffer.push(meta, vec![7; 100]).unwrap();
    }
    let mut unit = PoppedUnit::new();
    buffer.pop_unit(&mut unit).unwrap().unwrap();
    let again = allocations(|| assert!(buffer.pop_unit(&mut unit).unwrap().is_ok()));
    assert_eq!((again, unit.bytes.len()), (0, 100));
}

/// A datagram of an RTP packet of Opus with a payload of this size.
fn opus(number: u8, payload: usize) -> Vec<u8> {
    let header = [0x80, 111, 0, number, 0, 0, 0, number, 0, 0, 0, 7];
    [&header[..], &vec![number; payload]].concat()
}

/// How many allocations the packets of a receiver make after the first twenty. `held` of them wait for the one before them, and all
/// are then released.
fn allocations_in_turn(held: u8, payload: usize) -> Result<usize, SettingsError> {
    let mut settings = ReceiverSettings::live_audio(111, Frequency::FORTY_EIGHT_KHZ);
    settings.ssrc = Some(7);
    let mut receiver: Receiver =
        Receiver::new(CodecDepacketizer::Opus(OpusDepacketizer {}), settings)?;
    let (mut unit, mut made) = (PoppedUnit::new(), 0);
    for first in (0..60).step_by(usize::from(held) + 1) {
        let mut here = 0;
        for number in (first..=first + held).rev() {
            let datagram = opus(number, payload);
            here += allocations(|| {
                receiver.receive(Ticks(0), &datagram).unwrap();
            });
        }
        for number in first..=first + held {
            here += allocations(|| {
                assert!(receiver.pop_unit(Ticks(1_000), &mut unit).unwrap().is_ok());
            });
            assert_eq!(unit.bytes, vec![number; payload]);
        }
        made += if first < 20 { 0 } else { here };
    }
    Ok(made)
}

/// A packet of audio takes the memory of one that left: in order, and if up to 16 of them wait together. Of larger payloads the
/// memory of 4 is kept, and of those above 2,048 bytes none.
#[test]
fn payloads_of_packets_that_left() -> Result<(), SettingsError> {
    for held in [0, 3, 9] {
        assert_eq!(allocations_in_turn(held, 256)?, 0, "{held}");
    }
    assert_eq!(allocations_in_turn(3, 2_048)?, 0);
    // 4 rounds of 10 packets, each with the memory of 4.
    assert_eq!(allocations_in_turn(9, 2_048)?, 4 * 6);
    assert_eq!(allocations_in_turn(0, 2_049)?, 40);
    Ok(())
}

/// How many allocations each of four packets of Opus makes: its payload, its metadata, and what grows.
fn allocations_of_packets(red: Option<RedSettings>) -> Result<Vec<usize>, SettingsError> {
    let mut settings = ReceiverSettings::live_audio(111, Frequency::FORTY_EIGHT_KHZ);
    settings.ssrc = Some(7);
    settings.red = red;
    let mut receiver: Receiver =
        Receiver::new(CodecDepacketizer::Opus(OpusDepacketizer {}), settings)?;
    Ok((1..5)
        .map(|number| {
            let datagram = [
                0x80, 111, 0, number, 0, 0, 0, number, 0, 0, 0, 7, 0xfc, number,
            ];
            allocations(|| {
                receiver.receive(Ticks(0), &datagram).unwrap();
            })
        })
        .collect())
}

/// The first packet of a stream with RED allocates memory for the times that are noted, and later packets do not. A stream
/// without RED never does.
#[test]
fn times_of_red() -> Result<(), SettingsError> {
    let plain = allocations_of_packets(None)?;
    let red = allocations_of_packets(Some(RedSettings {
        payload_type: 63,
        step: 960,
        retransmission: None,
    }))?;
    assert_eq!(red[0], plain[0] + 1);
    assert_eq!(red[1..], plain[1..]);
    Ok(())
}

/// Payloads of a codec, and of each: whether it begins a unit, and whether it ends one in a packet without the marker and with it.
const ENDS: [(Codec, &[&[u8]], &str); 11] = [
    (Codec::Opus, &[&[0x90, 0x90], &[0x90]], " 111 111"),
    (Codec::PCMU, &[&[0x90, 0x90], &[0x90]], " 111 111"),
    (Codec::G722, &[&[0x90, 0x90], &[0x90]], " 111 111"),
    (Codec::CN, &[&[0x2a, 0x80, 0x40]], " 111"),
    (Codec::AmrWb, &[&[0xf7, 0x40]], " 111"),
    (
        Codec::Tele,
        &[&[0x05, 0x8a, 0x03, 0x20, 0x06, 0x0a, 0x01, 0x40]],
        " 111",
    ),
    (Codec::Vp8, &[&[0x10, 0x90], &[0, 0x90]], " 101 001"),
    (
        Codec::Vp8,
        &[&[0x90, 0x80, 0x20, 0x90, 0x90], &[0x80, 0x80, 0x20, 0x90]],
        " 101 001",
    ),
    (
        Codec::Vp9,
        &[
            &[0xaa, 0x92, 0x34, 0x10, 0x01, 0x00, 0x82, 0x49],
            &[0xa4, 0x92, 0x34, 0x10, 0x01, 0x83],
        ],
        " 101 001",
    ),
    (
        Codec::Av1,
        &[&[0x18, 0x08, 0xaa], &[0x50, 0x30, 0xbb], &[0x90, 0xcc]],
        " 101 101 001",
    ),
    (Codec::Null, &[&[0x90, 0x90, 0x90]], " 111"),
];

#[test]
fn ends_of_units() {
    for (codec, payloads, wanted) in ENDS {
        let depacketizer = CodecDepacketizer::from_codec(codec).unwrap();
        let mut found = String::new();
        for payload in payloads {
            let mut ends = [false; 3];
            let made = allocations(|| {
                ends = [
                    depacketizer.is_partition_head(payload),
                    depacketizer.is_partition_tail(false, payload),
                    depacketizer.is_partition_tail(true, payload),
                ];
            });
            assert_eq!(made, 0, "{codec}");
            found.push(' ');
            found.extend(ends.map(|end| if end { '1' } else { '0' }));
        }
        assert_eq!(found, wanted, "{codec}");
    }
}

/// Detectors, patches, contiguity, an empty buffer, frames that are skipped or refused, and a RED sender that is made.
#[test]
fn calls_that_never_allocate() {
    let mut buffer = DepacketizingBuffer::<NoBox>::with_limit(
        CodecDepacketizer::from_codec(Codec::Vp8).unwrap(),
        0,
        65_536,
    );
    let mut noise = packetizer(Codec::CN);
    let made = allocations(|| {
        assert!(detect_vp8_keyframe(&[0x10, 0x90]));
        assert!(detect_vp9_keyframe(&[0xaa, 0x92]));
        assert!(detect_av1_keyframe(&[0x18, 0x08, 0xaa]));
        assert!(detect_vp9_keyframe_bitstream(&[0x82]));
        assert_eq!(leb_128_size(300), 2);
        let payload = [0x90, 0xf0, 0x81, 0x02, 0x03, 0x44, 0x90];
        let asked = Vp8Descriptor::parse(&payload)
            .unwrap()
            .patch()
            .picture_id(0x7fff);
        let patch = asked.tl0_pic_idx(9).key_idx(5).build().unwrap();
        let mut patched = [0; 7];
        patch.copy_to(&payload, &mut patched);
        assert_eq!(patched, [0x90, 0xf0, 0xff, 0xff, 0x09, 0x45, 0x90]);
        let frame = Vp8CodecExtra {
            picture_id: Some(7),
            tl0_picture_id: Some(3),
            layer_index: 1,
            discardable: false,
            sync: false,
            is_keyframe: false,
        };
        assert_eq!(Vp8Contiguity::new().check(&frame, true), (true, true));
        let frame = Vp9CodecExtra {
            picture_id: Some(7),
            tl0_picture_id: Some(3),
            tid: Some(1),
            ..Vp9CodecExtra::default()
        };
        assert_eq!(Vp9Contiguity::new().check(&frame, true), (true, true));
        assert!(buffer.pop().is_none());
        assert!(noise.packetize(2, &[]).unwrap().is_empty());
        let fault = noise.packetize(2, &[1, 2, 3]).err();
        assert_eq!(fault, Some(PacketError::ErrPayloadTooLarge));
        let mut red = RedSender::new(Pt::from(63), Pt::from(96), &[1, 3]);
        red.sync(Pt::from(63), Pt::from(96), &[2]);
    });
    assert_eq!(made, 0);
}
