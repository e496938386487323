//! Packetizers at odd MTUs, over frames of their codec and of other codecs.

use super::payloads::{FRAMES, LONG_PAYLOADS, PAYLOADS};
use crate::Fail;
use crate::asserts::{assert_bytes, assert_count, assert_holds, assert_same};
use crate::library::received;
use codec_payload::codec::{CodecExtra, CodecPacketizer, Packetizer, Vp9PacketizerMode};
use codec_payload::error::PacketError;
use codec_payload::vp8::Vp8Packetizer;
use codec_payload::vp9::detect_vp9_keyframe_bitstream;
use codec_payload::wire::{Codec, CodecSpec, Frequency};

/// A kind of packetizer: its codec, its mode of VP9, and whether it sends VP8 with picture ids, or AMR-WB octet-aligned.
type Kind = (Codec, Vp9PacketizerMode, bool);

const KINDS: [Kind; 14] = [
    (Codec::Opus, Vp9PacketizerMode::NonFlexible, false),
    (Codec::PCMU, Vp9PacketizerMode::NonFlexible, false),
    (Codec::PCMA, Vp9PacketizerMode::NonFlexible, false),
    (Codec::G722, Vp9PacketizerMode::NonFlexible, false),
    (Codec::CN, Vp9PacketizerMode::NonFlexible, false),
    (Codec::AmrWb, Vp9PacketizerMode::NonFlexible, false),
    (Codec::AmrWb, Vp9PacketizerMode::NonFlexible, true),
    (Codec::Tele, Vp9PacketizerMode::NonFlexible, false),
    (Codec::Vp8, Vp9PacketizerMode::NonFlexible, false),
    (Codec::Vp8, Vp9PacketizerMode::NonFlexible, true),
    (Codec::Vp9, Vp9PacketizerMode::NonFlexible, false),
    (Codec::Vp9, Vp9PacketizerMode::Flexible, false),
    (Codec::Av1, Vp9PacketizerMode::NonFlexible, false),
    (Codec::Null, Vp9PacketizerMode::NonFlexible, false),
];

/// What both sides are configured by.
fn specification(kind: Kind) -> CodecSpec {
    let (codec, _, octet_align) = kind;
    CodecSpec {
        codec,
        clock_rate: Frequency::EIGHT_KHZ,
        octet_align,
    }
}

fn packetizer(kind: Kind) -> Result<CodecPacketizer, Fail> {
    let (codec, mode, other) = kind;
    if codec == Codec::Vp8 && other {
        return Ok(CodecPacketizer::Vp8(Vp8Packetizer::with_picture_id(0x7fff)));
    }
    let mut packetizer = CodecPacketizer::new(codec, mode, 0x7fff).ok_or("no packetizer")?;
    packetizer.configure_for(&specification(kind));
    Ok(packetizer)
}

/// Whether a frame of the codec may be refused with this fault.
fn names_fault(codec: Codec, fault: &PacketError) -> bool {
    let number = fault.number();
    match codec {
        Codec::CN | Codec::Tele => number == 2,
        Codec::AmrWb => number == 2 || number == 16,
        Codec::Av1 => number == 13,
        _ => false,
    }
}

/// Each packet has at least one byte and at most the MTU; Null ignores the MTU. At the largest MTU there is at most one packet, which
/// can be received.
fn packets_fit(kind: Kind, mtu: usize, frame: &[u8], packets: &[Vec<u8>]) -> Result<(), Fail> {
    let (codec, _, _) = kind;
    if codec == Codec::Null {
        assert_count("the packets of Null", packets.len(), 1);
        return Ok(());
    }
    for packet in packets {
        let fits = !packet.is_empty() && packet.len() <= mtu;
        assert_holds("packets that fit", fits);
    }
    if mtu < usize::MAX || codec == Codec::Tele {
        return Ok(());
    }
    assert_holds("packets at the greatest MTU", packets.len() <= 1);
    match packets.first() {
        Some(packet) => is_received(kind, frame, packet),
        None => Ok(()),
    }
}

/// The only packet of a frame is received, and for VP9 in the non-flexible mode it marks a keyframe if the frame is one.
fn is_received(kind: Kind, frame: &[u8], packet: &[u8]) -> Result<(), Fail> {
    let (codec, mode, _) = kind;
    let (out, extra) = received(&specification(kind), packet)?;
    if codec == Codec::AmrWb || codec == Codec::Av1 {
        return Ok(());
    }
    assert_bytes("what is received", &out, frame);
    if let CodecExtra::Vp9(told) = extra {
        let keyframe = mode == Vp9PacketizerMode::Flexible || detect_vp9_keyframe_bitstream(frame);
        assert_same("whether it is a keyframe", &told.is_keyframe, &keyframe);
    }
    Ok(())
}

/// A packetizer of a kind cuts a frame into packets that fit, or refuses it with a fault that its codec names.
fn assert_cut(kind: Kind, mtu: usize, frame: &[u8]) -> Result<(), Fail> {
    match packetizer(kind)?.packetize(mtu, frame) {
        Ok(packets) => packets_fit(kind, mtu, frame, &packets),
        Err(fault) => {
            assert_holds("faults of packetizers", names_fault(kind.0, &fault));
            Ok(())
        }
    }
}

/// Each packetizer cuts a frame at odd MTUs.
fn assert_cuts(frame: &[u8]) -> Result<(), Fail> {
    for kind in KINDS {
        for mtu in [0usize, 1, 2, 9, usize::MAX] {
            assert_cut(kind, mtu, frame)?;
        }
    }
    Ok(())
}

#[test]
fn every_packetizer_at_odd_mtus() -> Result<(), Fail> {
    for frames in [
        FRAMES.as_slice(),
        PAYLOADS.as_slice(),
        LONG_PAYLOADS.as_slice(),
    ] {
        for frame in frames {
            assert_cuts(frame)?;
        }
    }
    Ok(())
}
