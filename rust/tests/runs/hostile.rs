//! Hostile input: each answer is `Ok` or an error of the format, never out of memory, and an error changes neither the bytes
//! nor the codec-specific data.

use crate::Fail;
use codec_payload::memory::TryVec;

mod payloads;
mod senders;

use crate::asserts::{assert_bytes, assert_holds, assert_same};
use crate::library::depacketizer_for;
use codec_payload::av1::detect_av1_keyframe;
use codec_payload::codec::{CodecDepacketizer, CodecExtra, Depacketizer, TelephoneEvent};
use codec_payload::error::PacketError;
use codec_payload::red::RedDecoder;
use codec_payload::vp8::{Vp8Descriptor, detect_vp8_keyframe};
use codec_payload::vp9::{detect_vp9_keyframe, detect_vp9_keyframe_bitstream};
use codec_payload::wire::{Codec, CodecSpec, Frequency};
use payloads::{LONG_PAYLOADS, PAYLOADS};

/// Each kind of depacketizer by its codec, and whether its layout is octet-aligned.
const KINDS: [(Codec, bool); 10] = [
    (Codec::Opus, false),
    (Codec::PCMU, false),
    (Codec::CN, false),
    (Codec::AmrWb, false),
    (Codec::AmrWb, true),
    (Codec::Tele, false),
    (Codec::Vp8, false),
    (Codec::Vp9, false),
    (Codec::Av1, false),
    (Codec::Null, false),
];

/// Whether a payload of the codec may be refused with this fault.
fn names_fault(codec: Codec, fault: &PacketError) -> bool {
    let number = fault.number();
    match codec {
        Codec::CN => number == 1,
        Codec::AmrWb => number == 1 || number == 16,
        Codec::Tele => number == 15,
        Codec::Vp8 => number == 1 || number == 11,
        Codec::Vp9 => number == 1 || number == 3 || number == 4 || number == 12,
        Codec::Av1 => number == 1 || number == 13,
        _ => false,
    }
}

/// A depacketizer that goes on from payload to payload, with the bytes and the extra so far.
struct Receiver {
    codec: Codec,
    depacketizer: CodecDepacketizer,
    out: Vec<u8>,
    extra: CodecExtra,
}

impl Receiver {
    fn new(codec: Codec, octet_align: bool) -> Result<Self, Fail> {
        let spec = CodecSpec {
            codec,
            clock_rate: Frequency::EIGHT_KHZ,
            octet_align,
        };
        Ok(Receiver {
            codec,
            depacketizer: depacketizer_for(&spec)?,
            out: Vec::try_from_slice(&[7])?,
            extra: CodecExtra::None,
        })
    }

    fn depacketize(&mut self, payload: &[u8]) -> Result<(), PacketError> {
        self.depacketizer
            .depacketize(payload, &mut self.out, &mut self.extra)
    }

    /// A refusal names a fault of the format, and has changed neither the bytes nor the extra.
    fn assert_refused(&self, fault: &PacketError, before: &[u8], extra: &CodecExtra) {
        assert_holds("faults of the format", names_fault(self.codec, fault));
        assert_bytes("the bytes so far", &self.out, before);
        assert_same("the extra so far", &self.extra, extra);
    }

    /// Reads a payload, and says whether it was accepted.
    fn reads(&mut self, payload: &[u8]) -> Result<bool, Fail> {
        let before = self.out.clone();
        let extra = self.extra;
        if let Err(fault) = self.depacketize(payload) {
            self.assert_refused(&fault, &before, &extra);
            return Ok(false);
        }
        assert_holds("the bytes so far", self.out.starts_with(&before));
        Ok(true)
    }
}

/// All depacketizers, each as new and in going on.
struct Receivers {
    going_on: Vec<Receiver>,
}

impl Receivers {
    fn new() -> Result<Self, Fail> {
        let mut going_on = Vec::new();
        for (codec, octet_align) in KINDS {
            going_on.try_push(Receiver::new(codec, octet_align)?)?;
        }
        Ok(Receivers { going_on })
    }

    /// Hands a payload to those that go on.
    fn go_on(&mut self, payload: &[u8]) -> Result<(), Fail> {
        for receiver in &mut self.going_on {
            receiver.reads(payload)?;
            if receiver.out.len() > 64 {
                receiver.out.clear();
                receiver.extra = CodecExtra::None;
            }
        }
        Ok(())
    }

    /// Hands a payload to all that reads payloads.
    fn read(&mut self, payload: &[u8]) -> Result<(), Fail> {
        self.go_on(payload)?;
        new_ones_read(payload)?;
        detectors_agree(payload);
        reports_agree(payload);
        red_is_whole(payload);
        Ok(())
    }

    /// Hands each beginning of a payload to all.
    fn read_beginnings(&mut self, payload: &[u8]) -> Result<(), Fail> {
        for end in 0..=payload.len() {
            let (beginning, _) = payload.split_at(end);
            self.read(beginning)?;
        }
        Ok(())
    }

    /// Hands a payload to all, each byte of it in turn replaced.
    fn read_changed(&mut self, payload: &[u8]) -> Result<(), Fail> {
        for place in 0..payload.len() {
            for byte in [0x00u8, 0x7f, 0x80, 0xff] {
                let mut changed = Vec::try_from_slice(payload)?;
                changed[place] = byte;
                self.read(&changed)?;
            }
        }
        Ok(())
    }
}

/// Hands a payload to a new depacketizer of each kind.
fn new_ones_read(payload: &[u8]) -> Result<(), Fail> {
    for (codec, octet_align) in KINDS {
        let accepted = Receiver::new(codec, octet_align)?.reads(payload)?;
        if codec == Codec::Vp8 {
            vp8_agrees(payload, accepted);
        }
    }
    Ok(())
}

/// A VP8 descriptor is parsed exactly where the payload is accepted, and agrees with the detector about keyframes.
fn vp8_agrees(payload: &[u8], accepted: bool) {
    let parsed = Vp8Descriptor::parse(payload);
    assert_same("descriptors that are parsed", &parsed.is_ok(), &accepted);
    if let Ok(descriptor) = parsed {
        let told = descriptor.starts_keyframe(payload);
        assert_same("VP8 keyframes", &told, &detect_vp8_keyframe(payload));
    }
}

/// The bits P of VP9 and N of AV1, and the frame marker 2 of a VP9 frame.
fn detectors_agree(payload: &[u8]) {
    let first = payload.first().copied();
    let (p_clear, n_set) = match first {
        Some(byte) => (byte & 0x40 == 0, byte & 0x08 != 0),
        None => (false, false),
    };
    let got = (detect_vp9_keyframe(payload), detect_av1_keyframe(payload));
    assert_same("keyframes of VP9 and AV1", &got, &(p_clear, n_set));
    if detect_vp9_keyframe_bitstream(payload) {
        assert_same("the frame marker", &(first.unwrap_or(0) / 64), &2);
    }
}

/// How many reports a payload is, where it is whole reports.
fn count_of_reports(payload: &[u8]) -> Option<usize> {
    let events = TelephoneEvent::parse_all(payload, Frequency::EIGHT_KHZ)?;
    let mut count = 0usize;
    for _ in events {
        count = count.wrapping_add(1);
    }
    Some(count)
}

/// A report has four bytes, and payloads are whole reports.
fn reports_agree(payload: &[u8]) {
    let begins = TelephoneEvent::parse(payload, Frequency::EIGHT_KHZ).is_some();
    assert_same("a report", &begins, &(payload.len() >= 4));
    let is_whole = !payload.is_empty() && payload.len() % 4 == 0;
    let wanted = if is_whole {
        Some(payload.len() / 4)
    } else {
        None
    };
    assert_same("whole reports", &count_of_reports(payload), &wanted);
}

/// How many bytes the headers and blocks of RED are, how many blocks there are, and whether the last is the primary.
fn measure_red(payload: &[u8]) -> Result<(usize, usize, bool), PacketError> {
    let blocks = RedDecoder::decode(payload)?;
    let mut size = 0usize;
    let mut ends_in_primary = false;
    for block in &blocks {
        let header = if block.is_primary { 1 } else { 4 };
        size = size.wrapping_add(header).wrapping_add(block.payload.len());
        ends_in_primary = block.is_primary;
    }
    Ok((size, blocks.len(), ends_in_primary))
}

/// RED is refused with fault 14, or its headers and blocks are all of the payload, of which the last block is the primary.
fn red_is_whole(payload: &[u8]) {
    match measure_red(payload) {
        Ok((size, count, ends_in_primary)) => {
            let got = (size, ends_in_primary);
            assert_same("what RED holds", &got, &(payload.len(), true));
            assert_holds("how many blocks RED has", count <= 33);
        }
        Err(fault) => assert_same("the fault of RED", &fault.number(), &14),
    }
}

#[test]
fn every_beginning_of_every_payload() -> Result<(), Fail> {
    let mut receivers = Receivers::new()?;
    for payloads in [PAYLOADS.as_slice(), LONG_PAYLOADS.as_slice()] {
        for payload in payloads {
            receivers.read_beginnings(payload)?;
        }
    }
    Ok(())
}

/// Each beginning of a payload, read by a new depacketizer of AV1.
fn av1_reads_beginnings(payload: &[u8]) -> Result<(), Fail> {
    for end in 0..=payload.len() {
        let (beginning, _) = payload.split_at(end);
        Receiver::new(Codec::Av1, false)?.reads(beginning)?;
    }
    Ok(())
}

/// The two packets of an AV1 temporal unit of 20,000 bytes at an MTU of 16,392, read as AV1 alone.
#[test]
fn every_beginning_of_the_longest_payloads() -> Result<(), Fail> {
    let first = [0x40u8, 0x01, 0x28, 0x01, 0x28, 0x01, 0x28, 0xff, 0x7f, 0x30];
    for (head, length) in [
        (first.as_slice(), 16_392usize),
        ([0x90u8].as_slice(), 3_618),
    ] {
        let mut payload = Vec::try_from_slice(head)?;
        payload.try_resize(length, 0xbb)?;
        av1_reads_beginnings(&payload)?;
    }
    Ok(())
}

#[test]
fn every_payload_of_one_and_of_two_bytes() -> Result<(), Fail> {
    let mut receivers = Receivers::new()?;
    for first in 0..=255u8 {
        receivers.read(&[first])?;
        for second in 0..=255u8 {
            receivers.read(&[first, second])?;
        }
    }
    Ok(())
}

#[test]
fn each_byte_of_long_payloads_in_turn() -> Result<(), Fail> {
    let mut receivers = Receivers::new()?;
    for payload in LONG_PAYLOADS {
        receivers.read_changed(payload)?;
    }
    Ok(())
}
