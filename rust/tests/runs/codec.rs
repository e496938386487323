//! Which codecs are built in, and what a specification sets.

use crate::Fail;
use crate::asserts::{assert_bytes, assert_count, assert_same, assert_shown};
use crate::library::received;
use codec_payload::codec::{
    CodecDepacketizer, CodecExtra, CodecPacketizer, Packetizer, TelephoneEvent,
};
use codec_payload::payload::Payloader;
use codec_payload::wire::{Codec, CodecSpec, Frequency};

const THERE: [Codec; 11] = [
    Codec::Opus,
    Codec::PCMU,
    Codec::PCMA,
    Codec::G722,
    Codec::CN,
    Codec::AmrWb,
    Codec::Vp8,
    Codec::Vp9,
    Codec::Av1,
    Codec::Null,
    Codec::Tele,
];

const ABSENT: [Codec; 6] = [
    Codec::H264,
    Codec::H265,
    Codec::H266,
    Codec::Rtx,
    Codec::Red,
    Codec::Unknown,
];

/// Whether a codec has a packetizer, and whether it has a depacketizer.
fn is_there(codec: Codec) -> (bool, bool) {
    let packetizer = CodecPacketizer::from_codec(codec);
    let depacketizer = CodecDepacketizer::from_codec(codec);
    (packetizer.is_some(), depacketizer.is_some())
}

#[test]
fn from_codec_eleven() -> Result<(), Fail> {
    for codec in THERE {
        assert_same("built-in codecs", &is_there(codec), &(true, true));
    }
    for codec in ABSENT {
        assert_same("other codecs", &is_there(codec), &(false, false));
    }
    let opus = CodecPacketizer::from_codec(Codec::Opus).ok_or("no packetizer")?;
    assert_shown(&opus, "Opus(OpusPacketizer)")?;
    let payloader = Payloader::with_packetizer(opus, Frequency::FORTY_EIGHT_KHZ);
    assert_same(
        "the clock",
        &payloader.clock_rate(),
        &Frequency::FORTY_EIGHT_KHZ,
    );
    Ok(())
}

fn specification(codec: Codec) -> Result<CodecSpec, Fail> {
    Ok(CodecSpec {
        codec,
        clock_rate: Frequency::make(16_000).ok_or("a rate")?,
        octet_align: true,
    })
}

/// 800 units are 100 milliseconds at 8 kHz, and 50 at 16 kHz.
const EVENT: TelephoneEvent = TelephoneEvent {
    event: 5,
    end: true,
    volume: 10,
    duration: 50_000_000,
};

#[test]
fn a_specification_sets_the_clock() -> Result<(), Fail> {
    let (_, extra) = received(&specification(Codec::Tele)?, &[0x05, 0x8a, 0x03, 0x20])?;
    assert_same("what is told", &extra, &CodecExtra::Tele(EVENT));
    Ok(())
}

/// The payloads of a frame of speech from a packetizer with a specification.
fn sent_speech(frame: &[u8]) -> Result<Vec<Vec<u8>>, Fail> {
    let mut speech = CodecPacketizer::from_codec(Codec::AmrWb).ok_or("no packetizer")?;
    speech.configure_for(&specification(Codec::AmrWb)?);
    Ok(speech.packetize(1_200, frame)?)
}

#[test]
fn a_specification_sets_the_layout() -> Result<(), Fail> {
    let payloads = sent_speech(&[0x74])?;
    assert_count("payloads of a frame", payloads.len(), 1);
    for payload in &payloads {
        assert_bytes("the payload", payload, &[0xf0, 0x74]);
        let (frame, _) = received(&specification(Codec::AmrWb)?, payload)?;
        assert_bytes("the frame", &frame, &[0x74]);
    }
    Ok(())
}
