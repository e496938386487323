//! Texts and numbers of faults.

use crate::Fail;
use crate::asserts::{assert_printed, assert_same};
use codec_payload::error::PacketError;
use codec_payload::memory::AllocError;

/// All faults in the order of their numbers, each with its text.
static TEXTS: [(PacketError, &str); 17] = [
    (PacketError::ErrShortPacket, "Packet is too short"),
    (PacketError::ErrPayloadTooLarge, "Payload exceeds the MTU"),
    (
        PacketError::ErrTooManySpatialLayers,
        "Too many spatial layers",
    ),
    (PacketError::ErrTooManyPDiff, "Too many P-Diff"),
    (PacketError::ErrH265CorruptedPacket, "H265 corrupted packet"),
    (PacketError::ErrH266CorruptedPacket, "H266 corrupted packet"),
    (
        PacketError::ErrInvalidH265PacketType,
        "H265 invalid packet type",
    ),
    (
        PacketError::ErrH265PACIPHESTooLong,
        "H265 PACI PHES field exceeds maximum size of 31 bytes",
    ),
    (
        PacketError::StapASizeLargerThanBuffer(5, 4),
        "H264 StapA size larger than buffer: 5 > 4",
    ),
    (
        PacketError::NaluTypeIsNotHandled(25),
        "H264 NALU type is not handled: 25",
    ),
    (PacketError::ErrVP8CorruptedPacket, "VP8 corrupted packet"),
    (PacketError::ErrVP9CorruptedPacket, "VP9 corrupted packet"),
    (PacketError::ErrAv1CorruptedPacket, "AV1 corrupted packet"),
    (PacketError::ErrRedCorruptedPacket, "RED corrupted packet"),
    (
        PacketError::InvalidTelephoneEvent("why"),
        "Invalid telephone event: why",
    ),
    (
        PacketError::ErrAmrWbCorruptedPacket,
        "AMR-WB corrupted packet",
    ),
    (PacketError::OutOfMemory, "Out of memory"),
];

/// A fault's text and number.
fn assert_fault(fault: &PacketError, text: &str, number: usize) -> Result<(), AllocError> {
    assert_same(text, &usize::from(fault.number()), &number);
    assert_printed(fault, text)
}

#[test]
fn texts_of_faults() -> Result<(), Fail> {
    for (index, (fault, text)) in TEXTS.iter().enumerate() {
        assert_fault(fault, text, index + 1)?;
    }
    Ok(())
}
