"""Exceptions, one for each status of the C library that is an error.

`MemoryError` is raised if memory runs out. All other exceptions derive from `Error`, and from one of its four kinds if they concern
input bytes alone: then the object that raised them goes on, and any peer on the network can cause them.
"""
from __future__ import annotations

from ._c import ffi, lib


class Error(Exception):
    """A call failed. The object is unchanged, except as the call says."""

    status: int = -1


class PayloadError(Error):
    """A payload is not valid in its format, or a frame cannot be sent in it."""


class FrameError(Error):
    """A frame is not valid in its format."""


class DatagramError(Error):
    """A datagram is not a valid RTP packet. It is counted, and the receiver goes on."""


class RtcpError(Error):
    """A datagram is not valid RTCP, or RTCP of another type."""


class ShortPacket(PayloadError):
    """The packet is too short."""

    status = 1


class PayloadTooLarge(PayloadError):
    """The payload exceeds the MTU."""

    status = 2


class TooManyLayers(PayloadError):
    """Too many spatial layers."""

    status = 3


class TooManyPDiff(PayloadError):
    """Too many references."""

    status = 4


class Vp8Corrupted(PayloadError):
    """The VP8 packet is corrupted."""

    status = 11


class Vp9Corrupted(PayloadError):
    """The VP9 packet is corrupted."""

    status = 12


class Av1Corrupted(PayloadError):
    """The AV1 packet or frame is corrupted."""

    status = 13


class RedCorrupted(PayloadError, DatagramError):
    """The RED packet is corrupted."""

    status = 14


class TeleInvalid(PayloadError):
    """Invalid telephone-event payload."""

    status = 15


class AmrWbCorrupted(PayloadError):
    """The AMR-WB packet or frame is corrupted."""

    status = 16


class TooSmall(Error):
    """Output buffer too small."""

    status = 33


class NotInitialised(Error):
    """Handle not initialised."""

    status = 34


class OtherKind(Error):
    """Handle of another type."""

    status = 35


class AlreadyInUse(Error):
    """Handle already in use."""

    status = 36


class InvalidArgument(Error, ValueError):
    """Invalid argument."""

    status = 37


class FrameTooShort(FrameError):
    """Frame truncated."""

    status = 38


class FrameMarker(FrameError):
    """Wrong start code or marker in frame."""

    status = 39


class FrameReserved(FrameError):
    """Reserved value in frame."""

    status = 40


class FrameSizes(FrameError):
    """Inconsistent sizes in frame."""

    status = 41


class RtpHeaderTooShort(DatagramError):
    """The RTP packet is shorter than its fixed header."""

    status = 42


class RtpVersion(DatagramError):
    """The RTP version is not 2."""

    status = 43


class RtpCsrcsTooShort(DatagramError):
    """The RTP packet ends inside its CSRCs."""

    status = 44


class RtpExtensionHeaderTooShort(DatagramError):
    """The RTP packet ends inside the header of its extension."""

    status = 45


class RtpExtensionTooShort(DatagramError):
    """The RTP packet ends inside its extension."""

    status = 46


class RtpPaddingOfZero(DatagramError):
    """RTP padding length is 0."""

    status = 47


class RtpPaddingTooLong(DatagramError):
    """RTP padding exceeds the payload."""

    status = 48


class RtxTooShort(DatagramError):
    """The retransmission has no original sequence number."""

    status = 49


class RtcpHeaderTooShort(RtcpError):
    """The RTCP packet is shorter than its header."""

    status = 50


class RtcpVersion(RtcpError):
    """The RTCP version is not 2."""

    status = 51


class RtcpFirstNotReport(RtcpError):
    """The compound RTCP packet does not begin with a report."""

    status = 52


class RtcpPacketTooShort(RtcpError):
    """The RTCP length passes the end."""

    status = 53


class RtcpPaddingNotLast(RtcpError):
    """RTCP padding before the last packet."""

    status = 54


class RtcpPaddingOfZero(RtcpError):
    """RTCP padding length is 0."""

    status = 55


class RtcpPaddingTooLong(RtcpError):
    """RTCP padding exceeds the packet."""

    status = 56


class RtcpReportTooShort(RtcpError):
    """The RTCP report ends inside its report blocks."""

    status = 57


class RtcpChunkTooShort(RtcpError):
    """The RTCP SDES ends inside an SSRC."""

    status = 58


class RtcpItemsTooShort(RtcpError):
    """The RTCP SDES ends inside a chunk."""

    status = 59


class RtcpByeTooShort(RtcpError):
    """The RTCP BYE ends inside its SSRCs."""

    status = 60


class RtcpReasonTooShort(RtcpError):
    """The RTCP BYE ends inside its reason."""

    status = 61


class RtcpFeedbackTooShort(RtcpError):
    """The RTCP feedback ends inside its SSRCs."""

    status = 62


class RtcpNackLength(RtcpError):
    """The RTCP NACK has a wrong length."""

    status = 63


class RtcpPliLength(RtcpError):
    """The RTCP PLI has a wrong length."""

    status = 64


class RtcpFirLength(RtcpError):
    """The RTCP FIR has a wrong length."""

    status = 65


class RembTooShort(RtcpError):
    """REMB is shorter than its bitrate."""

    status = 66


class RembOther(RtcpError):
    """The feedback is not REMB."""

    status = 67


class RembTooLarge(RtcpError):
    """The bitrate of REMB has more than 64 bits."""

    status = 68


class RembSourcesTooShort(RtcpError):
    """REMB ends inside its SSRCs."""

    status = 69


class TransportHeaderTooShort(RtcpError):
    """The transport-wide feedback is shorter than its header."""

    status = 70


class TransportChunksTooShort(RtcpError):
    """The transport-wide feedback ends inside its chunks."""

    status = 71


class TransportReserved(RtcpError):
    """The transport-wide feedback has a reserved status."""

    status = 72


class TransportDeltasTooShort(RtcpError):
    """The transport-wide feedback ends inside its deltas."""

    status = 73


class ExtensionProfile(Error):
    """The header extension has no elements."""

    status = 74


class ExtensionRoom(Error):
    """The header extension has no room for the number."""

    status = 75


class UnitTooLarge(Error):
    """The unit is larger than the settings allow."""

    status = 76


class QueueFull(Error):
    """More bytes would wait than the settings allow."""

    status = 77


class CcfbTooShort(RtcpError):
    """Congestion control feedback is shorter than its SSRC and its timestamp."""

    status = 78


class CcfbBlockTooShort(RtcpError):
    """Congestion control feedback ends inside the head of a block."""

    status = 79


class CcfbTooMany(RtcpError):
    """Congestion control feedback has a block of more than 16384 packets."""

    status = 80


class CcfbMetricsTooShort(RtcpError):
    """Congestion control feedback ends inside the packets of a block."""

    status = 81


class FecHeaderTooShort(Error):
    """A packet of FEC is shorter than its header."""

    status = 82


class FecExtended(Error):
    """A packet of FEC has its extension flag set."""

    status = 83


class FecLevelTooShort(Error):
    """A packet of FEC ends inside the header of level 0."""

    status = 84


class FecEmptyMask(Error):
    """A packet of FEC protects no packet."""

    status = 85


class FecPayloadTooShort(Error):
    """A packet of FEC ends inside the payload of level 0."""

    status = 86


class FecStreams(Error):
    """The streams of a port with FEC are not 1 to 256."""

    status = 87


class FecPayloadType(Error):
    """A payload type of a port with FEC or of a sender of FEC is out of range."""

    status = 88


class FecTwoMeanings(Error):
    """A payload type of a port with FEC or of a sender of FEC has two meanings."""

    status = 89


class FecPacketTooLarge(Error):
    """A packet for a sender of FEC has more than 65547 bytes."""

    status = 90


class FecOtherStream(Error):
    """A packet for a sender of FEC has another SSRC."""

    status = 91


class FecPacketType(Error):
    """A packet for a sender of FEC has the payload type of RED or of ULPFEC."""

    status = 92


class FecTooOld(Error):
    """A packet for a sender of FEC comes too late: FEC was made 64 times since."""

    status = 93


BY_STATUS: dict[int, type[Error]] = {
    it.status: it for it in list(globals().values()) if isinstance(it, type) and issubclass(it, Error) and it.status >= 0
}


def error_of(status: int) -> Error:
    """The exception for a status that is an error, with the text of the library."""
    text = ffi.string(lib.cpay_status_text(status)).decode()
    found = BY_STATUS.get(status)
    if found is None:
        error = Error(f"{text} ({status})")
        error.status = status
        return error
    return found(text)


def check(status: int) -> None:
    """Raises the exception of a status, unless it is CPAY_OK."""
    if status:
        raise MemoryError("codec_payload") if status == lib.CPAY_OUT_OF_MEMORY else error_of(status)
