"""Session descriptions (SDP, RFC 8866): what they say of media, and the settings that follow."""
from __future__ import annotations

from dataclasses import dataclass, field
from enum import IntEnum
from typing import Any, Sequence

from ._c import ffi, lib
from .errors import Error, InvalidArgument, check
from .receiver import Receiver
from .session import Session


class SdpError(Error, ValueError):
    """A session description is malformed in `line`, counted from 1."""

    def __init__(self, text: str, line: int) -> None:
        super().__init__(f"line {line}: {text}")
        self.line = line


class Role(IntEnum):
    """What a payload type is for."""

    IGNORED = 0
    MEDIA = 1
    RED = 2
    RETRANSMISSION = 3
    EVENTS = 4
    COMFORT_NOISE = 5
    FEC = 6


class Direction(IntEnum):
    """In which direction media go, as the author of the description sees it."""

    SENDRECV = 0
    SENDONLY = 1
    RECVONLY = 2
    INACTIVE = 3


@dataclass(frozen=True)
class SdpFormat:
    """A payload type of a section. `of`: the payload type that is retransmitted, or in RED."""

    payload_type: int
    name: str
    clock_rate: int
    channels: int
    role: Role
    of: int | None
    nack: bool
    pli: bool
    fmtp: str


@dataclass(frozen=True)
class Media:
    """An `m=` section. `sources` maps each SSRC to the SSRC of its retransmissions, or None."""

    line: int
    type: str
    protocol: str
    port: int
    mid: str
    direction: Direction
    is_rtp: bool
    encrypted: bool
    rtcp_mux: bool
    ice_ufrag: str
    ice_pwd: str
    candidates: tuple[str, ...]
    fingerprints: tuple[tuple[str, str], ...]
    rids: tuple[str, ...]
    formats: tuple[SdpFormat, ...]
    sources: dict[int, int | None]
    _at: Any = field(repr=False, compare=False)
    _text: Any = field(repr=False, compare=False)


def read(text: str | bytes) -> list[Media]:
    """The sections of a description, in order. Raises SdpError."""
    kept = ffi.from_buffer("char[]", text.encode() if isinstance(text, str) else bytes(text))
    count, fault, room = ffi.new("size_t *"), ffi.new("cpay_sdp_fault *"), 16
    while True:
        media = ffi.new("cpay_sdp_media[]", room)
        status = lib.cpay_sdp_read(kept, len(kept), media, room, count, fault)
        if status != lib.CPAY_TOO_SMALL:
            break
        room = count[0]
    if status == lib.CPAY_INVALID:
        raise SdpError(ffi.string(lib.cpay_sdp_error_text(fault.error)).decode(), fault.line)
    check(status)
    # Each section keeps the array and the text alive, which its own fields point into.
    return [_media(media[place], media, kept) for place in range(count[0])]


def receiver(media: Media, payload_type: int, *, ssrc: int | None = None) -> Receiver:
    """A receiver for media of a payload type, as the section says. Raises InvalidArgument if it has no such media."""
    settings, kinds, count = ffi.new("cpay_receiver_settings *"), ffi.new("uint8_t[128]"), ffi.new("size_t *")
    check(lib.cpay_sdp_receiver(_at(media), payload_type, settings, kinds, count))
    if ssrc is not None:
        settings.ssrc, settings.has_ssrc = ssrc, True
    return Receiver._of(settings, ffi.buffer(kinds, count[0])[:])


def session(media: Sequence[Media], *, ssrc: int | None = None, cname: bytes = b"") -> Session:
    """A session for all sections of a description. With `ssrc` and `cname` it requests what is missing and sends reports.

    Raises InvalidArgument if no section has media of a codec of the library, or if payload types or ids of two sections clash.
    """
    sections = ffi.new("cpay_sdp_media[]", len(media))
    for place, it in enumerate(media):
        sections[place] = _at(it)[0]
    made, fault = ffi.new("cpay_sdp_session_settings *"), ffi.new("cpay_sdp_session_fault *")
    status = lib.cpay_sdp_session(sections, len(media), made, fault)
    if status == lib.CPAY_INVALID:
        raise InvalidArgument(ffi.string(lib.cpay_sdp_session_error_text(fault.error)).decode())
    check(status)
    session = Session.__new__(Session)
    session._begin(ffi.addressof(made, "settings"), made.formats[0:made.formats_len], ffi.buffer(made.no_media, made.no_media_len)[:],
                   made.pairs[0:made.pairs_len], ssrc, cname)
    return session


def _at(media: Media) -> Any:
    return ffi.addressof(media._at)


def _str(text: Any) -> str:
    return ffi.buffer(text.at, text.len)[:].decode("utf-8", "replace") if text.len else ""


def _format(it: Any) -> SdpFormat:
    name = ffi.string(it.name).decode("utf-8", "replace")
    return SdpFormat(it.payload_type, name, it.clock_rate, it.channels, Role(it.role), it.of if it.has_of else None, it.nack, it.pli,
                     _str(it.fmtp))


def _media(it: Any, media: Any, text: Any) -> Media:
    transport = it.transport
    candidates = tuple(_str(one) for one in transport.candidates[0:transport.candidate_count])
    fingerprints = tuple((_str(one.hash), _str(one.value)) for one in transport.fingerprints[0:transport.fingerprint_count])
    formats = tuple(_format(one) for one in it.formats[0:it.format_count])
    sources = {one.ssrc: one.rtx_ssrc if one.has_rtx else None for one in it.sources[0:it.source_count]}
    rids = tuple(_str(one.id) for one in it.rids[0:it.rid_count])
    return Media(it.line, _str(it.type), _str(it.protocol), it.port, _str(it.mid), Direction(it.direction), it.is_rtp, it.encrypted,
                 it.rtcp_mux, _str(transport.ice_ufrag), _str(transport.ice_pwd), candidates, fingerprints, rids, formats, sources, it,
                 (media, text))
