"""The values that calls take and return. Times of packets are in ticks of the RTP clock, all others in ticks of your clock."""
from __future__ import annotations

import threading
import time
from dataclasses import dataclass, fields
from enum import IntEnum
from typing import Any, Iterable, NamedTuple, Type, TypeVar, Union

from ._c import ffi, lib
from .errors import Error, error_of

Buffer = Union[bytes, bytearray, memoryview]
T = TypeVar("T")


def milliseconds() -> int:
    """The time of a clock that never goes back, in milliseconds: ticks for each argument `now`, with the default tick rate."""
    return time.monotonic_ns() // 1_000_000


class Codec(IntEnum):
    """A payload format. Calls take its name as text too, such as "VP8"."""

    OPUS = 0
    PCMU = 1
    PCMA = 2
    G722 = 3
    CN = 4
    AMR_WB = 5
    VP8 = 9
    VP9 = 10
    AV1 = 11
    NULL = 12
    TELE = 13


class Purpose(IntEnum):
    """How long frames wait for missing packets: the default limits."""

    LIVE = 0
    LIVE_WITH_NACK = 1
    FILE = 2


class Keyframes(IntEnum):
    """What happens to video frames that a decoder cannot show."""

    OFF = 0
    MARK = 1
    DROP = 2


class Outcome(IntEnum):
    """What a receiver did with a packet (CPAY_HELD and so on in the C header)."""

    HELD = 0
    HELD_AND_EVICTED = 1
    DUPLICATE = 2
    LATE = 3
    SUSPECT = 4
    RESTARTED = 5
    RESTARTED_ALONE = 6
    NO_MEDIA = 7
    OTHER_STREAM = 8
    RTCP = 9
    UNDECIDED = 10


@dataclass(frozen=True)
class Rtx:
    """A separate stream of retransmissions (RFC 4588)."""

    ssrc: int
    payload_type: int
    first_number: int = 0


@dataclass(frozen=True)
class Red:
    """Redundant audio (RFC 2198). `step` is the RTP time from one packet to the next: 960 is 20 ms at 48 kHz."""

    payload_type: int
    step: int


class Frame(NamedTuple):
    """A whole frame, or one that was refused: then `fault` is the exception's class, and `data` is empty.

    `first` and `last` are extended sequence numbers, `rtp_time` is extended to 64 bits. `contiguous`: no frame is missing before it.
    `decodable`: a decoder can show it, as far as the headers of frames say.
    """

    data: bytes
    rtp_time: int
    first: int
    last: int
    received: int
    contiguous: bool
    decodable: bool
    keyframe: bool
    starts_talk_spurt: bool
    fault: Error | None = None


@dataclass(frozen=True)
class Report:
    """The values of a report block (RFC 3550, section 6.4.1) that a receiver counts."""

    cumulative_lost: int
    highest: int
    jitter: int
    fraction_lost: int


@dataclass(frozen=True)
class ReceiverCounts:
    """What happened to all datagrams of a receiver (cpay_receiver_counts_info in the C header says what each counts)."""

    received: int
    rtcp: int
    malformed: int
    other_streams: int
    undecided: int
    no_media: int
    duplicates: int
    late: int
    suspect: int
    evicted: int
    released: int
    left: int
    incomplete: int
    skipped: int
    refused: int
    restarts: int
    retransmitted: int
    recovered: int
    units: int
    undecodable: int
    too_large: int
    held: int


@dataclass(frozen=True)
class SenderCounts:
    """What a sender sent, for a sender report."""

    packets: int
    octets: int
    next_number: int


@dataclass(frozen=True)
class SenderReport:
    """The values of a sender report (RFC 3550, section 6.4.1), without its NTP time."""

    ssrc: int
    rtp_time: int
    packets: int
    octets: int


def read(kind: Type[T], struct: Any) -> T:
    """A dataclass whose fields have the names of the struct's fields."""
    return kind(**{it.name: getattr(struct, it.name) for it in fields(kind)})  # type: ignore[arg-type]


def number_of(name: Union[str, int]) -> int:
    """The number of a codec, by its name or its number."""
    if isinstance(name, str):
        known = Codec.__members__.get(name.upper().replace("-", "_"))
        if known is None:
            raise ValueError(f"no codec {name!r}: {', '.join(Codec.__members__)}")
        return int(known)
    return int(Codec(name))


def purpose_of(name: Union[str, int]) -> int:
    """The number of a purpose, by its name or its number."""
    if isinstance(name, str):
        known = Purpose.__members__.get(name.upper())
        if known is None:
            raise ValueError(f"no purpose {name!r}: {', '.join(Purpose.__members__)}")
        return int(known)
    return int(Purpose(name))


def option(struct: Any, name: str, value: Any) -> None:
    """Sets an optional field of a struct with its flag, unless the value is None."""
    if value is not None:
        setattr(struct, name, value)
        setattr(struct, f"has_{name}", True)


def data(buffer: Buffer) -> Any:
    """Bytes as an argument of a call, without a copy."""
    return buffer if type(buffer) is bytes else ffi.from_buffer("uint8_t[]", buffer)


def octets(values: Iterable[int]) -> Any:
    """Payload types as an array of bytes."""
    return bytes(values)


def frame(unit: Any, data: bytes) -> Frame:
    """A description of a unit, with its bytes."""
    fault = unit.fault
    return Frame(data, unit.rtp_time, unit.first, unit.last, unit.received, unit.contiguous, unit.decodable, unit.keyframe,
                 unit.starts_talk_spurt, error_of(fault) if fault else None)


class Handle:
    """An object of the C library. Its calls may come from any thread: a lock lets one in at a time, as the library asks for."""

    def __init__(self, kind: str) -> None:
        # A handle is never moved or copied, and cffi's memory stays where it is. It is freed with this object.
        self._at = ffi.gc(ffi.new(f"{kind} *"), getattr(lib, f"{kind}_free"))
        self._lock = threading.Lock()
        self._room = ffi.new("uint8_t[2048]")
        self._size = ffi.new("size_t *")

    def __copy__(self) -> Any:
        raise TypeError(f"{type(self).__name__} cannot be copied")

    def __deepcopy__(self, memo: Any) -> Any:
        raise TypeError(f"{type(self).__name__} cannot be copied")

    def __reduce__(self) -> Any:
        raise TypeError(f"{type(self).__name__} cannot be pickled")

    def _grow(self) -> None:
        """Makes room for the size that a call asked for by CPAY_TOO_SMALL."""
        self._room = ffi.new("uint8_t[]", self._size[0])

    def _written(self) -> bytes:
        """The bytes that a call wrote."""
        return ffi.buffer(self._room, self._size[0])[:]
