"""A forwarder: packets of one source after another, as one stream of a viewer."""
from __future__ import annotations

from dataclasses import dataclass
from enum import IntEnum
from typing import Any, Union

from ._c import ffi, lib
from .errors import check
from .sender import History, Resent
from .values import Buffer, Handle, Rtx, data, number_of, read


class Forwarded(IntEnum):
    """What a forwarder did with a packet (CPAY_FORWARDED_BEGAN and so on in the C header). With bytes: BEGAN, WRITTEN, FILLED."""

    BEGAN = 0
    WRITTEN = 1
    NO_KEYFRAME = 2
    OTHER_SOURCE = 3
    TOO_OLD = 4
    LEFT_OUT = 5
    FILLED = 6


@dataclass(frozen=True)
class ForwarderCounts:
    """What a forwarder wrote (cpay_forwarder_counts_info in the C header says what each counts)."""

    packets: int
    octets: int
    switches: int
    filled: int
    left_out: int
    refused: int
    resent: int


class Forwarder(Handle):
    """Writes packets of the wanted source under the SSRC, the numbers and the times of a viewer's stream.

    Choose `first_number` and `first_time` at random (RFC 3550). Raises InvalidArgument for values out of range.
    """

    def __init__(self, codec: Union[str, int], payload_type: int, *, ssrc: int, first_number: int = 0, first_time: int = 0,
                 rtx: Rtx | None = None) -> None:
        super().__init__("cpay_forwarder")
        settings = ffi.new("cpay_forwarder_settings *")
        lib.cpay_forwarder_settings_init(settings, number_of(codec), ssrc, payload_type)
        settings.first_number, settings.first_time = first_number, first_time
        if rtx is not None:
            settings.has_rtx, settings.rtx_ssrc = True, rtx.ssrc
            settings.rtx_payload_type, settings.rtx_first_number = rtx.payload_type, rtx.first_number
        check(lib.cpay_forwarder_new(self._at, settings))

    def want(self, ssrc: int) -> None:
        """The viewer is to get this source from its next keyframe on."""
        with self._lock:
            check(lib.cpay_forwarder_want(self._at, ssrc))

    def mute(self) -> None:
        """The viewer is to get nothing."""
        with self._lock:
            check(lib.cpay_forwarder_mute(self._at))

    def _ssrc(self, call: Any) -> int | None:
        ssrc = ffi.new("uint32_t *")
        with self._lock:
            status = call(self._at, ssrc)
        if status == lib.CPAY_NONE:
            return None
        check(status)
        return int(ssrc[0])

    def source(self) -> int | None:
        """The SSRC of the source that the viewer gets, or None."""
        return self._ssrc(lib.cpay_forwarder_source)

    def wanted(self) -> int | None:
        """The SSRC of the source that the viewer is to get, or None."""
        return self._ssrc(lib.cpay_forwarder_wanted)

    def write(self, now: int, datagram: Buffer) -> tuple[Forwarded, bytes]:
        """What was done with a packet of any source, and the bytes to send. `now` is in ticks of the RTP clock.

        Raises DatagramError if the datagram is not RTP.
        """
        return self._write(lib.cpay_forwarder_write, (now,), datagram)

    def leave_out(self, datagram: Buffer) -> tuple[Forwarded, bytes]:
        """Instead of `write`, for a packet that the viewer is not to get, such as one of an upper temporal layer."""
        return self._write(lib.cpay_forwarder_leave_out, (), datagram)

    def _write(self, call: Any, first: tuple[int, ...], datagram: Buffer) -> tuple[Forwarded, bytes]:
        forwarded = ffi.new("cpay_forwarded *")
        with self._lock:
            words = self._at, *first, data(datagram), len(datagram)
            status = call(*words, self._room, len(self._room), self._size, forwarded)
            if status == lib.CPAY_TOO_SMALL:
                self._grow()
                status = call(*words, self._room, len(self._room), self._size, forwarded)
            check(status)
            return Forwarded(forwarded[0]), self._written()

    def resend(self, history: History, number: int) -> tuple[Resent, bytes]:
        """A packet of the viewer's stream again, from the history of its source. `number` is the viewer's."""
        resent = ffi.new("cpay_resent *")
        with self._lock, history._lock:
            words = self._at, history._at, number
            status = lib.cpay_forwarder_resend(*words, self._room, len(self._room), self._size, resent)
            if status == lib.CPAY_TOO_SMALL:
                self._grow()
                status = lib.cpay_forwarder_resend(*words, self._room, len(self._room), self._size, resent)
            check(status)
            return Resent(resent[0]), self._written()

    def counts(self) -> ForwarderCounts:
        """What was written."""
        counts = ffi.new("cpay_forwarder_counts_info *")
        with self._lock:
            check(lib.cpay_forwarder_counts(self._at, counts))
        return read(ForwarderCounts, counts)
