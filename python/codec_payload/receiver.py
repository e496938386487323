"""A receiver: one stream of RTP in, whole frames in order out."""
from __future__ import annotations

from typing import Any, Iterable, Iterator, Union

from ._c import ffi, lib
from .errors import check
from .values import (Buffer, Frame, Handle, Keyframes, Outcome, Purpose, ReceiverCounts, Red, Report, Rtx, data, frame, number_of,
                     octets, option, purpose_of, read)

_OUTCOMES = {int(it): it for it in Outcome}


class Receiver(Handle):
    """Orders the packets of one stream and reassembles frames.

    `codec` is a name such as "VP8", `rate` the RTP clock rate in hertz (90,000 for video, 48,000 for Opus), `payload_type` 0 to 127.
    Without `ssrc` two packets of one sender choose the stream. `purpose` sets the default waits: "live" 100 ms, "live_with_nack"
    200 ms, "file" without end. Your clock has `tick_rate` ticks a second (1,000: milliseconds). The default waits follow it, and
    `max_wait` is in these ticks. `no_media` lists payload types that share the stream's numbers and carry none of its media, such as
    comfort noise.

    Raises InvalidArgument for values out of range, and OverflowError for numbers that their field cannot hold.
    """

    def __init__(self, codec: Union[str, int], payload_type: int, rate: int, *, ssrc: int | None = None,
                 purpose: Union[str, Purpose] = "live", max_wait: int | None = None, hold_back: int | None = None,
                 start: int | None = None, limit: int | None = None, max_unit: int | None = None, red: Red | None = None,
                 rtx: Rtx | None = None, no_media: Iterable[int] = (), from_keyframe: Keyframes = Keyframes.MARK,
                 dependency_descriptor: int = 0, tick_rate: int = 1000) -> None:
        settings = ffi.new("cpay_receiver_settings *")
        lib.cpay_receiver_settings_init(settings, number_of(codec), rate, payload_type, purpose_of(purpose))
        check(lib.cpay_receiver_settings_set_tick_rate(settings, tick_rate))
        option(settings, "ssrc", ssrc)
        option(settings, "max_wait", max_wait)
        for name, value in (("hold_back", hold_back), ("start", start), ("limit", limit), ("max_unit", max_unit)):
            if value is not None:
                setattr(settings, name, value)
        if red is not None:
            settings.has_red, settings.red_payload_type, settings.red_step = True, red.payload_type, red.step
        if rtx is not None:
            settings.has_rtx, settings.rtx_ssrc, settings.rtx_payload_type = True, rtx.ssrc, rtx.payload_type
        settings.from_keyframe, settings.dependency_descriptor = from_keyframe, dependency_descriptor
        self._begin(settings, octets(no_media))

    def _begin(self, settings: Any, no_media: bytes) -> None:
        Handle.__init__(self, "cpay_receiver")
        self._unit, self._bytes = ffi.new("cpay_unit *"), ffi.new("const uint8_t **")
        self._outcome, self._missing = ffi.new("cpay_outcome *"), ffi.new("uint64_t[512]")
        check(lib.cpay_receiver_new(self._at, settings, no_media, len(no_media)))

    @classmethod
    def _of(cls, settings: Any, no_media: bytes) -> Receiver:
        """A receiver from settings of the C library."""
        made = cls.__new__(cls)
        made._begin(settings, no_media)
        return made

    def receive(self, now: int, datagram: Buffer) -> Outcome:
        """Passes a datagram that arrived at `now`; what was done with it. The bytes are copied.

        Raises DatagramError if the datagram is not RTP, or has an invalid RED payload or retransmission: it was counted, and the
        receiver goes on.
        """
        with self._lock:
            check(lib.cpay_receiver_receive(self._at, now, data(datagram), len(datagram), self._outcome))
            return _OUTCOMES[self._outcome[0]]

    def pop(self, now: int) -> Frame | None:
        """The next frame that is due at `now`, or None. A frame with `fault` was refused: any peer can send one; go on."""
        with self._lock:
            status = lib.cpay_receiver_lend(self._at, now, self._unit, self._bytes)
            if status == lib.CPAY_NONE:
                return None
            check(status)
            unit = self._unit
            return frame(unit, ffi.buffer(self._bytes[0], unit.bytes)[:] if unit.bytes and not unit.fault else b"")

    def frames(self, now: int) -> Iterator[Frame]:
        """The frames that are due at `now`. Refused frames are counted and left out."""
        while (found := self.pop(now)) is not None:
            if found.fault is None:
                yield found

    def missing(self) -> list[int]:
        """Extended numbers of missing packets, lowest first, at most 512. The low 16 bits go into a NACK (RFC 4585, 6.2.1)."""
        with self._lock:
            check(lib.cpay_receiver_missing(self._at, self._missing, 512, self._size))
            return list(self._missing[0:self._size[0]])

    def wants_keyframe(self) -> bool:
        """Whether to request a keyframe by PLI (RFC 4585, section 6.3.1)."""
        wants = ffi.new("bool *")
        with self._lock:
            check(lib.cpay_receiver_wants_keyframe(self._at, wants))
        return bool(wants[0])

    def next_deadline(self) -> int | None:
        """When a frame may be due although no datagram arrives; None if only a datagram can help."""
        at = ffi.new("uint64_t *")
        with self._lock:
            status = lib.cpay_receiver_next_deadline(self._at, at)
        if status == lib.CPAY_NONE:
            return None
        check(status)
        return int(at[0])

    def set_wait_limits(self, *, max_wait: int | None, hold_back: int | None = None, start: int = 0) -> None:
        """Changes how long frames wait. None: no limit by time, or by count."""
        limits = ffi.new("cpay_wait_limits *")
        option(limits, "max_wait", max_wait)
        limits.hold_back, limits.start = lib.CPAY_NO_HOLD_BACK if hold_back is None else hold_back, start
        with self._lock:
            check(lib.cpay_receiver_set_wait_limits(self._at, limits))

    def finish(self) -> None:
        """The stream has ended: all complete frames are due."""
        with self._lock:
            check(lib.cpay_receiver_finish(self._at))

    def restart(self) -> None:
        """The sender has restarted, as signalling shows."""
        with self._lock:
            check(lib.cpay_receiver_restart(self._at))

    def report(self) -> Report:
        """What a receiver report says of the stream; begins the next interval of `fraction_lost`."""
        report = ffi.new("cpay_report_info *")
        with self._lock:
            check(lib.cpay_receiver_report(self._at, report))
        return read(Report, report)

    def counts(self) -> ReceiverCounts:
        """What happened to all datagrams so far."""
        counts = ffi.new("cpay_receiver_counts_info *")
        with self._lock:
            check(lib.cpay_receiver_counts(self._at, counts))
        return read(ReceiverCounts, counts)
