"""A session: all streams of one port, with requests for what is missing and receiver reports."""
from __future__ import annotations

from dataclasses import dataclass
from enum import IntEnum
from typing import Any, Iterable, Iterator, Mapping, Sequence, Union

from ._c import ffi, lib
from .errors import Error, InvalidArgument, check, error_of
from .values import (Buffer, Frame, Handle, Keyframes, Outcome, Purpose, ReceiverCounts, Red, data, frame, number_of, octets,
                     purpose_of, read)


@dataclass(frozen=True)
class Format:
    """A payload type of a session, with what its sender agreed to. `rtx_payload_type`: of retransmissions (RFC 4588)."""

    codec: Union[str, int]
    payload_type: int
    rate: int
    red: Red | None = None
    rtx_payload_type: int | None = None
    nack: bool = False
    pli: bool = False


class ArrivalKind(IntEnum):
    """What a datagram was to a session (CPAY_ARRIVAL_STREAM and so on in the C header)."""

    STREAM = 0
    RTCP = 1
    MALFORMED = 2
    UNKNOWN = 3
    REFUSED = 4
    UNASSOCIATED = 5


@dataclass(frozen=True)
class Arrival:
    """What a session did with a datagram. With a stream: its SSRC, its payload type, and the outcome or the fault."""

    kind: ArrivalKind
    ssrc: int = 0
    payload_type: int = 0
    outcome: Outcome | None = None
    fault: Error | None = None


class EventKind(IntEnum):
    """What an event of a session is (CPAY_EVENT_BEGUN and so on in the C header)."""

    BEGUN = 0
    UNIT = 1
    FAULT = 2
    ENDED = 3
    FEEDBACK = 4
    REPORT = 5
    TELEPHONE = 6
    TRANSPORT_FEEDBACK = 7


class Ending(IntEnum):
    """Why a stream ended."""

    BY_BYE = 0
    BY_TIMEOUT = 1
    BY_CALL = 2
    BY_CHANGE = 3


class Stage(IntEnum):
    """In which part of its life a stream is."""

    PROBATION = 0
    PLAYING = 1
    LEAVING = 2
    DRAINING = 3


class KeyframeAnswer(IntEnum):
    """What came of a request for a keyframe."""

    REQUESTED = 0
    NO_STREAM = 1
    NOT_NEGOTIATED = 2


@dataclass(frozen=True)
class Event:
    """An event of a session. `frame`: of UNIT and TELEPHONE. `rtcp`: bytes to send. `why`: of ENDED. `fault`: of FAULT."""

    kind: EventKind
    ssrc: int
    payload_type: int
    frame: Frame | None = None
    rtcp: bytes = b""
    why: Ending | None = None
    fault: Error | None = None


@dataclass(frozen=True)
class SessionCounts:
    """What happened to all datagrams of a session. Those that streams took are in the counts of each stream."""

    received: int
    rtcp: int
    malformed: int
    unknown: int
    refused: int
    unassociated: int
    ended: int
    telephone_dropped: int
    streams: int


@dataclass(frozen=True)
class Stream:
    """A stream of a session. `round_trip` is in ticks of your clock. `probes` are retransmissions of packets that came before: `counts`
    leaves them out."""

    ssrc: int
    payload_type: int
    stage: Stage
    taken: int
    bytes: int
    round_trip: int | None
    numbers_requested: int
    keyframes_requested: int
    counts: ReceiverCounts
    probes: int


_KINDS = {int(it): it for it in EventKind}
_RTCP = (EventKind.FEEDBACK, EventKind.REPORT, EventKind.TRANSPORT_FEEDBACK)
_OUTCOMES = {int(it): it for it in Outcome}


class Session(Handle):
    """Receives all streams of one port, sorted by SSRC and payload type.

    With `ssrc` and `cname`, which name the session as a sender of RTCP, it requests missing packets and keyframes and sends receiver
    reports: send the bytes of `rtcp` of its events. `telephone` lists payload types of telephone events beside audio, `no_media` others
    that carry no media. `pairs` maps the SSRC of a stream to the SSRC of its retransmissions. `tick_rate` is ticks a second of your
    clock: all default times follow it, and `idle_timeout` is in these ticks. `limit` is packets of a stream, `max_unit` bytes of a
    frame.

    Raises InvalidArgument, whose text says which setting is wrong, and OverflowError for numbers that their field cannot hold.
    """

    def __init__(self, formats: Iterable[Format], *, purpose: Union[str, Purpose] = "live", ssrc: int | None = None,
                 cname: bytes = b"", no_media: Iterable[int] = (), telephone: Iterable[int] = (),
                 pairs: Mapping[int, int] | None = None, tick_rate: int | None = None, idle_timeout: int | None = None,
                 limit: int | None = None, max_unit: int | None = None, max_streams: int | None = None,
                 probation: int | None = None, from_keyframe: Keyframes | None = None) -> None:
        settings = ffi.new("cpay_session_settings *")
        lib.cpay_session_settings_init(settings, purpose_of(purpose))
        if tick_rate is not None:
            check(lib.cpay_session_settings_set_tick_rate(settings, tick_rate))
        given = {"idle_timeout": idle_timeout, "limit": limit, "max_unit": max_unit, "max_streams": max_streams,
                 "probation": probation, "from_keyframe": from_keyframe}
        for name, value in given.items():
            if value is not None:
                setattr(settings, name, value)
        lists = _formats(formats), octets([*no_media, *(it + lib.CPAY_TELEPHONE for it in telephone)]), _pairs(pairs or {})
        self._begin(settings, *lists, ssrc, cname)

    def _begin(self, settings: Any, formats: Any, no_media: bytes, pairs: Any, ssrc: int | None, cname: bytes) -> None:
        Handle.__init__(self, "cpay_session")
        self._event, self._arrival = ffi.new("cpay_event *"), ffi.new("cpay_arrival *")
        if ssrc is not None:
            check(lib.cpay_session_settings_feedback(settings, ssrc, cname, len(cname)))
        kinds = no_media, len(no_media)
        status = lib.cpay_session_new(self._at, settings, formats, len(formats), *kinds, pairs, len(pairs))
        if status == lib.CPAY_INVALID:
            fault = ffi.new("cpay_settings_fault *")
            if lib.cpay_session_settings_check(settings, formats, len(formats), *kinds, fault) == lib.CPAY_INVALID:
                raise InvalidArgument(ffi.string(lib.cpay_settings_fault_text(fault.kind)).decode())
        check(status)

    def receive(self, now: int, datagram: Buffer) -> Arrival:
        """Passes a datagram that arrived at `now`, RTP or RTCP; what it was. No datagram raises an exception."""
        with self._lock:
            arrival = self._arrival
            check(lib.cpay_session_receive(self._at, now, data(datagram), len(datagram), arrival))
            kind = ArrivalKind(arrival.kind)
            if kind is not ArrivalKind.STREAM:
                return Arrival(kind)
            if arrival.status:
                return Arrival(kind, arrival.ssrc, arrival.payload_type, fault=error_of(arrival.status))
            return Arrival(kind, arrival.ssrc, arrival.payload_type, _OUTCOMES[arrival.outcome])

    def poll(self, now: int) -> Event | None:
        """The next event at `now`, or None."""
        with self._lock:
            event = self._event
            status = lib.cpay_session_poll(self._at, now, event)
            if status == lib.CPAY_NONE:
                return None
            check(status)
            kind = _KINDS[event.kind]
            found = ffi.buffer(event.data, event.bytes)[:] if event.bytes else b""
            if kind in (EventKind.UNIT, EventKind.TELEPHONE):
                return Event(kind, event.ssrc, event.payload_type, frame(event.unit, found))
            if kind in _RTCP:
                return Event(kind, event.ssrc, event.payload_type, rtcp=found)
            why = Ending(event.why) if kind is EventKind.ENDED else None
            return Event(kind, event.ssrc, event.payload_type, why=why, fault=error_of(event.status) if event.status else None)

    def events(self, now: int) -> Iterator[Event]:
        """All events at `now`: call it after each datagram and at each deadline."""
        while (found := self.poll(now)) is not None:
            yield found

    def next_deadline(self) -> int | None:
        """When an event may come although no datagram arrives; None if only a datagram can cause one."""
        at = ffi.new("uint64_t *")
        with self._lock:
            status = lib.cpay_session_next_deadline(self._at, at)
        if status == lib.CPAY_NONE:
            return None
        check(status)
        return int(at[0])

    def finish(self, now: int) -> None:
        """All streams end: the next events are their remaining frames."""
        with self._lock:
            check(lib.cpay_session_finish(self._at, now))

    def end(self, now: int, ssrc: int) -> None:
        """Ends the streams of an SSRC, as signalling says. Raises Error if there is none."""
        with self._lock:
            check(lib.cpay_session_end(self._at, now, ssrc))

    def request_keyframe(self, ssrc: int) -> KeyframeAnswer:
        """Requests a keyframe of a stream, as soon as its limit allows."""
        answer = ffi.new("cpay_keyframe_answer *")
        with self._lock:
            check(lib.cpay_session_request_keyframe(self._at, ssrc, answer))
        return KeyframeAnswer(answer[0])

    def add_pair(self, ssrc: int, rtx_ssrc: int) -> None:
        """Says which SSRC the retransmissions of a stream have."""
        with self._lock:
            check(lib.cpay_session_add_pair(self._at, ssrc, rtx_ssrc))

    def missing(self, ssrc: int, payload_type: int) -> list[int]:
        """Extended numbers of missing packets of a stream, lowest first, at most 512; none if there is no such stream."""
        numbers = ffi.new("uint64_t[512]")
        with self._lock:
            status = lib.cpay_session_missing(self._at, ssrc, payload_type, numbers, 512, self._size)
            if status == lib.CPAY_NONE:
                return []
            check(status)
            return list(numbers[0:self._size[0]])

    def counts(self) -> SessionCounts:
        """What happened to all datagrams so far."""
        counts = ffi.new("cpay_session_counts_info *")
        with self._lock:
            check(lib.cpay_session_counts(self._at, counts))
        return read(SessionCounts, counts)

    def streams(self) -> list[Stream]:
        """All streams now, in the order in which they began."""
        found, info = [], ffi.new("cpay_session_stream *")
        with self._lock:
            while (status := lib.cpay_session_stream_at(self._at, len(found), info)) == lib.CPAY_OK:
                found.append(Stream(info.ssrc, info.payload_type, Stage(info.stage), info.taken, info.bytes,
                                    info.round_trip if info.has_round_trip else None, info.numbers_requested,
                                    info.keyframes_requested, read(ReceiverCounts, info.counts), info.probes))
        if status != lib.CPAY_NONE:
            check(status)
        return found


def _formats(formats: Iterable[Format]) -> Any:
    given: Sequence[Format] = list(formats)
    made = ffi.new("cpay_session_format[]", len(given))
    for it, one in zip(given, made):
        one.spec.codec, one.spec.rate, one.payload_type = number_of(it.codec), it.rate, it.payload_type
        one.nack, one.pli = it.nack, it.pli
        if it.red is not None:
            one.has_red, one.red_payload_type, one.red_step = True, it.red.payload_type, it.red.step
        if it.rtx_payload_type is not None:
            one.has_rtx, one.rtx_payload_type = True, it.rtx_payload_type
    return made


def _pairs(pairs: Mapping[int, int]) -> Any:
    made = ffi.new("cpay_ssrc_pair[]", len(pairs))
    for (ssrc, rtx_ssrc), one in zip(pairs.items(), made):
        one.ssrc, one.rtx_ssrc = ssrc, rtx_ssrc
    return made
