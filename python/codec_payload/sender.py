"""A sender: frames in, RTP packets out; and a history that resends them."""
from __future__ import annotations

from enum import IntEnum
from typing import Union

from ._c import ffi, lib
from .errors import check
from .values import Buffer, Handle, Rtx, SenderCounts, SenderReport, data, number_of, read


class Sender(Handle):
    """Splits frames into RTP packets of one stream.

    `codec` is a name such as "VP8", `rate` the RTP clock rate in hertz, `mtu` the maximum size of a payload: the RTP header adds 12
    bytes. Choose `ssrc` and `first_number` at random (RFC 3550). `picture_ids` sends VP8 with picture ids from `first_id` on.

    Raises InvalidArgument for values out of range, and OverflowError for numbers that their field cannot hold.
    """

    def __init__(self, codec: Union[str, int], payload_type: int, rate: int, *, ssrc: int, mtu: int = 1200, first_number: int = 0,
                 picture_ids: bool = False, first_id: int = 0, vp9_flexible: bool = False, octet_align: bool = False) -> None:
        super().__init__("cpay_sender")
        settings = ffi.new("cpay_sender_settings *")
        spec = settings.spec
        spec.codec, spec.rate, spec.first_id = number_of(codec), rate, first_id
        spec.vp8_ids, spec.vp9_flexible, spec.octet_align = picture_ids, vp9_flexible, octet_align
        settings.mtu, settings.ssrc, settings.first_number, settings.payload_type = mtu, ssrc, first_number, payload_type
        check(lib.cpay_sender_new(self._at, settings))

    def send(self, rtp_time: int, frame: Buffer, *, starts_talk_spurt: bool = False) -> list[bytes]:
        """The datagrams of a frame, in order. `rtp_time` is in ticks of the RTP clock; its low 32 bits are sent.

        Raises PayloadError if the frame cannot be sent in the format: nothing is sent.
        """
        with self._lock:
            count = ffi.new("size_t *")
            check(lib.cpay_sender_send(self._at, rtp_time, starts_talk_spurt, data(frame), len(frame), count))
            return [self._datagram(place) for place in range(count[0])]

    def _datagram(self, place: int) -> bytes:
        status = lib.cpay_sender_datagram(self._at, place, self._room, len(self._room), self._size)
        if status == lib.CPAY_TOO_SMALL:
            self._grow()
            status = lib.cpay_sender_datagram(self._at, place, self._room, len(self._room), self._size)
        check(status)
        return self._written()

    def counts(self) -> SenderCounts:
        """What was sent."""
        counts = ffi.new("cpay_sender_counts_info *")
        with self._lock:
            check(lib.cpay_sender_counts(self._at, counts))
        return read(SenderCounts, counts)

    def report(self, rtp_time: int) -> SenderReport:
        """The values of a sender report for a moment on the time line of the frames, whose NTP time you add to the report."""
        report = ffi.new("cpay_sender_report_info *")
        with self._lock:
            check(lib.cpay_sender_report(self._at, rtp_time, report))
        return read(SenderReport, report)


class Kept(IntEnum):
    """Whether a history keeps a packet."""

    STORED = 0
    TOO_OLD = 1


class Resent(IntEnum):
    """What a history or a forwarder did with a request for a packet."""

    WRITTEN = 0
    NOT_KEPT = 1
    TOO_SOON = 2


class History(Handle):
    """The last packets of a stream, for those who request them.

    `limit` is how many numbers it covers, 1 to 32,768. A packet is resent again only after `interval` ticks of your clock. With `rtx`
    it is resent in a stream of its own (RFC 4588), otherwise as it was.
    """

    def __init__(self, limit: int, *, interval: int = 0, rtx: Rtx | None = None) -> None:
        super().__init__("cpay_history")
        settings = ffi.new("cpay_history_settings *")
        settings.limit, settings.interval = limit, interval
        if rtx is not None:
            settings.has_rtx, settings.rtx_ssrc = True, rtx.ssrc
            settings.rtx_payload_type, settings.rtx_first_number = rtx.payload_type, rtx.first_number
        check(lib.cpay_history_new(self._at, settings))

    def keep(self, datagram: Buffer) -> Kept:
        """Keeps a packet that is sent. Raises DatagramError if it is not RTP."""
        kept = ffi.new("cpay_kept *")
        with self._lock:
            check(lib.cpay_history_keep(self._at, data(datagram), len(datagram), kept))
        return Kept(kept[0])

    def resend(self, now: int, number: int) -> tuple[Resent, bytes]:
        """The packet with this number, 0 to 65,535, to send again; without bytes unless the answer is WRITTEN."""
        resent = ffi.new("cpay_resent *")
        with self._lock:
            words = self._at, now, number
            status = lib.cpay_history_resend(*words, self._room, len(self._room), self._size, resent)
            if status == lib.CPAY_TOO_SMALL:
                self._grow()
                status = lib.cpay_history_resend(*words, self._room, len(self._room), self._size, resent)
            check(status)
            return Resent(resent[0]), self._written()
