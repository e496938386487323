"""RTP payloads of media frames: a receiver with a jitter buffer, a sender, sessions, forwarding and session descriptions.

Over the C library codec_payload, whose behaviour is proved. It opens no socket, reads no clock and starts no thread: you pass in
datagrams and times. Each argument `now` is a time of your clock in ticks, milliseconds by default: `milliseconds()` is such a clock.
"""
from . import errors, sdp
from .errors import DatagramError, Error, FrameError, InvalidArgument, PayloadError, RtcpError
from .forwarder import Forwarded, Forwarder, ForwarderCounts
from .receiver import Receiver
from .sender import History, Kept, Resent, Sender
from .session import (Arrival, ArrivalKind, Ending, Event, EventKind, Format, KeyframeAnswer, Session, SessionCounts, Stage, Stream)
from .values import (Codec, Frame, Keyframes, Outcome, Purpose, ReceiverCounts, Red, Report, Rtx, SenderCounts, SenderReport,
                     milliseconds)

__version__ = "0.1.0"
__all__ = [
    "Arrival", "ArrivalKind", "Codec", "DatagramError", "Ending", "Error", "Event", "EventKind", "Format", "Forwarded", "Forwarder",
    "ForwarderCounts", "Frame", "FrameError", "History", "InvalidArgument", "Kept", "KeyframeAnswer", "Keyframes", "Outcome",
    "PayloadError", "Purpose", "Receiver", "ReceiverCounts", "Red", "Report", "Resent", "RtcpError", "Rtx", "Sender", "SenderCounts",
    "SenderReport", "Session", "SessionCounts", "Stage", "Stream", "errors", "milliseconds", "sdp",
]
