//! All parts of the library, one module each. The root has the types that most programs need.
//!
//! Code may name a module without `parts` too, and each name of `str0m`'s `src/packet` from the root:
//! `codec_payload::Vp8Depacketizer` is [`vp8::Vp8Depacketizer`].
//!
//! | where | what |
//! |---|---|
//! | [`sender`], [`stream`] | one stream between frames and a socket: `Sender` and `Receiver` |
//! | [`session`] | all streams of one port: units, and when streams begin and end |
//! | [`jitter`] | the jitter buffer of a receiver, for callers who read RTP headers themselves |
//! | [`rtp`], [`rtcp`] | RTP packets, header extensions and their values; RTCP packets |
//! | [`history`] | retransmission: sent packets that are resent on request, and the requests in RTCP feedback |
//! | [`forward`] | forwarding to viewers: numbers and times that go on from one source to the next |
//! | [`red_writer`] | puts the datagrams of a sender in RED |
//! | [`keyframes`] | which units of video a decoder can show, and when to request a keyframe |
//! | [`requests`] | when to request missing packets by NACK, and keyframes |
//! | [`feedback`] | the requests of one stream as RTCP packets: NACK and PLI |
//! | [`congestion`] | when packets arrived, as congestion control needs it: transport-wide feedback, and REMB |
//! | [`transport`] | the sending side of that: the numbers and times of sent packets, and what feedback reports about them |
//! | [`ccfb`] | congestion control feedback of RFC 8888 |
//! | [`xr`] | extended reports of RFC 3611 that measure the round trip from a receiver |
//! | [`fec`] | forward error correction by ULPFEC (RFC 5109): a port in front of a session, a receiver that rebuilds lost packets, and packets of FEC |
//! | [`descriptor`] | the dependency descriptor: which frames a frame of video refers to |
//! | [`waiting`] | a limit of waiting that follows how late missing packets arrive |
//! | [`freezes`] | how often and how long a picture stood still, by the rule of the W3C |
//! | [`bandwidth`] | when packets leave for a viewer, how much may be retransmitted, which layers it gets, and the rate of its path |
//! | [`layers`] | whether a keyframe begins in a payload, and its temporal layer |
//! | [`spatial`] | which packets a viewer gets that does not want the upper spatial layers |
//! | [`edges`] | where pictures of video begin and end, and the numbers between them, which carry no media |
//! | [`stream_edges`] | the same for a receiver: lost padding is neither requested nor waited for |
//! | [`media`] | what frames say: keyframe, size, duration; OBUs, superframes, `av1C`, the Opus header |
//! | [`codec`], [`interface`], [`buffer`], [`error`] | the payload layer: packetizers, depacketizers, what they say of a packet, the buffer, and their faults |
//! | [`red`], [`vp8`], [`vp9`], [`av1`], [`amr_wb`], [`tele`], [`plain`] | one format each |
//! | [`payload`], [`payloads`] | samples become packets, in fresh memory or in memory that is used again |
//! | [`wire`] | numbers, times, headers and codecs, as RTP has them |
//! | [`values`] | iterators, and faults of conversions |
//! | [`memory`] | out of memory as a value |

/// One stream to a socket: what [`Sender`](crate::Sender) reports and refuses.
pub mod sender {
    #[doc(inline)]
    pub use crate::sender::{Counts, Report, SenderError};

    #[doc(hidden)]
    pub use crate::sender::*;
}

/// One stream from a socket: what [`Receiver`](crate::Receiver) reports and refuses.
pub mod stream {
    #[doc(inline)]
    pub use crate::stream::{
        Counters, ParsedDatagram, ReceptionReport, ReceptionStatistics, SettingsError, Windows,
        ticks_at,
    };

    #[doc(hidden)]
    pub use crate::stream::*;
}

/// All streams of one port: what [`Session`](crate::Session) reports beside its events.
pub mod session {
    #[doc(inline)]
    pub use crate::session::{KeyframeAnswer, SenderClock, SessionCounts, Stage, Waiting};

    #[doc(hidden)]
    pub use crate::session::*;
}

/// The jitter buffer of a receiver, for callers who read RTP headers themselves.
pub mod jitter {
    #[doc(inline)]
    pub use crate::jitter::{
        Extended, JitterBuffer, MissingNumbers, Outcome, PacketCounters, SequenceNumbers,
        WaitLimits, WindowError,
    };

    #[doc(hidden)]
    pub use crate::jitter::*;
}

/// RTP packets (RFC 3550, section 5.1) and the elements of their header extensions (RFC 8285), read and written.
pub mod rtp {
    #[doc(inline)]
    pub use crate::rtp::{
        Element, Elements, ExtensionIds, PacketHeader, RtpError, RtpPacket, RtpTimes,
        extension_value, is_rtcp, write_elements,
    };

    #[doc(hidden)]
    pub use crate::rtp::*;
}

/// RTCP packets (RFC 3550, section 6; RFC 4585, section 6; RFC 5104, section 4.3.1), read and written.
pub mod rtcp {
    #[doc(inline)]
    pub use crate::rtcp::{
        CNAME, CompoundRule, FullIntraEntry, FullIntraRequest, Goodbye, Nack, OtherPacket, Packets,
        PictureLoss, ReceiverReport, ReportBlock, RtcpError, RtcpPacket, SdesChunk, SdesItem,
        SenderReport, SourceDescription, pack_numbers, read_compound, write_cname, write_padded,
    };

    #[doc(hidden)]
    pub use crate::rtcp::*;
}

/// Retransmission: sent packets that are resent on request (RFC 4588), and the requests in RTCP feedback.
pub mod history {
    #[doc(inline)]
    pub use crate::history::{
        HistoryError, KeepError, Kept, Request, Requests, Resent, RetransmissionStream,
    };

    #[doc(hidden)]
    pub use crate::history::*;
}

/// Forwarding to viewers: numbers and times that go on from one source to the next.
pub mod forward {
    #[doc(inline)]
    pub use crate::forward::{ForwardError, ForwardSettings, Forwarded, Forwarder};

    #[doc(hidden)]
    pub use crate::forward::*;
}

/// Puts the datagrams of a sender in RED (RFC 2198).
pub mod red_writer {
    #[doc(inline)]
    pub use crate::red_writer::{RedWriteError, RedWriter, RedWriterError};
}

/// Which units of video a decoder can show, and when to request a keyframe.
pub mod keyframes {
    #[doc(inline)]
    pub use crate::keyframes::{FromKeyframe, KeyframeGate, is_keyframe};

    #[doc(hidden)]
    pub use crate::keyframes::*;
}

/// When to request missing packets by NACK, and keyframes.
pub mod requests {
    #[doc(inline)]
    pub use crate::requests::{KeyframeRequests, NackSchedule, NackSettings};

    #[doc(hidden)]
    pub use crate::requests::*;
}

/// What one receiver requests, as RTCP packets: NACK and PLI; and reports of the arrivals on a transport.
pub mod feedback {
    #[doc(inline)]
    pub use crate::feedback::{
        FeedbackSource, StreamRequests, TransportReporter, TransportSettings,
    };

    #[doc(hidden)]
    pub use crate::feedback::*;
}

/// When packets arrived, as congestion control needs it: transport-wide feedback
/// (draft-holmer-rmcat-transport-wide-cc-extensions-01), and REMB (draft-alvestrand-rmcat-remb-03).
pub mod congestion {
    #[doc(inline)]
    pub use crate::congestion::{
        ArrivalLog, ArrivalLogError, Remb, RembFault, TransportError, TransportFault,
        TransportFeedback, append_report, quarters, read_remb, read_transport_feedback,
        take_report, write_remb_packet, write_transport_packet,
    };

    #[doc(hidden)]
    pub use crate::congestion::*;
}

/// The sending side of congestion control: the numbers and times of sent packets, and what feedback reports about them.
pub mod transport {
    #[doc(inline)]
    pub use crate::transport::{
        Message, MessageKind, Messages, NumberingError, PacketResult, SentPackets,
        SentPacketsError, read_messages, write_numbered,
    };

    #[doc(hidden)]
    pub use crate::transport::*;
}

/// Congestion control feedback of RFC 8888, read and written.
pub mod ccfb {
    #[doc(inline)]
    pub use crate::ccfb::{
        CcfbError, CcfbFault, CongestionFeedback, OVER_RANGE, PacketMetric, StreamReport,
        UNAVAILABLE, stream_report,
    };

    #[doc(hidden)]
    pub use crate::ccfb::*;
}

/// Extended reports (RFC 3611) that measure the round trip from a receiver: its reference time (section 4.4), and the answer of the
/// sender, DLRR (section 4.5).
///
/// The receiver sends [`write_reference_time`](xr::write_reference_time) with the NTP time of its clock. The sender reads
/// [`reference_time`](xr::ExtendedReport::reference_time), and answers with [`write_dlrr`](xr::write_dlrr): the middle 32 bits of that
/// time, and how long ago it came. From that [`round_trip`](xr::round_trip) has the time that both packets took.
pub mod xr {
    #[doc(inline)]
    pub use crate::xr::{
        Dlrr, ExtendedReport, XrFault, round_trip, write_dlrr, write_reference_time,
    };

    #[doc(hidden)]
    pub use crate::xr::*;
}

/// Forward error correction by ULPFEC (RFC 5109): a port in front of a session; packets of FEC, read and written, and the packets that
/// they rebuild.
pub mod fec {
    #[doc(inline)]
    pub use crate::fec::{
        FecCounts, FecFault, FecPacket, FecPort, FecPortSettings, FecPortSettingsError,
        FecReceiver, FecSendError, FecSender, FecSenderError, FecSenderSettings, FecSettings,
        FecWriter, LateIds, PacketStore, Passed, RetransmissionType,
    };

    #[doc(hidden)]
    pub use crate::fec::*;
}

/// The dependency descriptor of a frame of video: its layer, and which frames it refers to (AV1 RTP specification, appendix A).
pub mod descriptor {
    #[doc(inline)]
    pub use crate::descriptor::{
        DependencyDescriptor, DescriptorError, DescriptorFault, DescriptorReader, Layer, Numbers,
        TemplateStructure,
    };

    #[doc(hidden)]
    pub use crate::descriptor::*;
}

/// A limit of waiting that follows how late missing packets arrive.
pub mod waiting {
    #[doc(inline)]
    pub use crate::waiting::{AdaptiveWait, AdaptiveWaitSettings};

    #[doc(hidden)]
    pub use crate::waiting::*;
}

/// How often and how long a picture stood still, by the rule of the W3C.
pub mod freezes {
    #[doc(inline)]
    pub use crate::freezes::{FreezeCounts, Freezes};

    #[doc(hidden)]
    pub use crate::freezes::*;
}

/// What a payload says to a server that passes it on.
pub mod layers {
    #[doc(inline)]
    pub use crate::layers::{TemporalLayer, begins_keyframe, temporal_layer};

    #[doc(hidden)]
    pub use crate::layers::*;
}

/// Spatial layers of one stream: which packets a viewer gets that does not want the upper ones.
pub mod spatial {
    #[doc(inline)]
    pub use crate::spatial::{SpatialFilter, SpatialPlace, vp9_place};

    #[doc(hidden)]
    pub use crate::spatial::*;
}

/// When packets leave for a viewer, by a rate, how much may be retransmitted, which layers it gets, and the rate of its path.
pub mod bandwidth {
    #[doc(inline)]
    pub use crate::bandwidth::{
        Arrivals, BandwidthEstimator, Delays, LayerChoice, LayerChooser, LayerSettings, Leaving,
        Losses, OfferSettings, PacedKind, PacedPacket, Pacer, PacerError, PacerSettings,
        PacketFate, PacketOutcome, PathOrder, PathRate, PathSettings, PathStatistics, RateOffer,
        ResendLimit, ResendRefused, ResendSettings, Steady, Trial, ViewerPath, choose, trial_rate,
    };

    #[doc(hidden)]
    pub use crate::bandwidth::*;
}

/// Where pictures of video begin and end, and the numbers between them, which carry no media.
pub mod edges {
    #[doc(inline)]
    pub use crate::edges::{Between, Edge, Gaps, IdWidth, PictureEdges};

    #[doc(hidden)]
    pub use crate::edges::*;
}

/// The same for the stream of a [`Receiver`](crate::Receiver), one call after each datagram.
pub mod stream_edges {
    #[doc(inline)]
    pub use crate::stream_edges::{EdgeRules, StreamEdges};

    #[doc(hidden)]
    pub use crate::stream_edges::*;
}

/// Packetizers and depacketizers of your own, beside those of the library.
pub mod codec {
    #[doc(inline)]
    pub use crate::codec::{BoxedDepacketizer, BoxedPacketizer, NoBox};

    #[doc(hidden)]
    pub use crate::codec::*;
}

/// What a popped unit says of itself and of its packets.
pub mod buffer {
    #[doc(inline)]
    pub use crate::buffer::{PoppedPackets, RtpMeta};

    #[doc(hidden)]
    pub use crate::buffer::*;
}

/// RED (RFC 2198): payloads that carry older media beside the media of the packet itself.
pub mod red {
    #[doc(inline)]
    pub use crate::red::{
        MAX_RED_RECOVERY_DEPTH, Recovered, RedBlock, RedDecoder, RedEncoder, RedReceiver,
        RedSender, RedundantBlock,
    };

    #[doc(hidden)]
    pub use crate::red::*;
}

/// VP8 (RFC 7741): payloads of frames, frames of payloads, and the descriptor before each payload.
pub mod vp8 {
    #[doc(inline)]
    pub use crate::vp8::{
        Vp8CodecExtra, Vp8Depacketizer, Vp8Descriptor, Vp8DescriptorError, Vp8Packetizer, Vp8Patch,
        Vp8PatchBuilder, Vp8PatchError, detect_vp8_keyframe,
    };

    #[doc(hidden)]
    pub use crate::vp8::*;
}

/// VP9 (RFC 9628): payloads of frames, and frames of payloads.
pub mod vp9 {
    #[doc(inline)]
    pub use crate::vp9::{
        Vp9CodecExtra, Vp9Depacketizer, Vp9Packetizer, Vp9PacketizerMode, detect_vp9_keyframe,
    };

    #[doc(hidden)]
    pub use crate::vp9::*;
}

/// AV1 (RTP Payload Format for AV1, version 1.0): payloads of frames, and frames of payloads.
pub mod av1 {
    #[doc(inline)]
    pub use crate::av1::{Av1CodecExtra, Av1Depacketizer, Av1Packetizer, detect_av1_keyframe};

    #[doc(hidden)]
    pub use crate::av1::*;
}

/// AMR-WB (RFC 4867), one channel, in both layouts, without CRC, interleaving and robust sorting.
pub mod amr_wb {
    #[doc(inline)]
    pub use crate::amr_wb::{AmrWbDepacketizer, AmrWbPacketizer};
}

/// Telephone events (RFC 4733).
pub mod tele {
    #[doc(inline)]
    pub use crate::tele::{
        TelephoneEvent, TelephoneEventDepacketizer, TelephoneEventPacketizer, TelephoneEvents,
    };

    #[doc(hidden)]
    pub use crate::tele::*;
}

/// Codecs whose payload is the frame itself: Opus, G.711, G.722, comfort noise (RFC 3389), and codecs without a format.
pub mod plain {
    #[doc(inline)]
    pub use crate::plain::{
        ComfortNoiseDepacketizer, ComfortNoisePacketizer, G7xxPacketizer, G711Depacketizer,
        G711Packetizer, G722Packetizer, NullDepacketizer, NullPacketizer, OpusDepacketizer,
        OpusPacketizer,
    };

    #[doc(hidden)]
    pub use crate::plain::*;
}

/// Samples cut into packets and passed to a sink, in fresh memory.
pub mod payload {
    #[doc(inline)]
    pub use crate::payload::{MemorySink, OutgoingPacket, PacketSink, Payloader, RedSink};

    #[doc(hidden)]
    pub use crate::payload::*;
}

/// Payloads one after another, in memory that is used again.
pub mod payloads {
    #[doc(inline)]
    pub use crate::payloads::{PayloadWriter, Payloads};
}

/// Numbers, times, headers and codecs, as RTP has them (RFC 3550, section 5.1).
pub mod wire {
    #[doc(inline)]
    pub use crate::wire::{
        AbsCaptureTime, CodecSpec, MediaKind, RtpHeader, SenderInfo, VideoLayersAllocation,
        VideoTiming,
    };

    #[doc(hidden)]
    pub use crate::wire::*;
}

/// What frames say of themselves: keyframe, picture size and duration, and what a file writer needs.
pub mod media {
    #[doc(inline)]
    pub use crate::media::{FrameInfo, MediaError, PictureSize, frame_info};

    #[doc(hidden)]
    pub use crate::media::*;

    /// AMR-WB: the frames of a unit, and its duration.
    pub mod amr_wb {
        #[doc(inline)]
        pub use crate::media::amr_wb::{AmrWbFrame, AmrWbFrames, amr_wb_ticks};

        #[doc(hidden)]
        pub use crate::media::amr_wb::*;
    }

    /// AV1: OBUs, what the sequence header says, and the configuration `av1C` of a file.
    pub mod av1 {
        #[doc(inline)]
        pub use crate::media::av1::{
            Av1Color, Av1Obu, Av1Obus, Av1SequenceHeader, Av1TemporalUnit, write_av1c,
        };

        #[doc(hidden)]
        pub use crate::media::av1::*;
    }

    /// Opus: what a packet says (RFC 6716, section 3), and the header of a file (RFC 7845, section 5.1).
    pub mod opus {
        #[doc(inline)]
        pub use crate::media::opus::{OpusHead, OpusPacket};

        #[doc(hidden)]
        pub use crate::media::opus::*;
    }

    /// VP8: what the header of a frame says (RFC 6386, section 9.1).
    pub mod vp8 {
        #[doc(inline)]
        pub use crate::media::vp8::Vp8FrameHeader;

        #[doc(hidden)]
        pub use crate::media::vp8::*;
    }

    /// VP9: what the header of a frame says, and the frames of a superframe.
    pub mod vp9 {
        #[doc(inline)]
        pub use crate::media::vp9::{Vp9FrameHeader, Vp9Frames};

        #[doc(hidden)]
        pub use crate::media::vp9::*;
    }
}

/// Out of memory as a value.
#[doc(hidden)]
pub mod memory {
    #[doc(hidden)]
    pub use crate::memory::*;
}

#[doc(hidden)]
pub mod error {
    #[doc(hidden)]
    pub use crate::error::*;
}

#[doc(hidden)]
pub mod interface {
    #[doc(hidden)]
    pub use crate::interface::*;
}

/// Iterators over what a receiver or a buffer returns, and the faults of conversions.
pub mod values {
    #[doc(hidden)]
    pub use crate::ext::conversions::UnsupportedCodec;
    #[doc(inline)]
    pub use crate::ext::conversions::ZeroFrequency;
    #[doc(inline)]
    pub use crate::ext::iterators::Units;
    #[doc(hidden)]
    pub use crate::ext::iterators::{PayloadsIter, PopUnits, StreamUnits};
    #[doc(inline)]
    pub use crate::ext::names::UnknownCodec;
    #[doc(hidden)]
    pub use crate::ext::popped::LostFrame;
    #[doc(hidden)]
    pub use crate::ext::values::*;
}
