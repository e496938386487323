//! RTP payloads of media frames: packetized, sent, received, put in order and reassembled.
//!
//! Opus, G.711, G.722, AMR-WB, comfort noise, telephone events, VP8, VP9, AV1 and RED, with the names and shapes of `src/packet` of
//! `str0m`; and RTP packets, senders, receivers with a jitter buffer, and what frames say of themselves. The crate opens no socket,
//! reads no clock and starts no thread. It has no dependency, needs `alloc` alone, and holds no `unsafe` code.
//!
//! ```
//! use codec_payload::{Codec, CodecDepacketizer, CodecPacketizer, Frequency, MediaTime, Receiver, ReceiverSettings, Sample, Sender, SenderSettings, Ticks};
//!
//! # fn main() -> Result<(), Box<dyn std::error::Error>> {
//! let packetizer = CodecPacketizer::try_from(Codec::Vp8)?;
//! let depacketizer = CodecDepacketizer::try_from(Codec::Vp8)?;
//! let mut sender = Sender::new(packetizer, SenderSettings::for_stream(96, 7, Frequency::NINETY_KHZ))?;
//! let mut receiver = Receiver::new(depacketizer, ReceiverSettings::for_stream(96, Codec::Vp8, Frequency::NINETY_KHZ))?;
//! for frame in 0..10 {
//!     let bytes = [frame; 3_000];
//!     sender.send(&Sample {
//!         rtp_time: MediaTime::from_90khz(u64::from(frame) * 3_000),
//!         bytes: &bytes,
//!         start_of_talk_spurt: false,
//!         ext_vals: Default::default(),
//!     })?;
//!     // The datagrams go out over a socket of yours, and come in at the other side, in any order:
//!     for datagram in sender.datagrams() {
//!         receiver.receive_any(Ticks(u64::from(frame) * 33), datagram)?;
//!     }
//! }
//! let frames: Vec<_> = receiver.drain(Ticks(330))?.collect::<Result<_, _>>()?;
//! assert_eq!(frames.len(), 10);
//! assert_eq!(frames[9].bytes, [9; 3_000]);
//! # Ok(())
//! # }
//! ```
//!
//! # What is where
//!
//! | for | types |
//! |---|---|
//! | all streams of one port | [`Session`] with [`SessionSettings`]: each datagram in, an [`Event`] out |
//! | one stream from a socket | [`Receiver`] with [`ReceiverSettings`], which orders and reassembles |
//! | one stream to a socket | [`Sender`] with [`SenderSettings`]; [`History`] resends its packets on request |
//! | a session description | [`sdp`], from the text to the settings of sessions and receivers |
//! | the payload layer alone | [`CodecPacketizer`], [`CodecDepacketizer`] and [`DepacketizingBuffer`], as `str0m`'s `src/packet` has them |
//! | everything else | [`parts`]: RTP and RTCP packets, each format, requests, feedback, what frames say |
//!
//! Each name of `str0m`'s `src/packet` may be used from the root too, as [`parts`] says.
//!
//! # Where the code comes from
//!
//! Most files are generated. Their sources are written in Rattle, Rust with contracts, and each function is proved to meet its
//! contract there: it cannot panic, read out of bounds, overflow or loop for ever, on any input. This crate is those sources without
//! the contracts. The proof asks each caller to meet the premises of a function; here a premise is an assertion, documented
//! under "Panics".
//!
//! The proof covers the sources, and not this text. You trust in addition the program that removes the contracts, the private part
//! of the module [`memory`] (a page), the hand-written conveniences (iterators, conversions, [`Clock`], `for_stream`), the module
//! [`sdp`], rustc and `alloc`.
//!
//! # Features
//!
//! - `std` (default): [`Clock`], which turns `std::time::Instant` into [`Ticks`].
//! - `fallible`: a call that cannot allocate returns `OutOfMemory`, and changes nothing except as it documents. Without the feature
//!   out of memory aborts the process, as everywhere else in Rust.
//! - `unproved-width`: the crate builds for targets whose `usize` does not have 64 bits. No proof covers such a build: all proofs
//!   are for a `usize` of 64 bits. All tests pass on i686 and armv7, with overflow checks. Switch these on in release builds too:
//!   `overflow-checks = true` in the profile of your program. Then an overflow that the proofs exclude for 64 bits panics.
#![no_std]
#![forbid(unsafe_code)]
#![warn(missing_debug_implementations)]
// The sources are written so that a prover follows them. What clippy would write more briefly says the same.
#![allow(
    clippy::assign_op_pattern,
    clippy::collapsible_if,
    clippy::manual_map,
    clippy::manual_ok_err,
    clippy::manual_is_multiple_of,
    clippy::question_mark,
    clippy::redundant_pattern_matching,
    clippy::manual_find,
    clippy::manual_div_ceil,
    clippy::manual_flatten,
    clippy::manual_unwrap_or,
    clippy::manual_unwrap_or_default,
    clippy::new_without_default,
    clippy::manual_range_contains,
    clippy::mem_replace_with_default,
    clippy::needless_question_mark,
    clippy::needless_range_loop,
    clippy::too_many_arguments,
    clippy::ptr_arg,
    clippy::boxed_local,
    clippy::default_constructed_unit_structs,
    clippy::single_match,
    clippy::while_let_on_iterator,
    clippy::len_without_is_empty,
    clippy::len_zero
)]
// An event holds its unit. A box would be one more allocation for each unit.
#![allow(clippy::large_enum_variant)]

#[cfg(not(any(target_pointer_width = "64", feature = "unproved-width")))]
compile_error!(
    "codec-payload is proved for a usize of 64 bits: build it for a 64-bit target, or read docs/use/PLATFORMS.md and switch \
     the feature `unproved-width` on"
);

extern crate alloc;
#[cfg(feature = "std")]
extern crate std;

mod ext;
pub mod parts;
pub mod sdp;

// Modules that are documented in `parts`.
#[doc(hidden)]
pub mod amr_wb;
#[doc(hidden)]
pub mod av1;
#[doc(hidden)]
pub mod bandwidth;
#[doc(hidden)]
pub mod bits;
#[doc(hidden)]
pub mod buffer;
#[doc(hidden)]
pub mod ccfb;
#[doc(hidden)]
pub mod codec;
#[doc(hidden)]
pub mod congestion;
#[doc(hidden)]
pub mod contiguity;
#[doc(hidden)]
pub mod described;
#[doc(hidden)]
pub mod descriptor;
#[doc(hidden)]
pub mod edges;
#[doc(hidden)]
pub mod error;
#[doc(hidden)]
pub mod fec;
#[doc(hidden)]
pub mod feedback;
#[doc(hidden)]
pub mod forward;
#[doc(hidden)]
pub mod frame_notes;
#[doc(hidden)]
pub mod freezes;
#[doc(hidden)]
pub mod history;
mod index;
#[doc(hidden)]
pub mod interface;
#[doc(hidden)]
pub mod jitter;
#[doc(hidden)]
pub mod keyframes;
#[doc(hidden)]
pub mod layers;
#[doc(hidden)]
pub mod media;
#[doc(hidden)]
pub mod memory;
mod metadata;
#[doc(hidden)]
pub mod payload;
#[doc(hidden)]
pub mod payloads;
#[doc(hidden)]
pub mod picture_id;
#[doc(hidden)]
pub mod plain;
mod queue;
#[doc(hidden)]
pub mod red;
#[doc(hidden)]
pub mod red_writer;
#[doc(hidden)]
pub mod requests;
#[doc(hidden)]
pub mod rtcp;
#[doc(hidden)]
pub mod rtp;
#[doc(hidden)]
pub mod schedule;
#[doc(hidden)]
pub mod sender;
#[doc(hidden)]
pub mod session;
#[doc(hidden)]
pub mod spatial;
#[doc(hidden)]
pub mod stream;
#[doc(hidden)]
pub mod stream_edges;
mod syntax;
#[doc(hidden)]
pub mod tele;
#[doc(hidden)]
pub mod transport;
#[doc(hidden)]
pub mod vp8;
#[doc(hidden)]
pub mod vp9;
#[doc(hidden)]
pub mod waiting;
mod whole;
#[doc(hidden)]
pub mod wire;
#[doc(hidden)]
pub mod xr;

// The names of the first page, each with an example.
#[doc = include_str!("doc/Depacketized.md")]
pub use buffer::Depacketized;
#[doc = include_str!("doc/DepacketizingBuffer.md")]
pub use buffer::DepacketizingBuffer;
#[doc = include_str!("doc/PoppedUnit.md")]
pub use buffer::PoppedUnit;
#[doc = include_str!("doc/CodecDepacketizer.md")]
pub use codec::CodecDepacketizer;
#[doc = include_str!("doc/CodecPacketizer.md")]
pub use codec::CodecPacketizer;
#[doc = include_str!("doc/Depacketizer.md")]
pub use codec::Depacketizer;
#[doc = include_str!("doc/Packetizer.md")]
pub use codec::Packetizer;
#[doc = include_str!("doc/PacketError.md")]
pub use error::PacketError;
#[cfg(feature = "std")]
pub use ext::clock::Clock;
#[doc = include_str!("doc/UnsupportedCodec.md")]
pub use ext::conversions::UnsupportedCodec;
#[doc = include_str!("doc/LostFrame.md")]
pub use ext::popped::LostFrame;
#[doc = include_str!("doc/History.md")]
pub use history::History;
#[doc = include_str!("doc/HistorySettings.md")]
pub use history::HistorySettings;
#[doc = include_str!("doc/read_requests.md")]
pub use history::read_requests;
#[doc = include_str!("doc/CodecExtra.md")]
pub use interface::CodecExtra;
#[doc = include_str!("doc/AllocError.md")]
pub use memory::AllocError;
#[doc = include_str!("doc/Sample.md")]
pub use sender::Sample;
#[doc = include_str!("doc/Sender.md")]
pub use sender::Sender;
#[doc = include_str!("doc/SenderSettings.md")]
pub use sender::SenderSettings;
#[doc = include_str!("doc/Arrival.md")]
pub use session::Arrival;
#[doc = include_str!("doc/Ending.md")]
pub use session::Ending;
#[doc = include_str!("doc/Event.md")]
pub use session::Event;
#[doc = include_str!("doc/FeedbackSettings.md")]
pub use session::FeedbackSettings;
#[doc = include_str!("doc/Format.md")]
pub use session::Format;
#[doc = include_str!("doc/Session.md")]
pub use session::Session;
#[doc = include_str!("doc/SessionSettings.md")]
pub use session::SessionSettings;
#[doc = include_str!("doc/SessionSettingsError.md")]
pub use session::SessionSettingsError;
#[doc = include_str!("doc/SsrcPair.md")]
pub use session::SsrcPair;
#[doc = include_str!("doc/StreamInfo.md")]
pub use session::StreamInfo;
#[doc = include_str!("doc/Popped.md")]
pub use stream::Popped;
#[doc = include_str!("doc/ReceiveError.md")]
pub use stream::ReceiveError;
#[doc = include_str!("doc/Receiver.md")]
pub use stream::Receiver;
#[doc = include_str!("doc/ReceiverSettings.md")]
pub use stream::ReceiverSettings;
#[doc = include_str!("doc/RedSettings.md")]
pub use stream::RedSettings;
#[doc = include_str!("doc/Retransmission.md")]
pub use stream::Retransmission;
#[doc = include_str!("doc/Codec.md")]
pub use wire::Codec;
#[doc = include_str!("doc/ExtensionValues.md")]
pub use wire::ExtensionValues;
#[doc = include_str!("doc/Frequency.md")]
pub use wire::Frequency;
#[doc = include_str!("doc/MediaTime.md")]
pub use wire::MediaTime;
#[doc = include_str!("doc/Pt.md")]
pub use wire::Pt;
#[doc = include_str!("doc/SeqNo.md")]
pub use wire::SeqNo;
#[doc = include_str!("doc/Ticks.md")]
pub use wire::Ticks;

// The other names of `src/packet`, which are documented in `parts`.
#[doc(hidden)]
pub use amr_wb::*;
#[doc(hidden)]
pub use av1::*;
#[doc(hidden)]
pub use bits::{BitRead, BitReader};
#[doc(hidden)]
pub use buffer::{PoppedPackets, RtpMeta};
#[doc(hidden)]
pub use codec::*;
#[doc(hidden)]
pub use ext::conversions::ZeroFrequency;
#[doc(hidden)]
pub use ext::iterators::{PayloadsIter, PopUnits, StreamUnits, Units};
#[doc(hidden)]
pub use ext::names::UnknownCodec;
#[doc(hidden)]
pub use ext::values::*;
#[doc(hidden)]
pub use interface::*;
#[doc(hidden)]
pub use payload::{MemorySink, OutgoingPacket, PacketSink, Payloader, RedSink};
#[doc(hidden)]
pub use payloads::{PayloadWriter, Payloads};
#[doc(hidden)]
pub use plain::*;
#[doc(hidden)]
pub use red::*;
#[doc(hidden)]
pub use tele::*;
#[doc(hidden)]
pub use vp8::*;
#[doc(hidden)]
pub use vp9::*;
#[doc(hidden)]
pub use wire::{
    AbsCaptureTime, CodecSpec, MediaKind, MediaType, RtpHeader, SenderInfo, ToPayload,
    VideoLayersAllocation, VideoTiming,
};
