//! Asserts, at compile time, that values may move to other threads and be shared by them.

use crate::{BitReader, CodecDepacketizer, CodecPacketizer, DepacketizingBuffer, Payloads};

#[allow(dead_code)] // rustc 1.85 does not see the calls in a constant without a name
const fn may_move_and_be_shared<T: Send + Sync>() {}

const _: () = {
    may_move_and_be_shared::<BitReader<'_>>();
    may_move_and_be_shared::<CodecDepacketizer>();
    may_move_and_be_shared::<CodecPacketizer>();
    may_move_and_be_shared::<DepacketizingBuffer>();
    may_move_and_be_shared::<Payloads>();
    may_move_and_be_shared::<crate::BoxedDepacketizer>();
    may_move_and_be_shared::<crate::BoxedPacketizer>();
    may_move_and_be_shared::<crate::buffer::Depacketized>();
    may_move_and_be_shared::<crate::error::PacketError>();
    may_move_and_be_shared::<crate::jitter::JitterBuffer>();
    may_move_and_be_shared::<crate::payload::Payloader>();
    may_move_and_be_shared::<crate::red::RedReceiver>();
    may_move_and_be_shared::<crate::red::RedSender>();
    may_move_and_be_shared::<crate::rtp::RtpPacket<'_>>();
    may_move_and_be_shared::<crate::sender::Sender>();
    may_move_and_be_shared::<crate::stream::Receiver>();
};
