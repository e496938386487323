//! The objects of the library can be moved to another thread, and shared by reference.

use codec_payload::bandwidth::{BandwidthEstimator, LayerChooser, Pacer, ResendLimit, ViewerPath};
use codec_payload::fec::{FecSender, FecWriter};
use codec_payload::feedback::TransportReporter;
use codec_payload::forward::Forwarder;
use codec_payload::freezes::Freezes;
use codec_payload::history::History;
use codec_payload::requests::NackSchedule;
use codec_payload::session::{Session, SessionSettings};
use codec_payload::stream::{Receiver, ReceiverSettings};
use codec_payload::transport::SentPackets;
use codec_payload::waiting::AdaptiveWait;
use codec_payload::xr::TimeExchange;
use codec_payload::{CodecDepacketizer, CodecPacketizer, DepacketizingBuffer, PacketError, Sender};

fn is_free<T: Send + Sync + 'static>() {}

#[test]
fn objects_are_send_and_sync() {
    is_free::<AdaptiveWait>();
    is_free::<BandwidthEstimator>();
    is_free::<CodecDepacketizer>();
    is_free::<CodecPacketizer>();
    is_free::<DepacketizingBuffer>();
    is_free::<FecSender>();
    is_free::<FecWriter>();
    is_free::<Forwarder>();
    is_free::<Freezes>();
    is_free::<History>();
    is_free::<LayerChooser>();
    is_free::<NackSchedule>();
    is_free::<Pacer>();
    is_free::<PacketError>();
    is_free::<Receiver>();
    is_free::<ReceiverSettings>();
    is_free::<ResendLimit>();
    is_free::<Sender>();
    is_free::<SentPackets>();
    is_free::<Session>();
    is_free::<SessionSettings>();
    is_free::<TimeExchange>();
    is_free::<TransportReporter>();
    is_free::<ViewerPath>();
}
