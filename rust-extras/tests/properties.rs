//! Properties of the crate under random inputs.

use codec_payload::rtp::{PacketHeader, RtpPacket};
use codec_payload::*;
use proptest::prelude::*;

fn codec() -> impl Strategy<Value = Codec> {
    prop::sample::select(vec![
        Codec::Opus,
        Codec::PCMU,
        Codec::G722,
        Codec::Vp8,
        Codec::Vp9,
        Codec::Null,
    ])
}

proptest! {
    /// The payloads of a frame keep the MTU, and the units of its packets have its bytes, whatever the order of the packets.
    #[test]
    fn frames_come_back(codec in codec(), frame in prop::collection::vec(any::<u8>(), 1..3_000), mtu in 12_usize..1_500, turn in any::<usize>()) {
        let mut packetizer: CodecPacketizer = CodecPacketizer::from_codec(codec).unwrap();
        let packets = packetizer.packetize(mtu, &frame).unwrap();
        prop_assert!(codec == Codec::Null || packets.iter().all(|packet| packet.len() <= mtu));
        let mut buffer: DepacketizingBuffer = DepacketizingBuffer::new(CodecDepacketizer::from_codec(codec).unwrap(), 0);
        let count = packets.len();
        for step in 0..count {
            let place = (step + turn % count) % count;
            let mut meta = RtpMeta::of(SeqNo(place as u64), MediaTime::from_90khz(0), Pt::from(96), Ticks(0));
            meta.header.marker = place + 1 == count;
            buffer.push(meta, packets[place].clone()).unwrap();
        }
        let bytes: Vec<u8> = buffer.units().flat_map(|unit| unit.unwrap().bytes).collect();
        prop_assert_eq!(bytes, frame);
    }

    /// A packet that is written is read as it was.
    #[test]
    fn packets_are_read_as_written(
        marker in any::<bool>(), payload_type in 0_u8..128, sequence_number in any::<u16>(), timestamp in any::<u32>(), ssrc in any::<u32>(),
        csrcs in prop::collection::vec(any::<[u8; 4]>(), 0..16), payload in prop::collection::vec(any::<u8>(), 0..100), padding in any::<u8>(),
    ) {
        let csrcs = csrcs.concat();
        let header = PacketHeader { marker, payload_type, sequence_number, timestamp, ssrc, csrcs: &csrcs, extension: None };
        let packet = RtpPacket { header, payload: &payload, padding };
        let mut written = Vec::new();
        packet.write(&mut written).unwrap();
        prop_assert_eq!(written.len(), 12 + csrcs.len() + payload.len() + usize::from(padding));
        prop_assert_eq!(RtpPacket::parse(&written), Ok(packet));
    }

    /// What is lost once comes with the next packet of RED.
    #[test]
    fn red_repeats(first in prop::collection::vec(any::<u8>(), 0..500), second in prop::collection::vec(any::<u8>(), 0..500)) {
        let mut sender = RedSender::new(Pt::from(63), Pt::from(96), &[1]);
        sender.wrap(first.clone(), 0, 1_200).unwrap();
        let wrapped = sender.wrap(second.clone(), 960, 1_200).unwrap();
        let found = RedReceiver::new(96, 960).unwrap().recover(SeqNo(8), 960, &wrapped).unwrap();
        let found: Vec<_> = found.iter().map(|it| (it.seq_no.0, it.payload.to_vec())).collect();
        prop_assert_eq!(found, [(7, first), (8, second)]);
    }
}
