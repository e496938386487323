//! The packets that a sink of RED sends, and the state of both values that it borrows.

use crate::Fail;
use crate::asserts::{assert_bytes, assert_count, assert_same};
use codec_payload::error::PacketError;
use codec_payload::memory::TryVec;
use codec_payload::payload::{MemorySink, OutgoingPacket, PacketSink, RedSink};
use codec_payload::red::RedSender;
use codec_payload::wire::{ExtensionValues, Pt, SeqNo, Ticks};

/// A packet of type 111 and number 1.
fn packet(payload: &[u8]) -> Result<OutgoingPacket, Fail> {
    Ok(OutgoingPacket {
        pt: Pt::new_with_value(111),
        seq_no: SeqNo(1),
        rtp_time: 960,
        wallclock: Ticks(5),
        marker: true,
        nackable: false,
        ext_vals: ExtensionValues::default(),
        payload: Vec::try_from_slice(payload)?,
    })
}

/// Sends one packet in RED.
fn send_in_red(
    stream: &mut MemorySink,
    red: &mut RedSender,
    budget: usize,
    packet: OutgoingPacket,
) -> Result<(), PacketError> {
    let mut sink = RedSink::new(stream, red, budget);
    sink.send(packet)
}

/// The number of the next packet, and whether a last packet exists, from a sink of RED.
fn told(stream: &mut MemorySink, red: &mut RedSender) -> (SeqNo, bool) {
    let mut sink = RedSink::new(stream, red, 1_200);
    (sink.next_seq_no(), sink.last_packet().is_some())
}

/// Payload type, RTP time, wall clock and marker.
type Fields = (Pt, u32, Ticks, bool);

fn fields_of(packet: &OutgoingPacket) -> Fields {
    (packet.pt, packet.rtp_time, packet.wallclock, packet.marker)
}

/// What a stream of one packet holds is this packet, which is also the last.
fn assert_sent(stream: &MemorySink, fields: Fields, payload: &[u8]) {
    assert_count("how many are sent", stream.packets().len(), 1);
    assert_same("the last payload", &stream.last_packet(), &Some(payload));
    for packet in stream.packets() {
        assert_bytes("the payload", &packet.payload, payload);
        assert_same("the fields", &fields_of(packet), &fields);
    }
}

#[test]
fn red_sink_sends_wrapped() -> Result<(), Fail> {
    let mut stream = MemorySink::new(1);
    let mut red = RedSender::new(Pt::new_with_value(63), Pt::new_with_value(111), &[1]);
    assert_same(
        "a new sink",
        &told(&mut stream, &mut red),
        &(SeqNo(1), false),
    );
    send_in_red(&mut stream, &mut red, 1_200, packet(&[1, 2])?)?;
    let fields = (Pt::new_with_value(63), 960, Ticks(5), true);
    assert_sent(&stream, fields, &[0x6f, 1, 2]);
    Ok(())
}
