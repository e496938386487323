//! What packets carry.

use crate::Fail;
use crate::asserts::{assert_count, assert_same};
use crate::library::counts_of;
use crate::runs::run_one;
use codec_payload::payload::{MemorySink, PacketSink};
use codec_payload::schedule::Step;
use codec_payload::wire::{Codec, Pt, SeqNo, Ticks};

/// Payload type, number, RTP time, wall clock, marker, and whether the packet may be asked for again.
type Fields = (Pt, SeqNo, u32, Ticks, bool, bool);

/// What the last packet of a sink carries.
fn last_fields(sink: &MemorySink) -> Result<Fields, Fail> {
    let packet = sink.packets().last().ok_or("no packet")?;
    let (time, wallclock) = (packet.rtp_time, packet.wallclock);
    Ok((
        packet.pt,
        packet.seq_no,
        time,
        wallclock,
        packet.marker,
        packet.nackable,
    ))
}

/// The number of the next packet.
fn next_number(sink: &mut MemorySink) -> SeqNo {
    sink.next_seq_no()
}

#[test]
fn what_packets_carry() -> Result<(), Fail> {
    let steps = [
        Step::Send { sample: 0, mtu: 2 },
        Step::Send { sample: 1, mtu: 2 },
        Step::Push(7),
    ];
    let mut ended = run_one(Codec::Opus, &[1, 2, 3], &steps)?;
    let counts = counts_of(&ended.run, "a refused sample")?;
    assert_same("packets of the sample", &counts.as_slice(), &[2].as_slice());
    assert_count("packets that are held", ended.sink.packets().len(), 2);
    let fields = (
        Pt::new_with_value(96),
        SeqNo(11),
        160,
        Ticks(5),
        true,
        false,
    );
    assert_same("the last packet", &last_fields(&ended.sink)?, &fields);
    assert_same(
        "its payload",
        &ended.sink.last_packet(),
        &Some([3].as_slice()),
    );
    assert_same("the next number", &next_number(&mut ended.sink), &SeqNo(12));
    Ok(())
}
