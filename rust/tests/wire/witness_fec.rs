//! A run of the theorem that runs with FEC are runs over datagrams (`runs_with_fec_are_runs` of `codec_payload_fec_runs`): the parts are made
//! by their constructors, the steps are executed, and each premise is looked at. The same steps, with a rebuilt packet as a further delivery
//! of a datagram that was sent, give the same results.

use crate::Fail;
use crate::forwarded_again::opus_samples;
use crate::witnesses::{FRAMES, deliver, pop, receiver, send, sender, units};
use codec_payload::fec::{FecReceiver, FecSettings, FecWriter, LateIds};
use codec_payload::payloads::Payloads;
use codec_payload::rtp::{PacketHeader, RtpPacket};
use codec_payload::schedule::datagrams::{DatagramStep, run_datagrams};
use codec_payload::stream::Popped;
use codec_payload::wire::{Codec, Ticks};

const ULPFEC: u8 = 117;

/// The datagram with the number `lost` of three does not come, and FEC over the three has a payload type of its own.
fn run(lost: usize, protection: u8) -> Result<(), Fail> {
    let all = [send(0), send(1), send(2)];
    let mut of_sender = sender(Codec::Opus, |_| {})?;
    let mut of_receiver = receiver(Codec::Opus, |_| {})?;
    let samples = opus_samples()?;
    let sent = run_datagrams(&mut of_sender, &mut of_receiver, &samples, &all)?;
    let first = RtpPacket::parse(&sent.datagrams[0])?.header;
    // The premise `sender`: RTP packets of one SSRC, whose numbers follow one another.
    for (place, datagram) in sent.datagrams.iter().enumerate() {
        let header = RtpPacket::parse(datagram)?.header;
        assert_eq!(header.ssrc, first.ssrc);
        assert_eq!(
            header.sequence_number,
            first.sequence_number.wrapping_add(place as u16)
        );
    }
    // The premise `nothing`: the receiver of FEC is new.
    let mut fec = FecReceiver::new(FecSettings {
        ssrc: first.ssrc,
        red_type: 255,
        fec_type: ULPFEC,
        late_ids: LateIds::default(),
        bytes: 1 << 20,
    })?;
    let datagrams: Vec<&[u8]> = sent.datagrams.iter().map(Vec::as_slice).collect();
    let mut payloads = Payloads::new(0, 0)?;
    let writer = FecWriter {
        protection,
        keyframe_protection: 0,
    };
    writer.write(false, &datagrams, &mut payloads)?;
    // `Reaches`, `Rebuilds`, and what comes to the receiver of the stream.
    let mut steps: Vec<DatagramStep> = all.to_vec();
    let mut now = 20;
    let mut rebuilt = Vec::new();
    let reach = |fec: &mut FecReceiver, datagram: &[u8]| -> Result<Option<Vec<u8>>, Fail> {
        fec.receive(datagram)?;
        Ok(fec.next_rebuilt()?)
    };
    for (place, datagram) in datagrams.iter().enumerate() {
        if place != lost {
            now += 1;
            steps.push(deliver(place, now));
            assert_eq!(reach(&mut fec, datagram)?, None);
        }
    }
    for place in 0..payloads.len() {
        let mut datagram = Vec::new();
        let header = PacketHeader {
            payload_type: ULPFEC,
            sequence_number: 9_000,
            ..first
        };
        RtpPacket {
            header,
            payload: payloads.get(place),
            padding: 0,
        }
        .write(&mut datagram)?;
        if let Some(packet) = reach(&mut fec, &datagram)? {
            // What is handed out is datagram k, byte for byte.
            let k = datagrams
                .iter()
                .position(|it| **it == packet[..])
                .ok_or("it was not sent")?;
            now += 1;
            steps.push(deliver(k, now));
            rebuilt.push((k, packet));
        }
    }
    assert_eq!(rebuilt.iter().map(|it| it.0).collect::<Vec<_>>(), [lost]);
    steps.extend([DatagramStep::Finish, pop(42), pop(42), pop(42)]);
    // The run with FEC: the receiver of the stream gets the bytes that were rebuilt.
    let mut with_fec = receiver(Codec::Opus, |_| {})?;
    let mut time = 20;
    for (place, datagram) in datagrams.iter().enumerate() {
        if place != lost {
            time += 1;
            with_fec.receive(Ticks(time), datagram)?;
        }
    }
    with_fec.receive(Ticks(time + 1), &rebuilt[0].1)?;
    with_fec.finish()?;
    let mut popped = Vec::new();
    while let Some(Popped::Unit(unit)) = with_fec.pop(Ticks(42)).transpose()? {
        popped.push(unit.bytes);
    }
    assert_eq!(popped, FRAMES);
    // The run over datagrams with these deliveries.
    let mut of_sender = sender(Codec::Opus, |_| {})?;
    let mut of_receiver = receiver(Codec::Opus, |_| {})?;
    let plain = run_datagrams(&mut of_sender, &mut of_receiver, &samples, &steps)?;
    assert_eq!(units(&plain)?, popped);
    Ok(())
}

#[test]
fn runs_with_fec_are_runs() -> Result<(), Fail> {
    for lost in 0..3 {
        run(lost, 64)?;
        run(lost, 255)?;
    }
    Ok(())
}
