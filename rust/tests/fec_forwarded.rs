//! The whole way of a server with FEC: a source with a lossy way, a forwarder, FEC behind each frame, a history of what was sent, a lossy way
//! to the viewer, and there a receiver of FEC beside the receiver of the stream.

mod random;

use codec_payload::fec::{
    FecReceiver, FecSender, FecSenderSettings, FecSettings, FecWriter, LateIds,
};
use codec_payload::forward::{ForwardSettings, Forwarded, Forwarder};
use codec_payload::history::{History, HistorySettings, Resent};
use codec_payload::jitter::WaitLimits;
use codec_payload::payloads::Payloads;
use codec_payload::rtp::{PacketHeader, RtpPacket};
use codec_payload::sender::{Sample, Sender, SenderSettings};
use codec_payload::stream::{Receiver, ReceiverSettings};
use codec_payload::{
    Codec, CodecDepacketizer, CodecPacketizer, ExtensionValues, Frequency, MediaTime, Ticks,
};
use random::Dice;
use std::collections::BTreeMap;

type Fail = Box<dyn std::error::Error>;

const SOURCE: u32 = 5;
const VIEWER: u32 = 77;
const MEDIA: u8 = 101;
const RED: u8 = 116;
const ULPFEC: u8 = 117;
const FRAMES: u64 = 400;
/// A way takes 20 ms, and a request is sent 30 ms after the number was missed, again after 100 ms.
const WAY: u64 = 20;
const PATIENCE: u64 = 30;
const AGAIN: u64 = 100;

/// What arrives at the viewer as packets of the stream: media as it was before RED, and padding under the number of FEC.
fn before_red(datagram: &[u8]) -> Result<Vec<u8>, Fail> {
    let packet = RtpPacket::parse(datagram)?;
    let mut out = Vec::new();
    if packet.header.payload_type != RED {
        return Ok(datagram.to_vec());
    }
    let (kind, contents) = packet.payload.split_first().ok_or("no block")?;
    let header = PacketHeader {
        payload_type: if *kind == ULPFEC { MEDIA } else { *kind },
        ..packet.header
    };
    if *kind == ULPFEC {
        RtpPacket {
            header,
            payload: &[],
            padding: 1,
        }
        .write(&mut out)?;
    } else {
        RtpPacket {
            header,
            payload: contents,
            padding: 0,
        }
        .write(&mut out)?;
    }
    Ok(out)
}

struct Server {
    forwarder: Forwarder,
    fec: FecSender,
    sent: History,
    datagrams: Payloads,
}

impl Server {
    fn new(protection: u8) -> Result<Server, Fail> {
        let mut forwarder = Forwarder::new(ForwardSettings {
            codec: Codec::Vp8,
            ssrc: VIEWER,
            payload_type: MEDIA,
            first_number: 65_500,
            first_time: 1,
            retransmissions: None,
        })?;
        forwarder.want(SOURCE);
        let fec = FecSender::new(FecSenderSettings {
            ssrc: VIEWER,
            red_type: RED,
            fec_type: ULPFEC,
            first_number: 65_500,
            writer: FecWriter {
                protection,
                keyframe_protection: protection,
            },
            late_ids: LateIds::default(),
        })?;
        let sent = History::new(HistorySettings {
            limit: 2_048,
            interval: 0,
            stream: None,
        })?;
        Ok(Server {
            forwarder,
            fec,
            sent,
            datagrams: Payloads::new(0, 0)?,
        })
    }

    /// A packet of the source came: what leaves for the viewer.
    fn offer(&mut self, now: u64, datagram: &[u8]) -> Result<Vec<Vec<u8>>, Fail> {
        let packet = RtpPacket::parse(datagram)?;
        let (mut forwarded, mut red, mut leave) = (Vec::new(), Vec::new(), Vec::new());
        let answer = self.forwarder.write(now * 90, &packet, &mut forwarded)?;
        if !matches!(answer, Forwarded::Began | Forwarded::Written) {
            return Ok(leave);
        }
        let ends = self.fec.push(&forwarded, &mut red)?;
        leave.push(red);
        if ends {
            self.fec.finish_frame(false, &mut self.datagrams)?;
            leave.extend((0..self.datagrams.len()).map(|i| self.datagrams.get(i).to_vec()));
        }
        for datagram in &leave {
            self.sent.keep(datagram)?;
        }
        Ok(leave)
    }
}

enum Event {
    AtServer(Vec<u8>),
    AtViewer(Vec<u8>),
    Request(u16),
}

struct Seen {
    units: Vec<Vec<u8>>,
    requests: u64,
    /// Those of media that was sent before; others are of FEC, or of media that the server lacks.
    of_media: u64,
    rebuilt: u64,
}

/// Runs a call of frames of one to six packets. Of 100 packets `loss` are lost on the way to the viewer, and 2 on the way from
/// the source, which come 60 ms later.
fn call(seed: u64, loss: u64, protection: u8) -> Result<(Vec<Vec<u8>>, Seen), Fail> {
    let mut dice = Dice(seed);
    let mut source = Sender::new(
        CodecPacketizer::try_from(Codec::Vp8)?,
        SenderSettings {
            first_number: 40_000,
            ..SenderSettings::for_stream(96, SOURCE, Frequency::NINETY_KHZ)
        },
    )?;
    let mut server = Server::new(protection)?;
    let mut viewer = Receiver::new(
        CodecDepacketizer::try_from(Codec::Vp8)?,
        ReceiverSettings::for_stream(MEDIA, Codec::Vp8, Frequency::NINETY_KHZ),
    )?;
    let mut limits = WaitLimits::live();
    (limits.hold_back, limits.start, limits.max_wait) = (None, 1, Some(1_500));
    viewer.set_wait_limits(limits);
    let mut fec = FecReceiver::new(FecSettings {
        ssrc: VIEWER,
        red_type: RED,
        fec_type: ULPFEC,
        late_ids: LateIds::default(),
        bytes: 1 << 20,
    })?;
    let mut events: BTreeMap<(u64, u64), Event> = BTreeMap::new();
    let mut missed: BTreeMap<u64, u64> = BTreeMap::new();
    let (mut order, mut frames) = (0, Vec::new());
    let mut seen = Seen {
        units: Vec::new(),
        requests: 0,
        of_media: 0,
        rebuilt: 0,
    };
    for now in 0..FRAMES * 33 + 3_000 {
        let mut add = |at: u64, event: Event| {
            order += 1;
            events.insert((at, order), event);
        };
        if now % 33 == 0 && now / 33 < FRAMES {
            let number = now / 33;
            let mut frame = vec![number as u8; 400 + dice.below(6_500) as usize];
            frame[0] = u8::from(number > 0) | 1 << 4;
            if number == 0 {
                frame[3..10].copy_from_slice(&[0x9d, 0x01, 0x2a, 0x40, 0x01, 0xf0, 0x00]);
            }
            source.send(&Sample {
                rtp_time: MediaTime::from_90khz(number * 2_970),
                bytes: &frame,
                start_of_talk_spurt: false,
                ext_vals: ExtensionValues::default(),
            })?;
            for datagram in source.datagrams() {
                // The first frame begins the stream: it is not lost on the way to the server.
                let late = number > 0 && dice.below(100) < 2;
                add(
                    now + WAY + if late { 60 } else { 0 },
                    Event::AtServer(datagram.to_vec()),
                );
            }
            frames.push(frame);
        }
        let numbers: Vec<u64> = viewer.missing(500).collect();
        missed.retain(|number, _| numbers.contains(number));
        for number in numbers {
            let due = missed.entry(number).or_insert(now + PATIENCE);
            if *due <= now {
                *due = now + AGAIN;
                seen.requests += 1;
                add(now + WAY, Event::Request(number as u16));
            }
        }
        while let Some(entry) = events.first_entry().filter(|it| it.key().0 <= now) {
            let mut leave = Vec::new();
            match entry.remove() {
                Event::AtServer(datagram) => leave = server.offer(now, &datagram)?,
                Event::Request(number) => {
                    let mut out = Vec::new();
                    if server.sent.resend(Ticks(now), number, &mut out)? == Resent::Written {
                        seen.of_media += u64::from(out[12] == MEDIA);
                        leave.push(out);
                    }
                }
                Event::AtViewer(datagram) => {
                    viewer.receive_any(Ticks(now), &before_red(&datagram)?)?;
                    fec.receive(&datagram)?;
                    if let Some(packet) = fec.next_rebuilt()? {
                        viewer.receive_any(Ticks(now), &packet)?;
                        seen.rebuilt += 1;
                    }
                }
            }
            for datagram in leave {
                if dice.below(100) >= loss || now < 100 {
                    order += 1;
                    events.insert((now + WAY, order), Event::AtViewer(datagram));
                }
            }
        }
        for unit in viewer.units(Ticks(now)) {
            seen.units.push(unit?.bytes);
        }
    }
    Ok((frames, seen))
}

/// All frames come, whole and in order, and with FEC fewer numbers are requested.
#[test]
fn all_units_come_and_fec_saves_requests() -> Result<(), Fail> {
    for loss in [5, 10] {
        let (mut plain, mut with_fec, mut rebuilt) = ((0, 0), (0, 0), 0);
        for seed in 1..4 {
            let (frames, seen) = call(seed, loss, 0)?;
            assert_eq!(seen.units.len(), frames.len());
            assert!(seen.units == frames && seen.rebuilt == 0);
            plain = (plain.0 + seen.requests, plain.1 + seen.of_media);
            let (frames, seen) = call(seed, loss, 128)?;
            assert_eq!(seen.units.len(), frames.len());
            assert!(seen.units == frames);
            with_fec = (with_fec.0 + seen.requests, with_fec.1 + seen.of_media);
            rebuilt += seen.rebuilt;
        }
        println!(
            "{loss} %: requests, and those of media: {plain:?} without FEC, {with_fec:?} with it, {rebuilt} rebuilt"
        );
        assert!(rebuilt > 50 && with_fec.1 * 3 < plain.1 && with_fec.0 < plain.0);
    }
    Ok(())
}
