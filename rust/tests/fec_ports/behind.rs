//! A session and a forwarder behind a port.

use crate::packets::*;
use crate::random::Dice;
use crate::{Fail, pass, port};
use codec_payload::congestion::read_transport_feedback;
use codec_payload::fec::FecPort;
use codec_payload::feedback::TransportSettings;
use codec_payload::forward::{ForwardSettings, Forwarded, Forwarder};
use codec_payload::history::{Request, read_requests};
use codec_payload::rtcp::{CompoundRule, RtcpPacket, read_compound};
use codec_payload::rtp::RtpPacket;
use codec_payload::session::{Event, FeedbackSettings, Format, Session, SessionSettings, SsrcPair};
use codec_payload::{Codec, CodecSpec, Frequency, Ticks};
use std::collections::BTreeSet;

const SSRC: u32 = 7;
const AGAIN: u32 = 8;
/// How long a datagram is on its way, in milliseconds.
const DELAY: u64 = 80;
const PICTURES: u64 = 400;

fn spec() -> CodecSpec {
    CodecSpec {
        codec: Codec::Vp8,
        clock_rate: Frequency::NINETY_KHZ,
        octet_align: false,
    }
}

/// A session that requests packets, and reports the arrivals of all datagrams.
fn session() -> Result<Session, Fail> {
    let mut format = Format::new(VP8, spec());
    format.retransmission = Some(VP8_AGAIN);
    format.nack = true;
    format.pli = true;
    let mut settings = SessionSettings::live();
    settings.formats = vec![format];
    settings.no_media = vec![ULPFEC];
    settings.pairs = vec![SsrcPair {
        ssrc: SSRC,
        retransmission: AGAIN,
    }];
    settings.video.start = 0;
    settings.transport = Some(TransportSettings::live(3));
    let mut feedback = FeedbackSettings::live(1, b"me@host".to_vec());
    feedback.report_interval = None;
    settings.feedback = Some(feedback);
    Ok(Session::new(settings)?)
}

/// The packets of picture `i` of VP8 (RFC 7741, section 4.2), with PictureIDs of 15 bits.
fn picture(i: u64, first: u16) -> Vec<Packet> {
    let id = (32_700 + i as u16) % 32_768;
    let head = [0x80 | (id >> 8) as u8, id as u8];
    let frame: &[u8] = if i == 0 {
        &[0x10, 0, 0, 0x9d, 0x01, 0x2a, 0x10, 0, 0x10, 0]
    } else {
        &[0x11, 0, 0]
    };
    (0..4u16)
        .map(|part| {
            let begins = [&[0x90, 0x80], &head[..], frame].concat();
            let goes_on = [&[0x80, 0x80], &head[..], &[part as u8; 20]].concat();
            let payload = if part == 0 { begins } else { goes_on };
            let mut packet = Packet::new(SSRC, first.wrapping_add(part), &payload);
            packet.marker = part == 3;
            packet.time = 3_000 * i as u32;
            packet
        })
        .collect()
}

/// Removes what is due.
fn due<T>(all: &mut Vec<(u64, T)>, now: u64) -> Vec<T> {
    let (due, later) = std::mem::take(all)
        .into_iter()
        .partition(|(at, _)| *at == now);
    *all = later;
    let due: Vec<(u64, T)> = due;
    due.into_iter().map(|(_, it)| it).collect()
}

/// The result of a call.
#[derive(Debug, Default)]
struct Seen {
    units: usize,
    decodable: usize,
    lost: u64,
    rebuilt: u64,
    requested: u64,
    keyframes: u64,
    longest: u64,
}

/// A call over a network that loses packets.
struct Call {
    dice: Dice,
    /// One of how many packets is lost.
    losses: u64,
    /// What is on its way: when it arrives, and the datagram.
    on_its_way: Vec<(u64, Vec<u8>)>,
    /// The next transport-wide number, and those that arrive.
    transport: u16,
    arriving: BTreeSet<u16>,
    reported: BTreeSet<u16>,
    seen: Seen,
}

impl Call {
    /// Writes the transport-wide number, as a pacer does after the FEC was made.
    fn number(&mut self, packet: &mut Packet) -> bool {
        packet.elements = vec![(3, self.transport.to_be_bytes().to_vec()), (5, vec![1])];
        self.transport += 1;
        self.dice.below(self.losses) > 0
    }

    fn send(&mut self, now: u64, datagram: Vec<u8>) {
        self.arriving.insert(self.transport - 1);
        self.on_its_way.push((now + DELAY, datagram));
    }

    /// Sends a picture, and FEC behind it. Returns its packets.
    fn picture(&mut self, i: u64, has_fec: bool) -> Vec<Packet> {
        let numbers = if has_fec { 5 } else { 4 };
        let first = (65_000 + numbers * i) as u16;
        let mut packets = picture(i, first);
        for packet in &mut packets {
            if self.number(packet) {
                self.send(33 * i, packet.in_red());
            } else {
                self.seen.lost += 1;
            }
        }
        let mut fec = Packet::new(SSRC, first.wrapping_add(4), &[]);
        fec.time = 3_000 * i as u32;
        if has_fec && self.number(&mut fec) {
            self.send(33 * i, fec.fec_in_red(first, &packets));
        }
        packets
    }

    /// Answers a request with a retransmission.
    fn answer(&mut self, now: u64, wanted: &Packet) {
        let mut again = wanted.clone();
        again.ssrc = AGAIN;
        again.number = self.transport;
        again.payload_type = RED_AGAIN;
        again.payload = wanted.number.to_be_bytes().to_vec();
        again.payload.push(VP8);
        again.payload.extend(&wanted.payload);
        if self.number(&mut again) {
            self.send(now, again.bytes());
        }
    }

    /// Receives what arrives.
    fn receive(&mut self, now: u64, port: &mut FecPort, session: &mut Session) -> Result<(), Fail> {
        for datagram in due(&mut self.on_its_way, now) {
            session.receive(Ticks(now), &pass(port, &datagram)?)?;
            while let Some(packet) = port.next_rebuilt()? {
                session.receive(Ticks(now), &packet)?;
                self.seen.rebuilt += 1;
            }
        }
        Ok(())
    }

    /// Reads a transport-wide feedback.
    fn note_feedback(&mut self, packet: &[u8]) -> Result<(), Fail> {
        for one in read_compound(CompoundRule::ReducedSize, packet)? {
            if let RtcpPacket::Other(other) = one {
                let feedback = read_transport_feedback(&other.body[8..])?;
                let statuses = feedback.statuses.iter().enumerate();
                let came = statuses.filter(|(_, status)| status.is_some());
                let number = |(i, _): (usize, _)| feedback.base.wrapping_add(i as u16);
                self.reported.extend(came.map(number));
            }
        }
        Ok(())
    }
}

/// Plays pictures, one each 33 ms, with losses both of packets and of retransmissions.
fn play(losses: u64, has_fec: bool) -> Result<Seen, Fail> {
    let (mut port, mut session) = (port()?, session()?);
    let mut call = Call {
        dice: Dice(7_000 + losses),
        losses,
        on_its_way: Vec::new(),
        transport: 100,
        arriving: BTreeSet::new(),
        reported: BTreeSet::new(),
        seen: Seen::default(),
    };
    let mut sent: Vec<Packet> = Vec::new();
    let mut requests: Vec<(u64, u16)> = Vec::new();
    for now in 0..33 * PICTURES + 2_000 {
        if now % 33 == 0 && now / 33 < PICTURES {
            sent.extend(call.picture(now / 33, has_fec));
        }
        call.receive(now, &mut port, &mut session)?;
        for number in due(&mut requests, now) {
            let wanted = sent.iter().rfind(|packet| packet.number == number);
            if let Some(wanted) = wanted {
                call.answer(now, wanted);
            }
        }
        while let Some(event) = session.poll(Ticks(now)) {
            match event {
                Event::Unit {
                    rtp_time,
                    decodable,
                    ..
                } => {
                    let time = rtp_time.ok_or("a unit has a time")? % (1 << 32);
                    let took = now - time / 3_000 * 33 - DELAY;
                    call.seen.units += 1;
                    call.seen.decodable += usize::from(decodable);
                    call.seen.longest = call.seen.longest.max(took);
                }
                Event::Feedback { packet, .. } => {
                    let packet = packet?;
                    for request in read_requests(CompoundRule::ReducedSize, SSRC, &packet)? {
                        match request {
                            Request::Packet(number) => requests.push((now + DELAY, number)),
                            _ => call.seen.keyframes += 1,
                        }
                    }
                }
                Event::TransportFeedback { packet } => call.note_feedback(&packet?)?,
                _ => {}
            }
        }
    }
    let requested = session.stream_at(0).ok_or("no stream")?.requests.numbers;
    call.seen.requested = requested;
    // The feedback names what arrived, retransmissions and FEC among it, and nothing else: no number of a rebuilt packet.
    assert_eq!(call.reported, call.arriving);
    Ok(call.seen)
}

/// Most of what FEC rebuilds is not requested, and no frame waits for it. Numbers of FEC are not requested, lost ones neither.
#[test]
fn a_session_behind_a_port() -> Result<(), Fail> {
    for losses in [50, 20, 10] {
        let with = play(losses, true)?;
        let without = play(losses, false)?;
        println!("one of {losses}: with FEC {with:?}");
        println!("one of {losses}: without {without:?}");
        for seen in [&with, &without] {
            assert_eq!(
                (seen.units, seen.decodable),
                (PICTURES as usize, PICTURES as usize)
            );
            assert_eq!(seen.keyframes, 0);
        }
        assert!(with.rebuilt > with.lost / 2);
        assert!(without.requested >= without.lost);
        // What is requested cannot be rebuilt, or only by a packet of FEC that came later than the request.
        assert!(with.requested < without.requested / 2);
    }
    Ok(())
}

/// Without losses nothing is rebuilt or requested, and no frame waits.
#[test]
fn a_session_behind_a_port_without_losses() -> Result<(), Fail> {
    let seen = play(1 << 32, true)?;
    assert_eq!(
        (seen.units, seen.decodable),
        (PICTURES as usize, PICTURES as usize)
    );
    assert_eq!((seen.rebuilt, seen.requested, seen.longest), (0, 0, 0));
    Ok(())
}

/// A forwarder behind a port: its viewer gets the packets of media, as they were before RED and without gaps in their numbers, rebuilt ones
/// too. The numbers of FEC are left out.
#[test]
fn a_forwarder_behind_a_port() -> Result<(), Fail> {
    let mut port = port()?;
    let mut forwarder = Forwarder::new(ForwardSettings {
        codec: Codec::Vp8,
        ssrc: 70,
        payload_type: 100,
        first_number: 10,
        first_time: 0,
        retransmissions: None,
    })?;
    forwarder.want(SSRC);
    let mut got: Vec<Vec<u8>> = Vec::new();
    let mut out = Vec::new();
    for i in 0..30u64 {
        let first = (65_500 + 5 * i) as u16;
        let packets = picture(i, first);
        let fec = Packet::new(SSRC, first.wrapping_add(4), &[]);
        let mut datagrams: Vec<Vec<u8>> = packets.iter().map(Packet::in_red).collect();
        datagrams.push(fec.fec_in_red(first, &packets));
        if i > 0 {
            datagrams.remove(i as usize % 4);
        }
        for datagram in datagrams {
            let mut plain = vec![pass(&mut port, &datagram)?];
            plain.extend(port.next_rebuilt()?);
            for packet in &plain {
                let packet = RtpPacket::parse(packet)?;
                if packet.payload.is_empty() {
                    forwarder.leave_out(&packet, &mut out)?;
                    continue;
                }
                let done = forwarder.write(33 * i, &packet, &mut out)?;
                assert!(
                    matches!(done, Forwarded::Began | Forwarded::Written),
                    "{done:?}"
                );
                got.push(out.clone());
            }
        }
    }
    let mut got: Vec<RtpPacket> = got
        .iter()
        .map(|it| RtpPacket::parse(it))
        .collect::<Result<_, _>>()?;
    got.sort_by_key(|packet| packet.header.sequence_number);
    assert_eq!(got.len(), 30 * 4);
    for (k, packet) in got.iter().enumerate() {
        assert_eq!(packet.header.sequence_number, 10 + k as u16);
        let wanted = &picture(k as u64 / 4, 0)[k % 4];
        // The PictureID begins with 0 for the viewer.
        assert_eq!(packet.payload[4..], wanted.payload[4..]);
        assert_eq!(packet.header.marker, k % 4 == 3);
    }
    Ok(())
}
