//! SFU: a publisher sends two sizes of VP8, a viewer gets the one that its path carries, and packets are lost on both hops. It fails
//! unless the viewer shows what it should, and prints what it shows:
//!
//! ```sh
//! cargo run --release --example sfu
//! ```
//!
//! - A `Session` receives from the publisher, and requests what is missing. A `History` for each layer is a store: it keeps each
//!   packet once, for all viewers. A `ViewerPath` for each viewer says when its packets leave, and which layer it gets. A
//!   `Forwarder` writes them.
//! - A retransmission is the packet that it repeats: unwrap it, then treat it like any other.
//! - What waits on the path is a packet of a store, and it is written when it leaves. So a packet that is removed leaves no gap in
//!   the viewer's numbers.
//! - A layer is pushed from a keyframe on. Ask the session for one as long as a viewer waits for a layer, and when the viewer itself
//!   asks: it sends a PLI at most once in 500 ms. Packets of that keyframe may have come before its first one: push them too. If
//!   the choice falls, what waits of the larger layer is removed.
//! - Keep what was sent to the viewer, and answer its NACKs from there: the store of a new layer lacks what was lost before it.
//! - The viewer reports when each packet arrived. A trial of a higher rate is filled with packets that are written again.
//!
//! The network is simulated: 20 ms for a hop, with losses each way on both hops. The link to the viewer carries 1,000 kbit/s, then
//! 200, and so on.

use codec_payload::bandwidth::{LayerChoice, PacedKind, PacedPacket, PathSettings, ViewerPath};
use codec_payload::congestion::read_transport_feedback;
use codec_payload::feedback::TransportSettings;
use codec_payload::forward::{ForwardSettings, Forwarded, Forwarder};
use codec_payload::freezes::{FreezeCounts, Freezes};
use codec_payload::history::{KeptOnce, OriginalStream, Request, Resent, RetransmissionStream};
use codec_payload::keyframes::FromKeyframe;
use codec_payload::layers::begins_keyframe;
use codec_payload::rtcp::CompoundRule;
use codec_payload::rtp::RtpPacket;
use codec_payload::transport::{MessageKind, read_messages, write_numbered};
use codec_payload::{
    Arrival, Codec, CodecPacketizer, CodecSpec, Event, ExtensionValues, FeedbackSettings, Format,
    Frequency, History, HistorySettings, MediaTime, Sample, Sender, SenderSettings, Session,
    SessionSettings, SsrcPair, Ticks, Vp8Packetizer, read_requests,
};
use std::collections::VecDeque;
use std::error::Error;

const FRAMES: u64 = 480;
const INTERVAL: u64 = 50;
const STEP: u64 = 120;
const HOP: u64 = 20;
/// The longest queue of the link to the viewer, in microseconds.
const LONGEST: u64 = 300_000;
/// The bytes of a frame of each layer: 112 and 400 kbit/s.
const SMALL: usize = 700;
const LARGE: usize = 2_500;
/// The bytes that a number adds to a packet.
const MORE: usize = 8;
/// How many packets are remembered with the time at which they left.
const LEFT: usize = 1_024;
const NUMBERS: u8 = 3;
const VP8: u8 = 96;
const RTX: u8 = 97;
const RTX_SSRC: u32 = 10;
const VIEWER: u32 = 99;
const VIEWER_RTX: u32 = 98;
const SFU: u32 = 50;

type Done = Result<(), Box<dyn Error>>;

/// One direction of a hop of the network.
struct Way {
    chance: u64,
    loss: u64,
    /// Bits per second. 0: no bound.
    rate: u64,
    /// The datagrams before it have left then, in microseconds.
    free_at: u64,
    queue: VecDeque<(u64, Vec<u8>)>,
}

impl Way {
    fn new(chance: u64, loss: u64) -> Way {
        let queue = VecDeque::new();
        Way {
            chance,
            loss,
            rate: 0,
            free_at: 0,
            queue,
        }
    }

    /// A link drops what would wait longer than its queue is.
    fn send(&mut self, now: u64, datagram: &[u8]) {
        let begin = self.free_at.max(now * 1_000);
        if begin - now * 1_000 > LONGEST {
            return;
        }
        let mut left = now;
        if let Some(takes) = (datagram.len() as u64 * 8_000_000).checked_div(self.rate) {
            self.free_at = begin + takes;
            left = self.free_at / 1_000;
        }
        self.chance = self
            .chance
            .wrapping_mul(6_364_136_223_846_793_005)
            .wrapping_add(1_442_695_040_888_963_407);
        if (self.chance >> 33) % 100 >= self.loss {
            self.queue.push_back((left + HOP, datagram.to_vec()));
        }
    }

    /// The next datagram that arrives until now.
    fn arrived(&mut self, now: u64) -> Option<Vec<u8>> {
        let is_due = self.queue.front().is_some_and(|(due, _)| *due <= now);
        if is_due {
            self.queue.pop_front().map(|(_, datagram)| datagram)
        } else {
            None
        }
    }
}

// ---- The recipe ----

struct Sfu {
    /// Receives from the publisher, and requests what is missing.
    session: Session,
    /// The latest packets of each layer, for all viewers.
    stores: [History; 2],
    /// To one viewer: when packets leave, and which layer it gets. Its times are microseconds.
    path: ViewerPath,
    /// The stream of the viewer.
    viewer: Forwarder,
    /// What was sent to it, for its requests.
    sent: History,
    /// The layer whose packets are pushed. `None`: a keyframe of the wanted one is awaited.
    source: Option<u32>,
    /// The number of the packet that left last.
    latest: Option<u16>,
    /// When packets left, by their transport-wide numbers.
    left: Vec<u64>,
    /// How long a report takes.
    round_trip: u64,
    to_publisher: Way,
    to_viewer: Way,
}

impl Sfu {
    /// A packet waits, named by its source and its number; of the viewer's own stream the source is 0. If there is no room, the viewer
    /// requests it, or a keyframe.
    fn push(&mut self, kind: PacedKind, source: u32, number: u16, len: usize) {
        let (id, size) = (
            u64::from(source) << 16 | u64::from(number),
            (len + MORE) as u32,
        );
        let _ = self.path.push(PacedPacket { kind, size, id });
    }

    /// A packet of a layer came, and is in its store: it waits, if the viewer gets the layer.
    fn offer(&mut self, source: u32, datagram: &[u8]) -> Done {
        let packet = RtpPacket::parse(datagram)?;
        let first = packet.header.sequence_number;
        let is_awaited = self.viewer.wanted() == Some(source) && self.source != Some(source);
        let begins = is_awaited && begins_keyframe(Codec::Vp8, packet.payload);
        if begins {
            self.source = Some(source);
        }
        if self.source == Some(source) {
            self.push(PacedKind::Media, source, first, datagram.len());
        }
        if begins {
            // Packets of the keyframe that came before its first one.
            for number in (1..64).map(|step| first.wrapping_add(step)) {
                if let Some(len) = self.stores[source as usize - 1]
                    .packet(number)
                    .map(<[u8]>::len)
                {
                    self.push(PacedKind::Media, source, number, len);
                }
            }
        }
        Ok(())
    }

    /// A datagram of the publisher. The session says which of its streams received it; the streams are the layers.
    fn receive(&mut self, now: u64, datagram: &[u8]) -> Done {
        let Arrival::Stream { ssrc, .. } = self.session.receive(Ticks(now), datagram)? else {
            return Ok(()); // RTCP, not of a layer, or padding alone: a probe
        };
        let (payload_type, mut bytes) = (VP8, datagram.to_vec());
        if RtpPacket::parse(datagram)?.header.ssrc != ssrc {
            // A retransmission: the packet that it repeats.
            OriginalStream { ssrc, payload_type }.write(datagram, &mut bytes)?;
        }
        if self.stores[ssrc as usize - 1].keep_once(&bytes)? == KeptOnce::New {
            self.offer(ssrc, &bytes)?;
        }
        Ok(())
    }

    /// Writes what leaves. Returns whether there is something to send.
    fn write_leaving(
        &mut self,
        now: u64,
        id: u64,
        out: &mut Vec<u8>,
    ) -> Result<bool, Box<dyn Error>> {
        let (source, number) = ((id >> 16) as usize, id as u16);
        if source == 0 {
            return Ok(self.sent.resend(Ticks(now), number, out)? == Resent::Written);
        }
        let Some(packet) = self.stores[source - 1].packet(number) else {
            return Ok(false);
        };
        let did = self
            .viewer
            .write(90 * now, &RtpPacket::parse(packet)?, out)?;
        if !matches!(did, Forwarded::Began | Forwarded::Written) {
            return Ok(false);
        }
        self.sent.keep(out)?;
        self.latest = Some(RtpPacket::parse(out)?.header.sequence_number);
        Ok(true)
    }

    /// Sends what leaves now.
    fn send_due(&mut self, now: u64) -> Done {
        let mut out = Vec::new();
        while let Some(leaving) = self.path.pop(Ticks(now * 1_000)) {
            if self.write_leaving(now, leaving.packet.id, &mut out)? {
                let mut numbered = Vec::new();
                write_numbered(NUMBERS, leaving.number, &out, &mut numbered)?;
                self.left[leaving.number as usize % LEFT] = now * 1_000;
                self.to_viewer.send(now, &numbered);
            }
        }
        Ok(())
    }

    /// How many bytes a packet of the viewer's stream has if it is sent again. `None`: it is not kept.
    fn len_again(&self, number: u16) -> Option<usize> {
        Some(self.sent.packet(number)?.len() + 2)
    }

    /// What the viewer reports about packets that left. The last one measures the round trip.
    fn hear(&mut self, now: u64, rtcp: &[u8]) -> Done {
        let now = now * 1_000;
        let Ok(messages) = read_messages(CompoundRule::ReducedSize, MessageKind::Transport, rtcp)
        else {
            return Ok(());
        };
        for message in messages {
            let Ok(feedback) = read_transport_feedback(message.control) else {
                continue;
            };
            if !feedback.statuses.is_empty() {
                let last = usize::from(feedback.base) + feedback.statuses.len() - 1;
                self.round_trip = now - self.left[last % LEFT];
            }
            self.path.feedback(Ticks(now), self.round_trip, &feedback)?;
        }
        Ok(())
    }

    /// RTCP of the viewer. What is malformed requests nothing.
    fn answer(&mut self, now: u64, rtcp: &[u8]) -> Done {
        self.hear(now, rtcp)?;
        let Ok(requests) = read_requests(CompoundRule::ReducedSize, VIEWER, rtcp) else {
            return Ok(());
        };
        for request in requests {
            match (request, self.source) {
                (Request::Packet(number), _) => self.request(now, number),
                (_, Some(source)) => {
                    self.session.request_keyframe(source);
                }
                _ => {}
            }
        }
        Ok(())
    }

    /// The viewer lacks a packet. The path may refuse it: it was sent again a moment ago, or too much was.
    fn request(&mut self, now: u64, number: u16) {
        let Some(len) = self.len_again(number) else {
            return;
        };
        let (at, size) = (Ticks(now * 1_000), (len + MORE) as u32);
        if self.path.resend(at, number, size, self.round_trip).is_ok() {
            self.push(PacedKind::Resent, 0, number, len);
        }
    }

    /// Chooses the layer, each 10 ms, and fills a trial with the packet that left last.
    fn choose(&mut self, now: u64) {
        let choices = [
            LayerChoice {
                rate: 120_000,
                begin: 0,
            },
            LayerChoice {
                rate: 420_000,
                begin: 500_000,
            },
        ];
        let order = self.path.choose(Ticks(now * 1_000), &choices);
        if order.fell {
            while self.path.remove(PacedKind::Media).is_some() {}
            self.source = None;
            self.viewer.mute(); // also the same source goes on with a keyframe
        }
        self.viewer.want(1 + order.choice as u32);
        let again = self
            .latest
            .and_then(|number| Some((number, self.len_again(number)?)));
        if let Some((number, len)) = again {
            let mut filled = 0;
            while filled < order.padding as usize {
                self.push(PacedKind::Padding, 0, number, len);
                filled += len + MORE;
            }
        }
    }

    /// What is due by the clock. Units of the session are for those who record or mix.
    fn poll(&mut self, now: u64) -> Done {
        if now % 10 == 0 {
            self.choose(now);
        }
        let waits = self.viewer.wanted() != self.source;
        if let Some(wanted) = self.viewer.wanted().filter(|_| waits) {
            self.session.request_keyframe(wanted);
        }
        while let Some(event) = self.session.poll(Ticks(now)) {
            if let Event::Feedback { packet, .. } | Event::Report { packet } = event {
                self.to_publisher.send(now, &packet?);
            }
        }
        self.send_due(now)
    }
}

// ---- The simulated publisher ----

struct Layer {
    ssrc: u32,
    sender: Sender,
    sent: History,
    /// The next frame is a keyframe.
    keyframe: bool,
}

impl Layer {
    fn new(ssrc: u32) -> Result<Layer, Box<dyn Error>> {
        let place = ssrc as u16;
        let packetizer = CodecPacketizer::Vp8(Vp8Packetizer::with_picture_id(1_000 * place));
        let settings = SenderSettings::for_stream(VP8, ssrc, Frequency::NINETY_KHZ);
        let first_number = 30_000 * place;
        let stream = Some(retransmissions(RTX_SSRC + ssrc));
        Ok(Layer {
            ssrc,
            sender: Sender::new(
                packetizer,
                SenderSettings {
                    first_number,
                    ..settings
                },
            )?,
            sent: History::new(HistorySettings {
                limit: 512,
                interval: 0,
                stream,
            })?,
            keyframe: true,
        })
    }

    /// A frame whose last bytes have the time and the layer.
    fn send(&mut self, now: u64, way: &mut Way) -> Done {
        let len = if self.ssrc == 1 { SMALL } else { LARGE };
        let mut frame = vec![0; len];
        let tag = u32::from(!self.keyframe) | 1 << 4 | 100 << 5; // shown; a first partition of 100 bytes
        frame[..3].copy_from_slice(&tag.to_le_bytes()[..3]);
        if self.keyframe {
            frame[3..10].copy_from_slice(&[0x9d, 0x01, 0x2a, 0x40, 0x01, 0xf0, 0x00]); // start code, 320 x 240
        }
        self.keyframe = false;
        frame[len - 5..len - 1].copy_from_slice(&(now as u32).to_be_bytes());
        frame[len - 1] = self.ssrc as u8;
        self.sender.send(&Sample {
            rtp_time: MediaTime::from_90khz(90 * now + 777_777 * u64::from(self.ssrc)),
            bytes: &frame,
            start_of_talk_spurt: false,
            ext_vals: ExtensionValues::default(),
        })?;
        for datagram in self.sender.datagrams() {
            self.sent.keep(datagram)?;
            way.send(now, datagram);
        }
        Ok(())
    }

    fn answer(&mut self, now: u64, rtcp: &[u8], way: &mut Way) -> Done {
        let mut out = Vec::new();
        for request in read_requests(CompoundRule::ReducedSize, self.ssrc, rtcp)? {
            match request {
                Request::Packet(number) => {
                    if self.sent.resend(Ticks(now), number, &mut out)? == Resent::Written {
                        way.send(now, &out);
                    }
                }
                _ => self.keyframe = true,
            }
        }
        Ok(())
    }
}

// ---- The simulated viewer ----

/// What the viewer shows.
struct Picture {
    shown: usize,
    switches: u32,
    freezes: Freezes,
    /// The time and the layer of the frame before.
    latest: [u8; 5],
}

impl Picture {
    /// Counts a frame. Two layers may have one of the same time, which counts once.
    fn show(&mut self, now: u64, frame: &[u8]) {
        let end = &frame[frame.len() - 5..];
        let again = self.shown > 0 && end[..4] == self.latest[..4];
        self.switches += u32::from(self.shown > 0 && end[4] != self.latest[4]);
        self.latest.copy_from_slice(end);
        if !again {
            self.shown += 1;
            self.freezes.shown(Ticks(now));
        }
    }
}

fn watch(viewer: &mut Session, way: &mut Way, picture: &mut Picture, now: u64) -> Done {
    while let Some(event) = viewer.poll(Ticks(now)) {
        match event {
            Event::Feedback { packet, .. }
            | Event::Report { packet }
            | Event::TransportFeedback { packet } => way.send(now, &packet?),
            Event::Unit { unit, .. } => {
                let bytes = unit?.bytes;
                if bytes.len() >= SMALL {
                    picture.show(now, &bytes);
                }
            }
            _ => {}
        }
    }
    Ok(())
}

// ---- All together ----

fn retransmissions(ssrc: u32) -> RetransmissionStream {
    RetransmissionStream {
        ssrc,
        payload_type: RTX,
        first_number: 0,
    }
}

fn session(own_ssrc: u32, pairs: &[(u32, u32)]) -> Result<Session, Box<dyn Error>> {
    let spec = CodecSpec {
        codec: Codec::Vp8,
        clock_rate: Frequency::NINETY_KHZ,
        octet_align: false,
    };
    let mut settings = SessionSettings::live();
    settings.formats.push({
        let mut format = Format::new(VP8, spec);
        format.retransmission = Some(RTX);
        format.nack = true;
        format.pli = true;
        format
    });
    settings.pairs = pairs
        .iter()
        .map(|&(ssrc, retransmission)| SsrcPair {
            ssrc,
            retransmission,
        })
        .collect();
    settings.from_keyframe = FromKeyframe::Drop;
    settings.feedback = Some(FeedbackSettings::live(own_ssrc, b"sfu".to_vec()));
    settings.transport = Some(TransportSettings::live(NUMBERS)); // of the viewer: when each packet arrived
    Ok(Session::new(settings)?)
}

fn history(limit: usize, stream: Option<RetransmissionStream>) -> Result<History, Box<dyn Error>> {
    Ok(History::new(HistorySettings {
        limit,
        interval: 0,
        stream,
    })?)
}

fn sfu(loss: u64) -> Result<Sfu, Box<dyn Error>> {
    let viewer = Forwarder::new(ForwardSettings {
        codec: Codec::Vp8,
        ssrc: VIEWER,
        payload_type: VP8,
        first_number: 0,
        first_time: 0,
        retransmissions: None,
    })?;
    Ok(Sfu {
        session: session(SFU, &[(1, RTX_SSRC + 1), (2, RTX_SSRC + 2)])?,
        stores: [history(2_048, None)?, history(2_048, None)?],
        path: ViewerPath::new(Ticks(0), PathSettings::live())?,
        viewer,
        sent: history(256, Some(retransmissions(VIEWER_RTX)))?,
        source: None,
        latest: None,
        left: vec![0; LEFT],
        round_trip: 2_000 * HOP,
        to_publisher: Way::new(2, loss),
        to_viewer: Way::new(3, loss),
    })
}

/// A run at a loss in percent.
fn run(loss: u64) -> Result<Picture, Box<dyn Error>> {
    let (mut to_sfu, mut from_viewer) = (Way::new(1, loss), Way::new(4, loss));
    let mut layers = [Layer::new(1)?, Layer::new(2)?];
    let mut sfu = sfu(loss)?;
    let mut viewer = session(VIEWER + 1, &[(VIEWER, VIEWER_RTX)])?;
    let freezes = Freezes::new(Frequency::make(1_000).ok_or("a rate of 0")?);
    let mut picture = Picture {
        shown: 0,
        switches: 0,
        freezes,
        latest: [0; 5],
    };
    for now in 0..FRAMES * INTERVAL + 1_000 {
        while let Some(rtcp) = sfu.to_publisher.arrived(now) {
            for layer in &mut layers {
                layer.answer(now, &rtcp, &mut to_sfu)?;
            }
        }
        if now % INTERVAL == 0 && now < FRAMES * INTERVAL {
            for layer in &mut layers {
                layer.send(now, &mut to_sfu)?;
            }
        }
        let is_wide = now / (STEP * INTERVAL) % 2 == 0;
        sfu.to_viewer.rate = if is_wide { 1_000_000 } else { 200_000 };
        while let Some(datagram) = to_sfu.arrived(now) {
            sfu.receive(now, &datagram)?;
        }
        while let Some(rtcp) = from_viewer.arrived(now) {
            sfu.answer(now, &rtcp)?;
        }
        sfu.poll(now)?;
        while let Some(datagram) = sfu.to_viewer.arrived(now) {
            viewer.receive_at(Ticks(now), now * 1_000, &datagram)?;
        }
        watch(&mut viewer, &mut from_viewer, &mut picture, now)?;
    }
    Ok(picture)
}

fn main() -> Done {
    for loss in [0, 2, 5] {
        let picture = run(loss)?;
        let (shown, switches) = (picture.shown, picture.switches);
        let FreezeCounts { freezes, frozen } = picture.freezes.counts();
        println!(
            "{loss} %: {shown} of {FRAMES} frames shown, {switches} switches, {freezes} freezes, {frozen} ms frozen"
        );
        // At least 95 of 100 frames, and at most 0.6 s frozen, with losses 3.5 s.
        let most = if loss > 0 { 3_500 } else { 600 };
        assert!(switches == 4 && shown as u64 * 100 >= 95 * FRAMES && frozen <= most);
    }
    Ok(())
}
