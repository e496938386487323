//! A narrow link: a publisher sends two sizes of VP8, and a viewer is behind a link that carries the small size alone. The program
//! prints what the viewer sees with a `ViewerPath` and without one. It fails unless the picture goes on with it:
//!
//! ```sh
//! cargo run --release --example narrow
//! ```
//!
//! - A `ViewerPath` orders what leaves: it paces packets, limits retransmissions, and chooses the size that fits.
//! - What waits are packets of the store. The `Forwarder` writes a packet when it leaves, so a packet that is removed leaves no gap
//!   in the viewer's numbers.
//! - A size is pushed from a keyframe on. After a fall to the small size, what waits of the large one is removed.
//! - A `History` for the viewer has what was sent to it. The store of the new source lacks what was lost just before a switch.
//! - The viewer reports when each packet arrived (transport-wide feedback), which also measures the round trip, and requests what
//!   is lost (NACK). A trial of a higher rate is filled with packets that are written again.
//!
//! The network is simulated: a link with a queue of 400 ms in front of it, and 20 ms each way.

use codec_payload::bandwidth::{LayerChoice, PacedKind, PacedPacket, PathSettings, ViewerPath};
use codec_payload::congestion::{TransportFeedback, read_transport_feedback};
use codec_payload::feedback::TransportSettings;
use codec_payload::forward::{ForwardSettings, Forwarded, Forwarder};
use codec_payload::history::{Request, Resent, RetransmissionStream};
use codec_payload::keyframes::FromKeyframe;
use codec_payload::layers::begins_keyframe;
use codec_payload::rtcp::CompoundRule;
use codec_payload::rtp::RtpPacket;
use codec_payload::transport::{MessageKind, read_messages, write_numbered};
use codec_payload::{
    Codec, CodecPacketizer, CodecSpec, Event, ExtensionValues, FeedbackSettings, Format, Frequency,
    History, HistorySettings, MediaTime, Sample, Sender, SenderSettings, Session, SessionSettings,
    SsrcPair, Ticks, Vp8Packetizer, read_requests,
};
use std::collections::{HashMap, VecDeque};
use std::error::Error;

const SECONDS: u64 = 40;
const INTERVAL: u64 = 50;
const DELAY: u64 = 20;
const QUEUE: u64 = 400_000;
const VP8: u8 = 96;
const RTX: u8 = 97;
const VIEWER: u32 = 99;
const VIEWER_RTX: u32 = 98;
const NUMBERS: u8 = 3;
/// The bytes of a frame of each size: 160 and 800 kbit/s at 20 frames a second.
const FRAMES: [usize; 2] = [1_000, 5_000];
/// How many times larger a keyframe is.
const KEYFRAME: usize = 3;
/// What a packet for the viewer has more than that of the source: the header extension with its number.
const MORE: usize = 8;

type Done = Result<(), Box<dyn Error>>;

/// The link to the viewer. Times are in microseconds.
struct Link {
    rate: u64,
    loss: u64,
    chance: u64,
    free_at: u64,
    queue: VecDeque<(u64, Vec<u8>)>,
    dropped: usize,
}

impl Link {
    fn send(&mut self, now: u64, datagram: &[u8]) {
        let begin = self.free_at.max(now);
        if begin - now > QUEUE {
            self.dropped += 1;
            return;
        }
        self.free_at = begin + datagram.len() as u64 * 8_000_000 / self.rate;
        self.chance = self
            .chance
            .wrapping_mul(6_364_136_223_846_793_005)
            .wrapping_add(1_442_695_040_888_963_407);
        if (self.chance >> 33) % 100 < self.loss {
            return;
        }
        self.queue
            .push_back((self.free_at + DELAY * 1_000, datagram.to_vec()));
    }

    fn arrived(&mut self, now: u64) -> Option<Vec<u8>> {
        let is_due = self.queue.front().is_some_and(|(due, _)| *due <= now);
        if is_due {
            self.queue.pop_front().map(|(_, datagram)| datagram)
        } else {
            None
        }
    }
}

// ---- The recipe ----

/// What waits for the viewer: a packet of a source, or a packet of the viewer's stream that is written again.
enum Waiting {
    Packet { source: u32, number: u16 },
    Again { number: u16 },
}

struct Viewer {
    forwarder: Forwarder,
    path: ViewerPath,
    /// What was sent, for requests.
    sent: History,
    /// What waits, by the id that the path returns.
    waiting: HashMap<u64, Waiting>,
    next_id: u64,
    /// The source whose packets are pushed. `None`: the next keyframe of the wanted source is awaited.
    source: Option<u32>,
    /// The number of the packet that left last.
    latest: Option<u16>,
    /// When each transport-wide number left.
    left: HashMap<u16, u64>,
    /// How long the latest packet that arrived took to be reported.
    round_trip: u64,
}

impl Viewer {
    fn push(&mut self, kind: PacedKind, size: usize, waiting: Waiting) {
        let (id, size) = (self.next_id, size as u32);
        // A packet for which the queue has no room is lost; the viewer requests it, or a keyframe.
        if self.path.push(PacedPacket { kind, size, id }).is_ok() {
            self.waiting.insert(id, waiting);
            self.next_id += 1;
        }
    }

    /// A packet of the publisher came, and is in its store.
    fn offer(&mut self, source: u32, datagram: &[u8]) -> Done {
        let packet = RtpPacket::parse(datagram)?;
        let is_wanted = self.forwarder.wanted() == Some(source);
        if is_wanted && begins_keyframe(Codec::Vp8, packet.payload) {
            self.source = Some(source);
        }
        if self.source == Some(source) {
            let number = packet.header.sequence_number;
            let waiting = Waiting::Packet { source, number };
            self.push(PacedKind::Media, datagram.len() + MORE, waiting);
        }
        Ok(())
    }

    /// Sends what leaves now. The forwarder writes a packet when it leaves.
    fn send(&mut self, now: u64, stores: &[History; 2], link: &mut Link) -> Done {
        while let Some(leaving) = self.path.pop(Ticks(now)) {
            let mut datagram = Vec::new();
            let is_written = match self.waiting.remove(&leaving.packet.id) {
                Some(Waiting::Packet { source, number }) => {
                    let Some(packet) = stores[source as usize - 1].packet(number) else {
                        continue;
                    };
                    let packet = RtpPacket::parse(packet)?;
                    let did = self
                        .forwarder
                        .write(now * 9 / 100, &packet, &mut datagram)?;
                    let is_written = matches!(did, Forwarded::Began | Forwarded::Written);
                    if is_written {
                        self.latest = Some(RtpPacket::parse(&datagram)?.header.sequence_number);
                        self.sent.keep(&datagram)?;
                    }
                    is_written
                }
                Some(Waiting::Again { number }) => {
                    self.sent.resend(Ticks(now), number, &mut datagram)? == Resent::Written
                }
                None => false,
            };
            if is_written {
                let mut numbered = Vec::new();
                write_numbered(NUMBERS, leaving.number, &datagram, &mut numbered)?;
                self.left.insert(leaving.number, now);
                link.send(now, &numbered);
            }
        }
        Ok(())
    }

    /// How many bytes the packet with this number has if it is sent again. `None`: it was not sent, or left long ago.
    fn size_again(&self, number: u16) -> Option<usize> {
        Some(self.sent.packet(number)?.len() + 2 + MORE)
    }

    /// RTCP of the viewer. Returns whether it asks for a keyframe. What is malformed requests nothing.
    fn answer(&mut self, now: u64, rtcp: &[u8]) -> Result<bool, Box<dyn Error>> {
        let rule = CompoundRule::ReducedSize;
        let messages = read_messages(rule, MessageKind::Transport, rtcp);
        let (Ok(messages), Ok(requests)) = (messages, read_requests(rule, VIEWER, rtcp)) else {
            return Ok(false);
        };
        for message in messages {
            if let Ok(feedback) = read_transport_feedback(message.control) {
                self.hear(now, &feedback)?;
            }
        }
        let mut wants_keyframe = false;
        for request in requests {
            match request {
                Request::Packet(number) => self.request(now, number),
                _ => wants_keyframe = true,
            }
        }
        Ok(wants_keyframe)
    }

    /// A feedback of the viewer: it also measures the round trip.
    fn hear(&mut self, now: u64, feedback: &TransportFeedback) -> Done {
        let behind = feedback.base.wrapping_add(feedback.statuses.len() as u16);
        if let Some(left) = self.left.get(&behind.wrapping_sub(1)) {
            self.round_trip = now - left;
        }
        Ok(self.path.feedback(Ticks(now), self.round_trip, feedback)?)
    }

    /// The viewer lacks a packet. The path may refuse it: it was written again a moment ago, or too much was.
    fn request(&mut self, now: u64, number: u16) {
        if let Some(size) = self.size_again(number) {
            let allowed = self
                .path
                .resend(Ticks(now), number, size as u32, self.round_trip);
            if allowed.is_ok() {
                self.push(PacedKind::Resent, size, Waiting::Again { number });
            }
        }
    }

    /// Fills a trial of a higher rate: the packet that left last is written again.
    fn fill(&mut self, mut bytes: u32) {
        while bytes > 0 {
            let Some((number, size)) = self
                .latest
                .and_then(|number| Some((number, self.size_again(number)?)))
            else {
                return;
            };
            self.push(PacedKind::Padding, size, Waiting::Again { number });
            bytes = bytes.saturating_sub(size as u32);
        }
    }

    /// Chooses the size, each 10 ms. Returns the source of which the viewer waits for a keyframe.
    fn choose(&mut self, now: u64) -> Option<u32> {
        let choices = [
            LayerChoice {
                rate: 160_000,
                begin: 0,
            },
            LayerChoice {
                rate: 800_000,
                begin: 960_000,
            },
        ];
        let order = self.path.choose(Ticks(now), &choices);
        if order.fell {
            while let Some(packet) = self.path.remove(PacedKind::Media) {
                self.waiting.remove(&packet.id);
            }
            self.source = None;
        }
        self.fill(order.padding);
        let wanted = 1 + order.choice as u32;
        self.forwarder.want(wanted);
        Some(wanted).filter(|_| self.source != Some(wanted))
    }
}

// ---- The simulated publisher ----

struct Layer {
    sender: Sender,
    place: usize,
    keyframe: bool,
}

impl Layer {
    fn new(place: usize) -> Result<Layer, Box<dyn Error>> {
        let packetizer = CodecPacketizer::Vp8(Vp8Packetizer::with_picture_id(1_000));
        let settings = SenderSettings::for_stream(VP8, 1 + place as u32, Frequency::NINETY_KHZ);
        Ok(Layer {
            sender: Sender::new(packetizer, settings)?,
            place,
            keyframe: true,
        })
    }

    /// A frame whose last bytes have the time.
    fn send(&mut self, now: u64) -> Result<Vec<Vec<u8>>, Box<dyn Error>> {
        let size = FRAMES[self.place] * if self.keyframe { KEYFRAME } else { 1 };
        let mut frame = vec![0; size];
        let tag = u32::from(!self.keyframe) | 1 << 4 | 100 << 5; // shown; a first partition of 100 bytes
        frame[..3].copy_from_slice(&tag.to_le_bytes()[..3]);
        if self.keyframe {
            frame[3..10].copy_from_slice(&[0x9d, 0x01, 0x2a, 0x40, 0x01, 0xf0, 0x00]); // start code, 320 x 240
        }
        self.keyframe = false;
        self.sender.send(&Sample {
            rtp_time: MediaTime::from_90khz(90 * now),
            bytes: &frame,
            start_of_talk_spurt: false,
            ext_vals: ExtensionValues::default(),
        })?;
        Ok(self.sender.datagrams().map(<[u8]>::to_vec).collect())
    }
}

// ---- The simulated viewer ----

/// What the viewer shows. Times are in milliseconds.
#[derive(Default)]
struct Picture {
    shown: usize,
    /// How many of them are of the large size.
    large: usize,
    latest: u64,
    /// The longest time between two frames.
    pause: u64,
}

impl Picture {
    fn show(&mut self, now: u64, frame: &[u8]) {
        self.pause = self.pause.max(now - self.latest);
        self.shown += 1;
        self.large += usize::from(frame.len() >= FRAMES[1]);
        self.latest = now;
    }
}

fn viewer() -> Result<Session, Box<dyn Error>> {
    let spec = CodecSpec {
        codec: Codec::Vp8,
        clock_rate: Frequency::NINETY_KHZ,
        octet_align: false,
    };
    let mut format = Format::new(VP8, spec);
    (format.nack, format.pli) = (true, true);
    format.retransmission = Some(RTX);
    let mut settings = SessionSettings::live();
    settings.formats.push(format);
    settings.pairs.push(SsrcPair {
        ssrc: VIEWER,
        retransmission: VIEWER_RTX,
    });
    settings.from_keyframe = FromKeyframe::Drop;
    settings.feedback = Some(FeedbackSettings::live(VIEWER + 1, b"viewer".to_vec()));
    settings.transport = Some(TransportSettings::live(NUMBERS));
    Ok(Session::new(settings)?)
}

// ---- All together ----

/// A row of the table.
struct Row {
    /// The rates of the link in kbit/s, each for the same time.
    rates: &'static [u64],
    /// Packets that the link loses, in percent.
    loss: u64,
    /// Whether the estimate follows feedback. Else it is 50 Mbit/s: everything leaves at once, and the large size is chosen.
    follows: bool,
}

/// Everything between the frames of the publisher and those that the viewer sees.
struct World {
    layers: [Layer; 2],
    /// The latest packets of each layer, for all viewers.
    stores: [History; 2],
    server: Viewer,
    link: Link,
    viewer: Session,
    /// RTCP of the viewer, with the times at which it arrives.
    way_back: VecDeque<(u64, Vec<u8>)>,
    picture: Picture,
}

impl World {
    fn new(row: &Row) -> Result<World, Box<dyn Error>> {
        Ok(World {
            layers: [Layer::new(0)?, Layer::new(1)?],
            stores: [history(2_048, None)?, history(2_048, None)?],
            server: server(row.follows)?,
            link: Link {
                rate: 0,
                loss: row.loss,
                chance: 1,
                free_at: 0,
                queue: VecDeque::new(),
                dropped: 0,
            },
            viewer: viewer()?,
            way_back: VecDeque::new(),
            picture: Picture::default(),
        })
    }

    /// The publisher sends a frame of each size.
    fn publish(&mut self, now: u64) -> Done {
        for (place, store) in self.stores.iter_mut().enumerate() {
            for datagram in self.layers[place].send(now)? {
                store.keep_once(&datagram)?;
                self.server.offer(1 + place as u32, &datagram)?;
            }
        }
        Ok(())
    }

    /// The server answers the viewer, chooses, and sends what leaves now.
    fn serve(&mut self, now: u64) -> Done {
        let micros = now * 1_000;
        let mut keyframe_of = None;
        if now % 10 == 0 {
            keyframe_of = self.server.choose(micros);
        }
        while self.way_back.front().is_some_and(|(due, _)| *due <= now) {
            let (_, rtcp) = self.way_back.pop_front().ok_or("nothing waits")?;
            if self.server.answer(micros, &rtcp)? {
                keyframe_of = keyframe_of.or(self.server.source);
            }
        }
        if let Some(source) = keyframe_of {
            self.layers[source as usize - 1].keyframe = true;
        }
        self.server.send(micros, &self.stores, &mut self.link)
    }

    /// The viewer receives, shows frames, and reports.
    fn watch(&mut self, now: u64) -> Done {
        let micros = now * 1_000;
        while let Some(datagram) = self.link.arrived(micros) {
            self.viewer.receive_at(Ticks(now), micros, &datagram)?;
        }
        while let Some(event) = self.viewer.poll(Ticks(now)) {
            match event {
                Event::Feedback { packet, .. }
                | Event::Report { packet }
                | Event::TransportFeedback { packet } => {
                    self.way_back.push_back((now + DELAY, packet?));
                }
                Event::Unit { unit, .. } => self.picture.show(now, &unit?.bytes),
                _ => {}
            }
        }
        Ok(())
    }
}

fn history(limit: usize, stream: Option<RetransmissionStream>) -> Result<History, Box<dyn Error>> {
    Ok(History::new(HistorySettings {
        limit,
        interval: 0,
        stream,
    })?)
}

fn server(follows: bool) -> Result<Viewer, Box<dyn Error>> {
    let forwarder = Forwarder::new(ForwardSettings {
        codec: Codec::Vp8,
        ssrc: VIEWER,
        payload_type: VP8,
        first_number: 0,
        first_time: 0,
        retransmissions: None,
    })?;
    let again = RetransmissionStream {
        ssrc: VIEWER_RTX,
        payload_type: RTX,
        first_number: 0,
    };
    Ok(Viewer {
        forwarder,
        path: ViewerPath::new(Ticks(0), settings(follows))?,
        sent: history(256, Some(again))?,
        waiting: HashMap::new(),
        next_id: 0,
        source: None,
        latest: None,
        left: HashMap::new(),
        round_trip: 2_000 * DELAY,
    })
}

/// What the viewer sees, and how many packets the link dropped.
fn run(row: &Row) -> Result<(Picture, usize), Box<dyn Error>> {
    let mut world = World::new(row)?;
    for now in 0..SECONDS * 1_000 {
        let part = now as usize * row.rates.len() / (SECONDS as usize * 1_000);
        world.link.rate = 1_000 * row.rates[part];
        if now % INTERVAL == 0 {
            world.publish(now)?;
        }
        world.serve(now)?;
        world.watch(now)?;
    }
    Ok((world.picture, world.link.dropped))
}

fn settings(follows: bool) -> PathSettings {
    let mut settings = PathSettings::live();
    if !follows {
        (settings.start, settings.least, settings.most) = (50_000_000, 50_000_000, 50_000_000);
    }
    settings
}

fn main() -> Done {
    const ROWS: [(&[u64], u64, bool); 9] = [
        (&[300], 0, false),
        (&[250], 0, true),
        (&[300], 0, true),
        (&[500], 0, true),
        (&[1_500], 0, true),
        (&[1_500, 300], 0, true),
        (&[300, 1_500], 0, true),
        (&[300], 5, true),
        (&[1_500, 300], 5, true),
    ];
    println!(
        "| link, kbit/s | loss, % | path | frames shown | of the large size | longest pause, ms | dropped by the link |"
    );
    println!("|---|---|---|---|---|---|---|");
    for (rates, loss, follows) in ROWS {
        let row = Row {
            rates,
            loss,
            follows,
        };
        let (picture, dropped) = run(&row)?;
        let named: Vec<_> = rates.iter().map(u64::to_string).collect();
        let (shown, all) = (picture.shown, SECONDS * 1_000 / INTERVAL);
        println!(
            "| {} | {loss} | {} | {shown} of {all} | {} | {} | {dropped} |",
            named.join(", then "),
            if follows { "yes" } else { "no" },
            picture.large,
            picture.pause
        );
        assert_eq!(
            picture.shown > 770 && picture.pause <= 600 + 60 * loss,
            follows
        );
    }
    Ok(())
}
