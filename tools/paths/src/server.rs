//! A server for one viewer: two sizes with three temporal layers each, and audio.

use crate::control::{Control, Order};
use crate::network::{Link, Packet, Random};
use codec_payload::bandwidth::{LayerChoice, PacedKind, PacedPacket};
use codec_payload::congestion::TransportFeedback;

pub const AUDIO: u64 = 50_000;

/// What can be sent: a size, its highest temporal layer, whether audio has RED, and the rate of all, in bits per second.
pub struct Layers {
    pub size: usize,
    pub temporal: usize,
    pub has_red: bool,
    pub rate: u64,
}

const fn layers(size: usize, temporal: usize, has_red: bool, rate: u64) -> Layers {
    Layers {
        size,
        temporal,
        has_red,
        rate,
    }
}

pub const LAYERS: [Layers; 8] = [
    layers(0, 0, false, 90_000),
    layers(0, 1, false, 120_000),
    layers(0, 2, false, 150_000),
    layers(0, 2, true, 200_000),
    layers(1, 0, false, 300_000),
    layers(1, 1, false, 500_000),
    layers(1, 2, false, 850_000),
    layers(1, 2, true, 900_000),
];

/// The rate that begins the larger size: audio, and its keyframe in 200 ms.
pub const BEGIN: u64 = AUDIO + FRAMES[1][3] * 40;

/// Bytes of a frame of each size: of the temporal layers 0, 1 and 2, and of a keyframe.
const FRAMES: [[u64; 4]; 2] = [[667, 500, 250, 3_000], [4_167, 3_333, 2_917, 10_000]];

/// How long a publisher takes for a keyframe of another size.
const KEYFRAME_TIME: u64 = 60_000;

#[derive(Clone, Copy)]
enum Content {
    /// Audio or padding.
    Other,
    /// A packet of video, by its index.
    Video(usize),
}

pub struct Sent {
    pub at: u64,
    pub size: u32,
    /// The packet of video that it has.
    pub video: Option<usize>,
    pub arrived: Option<u64>,
}

pub struct VideoPacket {
    pub frame: usize,
    size: u32,
    /// When it left last.
    left: Option<u64>,
}

pub struct Frame {
    pub packets: usize,
    pub first: usize,
    /// The frame that it refers to. `None`: it is a keyframe.
    pub needs: Option<usize>,
}

pub struct Server {
    viewer: usize,
    begins: u64,
    control: Control,
    pub order: Order,
    contents: Vec<Content>,
    pub sent: Vec<Sent>,
    pub video: Vec<VideoPacket>,
    pub frames: Vec<Frame>,
    /// The place in the pattern of temporal layers.
    place: usize,
    pub size: usize,
    temporal: usize,
    /// The size that is gone over to, and when its keyframe is there.
    going: Option<(usize, u64)>,
    pub wants_keyframe: bool,
    base: Option<usize>,
    middle: Option<usize>,
    /// The first packet of the latest keyframe.
    keyframe: usize,
    pub switches: u64,
}

impl Server {
    pub fn new(viewer: usize, is_path: bool, begins: u64) -> Server {
        Server {
            viewer,
            begins,
            control: Control::new(is_path, begins),
            order: Order::default(),
            contents: Vec::new(),
            sent: Vec::new(),
            video: Vec::new(),
            frames: Vec::new(),
            place: 0,
            size: 0,
            temporal: 0,
            going: None,
            wants_keyframe: true,
            base: None,
            middle: None,
            keyframe: 0,
            switches: 0,
        }
    }

    pub fn line(&self) -> String {
        format!(
            "{}, choice {}, size {}",
            self.control.line(),
            self.order.choice,
            self.size
        )
    }

    fn push(&mut self, kind: PacedKind, size: u32, content: Content) {
        let id = self.contents.len() as u64;
        self.contents.push(content);
        self.control.push(PacedPacket { kind, size, id });
    }

    pub fn feedback(&mut self, now: u64, round_trip: u64, feedback: &TransportFeedback) {
        self.control.feedback(now, round_trip, feedback);
    }

    /// Sends packets of video again. What is older than the latest keyframe helps nobody.
    pub fn request(&mut self, now: u64, round_trip: u64, packets: &[usize]) {
        for &packet in packets {
            let size = self.video[packet].size;
            let is_old = packet < self.keyframe;
            let is_soon = self.video[packet]
                .left
                .is_none_or(|left| now < left + round_trip * 3 / 4);
            if is_old || is_soon {
                continue;
            }
            if self
                .control
                .may_resend(now, packet as u16, size, round_trip)
            {
                self.push(PacedKind::Resent, size, Content::Video(packet));
            }
        }
    }

    /// Chooses layers.
    fn choose(&mut self, now: u64) {
        let choices = LAYERS.map(|it| LayerChoice {
            rate: it.rate,
            begin: if it.size == 1 { BEGIN } else { 0 },
        });
        let order = self.control.choose(now, &choices);
        self.switches += u64::from(order.choice != self.order.choice && now > self.begins);
        self.order = order;
        if (order.fell || order.leaves) && LAYERS[order.choice].size < self.size {
            self.control.remove_media();
        }
        if order.padding >= 300 {
            self.push(PacedKind::Padding, order.padding.min(1_000), Content::Other);
        }
    }

    /// Notes that another size is wanted. Returns whether the next frame is a keyframe.
    fn begins_size(&mut self, now: u64, wanted: usize) -> bool {
        if wanted == self.size {
            self.going = None;
        } else if self.going.is_none_or(|going| going.0 != wanted) {
            self.going = Some((wanted, now + KEYFRAME_TIME));
        }
        if let Some((size, _)) = self.going.filter(|going| going.1 <= now) {
            self.size = size;
            self.going = None;
            return true;
        }
        self.wants_keyframe
    }

    /// The highest temporal layer that is sent now.
    fn most(&self, wanted: &Layers) -> usize {
        let falls = self.going.is_some() && wanted.size < self.size;
        if self.order.little || falls {
            0
        } else if self.going.is_some() {
            self.temporal
        } else {
            self.temporal.min(wanted.temporal)
        }
    }

    /// Makes the next frame of video.
    fn make_frame(&mut self, now: u64, random: &mut Random) {
        let layer = [0, 2, 1, 2][self.place % 4];
        self.place += 1;
        let wanted = &LAYERS[self.order.choice];
        let is_keyframe = self.begins_size(now, wanted.size);
        let falls = self.going.is_some() && wanted.size < self.size;
        if layer == 0 || is_keyframe {
            self.temporal = if falls { 0 } else { wanted.temporal };
        }
        let is_left_out = layer > self.most(wanted) || self.order.leaves && falls;
        if !is_keyframe && is_left_out {
            return;
        }
        let kind = if is_keyframe { 3 } else { layer };
        let bytes = FRAMES[self.size][kind] * (80 + random.below(41)) / 100;
        let needs = match kind {
            3 => None,
            2 => self.middle.max(self.base),
            _ => self.base,
        };
        self.refer(kind);
        self.push_frame(bytes, needs);
    }

    /// Notes what later frames refer to.
    fn refer(&mut self, kind: usize) {
        let frame = Some(self.frames.len());
        match kind {
            3 => {
                // The pattern begins anew.
                self.place = 1;
                self.wants_keyframe = false;
                self.keyframe = self.video.len();
                (self.base, self.middle) = (frame, None);
            }
            0 => (self.base, self.middle) = (frame, None),
            1 => self.middle = frame,
            _ => {}
        }
    }

    fn push_frame(&mut self, bytes: u64, needs: Option<usize>) {
        let packets = bytes.div_ceil(1_100) as usize;
        let frame = self.frames.len();
        self.frames.push(Frame {
            packets,
            first: self.video.len(),
            needs,
        });
        for _ in 0..packets {
            let size = (bytes as usize / packets) as u32;
            let packet = self.video.len();
            self.video.push(VideoPacket {
                frame,
                size,
                left: None,
            });
            self.push(PacedKind::Media, size, Content::Video(packet));
        }
    }

    /// Makes and sends what is due in this millisecond.
    pub fn send(&mut self, now: u64, rate: u64, link: &mut Link, random: &mut Random) {
        let age = (now - self.begins) / 1_000;
        if age.is_multiple_of(10) {
            self.choose(now);
        }
        if age.is_multiple_of(20) {
            let has_red = LAYERS[self.order.choice].has_red && !self.order.little;
            let size = AUDIO / 400 * (1 + u64::from(has_red));
            self.push(PacedKind::Audio, size as u32, Content::Other);
        }
        if [0, 33, 66].contains(&(age % 100)) {
            self.make_frame(now, random);
        }
        while let Some(packet) = self.control.pop(now) {
            let content = self.contents[packet.id as usize];
            let video = match content {
                Content::Other => None,
                Content::Video(video) => Some(video),
            };
            if let Some(video) = video {
                self.video[video].left = Some(now);
            }
            let number = self.sent.len();
            link.send(
                Packet {
                    viewer: Some(self.viewer),
                    number,
                    size: u64::from(packet.size),
                    at: now,
                },
                rate,
            );
            self.sent.push(Sent {
                at: now,
                size: packet.size,
                video,
                arrived: None,
            });
        }
    }

    /// The feedback on packets from `base` to `newest` that a viewer made at this time.
    pub fn feedback_on(&self, base: usize, newest: usize, made: u64) -> TransportFeedback {
        let status = |it: &Sent| {
            it.arrived
                .filter(|at| *at <= made)
                .map(|at| (at / 250) as u32)
        };
        TransportFeedback {
            base: base as u16,
            reference: 0,
            counter: 0,
            statuses: self.sent[base..newest].iter().map(status).collect(),
        }
    }
}
