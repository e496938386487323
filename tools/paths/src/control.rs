//! What is sent to a viewer: by a `ViewerPath`, or by a plain rule on losses, to compare.

use codec_payload::Ticks;
use codec_payload::bandwidth::{
    LayerChoice, PacedKind, PacedPacket, PacerSettings, PathSettings, ViewerPath,
};
use codec_payload::congestion::TransportFeedback;
use std::collections::VecDeque;

const START: u64 = 160_000;
const LEAST: u64 = 30_000;
const MOST: u64 = 5_000_000;

/// What to send now.
#[derive(Clone, Copy, Default)]
pub struct Order {
    pub choice: usize,
    /// Of the video only the lowest temporal layer, and no RED.
    pub little: bool,
    /// Nothing more of a larger size than the one of the choice.
    pub leaves: bool,
    /// Bytes of padding.
    pub padding: u32,
    /// What waits of a larger size is not to be sent.
    pub fell: bool,
}

/// A plain rule: 25 kbit/s more each second; to 70 percent if more than 2 percent of half a second were lost. Each packet leaves at once.
pub struct Aimd {
    rate: u64,
    lost: u64,
    counted: u64,
    since: u64,
    heard: u64,
    queue: VecDeque<PacedPacket>,
}

pub enum Control {
    Path(Box<ViewerPath>),
    Losses(Aimd),
}

impl Control {
    pub fn new(is_path: bool, now: u64) -> Control {
        if !is_path {
            return Control::Losses(Aimd {
                rate: START,
                lost: 0,
                counted: 0,
                since: now,
                heard: now,
                queue: VecDeque::new(),
            });
        }
        let mut settings = PathSettings::live();
        (settings.start, settings.least, settings.most) = (START, LEAST, MOST);
        settings.pacer = PacerSettings::live();
        (settings.pacer.burst, settings.pacer.bound) = (400, 60_000);
        Control::Path(Box::new(
            ViewerPath::new(Ticks(now), settings).expect("memory"),
        ))
    }

    /// A packet for which there is no room is not sent.
    pub fn push(&mut self, packet: PacedPacket) {
        match self {
            Control::Path(path) => {
                let _ = path.push(packet);
            }
            Control::Losses(aimd) => aimd.queue.push_back(packet),
        }
    }

    pub fn pop(&mut self, now: u64) -> Option<PacedPacket> {
        match self {
            Control::Path(path) => path.pop(Ticks(now)).map(|leaving| leaving.packet),
            Control::Losses(aimd) => aimd.queue.pop_front(),
        }
    }

    /// What waits of these kinds is not to be sent any more.
    pub fn remove_media(&mut self) {
        if let Control::Path(path) = self {
            for kind in [PacedKind::Media, PacedKind::Resent] {
                while path.remove(kind).is_some() {}
            }
        }
    }

    pub fn may_resend(&mut self, now: u64, number: u16, size: u32, round_trip: u64) -> bool {
        match self {
            Control::Path(path) => path.resend(Ticks(now), number, size, round_trip).is_ok(),
            Control::Losses(_) => true,
        }
    }

    pub fn feedback(&mut self, now: u64, round_trip: u64, feedback: &TransportFeedback) {
        match self {
            Control::Path(path) => path
                .feedback(Ticks(now), round_trip, feedback)
                .expect("memory"),
            Control::Losses(aimd) => aimd.feedback(now, feedback),
        }
    }

    pub fn choose(&mut self, now: u64, choices: &[LayerChoice]) -> Order {
        match self {
            Control::Path(path) => {
                let order = path.choose(Ticks(now), choices);
                let known = path.statistics();
                let queued = path.waiting() * 8_000_000 / known.estimate.max(1);
                Order {
                    choice: order.choice,
                    little: queued > 150_000 || known.is_draining && known.standing > 60_000,
                    leaves: known.is_draining,
                    padding: order.padding,
                    fell: order.fell,
                }
            }
            Control::Losses(aimd) => {
                let most = choices.last().map_or(0, |it| it.rate);
                aimd.rate = aimd.rate.min(most * 12 / 10);
                let fits = |it: &LayerChoice| it.rate * 100 <= aimd.rate * 105;
                Order {
                    choice: choices.iter().rposition(fits).unwrap_or(0),
                    ..Order::default()
                }
            }
        }
    }

    pub fn line(&self) -> String {
        match self {
            Control::Path(path) => {
                let known = path.statistics();
                let trial = known.trial.map_or(0, |trial| trial.to / 1_000);
                format!(
                    "estimate {}, queue {} ms, draining {}, trial {trial}",
                    known.estimate / 1_000,
                    known.standing / 1_000,
                    known.is_draining
                )
            }
            Control::Losses(aimd) => format!("rate {}", aimd.rate / 1_000),
        }
    }
}

impl Aimd {
    fn feedback(&mut self, now: u64, feedback: &TransportFeedback) {
        self.counted += feedback.statuses.len() as u64;
        self.lost += feedback.statuses.iter().filter(|it| it.is_none()).count() as u64;
        let elapsed = (now - self.heard).min(500_000);
        self.rate = (self.rate + 25_000 * elapsed / 1_000_000).min(MOST);
        self.heard = now;
        if now >= self.since + 500_000 && self.counted >= 20 {
            if self.lost * 50 > self.counted {
                self.rate = (self.rate * 7 / 10).max(LEAST);
            }
            (self.lost, self.counted, self.since) = (0, 0, now);
        }
    }
}
