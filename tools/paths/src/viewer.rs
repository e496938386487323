//! A viewer, who needs each frame whole, and what the frame refers to.

use crate::network::Random;
use crate::server::{LAYERS, Server};
use std::collections::{BTreeMap, VecDeque};

/// A longer time without a new frame is a freeze.
const FREEZE: u64 = 250_000;

/// What the viewer sends to the server.
enum Answer {
    /// Feedback on the packets from the first number up to the other one.
    Feedback(usize, usize),
    Requests(Vec<usize>),
    Keyframe,
}

/// How a viewer answers.
#[derive(Clone, Copy)]
pub struct ViewerSettings {
    /// How long the way to the server takes.
    pub way: u64,
    /// How often it sends feedback.
    pub interval: u64,
    /// How many of 1,000 of its answers are lost.
    pub loss: u64,
    /// How long a missing packet may be late.
    pub patience: u64,
}

pub struct Viewer {
    pub begins: u64,
    pub server: Server,
    settings: ViewerSettings,
    answers: VecDeque<(u64, Answer)>,
    arrived: Vec<(u64, usize)>,
    /// The packets up to this number were reported, and the lowest one that came after it was reported lost.
    reported: usize,
    late: Option<usize>,
    newest: usize,
    /// The highest packet of video, and the missing ones with the times of the next requests.
    highest: Option<usize>,
    missing: BTreeMap<usize, u64>,
    /// How many packets each frame lacks.
    lacks: Vec<usize>,
    has: Vec<bool>,
    is_decoded: Vec<bool>,
    shown: Option<(usize, u64)>,
    keyframe_requested: u64,
    one_way: u64,
    round_trip: u64,
    pub best_time: u64,
    pub measured: u64,
    pub freezes: u64,
    pub longest: u64,
    pub bytes: u64,
}

impl Viewer {
    pub fn new(number: usize, is_path: bool, begins: u64, settings: ViewerSettings) -> Viewer {
        Viewer {
            begins,
            server: Server::new(number, is_path, begins),
            settings,
            answers: VecDeque::new(),
            arrived: Vec::new(),
            reported: 0,
            late: None,
            newest: 0,
            highest: None,
            missing: BTreeMap::new(),
            lacks: Vec::new(),
            has: Vec::new(),
            is_decoded: Vec::new(),
            shown: None,
            keyframe_requested: 0,
            one_way: settings.way,
            round_trip: 2 * settings.way,
            best_time: 0,
            measured: 0,
            freezes: 0,
            longest: 0,
            bytes: 0,
        }
    }

    /// A packet arrives.
    pub fn arrives(&mut self, at: u64, number: usize) {
        self.arrived.push((at, number));
    }

    /// The server reads the answers that came by now.
    pub fn answer(&mut self, now: u64) {
        while let Some((_, answer)) = self.answers.pop_front_if(|answer| answer.0 <= now) {
            match answer {
                Answer::Feedback(base, newest) => {
                    let feedback = self
                        .server
                        .feedback_on(base, newest, now - self.settings.way);
                    self.server.feedback(now, self.round_trip, &feedback);
                }
                Answer::Requests(packets) => self.server.request(now, self.round_trip, &packets),
                Answer::Keyframe => self.server.wants_keyframe = true,
            }
        }
    }

    fn put(&mut self, now: u64, answer: Answer, random: &mut Random) {
        if !random.is_one_of(self.settings.loss) {
            self.answers.push_back((now + self.settings.way, answer));
        }
    }

    /// Reads what arrived in this millisecond, and answers.
    pub fn receive(&mut self, now: u64, random: &mut Random) {
        self.has.resize(self.server.video.len(), false);
        for frame in self.lacks.len()..self.server.frames.len() {
            self.lacks.push(self.server.frames[frame].packets);
            self.is_decoded.push(false);
        }
        for (at, number) in std::mem::take(&mut self.arrived) {
            self.take(at, number);
        }
        self.request(now, random);
        if (now - self.begins).is_multiple_of(self.settings.interval) {
            self.report(now, random);
        }
    }

    fn take(&mut self, at: u64, number: usize) {
        let sent = &mut self.server.sent[number];
        sent.arrived = Some(at);
        self.one_way = at - sent.at;
        self.round_trip = (self.round_trip * 7 + self.one_way + self.settings.way) / 8;
        self.bytes += u64::from(sent.size);
        self.newest = self.newest.max(number + 1);
        if number < self.reported {
            self.late = Some(self.late.map_or(number, |late| late.min(number)));
        }
        if let Some(packet) = sent.video {
            self.take_video(at, packet);
        }
    }

    fn take_video(&mut self, at: u64, packet: usize) {
        self.missing.remove(&packet);
        for lost in self.highest.map_or(0, |highest| highest + 1)..packet {
            self.missing.insert(lost, at + self.settings.patience);
        }
        self.highest = self.highest.max(Some(packet));
        if !self.has[packet] {
            self.has[packet] = true;
            self.lacks[self.server.video[packet].frame] -= 1;
            self.show(at);
        }
    }

    /// Shows the frames that are whole now, whose references were shown.
    fn show(&mut self, at: u64) {
        loop {
            let after = self.shown.map_or(0, |shown| shown.0 + 1);
            let is_next = |&frame: &usize| {
                let needs = self.server.frames[frame].needs;
                self.lacks[frame] == 0 && needs.is_none_or(|needs| self.is_decoded[needs])
            };
            let Some(next) = (after..self.lacks.len()).find(is_next) else {
                return;
            };
            self.is_decoded[next] = true;
            if self.server.frames[next].needs.is_none() {
                let first = self.server.frames[next].first;
                self.missing.retain(|packet, _| *packet >= first);
            }
            if let Some((_, before)) = self.shown {
                self.pause(before, at);
            }
            self.shown = Some((next, at));
        }
    }

    /// Counts a time without a new frame, after the first five seconds.
    fn pause(&mut self, from: u64, to: u64) {
        if to >= self.begins + 5_000_000 {
            self.longest = self.longest.max(to - from);
            self.freezes += u64::from(to - from > FREEZE);
        }
    }

    /// The run ends.
    pub fn end(&mut self, now: u64) {
        self.pause(self.shown.map_or(self.begins, |shown| shown.1), now);
    }

    /// Requests missing packets once in a round trip, and a keyframe after a second without a new frame.
    fn request(&mut self, now: u64, random: &mut Random) {
        let again = now + self.one_way.max(self.round_trip) + self.settings.way / 2;
        let mut due = Vec::new();
        for (packet, next) in self.missing.iter_mut().filter(|it| *it.1 <= now) {
            due.push(*packet);
            *next = again;
        }
        if !due.is_empty() {
            self.put(now, Answer::Requests(due), random);
        }
        let latest = self.shown.map_or(self.begins, |shown| shown.1);
        if now > latest.max(self.keyframe_requested) + 1_000_000 {
            self.keyframe_requested = now;
            self.missing.clear();
            self.put(now, Answer::Keyframe, random);
        }
    }

    /// Sends feedback on what arrived since the last one. A packet that came late is reported again, with those after it.
    fn report(&mut self, now: u64, random: &mut Random) {
        let base = self.late.take().unwrap_or(self.reported);
        if base < self.newest {
            self.reported = self.newest;
            self.put(now, Answer::Feedback(base, self.newest), random);
        }
    }

    /// Counts a millisecond, in which the choice `best` would have been right.
    pub fn measure(&mut self, best: usize) {
        let order = &self.server.order;
        let is_best = order.choice >= best && !order.little;
        self.measured += 1;
        self.best_time += u64::from(is_best && self.server.size >= LAYERS[best].size);
    }
}
