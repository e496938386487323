//! A link: a queue in front of a rate, a delay, jitter and losses; and another flow on it, like TCP's. Times are in microseconds.

use std::cmp::Reverse;
use std::collections::{BinaryHeap, VecDeque};

/// xorshift64.
pub struct Random(pub u64);

impl Random {
    pub fn below(&mut self, limit: u64) -> u64 {
        self.0 ^= self.0 << 13;
        self.0 ^= self.0 >> 7;
        self.0 ^= self.0 << 17;
        (self.0 >> 20) % limit
    }

    pub fn is_one_of(&mut self, per_mille: u64) -> bool {
        self.below(1_000) < per_mille
    }
}

/// What a link does to packets.
#[derive(Clone, Copy)]
pub struct LinkSettings {
    /// How long each way takes.
    pub way: u64,
    /// The longest queue.
    pub queue: u64,
    /// How many of 1,000 packets are lost.
    pub loss: u64,
    pub jitter: u64,
    /// Whether jitter changes the order.
    pub reorders: bool,
}

#[derive(Clone, Copy, PartialEq, Eq, PartialOrd, Ord)]
pub struct Packet {
    /// The viewer that it goes to. `None`: it is of the other flow.
    pub viewer: Option<usize>,
    pub number: usize,
    pub size: u64,
    pub at: u64,
}

pub struct Link {
    settings: LinkSettings,
    queue: VecDeque<Packet>,
    bytes: u64,
    free_at: u64,
    latest: u64,
    on_the_way: BinaryHeap<Reverse<(u64, Packet)>>,
    /// How long each packet of a viewer waited.
    pub waits: Vec<u64>,
}

impl Link {
    pub fn new(settings: LinkSettings) -> Link {
        Link {
            settings,
            queue: VecDeque::new(),
            bytes: 0,
            free_at: 0,
            latest: 0,
            on_the_way: BinaryHeap::new(),
            waits: Vec::new(),
        }
    }

    /// How long a new packet would wait at this rate.
    pub fn backlog(&self, rate: u64) -> u64 {
        self.bytes * 8_000_000 / rate
    }

    /// Puts a packet into the queue. Returns whether there was room; the shortest queue has room for two packets.
    pub fn send(&mut self, packet: Packet, rate: u64) -> bool {
        let is_full = self.backlog(rate) > self.settings.queue && self.queue.len() > 1;
        if !is_full {
            self.bytes += packet.size;
            self.queue.push_back(packet);
        }
        !is_full
    }

    /// Serves the queue until `end`, and returns what arrives by then, with its time.
    pub fn serve(&mut self, end: u64, rate: u64, random: &mut Random) -> Vec<(u64, Packet)> {
        while let Some(&packet) = self.queue.front() {
            let begin = self.free_at.max(packet.at);
            if begin >= end {
                break;
            }
            self.queue.pop_front();
            self.bytes -= packet.size;
            self.free_at = begin + packet.size * 8_000_000 / rate;
            if packet.viewer.is_some() {
                self.waits.push(begin - packet.at);
            }
            if !random.is_one_of(self.settings.loss) {
                self.carry(packet, random);
            }
        }
        let mut arrived = Vec::new();
        while self.on_the_way.peek().is_some_and(|next| next.0.0 < end) {
            arrived.extend(self.on_the_way.pop().map(|next| next.0));
        }
        arrived
    }

    fn carry(&mut self, packet: Packet, random: &mut Random) {
        let jitter = random.below(self.settings.jitter.max(1));
        let mut at = self.free_at + self.settings.way + jitter;
        if !self.settings.reorders {
            at = at.max(self.latest);
        }
        self.latest = at;
        self.on_the_way.push(Reverse((at, packet)));
    }
}

/// A flow like TCP's: its window grows by a packet a round trip and halves at a loss, after a slow start.
pub struct Tcp {
    window: f64,
    threshold: f64,
    in_flight: u64,
    acknowledgements: VecDeque<u64>,
    losses: VecDeque<u64>,
    recovered_at: u64,
    link: LinkSettings,
    pub bytes: u64,
}

const SEGMENT: u64 = 1_400;

impl Tcp {
    pub fn new(link: LinkSettings) -> Tcp {
        Tcp {
            window: 10.0,
            threshold: 1e9,
            in_flight: 0,
            acknowledgements: VecDeque::new(),
            losses: VecDeque::new(),
            recovered_at: 0,
            link,
            bytes: 0,
        }
    }

    /// Sends at most four segments.
    pub fn send(&mut self, now: u64, link: &mut Link, rate: u64) {
        for _ in 0..4 {
            if self.in_flight as f64 >= self.window {
                return;
            }
            let packet = Packet {
                viewer: None,
                number: 0,
                size: SEGMENT,
                at: now,
            };
            if !link.send(packet, rate) {
                self.losses
                    .push_back(now + 2 * self.link.way + link.backlog(rate));
            }
            self.in_flight += 1;
        }
    }

    pub fn arrived(&mut self, at: u64) {
        self.bytes += SEGMENT;
        self.acknowledgements.push_back(at + self.link.way);
    }

    /// Reads what came back by this time.
    pub fn hear(&mut self, now: u64) {
        while self
            .acknowledgements
            .pop_front_if(|at| *at <= now)
            .is_some()
        {
            self.in_flight = self.in_flight.saturating_sub(1);
            self.window += if self.window < self.threshold {
                1.0
            } else {
                1.0 / self.window
            };
        }
        while self.losses.pop_front_if(|at| *at <= now).is_some() {
            self.in_flight = self.in_flight.saturating_sub(1);
            if now >= self.recovered_at {
                self.window = (self.window / 2.0).max(2.0);
                self.threshold = self.window;
                self.recovered_at = now + 2 * self.link.way + self.link.queue;
            }
        }
    }
}
