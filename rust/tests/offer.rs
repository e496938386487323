//! What is offered to a publisher, on a simulated link: the publisher follows each offer after 300 ms.

use codec_payload::Ticks;
use codec_payload::bandwidth::{OfferSettings, RateOffer};

const DELAY: u64 = 20_000;
const PACKET: u64 = 1_000;
/// The longest queue of the link, in microseconds.
const QUEUE: u64 = 300_000;

/// A publisher that sends up to `most` bits per second.
struct Publisher {
    most: u64,
    /// What it was offered, and when.
    told: Vec<(u64, u64)>,
    owed: u64,
    /// Its clock is ahead by this, and wraps after 64 s.
    ahead: u64,
}

impl Publisher {
    /// How many packets it sends in this millisecond.
    fn sends(&mut self, now: u64) -> u64 {
        let known = self.told.iter().rev().find(|it| it.0 + 300_000 <= now);
        let rate = known.map_or(200_000, |it| it.1).min(self.most);
        self.owed += rate / 8_000;
        let count = self.owed / PACKET;
        self.owed %= PACKET;
        count
    }

    /// The 24 bits of abs-send-time: seconds with 18 binary digits.
    fn abs_send_time(&self, now: u64) -> u32 {
        ((u128::from(now + self.ahead) << 18) / 1_000_000 % (1 << 24)) as u32
    }
}

struct World {
    offer: RateOffer,
    publisher: Publisher,
    free_at: u64,
    /// Packets under way: when they arrive, and their abs-send-time.
    under_way: std::collections::VecDeque<(u64, u32)>,
    waits: Vec<u64>,
}

impl World {
    fn new(wants: u64, most: u64) -> World {
        let settings = {
            let mut it = OfferSettings::live();
            it.wants = wants;
            it
        };
        World {
            offer: RateOffer::new(settings),
            publisher: Publisher {
                most,
                told: Vec::new(),
                owed: 0,
                ahead: 1_234_567_890,
            },
            free_at: 0,
            under_way: Default::default(),
            waits: Vec::new(),
        }
    }

    /// Runs from one second to another with this link. Returns the latest rate that was offered to the publisher.
    fn run(&mut self, from: u64, to: u64, link: u64) -> u64 {
        self.waits.clear();
        for now in (from * 1_000..to * 1_000).map(|it| it * 1_000) {
            for _ in 0..self.publisher.sends(now) {
                let wait = self.free_at.saturating_sub(now);
                if now >= (from + 3) * 1_000_000 {
                    self.waits.push(wait);
                }
                if wait > QUEUE {
                    self.offer.lost();
                    continue;
                }
                self.free_at = now.max(self.free_at) + PACKET * 8_000_000 / link;
                let time = self.publisher.abs_send_time(now);
                self.under_way.push_back((self.free_at + DELAY, time));
            }
            while self.under_way.front().is_some_and(|it| it.0 <= now) {
                let (at, time) = self.under_way.pop_front().unwrap();
                self.offer.arrived(Ticks(at), time, PACKET as u32);
            }
            if let Some(rate) = self.offer.take_due(Ticks(now), 2 * DELAY) {
                self.publisher.told.push((now, rate));
            }
        }
        self.waits.sort_unstable();
        self.publisher.told.last().unwrap().1
    }

    /// How long 95 percent of the packets waited at most from 3 s after the change on, in milliseconds.
    fn wait(&self) -> u64 {
        self.waits[self.waits.len() * 95 / 100] / 1_000
    }
}

#[test]
fn what_is_told_follows_the_link() {
    let mut world = World::new(5_000_000, 4_000_000);
    for (from, to, link) in [
        (0, 30, 1_500_000),
        (30, 60, 500_000),
        (60, 100, 1_500_000),
        (100, 130, 300_000),
    ] {
        let told = world.run(from, to, link);
        println!("{link}: told {told}, 95 % waited {} ms", world.wait());
        assert!(told >= link * 6 / 10 && told <= link * 13 / 10, "{told}");
        assert!(world.wait() <= 100, "{}", world.wait());
    }
    // At least once in a second, and at most once in 50 ms.
    let told = &world.publisher.told;
    assert!(told.windows(2).all(|it| {
        let passed = it[1].0 - it[0].0;
        (50_000..=1_050_000).contains(&passed)
    }));
}

#[test]
fn no_rate_is_above_what_is_wanted() {
    let mut world = World::new(800_000, 4_000_000);
    assert_eq!(world.run(0, 30, 3_000_000), 800_000);
    assert!(world.publisher.told.iter().all(|it| it.1 <= 800_000));
    // Nobody wants more than the small size: that rate is offered at once.
    world.offer.set_wants(200_000);
    let now = 30_000_000;
    assert_eq!(world.offer.take_due(Ticks(now), 2 * DELAY), Some(200_000));
    assert_eq!(world.offer.take_due(Ticks(now + 49_999), 2 * DELAY), None);
    assert_eq!(world.run(31, 40, 3_000_000), 200_000);
    world.offer.set_wants(900_000);
    assert!(world.run(40, 70, 3_000_000) >= 800_000);
}

/// A publisher that sends little gets no lower offer, and its pause changes nothing.
#[test]
fn a_publisher_that_sends_little() {
    let mut world = World::new(2_500_000, 4_000_000);
    let told = world.run(0, 30, 3_000_000);
    assert!(told >= 2_000_000, "{told}");
    world.publisher.most = 100_000;
    let estimate = world.offer.estimate();
    world.run(30, 60, 3_000_000);
    assert_eq!(world.offer.estimate(), estimate);
    world.publisher.most = 0;
    world.run(60, 130, 3_000_000);
    assert_eq!(world.offer.estimate(), estimate);
}

/// The 24 bits of abs-send-time wrap each 64 s; times in microseconds give the same.
#[test]
fn both_kinds_of_time() {
    let [mut one, mut other] = [0, 1].map(|_| RateOffer::new(OfferSettings::live()));
    for number in 0..20_000_u64 {
        // Whole units of 2^-18 s, each 3,815 ns.
        let units = number * 5_000;
        let sent = ((u128::from((1_u64 << 34) + (units << 8)) * 15_625) >> 20) as u64;
        let now = Ticks(units * 15_625 / 4_096 + 30_000 + number % 7 * 1_000);
        one.arrived(now, (units % (1 << 24)) as u32, 900);
        other.arrived_by(now, sent, 900);
        assert_eq!(one.take_due(now, 40_000), other.take_due(now, 40_000));
        assert_eq!(one.rate(now), other.rate(now));
    }
}
