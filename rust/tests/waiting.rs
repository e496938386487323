//! `AdaptiveWait`: its rule, worked by hand, and beside a second writing of the rule over plain lists.

use codec_payload::Ticks;
use codec_payload::waiting::{AdaptiveWait, AdaptiveWaitSettings};

/// The limit after each of these packets was missing from 0 on and arrived at that age.
fn after(ages: &[u64]) -> AdaptiveWait {
    let mut wait = AdaptiveWait::new(AdaptiveWaitSettings::live());
    for (number, age) in ages.iter().enumerate() {
        wait.missing(Ticks(0), number as u64);
        wait.arrived(Ticks(*age), number as u16);
    }
    wait
}

#[test]
fn the_first_limit_holds_until_eight_packets_arrived() {
    assert_eq!(after(&[]).limit(), 200);
    assert_eq!(after(&[80; 7]).limit(), 200);
    assert_eq!(after(&[80; 8]).limit(), 100);
}

#[test]
fn the_limit_is_five_quarters_of_the_greatest_age() {
    assert_eq!(after(&[80, 40, 60, 4, 0, 8, 12, 16]).limit(), 100);
    assert_eq!(after(&[300, 0, 0, 0, 0, 0, 0, 0]).limit(), 375);
}

#[test]
fn the_limit_stays_within_its_bounds() {
    assert_eq!(after(&[0; 8]).limit(), 20);
    assert_eq!(after(&[900; 8]).limit(), 400);
    let settings = {
        let mut settings = AdaptiveWaitSettings::live();
        settings.longest = 10;
        settings
    };
    assert_eq!(AdaptiveWait::new(settings).limit(), 10);
}

#[test]
fn an_age_counts_for_thirty_two_packets() {
    let mut ages = vec![240];
    ages.resize(32, 0);
    assert_eq!(after(&ages).limit(), 300);
    ages.push(0);
    assert_eq!(after(&ages).limit(), 20);
}

#[test]
fn a_packet_that_never_arrives_lowers_the_limit() {
    let mut wait = AdaptiveWait::new(AdaptiveWaitSettings::live());
    for number in 0..8 {
        wait.missing(Ticks(0), number);
    }
    wait.arrived(Ticks(999), 100);
    assert_eq!(wait.limit(), 200, "none of the eight is lost yet");
    wait.arrived(Ticks(1_000), 100);
    assert_eq!(wait.limit(), 20, "all eight are lost");
}

#[test]
fn a_packet_that_was_not_missing_changes_nothing() {
    let mut wait = after(&[80; 8]);
    wait.arrived(Ticks(500), 77);
    wait.arrived(Ticks(500), 7);
    assert_eq!(wait.limit(), 100);
}

#[test]
fn a_number_that_is_reported_again_keeps_its_time() {
    let mut wait = after(&[0; 8]);
    wait.missing(Ticks(100), 65_546);
    wait.missing(Ticks(150), 65_546);
    wait.missing(Ticks(150), 65_545);
    wait.arrived(Ticks(180), 9);
    assert_eq!(
        wait.limit(),
        20,
        "65,545 is not above 65,546, so nothing waits for it"
    );
    wait.arrived(Ticks(180), 10);
    assert_eq!(wait.limit(), 100, "80 ticks from the first report");
}

/// The rule over lists: the followed packets and the ages, the latest last.
#[derive(Default)]
struct Rule {
    highest: Option<u64>,
    /// At most 64, as places: a later packet replaces the oldest.
    followed: Vec<Option<(u64, u64)>>,
    ages: Vec<u64>,
}

impl Rule {
    fn lose(&mut self, now: u64) {
        for place in &mut self.followed {
            if place.is_some_and(|(_, since)| now - since >= 1_000) {
                *place = None;
                self.ages.push(0);
            }
        }
    }

    fn missing(&mut self, now: u64, number: u64) {
        if self.highest.is_none_or(|highest| number > highest) {
            self.lose(now);
            self.highest = Some(number);
            self.followed.push(Some((number, now)));
            if self.followed.len() > 64 {
                self.followed.remove(0);
            }
        }
    }

    fn arrived(&mut self, now: u64, number: u16) {
        self.lose(now);
        for place in &mut self.followed {
            let lost = place.filter(|(missing, _)| *missing as u16 == number);
            if let Some((_, since)) = lost {
                self.ages.push(now - since);
                *place = None;
                return;
            }
        }
    }

    fn limit(&self) -> u64 {
        let latest = self.ages.iter().rev().take(32);
        let greatest = latest.copied().max().unwrap_or(0);
        let least = if self.ages.len() < 8 { 200 } else { 20 };
        (greatest * 5 / 4).clamp(least, 400)
    }
}

#[test]
fn random_calls_follow_the_rule() {
    let mut random = 1_u64;
    let mut below = |bound: u64| {
        random = random
            .wrapping_mul(6_364_136_223_846_793_005)
            .wrapping_add(1_442_695_040_888_963_407);
        (random >> 33) % bound
    };
    let (mut wait, mut rule) = (
        AdaptiveWait::new(AdaptiveWaitSettings::live()),
        Rule::default(),
    );
    let (mut now, mut number) = (0, 65_000);
    let mut limits = std::collections::BTreeSet::new();
    for _ in 0..50_000 {
        now += below(9);
        if below(2) == 0 {
            number += below(3);
            wait.missing(Ticks(now), number);
            rule.missing(now, number);
        } else {
            let arrived = number.saturating_sub(below(40)) as u16;
            wait.arrived(Ticks(now), arrived);
            rule.arrived(now, arrived);
        }
        assert_eq!(wait.limit(), rule.limit());
        limits.insert(wait.limit());
    }
    assert!(limits.len() > 50, "the limit moves");
}

#[test]
fn it_is_small() {
    assert!(size_of::<AdaptiveWait>() <= 1_920);
}
