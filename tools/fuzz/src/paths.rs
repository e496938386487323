//! A path to a viewer, whose feedback is any, and the rate that is offered to a publisher, whose times are any.

use crate::input::Input;
use codec_payload::Ticks;
use codec_payload::parts::bandwidth::{
    LayerChoice, OfferSettings, PacedKind, PacedPacket, PathSettings, RateOffer, ViewerPath,
};
use codec_payload::parts::congestion::TransportFeedback;

const LEAST: u64 = 30_000;
const MOST: u64 = 5_000_000;

/// Up to 64 statuses from a number near the latest one, or from any.
fn feedback(input: &mut Input, latest: u16) -> TransportFeedback {
    let base = match input.byte() % 4 {
        0 => input.word(),
        back => latest.wrapping_sub(u16::from(input.byte()) / u16::from(back)),
    };
    let mut at = u32::from(input.word()) << 8;
    let statuses = input.take(64).iter().map(|&byte| {
        at = at.wrapping_add(u32::from(byte) * 7);
        (byte % 4 != 0).then_some(at)
    });
    TransportFeedback {
        base,
        reference: input.0.len() as u32,
        counter: 0,
        statuses: statuses.collect(),
    }
}

/// A time that mostly goes on a bit, and seldom jumps, also back. Below 2^61.
fn next_time(input: &mut Input, now: u64) -> u64 {
    let next = match input.byte() {
        255 => now + (u64::from(input.word()) << (input.byte() % 44)),
        254 => now.saturating_sub(u64::from(input.word())),
        step => now + u64::from(step) * 200,
    };
    next % (1 << 61)
}

fn choices(input: &mut Input) -> Vec<LayerChoice> {
    let mut rate = 0;
    let count = usize::from(input.byte() % 9);
    let next = |_| {
        rate += u64::from(input.word()) * 8;
        LayerChoice {
            rate,
            begin: u64::from(input.byte()) * 4_000,
        }
    };
    (0..count).map(next).collect()
}

/// Whatever the feedback says: the estimate stays within its bounds, numbers go up by one, no more waits than the bound, each lost packet
/// left, and the choice is in range.
pub fn paths(input: &mut Input) {
    let mut settings = PathSettings::live();
    (settings.least, settings.most) = (LEAST, MOST);
    settings.start = u64::from(input.word()) * 100;
    let bound = settings.pacer.bound;
    let mut path = ViewerPath::new(Ticks(0), settings).expect("memory");
    let (mut now, mut next, mut left) = (0, None::<u16>, 0u64);
    while !input.is_empty() {
        now = next_time(input, now);
        match input.byte() % 8 {
            0 | 1 => {
                let kind = [
                    PacedKind::Audio,
                    PacedKind::Resent,
                    PacedKind::Media,
                    PacedKind::Padding,
                ][usize::from(input.byte() % 4)];
                let size = u32::from(input.word() % 2_000);
                let _ = path.push(PacedPacket { kind, size, id: 0 });
                assert!(path.waiting() <= bound);
            }
            2 | 3 => {
                let before = path.waiting();
                if let Some(leaving) = path.pop(Ticks(now)) {
                    assert!(next.is_none_or(|next| next == leaving.number));
                    assert_eq!(path.waiting() + u64::from(leaving.packet.size), before);
                    next = Some(leaving.number.wrapping_add(1));
                    left += 1;
                    if input.byte() == 7 && path.take_back(leaving.number) {
                        next = Some(leaving.number);
                        left -= 1;
                    }
                }
            }
            4 | 5 => {
                let said = feedback(input, next.unwrap_or(0));
                let mut lost = Vec::new();
                path.append_lost(&said, &mut lost).expect("memory");
                assert!(lost.len() as u64 <= left);
                path.feedback(Ticks(now), u64::from(input.word()) * 10, &said)
                    .expect("memory");
                // Each lost packet is named once.
                let mut again = Vec::new();
                path.append_lost(&said, &mut again).expect("memory");
                assert!(again.is_empty());
            }
            6 => {
                let all = choices(input);
                let order = path.choose(Ticks(now), &all);
                assert!(order.choice < all.len().max(1));
                assert_eq!(order.choice, path.choice());
                assert!(!(order.fell && order.rose));
            }
            _ => {
                let _ = path.resend(Ticks(now), input.word(), u32::from(input.word()), 40_000);
            }
        }
        assert!((LEAST..=MOST).contains(&path.estimate()));
        assert!(path.statistics().carries <= path.estimate());
    }
}

/// Whatever the times of a publisher are: the estimate stays within its bounds, and no offer is above what is wanted.
pub fn offers(input: &mut Input) {
    let mut settings = OfferSettings::live();
    (settings.least, settings.most) = (LEAST, MOST);
    let mut wants = settings.wants;
    let mut offer = RateOffer::new(settings);
    let mut now = 0;
    while !input.is_empty() {
        now = next_time(input, now);
        match input.byte() % 5 {
            0 | 1 => {
                let sent = u32::from(input.word()) << 8 | u32::from(input.byte());
                offer.arrived(Ticks(now), sent, u32::from(input.word()));
            }
            2 => {
                let sent = next_time(input, now);
                offer.arrived_by(Ticks(now), sent, u32::from(input.word()));
            }
            3 => offer.lost(),
            _ => {
                wants = u64::from(input.word()) * 100;
                offer.set_wants(wants);
            }
        }
        if let Some(rate) = offer.take_due(Ticks(now), u64::from(input.byte()) * 1_000) {
            assert!(rate <= wants);
            assert_eq!(offer.take_due(Ticks(now), 40_000), None);
        }
        assert!((LEAST..=MOST).contains(&offer.estimate()));
    }
}
