//! Runs in RED with retransmissions, over random networks: a retransmission brings the RED payload again.

use crate::Fail;
use crate::red::{FRAMES, frame_of, link_with, samples};
use crate::red_pops::{Case, Model, Random, popped_of};
use codec_payload::codec::NoBox;
use codec_payload::history::{History, HistorySettings, Resent, RetransmissionStream};
use codec_payload::jitter::jitter_buffer::{Outcome, WaitLimits};
use codec_payload::rtp::RtpPacket;
use codec_payload::schedule::datagrams::{
    DatagramStep, HistoryStep, RedHistoryLink, run_in_red_with_history,
};
use codec_payload::stream::receiver::Retransmission;
use codec_payload::wire::Ticks;

/// The stream of retransmissions in RED. Retransmissions of plain packets would have the payload type 98.
const AGAIN: RetransmissionStream = RetransmissionStream {
    ssrc: 8,
    payload_type: 97,
    first_number: 65_530,
};

/// How long frames wait: for `hold_back` complete ones.
fn limits_of(hold_back: Option<usize>) -> WaitLimits {
    {
        let mut limits = WaitLimits::live();
        limits.hold_back = hold_back;
        limits.start = 0;
        limits.max_wait = None;
        limits
    }
}

/// A sender with its writer, a history of `kept` packets, and a receiver that reads its retransmissions.
fn link_of(
    case: &Case,
    limits: WaitLimits,
    kept: usize,
    stream: Option<RetransmissionStream>,
) -> Result<RedHistoryLink<NoBox, NoBox>, Fail> {
    let red = link_with(case.distances, case.limit, limits, |settings| {
        settings.forward = 60;
        settings.backward = 12;
        settings.retransmission = Some(Retransmission {
            ssrc: AGAIN.ssrc,
            payload_type: 98,
        });
        if let Some(red) = &mut settings.red {
            red.retransmission = Some(AGAIN.payload_type);
        }
    })?;
    let history = History::new(HistorySettings {
        limit: kept,
        interval: 0,
        stream,
    })
    .map_err(|_| "settings out of range")?;
    Ok(RedHistoryLink { red, history })
}

fn plain(step: DatagramStep) -> HistoryStep {
    HistoryStep::Plain(step)
}

fn pop() -> HistoryStep {
    plain(DatagramStep::Pop { now: Ticks(0) })
}

/// Random steps, and what a model pops in them: each datagram, or a retransmission of it, arrives or is lost, in any order within
/// the windows.
fn run_of(random: &mut Random, case: &Case) -> (Vec<HistoryStep>, Vec<Option<(usize, bool)>>) {
    let mut model = Model::new(case);
    let (mut steps, mut wanted, mut resent) = (Vec::new(), Vec::new(), 0);
    for sent in 0..FRAMES {
        steps.push(plain(DatagramStep::Send(sent)));
        if random.below(10) < 6 {
            model.deliver(sent);
            steps.push(plain(DatagramStep::Deliver {
                datagram: sent,
                now: Ticks(0),
            }));
        }
        // A request for one of the last twelve datagrams; its retransmission is lost, or arrives once or twice.
        if random.below(3) == 0 {
            let repeated = sent.saturating_sub(random.below(12));
            steps.push(HistoryStep::Resend {
                number: (65_535 + repeated) as u16,
                now: Ticks(0),
            });
            resent += 1;
            for _ in 0..random.below(3) {
                model.deliver(repeated);
                steps.push(HistoryStep::DeliverAgain {
                    retransmission: resent - 1,
                    now: Ticks(0),
                });
            }
        }
        for _ in 0..random.below(3) {
            wanted.push(model.pop());
            steps.push(pop());
        }
    }
    model.finish();
    steps.push(plain(DatagramStep::Finish));
    for _ in 0..FRAMES {
        wanted.push(model.pop());
        steps.push(pop());
    }
    (steps, wanted)
}

#[test]
fn pops_are_those_of_the_model() -> Result<(), Fail> {
    let cases = [
        (&[1_u32] as &[u32], 64, 3),
        (&[1, 2], 16, 0),
        (&[2, 8], 12, 5),
        (&[], 20, 2),
    ];
    let samples = samples();
    let mut recovered = 0;
    for (number, (distances, limit, hold_back)) in cases.into_iter().enumerate() {
        let case = Case {
            distances,
            limit,
            hold_back,
        };
        for seed in 0..40 {
            let mut random = Random::new(seed * 5 + number as u32);
            let (steps, wanted) = run_of(&mut random, &case);
            let stream = (seed % 4 != 0).then_some(AGAIN);
            let mut link = link_of(&case, limits_of(Some(hold_back)), 64, stream)?;
            let run = run_in_red_with_history(&mut link, &samples, &steps)?;
            assert_eq!(popped_of(&run.red)?, wanted, "case {number}, seed {seed}");
            let counters = link.red.receiver.counters();
            assert_eq!(counters.packets.no_media, 0);
            assert_eq!(counters.other_streams, 0);
            recovered += counters.packets.recovered;
        }
    }
    assert!(recovered > 0, "no block was stored");
    Ok(())
}

#[test]
fn a_retransmission_has_the_red_payload() -> Result<(), Fail> {
    let case = Case {
        distances: &[1],
        limit: 64,
        hold_back: 9,
    };
    let mut link = link_of(&case, limits_of(None), 8, Some(AGAIN))?;
    let again = |retransmission| HistoryStep::DeliverAgain {
        retransmission,
        now: Ticks(5),
    };
    // The first two datagrams are lost; the retransmission of the second has both packets.
    let steps = [
        plain(DatagramStep::Send(0)),
        plain(DatagramStep::Send(1)),
        plain(DatagramStep::Send(2)),
        HistoryStep::Resend {
            number: 0,
            now: Ticks(4),
        },
        again(0),
        again(1),
        plain(DatagramStep::Deliver {
            datagram: 2,
            now: Ticks(6),
        }),
        plain(DatagramStep::Finish),
        pop(),
        pop(),
        pop(),
        pop(),
    ];
    let run = run_in_red_with_history(&mut link, &samples(), &steps)?;
    assert_eq!(run.answers, [Resent::Written]);
    let written = RtpPacket::parse(&run.red.written[1]).map_err(|_| "no packet")?;
    let resent = RtpPacket::parse(&run.retransmissions[0]).map_err(|_| "no packet")?;
    assert_eq!(resent.header.ssrc, 8);
    assert_eq!(resent.header.payload_type, 97);
    assert_eq!(resent.payload, [&[0, 0], written.payload].concat());
    let receipts: Vec<Outcome> = run.red.run.receipts.iter().cloned().flatten().collect();
    assert_eq!(receipts, [Outcome::Held, Outcome::Held]);
    let popped = popped_of(&run.red)?;
    assert_eq!(
        popped,
        [Some((0, true)), Some((1, true)), Some((2, true)), None]
    );
    let unit = run.red.run.pops[0].as_ref().ok_or("no unit")?;
    let unit = unit.as_ref().map_err(|_| "a unit is refused")?;
    assert_eq!(unit.bytes, frame_of(0));
    assert_eq!(unit.meta()[0].received, Ticks(5));
    Ok(())
}
