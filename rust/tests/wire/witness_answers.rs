//! The run of `answers_can_be_met`, executed: of three frames of Opus the second is lost, and the first request for it too. The second
//! request is answered, and the answer arrives before the third frame is due.

use crate::Fail;
use crate::forwarded_again::opus_samples;
use crate::witnesses::{deliver, pop, receiver, send, sender, sent_one_each, units};
use codec_payload::history::{History, HistorySettings, Resent, RetransmissionStream};
use codec_payload::requests::{NackSchedule, NackSettings};
use codec_payload::schedule::datagrams::{DatagramStep, HistoryStep, Link, run_with_history};
use codec_payload::stream::receiver::Retransmission;
use codec_payload::wire::{Codec, Ticks};

/// A step of the run: of the sender, its history, the network and the receiver, or a poll of the requests.
enum Step {
    Link(HistoryStep),
    Poll(u64),
}

fn plain(step: DatagramStep) -> Step {
    Step::Link(HistoryStep::Plain(step))
}

fn steps() -> Vec<Step> {
    vec![
        plain(send(0)),
        plain(deliver(0, 25)),
        plain(pop(25)),
        Step::Poll(25),
        plain(send(1)),
        plain(send(2)),
        plain(deliver(2, 65)),
        plain(pop(65)),
        plain(pop(65)),
        Step::Poll(65),
        Step::Poll(75),
        Step::Poll(105),
        Step::Link(HistoryStep::Resend {
            number: 0,
            now: Ticks(110),
        }),
        Step::Link(HistoryStep::DeliverAgain {
            retransmission: 0,
            now: Ticks(118),
        }),
        plain(pop(118)),
        plain(pop(118)),
        plain(pop(118)),
        Step::Poll(118),
    ]
}

#[test]
fn answers_can_be_met() -> Result<(), Fail> {
    let again = Some(Retransmission {
        ssrc: 8,
        payload_type: 112,
    });
    let mut link = Link {
        sender: sender(Codec::Opus, |_| {})?,
        history: History::new(HistorySettings {
            limit: 500,
            interval: 0,
            stream: Some(RetransmissionStream {
                ssrc: 8,
                payload_type: 112,
                first_number: 7,
            }),
        })?,
        receiver: receiver(Codec::Opus, |it| it.retransmission = again)?,
    };
    let of_link: Vec<HistoryStep> = steps()
        .into_iter()
        .filter_map(|it| match it {
            Step::Link(step) => Some(step),
            Step::Poll(_) => None,
        })
        .collect();
    let run = run_with_history(&mut link, &opus_samples()?, &of_link)?;
    sent_one_each(&run.run, 3);
    assert_eq!(run.answers, [Resent::Written]);
    assert_eq!(units(&run.run)?, crate::witnesses::FRAMES);

    // the receiver once more, with the polls of its requests
    let mut settings = NackSettings::live();
    settings.retry = 30;
    settings.longest_retry = 30;
    settings.tries = 2;
    settings.capacity = 4_096;
    let mut schedule = NackSchedule::new(settings);
    let mut of_stream = receiver(Codec::Opus, |it| it.retransmission = again)?;
    let mut polls = Vec::new();
    for step in steps() {
        match step {
            Step::Link(HistoryStep::Plain(DatagramStep::Deliver { datagram, now })) => {
                of_stream.receive(now, &run.run.datagrams[datagram])?;
            }
            Step::Link(HistoryStep::DeliverAgain {
                retransmission,
                now,
            }) => {
                of_stream.receive(now, &run.retransmissions[retransmission])?;
            }
            Step::Link(HistoryStep::Plain(DatagramStep::Pop { now })) => {
                drop(of_stream.pop(now).transpose()?);
            }
            Step::Link(_) => {}
            Step::Poll(now) => {
                let missing: Vec<u64> = of_stream.missing(4_096).collect();
                schedule.refresh(Ticks(now), &missing)?;
                let mut numbers = Vec::new();
                schedule.take_due(Ticks(now), &mut numbers)?;
                polls.push((missing, numbers, schedule.next_deadline().map(|it| it.0)));
            }
        }
    }
    // the receiver counts the second datagram, whose number is 0, as 131,072
    let second = || vec![131_072];
    assert_eq!(
        polls,
        [
            (vec![], vec![], None),
            (second(), vec![], Some(75)),
            (second(), vec![0], Some(105)),
            (second(), vec![0], None),
            (vec![], vec![], None),
        ]
    );
    Ok(())
}
