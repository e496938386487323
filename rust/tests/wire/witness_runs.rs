//! The runs of the theorems on stores, on units behind a switch and on media servers that premises can be met (`witnesses`).

use crate::Fail;
use crate::served_again::{OPUS, OPUS_AGAIN, at, opus_held, session_of, session_of_opus};
use crate::witnesses::{
    FRAMES, forward, forward_link, samples, sender, sender_of_ids, sent_one_each, units, written,
};
use crate::{forwarded_again, served_again, served_left_out};
use codec_payload::codec::NoBox;
use codec_payload::forward::Forwarded;
use codec_payload::schedule::forwarded::{
    ForwardLink, ForwardStep, Source, SwitchLink, SwitchStep, SwitchedRun, run_forwarded_switching,
};
use codec_payload::schedule::served::{ServeLink, ServeStep, run_served, run_served_leaving_out};
use codec_payload::session::runs::{SessionStep, StepAnswer};
use codec_payload::wire::{Codec, Ticks, ToPayload};

#[test]
fn store_premises_can_be_met() -> Result<(), Fail> {
    forwarded_again::run_of_theorem()
}

#[test]
fn serving_with_store_premises_can_be_met() -> Result<(), Fail> {
    served_again::run_of_theorem()
}

/// The three frames of Opus, 960 ticks apart.
fn opus_frames() -> Result<Vec<ToPayload>, Fail> {
    samples(&[(960, FRAMES[0]), (1_920, FRAMES[1]), (2_880, FRAMES[2])])
}

/// Two sources of Opus. The second one has the SSRC 8, and numbers from 500 on.
fn two_of_opus() -> Result<SwitchLink<NoBox, NoBox>, Fail> {
    Ok(SwitchLink {
        link: forward_link(Codec::Opus)?,
        second: sender(Codec::Opus, |it| (it.ssrc, it.first_number) = (8, 500))?,
    })
}

/// The same of VP8, whose picture ids begin with 300.
fn two_of_vp8() -> Result<SwitchLink<NoBox, NoBox>, Fail> {
    let link = ForwardLink {
        sender: sender_of_ids(|_| {})?,
        ..forward_link(Codec::Vp8)?
    };
    Ok(SwitchLink {
        link,
        second: sender_of_ids(|it| (it.ssrc, it.first_number) = (8, 500))?,
    })
}

/// A source sends a sample, and the datagram with this index comes to the forwarder.
fn sent(source: Source, sample: usize, datagram: usize, now: u64) -> [SwitchStep; 2] {
    let send = ForwardStep::Send(sample);
    [send, forward(datagram, now)].map(|step| SwitchStep::Of(source, step))
}

/// Three datagrams are delivered, the last two in the other order, and all units are popped.
fn viewed() -> impl Iterator<Item = SwitchStep> {
    let deliver = |(written, now)| ForwardStep::Deliver {
        written,
        now: Ticks(now),
    };
    let delivers = [(0, 40), (2, 41), (1, 42)].map(deliver);
    let pops = [ForwardStep::Pop { now: Ticks(43) }; 3];
    let steps = delivers.into_iter().chain([ForwardStep::Finish]);
    steps
        .chain(pops)
        .map(|step| SwitchStep::Of(Source::First, step))
}

/// Each sample was sent in one datagram: so many of each source. The forwarder gave these answers, and the viewer's numbers are
/// consecutive.
#[track_caller]
fn switched(
    run: &SwitchedRun,
    [first, second]: [usize; 2],
    answers: &[Forwarded],
) -> Result<(), Fail> {
    sent_one_each(&run.run.run, first);
    let of_second = &run.second.sends;
    assert!(
        of_second
            .iter()
            .all(|it| it.count == 1 && it.fault.is_none())
    );
    assert_eq!(
        (of_second.len(), run.second.datagrams.len()),
        (second, second)
    );
    assert_eq!(run.run.answers, answers);
    let numbers: Vec<_> = written(&run.run)?.into_iter().map(|it| it.0).collect();
    assert_eq!(numbers, [100, 101, 102]);
    Ok(())
}

/// Of the first source the first frame comes to the viewer, and of the second source the other two.
#[test]
fn switched_units_premises_can_be_met() -> Result<(), Fail> {
    let mut steps = Vec::from(sent(Source::First, 0, 0, 0));
    steps.extend(sent(Source::Second, 0, 0, 960));
    steps.push(SwitchStep::Want { ssrc: 8 });
    steps.extend(sent(Source::Second, 1, 1, 1_920));
    steps.extend(sent(Source::Second, 2, 2, 2_880));
    steps.extend(viewed());
    let of_vp8: [&[u8]; 3] = [&[0, 1, 0], &[0, 1], &[1, 2]];
    let vp8 = samples(&[(960, of_vp8[0]), (1_920, of_vp8[1]), (2_880, of_vp8[2])])?;
    let runs = [
        (two_of_opus()?, opus_frames()?, FRAMES),
        (two_of_vp8()?, vp8, of_vp8),
    ];
    for (mut link, samples, frames) in runs {
        let run = run_forwarded_switching(&mut link, &samples, &steps)?;
        let answers = [
            Forwarded::Began,
            Forwarded::OtherSource,
            Forwarded::Began,
            Forwarded::Written,
        ];
        switched(&run, [1, 3], &answers)?;
        assert_eq!(units(&run.run.run)?, frames);
    }
    Ok(())
}

/// The first and the third frame of the first source come to the viewer, and between them the second frame of the second source.
#[test]
fn switched_back_premises_can_be_met() -> Result<(), Fail> {
    let mut steps = Vec::from(sent(Source::First, 0, 0, 0));
    steps.extend(sent(Source::Second, 0, 0, 960));
    steps.push(SwitchStep::Want { ssrc: 8 });
    steps.extend(sent(Source::Second, 1, 1, 1_920));
    steps.extend(sent(Source::First, 1, 1, 2_880));
    steps.push(SwitchStep::Want { ssrc: 7 });
    steps.extend(sent(Source::First, 2, 2, 3_840));
    steps.extend(viewed());
    let of_vp8: [&[u8]; 3] = [&[0, 1, 0], &[0, 1], &[0, 2]];
    let vp8 = samples(&[(960, of_vp8[0]), (1_920, of_vp8[1]), (2_880, of_vp8[2])])?;
    let runs = [
        (two_of_opus()?, opus_frames()?, FRAMES),
        (two_of_vp8()?, vp8, of_vp8),
    ];
    for (mut link, samples, frames) in runs {
        let run = run_forwarded_switching(&mut link, &samples, &steps)?;
        let answers = [
            Forwarded::Began,
            Forwarded::OtherSource,
            Forwarded::Began,
            Forwarded::OtherSource,
            Forwarded::Began,
        ];
        switched(&run, [3, 2], &answers)?;
        assert_eq!(units(&run.run.run)?, frames);
    }
    Ok(())
}

#[test]
fn serving_premises_can_be_met() -> Result<(), Fail> {
    let mut link = ServeLink {
        link: forward_link(Codec::Opus)?,
        session: session_of_opus()?,
        stream: OPUS,
    };
    let pop = || ServeStep::Pop { now: Ticks(82) };
    let deliver = |written, now| ServeStep::Deliver {
        written,
        now: Ticks(now),
    };
    let steps = [
        ServeStep::Send(0),
        ServeStep::Arrive {
            datagram: 0,
            at: at(20),
        },
        ServeStep::Send(1),
        ServeStep::Call(SessionStep::Poll { now: Ticks(40) }),
        ServeStep::Repeat {
            datagram: 1,
            again: OPUS_AGAIN,
            at: at(60),
        },
        deliver(1, 80),
        deliver(0, 81),
        ServeStep::Finish,
        pop(),
        pop(),
    ];
    let frames = samples(&[(960, FRAMES[0]), (1_920, FRAMES[1])])?;
    let run = run_served(&mut link, &frames, &steps)?;
    sent_one_each(&run.run.run, 2);
    assert_eq!(opus_held(&run.answers), [true, false, true]);
    assert!(matches!(run.answers[1], StepAnswer::Polled(None)));
    assert_eq!(run.run.answers, [Forwarded::Began, Forwarded::Written]);
    assert_eq!(units(&run.run.run)?, FRAMES[..2]);
    Ok(())
}

/// The second of three frames is left out. The frames are of Opus, and of VP8 with picture ids.
#[test]
fn serving_leaving_out_premises_can_be_met() -> Result<(), Fail> {
    let ids = ForwardLink {
        sender: sender_of_ids(|_| {})?,
        ..forward_link(Codec::Vp8)?
    };
    let of_vp8 = samples(&[(960, &[0, 1, 0][..]), (1_920, &[1]), (2_880, &[1, 2])])?;
    let opus = forward_link(Codec::Opus)?;
    let runs = [
        (Codec::Opus, opus, opus_frames()?, [FRAMES[0], FRAMES[2]]),
        (Codec::Vp8, ids, of_vp8, [&[0, 1, 0], &[1, 2]]),
    ];
    for (codec, link, sent, frames) in runs {
        let mut link = ServeLink {
            link,
            session: session_of(codec)?,
            stream: OPUS,
        };
        let run = run_served_leaving_out(&mut link, &sent, &served_left_out::steps_of_theorem())?;
        sent_one_each(&run.run.run, 3);
        assert_eq!(opus_held(&run.answers), [true, false, true, true]);
        assert!(matches!(run.answers[1], StepAnswer::Polled(None)));
        let answers = [Forwarded::Began, Forwarded::LeftOut, Forwarded::Written];
        assert_eq!(run.run.answers, answers);
        assert_eq!(units(&run.run.run)?, frames);
    }
    Ok(())
}
