//! Runs of a session: the answers of the calls, and that the streams do not disturb each other.

use crate::Fail;
use crate::datagrams::*;
use codec_payload::session::runs::*;
use codec_payload::session::*;
use codec_payload::*;

fn settings() -> SessionSettings {
    let mut settings = SessionSettings::live();
    settings.audio.start = 0;
    settings.probation = 1;
    settings.formats = vec![opus_format()];
    settings
}

fn receive(now: u64, datagram: Vec<u8>) -> SessionStep {
    SessionStep::Receive {
        micros: None,
        now: Ticks(now),
        datagram,
    }
}

fn poll(now: u64) -> SessionStep {
    SessionStep::Poll { now: Ticks(now) }
}

/// The answer as a line, if it is about this stream.
fn line(ssrc: u32, answer: &StepAnswer) -> Option<String> {
    match answer {
        StepAnswer::Received(Ok(Arrival::Stream {
            ssrc: own, outcome, ..
        })) if *own == ssrc => Some(format!("{outcome:?}")),
        StepAnswer::Received(Ok(Arrival::Faulty {
            ssrc: own, fault, ..
        })) if *own == ssrc => Some(format!("{fault:?}")),
        StepAnswer::Polled(Some(event)) => match event {
            Event::Begun { ssrc: own, .. } if *own == ssrc => Some("begun".to_string()),
            Event::Unit {
                ssrc: own,
                unit: Ok(unit),
                ..
            } if *own == ssrc => Some(format!("unit {:?}", unit.bytes)),
            Event::Ended { ssrc: own, why, .. } if *own == ssrc => Some(format!("ended {why:?}")),
            _ => None,
        },
        _ => None,
    }
}

fn lines(ssrc: u32, run: &SessionRun) -> Vec<String> {
    run.answers.iter().filter_map(|it| line(ssrc, it)).collect()
}

/// Two senders in turn; the packets of the first one are swapped, and its second packet comes twice.
#[test]
fn two_streams() -> Result<(), Fail> {
    let mut steps = vec![
        receive(0, opus(1, 1)),
        receive(1, opus(2, 9)),
        receive(2, opus(1, 3)),
        receive(3, opus(1, 2)),
        receive(4, opus(1, 2)),
        receive(5, opus(2, 10)),
        receive(6, vec![1, 2, 3]),
    ];
    steps.extend((0..8).map(|_| poll(10)));
    steps.push(SessionStep::End {
        now: Ticks(20),
        ssrc: 2,
    });
    steps.push(poll(20));
    let made = run_new_session(settings(), &steps)?;
    assert_eq!(made.run.answers.len(), steps.len());
    assert_eq!(
        lines(1, &made.run),
        [
            "Held",
            "Held",
            "Held",
            "Duplicate",
            "begun",
            "unit [1, 7]",
            "unit [2, 7]",
            "unit [3, 7]"
        ]
    );
    assert_eq!(
        lines(2, &made.run),
        [
            "Held",
            "Held",
            "begun",
            "unit [9, 7]",
            "unit [10, 7]",
            "ended ByCall"
        ]
    );
    let counts = made.run.counts;
    assert_eq!((counts.received, counts.malformed, counts.ended), (7, 1, 2));
    assert_eq!(made.session.stream_count(), 1);
    Ok(())
}

/// The first stream has the same answers without the second one.
#[test]
fn streams_do_not_disturb_each_other() -> Result<(), Fail> {
    let own = [
        (0, opus(1, 1)),
        (20, opus(1, 4)),
        (40, opus(1, 2)),
        (60, opus(1, 5)),
    ];
    let (mut alone, mut beside) = (Vec::new(), Vec::new());
    for (now, datagram) in own {
        alone.push(receive(now, datagram.clone()));
        beside.push(receive(now, datagram));
        beside.push(receive(now, opus(2, now as u16)));
        for _ in 0..3 {
            alone.push(poll(now));
        }
        for _ in 0..6 {
            beside.push(poll(now));
        }
    }
    alone.extend((0..8).map(|_| poll(500)));
    beside.extend((0..16).map(|_| poll(500)));
    let (alone, beside) = (
        run_new_session(settings(), &alone)?,
        run_new_session(settings(), &beside)?,
    );
    assert_eq!(lines(1, &alone.run), lines(1, &beside.run));
    assert_eq!(lines(1, &alone.run).len(), 9);
    Ok(())
}

/// A run goes on with a session that was used before, and makes each call.
#[test]
fn every_call() -> Result<(), Fail> {
    let mut session = Session::new(settings()).expect("settings that can be met");
    run_session(&mut session, &[receive(0, opus(1, 1))])?;
    let wait_limits = {
        let mut limits = codec_payload::jitter::WaitLimits::live();
        limits.hold_back = Some(0);
        limits.start = 0;
        limits.max_wait = None;
        limits
    };
    let steps = [
        SessionStep::SetWaitLimits {
            ssrc: 1,
            payload_type: OPUS,
            wait_limits,
        },
        SessionStep::AddPair {
            ssrc: 1,
            retransmission: 5,
        },
        SessionStep::Report {
            now: Ticks(5),
            ssrc: 1,
            payload_type: OPUS,
        },
        SessionStep::RemovePair { ssrc: 1 },
        SessionStep::RequestKeyframe { ssrc: 1 },
        SessionStep::Finish { now: Ticks(10) },
        poll(10),
        poll(10),
        poll(10),
        poll(10),
    ];
    let run = run_session(&mut session, &steps)?;
    assert!(matches!(run.answers[1], StepAnswer::PairAdded(Ok(()))));
    assert!(matches!(run.answers[2], StepAnswer::Reported(Some(block)) if block.ssrc == 1));
    assert!(matches!(
        run.answers[4],
        StepAnswer::KeyframeAsked(KeyframeAnswer::NotNegotiated)
    ));
    assert_eq!(lines(1, &run), ["begun", "unit [1, 7]", "ended ByCall"]);
    assert_eq!((run.counts.received, run.counts.ended), (1, 1));
    Ok(())
}
