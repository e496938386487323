//! The units of streams are their senders': the runs that `specs/Example.antt` and `specs/RedExample.antt` of `codec_payload_session_units`
//! describe, and one in which a stream ends.

use crate::Fail;
use crate::datagrams::*;
use codec_payload::history::*;
use codec_payload::red_writer::RedWriter;
use codec_payload::sender::{Sample, Sender, SenderSettings};
use codec_payload::session::runs::*;
use codec_payload::session::*;
use codec_payload::stream::RedSettings;
use codec_payload::*;

const AGAIN: RetransmissionStream = RetransmissionStream {
    ssrc: 8,
    payload_type: 112,
    first_number: 500,
};

/// The samples of both senders.
const FRAMES: [&[u8]; 3] = [&[1, 2], &[3, 4], &[5]];

fn settings() -> SessionSettings {
    let mut settings = SessionSettings::live();
    settings.audio.start = 0;
    settings.formats = vec![{
        let mut format = opus_format();
        format.retransmission = Some(AGAIN.payload_type);
        format
    }];
    settings
}

/// The datagrams of a sender of the three frames, whose numbers are 65,535, 0 and 1.
fn sent(ssrc: u32) -> Result<Vec<Vec<u8>>, Fail> {
    let settings = SenderSettings {
        first_number: 65_535,
        ..SenderSettings::for_stream(OPUS, ssrc, Frequency::FORTY_EIGHT_KHZ)
    };
    let packetizer = CodecPacketizer::from_codec(Codec::Opus).ok_or("no packetizer")?;
    let mut sender = Sender::new(packetizer, settings)?;
    let mut datagrams = Vec::new();
    for (place, bytes) in FRAMES.into_iter().enumerate() {
        sender.send(&Sample {
            rtp_time: MediaTime::new(960 * (place as u64 + 1), Frequency::FORTY_EIGHT_KHZ),
            bytes,
            start_of_talk_spurt: false,
            ext_vals: ExtensionValues::default(),
        })?;
        assert_eq!(sender.len(), 1);
        datagrams.push(sender.datagram(0).to_vec());
    }
    Ok(datagrams)
}

/// The retransmission of the second datagram.
fn again(datagrams: &[Vec<u8>]) -> Result<Vec<u8>, Fail> {
    let mut history = History::new(HistorySettings {
        limit: 10,
        interval: 0,
        stream: Some(AGAIN),
    })?;
    for datagram in datagrams {
        history.keep(datagram)?;
    }
    let mut out = Vec::new();
    assert_eq!(history.resend(Ticks(0), 0, &mut out)?, Resent::Written);
    Ok(out)
}

fn receive(now: u64, datagram: &[u8]) -> SessionStep {
    SessionStep::Receive {
        micros: None,
        now: Ticks(now),
        datagram: datagram.to_vec(),
    }
}

fn poll(now: u64) -> SessionStep {
    SessionStep::Poll { now: Ticks(now) }
}

/// The answer of a call, as a line.
fn line(answer: &StepAnswer) -> String {
    match answer {
        StepAnswer::Received(Ok(Arrival::Stream { ssrc, outcome, .. })) => {
            format!("{ssrc} {outcome:?}")
        }
        StepAnswer::Polled(Some(Event::Begun { ssrc, .. })) => format!("{ssrc} begun"),
        StepAnswer::Polled(Some(Event::Unit {
            ssrc,
            unit: Ok(unit),
            ..
        })) => format!("{ssrc} unit {:?}", unit.bytes),
        StepAnswer::Polled(Some(Event::Ended { ssrc, why, .. })) => format!("{ssrc} {why:?}"),
        StepAnswer::Polled(None) => "nothing".to_string(),
        other => format!("{other:?}"),
    }
}

fn lines(run: &SessionRun) -> Vec<String> {
    run.answers.iter().map(line).collect()
}

/// The units of a stream, in the order of its events.
fn units(ssrc: u32, run: &SessionRun) -> Vec<Vec<u8>> {
    run.answers
        .iter()
        .filter_map(|answer| match answer {
            StepAnswer::Polled(Some(Event::Unit {
                ssrc: own,
                unit: Ok(unit),
                ..
            })) if *own == ssrc => Some(unit.bytes.clone()),
            _ => None,
        })
        .collect()
}

/// Two senders at once. The second datagram of each is lost, and one stream gets a retransmission of it.
#[test]
fn two_senders_with_a_loss() -> Result<(), Fail> {
    let (first, other) = (sent(7)?, sent(9)?);
    let steps = [
        receive(20, &first[0]),
        receive(21, &other[0]),
        receive(60, &first[2]),
        receive(61, &other[2]),
        poll(62),
        poll(62),
        poll(62),
        poll(62),
        poll(62),
        SessionStep::AddPair {
            ssrc: 7,
            retransmission: AGAIN.ssrc,
        },
        receive(80, &again(&first)?),
        poll(80),
        poll(80),
        poll(80),
    ];
    let made = run_new_session(settings(), &steps)?;
    assert_eq!(
        lines(&made.run),
        [
            "7 Held",
            "9 Held",
            "7 Held",
            "9 Held",
            "7 begun",
            "7 unit [1, 2]",
            "9 begun",
            "9 unit [1, 2]",
            "nothing",
            "PairAdded(Ok(()))",
            "7 Held",
            "7 unit [3, 4]",
            "7 unit [5]",
            "nothing",
        ]
    );
    assert_eq!(units(7, &made.run), FRAMES);
    assert_eq!(units(9, &made.run), [FRAMES[0]]);
    Ok(())
}

/// The other stream waits for the lost datagram, and goes on after `max_wait`, with the unit behind it.
#[test]
fn the_unit_behind_a_loss_comes_after_the_wait() -> Result<(), Fail> {
    let other = sent(9)?;
    let mut steps = vec![receive(21, &other[0]), receive(61, &other[2])];
    steps.extend((0..8).map(|place| poll(62 + 30 * place)));
    // A late datagram, and arbitrary bytes.
    steps.push(receive(320, &other[1]));
    steps.push(receive(321, &[1, 2, 3]));
    steps.push(SessionStep::End {
        now: Ticks(330),
        ssrc: 9,
    });
    steps.extend([poll(330), poll(330)]);
    let made = run_new_session(settings(), &steps)?;
    assert_eq!(units(9, &made.run), [FRAMES[0], FRAMES[2]]);
    assert_eq!(
        lines(&made.run)[10..],
        [
            "9 Late",
            "Received(Ok(Malformed))",
            "Done",
            "9 ByCall",
            "nothing"
        ]
    );
    Ok(())
}

/// A sender in RED, whose second datagram is lost. The third one repeats its payload.
#[test]
fn a_sender_in_red_with_a_loss() -> Result<(), Fail> {
    let mut writer = RedWriter::new(RED, OPUS, &[1], 1_200)?;
    let mut written = Vec::new();
    for datagram in sent(7)? {
        let mut out = Vec::new();
        writer.write(&datagram, &mut out)?;
        written.push(out);
    }
    let mut settings = SessionSettings::live();
    settings.audio.start = 0;
    settings.formats = vec![{
        let mut format = opus_format();
        format.red = Some(RedSettings {
            payload_type: RED,
            step: 960,
            retransmission: None,
        });
        format
    }];
    let mut steps = vec![receive(20, &written[0]), receive(60, &written[2])];
    steps.extend([poll(62), poll(62), poll(62), poll(62), poll(62)]);
    let made = run_new_session(settings, &steps)?;
    assert_eq!(
        lines(&made.run),
        [
            "7 Held",
            "7 Held",
            "7 begun",
            "7 unit [1, 2]",
            "7 unit [3, 4]",
            "7 unit [5]",
            "nothing",
        ]
    );
    Ok(())
}
