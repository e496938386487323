//! The runs of the theorems that premises can be met. A theorem has values of samples, steps, parts and results, and says: a run with
//! these results meets the premises. Each test makes the parts by their constructors, executes the run, and finds these results.
//!
//! The sixteen theorems, each with a test of the same name (`scripts/documents.py` compares the names with the theorems): in this file
//! `premises_can_be_met`, `times_can_be_met`, `history_premises_can_be_met`, `restart_premises_can_be_met`, `red_premises_can_be_met`,
//! `red_history_premises_can_be_met`, `forwarding_premises_can_be_met`, `leaving_premises_can_be_met` and
//! `switching_premises_can_be_met`; in `witness_runs` `store_premises_can_be_met`, `switched_units_premises_can_be_met`,
//! `switched_back_premises_can_be_met`, `serving_premises_can_be_met`, `serving_with_store_premises_can_be_met` and
//! `serving_leaving_out_premises_can_be_met`; in `witness_answers` `answers_can_be_met`.

use crate::Fail;
use crate::forwarded_again::opus_samples;
use crate::sides::{receiver_settings, sender_settings};
use codec_payload::buffer::Depacketized;
use codec_payload::codec::{CodecDepacketizer, CodecPacketizer, NoBox};
use codec_payload::forward::{ForwardSettings, Forwarded, Forwarder};
use codec_payload::history::{History, HistorySettings, Resent, RetransmissionStream};
use codec_payload::jitter::jitter_buffer::WaitLimits;
use codec_payload::red_writer::RedWriter;
use codec_payload::rtp::{ExtensionIds, RtpPacket};
use codec_payload::schedule::datagrams::{
    DatagramRun, DatagramStep, HistoryStep, Link, Part, RedHistoryLink, RedLink, run_datagrams,
    run_datagrams_in_red, run_in_red_with_history, run_with_history, run_with_restarts,
};
use codec_payload::schedule::forwarded::{
    ForwardLink, ForwardStep, ForwardedRun, LeaveStep, Source, SwitchLink, SwitchStep,
    run_forwarded, run_forwarded_leaving_out, run_forwarded_switching,
};
use codec_payload::sender::{Sender, SenderSettings};
use codec_payload::stream::RedSettings;
use codec_payload::stream::receiver::{Receiver, ReceiverSettings, Retransmission};
use codec_payload::vp8::Vp8Packetizer;
use codec_payload::wire::{Codec, Frequency, MediaTime, Pt, Ticks, ToPayload};

const HISTORY: HistorySettings = HistorySettings {
    limit: 500,
    interval: 20,
    stream: Some(RetransmissionStream {
        ssrc: 8,
        payload_type: 112,
        first_number: 7,
    }),
};

pub fn send(sample: usize) -> DatagramStep {
    DatagramStep::Send(sample)
}

pub fn deliver(datagram: usize, now: u64) -> DatagramStep {
    DatagramStep::Deliver {
        datagram,
        now: Ticks(now),
    }
}

pub fn pop(now: u64) -> DatagramStep {
    DatagramStep::Pop { now: Ticks(now) }
}

/// A sender whose numbers begin with 65,535, with these changes of its settings.
pub fn sender(
    codec: Codec,
    change: impl FnOnce(&mut SenderSettings),
) -> Result<Sender<NoBox>, Fail> {
    let mut settings = SenderSettings {
        payload_type: 111,
        clock_rate: Frequency::make(48_000).ok_or("a rate")?,
        mtu: 1_200,
        ..sender_settings()?
    };
    change(&mut settings);
    let packetizer = CodecPacketizer::from_codec(codec).ok_or("no packetizer")?;
    Ok(Sender::new(packetizer, settings).map_err(|_| "settings out of range")?)
}

/// A sender of VP8 whose picture ids begin with 300, with these changes of its settings.
pub fn sender_of_ids(change: impl FnOnce(&mut SenderSettings)) -> Result<Sender<NoBox>, Fail> {
    let mut settings = SenderSettings {
        payload_type: 111,
        clock_rate: Frequency::make(48_000).ok_or("a rate")?,
        mtu: 1_200,
        ..sender_settings()?
    };
    change(&mut settings);
    let packetizer = CodecPacketizer::Vp8(Vp8Packetizer::with_picture_id(300));
    Ok(Sender::new(packetizer, settings).map_err(|_| "settings out of range")?)
}

/// A receiver of that sender, with these changes of its settings.
pub fn receiver(
    codec: Codec,
    change: impl FnOnce(&mut ReceiverSettings),
) -> Result<Receiver<NoBox>, Fail> {
    let limits = {
        let mut limits = WaitLimits::live();
        limits.hold_back = None;
        limits.start = 1;
        limits.max_wait = Some(100);
        limits
    };
    let mut settings = {
        let mut settings = receiver_settings(limits)?;
        settings.payload_type = 111;
        settings.clock_rate = Frequency::make(48_000).ok_or("a rate")?;
        settings
    };
    change(&mut settings);
    let depacketizer = CodecDepacketizer::from_codec(codec).ok_or("no depacketizer")?;
    Ok(Receiver::new(depacketizer, settings).map_err(|_| "settings out of range")?)
}

/// Samples with these times of 48 kHz and bytes.
pub fn samples(frames: &[(u64, &[u8])]) -> Result<Vec<ToPayload>, Fail> {
    let rate = Frequency::make(48_000).ok_or("a rate")?;
    let made = frames.iter().map(|(ticks, frame)| ToPayload {
        pt: Pt::new_with_value(111),
        rtp_time: MediaTime::new(*ticks, rate),
        ..crate::sides::sample_of(0, frame)
    });
    Ok(made.collect())
}

/// Each sample was sent in one datagram.
#[track_caller]
pub fn sent_one_each(run: &DatagramRun, count: usize) {
    assert!(
        run.sends
            .iter()
            .all(|it| it.count == 1 && it.fault.is_none())
    );
    assert_eq!((run.sends.len(), run.datagrams.len()), (count, count));
}

/// The units of the pops.
pub fn units(run: &DatagramRun) -> Result<Vec<Vec<u8>>, Fail> {
    let mut found = Vec::new();
    for answer in run.pops.iter().flatten() {
        found.push(answer.as_ref().map_err(|_| "a fault")?.bytes.clone());
    }
    Ok(found)
}

/// The three frames of Opus.
pub const FRAMES: [&[u8]; 3] = [&[1, 2], &[3, 4], &[5]];

#[test]
fn premises_can_be_met() -> Result<(), Fail> {
    let steps = [
        send(0),
        send(1),
        deliver(1, 25),
        send(2),
        deliver(0, 27),
        deliver(2, 40),
        deliver(1, 41),
        DatagramStep::Finish,
        pop(42),
        pop(42),
        pop(42),
    ];
    let mut of_sender = sender(Codec::Opus, |_| {})?;
    let mut of_receiver = receiver(Codec::Opus, |_| {})?;
    let run = run_datagrams(&mut of_sender, &mut of_receiver, &opus_samples()?, &steps)?;
    sent_one_each(&run, 3);
    assert_eq!(run.receipts.len(), 4);
    assert_eq!(units(&run)?, FRAMES);
    Ok(())
}

/// A frame of AV1 with an orientation, whose element has the id 3.
#[test]
fn premises_can_be_met_by_a_frame_with_a_value() -> Result<(), Fail> {
    let ids = {
        let mut ids = ExtensionIds::default();
        ids.video_orientation = Some(3);
        ids
    };
    let mut of_sender = sender(Codec::Av1, |it| it.extension_ids = ids)?;
    let mut of_receiver = receiver(Codec::Av1, |it| it.extension_ids = ids)?;
    let mut frames = samples(&[(960, &[0x32, 1, 0])])?;
    frames[0].ext_vals.video_orientation = Some(1);
    let steps = [send(0), deliver(0, 25), pop(26)];
    let run = run_datagrams(&mut of_sender, &mut of_receiver, &frames, &steps)?;
    sent_one_each(&run, 1);
    let read = RtpPacket::parse(&run.datagrams[0])?;
    let values = ids.values(&read.header.extension);
    assert_eq!(values.video_orientation, Some(1));
    Ok(())
}

/// The second datagram is lost, and the third frame waits for it.
#[test]
fn times_can_be_met() -> Result<(), Fail> {
    let steps = [
        send(0),
        deliver(0, 25),
        pop(25),
        send(1),
        send(2),
        deliver(2, 65),
        pop(65),
        pop(65),
        pop(165),
        pop(165),
    ];
    let mut of_sender = sender(Codec::Opus, |_| {})?;
    let mut of_receiver = receiver(Codec::Opus, |_| {})?;
    let run = run_datagrams(&mut of_sender, &mut of_receiver, &opus_samples()?, &steps)?;
    sent_one_each(&run, 3);
    let mut found = Vec::new();
    for answer in run.pops {
        found.push(answer.transpose().map_err(|_| "a fault")?);
    }
    let numbers = |place: usize| {
        let unit: &Option<Depacketized> = &found[place];
        unit.as_ref()
            .map(|it| (it.bytes.clone(), it.meta()[0].seq_no.0, it.contiguous))
    };
    assert_eq!(numbers(0), None);
    assert_eq!(numbers(1), Some((FRAMES[0].to_vec(), 131_071, true)));
    assert_eq!(numbers(2), None);
    assert_eq!(numbers(3), Some((FRAMES[2].to_vec(), 131_073, false)));
    assert_eq!(numbers(4), None);
    assert_eq!(found.len(), 5);
    Ok(())
}

#[test]
fn history_premises_can_be_met() -> Result<(), Fail> {
    let mut link = Link {
        sender: sender(Codec::Opus, |_| {})?,
        history: History::new(HISTORY)?,
        receiver: receiver(Codec::Opus, |it| {
            it.retransmission = Some(Retransmission {
                ssrc: 8,
                payload_type: 112,
            });
        })?,
    };
    let resend = |now| HistoryStep::Resend {
        number: 0,
        now: Ticks(now),
    };
    let first = [send(0), send(1), deliver(0, 25), send(2), deliver(2, 65)].map(HistoryStep::Plain);
    let again = HistoryStep::DeliverAgain {
        retransmission: 1,
        now: Ticks(120),
    };
    let last = [DatagramStep::Finish, pop(121), pop(121), pop(121)].map(HistoryStep::Plain);
    let steps = [
        &first[..],
        &[resend(80), resend(90), resend(105), again],
        &last,
    ]
    .concat();
    let run = run_with_history(&mut link, &opus_samples()?, &steps)?;
    sent_one_each(&run.run, 3);
    assert_eq!(
        run.answers,
        [Resent::Written, Resent::TooSoon, Resent::Written]
    );
    assert_eq!(units(&run.run)?, FRAMES);
    Ok(())
}

#[test]
fn restart_premises_can_be_met() -> Result<(), Fail> {
    let mut senders = [
        sender(Codec::Opus, |_| {})?,
        sender(Codec::Opus, |it| it.ssrc = 9)?,
    ];
    let parts = [
        Part {
            ssrc: None,
            steps: vec![
                send(0),
                send(1),
                deliver(1, 25),
                deliver(0, 27),
                DatagramStep::Finish,
                pop(30),
                pop(30),
            ],
        },
        Part {
            ssrc: Some(9),
            steps: vec![send(2), deliver(0, 60), DatagramStep::Finish, pop(61)],
        },
    ];
    let mut of_receiver = receiver(Codec::Opus, |_| {})?;
    let runs = run_with_restarts(&mut senders, &mut of_receiver, &opus_samples()?, &parts)?;
    sent_one_each(&runs[0], 2);
    sent_one_each(&runs[1], 1);
    assert_eq!(units(&runs[0])?, FRAMES[..2]);
    assert_eq!(units(&runs[1])?, FRAMES[2..]);
    Ok(())
}

/// A sender, a writer of RED that repeats the payload before, and a receiver.
fn red_link(retransmission: Option<u8>) -> Result<RedLink<NoBox, NoBox>, Fail> {
    Ok(RedLink {
        sender: sender(Codec::Opus, |_| {})?,
        writer: RedWriter::new(63, 111, &[1], 1_200).map_err(|_| "settings out of range")?,
        receiver: receiver(Codec::Opus, |it| {
            it.red = Some(RedSettings {
                payload_type: 63,
                step: 960,
                retransmission,
            });
            it.retransmission = retransmission.map(|_| Retransmission {
                ssrc: 8,
                payload_type: 113,
            });
        })?,
    })
}

#[test]
fn red_premises_can_be_met() -> Result<(), Fail> {
    let steps = [
        send(0),
        deliver(0, 25),
        send(1),
        send(2),
        deliver(2, 65),
        DatagramStep::Finish,
        pop(66),
        pop(66),
        pop(66),
    ];
    let run = run_datagrams_in_red(&mut red_link(None)?, &opus_samples()?, &steps)?;
    sent_one_each(&run.run, 3);
    assert_eq!(run.written.len(), 3);
    assert_eq!(units(&run.run)?, FRAMES);
    Ok(())
}

#[test]
fn red_history_premises_can_be_met() -> Result<(), Fail> {
    let mut link = RedHistoryLink {
        red: red_link(Some(112))?,
        history: History::new(HISTORY)?,
    };
    let first = [send(0), deliver(0, 25), send(1), send(2)].map(HistoryStep::Plain);
    let resend = HistoryStep::Resend {
        number: 1,
        now: Ticks(60),
    };
    let again = HistoryStep::DeliverAgain {
        retransmission: 0,
        now: Ticks(65),
    };
    let last = [DatagramStep::Finish, pop(66), pop(66), pop(66)].map(HistoryStep::Plain);
    let steps = [&first[..], &[resend, again], &last].concat();
    let run = run_in_red_with_history(&mut link, &opus_samples()?, &steps)?;
    sent_one_each(&run.red.run, 3);
    assert_eq!(run.answers, [Resent::Written]);
    assert_eq!(units(&run.red.run)?, FRAMES);
    Ok(())
}

/// A sender, a forwarder that wants its stream, and the receiver of a viewer.
pub fn forward_link(codec: Codec) -> Result<ForwardLink<NoBox, NoBox>, Fail> {
    let mut forwarder = Forwarder::new(ForwardSettings {
        codec,
        ssrc: 9,
        payload_type: 109,
        first_number: 100,
        first_time: 5_000,
        retransmissions: None,
    })?;
    forwarder.want(7);
    Ok(ForwardLink {
        sender: sender(codec, |_| {})?,
        forwarder,
        receiver: receiver(codec, |it| (it.payload_type, it.ssrc) = (109, Some(9)))?,
    })
}

pub fn forward(datagram: usize, now: u64) -> ForwardStep {
    ForwardStep::Forward { datagram, now }
}

pub fn deliver_written(written: usize, now: u64) -> ForwardStep {
    ForwardStep::Deliver {
        written,
        now: Ticks(now),
    }
}

/// Number, time and payload of each written datagram.
pub fn written(run: &ForwardedRun) -> Result<Vec<(u16, u32, Vec<u8>)>, Fail> {
    let mut found = Vec::new();
    for datagram in &run.written {
        let packet = RtpPacket::parse(datagram)?;
        assert_eq!((packet.header.ssrc, packet.header.payload_type), (9, 109));
        found.push((
            packet.header.sequence_number,
            packet.header.timestamp,
            packet.payload.to_vec(),
        ));
    }
    Ok(found)
}

#[test]
fn forwarding_premises_can_be_met() -> Result<(), Fail> {
    let pop = ForwardStep::Pop { now: Ticks(44) };
    let steps = [
        ForwardStep::Send(0),
        forward(0, 0),
        ForwardStep::Send(1),
        ForwardStep::Send(2),
        forward(2, 1_920),
        forward(1, 1_920),
        deliver_written(1, 40),
        deliver_written(0, 41),
        deliver_written(2, 42),
        deliver_written(1, 43),
        ForwardStep::Finish,
        pop,
        pop,
        pop,
    ];
    let run = run_forwarded(&mut forward_link(Codec::Opus)?, &opus_samples()?, &steps)?;
    sent_one_each(&run.run, 3);
    assert_eq!(
        run.answers,
        [Forwarded::Began, Forwarded::Written, Forwarded::Written]
    );
    let payload = |frame: usize| FRAMES[frame].to_vec();
    assert_eq!(
        written(&run)?,
        [
            (100, 5_000, payload(0)),
            (102, 6_920, payload(2)),
            (101, 5_960, payload(1))
        ]
    );
    assert_eq!(units(&run.run)?, FRAMES);
    Ok(())
}

/// A keyframe of VP8, without picture ids and with ids from 300 on: the viewer gets the id 0, in two bytes too.
#[test]
fn forwarding_premises_can_be_met_by_a_keyframe() -> Result<(), Fail> {
    let frame = [(960, &[0, 1, 0][..])];
    let steps = [
        ForwardStep::Send(0),
        forward(0, 0),
        deliver_written(0, 40),
        ForwardStep::Pop { now: Ticks(41) },
    ];
    let plain = forward_link(Codec::Vp8)?;
    let with_ids = ForwardLink {
        sender: sender_of_ids(|_| {})?,
        ..forward_link(Codec::Vp8)?
    };
    let seen = [&[0x10, 0, 1, 0][..], &[0x90, 0x80, 0x80, 0, 0, 1, 0]];
    for (mut link, payload) in [plain, with_ids].into_iter().zip(seen) {
        let run = run_forwarded(&mut link, &samples(&frame)?, &steps)?;
        sent_one_each(&run.run, 1);
        assert_eq!(run.answers, [Forwarded::Began]);
        assert_eq!(written(&run)?, [(100, 5_000, payload.to_vec())]);
    }
    Ok(())
}

/// The second of three frames is left out. Of VP8 with ids from 300 on the viewer gets the ids 0 and 1.
#[test]
fn leaving_premises_can_be_met() -> Result<(), Fail> {
    let pop = LeaveStep::Plain(ForwardStep::Pop { now: Ticks(44) });
    let steps = [
        LeaveStep::Plain(ForwardStep::Send(0)),
        LeaveStep::Plain(forward(0, 0)),
        LeaveStep::Plain(ForwardStep::Send(1)),
        LeaveStep::LeaveOut { datagram: 1 },
        LeaveStep::Plain(ForwardStep::Send(2)),
        LeaveStep::Plain(forward(2, 1_920)),
        LeaveStep::Plain(deliver_written(1, 40)),
        LeaveStep::Plain(deliver_written(0, 41)),
        LeaveStep::Plain(ForwardStep::Finish),
        pop,
        pop,
    ];
    let ids = ForwardLink {
        sender: sender_of_ids(|_| {})?,
        ..forward_link(Codec::Vp8)?
    };
    let of_vp8 = [(960, &[0, 1, 0][..]), (1_920, &[1]), (2_880, &[1, 2])];
    let payloads = [
        [FRAMES[0], FRAMES[2]],
        [
            &[0x90, 0x80, 0x80, 0, 0, 1, 0],
            &[0x90, 0x80, 0x80, 1, 1, 2],
        ],
    ];
    let frames = [[FRAMES[0], FRAMES[2]], [&[0, 1, 0], &[1, 2]]];
    let runs = [
        (forward_link(Codec::Opus)?, opus_samples()?),
        (ids, samples(&of_vp8)?),
    ];
    for (place, (mut link, sent)) in runs.into_iter().enumerate() {
        let run = run_forwarded_leaving_out(&mut link, &sent, &steps)?;
        sent_one_each(&run.run, 3);
        assert_eq!(
            run.answers,
            [Forwarded::Began, Forwarded::LeftOut, Forwarded::Written]
        );
        let [first, third] = payloads[place].map(<[u8]>::to_vec);
        assert_eq!(written(&run)?, [(100, 5_000, first), (101, 6_920, third)]);
        assert_eq!(units(&run.run)?, frames[place]);
    }
    Ok(())
}

/// The first datagram of the second source comes before the forwarder wants that source.
#[test]
fn switching_premises_can_be_met() -> Result<(), Fail> {
    let mut link = SwitchLink {
        link: forward_link(Codec::Opus)?,
        second: sender(Codec::Opus, |it| (it.ssrc, it.first_number) = (8, 500))?,
    };
    let first = |step| SwitchStep::Of(Source::First, step);
    let second = |step| SwitchStep::Of(Source::Second, step);
    let pop = first(ForwardStep::Pop { now: Ticks(42) });
    let steps = [
        first(ForwardStep::Send(0)),
        first(forward(0, 0)),
        second(ForwardStep::Send(1)),
        second(forward(0, 960)),
        SwitchStep::Want { ssrc: 8 },
        second(ForwardStep::Send(2)),
        second(forward(1, 1_920)),
        first(deliver_written(1, 40)),
        first(deliver_written(0, 41)),
        first(ForwardStep::Finish),
        pop,
        pop,
    ];
    let run = run_forwarded_switching(&mut link, &opus_samples()?, &steps)?;
    sent_one_each(&run.run.run, 1);
    assert!(run.second.sends.iter().all(|it| it.count == 1));
    assert_eq!((run.second.sends.len(), run.second.datagrams.len()), (2, 2));
    assert_eq!(
        run.run.answers,
        [Forwarded::Began, Forwarded::OtherSource, Forwarded::Began]
    );
    let numbers: Vec<_> = written(&run.run)?.into_iter().map(|it| it.0).collect();
    assert_eq!(numbers, [100, 101]);
    Ok(())
}
