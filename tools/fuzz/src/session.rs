//! A session under any settings, datagrams, times and calls.

mod datagrams;
mod watch;

use crate::formats::spec;
use crate::input::Input;
use codec_payload::jitter::WaitLimits;
use codec_payload::keyframes::FromKeyframe;
use codec_payload::requests::NackSettings;
use codec_payload::session::{FeedbackSettings, Format, SessionSettings, SsrcPair, StreamNameIds};
use codec_payload::stream::RedSettings;
use codec_payload::{Codec, CodecSpec, Frequency};
use watch::Watch;

/// The SSRC of the session.
pub const OWN: u32 = 77;

/// A format with RED and retransmissions, Opus, and in one of eight cases a format that can begin no stream: RED has its own payload
/// type, or step 0.
fn formats(input: &mut Input) -> Vec<Format> {
    let how = input.byte();
    let opus = CodecSpec {
        codec: Codec::Opus,
        clock_rate: Frequency::FORTY_EIGHT_KHZ,
        octet_align: false,
    };
    let red = |payload_type, step| {
        Some(RedSettings {
            payload_type,
            step,
            retransmission: Some(99),
        })
    };
    let format = |payload_type, spec, red| {
        let mut format = Format::new(payload_type, spec);
        format.red = red;
        format.nack = how & 1 == 0;
        format.pli = how & 2 == 0;
        format
    };
    let mut first = format(96, spec(input), red(63, 90));
    first.retransmission = (how & 4 == 0).then_some(98);
    let mut formats = vec![first, format(100, opus, None)];
    match how >> 4 {
        0 => formats.push(format(102, opus, red(102, 90))),
        1 => formats.push(format(103, opus, red(61, 0))),
        _ => {}
    }
    formats
}

fn wait_limits(input: &mut Input) -> WaitLimits {
    let how = input.byte();
    {
        let mut limits = WaitLimits::live();
        limits.hold_back = (how & 1 != 0).then_some(usize::from(how >> 4));
        limits.start = usize::from(how >> 1 & 3);
        limits.max_wait = (how & 8 == 0).then(|| u64::from(input.byte()));
        limits
    }
}

/// Requests with any times, at most 7 of a number, and at least a tick between two of a keyframe.
fn feedback(input: &mut Input) -> FeedbackSettings {
    let how = input.byte();
    {
        let mut it = FeedbackSettings::live(OWN, b"me@host".to_vec());
        it.cname = vec![b'n'; 1 + usize::from(how >> 4) * 16];
        it.has_report = how & 1 != 0;
        it.nack = {
            let mut settings = NackSettings::live();
            settings.first_wait = (input.byte() % 32).into();
            settings.retry = input.byte().into();
            settings.shortest_retry = input.byte().into();
            settings.longest_retry = input.byte().into();
            settings.tries = (how >> 1 & 7).into();
            settings.capacity = input.byte().into();
            settings
        };
        it.keyframe_interval = input.byte().into();
        it.silence = input.word().into();
        it.longest_wait = (how & 8 == 0).then(|| input.word().into());
        it.report_interval = (how & 16 == 0).then(|| input.word().into());
        it.max_report = input.word() as usize;
        it
    }
}

fn settings(input: &mut Input) -> SessionSettings {
    let how = input.byte();
    {
        let mut settings = SessionSettings::live();
        settings.formats = formats(input);
        settings.no_media = vec![13];
        settings.telephone_events = vec![97];
        settings.pairs = vec![SsrcPair {
            ssrc: 1,
            retransmission: 2,
        }];
        settings.audio = wait_limits(input);
        settings.video = wait_limits(input);
        settings.from_keyframe =
            [FromKeyframe::Off, FromKeyframe::Mark, FromKeyframe::Drop][usize::from(how & 3) % 3];
        settings.limit = if how & 4 == 0 {
            4_096
        } else {
            1 + usize::from(input.byte() % 16)
        };
        settings.max_streams = usize::from(how >> 3 & 3) + usize::from(how & 128 == 0);
        settings.probation = (how >> 5 & 3).into();
        settings.idle_timeout = input.word().into();
        settings.bye_wait = input.byte().into();
        settings.feedback = (input.byte() < 192).then(|| feedback(input));
        settings.name_ids = {
            let mut ids = StreamNameIds::default();
            ids.mid = Some(3);
            ids.rid = Some(4);
            ids.repaired_rid = Some(5);
            ids
        };
        settings.dependency_descriptor = Some(2);
        settings
    }
}

/// Any calls of a session, and the properties that [`Watch`] checks after each.
pub fn session(input: &mut Input) {
    let settings = settings(input);
    let begin = if input.byte() == 255 {
        u64::MAX - 9_999
    } else {
        0
    };
    let Some(mut watch) = Watch::new(settings, begin) else {
        return;
    };
    let mut numbers = [0, 0, 65_500, 0, 0];
    while !input.is_empty() {
        let how = input.byte();
        match how >> 3 {
            0..5 => watch.drain(),
            5 => watch.wait(input.byte().into()),
            6 => watch.wait(input.word().into()),
            7 => watch.wait_for_deadline(),
            8 if how & 7 == 0 => watch.set_wait_limits(wait_limits(input)),
            8 if how & 7 == 7 && input.byte() < 8 => watch.finish(),
            8 => watch.end((how & 7).into()),
            9 => watch.receive(input.some()),
            10..13 => watch.receive(&datagrams::rtcp(input)),
            _ => watch.receive(&datagrams::rtp(how % 5, &mut numbers, input)),
        }
        watch.assert_counts();
    }
    watch.finish_all();
}
