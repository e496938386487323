//! Sessions of both, side by side.

use super::input::Input;
use super::{Compared, OUT_OF_MEMORY, codec, proved_session};
use codec_payload::jitter::Outcome;
use codec_payload::keyframes::FromKeyframe;
use codec_payload::session::{
    Arrival, Ending, Event, FeedbackSettings, Format, Session, SessionSettings, SsrcPair,
    StreamName, StreamNameIds, Waiting,
};
use codec_payload::stream::{ReceiveError, RedSettings};
use codec_payload::{Codec, CodecSpec, Frequency, Ticks};

/// The formats of the port: this one with RED and retransmissions, and Opus, which waits as long as packets are late.
fn formats(spec: CodecSpec) -> Vec<Format> {
    let opus = CodecSpec {
        codec: Codec::Opus,
        clock_rate: Frequency::FORTY_EIGHT_KHZ,
        octet_align: false,
    };
    let format = |payload_type, spec, red, retransmission| {
        let mut format = Format::new(payload_type, spec);
        format.red = red;
        format.retransmission = retransmission;
        format.nack = true;
        format.pli = true;
        format
    };
    let red = RedSettings {
        payload_type: 63,
        step: 90,
        retransmission: Some(99),
    };
    let mut second = format(100, opus, None, None);
    second.wait = Waiting::Late;
    vec![format(96, spec, Some(red), Some(98)), second]
}

/// Settings, and the same as values of shim.c.
fn settings(spec: CodecSpec, input: &mut Input) -> (SessionSettings, [u64; 8]) {
    let mut ours = SessionSettings::live();
    let max_wait = u64::from(input.byte());
    let start = input.byte() % 4;
    ours.formats = formats(spec);
    ours.no_media = vec![13];
    ours.telephone_events = vec![97];
    ours.pairs = vec![SsrcPair {
        ssrc: 1,
        retransmission: 2,
    }];
    for limits in [&mut ours.audio, &mut ours.video] {
        limits.max_wait = Some(max_wait);
        limits.start = start.into();
    }
    ours.limit = usize::from(input.byte()) + 1;
    ours.max_streams = usize::from(input.byte() % 4) + 1;
    ours.probation = u64::from(input.byte() % 4);
    ours.idle_timeout = u64::from(input.word());
    ours.bye_wait = u64::from(input.byte());
    let from_keyframe = input.byte() % 3;
    ours.feedback = Some(FeedbackSettings::live(77, b"me@host".to_vec()));
    ours.name_ids = {
        let mut ids = StreamNameIds::default();
        ids.mid = Some(3);
        ids.rid = Some(4);
        ids.repaired_rid = Some(5);
        ids
    };
    ours.dependency_descriptor = Some(2);
    ours.from_keyframe =
        [FromKeyframe::Off, FromKeyframe::Mark, FromKeyframe::Drop][usize::from(from_keyframe)];
    let values = [
        max_wait,
        start.into(),
        ours.limit as u64,
        ours.max_streams as u64,
        ours.probation,
        ours.idle_timeout,
        ours.bye_wait,
        from_keyframe.into(),
    ];
    (ours, values)
}

/// A datagram of one of five SSRCs, near the number before; sometimes a BYE, or any bytes.
fn datagram(how: u8, numbers: &mut [u16; 5], input: &mut Input) -> Vec<u8> {
    let ssrc = how & 7;
    if ssrc > 5 {
        return input.some().to_vec();
    }
    if ssrc == 6 {
        // A sender report (RFC 3550, section 6.4.1).
        let mut bytes = vec![0x80, 200, 0, 6, 0, 0, 0, input.byte() % 5];
        bytes.extend((0..10).flat_map(|_| input.word().to_be_bytes()));
        return bytes;
    }
    if ssrc == 5 {
        return vec![0x81, 203, 0, 1, 0, 0, 0, input.byte() % 5];
    }
    let number = &mut numbers[usize::from(ssrc)];
    let step = input.byte();
    *number = match step {
        0 => input.word(),
        1..16 => number.wrapping_sub(step.into()),
        16..32 => number.wrapping_add(u16::from(step - 14)),
        _ => number.wrapping_add(1),
    };
    let flags = input.byte();
    let payload_type = if ssrc == 2 && flags & 8 == 0 {
        98 + (flags >> 1 & 1)
    } else {
        [96, 96, 96, 63, 100, 97, 98, 77][usize::from(flags >> 4 & 7)]
    };
    let mut bytes = vec![0x80, payload_type | (flags & 1) << 7];
    bytes.extend(number.to_be_bytes());
    bytes.extend(u32::to_be_bytes(u32::from(*number / 3) * 90));
    bytes.extend(u32::to_be_bytes(ssrc.into()));
    if step & 48 == 48 {
        // A header extension with one element of the one-byte form (RFC 8285, section 4.2): a name, or a dependency descriptor of one
        // of two templates, some with the structure.
        let id = step % 4 + 2;
        let structure: &[u8] = if id == 2 && flags & 4 != 0 {
            &[0x80, 0, 0x3f, 0x40, 0]
        } else {
            &[]
        };
        let (words, size) = (1 + structure.len().div_ceil(4), 3 + structure.len());
        let mask = if id == 2 { 0xc1 } else { 0xff };
        bytes[0] |= 0x10;
        bytes.extend([0xbe, 0xde, 0, words as u8, id << 4 | (size - 1) as u8]);
        bytes.extend([input.byte() & mask, flags, step]);
        bytes.extend(structure);
        bytes.resize(16 + 4 * words, 0);
    }
    if payload_type == 98 || payload_type == 99 {
        bytes.extend(numbers[1].wrapping_sub(u16::from(flags & 7)).to_be_bytes());
    }
    bytes.extend(input.some());
    bytes
}

/// The fields of an event and of its unit, and its bytes. The error of a frame is its text.
fn told(event: Event) -> ([u64; 12], Vec<u8>, Option<String>) {
    let mut it = [0; 12];
    let mut stream = |kind: u64, ssrc: u32, payload_type: u8| {
        (it[0], it[1], it[2]) = (kind, ssrc.into(), payload_type.into());
    };
    match event {
        Event::Begun { ssrc, payload_type } => stream(0, ssrc, payload_type),
        Event::Feedback {
            ssrc,
            payload_type,
            packet,
        } => {
            stream(4, ssrc, payload_type);
            return (it, packet.expect("there is memory"), None);
        }
        Event::Telephone {
            ssrc,
            payload_type,
            rtp_time,
            marker,
            payload,
        } => {
            stream(6, ssrc, payload_type);
            (it[7], it[11]) = (rtp_time.into(), marker.into());
            return (it, payload, None);
        }
        Event::Report { packet } => {
            stream(5, 0, 0);
            return (it, packet.expect("there is memory"), None);
        }
        Event::TransportFeedback { packet } => {
            stream(7, 0, 0);
            return (it, packet.expect("there is memory"), None);
        }
        Event::Ended {
            ssrc,
            payload_type,
            why,
        } => {
            stream(3, ssrc, payload_type);
            it[4] = match why {
                Ending::Bye => 0,
                Ending::Timeout => 1,
                Ending::ByCall => 2,
                Ending::Changed => 3,
                _ => unreachable!("this version has no other"),
            };
        }
        Event::Unit {
            ssrc,
            payload_type,
            rtp_time,
            decodable,
            keyframe,
            unit,
        } => {
            let unit = unit.expect("there is memory");
            stream(1, ssrc, payload_type);
            let range = unit.seq_range();
            it[5..].copy_from_slice(&[
                range.start().0,
                range.end().0,
                rtp_time.unwrap_or(0),
                unit.contiguous.into(),
                decodable.into(),
                keyframe.into(),
                unit.start_of_talkspurt().into(),
            ]);
            return (it, unit.bytes, None);
        }
        Event::TooLarge {
            ssrc, payload_type, ..
        } => {
            stream(2, ssrc, payload_type);
            return (it, Vec::new(), Some("TooLarge".into()));
        }
        Event::Refused {
            ssrc,
            payload_type,
            fault,
        } => {
            stream(2, ssrc, payload_type);
            return (it, Vec::new(), Some(format!("{fault:?}")));
        }
        _ => unreachable!("this version has no other"),
    }
    (it, Vec::new(), None)
}

fn poll(
    ours: &mut Session,
    theirs: &mut proved_session::Session,
    now: u64,
    compared: &mut Compared,
) -> bool {
    compared.calls += 1;
    let (ours, (mut fields, bytes)) = match (ours.poll(Ticks(now)), theirs.poll(now)) {
        (None, None) => return false,
        (Some(ours), Some(theirs)) => (ours, theirs),
        (ours, theirs) => panic!("{ours:?} and {theirs:?}"),
    };
    let (wanted, given, fault) = told(ours);
    if let Some(fault) = fault {
        assert_ne!(fields[3], OUT_OF_MEMORY.into(), "{fault}");
        compared.fault(&fault, fields[3] as u32);
        fields[3] = 0;
    }
    assert_eq!((wanted, given), (fields, bytes));
    true
}

fn receive(
    ours: &mut Session,
    theirs: &mut proved_session::Session,
    now: u64,
    datagram: &[u8],
    compared: &mut Compared,
) {
    compared.calls += 1;
    let found = theirs.receive(now, datagram);
    let wanted = match ours.receive(Ticks(now), datagram).expect("there is memory") {
        Arrival::Stream {
            ssrc,
            payload_type,
            outcome,
        } => {
            let answer: Result<Outcome, ReceiveError> = Ok(outcome);
            // Each outcome and each fault has a number.
            compared.fault(&answer, (found[3] << 8 | found[4]) as u32);
            [0, ssrc.into(), payload_type.into(), found[3], found[4]]
        }
        Arrival::Faulty {
            ssrc,
            payload_type,
            fault,
        } => {
            let answer: Result<Outcome, ReceiveError> = Err(fault);
            assert_ne!(found[3], OUT_OF_MEMORY.into(), "{fault:?}");
            compared.fault(&answer, (found[3] << 8 | found[4]) as u32);
            [0, ssrc.into(), payload_type.into(), found[3], found[4]]
        }
        Arrival::Rtcp => [1, 0, 0, 0, 0],
        Arrival::Malformed => [2, 0, 0, 0, 0],
        Arrival::Unknown => [3, 0, 0, 0, 0],
        Arrival::Refused => [4, 0, 0, 0, 0],
        Arrival::Unassociated => [5, 0, 0, 0, 0],
        _ => unreachable!("this version has no other"),
    };
    assert_eq!(wanted, found);
}

fn counts(ours: &Session) -> [u64; 9] {
    let it = ours.counts();
    [
        it.received,
        it.rtcp,
        it.malformed,
        it.unknown,
        it.refused,
        it.unassociated,
        it.ended,
        ours.stream_count() as u64,
        it.telephone_dropped,
    ]
}

pub fn sessions(input: &mut Input, compared: &mut Compared) {
    let (spec, theirs) = codec(input);
    let (settings, values) = settings(spec, input);
    let mut ours = Session::new(settings).expect("settings that can be met");
    let mut theirs = proved_session::Session::new(theirs, &values).expect("the settings are right");
    let (mut now, mut numbers) = (0_u64, [0; 5]);
    while !input.is_empty() {
        let how = input.byte();
        match how >> 3 {
            0..4 => while poll(&mut ours, &mut theirs, now, compared) {},
            4 if how & 7 == 7 => {
                let (ssrc, rtx_ssrc) = (u32::from(input.byte() % 4), u32::from(input.byte() % 8));
                ours.add_pair(ssrc, rtx_ssrc).expect("there is memory");
                theirs.add_pair(ssrc, rtx_ssrc);
            }
            4 if how & 7 == 6 => {
                let ssrc = u32::from(input.byte() % 4);
                let answer = ours.request_keyframe(ssrc) as u32;
                assert_eq!(answer, theirs.request_keyframe(ssrc));
            }
            4 => now += u64::from(input.byte()),
            5 if how & 4 != 0 => {
                let ssrc = u32::from(how & 3);
                let block = ours.report(Ticks(now), ssrc, 96).map(|it| {
                    [
                        it.ssrc,
                        it.fraction_lost.into(),
                        it.cumulative_lost,
                        it.highest_sequence_number,
                        it.jitter,
                        it.last_sender_report,
                        it.delay_since_sender_report,
                    ]
                });
                assert_eq!(block, theirs.report(now, ssrc, 96));
            }
            5 => {
                let (ssrc, most) = (u32::from(how & 3), usize::from(input.byte()));
                let missing = ours
                    .receiver_of(ssrc, 96)
                    .map(|it| it.missing(most).collect());
                assert_eq!(missing, theirs.missing(ssrc, 96, most));
                let bytes =
                    |name: Option<StreamName>| name.map_or(Vec::new(), |it| it.as_bytes().to_vec());
                let names = ours.names_of(ssrc, 96);
                let names = names.map(|it| [it.mid, it.rid, it.repaired_rid].map(bytes));
                assert_eq!(names, theirs.names(ssrc, 96));
            }
            6 => assert_eq!(ours.next_deadline().map(|it| it.0), theirs.next_deadline()),
            7 if how & 7 == 0 && input.byte() < 8 => {
                ours.finish(Ticks(now));
                theirs.finish(now);
            }
            7 => {
                ours.end(Ticks(now), u32::from(how & 7));
                theirs.end(now, u32::from(how & 7));
            }
            _ => {
                let datagram = datagram(how, &mut numbers, input);
                receive(&mut ours, &mut theirs, now, &datagram, compared);
            }
        }
        assert_eq!(counts(&ours), theirs.counts());
    }
    ours.finish(Ticks(now));
    theirs.finish(now);
    while poll(&mut ours, &mut theirs, now, compared) {}
    assert_eq!(counts(&ours), theirs.counts());
}
