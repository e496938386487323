//! Histories of both, and what RTCP feedback requests of them, side by side.

use super::input::Input;
use super::{Compared, proved_history};
use codec_payload::Ticks;
use codec_payload::history::{
    History, HistorySettings, Kept, Request, Resent, RetransmissionStream, read_requests,
};
use codec_payload::rtcp::CompoundRule;

const SSRC: u32 = 7;

/// Settings, and the same as values of shim.c. One in 16 is out of range.
fn settings(input: &mut Input) -> (HistorySettings, [u64; 6]) {
    let how = input.byte();
    let limit = match how {
        0 => 0,
        1 => 32_769,
        _ => usize::from(how % 32) + 1,
    };
    let interval = u64::from(input.byte() % 32);
    let payload_type = input.byte() % 136;
    let first_number = input.word();
    let has_rtx = how & 0x40 != 0;
    let stream = has_rtx.then_some(RetransmissionStream {
        ssrc: 9,
        payload_type,
        first_number,
    });
    let values = [
        limit as u64,
        interval,
        has_rtx.into(),
        9,
        payload_type.into(),
        first_number.into(),
    ];
    let ours = HistorySettings {
        limit,
        interval,
        stream,
    };
    (ours, values)
}

/// A packet with the next number, or one near it, or some bytes.
fn packet(number: &mut u16, input: &mut Input) -> Vec<u8> {
    let how = input.byte();
    if how < 4 {
        return input.some().to_vec();
    }
    *number = number.wrapping_add(if how < 16 { how.into() } else { 1 });
    // One in four has CSRCs, an extension or padding, and is not an RTP packet if these do not fit.
    let flags = if how & 3 == 0 { input.byte() & 0x3f } else { 0 };
    let mut bytes = vec![0x80 | flags, 96 | (how & 0x80)];
    bytes.extend(number.to_be_bytes());
    bytes.extend([1, 2, 3, 4]);
    bytes.extend(SSRC.to_be_bytes());
    bytes.extend(input.some());
    bytes
}

/// A compound packet of NACKs, PLIs and FIRs for the stream and for others; one in eight is changed.
fn feedback(number: u16, input: &mut Input) -> Vec<u8> {
    let mut bytes = vec![0x80, 201, 0, 1, 0, 0, 0, 1];
    for _ in 0..input.byte() % 4 {
        let how = input.byte();
        let ssrc = if how & 0x40 == 0 { SSRC } else { 8 }.to_be_bytes();
        match how % 4 {
            0 => {
                bytes.extend([0x81, 206, 0, 2, 0, 0, 0, 1]);
                bytes.extend(ssrc);
            }
            1 => {
                bytes.extend([0x84, 206, 0, 4, 0, 0, 0, 1, 0, 0, 0, 0]);
                bytes.extend(ssrc);
                bytes.extend([how, 0, 0, 0]);
            }
            _ => {
                let pairs = how / 4 % 4 + 1;
                bytes.extend([0x81, 205, 0, 2 + pairs, 0, 0, 0, 1]);
                bytes.extend(ssrc);
                for _ in 0..pairs {
                    bytes.extend(number.wrapping_sub(input.byte().into()).to_be_bytes());
                    bytes.extend(input.word().to_be_bytes());
                }
            }
        }
    }
    let how = input.byte();
    if how < 32 {
        let place = usize::from(input.byte()) % bytes.len();
        bytes[place] ^= 1 << (how % 8);
    }
    bytes
}

/// The number of an answer in the header.
fn number_of(resent: Resent) -> u32 {
    match resent {
        Resent::Written => 0,
        Resent::NotKept => 1,
        Resent::TooSoon => 2,
        Resent::TooLarge => unreachable!("resend has no bound"),
    }
}

/// Resends a packet by both. If the memory is too small, nothing is spent, so the crate is not called.
fn resend(
    ours: &mut History,
    theirs: &mut proved_history::History,
    request: (u64, u16, usize),
    compared: &mut Compared,
) {
    let (now, number, room) = request;
    let mut written = Vec::new();
    match theirs.resend(now, number, room) {
        Err((status, size)) => {
            assert_eq!(status, proved_history::TOO_SMALL);
            let answer = ours.resend_within(Ticks(now), number, room, &mut written);
            assert_eq!((answer, written.len()), (Ok(Resent::TooLarge), size));
            assert!(size > room);
        }
        Ok(theirs) => {
            let answer = ours.resend(Ticks(now), number, &mut written).unwrap();
            assert_eq!((number_of(answer), written), theirs);
        }
    }
    compared.calls += 1;
}

/// Reads a compound packet by both, and returns the numbers.
fn requested(rtcp: &[u8], how: u8, compared: &mut Compared) -> Vec<u16> {
    let full = how & 1 == 0;
    let rule = if full {
        CompoundRule::Full
    } else {
        CompoundRule::ReducedSize
    };
    let room = usize::from(how / 2);
    let (mut numbers, mut wants_keyframe) = (Vec::new(), false);
    let ours = read_requests(rule, SSRC, rtcp).map(|requests| {
        for request in requests {
            match request {
                Request::Packet(number) => numbers.push(number),
                Request::Keyframe => wants_keyframe = true,
                _ => unreachable!("this version has no other"),
            }
        }
        let fit = numbers[..numbers.len().min(room)].to_vec();
        (fit, numbers.len(), wants_keyframe)
    });
    compared.answers(ours, proved_history::read_requests(rtcp, SSRC, full, room));
    numbers
}

pub fn histories(input: &mut Input, compared: &mut Compared) {
    let (settings, values) = settings(input);
    let (ours, theirs) = (
        History::new(settings),
        proved_history::History::new(&values),
    );
    assert_eq!(ours.is_ok(), theirs.is_some());
    let (Ok(mut ours), Some(mut theirs)) = (ours, theirs) else {
        return;
    };
    let (mut now, mut number) = (0, input.word());
    while !input.is_empty() {
        let how = input.byte();
        match how % 8 {
            0 => {
                let rtcp = feedback(number, input);
                for number in requested(&rtcp, input.byte(), compared) {
                    let room = usize::from(input.byte());
                    resend(&mut ours, &mut theirs, (now, number, room), compared);
                }
            }
            1 => {
                let number = number.wrapping_sub(u16::from(how / 8));
                let room = usize::from(input.word() % 4_096);
                resend(&mut ours, &mut theirs, (now, number, room), compared);
            }
            2 => now = now.wrapping_add(u64::from(how / 8)),
            _ => {
                let packet = packet(&mut number, input);
                let answer = ours
                    .keep(&packet)
                    .map(|kept| u32::from(kept == Kept::TooOld));
                compared.answers(answer, theirs.keep(&packet));
            }
        }
    }
}
