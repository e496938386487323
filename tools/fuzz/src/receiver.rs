//! A receiver under any datagrams and calls.

use crate::formats::{depacketizer, spec};
use crate::input::Input;
use crate::told::told;
use codec_payload::Ticks;
use codec_payload::jitter::WaitLimits;
use codec_payload::stream::{Receiver, ReceiverSettings, RedSettings, Retransmission};

fn receiver_of(input: &mut Input) -> Option<Receiver> {
    let spec = spec(input);
    let how = input.byte();
    let mut settings = ReceiverSettings::for_stream(96, spec.codec, spec.clock_rate);
    settings.no_media = vec![97, 13];
    settings.ssrc = (how & 1 != 0).then_some(1);
    settings.red = (how & 2 != 0).then(|| RedSettings {
        payload_type: 63,
        step: 1 + u32::from(input.byte()),
        retransmission: (how & 8 != 0).then_some(99),
    });
    settings.retransmission = (how & 4 != 0).then_some(Retransmission {
        ssrc: 2,
        payload_type: 98,
    });
    settings.limit = if how & 8 != 0 {
        1 + usize::from(input.byte() % 10)
    } else {
        4_096
    };
    if how & 16 != 0 {
        (settings.forward, settings.backward) = (input.word(), input.word());
    }
    settings.wait_limits = {
        let mut limits = WaitLimits::live();
        limits.hold_back = (how & 32 != 0).then(|| usize::from(input.byte() % 9));
        limits.start = usize::from(input.byte() % 5);
        limits.max_wait = (how & 64 != 0).then(|| u64::from(input.byte()));
        limits
    };
    Receiver::new(depacketizer(&spec), settings).ok()
}

/// A datagram that is mostly an RTP packet near the number before.
fn datagram(kind: u8, how: u8, number: &mut u16, input: &mut Input) -> Vec<u8> {
    if kind == 5 {
        return input.some().to_vec();
    }
    *number = match kind {
        6..12 => number.wrapping_add(1),
        12 => number.wrapping_sub(u16::from(how)),
        13 => number.wrapping_add(u16::from(how)),
        14 => input.word(),
        _ => *number,
    };
    let flags = input.byte();
    let payload_type = [96, 63, 98, 97, 96, 96, 96, 96][usize::from(flags >> 4 & 7)];
    let mut bytes = vec![
        0x80 | if flags & 0x80 != 0 {
            input.byte() & 0x3f
        } else {
            0
        },
        payload_type | (flags & 1) << 7,
    ];
    bytes.extend(number.to_be_bytes());
    bytes.extend(u32::to_be_bytes(if flags & 2 == 0 {
        u32::from(*number / 3) * 90
    } else {
        u32::from(input.word()) << 16
    }));
    bytes.extend(u32::to_be_bytes(if payload_type == 98 {
        2
    } else {
        u32::from(flags & 4 == 0)
    }));
    if payload_type == 98 {
        bytes.extend(number.wrapping_sub(u16::from(how)).to_be_bytes());
    }
    bytes.extend(input.some());
    bytes
}

/// Numbers of units rise, and each datagram is counted once.
pub fn receiver(input: &mut Input) {
    let Some(mut receiver) = receiver_of(input) else {
        return;
    };
    let is_named = receiver.ssrc().is_some();
    let (mut now, mut number, mut last) = (0_u64, input.word(), None);
    while !input.is_empty() {
        let how = input.byte();
        match how % 16 {
            0 | 1 => {
                for unit in receiver.units(Ticks(now)).flat_map(told) {
                    let range = unit.seq_range();
                    assert!(
                        range.start().0 <= range.end().0
                            && last.is_none_or(|last| last < range.start().0)
                    );
                    last = Some(range.end().0);
                }
            }
            2 => now = now.wrapping_add(u64::from(how / 16) * u64::from(input.byte())),
            3 => assert!(receiver.missing(usize::from(how)).is_sorted()),
            4 => match how / 16 {
                0 => receiver.finish().expect("there is memory"),
                1..9 => drop(receiver.report()),
                _ => drop(receiver.next_deadline()),
            },
            kind => {
                let datagram = datagram(kind, how / 16, &mut number, input);
                let _ = told(receiver.receive(Ticks(now), &datagram));
            }
        }
        counted(&receiver, is_named);
    }
}

/// The theorem of the counters: the received and recovered packets are the sum of all outcomes. If the settings name no SSRC, at most four
/// packets wait until the stream is chosen.
fn counted(receiver: &Receiver, is_named: bool) {
    let all = receiver.counters();
    let packets = all.packets;
    let parts = [
        all.rtcp,
        all.malformed,
        all.other_streams,
        packets.no_media,
        packets.duplicates,
        packets.late,
        packets.suspect,
        packets.evicted,
        packets.released,
        packets.incomplete,
        packets.skipped,
        packets.refused,
        receiver.held() as u64,
    ];
    let waiting = all.received + packets.recovered - parts.iter().sum::<u64>();
    assert!(
        waiting <= if is_named { 0 } else { 4 },
        "{waiting} datagrams are not counted"
    );
}
