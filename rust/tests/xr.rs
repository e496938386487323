//! Extended reports. The bytes were written by hand after the figures and the text of RFC 3611, sections 2, 3, 4.4 and 4.5.

use codec_payload::rtcp::{CompoundRule, RtcpPacket, read_compound};
use codec_payload::wire::{Frequency, Ticks};
use codec_payload::xr::*;

type Fail = Box<dyn std::error::Error>;

/// Version 2, type 207, 4 words after the first: SSRC 0x01020304, and a block of type 4 with 2 words.
const REFERENCE_TIME: [u8; 20] = [
    0x80, 207, 0, 4, 1, 2, 3, 4, //
    4, 0, 0, 2, 0xe1, 0x23, 0x45, 0x67, 0x89, 0xab, 0xcd, 0xef,
];
const NTP: u64 = 0xe123_4567_89ab_cdef;

/// Version 2, type 207, 5 words: SSRC 5, and a block of type 5 with one sub-block of 3 words. It answers SSRC 0x01020304: the middle 32
/// bits of that reference time, which came half a second ago.
const DLRR: [u8; 24] = [
    0x80, 207, 0, 5, 0, 0, 0, 5, //
    5, 0, 0, 3, 1, 2, 3, 4, 0x45, 0x67, 0x89, 0xab, 0, 0, 0x80, 0,
];
const ANSWER: Dlrr = Dlrr {
    ssrc: 0x0102_0304,
    last_rr: 0x4567_89ab,
    delay: 0x8000,
};

/// The only packet of a datagram: its type, and what is after its header.
fn body(datagram: &[u8]) -> Result<(u8, Vec<u8>), Fail> {
    let mut packets = read_compound(CompoundRule::ReducedSize, datagram)?;
    let Some(RtcpPacket::Other(packet)) = packets.next() else {
        return Err("no packet of another type".into());
    };
    assert_eq!((packet.count, packets.next()), (0, None));
    Ok((packet.packet_type, packet.body.to_vec()))
}

#[test]
fn a_reference_time_is_written_and_read() -> Result<(), Fail> {
    let mut out = vec![9];
    write_reference_time(0x0102_0304, NTP, &mut out)?;
    assert_eq!((out[0], &out[1..]), (9, &REFERENCE_TIME[..]));
    let (packet_type, body) = body(&REFERENCE_TIME)?;
    assert_eq!(packet_type, XR);
    let report = ExtendedReport::read(&body)?;
    assert_eq!(report.ssrc, 0x0102_0304);
    assert_eq!(report.reference_time(), Some(NTP));
    assert_eq!(report.dlrr(0x0102_0304), None);
    Ok(())
}

#[test]
fn an_answer_is_written_and_read() -> Result<(), Fail> {
    let mut out = vec![9];
    write_dlrr(5, ANSWER, &mut out)?;
    assert_eq!((out[0], &out[1..]), (9, &DLRR[..]));
    let (packet_type, body) = body(&DLRR)?;
    assert_eq!(packet_type, XR);
    let report = ExtendedReport::read(&body)?;
    assert_eq!(report.ssrc, 5);
    assert_eq!(report.reference_time(), None);
    assert_eq!(report.dlrr(0x0102_0304), Some(ANSWER));
    assert_eq!(report.dlrr(5), None);
    assert_eq!(middle_bits(NTP), ANSWER.last_rr);
    Ok(())
}

/// Loss run-length (type 1), a type that no RFC defines without contents, a reference time of three words, an answer that ends inside a
/// sub-block; then the block that is looked for, and later ones of its type.
#[test]
fn other_blocks_are_skipped() -> Result<(), Fail> {
    let odd = [
        &[0, 0, 0, 5][..], // the SSRC
        &[1, 7, 0, 2, 0, 0, 0, 9, 0, 1, 0, 2],
        &[200, 255, 0, 0],
        &[4, 0, 0, 3, 1, 1, 1, 1, 1, 1, 1, 1, 1, 1, 1, 1],
        &[5, 0, 0, 4, 1, 2, 3, 4, 1, 1, 1, 1, 1, 1, 1, 1, 1, 1, 1, 1],
    ]
    .concat();
    let report = ExtendedReport::read(&odd)?;
    assert_eq!(report.reference_time(), None);
    assert_eq!(report.dlrr(0x0102_0304), None);

    // Two sub-blocks: the second answers this receiver. The type-specific bits are reserved, and ignored.
    let two = [
        &[5, 255, 0, 6, 0, 0, 0, 9, 0, 0, 0, 1, 0, 0, 0, 2][..],
        &DLRR[12..],
    ]
    .concat();
    let later = [
        &[5, 0, 0, 3, 1, 2, 3, 4, 0, 0, 0, 7, 0, 0, 0, 8][..],
        &[4, 0, 0, 2, 0, 0, 0, 0, 0, 0, 0, 1],
    ]
    .concat();
    let all = [&odd, &REFERENCE_TIME[8..], &two, &later].concat();
    let report = ExtendedReport::read(&all)?;
    assert_eq!(report.reference_time(), Some(NTP));
    assert_eq!(report.dlrr(0x0102_0304), Some(ANSWER));
    let other = Dlrr {
        ssrc: 9,
        last_rr: 1,
        delay: 2,
    };
    assert_eq!(report.dlrr(9), Some(other));
    let (block, rest) = XrBlock::read(report.blocks)?;
    assert_eq!((block.block_type, block.type_specific), (1, 7));
    assert_eq!(block.contents, [0, 0, 0, 9, 0, 1, 0, 2]);
    assert_eq!(rest.len(), all.len() - 16);
    Ok(())
}

#[test]
fn only_lengths_are_faults() {
    let fault = |body: &[u8]| ExtendedReport::read(body).err();
    assert_eq!(fault(&[0; 3]), Some(XrFault::TooShort));
    assert_eq!(fault(&[0; 4]), None);
    assert_eq!(fault(&[0; 6]), Some(XrFault::BlockTooShort));
    assert_eq!(fault(&[0; 8]), None);
    assert_eq!(fault(&[0; 4 + 65_535 * 4]), None);
    let long = |words: u16, size: usize| {
        let [high, low] = words.to_be_bytes();
        fault(&[&[0, 0, 0, 1, 9, 9, high, low][..], &vec![3; size]].concat())
    };
    assert_eq!(long(1, 3), Some(XrFault::ContentsTooShort));
    assert_eq!(long(1, 4), None);
    assert_eq!(long(65_535, 262_136), Some(XrFault::ContentsTooShort));
    assert_eq!(long(65_535, 262_140), None);
}

/// A report that a caller makes over broken blocks says what the blocks before the broken one say.
#[test]
fn a_walk_ends_at_a_broken_block() {
    let mut blocks = REFERENCE_TIME[8..].to_vec();
    blocks.extend_from_slice(&[5, 0, 0, 9, 1, 2, 3, 4]);
    blocks.extend_from_slice(&DLRR[8..]);
    let report = ExtendedReport {
        ssrc: 1,
        blocks: &blocks,
    };
    assert_eq!(report.reference_time(), Some(NTP));
    assert_eq!(report.dlrr(0x0102_0304), None);
}

/// In units of 1/65,536 s: 6,554 are 100.006 ms, 3,932,160 are 60 s.
#[test]
fn a_round_trip_is_what_is_left_without_the_delay() {
    // The example of RFC 3550, figure 2, whose DLSR counts as DLRR does: 0xb710:8000 - 0x0005:4000 - 0xb705:2000 = 6.125 s.
    assert_eq!(
        round_trip(0xb710_8000, 0xb705_2000, 0x0005_4000),
        Some(0x0006_2000)
    );
    assert_eq!(round_trip(1_000, 400, 600), Some(0));
    assert_eq!(round_trip(1_000, 0, 0), None);
    // Over the end of the 32 bits.
    assert_eq!(round_trip(100, u32::MAX - 99, 50), Some(150));
    assert_eq!(round_trip(3_932_161, 1, 0), Some(3_932_160));
    assert_eq!(round_trip(3_932_162, 1, 0), None);
    assert_eq!(round_trip(1_000, 1_000, 6_553), Some(0));
    assert_eq!(round_trip(1_000, 1_000, 6_554), None);
    assert_eq!(round_trip(1_000, 1_000, u32::MAX), Some(1));
    assert_eq!(round_trip(0x8000_0000, 1, 0), None);
}

#[test]
fn times_are_those_of_the_clock() {
    let rate = |hertz| Frequency::make(hertz).unwrap();
    assert_eq!(ntp_time(Ticks(0), rate(1_000_000)), 0);
    assert_eq!(ntp_time(Ticks(1_500_000), rate(1_000_000)), 0x1_8000_0000);
    // A third of a second, rounded down; 2^32 seconds are 0 again, also of a time of 64 bits.
    assert_eq!(ntp_time(Ticks(1), rate(3)), 0x5555_5555);
    assert_eq!(ntp_time(Ticks((1 << 32) + 2), rate(1)), 2 << 32);
    assert_eq!(ntp_time(Ticks(u64::MAX), rate(u32::MAX)), 1 << 32);
    // 160 ms are 10,485.76 units.
    assert_eq!(
        middle_bits(ntp_time(Ticks(160_000), rate(1_000_000))),
        10_485
    );
    assert_eq!(ticks_of(10_486, rate(1_000)), 160);
    assert_eq!(ticks_of(33, rate(1_000)), 1);
    assert_eq!(ticks_of(32, rate(1_000)), 0);
    assert_eq!(ticks_of(3_932_160, rate(90_000)), 5_400_000);
}

/// Each way takes 80 ms and the answer waits 25 ms: the receiver finds 160 ms, whatever the clocks show.
#[test]
fn a_receiver_finds_the_round_trip() -> Result<(), Fail> {
    let microseconds = Frequency::make(1_000_000).ok_or("a rate of 0")?;
    let (receiver, sender) = (7_000_000_000, 123);
    for start in [0, 65_535_900_000, 3_600_000_000] {
        let mut out = Vec::new();
        let asked = Ticks(receiver + start);
        write_reference_time(1, ntp_time(asked, microseconds), &mut out)?;
        let (_, request) = body(&out)?;
        let time = ExtendedReport::read(&request)?.reference_time();
        let came = ntp_time(Ticks(sender + 80_000), microseconds);
        let answered = ntp_time(Ticks(sender + 105_000), microseconds);
        let answer = Dlrr {
            ssrc: 1,
            last_rr: middle_bits(time.ok_or("no reference time")?),
            delay: middle_bits(answered).wrapping_sub(middle_bits(came)),
        };
        out.clear();
        write_dlrr(2, answer, &mut out)?;
        let (_, answer) = body(&out)?;
        let answer = ExtendedReport::read(&answer)?.dlrr(1).ok_or("no answer")?;
        let now = middle_bits(ntp_time(Ticks(asked.0 + 185_000), microseconds));
        let trip = round_trip(now, answer.last_rr, answer.delay).ok_or("no round trip")?;
        let ticks = ticks_of(trip, microseconds);
        // Three times were rounded down to 1/65,536 s.
        assert!(ticks.abs_diff(160_000) <= 46, "{ticks}");
    }
    Ok(())
}

/// Random bytes are read or refused, and the blocks of what is read are the bytes.
#[test]
fn hostile_bytes_are_read_or_refused() -> Result<(), Fail> {
    let mut seed = 1u32;
    let mut read = 0;
    for _ in 0..20_000 {
        let mut body = [&REFERENCE_TIME[4..], &DLRR[8..]].concat();
        for _ in 0..3 {
            seed = seed.wrapping_mul(1_664_525).wrapping_add(1_013_904_223);
            let place = (seed >> 16) as usize % body.len();
            body[place] = (seed >> 8) as u8;
        }
        if seed >> 31 == 1 {
            body.truncate(body.len() - (seed >> 28) as usize % 8);
        }
        let report = ExtendedReport {
            ssrc: 1,
            blocks: &body,
        };
        let _ = (report.reference_time(), report.dlrr(0x0102_0304));
        let Ok(report) = ExtendedReport::read(&body) else {
            continue;
        };
        read += 1;
        let mut again = report.ssrc.to_be_bytes().to_vec();
        let mut rest = report.blocks;
        while !rest.is_empty() {
            let (block, others) = XrBlock::read(rest)?;
            again.extend_from_slice(&[block.block_type, block.type_specific]);
            again.extend_from_slice(&((block.contents.len() / 4) as u16).to_be_bytes());
            again.extend_from_slice(block.contents);
            rest = others;
        }
        assert_eq!(again, body);
    }
    assert!(read > 1_000, "{read}");
    Ok(())
}
