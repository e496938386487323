//! A receiver of FEC beside a sender that is written after RFC 5109, RFC 2198 and RFC 8285: packets of media in RED with header extensions,
//! FEC over zeros where libwebrtc's pacer writes late, losses, copies, and any order.

mod random;

use codec_payload::fec::{FecReceiver, FecSettings, FecWriter, LateIds};
use codec_payload::payloads::Payloads;
use codec_payload::rtp::RtpPacket;
use codec_payload::stream::{Popped, Receiver, ReceiverSettings};
use codec_payload::{Codec, CodecDepacketizer, Frequency, Ticks};
use random::Dice;
use std::collections::{BTreeMap, BTreeSet};

type Fail = Box<dyn std::error::Error>;

const SSRC: u32 = 0x0102_0304;
const RED: u8 = 116;
const ULPFEC: u8 = 117;
const MEDIA: u8 = 96;

/// Ids as Chromium offers them: toffset 14, abs-send-time 2, transport-wide number 3, video-timing 6, playout-delay 5.
const LATE: LateIds = LateIds {
    transport_number: Some(3),
    abs_send_time: Some(2),
    transmission_offset: Some(14),
    video_timing: Some(6),
};

const SETTINGS: FecSettings = FecSettings {
    ssrc: SSRC,
    red_type: RED,
    fec_type: ULPFEC,
    late_ids: LATE,
    bytes: 512 * 1_536,
};

fn bytes_of(random: &mut Dice, count: u64) -> Vec<u8> {
    (0..count).map(|_| random.below(256) as u8).collect()
}

/// A packet of media: as FEC protects it, and as it leaves.
struct Sent {
    plain: Vec<u8>,
    in_red: Vec<u8>,
}

/// The elements of a header extension: id, value, and from which byte on the pacer writes.
fn elements(random: &mut Dice) -> Vec<(u8, Vec<u8>, Option<usize>)> {
    let all = [
        (3, 2, Some(0)),
        (2, 3, Some(0)),
        (14, 3, Some(0)),
        (6, 13, Some(7)),
        (5, 3, None),
        (4, 1, None),
    ];
    let mut chosen = Vec::new();
    for (id, len, late) in all {
        if random.below(2) == 0 {
            chosen.push((id, bytes_of(random, len), late));
        }
    }
    if chosen.len() > 1 && random.below(2) == 0 {
        chosen.swap(0, 1);
    }
    chosen
}

/// Elements in the one-byte or the two-byte form, some with padding between them.
fn extension(elements: &[(u8, Vec<u8>)], long: bool, gaps: u64) -> Vec<u8> {
    let mut words = Vec::new();
    for (i, (id, value)) in elements.iter().enumerate() {
        if long {
            words.extend([*id, value.len() as u8]);
        } else {
            words.push(id << 4 | (value.len() as u8 - 1));
        }
        words.extend(value);
        if gaps >> i & 1 == 1 {
            words.push(0);
        }
    }
    while words.len() % 4 != 0 {
        words.push(0);
    }
    let mut out = if long {
        vec![0x10, 0x00]
    } else {
        vec![0xbe, 0xde]
    };
    out.extend(((words.len() / 4) as u16).to_be_bytes());
    out.extend(words);
    out
}

fn packet(
    first: u8,
    second: u8,
    number: u16,
    time: u32,
    extension: &[u8],
    payload: &[u8],
) -> Vec<u8> {
    let mut out = vec![first, second];
    out.extend(number.to_be_bytes());
    out.extend(time.to_be_bytes());
    out.extend(SSRC.to_be_bytes());
    out.extend(extension);
    out.extend(payload);
    out
}

fn media(random: &mut Dice, number: u16, largest: u64) -> Sent {
    let values = elements(random);
    let (long, gaps) = (random.below(3) == 0, random.below(1 << 31));
    let written: Vec<(u8, Vec<u8>)> = values
        .iter()
        .map(|(id, value, _)| (*id, value.clone()))
        .collect();
    let zeros: Vec<(u8, Vec<u8>)> = values
        .iter()
        .map(|(id, value, late)| {
            let mut value = value.clone();
            if let Some(from) = late {
                value[*from..].fill(0);
            }
            (*id, value)
        })
        .collect();
    let (late, early) = if values.is_empty() {
        (Vec::new(), Vec::new())
    } else {
        (
            extension(&written, long, gaps),
            extension(&zeros, long, gaps),
        )
    };
    let first = 0x80 | (u8::from(!values.is_empty()) << 4);
    let marker = (random.below(2) as u8) << 7;
    let time = random.below(1 << 31) as u32;
    let size = random.below(largest);
    let payload = bytes_of(random, size);
    let mut in_block = vec![MEDIA];
    in_block.extend(&payload);
    Sent {
        plain: packet(first, marker | MEDIA, number, time, &early, &payload),
        in_red: if random.below(20) == 0 {
            packet(first, marker | MEDIA, number, time, &late, &payload)
        } else {
            packet(first, marker | RED, number, time, &late, &in_block)
        },
    }
}

/// A packet of FEC after sections 7.3 and 7.4 of RFC 5109. `long`: with a mask of 48 bits.
fn fec_of(base: u16, long: bool, packets: &[&[u8]]) -> Vec<u8> {
    let longest = packets.iter().map(|p| p.len() - 12).max().unwrap_or(0);
    let (mut head, mut size, mut mask) = ([0u8; 8], 0u16, 0u64);
    let mut payload = vec![0u8; longest];
    for packet in packets {
        for i in 0..8 {
            head[i] ^= packet[i];
        }
        size ^= (packet.len() - 12) as u16;
        for (to, from) in payload.iter_mut().zip(&packet[12..]) {
            *to ^= from;
        }
        let number = u16::from_be_bytes([packet[2], packet[3]]);
        mask |= 1 << (47 - number.wrapping_sub(base));
    }
    let mut out = vec![(head[0] & 0x3f) | (u8::from(long) << 6), head[1]];
    out.extend(base.to_be_bytes());
    out.extend(&head[4..8]);
    out.extend(size.to_be_bytes());
    out.extend((longest as u16).to_be_bytes());
    out.extend(&mask.to_be_bytes()[2..if long { 8 } else { 4 }]);
    out.extend(payload);
    out
}

/// A packet of FEC in RED, with a number of the stream.
fn in_red(number: u16, fec: &[u8]) -> Vec<u8> {
    packet(0x80, RED, number, 1, &[], &[&[ULPFEC], fec].concat())
}

/// Passes a datagram, and returns what is rebuilt.
fn pass(receiver: &mut FecReceiver, datagram: &[u8]) -> Result<Option<Vec<u8>>, Fail> {
    receiver.receive(datagram)?;
    let rebuilt = receiver.next_rebuilt()?;
    // At most one packet for each datagram.
    assert_eq!(receiver.next_rebuilt()?, None);
    Ok(rebuilt)
}

fn number_of(packet: &[u8]) -> u16 {
    u16::from_be_bytes([packet[2], packet[3]])
}

#[test]
fn each_rebuilt_packet_was_sent_whatever_is_lost_repeated_or_late() -> Result<(), Fail> {
    let mut random = Dice(0x0fec_5109);
    let mut receiver = FecReceiver::new(SETTINGS)?;
    let (mut rebuilt, mut lost_count) = (0, 0);
    let mut number = random.below(65_536) as u16;
    let mut sent: BTreeMap<u16, Vec<u8>> = BTreeMap::new();
    let mut order: Vec<u16> = Vec::new();
    for _frame in 0..40_000 {
        let long = random.below(3) == 0;
        let places = if long { 48 } else { 16 };
        let base = number;
        let most = if random.below(10) == 0 { places } else { 6 };
        let count = 1 + random.below(most) as u16;
        let group: Vec<Sent> = (0..count)
            .map(|i| media(&mut random, base.wrapping_add(i), 60))
            .collect();
        number = number.wrapping_add(count);
        let mut datagrams: Vec<(u64, Vec<u8>)> = Vec::new();
        for one in &group {
            sent.insert(number_of(&one.plain), one.plain.clone());
            order.push(number_of(&one.plain));
            if random.below(10) == 0 {
                lost_count += 1;
                continue;
            }
            let copies = 1 + u64::from(random.below(20) == 0);
            for _copy in 0..copies {
                datagrams.push((random.below(30) * random.below(4), one.in_red.clone()));
            }
        }
        for _fec in 0..1 + random.below(3) {
            let chosen: Vec<&[u8]> = group
                .iter()
                .filter(|_| random.below(3) > 0)
                .map(|one| one.plain.as_slice())
                .collect();
            if chosen.is_empty() {
                continue;
            }
            if random.below(10) > 0 {
                datagrams.push((
                    random.below(30),
                    in_red(number, &fec_of(base, long, &chosen)),
                ));
            }
            number = number.wrapping_add(1);
        }
        datagrams.sort_by_key(|(at, _)| *at);
        while order.len() > 4_000 {
            sent.remove(&order.remove(0));
        }
        for (_, datagram) in datagrams {
            if let Some(packet) = pass(&mut receiver, &datagram)? {
                assert_eq!(sent.get(&number_of(&packet)), Some(&packet));
                rebuilt += 1;
            }
        }
    }
    // Several turns of the numbers; and most of what one packet of FEC could rebuild was rebuilt.
    assert!(rebuilt > lost_count / 3, "{rebuilt} of {lost_count}");
    Ok(())
}

/// A lost packet is rebuilt at once when the last of the group's packets or the FEC comes, in any order.
#[test]
fn the_only_lost_packet_of_a_group_is_rebuilt_at_once() -> Result<(), Fail> {
    let mut random = Dice(7);
    for round in 0..2_000 {
        let mut receiver = FecReceiver::new(SETTINGS)?;
        let (base, long) = (random.below(65_536) as u16, round % 2 == 0);
        let count = 1 + random.below(if long { 48 } else { 16 }) as u16;
        let group: Vec<Sent> = (0..count)
            .map(|i| media(&mut random, base.wrapping_add(i), 100))
            .collect();
        let all: Vec<&[u8]> = group.iter().map(|one| one.plain.as_slice()).collect();
        let lost = random.below(u64::from(count)) as usize;
        let mut datagrams: Vec<Vec<u8>> = group.iter().map(|one| one.in_red.clone()).collect();
        datagrams[lost] = in_red(base.wrapping_add(count), &fec_of(base, long, &all));
        for i in (1..datagrams.len()).rev() {
            datagrams.swap(i, random.below(i as u64 + 1) as usize);
        }
        let mut seen = Vec::new();
        for datagram in &datagrams {
            seen.push(pass(&mut receiver, datagram)?);
        }
        assert_eq!(seen.pop(), Some(Some(group[lost].plain.clone())));
        assert!(seen.iter().all(Option::is_none));
    }
    Ok(())
}

/// A rebuilt packet helps another packet of FEC, at the next datagram.
#[test]
fn a_rebuilt_packet_helps_to_rebuild_another_one() -> Result<(), Fail> {
    let mut random = Dice(8);
    let group: Vec<Sent> = (0..4).map(|i| media(&mut random, 10 + i, 100)).collect();
    let plain: Vec<&[u8]> = group.iter().map(|one| one.plain.as_slice()).collect();
    let mut receiver = FecReceiver::new(SETTINGS)?;
    assert_eq!(pass(&mut receiver, &group[0].in_red)?, None);
    assert_eq!(
        pass(
            &mut receiver,
            &in_red(14, &fec_of(10, false, &[plain[1], plain[2]]))
        )?,
        None
    );
    let first = pass(
        &mut receiver,
        &in_red(15, &fec_of(10, false, &[plain[0], plain[1]])),
    )?;
    assert_eq!(first.as_deref(), Some(plain[1]));
    let second = pass(&mut receiver, &group[3].in_red)?;
    assert_eq!(second.as_deref(), Some(plain[2]));
    Ok(())
}

/// Other SSRCs, RED with several blocks, RTCP, rubbish: nothing is kept.
#[test]
fn datagrams_that_are_not_of_the_stream_change_nothing() -> Result<(), Fail> {
    let mut random = Dice(9);
    let group: Vec<Sent> = (0..3).map(|i| media(&mut random, 10 + i, 100)).collect();
    let plain: Vec<&[u8]> = group.iter().map(|one| one.plain.as_slice()).collect();
    let mut other = group[1].plain.clone();
    other[8] ^= 1;
    let two_blocks = packet(0x80, RED, 11, 1, &[], &[0x80 | MEDIA, 0, 0, 1, MEDIA, 7, 8]);
    let strangers = [
        other,
        two_blocks,
        vec![0x80, 200, 0, 1, 0, 0, 0, 0],
        vec![1, 2],
        packet(0x80, RED, 11, 1, &[], &[]),
    ];
    let mut receiver = FecReceiver::new(SETTINGS)?;
    receiver.receive(&group[0].in_red)?;
    for stranger in &strangers {
        assert_eq!(pass(&mut receiver, stranger)?, None);
    }
    assert_eq!(
        pass(&mut receiver, &in_red(13, &fec_of(10, false, &plain)))?,
        None
    );
    let rebuilt = pass(&mut receiver, &group[2].in_red)?;
    assert_eq!(rebuilt.as_deref(), Some(plain[1]));
    Ok(())
}

#[test]
fn a_restart_and_a_jump_of_the_numbers_forget_all() -> Result<(), Fail> {
    let mut random = Dice(10);
    for jump in [false, true] {
        let group: Vec<Sent> = (0..3).map(|i| media(&mut random, 10 + i, 100)).collect();
        let plain: Vec<&[u8]> = group.iter().map(|one| one.plain.as_slice()).collect();
        let fec = in_red(13, &fec_of(10, false, &plain));
        let mut receiver = FecReceiver::new(SETTINGS)?;
        receiver.receive(&group[0].in_red)?;
        receiver.receive(&group[2].in_red)?;
        if jump {
            receiver.receive(&media(&mut random, 40_000, 100).in_red)?;
        } else {
            receiver.restart();
        }
        assert_eq!(pass(&mut receiver, &fec)?, None);
        assert_eq!(pass(&mut receiver, &group[0].in_red)?, None);
        assert_eq!(
            pass(&mut receiver, &group[2].in_red)?.as_deref(),
            Some(plain[1])
        );
    }
    Ok(())
}

/// The first packet that comes is any one of its group, and its number any number: also right after a turn of the numbers.
#[test]
fn the_first_packet_has_any_number() -> Result<(), Fail> {
    let mut random = Dice(12);
    for base in [0u16, 1, 32_767, 32_768, 65_534, 65_535] {
        for came in 0..2usize {
            let group: Vec<Sent> = (0..2u16)
                .map(|i| media(&mut random, base.wrapping_add(i), 100))
                .collect();
            let plain: Vec<&[u8]> = group.iter().map(|one| one.plain.as_slice()).collect();
            let mut receiver = FecReceiver::new(SETTINGS)?;
            receiver.receive(&group[came].in_red)?;
            let fec = in_red(base.wrapping_add(2), &fec_of(base, false, &plain));
            assert_eq!(pass(&mut receiver, &fec)?.as_deref(), Some(plain[1 - came]));
        }
    }
    Ok(())
}

/// The whole way: datagrams of Opus, FEC of the writer, one datagram is lost, and the receiver of the stream gets what is rebuilt. All units
/// come, and no packet is missing in between.
#[test]
fn a_lost_packet_reaches_the_receiver_without_a_request() -> Result<(), Fail> {
    let settings = |fec_type| FecSettings {
        fec_type,
        late_ids: LateIds::default(),
        ..SETTINGS
    };
    let sent: Vec<Vec<u8>> = (0..4u16)
        .map(|n| {
            packet(
                0x80,
                0x80 | MEDIA,
                n,
                u32::from(n) * 960,
                &[],
                &[n as u8; 20],
            )
        })
        .collect();
    let all: Vec<&[u8]> = sent.iter().map(Vec::as_slice).collect();
    let writer = FecWriter {
        protection: 64,
        keyframe_protection: 64,
    };
    let mut fec = Payloads::new(0, 0)?;
    writer.write(false, &all, &mut fec)?;
    assert_eq!(fec.len(), 1);
    for lost in 0..4 {
        let mut stream = ReceiverSettings::live_audio(MEDIA, Frequency::FORTY_EIGHT_KHZ);
        stream.ssrc = Some(SSRC);
        let mut receiver = Receiver::new(CodecDepacketizer::try_from(Codec::Opus)?, stream)?;
        let mut rebuilds = FecReceiver::new(settings(ULPFEC))?;
        for (place, datagram) in all.iter().enumerate() {
            if place != lost {
                receiver.receive(Ticks(1), datagram)?;
                assert_eq!(pass(&mut rebuilds, datagram)?, None);
            }
        }
        let rebuilt = pass(&mut rebuilds, &packet(0x80, ULPFEC, 50, 1, &[], fec.get(0)))?;
        assert_eq!(rebuilt.as_deref(), Some(all[lost]));
        receiver.receive(Ticks(2), &rebuilt.ok_or("nothing was rebuilt")?)?;
        assert_eq!(receiver.missing(10).count(), 0);
        receiver.finish()?;
        let mut units = Vec::new();
        while let Some(popped) = receiver.pop(Ticks(3)) {
            let Popped::Unit(unit) = popped? else {
                return Err("no unit".into());
            };
            units.push(unit.bytes);
        }
        let wanted: Vec<Vec<u8>> = (0..4).map(|n| vec![n; 20]).collect();
        assert_eq!(units, wanted);
    }
    Ok(())
}

/// Masks of all ones, lengths beyond the end, 10,000 packets of FEC: nothing panics, each rebuilt packet is an RTP packet of the stream, and
/// of each packet of FEC at most one is rebuilt.
#[test]
fn hostile_fec_is_bounded() -> Result<(), Fail> {
    let mut random = Dice(11);
    let mut receiver = FecReceiver::new(SETTINGS)?;
    let (mut rebuilt, mut fecs) = (BTreeSet::new(), 0u32);
    for i in 0..10_000u16 {
        if random.below(2) == 0 {
            let number = i.wrapping_add(random.below(48) as u16);
            receiver.receive(&media(&mut random, number, 100).in_red)?;
        }
        let size = random.below(200);
        let mut bytes = bytes_of(&mut random, 18 + size);
        bytes[0] = (bytes[0] & 0x3f) | 0x40;
        bytes[2..4].copy_from_slice(&i.to_be_bytes());
        if random.below(2) == 0 {
            bytes[8..12].copy_from_slice(&[0, size as u8, 0, size as u8]);
        }
        if random.below(2) == 0 {
            bytes[12..18].fill(0xff);
        }
        fecs += 1;
        receiver.receive(&in_red(i, &bytes))?;
        if let Some(packet) = receiver.next_rebuilt()? {
            assert_eq!(RtpPacket::parse(&packet)?.header.ssrc, SSRC);
            rebuilt.insert((i, packet));
        }
    }
    assert!(rebuilt.len() < fecs as usize);
    Ok(())
}
