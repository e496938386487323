//! Numbers that carry no media, beside a receiver: lost padding and lost error correction are not requested, and nothing waits for them.

mod random;

use codec_payload::jitter::Outcome;
use codec_payload::requests::{NackSchedule, NackSettings};
use codec_payload::stream::ParsedDatagram;
use codec_payload::stream_edges::{EdgeRules, StreamEdges};
use codec_payload::*;
use random::Dice;
use std::collections::BTreeSet;

const SSRC: u32 = 7;
const MEDIA: u8 = 96;
const FEC: u8 = 120;
const RED: u8 = 118;
const RTX: u8 = 97;
/// The id of the dependency descriptor.
const DESCRIPTOR: u8 = 5;

/// An RTP packet without a header extension.
fn rtp(
    marker: bool,
    payload_type: u8,
    ssrc: u32,
    number: u16,
    time: u32,
    payload: &[u8],
) -> Vec<u8> {
    let mut packet = vec![0x80, payload_type | if marker { 0x80 } else { 0 }];
    packet.extend(number.to_be_bytes());
    packet.extend(time.to_be_bytes());
    packet.extend(ssrc.to_be_bytes());
    packet.extend(payload);
    packet
}

/// A packet that has padding alone.
fn padding(number: u16, time: u32) -> Vec<u8> {
    let mut packet = rtp(false, MEDIA, SSRC, number, time, &[0, 0, 0, 4]);
    packet[0] |= 0x20;
    packet
}

/// The header of a whole frame of VP8, a keyframe or not (RFC 6386, section 9.1), of 320 to 240.
const KEYFRAME: [u8; 10] = [0x10, 0, 0, 0x9d, 1, 0x2a, 0x40, 1, 0xf0, 0];
const DELTA: [u8; 3] = [0x11, 0, 0];

/// The payload descriptor of VP8 with a PictureID of 15 bits, and the frame.
fn vp8(id: u16, begins: bool, frame: &[u8]) -> Vec<u8> {
    let first = 0x80 | if begins { 0x10 } else { 0 };
    [&[first, 0x80, 0x80 | (id >> 8) as u8, id as u8], frame].concat()
}

/// A whole picture of VP8 in one packet.
fn picture(number: u16, id: u16, is_keyframe: bool) -> Vec<u8> {
    let frame: &[u8] = if is_keyframe { &KEYFRAME } else { &DELTA };
    rtp(
        true,
        MEDIA,
        SSRC,
        number,
        u32::from(id) * 3_000,
        &vp8(id, true, frame),
    )
}

/// A receiver with the edges of its pictures.
struct Stream {
    receiver: Receiver,
    edges: StreamEdges,
    rules: EdgeRules,
}

impl Stream {
    fn new(codec: Codec) -> Stream {
        let mut settings = ReceiverSettings::live_video_with_nack(MEDIA, Frequency::NINETY_KHZ);
        settings.ssrc = Some(SSRC);
        settings.wait_limits.start = 0;
        settings.no_media = vec![FEC];
        settings.red = Some(RedSettings {
            payload_type: RED,
            step: 3_000,
            retransmission: None,
        });
        settings.retransmission = Some(Retransmission {
            ssrc: 70,
            payload_type: RTX,
        });
        settings.dependency_descriptor = (codec == Codec::Av1).then_some(DESCRIPTOR);
        let rules = EdgeRules::of(codec, &settings);
        let depacketizer = CodecDepacketizer::from_codec(codec).unwrap();
        Stream {
            receiver: Receiver::new(depacketizer, settings).unwrap(),
            edges: StreamEdges::new(),
            rules,
        }
    }

    fn receive(&mut self, now: u64, bytes: &[u8]) -> Outcome {
        let datagram = ParsedDatagram::parse(bytes);
        let answer = self.receiver.receive_parsed(Ticks(now), &datagram);
        self.edges
            .follow(&self.rules, &mut self.receiver, &datagram, &answer)
            .unwrap();
        answer.unwrap()
    }

    fn missing(&self) -> BTreeSet<u16> {
        self.receiver
            .missing(usize::MAX)
            .map(|n| n as u16)
            .collect()
    }
}

/// What a viewer saw of a stream.
#[derive(Debug, Default, PartialEq, Eq)]
struct Seen {
    units: usize,
    decodable: usize,
    requested: usize,
    longest: u64,
}

/// Pops all units, and requests what is missing. Picture `i` has the time `3,000 i`, and was sent at `33 i` ms.
fn pop(stream: &mut Stream, requests: &mut NackSchedule, now: u64, seen: &mut Seen) {
    while let Some(popped) = stream.receiver.pop(Ticks(now)) {
        assert!(matches!(popped, Ok(Popped::Unit(_))));
        let time = stream.receiver.unit_time().unwrap() % (1 << 32);
        seen.units += 1;
        seen.decodable += usize::from(stream.receiver.unit_is_decodable());
        seen.longest = seen.longest.max(now - time / 3_000 * 33);
    }
    let missing: Vec<u64> = stream.receiver.missing(100).collect();
    requests.refresh(Ticks(now), &missing).unwrap();
    let mut due = Vec::new();
    requests.take_due(Ticks(now), &mut due).unwrap();
    seen.requested += due.len();
}

/// Plays pictures, one each 33 ms. `sent` returns the datagrams of a picture that arrive, by its index.
fn play(pictures: u64, follows: bool, mut sent: impl FnMut(u64) -> Vec<Vec<u8>>) -> Seen {
    let mut stream = Stream::new(Codec::Vp8);
    if !follows {
        stream.rules.codec = Codec::Null;
    }
    let mut requests = NackSchedule::new(NackSettings::live());
    let mut seen = Seen::default();
    for now in 0..pictures * 33 + 1_000 {
        if now % 33 == 0 && now / 33 < pictures {
            for datagram in sent(now / 33) {
                stream.receive(now, &datagram);
            }
        }
        pop(&mut stream, &mut requests, now, &mut seen);
    }
    seen
}

/// One packet a picture, and after each ninth picture a packet of padding, which is lost: nothing is requested, and no picture waits.
/// Without edges each lost packet is requested, and holds pictures back.
#[test]
fn lost_padding() {
    let sent = |i: u64| {
        let number = 65_000 + i + (i + 1) / 9;
        vec![picture(number as u16, 32_700 + i as u16, i == 0)]
    };
    let sent_at_zero = |i: u64| {
        let mut datagram = sent(i).remove(0);
        datagram[4..8].copy_from_slice(&(i as u32 * 3_000).to_be_bytes());
        vec![datagram]
    };
    let all = Seen {
        units: 607,
        decodable: 607,
        requested: 0,
        longest: 0,
    };
    assert_eq!(play(607, true, sent_at_zero), all);
    let without = play(607, false, sent_at_zero);
    assert!(
        without.requested > 100 && without.longest == 200,
        "{without:?}"
    );
}

/// Pictures in RED (RFC 2198), each with a packet of ULPFEC behind it under the next number, as Chromium sends them. One packet of FEC is
/// lost: all 60 pictures are decodable, and nothing is requested.
#[test]
fn lost_error_correction() {
    let sent = |lost: u64| {
        move |i: u64| {
            let (number, time) = (2 * i as u16, 3_000 * i as u32);
            let frame: &[u8] = if i == 0 { &KEYFRAME } else { &DELTA };
            let media = [&[MEDIA][..], &vp8(i as u16, true, frame)].concat();
            let mut datagrams = vec![rtp(true, RED, SSRC, number, time, &media)];
            if i != lost {
                let fec = [&[FEC][..], &[0; 24]].concat();
                datagrams.push(rtp(false, RED, SSRC, number + 1, time, &fec));
            }
            datagrams
        }
    };
    let all = Seen {
        units: 60,
        decodable: 60,
        requested: 0,
        longest: 0,
    };
    assert_eq!(play(60, true, sent(100)), all);
    assert_eq!(play(60, true, sent(10)), all);
    assert!(play(60, false, sent(10)).requested > 0);
}

/// The last packet of a picture is lost beside padding. Both are missing until its retransmission comes, which closes the range.
#[test]
fn a_retransmission_ends_a_picture() {
    let mut stream = Stream::new(Codec::Vp8);
    let first = rtp(false, MEDIA, SSRC, 10, 0, &vp8(1, true, &KEYFRAME));
    let last = vp8(1, false, &[9]);
    stream.receive(0, &first);
    stream.receive(0, &picture(14, 2, false));
    assert_eq!(stream.missing(), BTreeSet::from([11, 12, 13]));
    let again = [&11u16.to_be_bytes()[..], &last].concat();
    stream.receive(1, &rtp(true, RTX, 70, 900, 0, &again));
    assert_eq!(stream.missing(), BTreeSet::new());
    // In RED too, and behind the picture that came first.
    let mut stream = Stream::new(Codec::Vp8);
    stream.rules.red_again = Some(RED + 1);
    stream.receive(0, &first);
    stream.receive(0, &picture(14, 2, false));
    let red = [&[MEDIA][..], &last].concat();
    stream.receive(1, &rtp(true, RED, SSRC, 11, 0, &red));
    assert_eq!(stream.missing(), BTreeSet::new());
}

/// Ids wrap at 7 and at 15 bits, and frame_numbers at 16; numbers wrap too. What is more than 127 numbers wide stays missing.
#[test]
fn ids_and_numbers_wrap() {
    let short = |number: u16, id: u8| {
        let payload = [&[0x90, 0x80, id][..], &DELTA].concat();
        rtp(true, MEDIA, SSRC, number, u32::from(id) * 3_000, &payload)
    };
    let mut stream = Stream::new(Codec::Vp8);
    stream.receive(0, &short(65_530, 127));
    stream.receive(0, &short(3, 0));
    assert_eq!(stream.missing(), BTreeSet::new());
    let mut stream = Stream::new(Codec::Vp8);
    stream.receive(0, &picture(65_530, 32_767, true));
    stream.receive(0, &picture(3, 0, false));
    stream.receive(0, &picture(131, 1, false));
    assert_eq!(stream.missing(), BTreeSet::new());
    stream.receive(0, &picture(260, 2, false));
    assert_eq!(stream.missing().len(), 128);
    let described = |number: u16, id: u16| {
        let mut packet = rtp(true, MEDIA, SSRC, number, u32::from(id) * 3_000, &[]);
        packet[0] |= 0x10;
        packet.extend([0xbe, 0xde, 0, 1, DESCRIPTOR << 4 | 2, 0xc0]);
        packet.extend(id.to_be_bytes());
        packet.extend([0x10, 0x32, 9, 9]);
        packet
    };
    let mut stream = Stream::new(Codec::Av1);
    stream.receive(0, &described(65_530, 65_535));
    stream.receive(0, &described(3, 0));
    assert_eq!(stream.missing(), BTreeSet::new());
}

/// A sender whose ids stand still, repeat, or are closed up over pictures that then come: at most one range is noted, each late packet is
/// stored, and the edges count no longer.
#[test]
fn senders_that_do_not_keep_the_rule() {
    for mode in 0..3 {
        let mut stream = Stream::new(Codec::Vp8);
        let (mut id, mut noted, mut stored) = (0, 0, 0);
        let mut hidden = Vec::new();
        for i in 0..300u16 {
            let own = match mode {
                0 => 7,
                1 => i / 2,
                _ => id,
            };
            let datagram = rtp(
                true,
                MEDIA,
                SSRC,
                i,
                u32::from(i) * 3_000,
                &vp8(own, true, &DELTA),
            );
            if i % 10 == 5 {
                hidden.push((i, datagram));
                // In mode 2 the picture that was not seen has no id of its own.
                id += u16::from(mode != 2);
            } else {
                stream.receive(u64::from(i), &datagram);
                id += 1;
            }
            if i % 10 == 8 {
                let (number, late) = hidden.pop().unwrap();
                noted += usize::from(!stream.missing().contains(&number));
                stored += usize::from(stream.receive(u64::from(i), &late) == Outcome::Held);
            }
        }
        assert!(noted <= 1 && stored == 30, "mode {mode}: {noted} {stored}");
        assert!(!stream.edges.is_trusted());
    }
}

/// A restart that the receiver finds begins the edges anew, whoever confirms it; one that the caller announces does after `forget`. No
/// range reaches from one sender to the next one.
#[test]
fn restarts_begin_anew() {
    let time = |packet: Vec<u8>, time: u32| {
        let mut packet = packet;
        packet[4..8].copy_from_slice(&time.to_be_bytes());
        packet
    };
    let mut stream = Stream::new(Codec::Vp8);
    // Not trusted: the id 1 ends at two numbers.
    stream.receive(0, &picture(10, 1, true));
    stream.receive(0, &time(picture(12, 1, false), 9_000));
    assert!(!stream.edges.is_trusted());
    // The new sender's second packet confirms it.
    stream.receive(1, &time(picture(40_000, 5, true), 1 << 30));
    stream.receive(1, &time(picture(40_001, 6, false), (1 << 30) + 3_000));
    assert_eq!(stream.receiver.restarts(), 1);
    assert!(stream.edges.is_trusted());
    stream.receive(1, &time(picture(40_004, 7, false), (1 << 30) + 6_000));
    assert_eq!(stream.missing(), BTreeSet::new());
    // Announced: the ids follow, but the numbers do not.
    stream.receiver.restart();
    stream.edges.forget();
    stream.receive(2, &picture(40_009, 8, true));
    stream.receive(2, &picture(40_011, 9, false));
    assert_eq!(stream.missing(), BTreeSet::new());
    stream.receive(2, &picture(40_015, 11, false));
    assert_eq!(stream.missing(), BTreeSet::from([40_012, 40_013, 40_014]));
}

/// What a sender sends that keeps the rule: ids and numbers go up by 1, and packets without media lie anywhere.
struct Sent {
    number: u16,
    has_media: bool,
    ends: bool,
    bytes: Vec<u8>,
}

fn fillers(dice: &mut Dice, sent: &mut Vec<Sent>, number: &mut u16, time: u32, most: u64) {
    if dice.below(100) < 40 {
        for _ in 0..=dice.below(most) {
            let bytes = if dice.below(2) == 0 {
                padding(*number, time)
            } else {
                rtp(false, FEC, SSRC, *number, time, &[1, 2, 3])
            };
            sent.push(Sent {
                number: *number,
                has_media: false,
                ends: false,
                bytes,
            });
            *number = number.wrapping_add(1);
        }
    }
}

fn honest(dice: &mut Dice, is_vp9: bool, fills_pictures: bool) -> Vec<Sent> {
    let mut sent = Vec::new();
    let mut number = dice.below(65_536) as u16;
    let mut id = [dice.below(32_768), 32_760, dice.below(130)][dice.below(3) as usize] as u16;
    for picture in 0..3 + dice.below(25) {
        let (time, packets) = (picture as u32 * 3_000, 1 + dice.below(4));
        for k in 0..packets {
            let (begins, ends) = (k == 0, k + 1 == packets);
            let payload = if is_vp9 {
                let flags = 0x80 | if begins { 8 } else { 0 } | if ends { 4 } else { 0 };
                vec![flags, 0x80 | (id >> 8) as u8, id as u8, 9]
            } else {
                vp8(id, begins, &DELTA)
            };
            sent.push(Sent {
                number,
                has_media: true,
                ends,
                bytes: rtp(ends, MEDIA, SSRC, number, time, &payload),
            });
            number = number.wrapping_add(1);
            if fills_pictures && !ends {
                fillers(dice, &mut sent, &mut number, time, 2);
            }
        }
        let most = if dice.below(30) == 0 { 140 } else { 5 };
        fillers(dice, &mut sent, &mut number, time, most);
        id = (id + 1) % 32_768;
    }
    sent
}

/// The order in which packets arrive: some are lost, alone and in rows, late or repeated.
fn arrivals(dice: &mut Dice, sent: &[Sent]) -> Vec<(u64, usize)> {
    let loss = [0, 5, 20, 50][dice.below(4) as usize];
    let spread = [1, 3, 30, 300][dice.below(4) as usize];
    let mut order = Vec::new();
    let mut row = 0;
    for place in 0..sent.len() {
        if row == 0 && dice.below(100) < 3 {
            row = dice.below(20);
        }
        let at = 4 * place as u64 + dice.below(spread);
        if row > 0 {
            row -= 1;
        } else if dice.below(100) >= loss {
            order.push((at, place));
        } else if dice.below(100) < 30 {
            order.push((at + 200 + dice.below(200), place));
        }
        if dice.below(100) < 2 {
            order.push((at + dice.below(100), place));
        }
    }
    order.sort_unstable();
    order
}

/// A number with media that did not come stays missing, whatever is lost, late or repeated.
#[test]
fn media_stays_missing() {
    let mut checks = 0;
    for seed in 0..600 {
        let mut dice = Dice(seed * 77 + 5);
        let is_vp9 = dice.below(2) == 0;
        let fills_pictures = dice.below(2) == 0;
        let sent = honest(&mut dice, is_vp9, fills_pictures);
        let mut stream = Stream::new(if is_vp9 { Codec::Vp9 } else { Codec::Vp8 });
        let mut came = BTreeSet::new();
        for (at, place) in arrivals(&mut dice, &sent) {
            stream.receive(at, &sent[place].bytes);
            came.insert(place);
            let missing = stream.missing();
            let (first, last) = (*came.first().unwrap(), *came.last().unwrap());
            for lost in (first..last).filter(|lost| sent[*lost].has_media && !came.contains(lost)) {
                assert!(missing.contains(&sent[lost].number), "seed {seed}");
                checks += 1;
            }
        }
        assert!(stream.edges.is_trusted(), "seed {seed}");
    }
    assert!(checks > 10_000, "{checks}");
}

/// If packets without media alone are lost, and none of them lies inside a picture, nothing is missing.
#[test]
fn nothing_else_is_missing() {
    for seed in 0..600 {
        let mut dice = Dice(seed * 77 + 6);
        let is_vp9 = dice.below(2) == 0;
        let mut sent = honest(&mut dice, is_vp9, false);
        // At most 127 numbers between two pictures.
        let media: Vec<usize> = (0..sent.len())
            .filter(|place| sent[*place].has_media)
            .collect();
        if media.windows(2).any(|pair| pair[1] - pair[0] > 128) {
            continue;
        }
        sent.retain(|packet| packet.has_media || dice.below(2) == 0);
        let mut stream = Stream::new(if is_vp9 { Codec::Vp9 } else { Codec::Vp8 });
        let mut order: Vec<(u64, usize)> = (0..sent.len())
            .map(|place| (place as u64 + dice.below(20), place))
            .collect();
        order.sort_unstable();
        for (at, place) in order {
            stream.receive(at, &sent[place].bytes);
        }
        let last = sent.iter().rposition(|packet| packet.ends).unwrap();
        let behind: BTreeSet<u16> = sent[last..].iter().map(|packet| packet.number).collect();
        let missing = stream.missing();
        let from = sent[last].number;
        let before: Vec<&u16> = missing
            .iter()
            .filter(|number| from.wrapping_sub(**number) < 32_768)
            .collect();
        assert!(before.is_empty(), "seed {seed}: {before:?} {behind:?}");
    }
}

/// Any bytes, and packets of the stream with any descriptor: no call fails, and a packet that arrives under a noted number is stored.
#[test]
fn hostile_packets() {
    let mut dice = Dice(9);
    let mut stream = Stream::new(Codec::Vp9);
    stream.rules.descriptor = Some(DESCRIPTOR);
    for at in 0..20_000 {
        let length = dice.below(40) as usize;
        let payload: Vec<u8> = (0..length).map(|_| dice.below(256) as u8).collect();
        let types = [MEDIA, MEDIA, MEDIA, RED, RTX, FEC];
        let payload_type = types[dice.below(6) as usize];
        let ssrc = if payload_type == RTX { 70 } else { SSRC };
        let number = (at / 3 + dice.below(200)) as u16;
        let mut bytes = rtp(
            dice.below(2) == 0,
            payload_type,
            ssrc,
            number,
            at as u32,
            &payload,
        );
        bytes[0] |= [0, 0x10, 0x20, 0x40][dice.below(4) as usize];
        let datagram = ParsedDatagram::parse(&bytes);
        let answer = stream.receiver.receive_parsed(Ticks(at), &datagram);
        stream
            .edges
            .follow(&stream.rules, &mut stream.receiver, &datagram, &answer)
            .unwrap();
        if dice.below(50) == 0 {
            while stream.receiver.pop(Ticks(at)).is_some() {}
            stream.edges.forget();
        }
    }
}
