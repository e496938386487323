//! PictureIDs of a viewer's stream over losses, late packets, pictures that are left out, and switches: no two pictures have one id, and
//! no media is sent between a picture and the next one.

mod random;

use codec_payload::Codec;
use codec_payload::forward::{ForwardSettings, Forwarded, Forwarder};
use codec_payload::rtp::RtpPacket;
use random::Dice;
use std::cmp::Reverse;
use std::collections::{BTreeMap, BinaryHeap};
use std::error::Error;

type Outcome = Result<(), Box<dyn Error>>;

fn forwarder() -> Result<Forwarder, Box<dyn Error>> {
    Ok(Forwarder::new(ForwardSettings {
        codec: Codec::Vp8,
        ssrc: 99,
        payload_type: 100,
        first_number: 0,
        first_time: 0,
        retransmissions: None,
    })?)
}

/// A packet of RTP (RFC 3550, section 5.1) with the first payload of a picture of VP8, or a later one: X and S or X, then I, L and T, then a
/// PictureID of 15 bits, TL0PICIDX and TID (RFC 7741, section 4.2).
struct Sent {
    ssrc: u32,
    number: u16,
    picture: u16,
    index: u8,
    layer: u8,
    is_first: bool,
    is_last: bool,
    is_keyframe: bool,
}

impl Sent {
    fn bytes(&self) -> Vec<u8> {
        let mut bytes = vec![0x80, if self.is_last { 0x80 | 96 } else { 96 }];
        bytes.extend(self.number.to_be_bytes());
        bytes.extend((u32::from(self.index) * 3_000).to_be_bytes());
        bytes.extend(self.ssrc.to_be_bytes());
        let [high, low] = self.picture.to_be_bytes();
        let start = if self.is_first { 0x90 } else { 0x80 };
        bytes.extend([
            start,
            0xe0,
            0x80 | high & 0x7f,
            low,
            self.index,
            self.layer << 6,
        ]);
        if self.is_first {
            let tag = if self.is_keyframe { 0x10 } else { 0x11 };
            bytes.extend([tag, 2, 0, 0x9d, 1, 0x2a, 0x40, 1, 0xf0, 0]);
        }
        bytes.resize(40, 0);
        bytes
    }
}

fn picture_id(bytes: &[u8]) -> u16 {
    u16::from_be_bytes([bytes[14] & 0x7f, bytes[15]])
}

fn is_first(bytes: &[u8]) -> bool {
    bytes[12] & 0x10 != 0
}

fn is_last(bytes: &[u8]) -> bool {
    bytes[1] & 0x80 != 0
}

/// A picture of one packet.
fn picture(ssrc: u32, number: u16, id: u16, is_keyframe: bool) -> Vec<u8> {
    Sent {
        ssrc,
        number,
        picture: id,
        index: 7,
        layer: 0,
        is_first: true,
        is_last: true,
        is_keyframe,
    }
    .bytes()
}

/// The picture 501 comes behind 502, which is left out. It is the last one that was sent: the next source goes on behind it, with the
/// PictureID that is 1 more (RFC 7741, section 4.2).
#[test]
fn a_late_picture_is_the_last_one() -> Outcome {
    let mut forwarder = forwarder()?;
    let mut out = Vec::new();
    forwarder.want(1);
    let first = picture(1, 10, 500, true);
    forwarder.write(0, &RtpPacket::parse(&first)?, &mut out)?;
    assert_eq!(picture_id(&out), 0);
    let upper = picture(1, 12, 502, false);
    let answer = forwarder.leave_out(&RtpPacket::parse(&upper)?, &mut out)?;
    assert_eq!(answer, Forwarded::LeftOut);
    let late = picture(1, 11, 501, false);
    let answer = forwarder.write(0, &RtpPacket::parse(&late)?, &mut out)?;
    assert_eq!((answer, picture_id(&out)), (Forwarded::Written, 1));
    // The rest of the picture that was left out does not close the ids up once more.
    let rest = picture(1, 13, 502, false);
    let answer = forwarder.leave_out(&RtpPacket::parse(&rest)?, &mut out)?;
    assert_eq!(answer, Forwarded::LeftOut);
    let next = picture(1, 14, 503, false);
    forwarder.write(0, &RtpPacket::parse(&next)?, &mut out)?;
    assert_eq!(picture_id(&out), 2);
    // A picture below the last one changes nothing, nor does one that is left out behind it.
    let upper = picture(1, 16, 505, false);
    forwarder.leave_out(&RtpPacket::parse(&upper)?, &mut out)?;
    let late = picture(1, 15, 504, false);
    forwarder.write(0, &RtpPacket::parse(&late)?, &mut out)?;
    assert_eq!(picture_id(&out), 3);
    forwarder.write(0, &RtpPacket::parse(&next)?, &mut out)?;
    assert_eq!(picture_id(&out), 2);
    forwarder.want(2);
    let other = picture(2, 700, 9_000, true);
    let answer = forwarder.write(0, &RtpPacket::parse(&other)?, &mut out)?;
    assert_eq!((answer, picture_id(&out)), (Forwarded::Began, 4));
    Ok(())
}

/// Two sources of 40 pictures in two temporal layers each, with losses and late packets: when each packet comes.
fn schedule(dice: &mut Dice) -> (Vec<Sent>, BinaryHeap<Reverse<(u64, usize)>>) {
    let (mut packets, mut arrivals) = (Vec::new(), BinaryHeap::new());
    for source in 0..2 {
        let (mut number, first_id) = (dice.below(65_536) as u16, dice.below(32_768) as u16);
        for index in 0..40 {
            let count = 1 + dice.below(4);
            for place in 0..count {
                packets.push(Sent {
                    ssrc: 7 + source,
                    number,
                    picture: first_id.wrapping_add(u16::from(index)),
                    index,
                    layer: index % 2,
                    is_first: place == 0,
                    is_last: place + 1 == count,
                    is_keyframe: index == 0 || source == 1 && index % 10 == 0,
                });
                number = number.wrapping_add(1);
                let at = u64::from(index) * 40 + place + u64::from(source) * 3;
                let is_late = dice.below(100) < 12;
                let delay = if is_late {
                    100 + dice.below(200)
                } else {
                    dice.below(6)
                };
                if !is_late || dice.below(100) >= 30 {
                    arrivals.push(Reverse((at + delay, packets.len() - 1)));
                }
            }
        }
    }
    (packets, arrivals)
}

/// What a forwarder sends of such a schedule: the upper layer is left out from a moment on, and the viewer goes over to the second
/// source. Each number with its packet.
fn forwarded(seed: u64) -> Result<BTreeMap<u64, Vec<u8>>, Box<dyn Error>> {
    let mut dice = Dice(seed);
    let (packets, mut arrivals) = schedule(&mut dice);
    let (left_from, switch_at) = (dice.below(25) as u8, 300 + dice.below(900));
    let mut forwarder = forwarder()?;
    forwarder.want(7);
    let (mut sent, mut highest, mut out) = (BTreeMap::new(), 0_u64, Vec::new());
    while let Some(Reverse((at, place))) = arrivals.pop() {
        if at > switch_at {
            forwarder.want(8);
        }
        let packet = &packets[place];
        let datagram = packet.bytes();
        let read = RtpPacket::parse(&datagram)?;
        let leaves = packet.layer == 1 && packet.index > left_from;
        let answer = if leaves {
            forwarder.leave_out(&read, &mut out)?
        } else {
            forwarder.write(at * 90, &read, &mut out)?
        };
        if matches!(answer, Forwarded::Began | Forwarded::Written) {
            let low = u16::from_be_bytes([out[2], out[3]]);
            let ahead = i64::from(low.wrapping_sub(highest as u16) as i16);
            let number = highest.checked_add_signed(ahead).unwrap_or(u64::from(low));
            highest = highest.max(number);
            sent.insert(number, out.clone());
        }
    }
    Ok(sent)
}

/// If one packet ends a picture, and another one behind it begins the picture with the next id, no media was sent between them.
#[test]
fn no_media_between_pictures() -> Outcome {
    let (mut pairs, mut gaps) = (0, 0);
    for seed in 0..4_000 {
        let sent = forwarded(seed)?;
        for (last, end) in sent.iter().filter(|(_, bytes)| is_last(bytes)) {
            let next = (picture_id(end) + 1) % 32_768;
            let behind = sent.range(last + 1..last + 129);
            let begins = behind.filter(|(_, bytes)| is_first(bytes) && picture_id(bytes) == next);
            for (first, _) in begins {
                pairs += 1;
                gaps += u64::from(first - last > 1);
                let between = sent.range(last + 1..*first).next();
                assert!(between.is_none(), "seed {seed}: {last} to {first}");
            }
        }
    }
    println!("{pairs} pairs, {gaps} with numbers between");
    assert!(pairs > 10_000);
    Ok(())
}
