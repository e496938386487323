//! A sender of FEC beside a model that is written after RFC 5109 and RFC 2198, and the whole way: forwarder, FEC, history, a network with
//! losses, a receiver of FEC and a receiver of the stream.

mod random;

use codec_payload::fec::{
    FecReceiver, FecSendError, FecSender, FecSenderError, FecSenderSettings, FecSettings,
    FecWriter, LateIds,
};
use codec_payload::payloads::Payloads;
use random::Dice;
use std::collections::BTreeMap;

type Fail = Box<dyn std::error::Error>;

const SSRC: u32 = 0x0506_0708;
const RED: u8 = 116;
const ULPFEC: u8 = 117;
const MEDIA: u8 = 96;

fn settings(protection: u8, first_number: u16) -> FecSenderSettings {
    FecSenderSettings {
        ssrc: SSRC,
        red_type: RED,
        fec_type: ULPFEC,
        first_number,
        writer: FecWriter {
            protection,
            keyframe_protection: 255,
        },
        late_ids: LateIds {
            transport_number: Some(3),
            ..LateIds::default()
        },
    }
}

/// A packet as the sender of the media makes it.
#[derive(Clone)]
struct Media {
    first: u8,
    second: u8,
    time: u32,
    /// CSRCs and extension.
    front: Vec<u8>,
    /// The same with zeros in the transport-wide number.
    front_zeroed: Vec<u8>,
    payload: Vec<u8>,
    padding: Vec<u8>,
}

impl Media {
    fn random(dice: &mut Dice, time: u32) -> Media {
        let (csrcs, extended) = (dice.below(4) as u8, dice.below(2) == 0);
        let mut front: Vec<u8> = (0..4 * csrcs).collect();
        let mut front_zeroed = front.clone();
        if extended {
            // abs-send-time is not agreed on as late here: it stays.
            front.extend([0xbe, 0xde, 0, 2, 0x31, 7, 9, 0x22, 1, 2, 3, 0]);
            front_zeroed.extend([0xbe, 0xde, 0, 2, 0x31, 0, 0, 0x22, 1, 2, 3, 0]);
        }
        let padding = match dice.below(3) {
            0 => vec![0, 0, 3],
            _ => Vec::new(),
        };
        let size = if dice.below(12) == 0 {
            0
        } else {
            1 + dice.below(80)
        };
        Media {
            first: 0x80 | u8::from(!padding.is_empty()) << 5 | u8::from(extended) << 4 | csrcs,
            second: (dice.below(2) as u8) << 7 | MEDIA,
            time,
            front,
            front_zeroed,
            payload: (0..size).map(|_| dice.below(256) as u8).collect(),
            padding,
        }
    }

    fn bytes(&self, first: u8, second: u8, number: u16, rest: &[&[u8]]) -> Vec<u8> {
        let mut out = vec![first, second];
        out.extend(number.to_be_bytes());
        out.extend(self.time.to_be_bytes());
        out.extend(SSRC.to_be_bytes());
        out.extend(rest.concat());
        out
    }

    fn datagram(&self, number: u16) -> Vec<u8> {
        self.bytes(
            self.first,
            self.second,
            number,
            &[&self.front, &self.payload, &self.padding],
        )
    }

    /// What is sent for it.
    fn sent(&self, number: u16) -> Vec<u8> {
        if self.payload.is_empty() {
            return self.datagram(number);
        }
        let second = self.second & 0x80 | RED;
        let block = [self.second & 0x7f];
        self.bytes(
            self.first & !0x20,
            second,
            number,
            &[&self.front, &block, &self.payload],
        )
    }

    /// As FEC protects it.
    fn protected(&self, number: u16) -> Vec<u8> {
        self.bytes(
            self.first & !0x20,
            self.second,
            number,
            &[&self.front_zeroed, &self.payload],
        )
    }
}

/// A packet of FEC for some packets after sections 7.3 and 7.4 of RFC 5109, in RED.
fn fec_datagram(number: u16, time: u32, base: u16, packets: &[&[u8]]) -> Vec<u8> {
    let longest = packets.iter().map(|p| p.len() - 12).max().unwrap_or(0);
    let (mut head, mut size, mut mask) = ([0u8; 8], 0u16, 0u64);
    let mut payload = vec![0u8; longest];
    for packet in packets {
        for i in 0..8 {
            head[i] ^= packet[i];
        }
        size ^= (packet.len() - 12) as u16;
        for (to, from) in payload.iter_mut().zip(&packet[12..]) {
            *to ^= from;
        }
        let place = u16::from_be_bytes([packet[2], packet[3]]).wrapping_sub(base);
        mask |= 1 << (47 - place);
    }
    let long = mask % (1 << 32) != 0;
    let mut out = vec![0x80, RED];
    out.extend(number.to_be_bytes());
    out.extend(time.to_be_bytes());
    out.extend(SSRC.to_be_bytes());
    out.push(ULPFEC);
    out.extend([(head[0] & 0x3f) | u8::from(long) << 6, head[1]]);
    out.extend(base.to_be_bytes());
    out.extend(&head[4..8]);
    out.extend(size.to_be_bytes());
    out.extend((longest as u16).to_be_bytes());
    out.extend(&mask.to_be_bytes()[2..if long { 8 } else { 4 }]);
    out.extend(payload);
    out
}

/// The FEC of a frame: groups of at most 48 consecutive numbers, and every k-th packet of a group.
fn fec_of(protection: u8, mut number: u16, time: u32, held: &[(u16, Vec<u8>)]) -> Vec<Vec<u8>> {
    let mut groups: Vec<Vec<&(u16, Vec<u8>)>> = Vec::new();
    for one in held {
        match groups.last_mut() {
            Some(group)
                if group.len() < 48 && one.0 == group[0].0.wrapping_add(group.len() as u16) =>
            {
                group.push(one)
            }
            _ => groups.push(vec![one]),
        }
    }
    let mut out = Vec::new();
    for group in groups {
        let share = (group.len() * usize::from(protection) + 128) / 256;
        let count = if protection == 0 { 0 } else { share.max(1) };
        for n in 0..count {
            let chosen: Vec<&[u8]> = group
                .iter()
                .skip(n)
                .step_by(count)
                .map(|one| one.1.as_slice())
                .collect();
            out.push(fec_datagram(number, time, group[0].0, &chosen));
            number = number.wrapping_add(1);
        }
    }
    out
}

fn all_of(out: &Payloads) -> Vec<Vec<u8>> {
    (0..out.len()).map(|i| out.get(i).to_vec()).collect()
}

/// Frames with gaps, in any order, and packets that come after the FEC of their frame: each byte and each number is that of the model.
#[test]
fn a_sender_writes_what_the_model_writes() -> Result<(), Fail> {
    let mut dice = Dice(87);
    let (mut late_count, mut fec_count, mut gaps) = (0, 0, 0);
    for round in 0..60u16 {
        let protection = [0, 40, 85, 255][usize::from(round % 4)];
        let first = round.wrapping_mul(1_111).wrapping_sub(40);
        let mut sender = FecSender::new(settings(protection, first))?;
        // The media's own numbers, and how many packets of FEC stand below each.
        let mut number = 60_000 + u64::from(round) * 131;
        let mut below: u64 = 0;
        let (mut begun, mut top) = (None, 0);
        let mut late: Vec<(u64, u64, Media)> = Vec::new();
        let (mut out, mut fec) = (Vec::new(), Payloads::new(3, 5)?);
        for frame in 0..40u32 {
            let count = 1 + dice.below(if frame % 9 == 0 { 70 } else { 8 });
            let mut media: Vec<(u64, Media)> = (0..count)
                .map(|i| (number + i, Media::random(&mut dice, frame * 3_000)))
                .collect();
            let last = number + count - 1;
            number += count;
            // Some come late, and one is never seen. The first and the last one stay.
            for place in (1..media.len().saturating_sub(1)).rev() {
                match dice.below(20) {
                    0 => {
                        let (n, one) = media.remove(place);
                        late.push((n, below, one));
                    }
                    1 => {
                        gaps += 1;
                        media.remove(place);
                    }
                    2 if place > 1 => media.swap(place, place - 1),
                    _ => {}
                }
            }
            let start = *begun.get_or_insert(media[0].0);
            let number_of = |n: u64, below: u64| first.wrapping_add((n + below - start) as u16);
            let mut held = BTreeMap::new();
            for (n, one) in &media {
                let is_highest = *n > top;
                top = top.max(*n);
                let ends = sender.push(&one.datagram(*n as u16), &mut out)?;
                assert_eq!(ends, is_highest && one.second > 127);
                assert_eq!(out, one.sent(number_of(*n, below)));
                if !one.payload.is_empty() {
                    held.insert(*n, one.protected(number_of(*n, below)));
                }
            }
            let is_keyframe = frame % 10 == 0;
            let share = if is_keyframe { 255 } else { protection };
            let held: Vec<(u16, Vec<u8>)> = held
                .into_iter()
                .map(|(n, bytes)| (number_of(n, below), bytes))
                .collect();
            let time = media
                .iter()
                .find(|(n, _)| *n == last)
                .map(|(_, one)| one.time)
                .ok_or("no last packet")?;
            sender.finish_frame(is_keyframe, &mut fec)?;
            let wanted = fec_of(share, number_of(last + 1, below), time, &held);
            assert!(all_of(&fec) == wanted, "round {round}, frame {frame}");
            fec_count += wanted.len();
            below += wanted.len() as u64;
            // Late ones keep their places: the FEC above them does not count.
            if dice.below(3) == 0 {
                for (n, at, one) in late.drain(..) {
                    if at == below {
                        continue;
                    }
                    assert!(!sender.push(&one.datagram(n as u16), &mut out)?);
                    assert_eq!(out, one.sent(number_of(n, at)));
                    late_count += 1;
                }
            }
        }
    }
    assert!(late_count > 100 && fec_count > 1_000 && gaps > 100);
    Ok(())
}

#[test]
fn faults_have_names_and_change_nothing() -> Result<(), Fail> {
    let new = |red_type, fec_type| {
        FecSender::new(FecSenderSettings {
            red_type,
            fec_type,
            ..settings(85, 1)
        })
        .err()
    };
    assert_eq!(new(128, 117), Some(FecSenderError::RedType));
    assert_eq!(new(116, 128), Some(FecSenderError::FecType));
    assert_eq!(new(116, 116), Some(FecSenderError::FecType));
    let mut sender = FecSender::new(settings(85, 500))?;
    let mut dice = Dice(1);
    let mut one = Media::random(&mut dice, 1);
    one.payload = vec![1, 2, 3];
    let mut out = vec![9];
    assert!(matches!(
        sender.push(&[0x80, 96], &mut out),
        Err(FecSendError::Rtp(_))
    ));
    assert!(out.is_empty());
    let mut other = one.datagram(7);
    other[11] ^= 1;
    assert_eq!(
        sender.push(&other, &mut out),
        Err(FecSendError::OtherStream)
    );
    for kind in [RED, ULPFEC] {
        let second = kind;
        let packet = Media {
            second,
            ..one.clone()
        };
        assert_eq!(
            sender.push(&packet.datagram(7), &mut out),
            Err(FecSendError::PayloadType)
        );
    }
    let large = Media {
        first: 0x80,
        front: Vec::new(),
        payload: vec![1; 65_536],
        padding: Vec::new(),
        ..one.clone()
    };
    assert_eq!(
        sender.push(&large.datagram(7), &mut out),
        Err(FecSendError::TooLarge)
    );
    // After 64 times FEC the packets before the first of them are too old. No number was used so far.
    let mut fec = Payloads::new(0, 0)?;
    for n in 0..66u16 {
        sender.push(&one.datagram(1_000 + n), &mut out)?;
        assert_eq!(out, one.sent(500 + 2 * n));
        sender.finish_frame(false, &mut fec)?;
        assert_eq!(fec.len(), 1);
    }
    assert_eq!(
        sender.push(&one.datagram(1_001), &mut out),
        Err(FecSendError::TooOld)
    );
    sender.push(&one.datagram(1_002), &mut out)?;
    assert_eq!(out, one.sent(504));
    Ok(())
}

/// 48 packets and more, one packet, and protection that is switched off and on again.
#[test]
fn protection_can_change() -> Result<(), Fail> {
    let mut sender = FecSender::new(settings(64, 0))?;
    let mut dice = Dice(3);
    let mut one = Media::random(&mut dice, 1);
    one.payload = vec![5; 9];
    let (mut out, mut fec) = (Vec::new(), Payloads::new(0, 0)?);
    let mut number = 0u16;
    for (protection, packets, wanted) in [
        (64, 1, 1),
        (64, 48, 12),
        (64, 49, 13),
        (0, 10, 0),
        (255, 10, 10),
    ] {
        let keyframe_protection = protection;
        sender.set_protection(FecWriter {
            protection,
            keyframe_protection,
        });
        for _ in 0..packets {
            sender.push(&one.datagram(number), &mut out)?;
            number += 1;
        }
        sender.finish_frame(false, &mut fec)?;
        assert_eq!(fec.len(), wanted);
    }
    sender.finish_frame(true, &mut fec)?;
    assert!(fec.is_empty());
    // Of a frame without end 512 packets are protected.
    for _ in 0..600 {
        sender.push(&one.datagram(number), &mut out)?;
        number += 1;
    }
    sender.finish_frame(false, &mut fec)?;
    assert_eq!(fec.len(), 512);
    Ok(())
}

/// What is sent is taken by a receiver of FEC: of each group with one loss the packet is rebuilt, as it was before RED.
#[test]
fn a_receiver_rebuilds_what_is_lost() -> Result<(), Fail> {
    let mut dice = Dice(0xfec);
    let mut sender = FecSender::new(settings(85, 65_000))?;
    let mut receiver = FecReceiver::new(FecSettings {
        ssrc: SSRC,
        red_type: RED,
        fec_type: ULPFEC,
        late_ids: settings(0, 0).late_ids,
        bytes: 1 << 20,
    })?;
    let (mut out, mut fec) = (Vec::new(), Payloads::new(0, 0)?);
    let (mut number, mut lost_count, mut rebuilt) = (9_000u16, 0, 0);
    let mut next = 65_000u16;
    for frame in 0..2_000u32 {
        let mut datagrams = Vec::new();
        let mut lost = BTreeMap::new();
        for _ in 0..1 + dice.below(12) {
            let mut one = Media::random(&mut dice, frame);
            one.payload.push(1);
            sender.push(&one.datagram(number), &mut out)?;
            number = number.wrapping_add(1);
            if dice.below(10) == 0 {
                lost.insert(next, one.protected(next));
            } else {
                datagrams.push(out.clone());
            }
            next = next.wrapping_add(1);
        }
        sender.finish_frame(false, &mut fec)?;
        next = next.wrapping_add(fec.len() as u16);
        datagrams.extend(all_of(&fec).into_iter().filter(|_| dice.below(10) > 0));
        lost_count += lost.len();
        for datagram in &datagrams {
            receiver.receive(datagram)?;
            if let Some(packet) = receiver.next_rebuilt()? {
                let at = u16::from_be_bytes([packet[2], packet[3]]);
                assert_eq!(lost.remove(&at), Some(packet));
                rebuilt += 1;
            }
        }
    }
    assert!(lost_count > 1_000 && rebuilt * 10 > lost_count * 6);
    Ok(())
}
