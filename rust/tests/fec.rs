//! ULPFEC. The example is that of RFC 5109, section 10.1. The other packets of FEC are made by a model that is written after sections 7
//! and 8, bit by bit.

mod random;

use codec_payload::fec::{FecFault, FecPacket, FecWriter, PacketStore};
use codec_payload::payloads::Payloads;
use codec_payload::rtp::RtpPacket;
use random::Dice;

type Fail = Box<dyn std::error::Error>;

fn bytes_of(random: &mut Dice, count: u64) -> Vec<u8> {
    (0..count).map(|_| random.below(256) as u8).collect()
}

/// An RTP packet without CSRCs, extension and padding.
fn plain(
    marker: bool,
    payload_type: u8,
    number: u16,
    time: u32,
    ssrc: u32,
    payload: &[u8],
) -> Vec<u8> {
    let mut packet = vec![0x80, u8::from(marker) << 7 | payload_type];
    packet.extend(number.to_be_bytes());
    packet.extend(time.to_be_bytes());
    packet.extend(ssrc.to_be_bytes());
    packet.extend(payload);
    packet
}

/// A random packet: with CSRCs, an extension and padding, or without.
fn packet(random: &mut Dice, number: u16, ssrc: u32) -> Vec<u8> {
    let (csrcs, extension, padding) = (random.below(4), random.below(3), random.below(6));
    let size = random.below(60);
    let mut payload = bytes_of(random, csrcs * 4);
    if extension > 0 {
        payload.extend([0xbe, 0xde, 0, extension as u8]);
        payload.extend(bytes_of(random, extension * 4));
    }
    payload.extend(bytes_of(random, size));
    if padding > 0 {
        payload.extend(vec![0; padding as usize - 1]);
        payload.push(padding as u8);
    }
    let mut packet = plain(
        random.below(2) == 1,
        random.below(128) as u8,
        number,
        random.below(1 << 31) as u32,
        ssrc,
        &payload,
    );
    packet[0] |= (u8::from(padding > 0) << 5) | (u8::from(extension > 0) << 4) | csrcs as u8;
    packet
}

/// The bit string of a packet (section 7.3): 64 bits of its header, and the length of what is after the fixed header.
fn header_bits(packet: &[u8]) -> Vec<bool> {
    let mut bytes = packet[..8].to_vec();
    bytes.extend(((packet.len() - 12) as u16).to_be_bytes());
    bits(&bytes)
}

fn bits(bytes: &[u8]) -> Vec<bool> {
    bytes
        .iter()
        .flat_map(|byte| (0..8).rev().map(move |i| byte >> i & 1 == 1))
        .collect()
}

fn bytes(bits: &[bool]) -> Vec<u8> {
    bits.chunks(8)
        .map(|eight| eight.iter().fold(0, |byte, bit| byte * 2 + u8::from(*bit)))
        .collect()
}

fn add(sum: &mut Vec<bool>, bits: &[bool]) {
    if sum.len() < bits.len() {
        sum.resize(bits.len(), false);
    }
    for (to, from) in sum.iter_mut().zip(bits) {
        *to ^= from;
    }
}

/// A packet of FEC after sections 7.3 and 7.4. `long`: with a mask of 48 bits.
fn fec_of(base: u16, long: bool, packets: &[&[u8]]) -> Vec<u8> {
    let (mut header, mut payload, mut mask) = (
        vec![false; 80],
        Vec::new(),
        vec![false; if long { 48 } else { 16 }],
    );
    for packet in packets {
        add(&mut header, &header_bits(packet));
        add(&mut payload, &bits(&packet[12..]));
        let number = u16::from_be_bytes([packet[2], packet[3]]);
        mask[usize::from(number.wrapping_sub(base))] = true;
    }
    header[0] = false;
    header[1] = long;
    header.splice(16..32, bits(&base.to_be_bytes()));
    let mut out = bytes(&header);
    out.extend(((payload.len() / 8) as u16).to_be_bytes());
    out.extend(bytes(&mask));
    out.extend(bytes(&payload));
    out
}

fn store_of(packets: &[&[u8]]) -> Result<PacketStore, Fail> {
    let mut store = PacketStore::new(1 << 20)?;
    for packet in packets {
        store.keep(packet)?;
    }
    Ok(store)
}

fn payloads(out: &Payloads) -> Vec<Vec<u8>> {
    (0..out.len()).map(|i| out.get(i).to_vec()).collect()
}

/// Packets A to D of the example. Its payloads are not given: they are any bytes.
fn example() -> [Vec<u8>; 4] {
    let mut random = Dice(5109);
    [
        plain(true, 11, 8, 3, 2, &bytes_of(&mut random, 200)),
        plain(false, 18, 9, 5, 2, &bytes_of(&mut random, 140)),
        plain(true, 11, 10, 7, 2, &bytes_of(&mut random, 100)),
        plain(false, 18, 11, 9, 2, &bytes_of(&mut random, 340)),
    ]
}

/// Its FEC header and header of level 0: recovery fields 0, SN base 8, TS recovery 8, length recovery 372, protection length 340, mask
/// 61,440.
const EXAMPLE: [u8; 14] = [0, 0, 0, 8, 0, 0, 0, 8, 0x01, 0x74, 0x01, 0x54, 0xf0, 0];

#[test]
fn the_example_of_the_rfc_is_written_read_and_rebuilds_each_packet() -> Result<(), Fail> {
    let packets = example();
    let all: Vec<&[u8]> = packets.iter().map(Vec::as_slice).collect();
    let mut out = Payloads::new(0, 0)?;
    let writer = FecWriter {
        protection: 64,
        keyframe_protection: 255,
    };
    writer.write(false, &all, &mut out)?;
    let [bytes] = &payloads(&out)[..] else {
        return Err("not one packet of FEC".into());
    };
    assert_eq!(bytes[..14], EXAMPLE);
    assert_eq!(*bytes, fec_of(8, false, &all));
    let fec = FecPacket::read(bytes)?;
    assert_eq!((fec.base, fec.mask, fec.mask_continued), (8, 61_440, None));
    assert_eq!(
        (
            fec.first,
            fec.second,
            fec.time,
            fec.length,
            fec.payload.len()
        ),
        (0, 0, 8, 372, 340)
    );
    for lost in 0..4 {
        let came: Vec<&[u8]> = (0..4).filter(|i| *i != lost).map(|i| all[i]).collect();
        let store = store_of(&came)?;
        assert_eq!(fec.only_missing(&store), Some(8 + lost as u16));
        assert_eq!(fec.rebuild(2, &store)?.as_deref(), Some(all[lost]));
    }
    // Of a keyframe one packet of FEC protects each packet. SN base is that of the group.
    writer.write(true, &all, &mut out)?;
    let wanted: Vec<Vec<u8>> = all
        .iter()
        .map(|packet| fec_of(8, false, &[packet]))
        .collect();
    assert_eq!(payloads(&out), wanted);
    Ok(())
}

#[test]
fn each_fault_has_its_name() {
    let read = |bytes: &[u8]| FecPacket::read(bytes).map(|fec| fec.payload.len());
    assert_eq!(read(&[]), Err(FecFault::HeaderTooShort));
    assert_eq!(read(&EXAMPLE[..9]), Err(FecFault::HeaderTooShort));
    let mut bytes = EXAMPLE.to_vec();
    bytes[0] = 0x80;
    assert_eq!(read(&bytes), Err(FecFault::Extended));
    assert_eq!(read(&EXAMPLE[..13]), Err(FecFault::LevelTooShort));
    bytes[0] = 0x40;
    assert_eq!(read(&bytes), Err(FecFault::LevelTooShort));
    bytes.extend([0; 4 + 340]);
    assert_eq!(read(&bytes), Ok(340));
    bytes[12] = 0;
    assert_eq!(read(&bytes), Err(FecFault::EmptyMask));
    bytes[17] = 1;
    assert_eq!(read(&bytes), Ok(340));
    bytes.pop();
    assert_eq!(read(&bytes), Err(FecFault::PayloadTooShort));
    let mut bytes = EXAMPLE.to_vec();
    bytes.extend([7; 341]);
    assert_eq!(FecPacket::read(&bytes).map(|fec| fec.further), Ok(&[7][..]));
}

/// Any packets, either mask, any order, and any number of losses.
#[test]
fn a_lost_packet_is_rebuilt_byte_for_byte() -> Result<(), Fail> {
    let mut random = Dice(0x5eed);
    let mut rebuilt = 0;
    for _ in 0..3_000 {
        let (base, ssrc, long) = (
            random.below(65_536) as u16,
            random.below(1 << 31) as u32,
            random.below(2) == 1,
        );
        let places = if long { 48 } else { 16 };
        let mut chosen: Vec<u16> = (0..places).filter(|_| random.below(3) == 0).collect();
        chosen.push(random.below(u64::from(places)) as u16);
        chosen.sort_unstable();
        chosen.dedup();
        let packets: Vec<Vec<u8>> = chosen
            .iter()
            .map(|place| packet(&mut random, base.wrapping_add(*place), ssrc))
            .collect();
        let all: Vec<&[u8]> = packets.iter().map(Vec::as_slice).collect();
        let bytes = fec_of(base, long, &all);
        let fec = FecPacket::read(&bytes)?;
        let mut again = Vec::new();
        fec.write(&mut again)?;
        assert_eq!(again, bytes);
        let losses = random.below(3) as usize;
        let mut came = all.clone();
        let mut lost = Vec::new();
        for _ in 0..losses.min(came.len()) {
            lost.push(came.remove(random.below(came.len() as u64) as usize));
        }
        for i in (1..came.len()).rev() {
            came.swap(i, random.below(i as u64 + 1) as usize);
        }
        let answer = fec.rebuild(ssrc, &store_of(&came)?)?;
        assert_eq!(
            answer.as_deref(),
            if let [one] = lost[..] {
                Some(one)
            } else {
                None
            }
        );
        rebuilt += u32::from(answer.is_some());
    }
    assert!(rebuilt > 500);
    Ok(())
}

/// The packets of FEC of the writer, by the model: groups of consecutive numbers, and which places each protects.
fn written(protection: u8, packets: &[&[u8]]) -> Vec<Vec<u8>> {
    let number = |packet: &[u8]| u16::from_be_bytes([packet[2], packet[3]]);
    let mut groups: Vec<Vec<&[u8]>> = Vec::new();
    for packet in packets {
        match groups.last_mut() {
            Some(group)
                if group.len() < 48
                    && number(packet) == number(group[0]).wrapping_add(group.len() as u16) =>
            {
                group.push(packet)
            }
            _ => groups.push(vec![packet]),
        }
    }
    let mut out = Vec::new();
    for group in groups {
        let share = (group.len() as f64 * f64::from(protection) / 256.0 + 0.5).floor() as usize;
        let count = if protection == 0 { 0 } else { share.max(1) };
        for n in 0..count {
            let places: Vec<usize> = (n..group.len()).step_by(count).collect();
            let long = places.iter().any(|place| *place > 15);
            let protected: Vec<&[u8]> = places.iter().map(|place| group[*place]).collect();
            out.push(fec_of(number(group[0]), long, &protected));
        }
    }
    out
}

#[test]
fn the_writer_writes_the_packets_of_the_model() -> Result<(), Fail> {
    let mut random = Dice(0xfec);
    let mut out = Payloads::new(20, 10)?;
    let (mut longest, mut gaps) = (0, 0);
    for _ in 0..600 {
        let protection = random.below(256) as u8;
        let mut number = random.below(65_536) as u16;
        let packets: Vec<Vec<u8>> = (0..random.below(120))
            .map(|_| {
                let gap = random.below(20) == 0;
                gaps += u32::from(gap);
                number = number.wrapping_add(1 + u16::from(gap));
                packet(&mut random, number, 7)
            })
            .collect();
        let all: Vec<&[u8]> = packets.iter().map(Vec::as_slice).collect();
        let writer = FecWriter {
            protection: 0,
            keyframe_protection: protection,
        };
        writer.write(true, &all, &mut out)?;
        assert_eq!(payloads(&out), written(protection, &all));
        longest = longest.max(out.len());
        writer.write(false, &all, &mut out)?;
        assert!(out.is_empty());
    }
    assert!(longest > 80 && gaps > 100);
    Ok(())
}

#[test]
fn what_is_lost_is_rebuilt_from_fec_of_the_writer() -> Result<(), Fail> {
    let mut random = Dice(0xabcd);
    let (mut lost_count, mut rebuilt) = (0, 0);
    let mut out = Payloads::new(0, 0)?;
    for round in 0..400u32 {
        let first = random.below(65_536) as u16;
        let packets: Vec<Vec<u8>> = (0..1 + random.below(70) as u16)
            .map(|i| packet(&mut random, first.wrapping_add(i), round))
            .collect();
        let all: Vec<&[u8]> = packets.iter().map(Vec::as_slice).collect();
        FecWriter {
            protection: random.below(256) as u8,
            keyframe_protection: 0,
        }
        .write(false, &all, &mut out)?;
        let came: Vec<&[u8]> = all
            .iter()
            .copied()
            .filter(|_| random.below(10) > 0)
            .collect();
        let mut store = store_of(&came)?;
        lost_count += all.len() - came.len();
        for bytes in payloads(&out) {
            if let Some(packet) = FecPacket::read(&bytes)?.rebuild(round, &store)? {
                assert!(all.contains(&packet.as_slice()) && !came.contains(&packet.as_slice()));
                store.keep(&packet)?;
                rebuilt += 1;
            }
        }
    }
    assert!(rebuilt * 2 > lost_count && rebuilt < lost_count);
    Ok(())
}

/// Dice bytes, whole masks, lengths beyond the end: nothing panics, and what is rebuilt is an RTP packet of the stream.
#[test]
fn hostile_bytes_rebuild_rtp_packets_or_nothing() -> Result<(), Fail> {
    let mut random = Dice(0xbad);
    let mut rebuilt = 0;
    for _ in 0..2_000 {
        let base = random.below(65_536) as u16;
        let came: Vec<u16> = (0..48).filter(|_| random.below(20) > 0).collect();
        let packets: Vec<Vec<u8>> = came
            .iter()
            .map(|i| packet(&mut random, base.wrapping_add(*i), 9))
            .collect();
        let all: Vec<&[u8]> = packets.iter().map(Vec::as_slice).collect();
        let store = store_of(&all)?;
        let size = random.below(200);
        let mut bytes = bytes_of(&mut random, 18 + size);
        bytes[0] &= 0x7f;
        bytes[2..4].copy_from_slice(&base.to_be_bytes());
        if random.below(2) == 0 {
            bytes[8] = 0;
            bytes[9] = size as u8;
            bytes[10] = 0;
            bytes[11] = size as u8;
        }
        let Ok(fec) = FecPacket::read(&bytes) else {
            continue;
        };
        if let Some(packet) = fec.rebuild(9, &store)? {
            assert_eq!(RtpPacket::parse(&packet)?.header.ssrc, 9);
            rebuilt += 1;
        }
    }
    assert!(rebuilt > 20, "{rebuilt}");
    Ok(())
}

#[test]
fn a_store_has_the_latest_packet_of_each_place_and_no_large_one() -> Result<(), Fail> {
    let mut store = PacketStore::new(512 * 40)?;
    let packet = |number, size| plain(false, 96, number, 1, 1, &vec![number as u8; size]);
    store.keep(&packet(5, 28))?;
    store.keep(&packet(6, 29))?;
    assert_eq!(store.find(5), Some(&packet(5, 28)[..]));
    assert_eq!(store.find(6), None);
    assert_eq!(store.find(517), None);
    store.keep(&packet(517, 3))?;
    assert_eq!(store.find(5), None);
    assert_eq!(store.find(517), Some(&packet(517, 3)[..]));
    Ok(())
}
