//! The streams of a port.

use crate::packets::*;
use crate::random::Dice;
use crate::{Fail, pass, port, settings};
use codec_payload::fec::{FecCounts, FecPort};
use std::collections::BTreeMap;

fn number_of(packet: &[u8]) -> u16 {
    u16::from_be_bytes([packet[2], packet[3]])
}

fn ssrc_of(packet: &[u8]) -> u32 {
    u32::from_be_bytes([packet[8], packet[9], packet[10], packet[11]])
}

fn random_packet(dice: &mut Dice, ssrc: u32, number: u16) -> Packet {
    let mut packet = Packet::new(ssrc, number, &[]);
    packet.payload = (0..dice.below(80)).map(|_| dice.below(256) as u8).collect();
    packet.time = dice.below(1 << 32) as u32;
    packet.marker = dice.below(2) == 1;
    for (id, len) in [(3, 2), (2, 3), (14, 3), (6, 13), (5, 3), (4, 1)] {
        if dice.below(2) == 0 {
            let value = (0..len).map(|_| dice.below(256) as u8).collect();
            packet.elements.push((id, value));
        }
    }
    packet
}

/// A sender of a stream.
struct Sender {
    ssrc: u32,
    number: u16,
    /// What it sent lately: the packet as a session gets it once it is rebuilt.
    sent: BTreeMap<u16, Vec<u8>>,
    lost: u64,
    rebuilt: u64,
}

impl Sender {
    /// The datagrams of a frame that arrive, each with when, and with what passes.
    fn frame(&mut self, dice: &mut Dice) -> Vec<(u64, Vec<u8>, Vec<u8>)> {
        let base = self.number;
        let count = 1 + dice.below(8) as u16;
        let group: Vec<Packet> = (0..count)
            .map(|i| random_packet(dice, self.ssrc, base.wrapping_add(i)))
            .collect();
        let mut arriving = Vec::new();
        for packet in &group {
            self.sent.insert(packet.number, packet.rebuilt());
            if dice.below(10) == 0 {
                self.lost += 1;
                continue;
            }
            for _copy in 0..1 + dice.below(20) / 19 {
                let at = dice.below(30) * dice.below(4);
                arriving.push((at, packet.in_red(), packet.bytes()));
            }
        }
        self.number = base.wrapping_add(count);
        let fec = Packet::new(self.ssrc, self.number, &[]);
        let mut padding = fec.clone();
        padding.payload_type = ULPFEC;
        padding.payload = vec![1];
        let mut passing = padding.bytes();
        passing[0] |= 0x20;
        arriving.push((dice.below(30), fec.fec_in_red(base, &group), passing));
        self.number = self.number.wrapping_add(1);
        for old in 1_000..1_100 {
            self.sent.remove(&base.wrapping_sub(old));
        }
        arriving
    }
}

/// Three streams with losses, copies and any order, beside audio, RTCP, retransmissions, and RED and FEC of an attacker with other
/// SSRCs: each passes as RFC 2198 says, and each rebuilt packet was sent.
#[test]
fn each_rebuilt_packet_was_sent() -> Result<(), Fail> {
    let mut dice = Dice(2_198);
    let mut port = port()?;
    let mut senders: Vec<Sender> = [1, 2, 0xffff_ffff]
        .into_iter()
        .map(|ssrc| Sender {
            ssrc,
            number: dice.below(65_536) as u16,
            sent: BTreeMap::new(),
            lost: 0,
            rebuilt: 0,
        })
        .collect();
    for _frame in 0..1_500 {
        let mut arriving = Vec::new();
        for sender in &mut senders {
            arriving.extend(sender.frame(&mut dice));
        }
        let audio = Packet::new(9, dice.below(65_536) as u16, b"audio").bytes();
        arriving.push((dice.below(30), audio.clone(), audio));
        // A receiver report about the stream 1, whose bytes read as an RTP packet of that stream.
        let mut report = vec![0x81, 201, 0, 7, 0, 0, 0, 5, 0, 0, 0, 1];
        report.extend([0; 20]);
        arriving.push((dice.below(30), report.clone(), report));
        let attacker = 1_000 + dice.below(1_000_000) as u32;
        let number = dice.below(65_536) as u16;
        let fake = random_packet(&mut dice, attacker, number);
        arriving.push((dice.below(30), fake.in_red(), fake.bytes()));
        arriving.sort_by_key(|(at, ..)| *at);
        for (_, datagram, wanted) in arriving {
            assert_eq!(pass(&mut port, &datagram)?, wanted);
            while let Some(packet) = port.next_rebuilt()? {
                let ssrc = ssrc_of(&packet);
                let sender = senders.iter_mut().find(|sender| sender.ssrc == ssrc);
                let sender = sender.ok_or("a packet of nobody")?;
                assert_eq!(sender.sent.get(&number_of(&packet)), Some(&packet));
                sender.rebuilt += 1;
            }
        }
    }
    let mut all = 0;
    for sender in &senders {
        let counts = port.counts_of(sender.ssrc).ok_or("a stream left")?;
        assert_eq!((counts.rebuilt, counts.fec), (sender.rebuilt, 1_500));
        // Of a tenth of the packets most are the only lost one of their group.
        assert!(
            sender.rebuilt > sender.lost / 2,
            "{} of {}",
            sender.rebuilt,
            sender.lost
        );
        all += sender.rebuilt;
    }
    assert_eq!(port.counts().rebuilt, all);
    Ok(())
}

/// A pair of packets and their FEC; the first packet is lost.
fn pair(port: &mut FecPort, ssrc: u32, number: u16) -> Result<Option<Vec<u8>>, Fail> {
    let packets = [
        Packet::new(ssrc, number, b"lost"),
        Packet::new(ssrc, number.wrapping_add(1), b"came"),
    ];
    pass(port, &packets[1].in_red())?;
    let fec = Packet::new(ssrc, number.wrapping_add(2), &[]);
    pass(port, &fec.fec_in_red(number, &packets))?;
    let rebuilt = port.next_rebuilt()?;
    if let Some(packet) = &rebuilt {
        assert_eq!(packet, &packets[0].rebuilt());
    }
    Ok(rebuilt)
}

/// Media without RED begins no stream, and FEC does.
#[test]
fn a_stream_begins_with_red_or_fec() -> Result<(), Fail> {
    let mut port = port()?;
    let packets = [Packet::new(7, 10, b"a"), Packet::new(7, 11, b"bc")];
    pass(&mut port, &packets[1].bytes())?;
    assert_eq!(port.counts_of(7), None);
    let fec = Packet::new(7, 12, &[]).fec_in_red(10, &packets);
    pass(&mut port, &fec)?;
    let counts = |media, fec, rebuilt| {
        Some(FecCounts {
            media,
            fec,
            rebuilt,
        })
    };
    assert_eq!(port.counts_of(7), counts(0, 1, 0));
    assert_eq!(port.next_rebuilt()?, None);
    // Now the media of the stream is kept without RED too.
    pass(&mut port, &packets[1].bytes())?;
    assert_eq!(port.next_rebuilt()?, Some(packets[0].rebuilt()));
    assert_eq!(port.next_rebuilt()?, None);
    assert_eq!(port.counts_of(7), counts(1, 1, 1));
    Ok(())
}

/// A live stream stays, whatever SSRCs an attacker sends, until 16,384 other packets came. One with few packets leaves for the next one.
#[test]
fn attackers_do_not_replace_a_live_stream() -> Result<(), Fail> {
    let mut four = settings();
    four.max_streams = 4;
    let mut port = FecPort::new(four)?;
    for i in 0..8 {
        assert!(pair(&mut port, 1, 100 + 3 * i)?.is_some());
    }
    let beyond = |i: u16| Packet::new(1, 200 + i, b"more").in_red();
    for i in 0..8 {
        pass(&mut port, &beyond(i))?;
    }
    let before = port.counts_of(1);
    for ssrc in 1_000..17_000u32 {
        pass(&mut port, &Packet::new(ssrc, 5, b"fake").in_red())?;
        assert!(port.counts_of(ssrc).is_some());
    }
    assert_eq!(port.counts_of(1), before);
    // The latest three of them are there.
    let there = (1_000..17_000).filter(|ssrc| port.counts_of(*ssrc).is_some());
    assert_eq!(there.collect::<Vec<u32>>(), [16_997, 16_998, 16_999]);
    assert!(pair(&mut port, 1, 300)?.is_some());
    // Silent for 16,384 packets, it leaves.
    for ssrc in 20_000..20_000 + 16_384u32 {
        pass(&mut port, &Packet::new(ssrc, 5, b"fake").in_red())?;
    }
    assert_eq!(port.counts_of(1), None);
    Ok(())
}

/// Without a place a stream does not begin: its packets pass, and none is rebuilt.
#[test]
fn live_streams_fill_a_port() -> Result<(), Fail> {
    let mut two = settings();
    two.max_streams = 2;
    let mut port = FecPort::new(two)?;
    for ssrc in [1, 2] {
        for number in 0..16 {
            pass(&mut port, &Packet::new(ssrc, number, b"live").in_red())?;
        }
    }
    assert_eq!(pair(&mut port, 3, 10)?, None);
    assert_eq!(port.counts_of(3), None);
    port.end(1);
    assert!(pair(&mut port, 3, 10)?.is_some());
    assert!(pair(&mut port, 2, 100)?.is_some());
    Ok(())
}

/// After a restart, or an end, nothing of the former sender is left.
#[test]
fn restarts_and_ends() -> Result<(), Fail> {
    for is_restart in [true, false] {
        let mut port = port()?;
        let packets = [Packet::new(7, 10, b"a"), Packet::new(7, 11, b"bc")];
        let fec = Packet::new(7, 12, &[]).fec_in_red(10, &packets);
        let leave = |port: &mut FecPort| {
            if is_restart {
                port.restart(7);
            } else {
                port.end(7);
            }
        };
        pass(&mut port, &packets[1].in_red())?;
        leave(&mut port);
        pass(&mut port, &fec)?;
        assert_eq!(port.next_rebuilt()?, None);
        pass(&mut port, &packets[1].in_red())?;
        leave(&mut port);
        assert_eq!(port.next_rebuilt()?, None);
        assert_eq!(port.counts_of(7).is_some(), is_restart);
        // Others are not affected.
        pass(&mut port, &packets[1].in_red())?;
        port.restart(8);
        port.end(8);
        pass(&mut port, &fec)?;
        assert_eq!(port.next_rebuilt()?, Some(packets[0].rebuilt()));
        assert_eq!(
            (
                port.counts().media,
                port.counts().fec,
                port.counts().rebuilt
            ),
            (3, 2, 1)
        );
    }
    Ok(())
}
