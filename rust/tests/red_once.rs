//! RED with padding between its packets: no frame is released twice (RFC 2198, section 3). Chromium pads Opus under the payload
//! type of RED.

mod random;

use codec_payload::jitter::Outcome;
use codec_payload::red::RedSender;
use codec_payload::stream::{ReceiveError, Receiver, ReceiverSettings, RedSettings};
use codec_payload::*;
use random::Dice;
use std::collections::BTreeMap;
use std::error::Error;

/// The payload types of RED and of Opus.
const RED: u8 = 63;
const OPUS: u8 = 111;
/// RTP ticks from frame to frame.
const STEP: u32 = 960;

/// A datagram of the stream, without extensions.
fn datagram(payload_type: u8, number: u16, time: u32, payload: &[u8]) -> Vec<u8> {
    let mut datagram = vec![0x80, payload_type];
    datagram.extend(number.to_be_bytes());
    datagram.extend(time.to_be_bytes());
    datagram.extend(7_u32.to_be_bytes());
    datagram.extend(payload);
    datagram
}

/// Padding alone, under the payload type of RED.
fn padding(number: u16, time: u32) -> Vec<u8> {
    let mut padding = datagram(RED, number, time, &[0, 0, 0, 4]);
    padding[0] |= 0x20;
    padding
}

fn receiver() -> Result<Receiver, Box<dyn Error>> {
    let mut settings = ReceiverSettings::live_audio(OPUS, Frequency::FORTY_EIGHT_KHZ);
    settings.ssrc = Some(7);
    settings.red = Some(RedSettings {
        payload_type: RED,
        step: STEP,
        retransmission: None,
    });
    let depacketizer = CodecDepacketizer::from_codec(Codec::Opus).ok_or("no depacketizer")?;
    Ok(Receiver::new(depacketizer, settings)?)
}

fn red_sender(distances: &[u32]) -> RedSender {
    RedSender::new(Pt::from(RED), Pt::from(OPUS), distances)
}

/// The units that are due.
fn units(receiver: &mut Receiver, now: u64) -> Result<Vec<Vec<u8>>, Box<dyn std::error::Error>> {
    let mut units = Vec::new();
    while let Some(unit) = receiver.pop(Ticks(now)) {
        units.push(unit?.into_result()?.bytes);
    }
    Ok(units)
}

/// A frame, padding, and two frames, each with a block of the frame before it. The block of the second frame seems to have the
/// number of the padding.
#[test]
fn four_datagrams() -> Result<(), Box<dyn Error>> {
    let mut red = red_sender(&[1]);
    let mut wrap = |frame: u8, time| red.wrap(vec![frame; 9], time, 1_200);
    let sent = [
        datagram(RED, 10, 0, &wrap(1, 0)?),
        padding(11, STEP),
        datagram(RED, 12, STEP, &wrap(2, STEP)?),
        datagram(RED, 13, 2 * STEP, &wrap(3, 2 * STEP)?),
    ];
    // Bit n: datagram n arrives. Frame 2 has a block in datagram 3, whose number is right.
    for (arrives, expected) in [
        (0b1111, [1, 2, 3].as_slice()),
        (0b1101, &[1, 2, 3]),
        (0b1011, &[1, 2, 3]),
        (0b1001, &[1, 2, 3]),
        (0b1110, &[2, 3]),
        // Datagram 0 and the padding are lost: the block of frame 1 is stored under the number of the padding.
        (0b1100, &[1, 2, 3]),
    ] {
        let mut receiver = receiver()?;
        for (n, datagram) in sent.iter().enumerate() {
            if arrives >> n & 1 == 1 {
                receiver.receive(Ticks(0), datagram)?;
            }
        }
        let frames: Vec<u8> = units(&mut receiver, 0)?
            .into_iter()
            .chain(units(&mut receiver, 1_000)?)
            .map(|bytes| bytes[0])
            .collect();
        assert_eq!(frames, expected, "{arrives:b}");
    }
    Ok(())
}

/// Datagrams 0 and 1 of the same are late: frame 1 was stored as a block under number 11, so its own packet has no media.
#[test]
fn late_packet_of_a_block() -> Result<(), Box<dyn Error>> {
    let mut red = red_sender(&[1]);
    let mut receiver = receiver()?;
    receiver.receive(
        Ticks(0),
        &datagram(RED, 9, 0, &red.wrap(vec![0; 9], 0, 1_200)?),
    )?;
    let late = datagram(RED, 10, STEP, &red.wrap(vec![1; 9], STEP, 1_200)?);
    let next = datagram(RED, 12, 2 * STEP, &red.wrap(vec![2; 9], 2 * STEP, 1_200)?);
    assert_eq!(receiver.receive(Ticks(5), &next)?, Outcome::Held);
    assert_eq!(receiver.counters().packets.recovered, 1);
    assert_eq!(receiver.receive(Ticks(6), &late)?, Outcome::NoMedia);
    let frames: Vec<u8> = units(&mut receiver, 7)?.iter().map(|it| it[0]).collect();
    assert_eq!(frames, [0, 1, 2]);
    Ok(())
}

/// True in the given number of 1,000 calls.
fn is_one_of(dice: &mut Dice, thousandths: u64) -> bool {
    dice.below(1_000) < thousandths
}

#[derive(Clone, Copy, Debug)]
struct Network {
    distances: &'static [u32],
    /// The number of frames between paddings, and the largest number of datagrams of padding there.
    padding: (u64, u64),
    /// Of 1,000 datagrams.
    lost: u64,
    /// Of 1,000 datagrams that are up to 90 ms late.
    late: u64,
}

const FRAMES: u32 = 6_000;

/// How many frames were sent and arrived, by themselves or in a block; how many were released; and how many of these twice.
fn run(network: Network, seed: u64) -> Result<(usize, usize, usize), Box<dyn Error>> {
    let (mut dice, mut red) = (Dice(seed), red_sender(network.distances));
    let mut arriving: BTreeMap<u64, Vec<Vec<u8>>> = BTreeMap::new();
    let mut number = 0_u16;
    for frame in 0..FRAMES {
        let (at, time) = (u64::from(frame) * 20, frame * STEP);
        let payload = red.wrap(frame.to_be_bytes().to_vec(), time, 1_200)?;
        let mut sent = vec![datagram(RED, number, time, &payload)];
        number = number.wrapping_add(1);
        let (frames, most) = network.padding;
        if dice.below(frames) == 0 {
            for _ in 0..1 + dice.below(most) {
                sent.push(padding(number, time));
                number = number.wrapping_add(1);
            }
        }
        for datagram in sent {
            let lost = is_one_of(&mut dice, network.lost);
            let late = if is_one_of(&mut dice, network.late) {
                dice.below(90)
            } else {
                0
            };
            if !lost {
                arriving.entry(at + 20 + late).or_default().push(datagram);
            }
        }
    }
    let mut times: BTreeMap<Vec<u8>, usize> = BTreeMap::new();
    let mut receiver = receiver()?;
    for now in 0..u64::from(FRAMES) * 20 + 1_000 {
        for datagram in arriving.remove(&now).unwrap_or_default() {
            receiver.receive(Ticks(now), &datagram)?;
        }
        for unit in units(&mut receiver, now)? {
            *times.entry(unit).or_default() += 1;
        }
    }
    let twice = times.values().filter(|count| **count > 1).count();
    Ok((FRAMES as usize, times.len(), twice))
}

/// 6,000 frames with padding after every 13th of them, as Chromium sends (23 of 292 packets): nothing is lost, and all frames are
/// released, each once.
#[test]
fn padding_as_chromium_sends() -> Result<(), Box<dyn Error>> {
    let network = Network {
        distances: &[1],
        padding: (12, 1),
        lost: 0,
        late: 0,
    };
    for seed in 0..3 {
        assert_eq!(run(network, seed)?, (6_000, 6_000, 0), "seed {seed}");
    }
    Ok(())
}

/// Networks that lose and delay padding too: no frame is released twice, and most frames are released.
#[test]
fn no_frame_twice() -> Result<(), Box<dyn Error>> {
    let network = |distances, padding, lost, late| Network {
        distances,
        padding,
        lost,
        late,
    };
    for network in [
        network(&[1], (12, 1), 50, 0),
        network(&[1, 2], (5, 1), 100, 0),
        network(&[1, 2], (5, 1), 100, 100),
        network(&[1, 2, 3], (3, 2), 50, 100),
    ] {
        for seed in 0..3 {
            let (_, released, twice) = run(network, seed)?;
            assert_eq!(twice, 0, "{network:?}, seed {seed}");
            assert!(released > 5_700, "{released} of {network:?}, seed {seed}");
        }
    }
    Ok(())
}

/// Malformed RED is still an error.
#[test]
fn malformed_red() -> Result<(), Box<dyn Error>> {
    let broken = datagram(RED, 10, 0, &[0x80 | OPUS]);
    let answer = receiver()?.receive(Ticks(0), &broken);
    assert_eq!(answer, Err(ReceiveError::Red));
    Ok(())
}

/// How a restart is confirmed: by padding, or by RED around another payload type, as error correction has (RFC 5109).
#[derive(Clone, Copy, Debug)]
enum Confirmed {
    Padding,
    OtherType,
}

impl Confirmed {
    fn datagram(self, number: u16) -> Vec<u8> {
        match self {
            Confirmed::Padding => padding(number, 777),
            // The header of a primary block has one byte: its payload type (RFC 2198, section 3).
            Confirmed::OtherType => datagram(RED, number, 777, &[OPUS + 1, 1, 2, 3]),
        }
    }
}

/// A frame with its RTP time.
type Frame = (u8, u32);

/// A sender restarts elsewhere, and the packet that confirms it has no media. Then this payload arrives.
fn after_a_restart(
    confirmed: Confirmed,
    time: u32,
    payload: &[u8],
) -> Result<Vec<u8>, Box<dyn Error>> {
    let former: [Frame; 3] = [(1, 0), (2, STEP), (3, 2 * STEP)];
    let mut red = red_sender(&[1]);
    let mut receiver = receiver()?;
    for (place, (frame, time)) in former.into_iter().enumerate() {
        let payload = red.wrap(vec![frame; 9], time, 1_200)?;
        // Frame 2 is lost, and its block arrives.
        if frame != 2 {
            receiver.receive(Ticks(0), &datagram(RED, 10 + place as u16, time, &payload))?;
        }
    }
    assert_eq!(receiver.counters().packets.recovered, 1);
    assert_eq!(units(&mut receiver, 1_000)?.len(), 3);
    for number in [30_000, 30_001] {
        receiver.receive(Ticks(1_000), &confirmed.datagram(number))?;
    }
    assert_eq!(receiver.counters().packets.restarts, 1);
    receiver.receive(Ticks(1_020), &datagram(RED, 30_003, time, payload))?;
    let units = units(&mut receiver, 2_000)?;
    Ok(units.into_iter().map(|bytes| bytes[0]).collect())
}

/// No packet and no block of the new sender is dropped for a time of the former one (RFC 3550, section 5.1: the first RTP time is
/// random, so a new sender's times say nothing about the former's).
#[test]
fn times_of_the_former_sender_are_forgotten() -> Result<(), Box<dyn Error>> {
    for confirmed in [Confirmed::Padding, Confirmed::OtherType] {
        // The packet has the time of the former sender's block.
        let mut red = red_sender(&[1]);
        let alone = red.wrap(vec![9; 9], STEP, 1_200)?;
        assert_eq!(
            after_a_restart(confirmed, STEP, &alone)?,
            [9],
            "{confirmed:?}"
        );
        // Its block has the time of the former sender's first packet.
        let mut red = red_sender(&[1]);
        red.wrap(vec![8; 9], 0, 1_200)?;
        let with_block = red.wrap(vec![9; 9], STEP, 1_200)?;
        assert_eq!(
            after_a_restart(confirmed, STEP, &with_block)?,
            [8, 9],
            "{confirmed:?}"
        );
        // A time that the former sender did not have: nothing was dropped before, either.
        let other = red_sender(&[1]).wrap(vec![9; 9], 5 * STEP, 1_200)?;
        assert_eq!(
            after_a_restart(confirmed, 5 * STEP, &other)?,
            [9],
            "{confirmed:?}"
        );
    }
    Ok(())
}
