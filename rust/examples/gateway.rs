//! Audio gateway with RED (RFC 2198), both sides. Each frame of 20 ms of Opus is sent with the previous frame and the third
//! frame before it; one datagram in six is lost. The frames are released in order, and among them frames that only a later datagram
//! carried:
//!
//! ```sh
//! cargo run --example gateway
//! ```
//!
//! It fails unless exactly the frames arrive that some datagram carried.
//!
//! - Packetize with an MTU of the budget minus 1: a payload of `budget` bytes or more is sent without RED framing.
//! - `step` is the packet time in ticks of the RTP clock: 960 for 20 ms of Opus.
//! - Wait at least as long as the largest distance: three packets are 60 ms here, and `max_wait` is 100 ms.
//! - A frame that a later packet supplied is counted in `recovered`, and its number is not requested by NACK.

use codec_payload::jitter::WaitLimits;
use codec_payload::rtp::{PacketHeader, RtpPacket};
use codec_payload::{
    Codec, CodecDepacketizer, Frequency, Pt, Receiver, ReceiverSettings, RedSender, RedSettings,
    Ticks,
};
use std::error::Error;

const FRAMES: u16 = 1_000;
const STEP: u32 = 960;
const BUDGET: usize = 1_200;
const OPUS_TYPE: u8 = 96;
const RED_TYPE: u8 = 63;

/// The same numbers in each run, so that each run prints the same.
struct Chance(u32);

impl Chance {
    /// True one time in `times`.
    fn one_in(&mut self, times: u32) -> bool {
        self.0 = self.0.wrapping_mul(1_664_525).wrapping_add(1_013_904_223);
        (self.0 >> 16) % times == 0
    }
}

/// An RTP packet of RED.
fn datagram(number: u16, time: u32, payload: &[u8]) -> Result<Vec<u8>, Box<dyn Error>> {
    let mut bytes = Vec::new();
    let header = PacketHeader {
        marker: false,
        payload_type: RED_TYPE,
        sequence_number: number,
        timestamp: time,
        ssrc: 7,
        csrcs: &[],
        extension: None,
    };
    RtpPacket {
        header,
        payload,
        padding: 0,
    }
    .write(&mut bytes)?;
    Ok(bytes)
}

/// Pops the units that are due, and notes which frames arrived.
fn play(receiver: &mut Receiver, now: Ticks, came: &mut [bool]) -> Result<(), Box<dyn Error>> {
    for unit in receiver.units(now) {
        let unit = unit?;
        let frame = usize::try_from(unit.time.numer() / u64::from(STEP))?;
        came[frame] |= unit.bytes[0] == frame as u8;
    }
    Ok(())
}

fn main() -> Result<(), Box<dyn Error>> {
    let mut settings =
        ReceiverSettings::for_stream(OPUS_TYPE, Codec::Opus, Frequency::FORTY_EIGHT_KHZ);
    settings.ssrc = Some(7);
    settings.red = Some(RedSettings {
        payload_type: RED_TYPE,
        step: STEP,
        retransmission: None,
    });
    // A missing frame is waited for 100 ms: five packets, more than the largest distance.
    settings.wait_limits = WaitLimits::live();
    let mut sender = RedSender::new(Pt::from(RED_TYPE), Pt::from(OPUS_TYPE), &[1, 3]);
    let depacketizer = CodecDepacketizer::try_from(Codec::Opus)?;
    let mut receiver = Receiver::new(depacketizer, settings)?;
    let mut chance = Chance(1);
    let mut came = vec![false; usize::from(FRAMES)];
    let mut arrived = vec![false; usize::from(FRAMES) + 3];
    for frame in 0..FRAMES {
        let time = u32::from(frame) * STEP;
        let payload = sender.wrap(vec![frame as u8; 40], time, BUDGET)?;
        let now = Ticks(u64::from(frame) * 20);
        arrived[usize::from(frame)] = !chance.one_in(6);
        if arrived[usize::from(frame)] {
            receiver.receive_any(now, &datagram(frame, time, &payload)?)?;
        }
        play(&mut receiver, now, &mut came)?;
    }
    receiver.finish()?;
    play(&mut receiver, Ticks(u64::from(FRAMES) * 20), &mut came)?;
    let lost = arrived[..usize::from(FRAMES)]
        .iter()
        .filter(|it| !**it)
        .count();
    let missing = came.iter().filter(|it| !**it).count();
    let recovered = receiver.counters().packets.recovered;
    println!("{lost} datagrams lost, {recovered} frames recovered, {missing} missing");
    for (frame, came) in came.iter().enumerate() {
        assert_eq!(
            *came,
            arrived[frame] || arrived[frame + 1] || arrived[frame + 3],
            "frame {frame}"
        );
    }
    Ok(())
}
