//! Sends 500 frames of VP8 over UDP on the loopback interface. One datagram in twenty is lost, and one in twenty arrives twice.
//! Prints the received frames:
//!
//! ```sh
//! cargo run --example loopback
//! ```

use codec_payload::{
    Clock, Codec, CodecDepacketizer, CodecPacketizer, ExtensionValues, Frequency, MediaTime,
    ReceiveError, Receiver, ReceiverSettings, Sample, Sender, SenderSettings,
};
use std::error::Error;
use std::net::{Ipv4Addr, UdpSocket};
use std::time::Duration;

const FRAMES: u64 = 500;
const PAYLOAD_TYPE: u8 = 96;

/// The same numbers in each run, so that each run loses the same datagrams.
struct Chance(u32);

impl Chance {
    /// True one time in `times`.
    fn one_in(&mut self, times: u32) -> bool {
        self.0 = self.0.wrapping_mul(1_664_525).wrapping_add(1_013_904_223);
        (self.0 >> 16) % times == 0
    }
}

/// The received frames.
#[derive(Default)]
struct Received {
    frames: u64,
    bytes: usize,
    gaps: u64,
}

impl Received {
    fn take(&mut self, receiver: &mut Receiver, clock: &Clock) -> Result<(), Box<dyn Error>> {
        for unit in receiver.units(clock.now()) {
            let unit = unit?;
            self.frames += 1;
            self.bytes += unit.bytes.len();
            self.gaps += u64::from(!unit.contiguous);
            if self.frames % 100 == 0 {
                println!(
                    "frame {}: {} bytes at RTP time {}",
                    self.frames,
                    unit.bytes.len(),
                    unit.time
                );
            }
        }
        Ok(())
    }
}

fn main() -> Result<(), Box<dyn Error>> {
    let from = UdpSocket::bind((Ipv4Addr::LOCALHOST, 0))?;
    let to = UdpSocket::bind((Ipv4Addr::LOCALHOST, 0))?;
    to.set_read_timeout(Some(Duration::from_secs(1)))?;
    from.connect(to.local_addr()?)?;
    let packetizer = CodecPacketizer::try_from(Codec::Vp8)?;
    let mut sender = Sender::new(
        packetizer,
        SenderSettings::for_stream(PAYLOAD_TYPE, 0x1234_5678, Frequency::NINETY_KHZ),
    )?;
    let depacketizer = CodecDepacketizer::try_from(Codec::Vp8)?;
    let mut receiver = Receiver::new(
        depacketizer,
        ReceiverSettings::for_stream(PAYLOAD_TYPE, Codec::Vp8, Frequency::NINETY_KHZ),
    )?;
    let (clock, mut chance, mut received) = (Clock::new(), Chance(1), Received::default());
    let mut datagram = [0; 1_500];
    for frame in 0..FRAMES {
        sender.send(&Sample {
            rtp_time: MediaTime::from_90khz(frame * 3_000),
            bytes: &[frame as u8; 3_000],
            start_of_talk_spurt: false,
            ext_vals: ExtensionValues::default(),
        })?;
        let mut arriving = 0;
        for packet in sender.datagrams() {
            let copies = if chance.one_in(20) {
                0
            } else {
                1 + u32::from(chance.one_in(20))
            };
            for _ in 0..copies {
                from.send(packet)?;
            }
            arriving += copies;
        }
        for _ in 0..arriving {
            let size = to.recv(&mut datagram)?;
            match receiver.receive(clock.now(), &datagram[..size]) {
                Err(ReceiveError::OutOfMemory) => return Err(ReceiveError::OutOfMemory.into()),
                // A datagram that is not a packet of the stream is counted, and the stream goes on.
                Err(fault) => println!("skipped: {fault}"),
                Ok(_) => {}
            }
        }
        received.take(&mut receiver, &clock)?;
    }
    receiver.finish()?;
    received.take(&mut receiver, &clock)?;
    let Received {
        frames,
        bytes,
        gaps,
    } = received;
    println!(
        "sent {FRAMES} frames in {} packets; received {frames} frames of {bytes} bytes, {gaps} gaps",
        sender.counts().packets
    );
    assert!(
        frames > 400 && bytes as u64 == 3_000 * frames,
        "frames are missing or damaged"
    );
    Ok(())
}
