//! A recorder's core: writes the frames of a VP8 stream to an IVF file as they are released.
//!
//! ```sh
//! cargo run --example recorder                                # records a simulated stream with losses, and checks the file
//! cargo run --example recorder capture.pcap 5004 96 frames.ivf    # records the datagrams of a capture to UDP port 5004
//! ```
//!
//! It reads captures of the classic format with Ethernet and IPv4.
//!
//! - Begin the file with a keyframe.
//! - The time of a frame is its RTP time; it does not wrap.
//! - At the end call `finish`, then pop the remaining frames.
//! - From a file wait without a time limit (`WaitLimits::file`); from a live stream use the limits for live media.
//! - Report the faults of the disk: `BufWriter` reports them only when it is flushed.

use codec_payload::jitter::WaitLimits;
use codec_payload::media::frame_info;
use codec_payload::{
    Codec, CodecDepacketizer, CodecPacketizer, ExtensionValues, Frequency, MediaTime, Popped,
    Receiver, ReceiverSettings, Sample, Sender, SenderSettings, Ticks,
};
use std::error::Error;
use std::fs::{self, File};
use std::io::{BufWriter, Write};

const ETHERNET: usize = 14;
const UDP: usize = 8;
const MICROSECONDS: u32 = 0xa1b2_c3d4;
const NANOSECONDS: u32 = 0xa1b2_3c4d;

fn little(bytes: &[u8]) -> Option<u32> {
    Some(u32::from_le_bytes(bytes.get(..4)?.try_into().ok()?))
}

fn big(bytes: &[u8], at: usize) -> Option<usize> {
    Some(usize::from(u16::from_be_bytes(
        bytes.get(at..at + 2)?.try_into().ok()?,
    )))
}

/// The packets of a capture, each with its time in milliseconds. `parts` is how many parts of a second a millisecond has.
fn packets(capture: &[u8], parts: u64) -> impl Iterator<Item = (u64, &[u8])> {
    let mut rest = capture.get(24..).unwrap_or_default();
    std::iter::from_fn(move || {
        let (seconds, part, size) = (little(rest)?, little(&rest[4..])?, little(&rest[8..])?);
        let end = 16 + usize::try_from(size).ok()?;
        let packet = rest.get(16..end)?;
        rest = &rest[end..];
        Some((u64::from(seconds) * 1_000 + u64::from(part) / parts, packet))
    })
}

/// The payload of a UDP datagram to that port in an Ethernet frame.
fn udp_payload(packet: &[u8], port: usize) -> Option<&[u8]> {
    let ip = packet.get(ETHERNET..)?;
    if big(packet, 12)? != 0x0800 || ip.first()? >> 4 != 4 || *ip.get(9)? != 17 {
        return None;
    }
    let udp = ip.get(4 * usize::from(ip[0] & 15)..)?;
    (big(udp, 2)? == port).then(|| udp.get(UDP..big(udp, 4)?))?
}

/// A file of frames, which begins with the first keyframe, and the receiver that they come from.
struct Recorder<W> {
    receiver: Receiver,
    file: W,
    frames: u32,
    first_time: u64,
}

impl<W: Write> Recorder<W> {
    fn new(payload_type: u8, file: W) -> Result<Self, Box<dyn Error>> {
        let depacketizer = CodecDepacketizer::try_from(Codec::Vp8)?;
        let mut settings =
            ReceiverSettings::for_stream(payload_type, Codec::Vp8, Frequency::NINETY_KHZ);
        settings.wait_limits = WaitLimits::file();
        Ok(Recorder {
            receiver: Receiver::new(depacketizer, settings)?,
            file,
            frames: 0,
            first_time: 0,
        })
    }

    /// The header of the file: 32 bytes.
    fn begin(&mut self, width: u32, height: u32) -> Result<(), Box<dyn Error>> {
        self.file.write_all(b"DKIF\0\0\x20\0VP80")?;
        self.file.write_all(&u16::try_from(width)?.to_le_bytes())?;
        self.file.write_all(&u16::try_from(height)?.to_le_bytes())?;
        self.file.write_all(&90_000_u32.to_le_bytes())?;
        self.file.write_all(&1_u32.to_le_bytes())?;
        self.file.write_all(&[0; 8])?;
        Ok(())
    }

    /// Receives a datagram, and writes the frames that are due. A datagram that is not a packet of the stream is counted.
    fn receive(&mut self, now: u64, datagram: &[u8]) -> Result<(), Box<dyn Error>> {
        self.receiver.receive_any(Ticks(now), datagram)?;
        self.write(now)
    }

    fn write(&mut self, now: u64) -> Result<(), Box<dyn Error>> {
        while let Some(popped) = self.receiver.pop(Ticks(now)) {
            let unit = match popped? {
                Popped::Unit(unit) => unit,
                Popped::TooLarge(unit) => {
                    eprintln!("a frame of {} bytes is too large", unit.bytes.len());
                    continue;
                }
                Popped::Refused(fault) => {
                    eprintln!("a frame is lost: {fault}");
                    continue;
                }
            };
            let time = self.receiver.unit_time().ok_or("a unit has a time")?;
            let Ok(facts) = frame_info(Codec::Vp8, &unit.bytes) else {
                continue;
            };
            if self.frames == 0 {
                let Some(size) = facts.size else { continue };
                self.first_time = time;
                self.begin(size.width, size.height)?;
            }
            self.frames += 1;
            self.file
                .write_all(&u32::try_from(unit.bytes.len())?.to_le_bytes())?;
            self.file
                .write_all(&time.wrapping_sub(self.first_time).to_le_bytes())?;
            self.file.write_all(&unit.bytes)?;
        }
        Ok(())
    }

    /// Writes the frames that are left.
    fn end(&mut self, now: u64) -> Result<(), Box<dyn Error>> {
        self.receiver.finish()?;
        self.write(now)?;
        Ok(self.file.flush()?)
    }
}

/// Records what a capture has to a port.
fn record(words: &[String]) -> Result<(), Box<dyn Error>> {
    let [capture, port, payload_type, path] = words else {
        return Err("usage: recorder [CAPTURE PORT PAYLOAD-TYPE FILE]".into());
    };
    let (capture, port) = (fs::read(capture)?, port.parse()?);
    let parts = match (little(&capture), capture.get(20)) {
        (Some(MICROSECONDS), Some(1)) => 1_000,
        (Some(NANOSECONDS), Some(1)) => 1_000_000,
        _ => return Err("not a classic capture of Ethernet".into()),
    };
    let mut recorder = Recorder::new(payload_type.parse()?, BufWriter::new(File::create(path)?))?;
    let mut now = 0;
    for (at, packet) in packets(&capture, parts) {
        now = at;
        if let Some(payload) = udp_payload(packet, port) {
            recorder.receive(now, payload)?;
        }
    }
    recorder.end(now)?;
    println!("{} frames", recorder.frames);
    Ok(())
}

/// Records 100 frames of three packets, of which every tenth loses a packet.
fn simulate() -> Result<(), Box<dyn Error>> {
    let packetizer = CodecPacketizer::try_from(Codec::Vp8)?;
    let mut sender = Sender::new(
        packetizer,
        SenderSettings::for_stream(96, 7, Frequency::NINETY_KHZ),
    )?;
    let mut recorder = Recorder::new(96, Vec::new())?;
    for frame in 0..100_u64 {
        // A keyframe of 320 x 240: its tag, its start code and its size.
        let mut bytes = vec![0x10, 0x0c, 0, 0x9d, 0x01, 0x2a, 0x40, 0x01, 0xf0, 0x00];
        bytes.resize(3_000, frame as u8);
        sender.send(&Sample {
            rtp_time: MediaTime::from_90khz(frame * 3_000),
            bytes: &bytes,
            start_of_talk_spurt: false,
            ext_vals: ExtensionValues::default(),
        })?;
        for (place, datagram) in sender.datagrams().enumerate() {
            if frame % 10 != 5 || place != 1 {
                recorder.receive(frame * 33, datagram)?;
            }
        }
    }
    recorder.end(3_300)?;
    println!(
        "{} frames, a file of {} bytes",
        recorder.frames,
        recorder.file.len()
    );
    assert_eq!(
        (recorder.frames, recorder.file.len()),
        (90, 32 + 90 * 3_012)
    );
    Ok(())
}

fn main() -> Result<(), Box<dyn Error>> {
    match std::env::args().skip(1).collect::<Vec<_>>().as_slice() {
        [] => simulate(),
        words => record(words),
    }
}
