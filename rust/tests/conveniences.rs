//! What is written by hand beside the generated sources: iterators, names, conversions, settings, the clock, and premises.

use codec_payload::media::av1::Av1Obus;
use codec_payload::rtp::{HeaderExtension, RtpError, RtpPacket, is_rtcp};
use codec_payload::sender::{Sample, Sender, SenderSettings};
use codec_payload::stream::{ReceiveError, Receiver, ReceiverSettings, Windows};
use codec_payload::*;
use std::error::Error;
use std::time::Duration;

fn sender(codec: Codec, mtu: usize) -> Sender {
    let packetizer = CodecPacketizer::from_codec(codec).unwrap();
    let settings = SenderSettings {
        mtu,
        first_number: 65_400,
        ..SenderSettings::for_stream(96, 7, Frequency::NINETY_KHZ)
    };
    Sender::new(packetizer, settings).unwrap()
}

fn receiver(codec: Codec) -> Receiver {
    let depacketizer = CodecDepacketizer::from_codec(codec).unwrap();
    Receiver::new(depacketizer, {
        let mut settings = ReceiverSettings::for_stream(96, codec, Frequency::NINETY_KHZ);
        settings.ssrc = Some(7);
        settings
    })
    .unwrap()
}

fn sample(frame: u64, bytes: &[u8]) -> Sample<'_> {
    Sample {
        rtp_time: MediaTime::from_90khz(frame * 3_000),
        bytes,
        start_of_talk_spurt: false,
        ext_vals: ExtensionValues::default(),
    }
}

/// 200 frames of VP8 in three packets each, over the wrap of numbers: every seventh datagram is lost, every fifth comes twice, and
/// each pair comes in the wrong order. The units are the frames of which no datagram was lost, in order.
#[test]
fn whole_frames_come_in_order() -> Result<(), Box<dyn Error>> {
    let (mut sender, mut receiver) = (sender(Codec::Vp8, 100), receiver(Codec::Vp8));
    let (mut wanted, mut sent) = (Vec::new(), Vec::new());
    for frame in 0..200_u8 {
        let bytes = vec![frame; 250];
        sender.send(&sample(frame.into(), &bytes))?;
        assert_eq!(sender.datagrams().len(), 3);
        if (sent.len()..sent.len() + 3).all(|place| place % 7 != 6) {
            wanted.push(bytes);
        }
        sent.extend(sender.datagrams().map(<[u8]>::to_vec));
    }
    let mut arrivals = Vec::new();
    for pair in (0..sent.len()).collect::<Vec<_>>().chunks(2) {
        for &place in pair.iter().rev().filter(|place| *place % 7 != 6) {
            arrivals.push(place);
            if place % 5 == 0 {
                arrivals.push(place);
            }
        }
    }
    let mut units = Vec::new();
    for (now, place) in (0..).zip(&arrivals) {
        receiver.receive(Ticks(now), &sent[*place])?;
        for unit in receiver.units(Ticks(now)) {
            units.push(unit?.bytes);
        }
    }
    for unit in receiver.drain(Ticks(u64::MAX))? {
        units.push(unit?.bytes);
    }
    assert_eq!(units, wanted);
    let counters = receiver.counters();
    assert_eq!(
        (counters.received, counters.malformed),
        (arrivals.len() as u64, 0)
    );
    assert_eq!(counters.packets.released, 3 * wanted.len() as u64);
    assert_eq!((receiver.ssrc(), sender.counts().packets), (Some(7), 600));
    Ok(())
}

/// The windows by rate are those of audio and video for their rates, and a receiver takes all of them.
#[test]
fn windows_by_rate() -> Result<(), Box<dyn Error>> {
    let of = |rate| {
        let Windows { forward, backward } = Windows::for_rate(rate);
        (forward, backward)
    };
    assert_eq!((of(0), of(200)), ((3_000, 1_000), (3_000, 1_000)));
    assert_eq!(
        (of(1_000), of(u32::MAX)),
        ((12_000, 5_000), (32_760, 13_650))
    );
    let rate = Frequency::NINETY_KHZ;
    let video = ReceiverSettings::live_video(96, rate);
    assert_eq!((video.forward, video.backward), of(1_000));
    for packets_per_second in 0..3_000 {
        let (forward, backward) = of(packets_per_second);
        let settings = {
            let mut settings = ReceiverSettings::live_video(96, rate);
            settings.forward = forward;
            settings.backward = backward;
            settings
        };
        let depacketizer = CodecDepacketizer::from_codec(Codec::Vp8).ok_or("no depacketizer")?;
        let _: Receiver = Receiver::new(depacketizer, settings)?;
    }
    Ok(())
}

/// Numbers 2, 4 and 5 of 1 to 6 do not come.
#[test]
fn missing_numbers() -> Result<(), Box<dyn Error>> {
    let packetizer = CodecPacketizer::from_codec(Codec::Opus).unwrap();
    let settings = SenderSettings {
        first_number: 1,
        ..SenderSettings::for_stream(96, 7, Frequency::FORTY_EIGHT_KHZ)
    };
    let mut sender: Sender = Sender::new(packetizer, settings)?;
    let mut receiver = receiver(Codec::Opus);
    for number in 1..=6_u8 {
        sender.send(&sample(number.into(), &[number; 9]))?;
        if ![2, 4, 5].contains(&number) {
            receiver.receive(Ticks(0), sender.datagram(0))?;
        }
    }
    assert_eq!(
        receiver
            .missing(8)
            .map(|number| number % 65_536)
            .collect::<Vec<_>>(),
        [2, 4, 5]
    );
    assert_eq!(receiver.missing(2).count(), 2);
    Ok(())
}

/// A packet with each part, by RFC 3550, section 5.1.
#[test]
fn packets_are_read() -> Result<(), Box<dyn Error>> {
    let datagram = [
        0xb1, 0xe0, 0x12, 0x34, 1, 2, 3, 4, 5, 6, 7, 8, 9, 9, 9, 9, 0xbe, 0xde, 0, 1, 0x10, 0xaa,
        0, 0, b'a', 0, 2,
    ];
    let packet = RtpPacket::parse(&datagram)?;
    assert_eq!(
        (packet.header.timestamp, packet.header.ssrc),
        (0x0102_0304, 0x0506_0708)
    );
    assert_eq!(
        (packet.header.csrcs, packet.payload),
        (&[9; 4][..], &b"a"[..])
    );
    assert_eq!(
        packet.header.extension,
        Some(HeaderExtension {
            profile: 0xbede,
            bytes: &[0x10, 0xaa, 0, 0]
        })
    );
    assert!(is_rtcp(&[0x80, 200]) && !is_rtcp(&datagram));
    Ok(())
}

#[test]
fn errors_have_sources() {
    let fault = receiver(Codec::Opus)
        .receive(Ticks(0), &[0; 12])
        .unwrap_err();
    assert_eq!(fault, ReceiveError::from(RtpError::WrongVersion));
    assert_eq!(
        fault.source().unwrap().to_string(),
        RtpError::WrongVersion.to_string()
    );
    assert!(ReceiveError::OutOfMemory.source().is_none());
}

#[test]
fn buffers_and_payloads_are_iterated() -> Result<(), PacketError> {
    let mut packetizer: CodecPacketizer = CodecPacketizer::from_codec(Codec::Opus).unwrap();
    let mut payloads = Payloads::new(4, 0)?;
    packetizer.packetize_into(3, &[1, 2, 3, 4, 5], &mut payloads)?;
    payloads.put_header(1, &[9]);
    assert_eq!(
        payloads.iter().collect::<Vec<_>>(),
        [&[1, 2, 3][..], &[4, 5]]
    );
    assert_eq!((&payloads).into_iter().len(), 2);
    assert_eq!(
        payloads.packets().collect::<Vec<_>>(),
        [&[1, 2, 3][..], &[9, 4, 5]]
    );
    let mut buffer: DepacketizingBuffer =
        DepacketizingBuffer::new(CodecDepacketizer::from_codec(Codec::Opus).unwrap(), 5);
    for (number, payload) in [0, 1, 3].into_iter().zip(["a", "b", "d"]) {
        let meta = RtpMeta::of(
            SeqNo(number),
            MediaTime::from_90khz(number),
            Pt::from(96),
            Ticks(0),
        );
        buffer.push(meta, payload.into())?;
    }
    let mut bytes = Vec::new();
    for unit in &mut buffer {
        bytes.extend(unit?.bytes);
    }
    assert_eq!((bytes.as_slice(), buffer.held()), (&b"ab"[..], 1));
    let left: Vec<_> = buffer.drain().collect::<Result<_, _>>()?;
    assert_eq!((left.len(), left[0].contiguous), (1, false));
    Ok(())
}

#[test]
fn codecs_have_names() {
    // RFC 7587, 3551, 4867, 7741, 9628, 4733, 2198 and 4588, and the AV1 RTP specification.
    for (name, codec) in [
        ("opus", Codec::Opus),
        ("PCMU", Codec::PCMU),
        ("G722", Codec::G722),
        ("AMR-WB", Codec::AmrWb),
        ("VP8", Codec::Vp8),
        ("VP9", Codec::Vp9),
        ("AV1", Codec::Av1),
        ("telephone-event", Codec::Tele),
        ("red", Codec::Red),
        ("rtx", Codec::Rtx),
    ] {
        assert_eq!(
            (name.parse(), codec.to_string().as_str()),
            (Ok(codec), name)
        );
    }
    assert_eq!("Opus".parse(), Ok(Codec::Opus));
    assert_eq!("theora".parse::<Codec>(), Err(UnknownCodec));
    assert_eq!(
        format!("[{:>8}] {}", Codec::AmrWb, Codec::Unknown),
        "[  AMR-WB] unknown"
    );
}

#[test]
fn numbers_are_converted() {
    assert_eq!(
        (
            u64::from(SeqNo::from(65_537)),
            SeqNo(65_537).as_u16(),
            *SeqNo(5)
        ),
        (65_537, 1, 5)
    );
    assert_eq!(
        (u8::from(Pt::from(96)), Pt::from(96).to_string().as_str()),
        (96, "96")
    );
    assert_eq!(Frequency::try_from(0), Err(ZeroFrequency));
    assert_eq!(Frequency::try_from(90_000), Ok(Frequency::NINETY_KHZ));
    assert_eq!(
        (
            u32::from(Frequency::EIGHT_KHZ),
            Frequency::EIGHT_KHZ.to_string().as_str()
        ),
        (8_000, "8000 Hz")
    );
    assert_eq!(
        Duration::from(MediaTime::from_90khz(90_009)),
        Duration::new(1, 100_000)
    );
    assert_eq!(
        Duration::from(MediaTime::new(u64::MAX, Frequency::make(u32::MAX).unwrap())),
        Duration::new(4_294_967_297, 0)
    );
    assert_eq!(MediaTime::from_90khz(7).to_string(), "7/90000");
}

/// Iterators that the library has by itself.
#[test]
fn obus_are_iterated() {
    let obus: Vec<_> = Av1Obus::new(&[0x12, 0, 0x32, 1, 0x10])
        .collect::<Result<_, _>>()
        .unwrap();
    assert_eq!((obus.len(), obus[1].payload), (2, &[0x10][..]));
}

#[cfg(feature = "std")]
#[test]
fn the_clock_counts_milliseconds() {
    let clock = Clock::new();
    let start = clock.instant_of(Ticks(0)).unwrap();
    assert_eq!(
        clock.ticks_at(start + Duration::from_micros(2_999)),
        Ticks(2)
    );
    assert_eq!(clock.ticks_at(start - Duration::from_secs(1)), Ticks(0));
    assert_eq!(clock.time_left(Ticks(0)), Duration::ZERO);
    assert!(clock.time_left(Ticks(60_000)) > Duration::from_secs(50));
    assert_eq!(
        clock
            .instant_of(Ticks(u64::MAX))
            .map(|moment| clock.ticks_at(moment))
            .unwrap_or(Ticks(u64::MAX)),
        Ticks(u64::MAX)
    );
}

/// A buffer that is filled on one thread gives its units on another.
#[test]
fn another_thread() {
    let mut buffer: DepacketizingBuffer =
        DepacketizingBuffer::new(CodecDepacketizer::from_codec(Codec::Null).unwrap(), 0);
    for byte in 0..4_u8 {
        let meta = RtpMeta::of(
            SeqNo(byte.into()),
            MediaTime::from_90khz(0),
            Pt::from(96),
            Ticks(0),
        );
        buffer.push(meta, vec![byte; 300]).unwrap();
    }
    let units = std::thread::spawn(move || {
        buffer
            .units()
            .map(|unit| unit.unwrap().bytes[299])
            .collect::<Vec<_>>()
    });
    assert_eq!(units.join().unwrap(), [0, 1, 2, 3]);
}

/// What a function asks of its callers is asserted, in release builds too.
#[test]
fn premises_panic() {
    fn panics<T>(call: impl FnOnce() -> T + std::panic::UnwindSafe) -> bool {
        std::panic::catch_unwind(call).is_err()
    }
    let depacketizer = || CodecDepacketizer::from_codec(Codec::Opus).unwrap();
    let asked = [
        panics(|| Vp8Packetizer::with_picture_id(1 << 15)),
        panics(|| Vp9Packetizer::with_mode(Vp9PacketizerMode::Flexible, 1 << 15)),
        panics(|| CodecPacketizer::<NoBox>::new(Codec::Vp9, Vp9PacketizerMode::Flexible, 1 << 15)),
        panics(move || DepacketizingBuffer::<NoBox>::with_limit(depacketizer(), 0, 0)),
        panics(move || DepacketizingBuffer::<NoBox>::with_limit(depacketizer(), 0, 65_537)),
        panics(|| Payloads::new(65_536, 0)),
        panics(|| RedSender::new(Pt::from(63), Pt::from(96), &[2, 1])),
        panics(|| MemorySink::new(u64::MAX)),
        panics(|| wire::encode_leb_u63(1 << 63, &mut [0; 10])),
        panics(|| ExtensionValues::default().for_packet(1, 1)),
    ];
    assert_eq!(asked, [true; 10]);
}

/// The receiver releases 65,500, and `restart` is called; the new sender's second packet by number, 5, arrives first.
#[test]
fn packets_sent_before_the_first_after_a_restart_are_not_late() {
    let mut receiver = receiver(Codec::Opus);
    let packet = |number: u16, time: u32| {
        let mut datagram = vec![0x80, 96];
        datagram.extend(number.to_be_bytes());
        datagram.extend(time.to_be_bytes());
        datagram.extend(7_u32.to_be_bytes());
        datagram.push(number as u8);
        datagram
    };
    receiver.receive(Ticks(0), &packet(65_500, 0)).unwrap();
    receiver.finish().unwrap();
    let first = receiver.pop(Ticks(0)).unwrap().unwrap().unit();
    assert_eq!(first.unwrap().bytes, [0xdc]);
    receiver.restart();
    assert_eq!(
        receiver.receive(Ticks(1), &packet(5, 9_000)).unwrap(),
        codec_payload::jitter::Outcome::Restarted(false)
    );
    assert_eq!(
        receiver.receive(Ticks(1), &packet(65_490, 5_000)).unwrap(),
        codec_payload::jitter::Outcome::Held
    );
    receiver.finish().unwrap();
    let units: Vec<u8> = std::iter::from_fn(|| receiver.pop(Ticks(1)))
        .map(|it| it.unwrap().unit().unwrap().bytes[0])
        .collect();
    assert_eq!(units, [0xd2, 5]);
}
