//! Transport-wide feedback beside its peers. Each line of `tests/vectors/feedback_packets.txt` has a packet and what pion and tshark read
//! in it: packets that pion and libwebrtc wrote are read here, and packets that this library wrote were read there.

use codec_payload::congestion::*;
use codec_payload::rtcp::CompoundRule;
use codec_payload::transport::{MessageKind, read_messages};
use std::collections::HashMap;

type Fail = Box<dyn std::error::Error>;

const PACKETS: &str = include_str!("../../tests/vectors/feedback_packets.txt");
const WRITTEN: usize = 40;

/// A packet, and what the peers read in it.
struct Vector {
    packet: Vec<u8>,
    sender: u32,
    media: u32,
    base: u16,
    /// In units of 64 ms.
    reference: u32,
    counter: u8,
    /// When each packet arrived, if it did, in quarters of a millisecond.
    times: Vec<Option<u32>>,
}

fn vector(line: &str) -> Result<Vector, Fail> {
    let mut words = line.split(' ');
    let mut next = || words.next().ok_or("the line ends");
    let digits = next()?.as_bytes().chunks(2).map(std::str::from_utf8);
    let packet = digits
        .map(|it| Ok(u8::from_str_radix(it?, 16)?))
        .collect::<Result<_, Fail>>()?;
    let (sender, media, base) = (next()?.parse()?, next()?.parse()?, next()?.parse()?);
    let (reference, counter) = (next()?.parse::<u32>()?, next()?.parse()?);
    // Each delta counts from the packet before it, the first one from the reference time (section 3.1.5 of the draft).
    let mut now = reference * 256;
    let mut times = Vec::new();
    for word in words {
        if word == "-" {
            times.push(None);
            continue;
        }
        now = now.wrapping_add_signed(word.parse()?);
        times.push(Some(now));
    }
    Ok(Vector {
        packet,
        sender,
        media,
        base,
        reference,
        counter,
        times,
    })
}

/// The vectors of the writer whose name begins so.
fn vectors(writer: &str) -> Result<Vec<Vector>, Fail> {
    let all = PACKETS.split("\n# ").skip(1);
    let mine = all.filter(|it| it.starts_with(writer));
    mine.flat_map(|it| it.lines().skip(1)).map(vector).collect()
}

/// Reads each packet of a writer, and compares all of it.
fn read_all(writer: &str) -> Result<Vec<Vector>, Fail> {
    let vectors = vectors(writer)?;
    for it in &vectors {
        let mut messages = read_messages(
            CompoundRule::ReducedSize,
            MessageKind::Transport,
            &it.packet,
        )?;
        let message = messages.next().ok_or("no message")?;
        assert_eq!(
            (message.sender_ssrc, message.media_ssrc),
            (it.sender, it.media)
        );
        let read = read_transport_feedback(message.control)?;
        assert_eq!((read.base, read.counter), (it.base, it.counter));
        assert_eq!(read.reference, it.reference * 256);
        assert_eq!(read.statuses, it.times);
        assert_eq!(messages.next(), None);
    }
    Ok(vectors)
}

/// How many numbers are missing, and how many arrived before the one in front of them.
fn missing_and_early(vectors: &[Vector]) -> (usize, usize) {
    let times = || vectors.iter().flat_map(|it| &it.times);
    let early = |it: &Vector| {
        let came: Vec<u32> = it.times.iter().flatten().copied().collect();
        came.windows(2).filter(|it| it[1] < it[0]).count()
    };
    (
        times().filter(|it| it.is_none()).count(),
        vectors.iter().map(early).sum(),
    )
}

#[test]
fn packets_of_pion_are_read() -> Result<(), Fail> {
    let read = read_all("pion")?;
    let (missing, early) = missing_and_early(&read);
    assert!(read.len() == 40 && 100 < missing && 50 < early);
    // The numbers wrap.
    assert!(
        read.iter()
            .any(|it| it.base.checked_add(it.times.len() as u16).is_none())
    );
    Ok(())
}

#[test]
fn packets_of_libwebrtc_are_read() -> Result<(), Fail> {
    let read = read_all("libwebrtc")?;
    let (missing, early) = missing_and_early(&read);
    assert!(read.len() == 40 && 10 < missing && 10 < early);
    // Some have padding and some have none.
    let padded = read.iter().filter(|it| it.packet[0] & 0x20 != 0).count();
    assert!(0 < padded && padded < 40);
    Ok(())
}

/// Random numbers of an xorshift generator.
struct Random(u64);

impl Random {
    fn below(&mut self, count: u64) -> u64 {
        self.0 ^= self.0 << 13;
        self.0 ^= self.0 >> 7;
        self.0 ^= self.0 << 17;
        self.0 % count
    }
}

/// Quarters of a millisecond between two arrivals: what fits in one byte, what does not, and the most that fits in two.
const LATER: [u32; 23] = [
    0, 0, 1, 1, 2, 3, 4, 4, 5, 20, 20, 20, 80, 80, 133, 133, 133, 200, 255, 256, 300, 2_000, 32_767,
];

/// A packet of this library, and when each number that it reports on arrived.
type Written = (Vec<u8>, Vec<Option<u32>>);

/// Packets of this library. Numbers and times wrap.
fn written() -> Result<Vec<Written>, Fail> {
    let mut random = Random(88_172_645_463_325_252);
    let mut packets = Vec::new();
    let (mut log, mut came) = (ArrivalLog::new(2_048)?, HashMap::new());
    let (mut number, mut now, mut counter) = (65_500_u16, u32::MAX - 400_000, 250_u8);
    while packets.len() < WRITTEN {
        let lost = [0, 2, 20, 60][random.below(4) as usize];
        let mut numbers = Vec::new();
        number = number.wrapping_add(random.below(4) as u16 * 12);
        for _ in 0..random.below(100) {
            number = number.wrapping_add(1 + u16::from(random.below(100) < lost));
            numbers.push(number);
        }
        // Some are overtaken.
        for place in (0..numbers.len().saturating_sub(8)).step_by(5) {
            numbers.swap(place, place + 1 + random.below(7) as usize);
        }
        for it in numbers {
            let later = LATER[random.below(23) as usize];
            now = now.wrapping_add(later);
            log.arrived(it, now)?;
            came.insert(it, now);
        }
        let most = 1 + random.below(200) as usize;
        while log.has_unreported() && packets.len() < WRITTEN {
            let (mut control, mut packet) = (Vec::new(), Vec::new());
            let (base, left) = (log.first_unreported(), log.unreported().len());
            take_report(&mut log, counter, most, &mut control)?;
            write_transport_packet(0x0102_0304, 0xfedc_ba98, &control, &mut packet)?;
            let numbers = (0..left - log.unreported().len()).map(|it| base.wrapping_add(it as u16));
            packets.push((packet, numbers.map(|it| came.get(&it).copied()).collect()));
            counter = counter.wrapping_add(1);
        }
    }
    Ok(packets)
}

#[test]
fn packets_of_this_library_are_read_by_peers() -> Result<(), Fail> {
    let (vectors, written) = (vectors("this library")?, written()?);
    assert_eq!((vectors.len(), written.len()), (WRITTEN, WRITTEN));
    for (it, (packet, came)) in vectors.iter().zip(&written) {
        assert_eq!(&it.packet, packet);
        assert_eq!(&it.times, came);
        assert_eq!((it.sender, it.media), (0x0102_0304, 0xfedc_ba98));
    }
    let (missing, early) = missing_and_early(&vectors);
    assert!(100 < missing && 50 < early);
    read_all("this library").map(|_| ())
}

/// For `tests/vectors/feedback.py`, which lets the peers read the packets.
#[test]
#[ignore = "prints the packets"]
fn print_packets() -> Result<(), Fail> {
    for (packet, _) in written()? {
        let digits: Vec<String> = packet.iter().map(|it| format!("{it:02x}")).collect();
        println!("{}", digits.concat());
    }
    Ok(())
}
