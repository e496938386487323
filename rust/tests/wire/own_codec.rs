//! A custom codec behind a jitter buffer, a receiver and a run over datagrams. The first byte of a payload says where a
//! frame begins and ends, and no payload is marked as the last of its frame.

use crate::Fail;
use crate::sides::{receiver_settings, sample_of, sender_settings};
use codec_payload::buffer::{Depacketized, PoppedUnit};
use codec_payload::codec::{
    CodecDepacketizer, CodecExtra, CodecPacketizer, Depacketizer, Packetizer,
};
use codec_payload::error::PacketError;
use codec_payload::jitter::jitter_buffer::{JitterBuffer, Outcome, WaitLimits};
use codec_payload::schedule::datagrams::run::{DatagramStep, run_datagrams};
use codec_payload::sender::{Sample, Sender};
use codec_payload::stream::pops::Popped;
use codec_payload::stream::receiver::Receiver;
use codec_payload::wire::{ExtensionValues, Frequency, Pt, RtpHeader, Ticks};
use std::cell::RefCell;
use std::rc::Rc;

/// The payload is the first of its frame.
const FIRST: u8 = 1;
/// The payload is the last of its frame.
const LAST: u8 = 2;

/// All complete frames are released.
const AT_ONCE: WaitLimits = {
    let mut limits = WaitLimits::live();
    limits.hold_back = Some(0);
    limits.start = 0;
    limits.max_wait = Some(0);
    limits
};

/// Sends each byte of a frame in a separate payload, after a byte that says its place in the frame.
#[derive(Debug)]
struct ByPlaces;

impl Packetizer for ByPlaces {
    fn packetize(&mut self, _mtu: usize, b: &[u8]) -> Result<Vec<Vec<u8>>, PacketError> {
        let last = b.len().wrapping_sub(1);
        let first_of = |place| if place == 0 { FIRST } else { 0 };
        let last_of = |place| if place == last { LAST } else { 0 };
        let payload = |(place, byte): (usize, &u8)| vec![first_of(place) | last_of(place), *byte];
        Ok(b.iter().enumerate().map(payload).collect())
    }

    fn is_marker(&mut self, _data: &[u8], _previous: Option<&[u8]>, _last: bool) -> bool {
        false
    }

    fn marks_talkspurt(&self) -> bool {
        false
    }

    fn nackable(&self) -> bool {
        true
    }
}

/// The payloads that a depacketizer was asked to read, in order.
type Read = Rc<RefCell<Vec<Vec<u8>>>>;

/// Notes each payload that it reads, and puts the number of payloads so far before the payload's byte. It refuses a payload of
/// byte 99.
#[derive(Debug, Default)]
struct Noting {
    read: Read,
}

impl Depacketizer for Noting {
    fn out_size_hint(&self, packets_size: usize) -> Option<usize> {
        Some(packets_size)
    }

    fn depacketize(
        &mut self,
        packet: &[u8],
        out: &mut Vec<u8>,
        _codec_extra: &mut CodecExtra,
    ) -> Result<(), PacketError> {
        let mut read = self.read.borrow_mut();
        read.push(packet.to_vec());
        if packet[1] == 99 {
            return Err(PacketError::ErrShortPacket);
        }
        out.push(read.len() as u8);
        out.push(packet[1]);
        Ok(())
    }

    fn is_partition_head(&self, packet: &[u8]) -> bool {
        packet[0] & FIRST != 0
    }

    fn is_partition_tail(&self, _marker: bool, packet: &[u8]) -> bool {
        packet[0] & LAST != 0
    }
}

/// A depacketizer, and what it reads.
fn noting() -> (CodecDepacketizer<Noting>, Read) {
    let noting = Noting::default();
    let read = noting.read.clone();
    (CodecDepacketizer::Boxed(noting), read)
}

/// The payloads of the frames `[5, 6, 7]` and `[8]`.
const PAYLOADS: [[u8; 2]; 4] = [[FIRST, 5], [0, 6], [LAST, 7], [FIRST | LAST, 8]];
/// What these frames give: before each byte, how many payloads were read.
const UNITS: [&[u8]; 2] = [&[1, 5, 2, 6, 3, 7], &[4, 8]];

fn bytes_of(answer: Option<Result<Depacketized, PacketError>>) -> Option<Vec<u8>> {
    answer.and_then(Result::ok).map(|unit| unit.bytes)
}

/// The header of the packet with that number. The first three are of one frame.
fn header_of(number: u16) -> RtpHeader {
    RtpHeader {
        payload_type: Pt::new_with_value(96),
        sequence_number: number,
        timestamp: if number < 3 { 3_000 } else { 6_000 },
        ssrc: 7,
        marker: false,
        ext_vals: ExtensionValues::default(),
    }
}

#[test]
fn jitter_buffer_asks_a_custom_depacketizer() -> Result<(), Fail> {
    let (own, read) = noting();
    let mut packets = JitterBuffer::new(own, Frequency::NINETY_KHZ, AT_ONCE);
    for number in [2, 0, 3, 1, 0] {
        let payload = PAYLOADS[usize::from(number)].to_vec();
        let outcome = packets.push(Ticks(0), header_of(number), payload)?;
        let first_copy = number != 0 || packets.held() == 2;
        assert_eq!(outcome == Outcome::Held, first_copy, "{number}");
    }
    assert!(read.borrow().is_empty());
    assert_eq!(bytes_of(packets.pop(Ticks(0))).as_deref(), Some(UNITS[0]));
    assert_eq!(*read.borrow(), PAYLOADS[..3]);

    let mut unit = PoppedUnit::new();
    let popped = packets.pop_unit(Ticks(0), &mut unit);
    assert!(matches!(popped, Some(Ok(()))));
    assert_eq!((unit.bytes.as_slice(), unit.packets()), (UNITS[1], 1));
    assert_eq!(*read.borrow(), PAYLOADS);
    assert!(packets.pop(Ticks(0)).is_none());
    assert_eq!(read.borrow().len(), 4);
    Ok(())
}

#[test]
fn refusal_of_a_custom_depacketizer_is_answered() -> Result<(), Fail> {
    let (own, read) = noting();
    let mut packets = JitterBuffer::new(own, Frequency::NINETY_KHZ, AT_ONCE);
    for (number, payload) in [(0, [FIRST, 5]), (1, [0, 99]), (2, [LAST, 7])] {
        packets.push(Ticks(0), header_of(number), payload.to_vec())?;
    }
    assert!(matches!(
        packets.pop(Ticks(0)),
        Some(Err(PacketError::ErrShortPacket))
    ));
    // The payload after the refused one is not read.
    assert_eq!(*read.borrow(), [[FIRST, 5], [0, 99]]);
    assert_eq!(packets.held(), 0);
    Ok(())
}

#[test]
fn receiver_asks_a_custom_depacketizer() -> Result<(), Fail> {
    let mut sender = Sender::new(CodecPacketizer::Boxed(ByPlaces), sender_settings()?)?;
    let mut datagrams = Vec::new();
    for (time, frame) in [(3_000, [5, 6, 7].as_slice()), (6_000, &[8])] {
        let sample = sample_of(time, frame);
        sender.send(&Sample {
            rtp_time: sample.rtp_time,
            bytes: &sample.bytes,
            start_of_talk_spurt: sample.start_of_talk_spurt,
            ext_vals: sample.ext_vals,
        })?;
        datagrams.extend(sender.datagrams().map(<[u8]>::to_vec));
    }
    // The payload comes after 12 bytes of header (RFC 3550, section 5.1).
    assert!(
        datagrams
            .iter()
            .map(|datagram| &datagram[12..])
            .eq(PAYLOADS)
    );

    let (own, read) = noting();
    let mut receiver = Receiver::new(own, receiver_settings(AT_ONCE)?)?;
    for place in [2, 3, 1, 0] {
        assert_eq!(
            receiver.receive(Ticks(0), &datagrams[place])?,
            Outcome::Held
        );
    }
    assert_eq!(
        receiver
            .pop(Ticks(0))
            .and_then(|it| it.ok()?.unit())
            .map(|it| it.bytes)
            .as_deref(),
        Some(UNITS[0])
    );
    let mut unit = PoppedUnit::new();
    let popped = receiver.pop_unit(Ticks(0), &mut unit);
    assert!(matches!(popped, Some(Ok(Popped::Unit(())))));
    assert_eq!(unit.bytes, UNITS[1]);
    assert_eq!(*read.borrow(), PAYLOADS);
    Ok(())
}

#[test]
fn run_over_datagrams_asks_custom_codecs() -> Result<(), Fail> {
    let mut sender = Sender::new(CodecPacketizer::Boxed(ByPlaces), sender_settings()?)?;
    let (own, read) = noting();
    let mut receiver = Receiver::new(own, receiver_settings(AT_ONCE)?)?;
    let deliver = |datagram| DatagramStep::Deliver {
        datagram,
        now: Ticks(0),
    };
    let steps = [
        DatagramStep::Send(0),
        DatagramStep::Send(1),
        deliver(2),
        deliver(3),
        deliver(0),
        deliver(1),
        DatagramStep::Finish,
        DatagramStep::Pop { now: Ticks(0) },
        DatagramStep::Pop { now: Ticks(0) },
    ];
    let samples = [sample_of(3_000, &[5, 6, 7]), sample_of(6_000, &[8])];
    let run = run_datagrams(&mut sender, &mut receiver, &samples, &steps)?;
    assert!(
        run.datagrams
            .iter()
            .map(|datagram| &datagram[12..])
            .eq(PAYLOADS)
    );
    let units: Vec<_> = run.pops.into_iter().filter_map(bytes_of).collect();
    assert_eq!(units, UNITS);
    assert_eq!(*read.borrow(), PAYLOADS);
    Ok(())
}
