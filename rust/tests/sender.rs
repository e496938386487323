//! A sender: custom packetizers, datagrams that are lent with their tailroom, formats that change, and sender reports. Bytes of
//! headers by RFC 3550, section 5.1.

use codec_payload::rtp::RtpPacket;
use codec_payload::sender::{Report, Sample, Sender, SenderError, SenderSettings};
use codec_payload::*;

type Fail = Box<dyn std::error::Error>;

const SSRC: u32 = 0x0102_0304;

fn settings(tailroom: usize) -> SenderSettings {
    SenderSettings {
        first_number: 0xffff,
        mtu: 4,
        tailroom,
        ..SenderSettings::for_stream(96, SSRC, Frequency::FORTY_EIGHT_KHZ)
    }
}

fn packetizer(codec: Codec) -> Result<CodecPacketizer, Fail> {
    Ok(CodecPacketizer::from_codec(codec).ok_or("no packetizer")?)
}

fn sample(time: u64, bytes: &[u8]) -> Sample<'_> {
    Sample {
        rtp_time: MediaTime::new(time, Frequency::FORTY_EIGHT_KHZ),
        bytes,
        start_of_talk_spurt: false,
        ext_vals: ExtensionValues::default(),
    }
}

/// What a custom packetizer was asked, in order.
#[derive(Debug, PartialEq, Eq)]
enum Question {
    Frame(Vec<u8>),
    Marker(Vec<u8>, Option<Vec<u8>>, bool),
}

/// A payload for each byte, each after the number of frames so far. Marks the first packet of a frame.
#[derive(Debug, Default)]
struct Noting {
    frames: u8,
    asked: std::rc::Rc<std::cell::RefCell<Vec<Question>>>,
}

impl Packetizer for Noting {
    fn packetize(&mut self, _mtu: usize, b: &[u8]) -> Result<Vec<Vec<u8>>, PacketError> {
        self.frames += 1;
        self.asked.borrow_mut().push(Question::Frame(b.to_vec()));
        if b == [0] {
            return Err(PacketError::ErrPayloadTooLarge);
        }
        Ok(b.iter().map(|byte| vec![self.frames, *byte]).collect())
    }

    fn is_marker(&mut self, data: &[u8], previous: Option<&[u8]>, last: bool) -> bool {
        let question = Question::Marker(data.to_vec(), previous.map(<[u8]>::to_vec), last);
        self.asked.borrow_mut().push(question);
        previous.is_none()
    }

    fn marks_talkspurt(&self) -> bool {
        false
    }

    fn nackable(&self) -> bool {
        true
    }
}

#[test]
fn custom_packetizer_is_asked_once() -> Result<(), Fail> {
    let noting = Noting::default();
    let asked = noting.asked.clone();
    let mut sender = Sender::new(CodecPacketizer::Boxed(noting), settings(0))?;
    sender.send(&sample(960, &[7, 8, 9]))?;
    let wanted: [&[u8]; 3] = [
        &[0x80, 0xe0, 0xff, 0xff, 0, 0, 3, 0xc0, 1, 2, 3, 4, 1, 7],
        &[0x80, 0x60, 0, 0, 0, 0, 3, 0xc0, 1, 2, 3, 4, 1, 8],
        &[0x80, 0x60, 0, 1, 0, 0, 3, 0xc0, 1, 2, 3, 4, 1, 9],
    ];
    assert!(sender.datagrams().eq(wanted));
    let questions = [
        Question::Frame(vec![7, 8, 9]),
        Question::Marker(vec![1, 7], None, false),
        Question::Marker(vec![1, 8], Some(vec![1, 7]), false),
        Question::Marker(vec![1, 9], Some(vec![1, 8]), true),
    ];
    assert_eq!(*asked.borrow(), questions);

    assert_eq!(
        sender.send(&sample(1_920, &[0])),
        Err(PacketError::ErrPayloadTooLarge)
    );
    assert_eq!((sender.len(), sender.next_number()), (0, 2));
    assert_eq!(asked.borrow().len(), 5);
    Ok(())
}

/// Encrypts a payload in place and writes a tag, as SRTP does (RFC 3711, section 3.1). Returns the bytes to send.
fn protect(packet: &mut [u8]) -> Vec<u8> {
    let end = packet.len() - 10;
    for byte in &mut packet[12..end] {
        *byte ^= 0xff;
    }
    packet[end..].fill(0xaa);
    packet.to_vec()
}

#[test]
fn datagrams_are_lent_with_their_tailroom() -> Result<(), Fail> {
    let mut sender: Sender = Sender::new(packetizer(Codec::Opus)?, settings(10))?;
    sender.send(&sample(960, &[1, 2, 3, 4, 5]))?;
    let first = sender.datagram(0).to_vec();
    let second = sender.datagram(1).to_vec();
    assert_eq!((first.len(), second.len()), (16, 13));

    let sent = sender.with_datagram(0, protect);
    assert_eq!(sent.len(), first.len() + sender.tailroom());
    assert_eq!(sent[..12], first[..12]);
    assert_eq!(sent[12..16], [0xfe, 0xfd, 0xfc, 0xfb]);
    assert_eq!(sent[16..], [0xaa; 10]);
    // The datagram is what was left in its place, and the next one is as it was.
    assert_eq!(sender.datagram(0), &sent[..16]);
    assert_eq!(sender.datagram(1), &second[..]);

    // The bytes in the tailroom are the next sample's again.
    sender.send(&sample(1_920, &[6]))?;
    let sent = sender.with_datagram(0, |packet| packet.to_vec());
    assert_eq!(sent[..13], *sender.datagram(0));
    assert_eq!(sent.len(), 23);
    Ok(())
}

#[test]
#[should_panic]
fn no_datagram_is_lent_behind_the_last() {
    let packetizer = packetizer(Codec::Opus).unwrap();
    let mut sender: Sender = Sender::new(packetizer, settings(0)).unwrap();
    sender.with_datagram(0, |_| ());
}

#[test]
fn numbers_and_counts_go_on_in_another_format() -> Result<(), Fail> {
    let mut sender: Sender = Sender::new(packetizer(Codec::Opus)?, settings(0))?;
    sender.send(&sample(960, &[1, 2, 3, 4, 5]))?;
    let before = sender.counts();
    assert_eq!((before.packets, before.octets), (2, 5));

    let refused = sender.set_format(packetizer(Codec::PCMU)?, 128, Frequency::EIGHT_KHZ);
    assert_eq!(refused, Err(SenderError::PayloadType));
    assert_eq!((sender.len(), sender.next_number()), (2, 1));

    sender.set_format(packetizer(Codec::PCMU)?, 0, Frequency::EIGHT_KHZ)?;
    assert_eq!(
        (sender.counts(), sender.len(), sender.next_number()),
        (before, 2, 1)
    );
    sender.send(&sample(1_920, &[6]))?;
    let packet = RtpPacket::parse(sender.datagram(0))?;
    assert_eq!(packet.header.payload_type, 0);
    assert_eq!(packet.header.sequence_number, 1);
    assert_eq!(packet.header.ssrc, SSRC);
    // 1,920 ticks of 48,000 Hz are 320 of 8,000 Hz.
    assert_eq!(packet.header.timestamp, 320);
    assert_eq!(sender.counts().packets, 3);
    assert_eq!(sender.counts().octets, 6);
    Ok(())
}

#[test]
fn reports_are_of_the_moment() -> Result<(), Fail> {
    let mut sender: Sender = Sender::new(packetizer(Codec::Opus)?, settings(0))?;
    let at = |seconds: u64| MediaTime::new(seconds, Frequency::make(1).unwrap());
    let nothing = Report {
        ssrc: SSRC,
        rtp_time: 96_000,
        packets: 0,
        octets: 0,
    };
    assert_eq!(sender.report(at(2)), nothing);
    sender.send(&sample(960, &[1, 2, 3, 4, 5]))?;
    let sent = Report {
        packets: 2,
        octets: 5,
        ..nothing
    };
    assert_eq!(sender.report(at(2)), sent);
    // 100,000 seconds are 4,800,000,000 ticks, of which 32 bits are kept.
    assert_eq!(sender.report(at(100_000)).rtp_time, 505_032_704);
    Ok(())
}
