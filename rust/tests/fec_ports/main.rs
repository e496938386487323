//! Ports with FEC: what passes, what is rebuilt, and what a session or a forwarder behind a port makes of it. The packets, the FEC and the
//! packets that are expected are written after RFC 3550, RFC 2198, RFC 4588, RFC 5109 and RFC 8285.

#[path = "../random/mod.rs"]
mod random;

mod behind;
mod chromium;
mod packets;
mod streams;

use codec_payload::fec::{
    FecPort, FecPortSettings, FecPortSettingsError, LateIds, Passed, RetransmissionType,
};
use packets::*;

type Fail = Box<dyn std::error::Error>;

/// The settings of the tests.
fn settings() -> FecPortSettings {
    FecPortSettings {
        red_type: RED,
        fec_type: ULPFEC,
        red_retransmission: Some(RED_AGAIN),
        retransmissions: vec![RetransmissionType {
            media: VP8,
            retransmission: VP8_AGAIN,
        }],
        late_ids: LATE,
        bytes: 512 * 1_500,
        max_streams: 64,
    }
}

fn port() -> Result<FecPort, Fail> {
    Ok(FecPort::new(settings())?)
}

/// What passes in the place of a datagram.
fn pass(port: &mut FecPort, datagram: &[u8]) -> Result<Vec<u8>, Fail> {
    let mut out = vec![7; 3];
    let passed = port.receive(datagram, &mut out)?;
    assert_eq!(passed == Passed::AsItIs, out.is_empty());
    let bytes = passed.bytes(datagram, &out);
    assert!(bytes.len() <= datagram.len());
    Ok(bytes.to_vec())
}

/// A block of media passes as the packet before RED, with its marker, its header extension and its CSRCs.
#[test]
fn media_passes_as_it_was_before_red() -> Result<(), Fail> {
    let mut port = port()?;
    let mut packet = Packet::new(7, 65_535, b"abc");
    packet.marker = true;
    packet.csrcs = vec![1, 2, 3, 4];
    packet.elements = vec![(3, vec![9, 9]), (5, vec![1])];
    assert_eq!(pass(&mut port, &packet.in_red())?, packet.bytes());
    packet.payload = Vec::new();
    assert_eq!(pass(&mut port, &packet.in_red())?, packet.bytes());
    Ok(())
}

/// FEC passes as a byte of padding under its number, its time and its header extension, in RED or not.
#[test]
fn fec_passes_as_padding() -> Result<(), Fail> {
    let mut port = port()?;
    for in_red in [true, false] {
        let mut fec = Packet::new(7, 12, &[1; 30]);
        fec.payload_type = ULPFEC;
        fec.elements = vec![(3, vec![0, 1])];
        let datagram = if in_red { fec.in_red() } else { fec.bytes() };
        let mut padding = fec.clone();
        padding.payload = vec![1];
        let mut wanted = padding.bytes();
        wanted[0] |= 0x20;
        assert_eq!(pass(&mut port, &datagram)?, wanted);
    }
    Ok(())
}

/// A retransmission of a packet in RED becomes one of the packet before RED; padding of RTX stays, and so does media without such a type.
#[test]
fn retransmissions_pass_without_red() -> Result<(), Fail> {
    let mut port = port()?;
    let again = |kind: u8, payload: &[u8]| {
        let mut packet = Packet::new(8, 500, payload);
        packet.payload_type = kind;
        packet.bytes()
    };
    let datagram = again(RED_AGAIN, &[0x12, 0x34, VP8, b'a', b'b']);
    let wanted = again(VP8_AGAIN, &[0x12, 0x34, b'a', b'b']);
    assert_eq!(pass(&mut port, &datagram)?, wanted);
    for same in [
        again(RED_AGAIN, &[0x12, 0x34, VP9, b'a']),
        again(RED_AGAIN, &[0x12, 0x34, ULPFEC, b'a']),
        again(
            RED_AGAIN,
            &[0x12, 0x34, 0x80 | VP8, 0, 0, 1, VP8, b'a', b'b'],
        ),
        again(RED_AGAIN, &[0x12, 0x34]),
        again(RED_AGAIN, &[0x12]),
        again(RED_AGAIN, &[]),
        again(VP8_AGAIN, &[0x12, 0x34, VP8, b'a']),
    ] {
        assert_eq!(pass(&mut port, &same)?, same);
    }
    assert_eq!(port.counts().media + port.counts().fec, 0);
    Ok(())
}

/// Without FEC nothing changes: each datagram passes as it is, whatever its bytes are, and no stream begins.
#[test]
fn all_else_passes_as_it_is() -> Result<(), Fail> {
    let mut port = port()?;
    let mut dice = random::Dice(5_109);
    let red = |payload: &[u8]| {
        let mut packet = Packet::new(7, 1, payload);
        packet.payload_type = RED;
        packet.bytes()
    };
    let mut all = vec![
        Vec::new(),
        vec![0x80],
        vec![0x80, 200, 0, 1, 0, 0, 0, 7],
        Packet::new(7, 1, b"plain").bytes(),
        red(&[]),
        red(&[RED, VP8, 1]),
        red(&[0x80 | VP8, 0, 0, 1, VP8, 7, 8]),
        red(&[VP8, 1])[..11].to_vec(),
    ];
    for _ in 0..20_000 {
        let len = dice.below(40);
        let mut bytes: Vec<u8> = (0..len).map(|_| dice.below(256) as u8).collect();
        if let [first, second, ..] = &mut bytes[..] {
            *first = 0x80 | (*first & 0x3f);
            if [RED, ULPFEC, RED_AGAIN].contains(&(*second & 0x7f)) {
                *second = VP8;
            }
        }
        all.push(bytes);
    }
    for datagram in &all {
        assert_eq!(&pass(&mut port, datagram)?, datagram);
        assert_eq!(port.next_rebuilt()?, None);
    }
    assert_eq!((port.counts().media, port.counts_of(7)), (0, None));
    Ok(())
}

#[test]
fn settings_that_no_port_can_meet() {
    use FecPortSettingsError::*;
    let fault = |change: &dyn Fn(&mut FecPortSettings)| {
        let mut settings = settings();
        change(&mut settings);
        assert_eq!(settings.check().err(), FecPort::new(settings).err());
        let mut again = self::settings();
        change(&mut again);
        again.check().err()
    };
    assert_eq!(fault(&|_| {}), None);
    assert_eq!(fault(&|s| s.max_streams = 256), None);
    assert_eq!(fault(&|s| s.max_streams = 257), Some(MaxStreams));
    assert_eq!(
        fault(&|s| (s.max_streams, s.red_type) = (0, 128)),
        Some(MaxStreams)
    );
    assert_eq!(fault(&|s| s.red_type = 128), Some(PayloadType(128)));
    assert_eq!(fault(&|s| s.fec_type = 72), Some(PayloadType(72)));
    assert_eq!(fault(&|s| s.fec_type = RED), Some(TwoMeanings(RED)));
    assert_eq!(
        fault(&|s| s.red_retransmission = Some(95)),
        Some(PayloadType(95))
    );
    assert_eq!(
        fault(&|s| s.red_retransmission = Some(ULPFEC)),
        Some(TwoMeanings(ULPFEC))
    );
    assert_eq!(
        fault(&|s| s.retransmissions[0].media = 64),
        Some(PayloadType(64))
    );
    assert_eq!(
        fault(&|s| s.retransmissions[0].media = RED),
        Some(TwoMeanings(RED))
    );
    let again = |t| move |s: &mut FecPortSettings| s.retransmissions[0].retransmission = t;
    assert_eq!(fault(&again(RED_AGAIN)), Some(TwoMeanings(RED_AGAIN)));
    assert_eq!(fault(&again(200)), Some(PayloadType(200)));
    assert_eq!(fault(&|s| s.late_ids = LateIds::default()), None);
}
