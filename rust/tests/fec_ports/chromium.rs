//! What Chromium 156 sent: 31 datagrams in a row of a call with its fake camera (VP8, `red` and `ulpfec`), in the order of their numbers.

use crate::{Fail, pass, settings};
use codec_payload::fec::{FecPort, LateIds};

/// Each datagram, with its length in two bytes in front.
const CALL: &[u8] = include_bytes!("chromium.bin");
const RED: u8 = 118;
const ULPFEC: u8 = 120;
/// As the offer of the call gave them.
const LATE: LateIds = LateIds {
    transport_number: Some(4),
    abs_send_time: Some(2),
    transmission_offset: Some(1),
    video_timing: Some(7),
};

fn datagrams() -> Vec<&'static [u8]> {
    let (mut rest, mut all) = (CALL, Vec::new());
    while let [high, low, others @ ..] = rest {
        let (datagram, behind) = others.split_at(usize::from(u16::from_be_bytes([*high, *low])));
        all.push(datagram);
        rest = behind;
    }
    all
}

fn number_of(packet: &[u8]) -> u16 {
    u16::from_be_bytes([packet[2], packet[3]])
}

/// Where the words of the header extension are (RFC 8285, the one-byte form), behind which a block of RED begins.
fn words_of(datagram: &[u8]) -> std::ops::Range<usize> {
    assert_eq!((datagram[0], datagram[1] & 0x7f), (0x90, RED));
    assert_eq!(datagram[12..14], [0xbe, 0xde]);
    16..16 + 4 * usize::from(u16::from_be_bytes([datagram[14], datagram[15]]))
}

/// The numbers that a packet of FEC protects (RFC 5109, section 7), or none for media.
fn protected(datagram: &[u8]) -> Vec<u16> {
    let block = &datagram[words_of(datagram).end..];
    if block[0] != ULPFEC {
        return Vec::new();
    }
    let fec = &block[1..];
    assert_eq!(fec[0] & 0x40, 0, "a mask of 16 bits");
    let mask = u16::from_be_bytes([fec[12], fec[13]]);
    let places = (0..16).filter(|place| mask >> (15 - place) & 1 == 1);
    places.map(|place| number_of(fec) + place).collect()
}

/// The packet before RED, with padding in the place of the late elements.
fn plain(datagram: &[u8]) -> Vec<u8> {
    let words = words_of(datagram);
    let mut out = datagram.to_vec();
    let mut at = words.start;
    while at < words.end {
        let (id, size) = (out[at] >> 4, usize::from(out[at] & 15) + 2);
        let size = if out[at] == 0 { 1 } else { size };
        if [1, 2, 4, 7].contains(&id) {
            out[at..at + size].fill(0);
        }
        at += size;
    }
    let kind = out.remove(words.end);
    out[1] = (out[1] & 0x80) | kind;
    out
}

/// Each of the 20 packets of media is lost in turn. Chromium's FEC protects them all: each is rebuilt, byte for byte.
#[test]
fn packets_of_chromium_are_rebuilt() -> Result<(), Fail> {
    let all = datagrams();
    assert_eq!(all.len(), 31);
    let named: Vec<u16> = all
        .iter()
        .flat_map(|datagram| protected(datagram))
        .collect();
    let mut rebuilt = 0;
    for (place, lost) in all.iter().enumerate() {
        if !protected(lost).is_empty() {
            continue;
        }
        let mut port = settings();
        (port.red_type, port.fec_type, port.late_ids) = (RED, ULPFEC, LATE);
        (port.red_retransmission, port.retransmissions) = (None, Vec::new());
        let mut port = FecPort::new(port)?;
        let mut got = Vec::new();
        for (_, datagram) in all.iter().enumerate().filter(|(i, _)| *i != place) {
            pass(&mut port, datagram)?;
            got.extend(port.next_rebuilt()?);
        }
        let wanted = if named.contains(&number_of(lost)) {
            vec![plain(lost)]
        } else {
            Vec::new()
        };
        assert_eq!(got, wanted, "packet {}", number_of(lost));
        rebuilt += got.len();
    }
    assert_eq!(rebuilt, 20);
    Ok(())
}
