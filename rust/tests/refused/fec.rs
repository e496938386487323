//! A port with FEC, of whose allocations each is refused in turn.

use crate::{LEFT, MADE};
use codec_payload::fec::{FecPort, FecPortSettings, LateIds};

const RED: u8 = 116;
const ULPFEC: u8 = 117;

/// A packet of RED of SSRC 7 with a transport-wide number under id 3.
fn red(number: u8, payload: &[u8]) -> Vec<u8> {
    let head = [0x90, RED, 0, number, 0, 0, 0, 9, 0, 0, 0, 7];
    [&head[..], &[0xbe, 0xde, 0, 1, 0x31, 4, number, 0], payload].concat()
}

/// FEC (RFC 5109, section 7) for the packets of media 1 and 2, `[96, 5]` and `[96, 6]` in RED: the second byte is 96 of both, the time 9, and
/// the lengths are 9, without the fixed header.
fn fec() -> Vec<u8> {
    let (head, level) = ([0, 0, 0, 1, 0, 0, 0, 0, 0, 0], [0, 9, 0xc0, 0]);
    red(
        3,
        &[
            &[ULPFEC],
            &head[..],
            &level,
            &[0, 0, 0, 0, 0, 0, 0, 0, 5 ^ 6],
        ]
        .concat(),
    )
}

fn port() -> FecPort {
    FecPort::new(FecPortSettings {
        red_type: RED,
        fec_type: ULPFEC,
        red_retransmission: None,
        retransmissions: Vec::new(),
        late_ids: LateIds {
            transport_number: Some(3),
            ..LateIds::default()
        },
        bytes: 512 * 1_500,
        max_streams: 1,
    })
    .expect("settings that can be met")
}

/// Passes the datagrams, and calls again what is refused. Appends what the session gets, to memory that there is. Returns how many calls
/// were refused.
fn run(port: &mut FecPort, datagrams: &[Vec<u8>], got: &mut Vec<Vec<u8>>) -> usize {
    let mut refused = 0;
    for datagram in datagrams {
        let mut out = Vec::new();
        let before = port.counts();
        while port.receive(datagram, &mut out).is_err() {
            refused += 1;
            LEFT.set(usize::MAX);
            assert!(out.is_empty());
            assert_eq!(port.counts(), before);
        }
        got.push(out);
        loop {
            match port.next_rebuilt() {
                Ok(Some(packet)) => got.push(packet),
                Ok(None) => break,
                Err(_) => {
                    refused += 1;
                    LEFT.set(usize::MAX);
                }
            }
        }
    }
    refused
}

/// Whatever allocation is refused: nothing is lost, once the call is made again.
#[test]
fn a_port_loses_nothing() {
    let datagrams = [red(1, &[96, 5]), fec()];
    let mut wanted = Vec::with_capacity(8);
    let mut first = port();
    MADE.set(0);
    assert_eq!(run(&mut first, &datagrams, &mut wanted), 0);
    let count = MADE.get();
    // The rebuilt packet has padding in the place of the transport-wide number.
    let plain = [
        0x90, 96, 0, 2, 0, 0, 0, 9, 0, 0, 0, 7, 0xbe, 0xde, 0, 1, 0, 0, 0, 0, 6,
    ];
    assert_eq!(wanted[2..], [plain.to_vec()]);
    assert!(count > 8, "{count}");
    for place in 0..count {
        let mut port = port();
        let mut got = Vec::with_capacity(8);
        LEFT.set(place);
        let refused = run(&mut port, &datagrams, &mut got);
        LEFT.set(usize::MAX);
        assert_eq!(got, wanted, "allocation {place} of {count}");
        assert_eq!(refused, 1, "allocation {place} of {count}");
        assert_eq!(port.counts().rebuilt, 1);
    }
}
