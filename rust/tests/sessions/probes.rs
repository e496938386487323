//! Sessions: packets that are retransmitted although they came (RFC 4588, section 4). A sender sends such ones to find out what the
//! network carries. They are neither late nor duplicates, as a second copy of a packet under its own payload type is.

use crate::Fail;
use crate::datagrams::*;
use codec_payload::jitter::Outcome;
use codec_payload::session::*;
use codec_payload::*;
use std::collections::HashSet;

/// A session of VP8 whose packets of SSRC 5 are retransmitted under SSRC 50. A frame waits for 100 ms.
fn session(start: usize) -> Session {
    let mut settings = SessionSettings::live();
    settings.formats = vec![answered_vp8(), answered_opus()];
    settings.pairs = vec![SsrcPair {
        ssrc: 5,
        retransmission: 50,
    }];
    (settings.video.start, settings.video.max_wait) = (start, Some(100));
    Session::new(settings).expect("settings that can be met")
}

/// The retransmission of a packet: its payload begins with the original number (RFC 4588, section 4).
fn again(of: &[u8], number: u16) -> Vec<u8> {
    let payload = [&of[2..4], &of[12..]].concat();
    let time = u32::from_be_bytes([of[4], of[5], of[6], of[7]]);
    packet(RTX, 50, number, time, &payload)
}

fn outcome(session: &mut Session, now: u64, datagram: &[u8]) -> Result<Outcome, Fail> {
    match session.receive(Ticks(now), datagram)? {
        Arrival::Stream { outcome, .. } => Ok(outcome),
        other => Err(format!("{other:?}").into()),
    }
}

fn drain(session: &mut Session, now: u64) {
    while session.poll(Ticks(now)).is_some() {}
}

/// How many probes, late packets and duplicates the stream of SSRC 5 had.
fn counts(session: &Session) -> (u64, u64, u64) {
    let info = session.stream_at(0).expect("a stream");
    let packets = info.counters.packets;
    (info.probes, packets.late, packets.duplicates)
}

#[test]
fn a_held_packet_and_a_released_one() -> Result<(), Fail> {
    let mut session = session(0);
    for number in [1, 2, 4] {
        session.receive(Ticks(0), &vp8(5, number, number == 1))?;
    }
    drain(&mut session, 0);
    // Packets 1 and 2 were released, 3 is missing, 4 is held.
    let copy = |number| again(&vp8(5, number, number == 1), 900);
    assert_eq!(outcome(&mut session, 1, &copy(4))?, Outcome::Duplicate);
    assert_eq!(counts(&session), (1, 0, 0));
    assert_eq!(outcome(&mut session, 1, &copy(2))?, Outcome::Late);
    assert_eq!(counts(&session), (2, 0, 0));
    // The network repeats a packet.
    assert_eq!(
        outcome(&mut session, 1, &vp8(5, 4, false))?,
        Outcome::Duplicate
    );
    assert_eq!(outcome(&mut session, 1, &vp8(5, 2, false))?, Outcome::Late);
    assert_eq!(counts(&session), (2, 1, 1));
    // An answer, and a copy of the answer.
    assert_eq!(outcome(&mut session, 2, &copy(3))?, Outcome::Held);
    assert_eq!(counts(&session), (2, 1, 1));
    assert_eq!(outcome(&mut session, 2, &copy(3))?, Outcome::Duplicate);
    assert_eq!(counts(&session), (3, 1, 1));
    Ok(())
}

/// Packet 3 is missing until its frame is given up. Its retransmission is late then, and no probe: the packet never came. The next one is.
#[test]
fn an_answer_that_is_late() -> Result<(), Fail> {
    let mut session = session(0);
    for number in [1, 2, 4] {
        session.receive(Ticks(0), &vp8(5, number, number == 1))?;
    }
    for now in 0..3_000 {
        drain(&mut session, now);
        session.receive(Ticks(now), &vp8(5, 4, false))?;
    }
    let (probes, late, duplicates) = counts(&session);
    assert_eq!(probes, 0);
    let copy = again(&vp8(5, 3, false), 900);
    assert_eq!(outcome(&mut session, 3_000, &copy)?, Outcome::Late);
    assert_eq!(counts(&session), (0, late + 1, duplicates));
    assert_eq!(outcome(&mut session, 3_000, &copy)?, Outcome::Late);
    assert_eq!(counts(&session), (1, late + 1, duplicates));
    Ok(())
}

/// A format without retransmissions has no probes.
#[test]
fn no_retransmissions() -> Result<(), Fail> {
    let mut session = session(0);
    for number in [1, 2, 1, 2] {
        session.receive(Ticks(0), &opus(7, number))?;
    }
    let info = session.stream_at(0).expect("a stream");
    assert_eq!((info.probes, info.counters.packets.duplicates), (0, 2));
    Ok(())
}

/// 20,000 packets are lost, late, repeated, and retransmitted with and without need, also behind the wrap of the numbers. A set of all
/// that came, counted to the side, says which retransmissions are probes.
#[test]
fn many_packets() -> Result<(), Fail> {
    for seed in 1..5 {
        let mut dice = Dice(seed);
        let mut session = session(0);
        let mut came = HashSet::new();
        let (mut probes, mut late, mut duplicates, mut found) = (0, 0, 0, 0);
        let mut give = |session: &mut Session, now: u64, number: u64, is_again: bool| {
            let media = vp8(5, number as u16, number % 30 == 0);
            let bytes = if is_again {
                again(&media, number as u16)
            } else {
                media
            };
            let outcome = outcome(session, now, &bytes)?;
            let is_probe = is_again && came.contains(&number);
            match outcome {
                Outcome::Late | Outcome::Duplicate if is_probe => probes += 1,
                Outcome::Late => late += 1,
                Outcome::Duplicate => duplicates += 1,
                Outcome::Held => found += 1,
                _ => {}
            }
            came.insert(number);
            assert_eq!(counts(session), (probes, late, duplicates), "{number}");
            Ok::<_, Fail>(())
        };
        for number in 60_000..80_000_u64 {
            let now = number * 3;
            let is_lost = number > 60_010 && dice.below(10) == 0;
            if !is_lost {
                give(&mut session, now, number, false)?;
            }
            if number > 60_100 && dice.below(4) == 0 {
                let older = number - 1 - u64::from(dice.below(90));
                give(&mut session, now, older, dice.below(8) > 0)?;
            }
            drain(&mut session, now);
        }
        assert!(
            probes > 2_000 && late > 100 && duplicates > 10,
            "{probes} {late} {duplicates} {found}"
        );
    }
    Ok(())
}
