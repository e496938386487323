//! A forwarder between a sender of VP8 with picture ids and a viewer. The network is that of `forwarded.rs`: it loses, repeats and
//! reorders datagrams on both hops. The viewer gets the ids from 0 on, each in the width in which it was sent, and all frames whose
//! datagrams came over both hops.

use crate::Fail;
use crate::forwarded::{BLOCKS, Schedule, popped_in, schedule_of};
use crate::with_ids::{FIRST_IDS, frame_of, link_from, samples};
use codec_payload::rtp::RtpPacket;
use codec_payload::schedule::forwarded::{ForwardedRun, run_forwarded};

fn run_of(id: u16, schedule: &Schedule) -> Result<ForwardedRun, Fail> {
    let mut link = link_from(id)?;
    Ok(run_forwarded(
        &mut link,
        &samples(BLOCKS * 8),
        &schedule.steps,
    )?)
}

/// The payload of that frame's first or second datagram: X and S or X alone, I alone, and the id in one or two bytes (RFC 7741,
/// section 4.2).
fn payload_of(id: u16, wide: bool, first: bool, piece: &[u8]) -> Vec<u8> {
    let [high, low] = id.to_be_bytes();
    let mut payload = vec![if first { 0x90 } else { 0x80 }, 0x80];
    if wide {
        payload.extend([0x80 | high, low]);
    } else {
        payload.push(low);
    }
    payload.extend(piece);
    payload
}

/// The payload of a datagram as it is sent, and as the viewer gets it, if the viewer's id 0 is the frame's with this index.
fn payloads_of(first_id: u16, begun: usize, datagram: usize) -> [Vec<u8>; 2] {
    let (frame, is_first) = (datagram / 2, datagram % 2 == 0);
    let id = (first_id + frame as u16) % 0x8000;
    let begun_id = (first_id + begun as u16) % 0x8000;
    let wide = id >= 0x80;
    let moved = (id + 0x8000 - begun_id) % if wide { 0x8000 } else { 0x80 };
    let bytes = frame_of(frame);
    let (front, back) = bytes.split_at(if wide { 3 } else { 4 });
    let piece = if is_first { front } else { back };
    [id, moved].map(|it| payload_of(it, wide, is_first, piece))
}

#[test]
fn ids_go_on_from_0_in_their_width() -> Result<(), Fail> {
    for first_id in FIRST_IDS {
        let schedule = schedule_of(u32::from(first_id), true);
        let run = run_of(first_id, &schedule)?;
        let begun = schedule.written[0] / 2;
        assert_eq!(run.written.len(), schedule.written.len());
        for (bytes, datagram) in run.written.iter().zip(&schedule.written) {
            let sent = RtpPacket::parse(&run.run.datagrams[*datagram])?;
            let got = RtpPacket::parse(bytes)?;
            assert_eq!(
                [sent.payload, got.payload],
                payloads_of(first_id, begun, *datagram)
            );
        }
    }
    Ok(())
}

#[test]
fn frames_with_ids_come_out() -> Result<(), Fail> {
    for seed in 0..5 {
        for first_id in FIRST_IDS {
            let schedule = schedule_of(seed, true);
            let frames = schedule.came.chunks(2).enumerate();
            let whole = frames.filter(|(_, came)| came[0] && came[1]);
            let wanted: Vec<u8> = whole.flat_map(|(index, _)| frame_of(index)).collect();
            assert!(wanted.len() < BLOCKS * 40);
            let run = run_of(first_id, &schedule)?;
            assert_eq!(popped_in(&run)?, wanted, "seed {seed}, id {first_id}");
        }
    }
    Ok(())
}
