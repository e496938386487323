//! Runs whose sender restarts: each part has a new sender, with other numbers and times, over a network that repeats and reorders
//! datagrams. The units of a part are released in order, after all units of earlier parts.

use crate::Fail;
use crate::sides::{receiver_of, sample_of, sender_settings};
use codec_payload::codec::{CodecPacketizer, NoBox};
use codec_payload::jitter::jitter_buffer::{Outcome, WaitLimits};
use codec_payload::schedule::datagrams::{DatagramRun, DatagramStep, Part, run_with_restarts};
use codec_payload::sender::Sender;
use codec_payload::wire::{Codec, Ticks, ToPayload};

/// How many frames a part sends; each has two datagrams.
const FRAMES: u8 = 40;

/// How many parts there are.
const PARTS: u8 = 6;

/// Frames wait for missing packets until the end.
const UNTIL_THE_END: WaitLimits = {
    let mut limits = WaitLimits::live();
    limits.hold_back = None;
    limits.start = 0;
    limits.max_wait = None;
    limits
};

fn frame_of(part: u8, index: u8) -> [u8; 3] {
    [part, index, 0xa5]
}

/// The frames of all parts. The RTP times of each part begin at another time.
fn samples() -> Vec<ToPayload> {
    (0..PARTS)
        .flat_map(|part| {
            (0..FRAMES).map(move |index| {
                let base = u64::from(part) * 77_777_777 % 5_000_000;
                sample_of(base + u64::from(index) * 3_000, &frame_of(part, index))
            })
        })
        .collect()
}

/// A sender from that number on.
fn sender_from(ssrc: u32, first_number: u16) -> Result<Sender<NoBox>, Fail> {
    let mut settings = sender_settings()?;
    settings.ssrc = ssrc;
    settings.first_number = first_number;
    let pack = CodecPacketizer::from_codec(Codec::Vp8).ok_or("no packetizer")?;
    Ok(Sender::new(pack, settings).map_err(|_| "settings out of range")?)
}

/// The generator of Numerical Recipes.
fn following(seed: &mut u32) -> usize {
    *seed = seed.wrapping_mul(1_664_525).wrapping_add(1_013_904_223);
    (*seed >> 16) as usize
}

fn deliver(datagram: usize) -> DatagramStep {
    DatagramStep::Deliver {
        datagram,
        now: Ticks(0),
    }
}

/// Sends the frames of a part, and delivers its datagrams in windows of eight, each in another order, every fifth twice. `loses`
/// says which datagrams are lost.
fn steps_of(part: u8, seed: &mut u32, loses: impl Fn(usize) -> bool) -> Vec<DatagramStep> {
    let mut steps = Vec::new();
    let start = usize::from(part) * usize::from(FRAMES);
    for frame in start..start + usize::from(FRAMES) {
        steps.push(DatagramStep::Send(frame));
    }
    for window in 0..usize::from(FRAMES) / 4 {
        let mut places: Vec<usize> = (8 * window..8 * window + 8).collect();
        for i in (1..8).rev() {
            places.swap(i, following(seed) % (i + 1));
        }
        for datagram in places {
            if loses(datagram) {
                continue;
            }
            steps.push(deliver(datagram));
            if datagram % 5 == 0 {
                steps.push(deliver(datagram));
            }
        }
    }
    steps
}

fn pops(steps: &mut Vec<DatagramStep>, count: usize) {
    for _ in 0..count {
        steps.push(DatagramStep::Pop { now: Ticks(0) });
    }
}

/// The bytes of the units that the pops of a part returned.
fn popped_in(run: &DatagramRun) -> Result<Vec<u8>, Fail> {
    let mut popped = Vec::new();
    for answer in run.pops.iter().flatten() {
        let unit = answer.as_ref().map_err(|_| "a unit is refused")?;
        popped.extend_from_slice(&unit.bytes);
    }
    Ok(popped)
}

fn frames_in(part: u8) -> Vec<u8> {
    (0..FRAMES).flat_map(|i| frame_of(part, i)).collect()
}

/// Senders of all parts: all of one SSRC, or each of another.
fn senders_of(changes: bool) -> Result<Vec<Sender<NoBox>>, Fail> {
    (0..PARTS)
        .map(|part| {
            let ssrc = if changes { 7 + u32::from(part) } else { 7 };
            sender_from(
                ssrc,
                u16::from(part).wrapping_mul(50_001).wrapping_add(65_533),
            )
        })
        .collect()
}

fn part_of(part: u8, changes: bool, steps: Vec<DatagramStep>) -> Part {
    Part {
        ssrc: changes.then(|| 7 + u32::from(part)),
        steps,
    }
}

#[test]
fn each_part_is_released_whole() -> Result<(), Fail> {
    for changes in [false, true] {
        let mut seed = 5;
        let parts: Vec<Part> = (0..PARTS)
            .map(|part| {
                let mut steps = steps_of(part, &mut seed, |_| false);
                steps.push(DatagramStep::Finish);
                pops(&mut steps, usize::from(FRAMES) + 1);
                part_of(part, changes, steps)
            })
            .collect();
        let mut receiver = receiver_of(UNTIL_THE_END)?;
        let runs = run_with_restarts(&mut senders_of(changes)?, &mut receiver, &samples(), &parts)?;
        assert_eq!(runs.len(), usize::from(PARTS));
        for (part, run) in (0..PARTS).zip(&runs) {
            assert_eq!(popped_in(run)?, frames_in(part), "part {part}");
            assert!(run.pops[usize::from(FRAMES)].is_none());
        }
        assert_eq!(receiver.counters().packets.restarts, u64::from(PARTS) - 1);
    }
    Ok(())
}

#[test]
fn held_units_of_an_earlier_part_come_first() -> Result<(), Fail> {
    let mut seed = 9;
    let mut parts: Vec<Part> = (0..PARTS)
        .map(|part| part_of(part, false, steps_of(part, &mut seed, |_| false)))
        .collect();
    let last = &mut parts[usize::from(PARTS) - 1].steps;
    last.push(DatagramStep::Finish);
    pops(last, usize::from(PARTS) * usize::from(FRAMES) + 1);
    let mut receiver = receiver_of(UNTIL_THE_END)?;
    let runs = run_with_restarts(&mut senders_of(false)?, &mut receiver, &samples(), &parts)?;
    let all: Vec<u8> = (0..PARTS).flat_map(frames_in).collect();
    let last = runs.last().ok_or("no run")?;
    assert_eq!(popped_in(last)?, all);
    assert!(last.pops.last().ok_or("no pop")?.is_none());
    Ok(())
}

#[test]
fn lost_datagrams_cost_their_frames_alone() -> Result<(), Fail> {
    let loses = |datagram: usize| datagram % 7 == 3;
    let mut seed = 3;
    let parts: Vec<Part> = (0..PARTS)
        .map(|part| {
            let mut steps = steps_of(part, &mut seed, loses);
            // Some parts end with held packets, which stay for the next part.
            if part % 2 == 1 {
                steps.push(DatagramStep::Finish);
                pops(&mut steps, 2 * usize::from(FRAMES));
            }
            part_of(part, true, steps)
        })
        .collect();
    let wanted: Vec<u8> = (0..PARTS)
        .flat_map(|part| {
            (0..FRAMES)
                .filter(move |i| {
                    let first = 2 * usize::from(*i);
                    !loses(first) && !loses(first + 1)
                })
                .flat_map(move |i| frame_of(part, i))
        })
        .collect();
    let mut receiver = receiver_of(UNTIL_THE_END)?;
    let runs = run_with_restarts(&mut senders_of(true)?, &mut receiver, &samples(), &parts)?;
    let mut popped = Vec::new();
    for run in &runs {
        popped.extend_from_slice(&popped_in(run)?);
    }
    assert_eq!(popped, wanted);
    Ok(())
}

#[test]
fn a_former_sender_of_another_ssrc_is_another_stream() -> Result<(), Fail> {
    let mut senders = [sender_from(7, 100)?, sender_from(8, 200)?];
    let steps = |part: usize| {
        vec![
            DatagramStep::Send(part),
            deliver(0),
            deliver(1),
            deliver(2),
            DatagramStep::Finish,
            DatagramStep::Pop { now: Ticks(0) },
            DatagramStep::Pop { now: Ticks(0) },
        ]
    };
    let parts = [0, 1, 2].map(|part| Part {
        ssrc: (part == 1).then_some(8),
        steps: steps(part),
    });
    let mut receiver = receiver_of(UNTIL_THE_END)?;
    // The third part has no sender.
    let runs = run_with_restarts(&mut senders, &mut receiver, &samples(), &parts)?;
    assert_eq!(runs.len(), 2);
    for (part, run) in runs.iter().enumerate() {
        // The datagram with the index 2 does not exist.
        assert_eq!(run.receipts.len(), 2);
        assert_eq!(popped_in(run)?, frame_of(0, part as u8));
    }
    let former = &runs[0].datagrams[0];
    let answer = receiver.receive(Ticks(0), former);
    assert!(matches!(answer, Ok(Outcome::OtherStream)));
    Ok(())
}
