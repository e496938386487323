//! Runs with RED: a worked one, and which lost packets come back.

use crate::Fail;
use crate::asserts::{assert_bytes, assert_same};
use crate::library::{
    Ended, buffer_of, bytes_of_units, payloader_of, run_steps, sample, samples_of,
};
use codec_payload::buffer::RtpMeta;
use codec_payload::memory::{AllocError, TryVec};
use codec_payload::payload::MemorySink;
use codec_payload::red::{RedReceiver, RedSender};
use codec_payload::schedule::{RedRun, Run, Step};
use codec_payload::wire::{Codec, ExtensionValues, Frequency, Pt, Ticks, ToPayload};

/// How packets are put in RED: which older ones each repeats, how far apart their RTP times lie, and the most bytes of a
/// payload.
#[derive(Clone, Copy, Debug)]
struct Protection<'a> {
    distances: &'a [u32],
    step: u32,
    budget: usize,
}

/// A sender of blocks of payload type 96 in packets of type 63.
fn sender_of(distances: &[u32]) -> Result<RedSender, Fail> {
    if !RedSender::accepts(distances) {
        return Err("distances that no sender takes".into());
    }
    let (red, primary) = (Pt::new_with_value(63), Pt::new_with_value(96));
    Ok(RedSender::new(red, primary, distances))
}

/// A run of Opus at 48 kHz with RED, the first packet of which is packet 10.
fn run_in_red(
    protection: Protection<'_>,
    samples: &[ToPayload],
    steps: &[Step],
) -> Result<Ended, Fail> {
    let mut payloader = payloader_of(Codec::Opus, Frequency::FORTY_EIGHT_KHZ)?;
    let mut buffer = buffer_of(Codec::Opus)?;
    let mut sender = sender_of(protection.distances)?;
    let receiver = RedReceiver::new(96, protection.step).ok_or("no receiver")?;
    let red = RedRun {
        sender: &mut sender,
        budget: protection.budget,
        receiver: &receiver,
    };
    Ok(run_steps(
        &mut payloader,
        &mut buffer,
        samples,
        steps,
        Some(red),
    )?)
}

const THREE_SAMPLES: [Step; 9] = [
    Step::Send {
        sample: 0,
        mtu: 1_200,
    },
    Step::Send {
        sample: 1,
        mtu: 1_200,
    },
    Step::Send {
        sample: 2,
        mtu: 1_200,
    },
    Step::Push(1),
    Step::Push(2),
    Step::Pop,
    Step::Pop,
    Step::Pop,
    Step::Pop,
];

/// All payloads, one behind another, of packets that have type 63.
fn payloads_in_red(sink: &MemorySink) -> Result<Vec<u8>, Fail> {
    let mut sent = Vec::new();
    for packet in sink.packets() {
        assert_same("payload types", &packet.pt, &Pt::new_with_value(63));
        sent.try_extend(&packet.payload)?;
    }
    Ok(sent)
}

/// When a packet was received, its number, its RTP time and its marker.
type Told = (Ticks, u64, u32, bool);

/// The data of a packet, which has type 96 and no values of header extensions.
fn told_of(meta: &RtpMeta) -> Told {
    let header = &meta.header;
    let got = (header.payload_type, header.ext_vals);
    let wanted = (Pt::new_with_value(96), ExtensionValues::default());
    assert_same("payload types and values", &got, &wanted);
    (
        meta.received,
        meta.seq_no.0,
        header.timestamp,
        header.marker,
    )
}

/// The data of the packets of all units.
fn told_of_units(run: &Run) -> Result<Vec<Told>, AllocError> {
    let mut told = Vec::new();
    for pop in &run.pops {
        if let Some(Ok(unit)) = pop {
            for meta in unit.meta() {
                told.try_push(told_of(meta))?;
            }
        }
    }
    Ok(told)
}

#[test]
fn program_red_run() -> Result<(), Fail> {
    let samples = samples_of(&[&[1, 2], &[3, 4], &[5]])?;
    let protection = Protection {
        distances: &[1],
        step: 960,
        budget: 1_200,
    };
    let ended = run_in_red(protection, &samples, &THREE_SAMPLES)?;
    let sent = payloads_in_red(&ended.sink)?;
    let wanted = [
        0x60u8, 1, 2, 0xe0, 0x0f, 0, 2, 0x60, 1, 2, 3, 4, 0xe0, 0x0f, 0, 2, 0x60, 3, 4, 5,
    ];
    assert_bytes("what is sent", &sent, &wanted);
    let units = bytes_of_units(&ended.run)?;
    assert_bytes("what comes out", &units, &[1, 2, 3, 4, 5, 255]);
    // The samples start talk spurts: their packets have the marker, which a recovered packet does not have.
    let wanted = [
        (Ticks(3), 10u64, 960u32, false),
        (Ticks(3), 11, 1_920, true),
        (Ticks(4), 12, 2_880, true),
    ];
    let told = told_of_units(&ended.run)?;
    assert_same("what is told", &told.as_slice(), &wanted.as_slice());
    Ok(())
}

/// How many bytes each of ten samples has.
const LENGTHS: [usize; 10] = [10, 25, 13, 40, 1, 30, 22, 8, 35, 17];

/// Whether the packet that comes has the lost one in a block: of the distances, shallowest first, those whose payload was
/// sent and whose offset fits 14 bits have one, as long as the budget has room for all so far.
fn has_block(protection: Protection<'_>, comes: usize, lost: usize) -> bool {
    let own = LENGTHS.get(comes).copied().unwrap_or(0);
    let mut room = protection.budget.saturating_sub(own).saturating_sub(1);
    for distance in protection.distances {
        let Some(older) = comes.checked_sub(*distance as usize) else {
            continue;
        };
        if distance.saturating_mul(protection.step) > 16_383 {
            continue;
        }
        let length = LENGTHS.get(older).copied().unwrap_or(0);
        if room < length.saturating_add(4) {
            return false;
        }
        if older == lost {
            return true;
        }
        room = room.saturating_sub(length.saturating_add(4));
    }
    false
}

/// Packets that are lost, one after another.
#[derive(Clone, Copy, Debug)]
struct Burst {
    first: usize,
    count: usize,
}

impl Burst {
    fn spares(self, place: usize) -> bool {
        place < self.first || place >= self.first.saturating_add(self.count)
    }
}

/// Whether the sample at this place is released: its packet arrives, or a packet that has it in a block.
fn comes_out(protection: Protection<'_>, burst: Burst, place: usize) -> bool {
    for comes in 0..LENGTHS.len() {
        if burst.spares(comes) && (comes == place || has_block(protection, comes, place)) {
            return true;
        }
    }
    false
}

/// The places of the samples that are released, of ten.
fn wanted_units(protection: Protection<'_>, burst: Burst) -> Result<Vec<u8>, AllocError> {
    let mut units = Vec::new();
    for place in 0..LENGTHS.len() {
        if comes_out(protection, burst, place) {
            units.try_push(place as u8)?;
        }
    }
    Ok(units)
}

/// Ten samples, each of which has its place in each byte.
fn ten_samples(step: u32) -> Result<Vec<ToPayload>, Fail> {
    let mut samples = Vec::new();
    let mut time = 0u64;
    for (place, length) in LENGTHS.iter().enumerate() {
        time = time.wrapping_add(u64::from(step));
        let bytes = vec![place as u8; *length];
        samples.try_push(sample(time, &bytes)?)?;
    }
    Ok(samples)
}

/// Sends all samples, pushes the packets that come, and pops.
fn steps_of(mtu: usize, burst: Burst) -> Result<Vec<Step>, AllocError> {
    let mut steps = Vec::new();
    for sample in 0..LENGTHS.len() {
        steps.try_push(Step::Send { sample, mtu })?;
    }
    for place in 0..LENGTHS.len() {
        if burst.spares(place) {
            steps.try_push(Step::Push(place))?;
        }
    }
    for _ in 0..LENGTHS.len() {
        steps.try_push(Step::Pop)?;
    }
    Ok(steps)
}

/// The places of the released samples, and 255 for one that is not whole.
fn places_of(run: &Run) -> Result<Vec<u8>, AllocError> {
    let mut places = Vec::new();
    for pop in &run.pops {
        if let Some(Ok(unit)) = pop {
            places.try_push(place_of(&unit.bytes))?;
        }
    }
    Ok(places)
}

fn place_of(unit: &[u8]) -> u8 {
    let place = unit.first().copied().unwrap_or(255);
    let whole = LENGTHS.get(place as usize) == Some(&unit.len());
    if whole { place } else { 255 }
}

/// The released units.
fn units_of(protection: Protection<'_>, burst: Burst) -> Result<Vec<u8>, Fail> {
    let samples = ten_samples(protection.step)?;
    let steps = steps_of(protection.budget.saturating_sub(1), burst)?;
    let ended = run_in_red(protection, &samples, &steps)?;
    Ok(places_of(&ended.run)?)
}

/// A burst is made up for exactly where a packet that came has a block.
fn assert_made_up(protection: Protection<'_>, burst: Burst) -> Result<(), Fail> {
    let units = units_of(protection, burst)?;
    let wanted = wanted_units(protection, burst)?;
    assert_eq!(units, wanted, "{protection:?}, {burst:?}");
    Ok(())
}

/// Every single loss, and every burst of two to four.
fn assert_recovered(distances: &[u32]) -> Result<(), Fail> {
    for step in [160u32, 960, 2_048] {
        for budget in [1_200usize, 60, 45] {
            let protection = Protection {
                distances,
                step,
                budget,
            };
            for count in 1..5usize {
                for first in 0..LENGTHS.len() {
                    assert_made_up(protection, Burst { first, count })?;
                }
            }
        }
    }
    Ok(())
}

#[test]
fn recovered_at_distances() -> Result<(), Fail> {
    for distances in [[1].as_slice(), &[1, 2], &[1, 3], &[2, 5, 8]] {
        assert_recovered(distances)?;
    }
    Ok(())
}
