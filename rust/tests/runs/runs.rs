//! Whole runs: samples are sent, some of their packets pushed, and units popped.

use crate::Fail;

mod plain;
mod red;
mod rows;
mod run;

use crate::library::{Ended, buffer_of, payloader_of, run_steps, samples_of};
use codec_payload::payload::Payloader;
use codec_payload::schedule::Step;
use codec_payload::wire::{Codec, Frequency};

/// A run of samples 960 ticks apart with a buffer of a codec that holds nothing back.
pub fn run_frames(
    payloader: &mut Payloader,
    codec: Codec,
    frames: &[&[u8]],
    steps: &[Step],
) -> Result<Ended, Fail> {
    let mut buffer = buffer_of(codec)?;
    let samples = samples_of(frames)?;
    Ok(run_steps(payloader, &mut buffer, &samples, steps, None)?)
}

/// The same with one sample, of a codec by its default.
pub fn run_one(codec: Codec, bytes: &[u8], steps: &[Step]) -> Result<Ended, Fail> {
    let mut payloader = payloader_of(codec, Frequency::EIGHT_KHZ)?;
    run_frames(&mut payloader, codec, &[bytes], steps)
}
