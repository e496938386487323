//! Reads a codec, samples and steps from the standard input, runs the steps, and prints the sent packets and the released units
//! (docs/use/PROGRAM.md). The other files are the proved program as plain Rust.

// The proved sources compare with each bound.
#![allow(clippy::manual_range_contains)]

mod fields;
mod line;
mod print;
mod red_line;
mod run;
mod script;

use payload_lines::memory::OrEnd;
use payload_lines::streams::finish;
use run::run_lines;
use std::process::ExitCode;

#[global_allocator]
static ALLOCATOR: OrEnd = OrEnd;

fn main() -> ExitCode {
    let mut input = std::io::stdin().lock();
    let mut output = std::io::stdout().lock();
    let answer = run_lines(&mut input, &mut output);
    ExitCode::from(finish(answer, &mut std::io::stderr()))
}
