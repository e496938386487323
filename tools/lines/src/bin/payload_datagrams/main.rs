//! Reads settings and datagrams from the standard input, receives them, sends samples, and prints the result of each
//! (docs/use/PROGRAM.md, "Datagrams").

mod codecs;
mod digits;
mod line;
mod parts;
mod player;
mod print;
mod setup;

use line::Line;
use payload_lines::memory::OrEnd;
use payload_lines::streams::{ProgramFault, finish, read_below, text_of};
use player::Player;
use std::io::{Read, Write};
use std::process::ExitCode;

#[global_allocator]
static ALLOCATOR: OrEnd = OrEnd;

/// The greatest length of the input, in bytes.
const INPUT_LIMIT: usize = 64 << 20;

fn main() -> ExitCode {
    let mut input = std::io::stdin().lock();
    let mut output = std::io::stdout().lock();
    let answer = run_lines(&mut input, &mut output);
    ExitCode::from(finish(answer, &mut std::io::stderr()))
}

/// Reads all input, does what the lines say, and writes what they print. Nothing is written before all output is complete.
fn run_lines(input: &mut impl Read, output: &mut impl Write) -> Result<(), ProgramFault> {
    let bytes = read_below(input, INPUT_LIMIT + 1)?;
    let mut player = Player::default();
    for (index, line) in bytes.split_inclusive(|byte| *byte == b'\n').enumerate() {
        text_of(line)
            .and_then(Line::parse)
            .and_then(|line| player.play(line))
            .ok_or(ProgramFault::BadLine(index + 1))?;
    }
    output.write_all(player.text.as_bytes())?;
    output.flush()?;
    Ok(())
}
