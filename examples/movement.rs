//! The movement call from Rust: reads a block's numbers and t, writes by how much K moves as each risk is raised by t.

mod outcome;

use outcome::{status, Outcome};
use std::io::{self, Read, Write};
use std::process::ExitCode;

fn main() -> ExitCode {
    status("movement", answer())
}

fn answer() -> Outcome {
    let mut numbers = Vec::new();
    io::stdin().read_to_end(&mut numbers)?;
    let mut movements = [0; tsav::MOVEMENTS];
    let length = tsav::movement(&numbers, &mut movements)?;
    let mut out = io::stdout().lock();
    out.write_all(&movements[..length])?;
    // What was written may still lie in a buffer, and is known to be out only now.
    Ok(out.flush()?)
}
