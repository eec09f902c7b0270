//! The operational call from Rust: reads the three general figures and then the volumes, writes RO.

mod outcome;

use outcome::{numbers, status, Outcome};
use std::io::{self, Write};
use std::process::ExitCode;

fn main() -> ExitCode {
    status("operational", answer())
}

fn answer() -> Outcome {
    let numbers = numbers()?;
    let (general, volumes) =
        numbers.split_first_chunk().ok_or("three whole numbers and then the volumes are to be read")?;
    let ro = tsav::operational(volumes, general)?;
    let mut out = io::stdout().lock();
    writeln!(out, "RO {ro}")?;
    // What was written may still lie in a buffer, and is known to be out only now.
    Ok(out.flush()?)
}
