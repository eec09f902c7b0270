//! The check call from Rust: reads a sheet, writes the listing of its lines that need another one.

mod outcome;

use outcome::{status, Outcome};
use std::io::{self, Read, Write};
use std::process::ExitCode;

fn main() -> ExitCode {
    status("check", answer())
}

fn answer() -> Outcome {
    let mut sheet = Vec::new();
    io::stdin().read_to_end(&mut sheet)?;
    let mut listing = [0; tsav::LONGEST_LISTING];
    let length = tsav::check(&sheet, &mut listing)?;
    let mut out = io::stdout().lock();
    out.write_all(&listing[..length])?;
    // What was written may still lie in a buffer, and is known to be out only now.
    Ok(out.flush()?)
}
