//! The sheet call from Rust: reads a sheet, writes its report.

mod outcome;

use outcome::{status, Outcome};
use std::io::{self, Read, Write};
use std::process::ExitCode;

fn main() -> ExitCode {
    status("sheet", answer())
}

fn answer() -> Outcome {
    let mut sheet = Vec::new();
    io::stdin().read_to_end(&mut sheet)?;
    let mut report = [0; tsav::LONGEST_REPORT];
    let length = tsav::sheet(&sheet, &mut report)?;
    let mut out = io::stdout().lock();
    out.write_all(&report[..length])?;
    // What was written may still lie in a buffer, and is known to be out only now.
    Ok(out.flush()?)
}
