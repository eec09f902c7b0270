//! The convert call from Rust: reads a sheet in cents or in thousands of dollars, writes it in the other unit.

mod outcome;

use outcome::{status, Outcome};
use std::io::{self, Read, Write};
use std::process::ExitCode;

fn main() -> ExitCode {
    status("convert", answer())
}

fn answer() -> Outcome {
    let mut sheet = Vec::new();
    io::stdin().read_to_end(&mut sheet)?;
    // The converted sheet is as long as the sheet.
    let mut converted = vec![0; sheet.len()];
    tsav::convert(&sheet, &mut converted)?;
    let mut out = io::stdout().lock();
    out.write_all(&converted)?;
    // What was written may still lie in a buffer, and is known to be out only now.
    Ok(out.flush()?)
}
