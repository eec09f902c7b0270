//! The fluctuation call from Rust: reads a row, a requirement and a face amount, writes the requirement after its factor.

mod outcome;

use outcome::{numbers, status, Outcome};
use std::io::{self, Write};
use std::process::ExitCode;

fn main() -> ExitCode {
    status("fluctuation", answer())
}

fn answer() -> Outcome {
    let [row, requirement, face] =
        numbers()?.try_into().map_err(|_| "three whole numbers are to be read: row, requirement, face amount")?;
    let result = tsav::fluctuation(row, requirement, face)?;
    let mut out = io::stdout().lock();
    writeln!(out, "result {result}")?;
    // What was written may still lie in a buffer, and is known to be out only now.
    Ok(out.flush()?)
}
