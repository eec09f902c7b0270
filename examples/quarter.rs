//! The quarter call from Rust: reads sheets, each closed by a line of 39 minus signs, writes the line of each and their summary. Where it
//! ends in REF 24 or 25 instead, the input as a whole is turned away: that is told by the status, behind the lines.

mod outcome;

use outcome::status;
use std::error::Error;
use std::io::{self, Read, Write};
use std::process::ExitCode;

fn main() -> ExitCode {
    match answer() {
        Ok(false) => ExitCode::from(1),
        outcome => status("quarter", outcome.map(|_| ())),
    }
}

/// Whether a summary follows the lines of the sheets.
fn answer() -> Result<bool, Box<dyn Error>> {
    let mut sheets = Vec::new();
    io::stdin().read_to_end(&mut sheets)?;
    let mut summary = [0; tsav::LONGEST_SUMMARY];
    let length = tsav::quarter(&sheets, &mut summary)?;
    let mut out = io::stdout().lock();
    out.write_all(&summary[..length])?;
    // What was written may still lie in a buffer, and is known to be out only now.
    out.flush()?;
    Ok(summary[length - tsav::SUMMARY_LINE..].starts_with(b"SUM"))
}
