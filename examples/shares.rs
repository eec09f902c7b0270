//! The shares call from Rust: reads the 17 numbers of a block, writes the share of each part.

mod outcome;

use outcome::{numbers, status, Outcome};
use std::io::{self, Write};
use std::process::ExitCode;

const NAMES: [&str; tsav::PARTS] = [
    "mortality",
    "longevity",
    "incidence",
    "termination",
    "lapse-sensitive",
    "lapse-supported",
    "expenses",
    "property-and-casualty",
    "credit",
    "market",
];

fn main() -> ExitCode {
    status("shares", answer())
}

fn answer() -> Outcome {
    let numbers = numbers()?.try_into().map_err(|_| "17 whole numbers are to be read")?;
    let shares = tsav::shares(&numbers)?;
    let mut out = io::stdout().lock();
    for (name, share) in NAMES.iter().zip(shares) {
        writeln!(out, "{name} {share}")?;
    }
    // What was written may still lie in a buffer, and is known to be out only now.
    Ok(out.flush()?)
}
