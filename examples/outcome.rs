//! What the examples in Rust share: numbers read from standard input, and the status. A program gives 0 where it has
//! written an answer, 1 where the call is refused and 2 where anything else fails.

use std::error::Error;
use std::io::{self, Read, Write};
use std::process::ExitCode;

pub type Outcome = Result<(), Box<dyn Error>>;

pub fn status(name: &str, outcome: Outcome) -> ExitCode {
    let Err(error) = outcome else { return ExitCode::SUCCESS };
    // Where standard error can't be written either, the status is all that is left to say.
    let _ = writeln!(io::stderr(), "{name}: {error}");
    match error.downcast_ref::<tsav::Error>() {
        Some(tsav::Error::Refused(_)) => ExitCode::from(1),
        _ => ExitCode::from(2),
    }
}

/// Whole numbers with space between them, to the end of standard input.
#[allow(dead_code)] // a sheet has none
pub fn numbers() -> Result<Vec<u64>, Box<dyn Error>> {
    let mut text = String::new();
    io::stdin().read_to_string(&mut text)?;
    Ok(text.split_whitespace().map(str::parse).collect::<Result<_, _>>()?)
}
