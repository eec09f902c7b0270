//! Reads an input from standard input and writes what a program is to print of it, by the independent calculation: `answer
//! [PROGRAM]`, tsav-sheet where none is named, or tsav-movement, tsav-check or tsav-quarter.

use reference::*;
use std::error::Error;
use std::io::{self, Read, Write};

fn main() -> Result<(), Box<dyn Error>> {
    let mut input = Vec::new();
    io::stdin().read_to_end(&mut input)?;
    let text = match std::env::args().nth(1).as_deref() {
        None | Some("tsav-sheet") => print_sheet(&input),
        Some("tsav-movement") => print_movements(&input),
        Some("tsav-check") => print_check(&input),
        Some("tsav-quarter") => print_quarter(&input),
        Some(other) => return Err(format!("there is no program {other}").into()),
    };
    Ok(io::stdout().write_all(&text)?)
}
