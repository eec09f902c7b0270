//! The block call from Rust: reads 17 numbers, writes the block's figures and the steps of its two roots.

mod outcome;

use outcome::{numbers, status, Outcome};
use std::io::{self, Write};
use std::process::ExitCode;

fn main() -> ExitCode {
    status("block", answer())
}

fn answer() -> Outcome {
    let numbers = numbers()?.try_into().map_err(|_| "17 whole numbers are to be read")?;
    let tsav::Figures { i, d, u, lt, k, steps_i, steps_d } = tsav::block(&numbers)?;
    let mut out = io::stdout().lock();
    write!(out, "I {i}\nD {d}\nU {u}\nLT {lt}\nK {k}\nsteps-I {steps_i}\nsteps-D {steps_d}\n")?;
    // What was written may still lie in a buffer, and is known to be out only now.
    Ok(out.flush()?)
}
