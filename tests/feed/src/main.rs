//! `feed bytes|failing PROGRAM`: runs the program on what stands on standard input. With `bytes` it arrives a byte at a time: no
//! read gives more than one. With `failing` all of it arrives, and then a read fails where the end would be. What the program
//! writes is written where this one writes, and its status is this one's.

use std::error::Error;
use std::io::{self, Read, Write};
use std::os::fd::OwnedFd;
use std::os::unix::net::{UnixDatagram, UnixStream};
use std::process::{Child, Command, ExitCode, Stdio};

fn main() -> Result<ExitCode, Box<dyn Error>> {
    let words: Vec<String> = std::env::args().skip(1).collect();
    let mut input = Vec::new();
    io::stdin().read_to_end(&mut input)?;
    let mut child = match &words[..] {
        [way, program] if way == "bytes" => bytes(program, &input)?,
        [way, program] if way == "failing" => failing(program, &input)?,
        _ => return Err("usage: feed bytes|failing PROGRAM < input".into()),
    };
    Ok(child.wait()?.code().map_or(ExitCode::FAILURE, |code| ExitCode::from(code as u8)))
}

/// A message for each byte, and an empty one, of which a read gives 0 bytes as it does at the end of a file. A program that has
/// ended takes no more.
fn bytes(program: &str, input: &[u8]) -> io::Result<Child> {
    let (ours, theirs) = UnixDatagram::pair()?;
    let child = start(program, theirs.into())?;
    for byte in input {
        if ours.send(&[*byte]).is_err() {
            return Ok(child);
        }
    }
    let _ = ours.send(&[]);
    Ok(child)
}

/// Where nothing is left to be read, a read that doesn't wait fails as long as our end is open, which it is until the program
/// has ended.
fn failing(program: &str, input: &[u8]) -> io::Result<Child> {
    let (mut ours, theirs) = UnixStream::pair()?;
    ours.write_all(input)?;
    theirs.set_nonblocking(true)?;
    let mut child = start(program, theirs.into())?;
    child.wait()?;
    Ok(child)
}

fn start(program: &str, input: OwnedFd) -> io::Result<Child> {
    Command::new(program).stdin(Stdio::from(input)).spawn()
}
