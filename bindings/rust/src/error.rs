//! Why a call gives no figures, in types and in words.

use std::{error, fmt};

/// Why a call gives no figures.
#[derive(Clone, Copy, Debug, PartialEq, Eq)]
pub enum Error {
    Refused(Refusal),
    /// Nothing that is given can lead to this: what was linked isn't the proved library.
    Contract(Breach),
}

/// Why and where a call was refused: numbers 1 to 25, as include/tsav.h lists them, of which no call gives 22, 24 and 25.
#[derive(Clone, Copy, Debug, PartialEq, Eq)]
pub struct Refusal {
    pub number: u8,
    pub place: Place,
}

/// Where a refusal has its place: a line of the sheet or of the movement call's numbers, counted from 1, a position in the call's
/// numbers, counted from 0, or nowhere.
#[derive(Clone, Copy, Debug, PartialEq, Eq)]
pub enum Place {
    Line(usize),
    Position(usize),
    Nowhere,
}

/// What the library gave although include/tsav.h excludes it.
#[derive(Clone, Copy, Debug, PartialEq, Eq)]
pub enum Breach {
    /// A library of another version than [`crate::VERSION`]. Nothing was lent to it.
    Version { found: u64 },
    /// A refusal that the call doesn't have, or not at this place: the number, and the place's two numbers as written.
    Refusal { number: u64, place: [u64; 2] },
    /// A length that no report, listing, movements or summary has, or that isn't the converted sheet's, or that is longer than the lent
    /// room.
    Length { length: u64, room: usize },
}

impl fmt::Display for Error {
    fn fmt(&self, f: &mut fmt::Formatter) -> fmt::Result {
        match self {
            Error::Refused(refusal) => refusal.fmt(f),
            Error::Contract(breach) => write!(f, "the library broke its contract: {breach}"),
        }
    }
}

impl error::Error for Error {}

impl fmt::Display for Refusal {
    fn fmt(&self, f: &mut fmt::Formatter) -> fmt::Result {
        write!(f, "refusal {}", self.number)?;
        match self.place {
            Place::Line(line) => write!(f, " at line {line}"),
            Place::Position(position) => write!(f, " at position {position}"),
            Place::Nowhere => Ok(()),
        }
    }
}

impl fmt::Display for Breach {
    fn fmt(&self, f: &mut fmt::Formatter) -> fmt::Result {
        match self {
            Breach::Version { found } => write!(f, "its calls are of version {found}, not {}", crate::VERSION),
            Breach::Refusal { number, place: [kind, at] } => write!(f, "refusal {number} at a place {kind}, {at}"),
            Breach::Length { length, room } => write!(f, "a length of {length} bytes where {room} were lent"),
        }
    }
}
