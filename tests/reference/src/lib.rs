//! The calculator of document 01, with requests #101, #102 and #104 to #114 of document 02, in plain Rust with u128: no
//! dependency, nothing clever, and no code shared with the calculator itself. It is a test oracle: what it answers is
//! compared with what the calculator answers.
//!
//! Comments in quotes name a section of document 01; a number as #101 is a request of document 02.

// Indexes are written as the papers write them.
#![allow(clippy::needless_range_loop)]

mod big;
mod block;
mod check;
mod convert;
mod demand3;
mod example;
mod fluctuation;
pub mod generate;
mod mortality;
mod movement;
mod operational;
mod quarter;
mod shares;
mod sheet;

pub use block::block_call;
pub use check::{check_call, judge_check, print_check, LISTING_LINE_BYTES, LONGEST_LISTING};
pub use convert::{convert_call, convert_cases, ConvertCase, THOUSAND_DOLLARS};
pub use demand3::{demand3, judge};
pub use example::{
    example, EXAMPLE_FIGURES, EXAMPLE_MOVEMENT, EXAMPLE_QUARTER, EXAMPLE_SHARES, IN_THOUSANDS, UNMET, WHOLE_RUN,
    WHOLE_RUN_REPORT,
};
pub use fluctuation::{fluctuation_call, fluctuation_cases, judge_fluctuation, FluctuationCase, FLUCTUATION_ROWS};
pub use mortality::{aggregate, mortality_credit};
pub use movement::{judge_movements, movement_call, movement_lines, print_movements, Moved, MOVEMENT_INPUT_BYTES};
pub use operational::operational_call;
pub use quarter::{
    judge_quarter, print_quarter, quarter_call, quarter_refusal, Judged, CLOSING_LINE, MOST_SHEETS, QUARTER_LINE_BYTES,
};
pub use shares::{judge_shares, shares_call, PARTS};
pub use sheet::{all_lines, print_sheet, report_length, report_line, sheet_call, sheet_line};

/// "What the calculator holds": all amounts are whole cents, 0 to 99,999,999,999,999.
pub const LARGEST_AMOUNT: u64 = 99_999_999_999_999;

/// Blocks are numbered 1 to 16, and by #102 to 32: 17 and above are participating.
pub const NON_PARTICIPATING: usize = 16;
pub const MOST_BLOCKS: usize = 32;

/// #102: adjustable products, each with a credit.
pub const ADJUSTABLE_PRODUCTS: usize = 16;

/// Territories with volumes.
pub const MOST_TERRITORIES: usize = 16;

/// "A block": the risks. The last is expenses, whose LT is 0.
pub const RISKS: usize = 7;
pub const EXPENSES: u64 = RISKS as u64;

/// "A block": seven pairs IR, LT, then PC, credit and market.
pub const BLOCK_NUMBERS: usize = 2 * RISKS + 3;

/// "A block": I, D, U, LT and K.
pub const FIGURES: usize = 5;

/// #109: I and D are worked out in hundredths of the half cent.
pub const FINENESS: u64 = 100;

/// #107: what the block call gives, "after K" the steps for I, "then those for D".
pub const BLOCK_VALUES: usize = FIGURES + 2;

/// "Operational risk": the eight volume classes of a territory, and the numbers of their pairs current, prior.
pub const VOLUME_CLASSES: usize = 8;
pub const TERRITORY_NUMBERS: usize = 2 * VOLUME_CLASSES;

/// "Operational risk": the volumes of all territories.
pub const MOST_VOLUMES: usize = MOST_TERRITORIES * TERRITORY_NUMBERS;

/// "Operational risk": gross components, guarantee requirement, ceded premiums.
pub const GENERAL_NUMBERS: usize = 3;

/// The classes of GEN: those three, the scalar and the credits.
pub const GENERAL_CLASSES: usize = 5;
pub const SCALAR: u64 = 4;
pub const CREDITS: u64 = 5;

/// "The buffer": the scalar g, in ten-thousandths, is 1 to 20,000.
pub const LARGEST_SCALAR: u64 = 20_000;

/// "The sheet and the report": the bytes of a sheet's line and of a report's line.
pub const LINE_BYTES: usize = 40;
pub const REPORT_LINE_BYTES: usize = 29;

/// "What is turned away", row 1, as #106 has it: 629 lines, one for every code, block and class there is.
pub const MOST_LINES: usize = 629;
pub const LONGEST_SHEET: usize = MOST_LINES * LINE_BYTES;

/// "The sheet and the report": room for all blocks.
pub const LONGEST_REPORT: usize = report_length(MOST_BLOCKS);

/// "calls that write into lent room, a refusal writes nothing; accepted, they give the length written": 14, last, where the room is shorter
/// than the text.
fn into_room(text: &[u8], room: &mut [u8]) -> Result<usize, Refusal> {
    room.get_mut(..text.len()).ok_or(Refusal::nowhere(14))?.copy_from_slice(text);
    Ok(text.len())
}

/// "What is turned away": a refusal is its number with a line (from 1), a position (from 0) or no place; by #111 also with its
/// risk, by #114 with the sheet (both from 1).
#[derive(Clone, Copy, Debug, PartialEq, Eq)]
pub struct Refusal {
    pub number: u8,
    pub place: Place,
}

#[derive(Clone, Copy, Debug, PartialEq, Eq)]
pub enum Place {
    Line(usize),
    Position(usize),
    Risk(usize),
    Sheet(usize),
    Nowhere,
}

impl Refusal {
    pub fn at_line(number: u8, line: usize) -> Refusal {
        Refusal { number, place: Place::Line(line) }
    }

    pub fn at_position(number: u8, position: usize) -> Refusal {
        Refusal { number, place: Place::Position(position) }
    }

    pub fn at_risk(number: u8, risk: usize) -> Refusal {
        Refusal { number, place: Place::Risk(risk) }
    }

    pub fn at_sheet(number: u8, sheet: usize) -> Refusal {
        Refusal { number, place: Place::Sheet(sheet) }
    }

    pub fn nowhere(number: u8) -> Refusal {
        Refusal { number, place: Place::Nowhere }
    }

    /// "one line, REF, the refusal's number in 5–6, 0 in 8–9, the place in 11–28".
    pub fn line(self) -> Vec<u8> {
        report_line("REF", self.number.into(), 0, self.printed_place())
    }

    /// "printed, no place is 0".
    pub fn printed_place(self) -> u64 {
        match self.place {
            Place::Line(at) | Place::Position(at) | Place::Risk(at) | Place::Sheet(at) => at as u64,
            Place::Nowhere => 0,
        }
    }
}
