//! The TSAV aggregation calculator (chapters 8 and 11 of the 2023 guideline): a safe wrapper of the calls of the
//! proved static library. What each call takes, gives and refuses is written in include/tsav.h.
//!
//! All amounts are whole cents, 0 to [`LARGEST_AMOUNT`], but for a sheet in thousands of dollars, which [`convert`] takes. Any
//! numbers and bytes may be given: what is out of range is refused, and no call panics or allocates. Each call compares the
//! library's version with [`VERSION`] before it lends anything. A thread that calls has the stack that include/tsav.h asks for,
//! beside what its own frames take.

mod contract;
mod error;

pub use error::{Breach, Error, Place, Refusal};

/// Of this release; the calls have a version of their own.
pub const RELEASE: &str = env!("CARGO_PKG_VERSION");

/// Of the library's calls, as this wrapper knows them.
pub const VERSION: u64 = 3;

pub const LARGEST_AMOUNT: u64 = 99_999_999_999_999;

/// The numbers of the block call: seven pairs and three more.
pub const BLOCK_NUMBERS: usize = 17;

/// What the block call gives: I, D, U, LT and K, and the steps of the roots of I and of D.
const BLOCK_FIGURES: usize = 7;

/// The parts that the shares call divides K among: the seven risks, property and casualty, credit, market.
pub const PARTS: usize = 10;

/// The operational call's volumes of a territory, and its volumes at most.
pub const TERRITORY_NUMBERS: usize = 16;
pub const MOST_VOLUMES: usize = 16 * TERRITORY_NUMBERS;

/// The general figures of the operational call.
pub const GENERAL_NUMBERS: usize = 3;

/// The amounts of the fluctuation call.
const FLUCTUATION_AMOUNTS: usize = 2;

/// The blocks of a sheet, of which those from 17 on are participating.
pub const MOST_BLOCKS: usize = 32;

/// The bytes of a sheet's line and of a report's, the line feed among them.
pub const SHEET_LINE: usize = 40;
pub const REPORT_LINE: usize = 29;

/// 629 lines.
pub const LONGEST_SHEET: usize = 629 * SHEET_LINE;

/// With this room a sheet is never refused by 14.
pub const LONGEST_REPORT: usize = report_length(MOST_BLOCKS);

/// The bytes of a listing's line, and the listing of 176 lines: with this room a check is never refused by 14.
pub const LISTING_LINE: usize = 20;
pub const LONGEST_LISTING: usize = 176 * LISTING_LINE;

/// The bytes of the movement call's numbers, 18 lines of 15, and those of its movements, a report line for each of seven risks: with this
/// room it is never refused by 14.
pub const MOVEMENT_NUMBERS: usize = 18 * 15;
pub const MOVEMENTS: usize = 7 * REPORT_LINE;

/// The sheets of a quarter, at most; the bytes of a summary's line; and the summary of so many sheets: with this room the quarter call
/// refuses nothing.
pub const MOST_SHEETS: usize = 60;
pub const SUMMARY_LINE: usize = 30;
pub const LONGEST_SUMMARY: usize = (MOST_SHEETS + 8) * SUMMARY_LINE;

/// The lines that a report has for a block: I, D, U, LT and K.
const BLOCK_LINES: usize = 5;

/// The bytes of a report: five lines for each block, and three of totals.
pub const fn report_length(blocks: usize) -> usize {
    REPORT_LINE * (BLOCK_LINES * blocks + 3)
}

/// The refusals are numbered from 1 to this. No call gives 22, which stands in a line of the movements, or 24 and 25, which end a summary.
pub const LAST_REFUSAL: usize = 25;

/// A block's figures: I and D in half cents, U, LT and K in cents; and the steps that the roots of I and of D take, at most
/// 58 each. The roots are of hundredths of the half cent, and so is the D that K is taken at.
#[derive(Clone, Copy, Debug, PartialEq, Eq)]
pub struct Figures {
    pub i: u64,
    pub d: u64,
    pub u: u64,
    pub lt: u64,
    pub k: u64,
    pub steps_i: u64,
    pub steps_d: u64,
}

/// The block call: seven pairs of a gross component and its level and trend part, then property and casualty, credit,
/// market.
pub fn block(numbers: &[u64; BLOCK_NUMBERS]) -> Result<Figures, Error> {
    compare_versions()?;
    let (mut figures, mut place) = ([0; BLOCK_FIGURES], [0; 2]);
    // SAFETY: each reference is to as many numbers as the call names.
    let answer = unsafe { library::tsav_block(numbers, &mut figures, &mut place) };
    contract::block(answer, place)?;
    let [i, d, u, lt, k, steps_i, steps_d] = figures;
    Ok(Figures { i, d, u, lt, k, steps_i, steps_d })
}

/// The shares call, of the block call's numbers: K divided among the seven risks, property and casualty, credit and market, by
/// what each adds to the K of the others. The shares, in cents, total K.
pub fn shares(numbers: &[u64; BLOCK_NUMBERS]) -> Result<[u64; PARTS], Error> {
    compare_versions()?;
    let (mut shares, mut place) = ([0; PARTS], [0; 2]);
    // SAFETY: each reference is to as many numbers as the call names.
    let answer = unsafe { library::tsav_shares(numbers, &mut shares, &mut place) };
    contract::shares(answer, place)?;
    Ok(shares)
}

/// The operational call: 16 numbers for each territory, eight pairs of current and prior volume; then gross components,
/// guarantee requirement, ceded premiums. It gives RO.
pub fn operational(volumes: &[u64], general: &[u64; GENERAL_NUMBERS]) -> Result<u64, Error> {
    compare_versions()?;
    let (mut figure, mut place) = ([0; 1], [0; 2]);
    // SAFETY: the pointer and the length are of one slice, each reference is to as many numbers as the call names.
    let answer =
        unsafe { library::tsav_operational(volumes.as_ptr(), volumes.len(), general, &mut figure, &mut place) };
    contract::operational(answer, place, volumes.len())?;
    Ok(figure[0])
}

/// The fluctuation call: a row of the factors of section 11.1.2, 1 to 7 as include/tsav.h lists them, a requirement and a
/// face amount, which is critical illness's base. It gives the requirement times its factor, rounded up to the cent.
pub fn fluctuation(row: u64, requirement: u64, face: u64) -> Result<u64, Error> {
    compare_versions()?;
    let (mut figure, mut place) = ([0; 1], [0; 2]);
    // SAFETY: each reference is to as many numbers as the call names.
    let answer = unsafe { library::tsav_fluctuation(row, requirement, face, &mut figure, &mut place) };
    contract::fluctuation(answer, place)?;
    Ok(figure[0])
}

/// The sheet call: it gives the report's length, and writes so many bytes of `report`. The bytes behind them, and all of
/// them where the sheet is refused, are left as they were.
pub fn sheet(sheet: &[u8], report: &mut [u8]) -> Result<usize, Error> {
    compare_versions()?;
    let (mut written, mut place) = ([0; 1], [0; 2]);
    // SAFETY: each pointer and the length after it are of one slice, each reference is to as many numbers as the call
    // names, and the borrows keep the report apart from the sheet.
    let answer = unsafe {
        library::tsav_sheet(sheet.as_ptr(), sheet.len(), report.as_mut_ptr(), report.len(), &mut written, &mut place)
    };
    contract::sheet(answer, place, sheet.len())?;
    contract::length(written[0], report.len())
}

/// The convert call: a sheet in cents becomes one in thousands of dollars, with its codes in small letters, or the other way
/// round, as the letters of line 1 tell. It gives the length written, which is the sheet's. The bytes behind it, and all of
/// them where the sheet is refused, are left as they were.
pub fn convert(sheet: &[u8], converted: &mut [u8]) -> Result<usize, Error> {
    compare_versions()?;
    let (mut written, mut place) = ([0; 1], [0; 2]);
    let (lent, room) = (converted.as_mut_ptr(), converted.len());
    // SAFETY: as in `sheet`.
    let answer = unsafe { library::tsav_convert(sheet.as_ptr(), sheet.len(), lent, room, &mut written, &mut place) };
    contract::convert(answer, place, sheet.len())?;
    contract::converted_length(written[0], sheet.len(), room)
}

/// The check call: it lists the lines of an accepted sheet that need another one, which is absent or has first amount 0, and gives
/// the listing's length. The bytes behind it, and all of them where the sheet is refused, are left as they were.
pub fn check(sheet: &[u8], listing: &mut [u8]) -> Result<usize, Error> {
    compare_versions()?;
    let (mut written, mut place) = ([0; 1], [0; 2]);
    let (lent, room) = (listing.as_mut_ptr(), listing.len());
    // SAFETY: as in `sheet`.
    let answer = unsafe { library::tsav_check(sheet.as_ptr(), sheet.len(), lent, room, &mut written, &mut place) };
    contract::sheet(answer, place, sheet.len())?;
    contract::listing_length(written[0], room)
}

/// The movement call, of 18 lines of an amount in 14 columns, the block call's numbers and then t: how far the reported K moves as each
/// risk's component is raised by t, a line for each risk, or REF 22 in its place. It gives their length. The bytes behind it, and all
/// of them where the numbers are refused, are left as they were.
pub fn movement(numbers: &[u8], movements: &mut [u8]) -> Result<usize, Error> {
    compare_versions()?;
    let (mut written, mut place) = ([0; 1], [0; 2]);
    let (lent, room) = (movements.as_mut_ptr(), movements.len());
    // SAFETY: as in `sheet`.
    let answer =
        unsafe { library::tsav_movement(numbers.as_ptr(), numbers.len(), lent, room, &mut written, &mut place) };
    contract::movement(answer, place)?;
    contract::movements_length(written[0], room)
}

/// The quarter call: of sheets one after the other, each closed by a line of 39 minus signs, the line of each and what they come to
/// together; or a last line REF 24 or 25, with which the call is accepted all the same. It gives the summary's length. The bytes behind
/// it, and all of them where the room is too short, are left as they were.
pub fn quarter(sheets: &[u8], summary: &mut [u8]) -> Result<usize, Error> {
    compare_versions()?;
    let (mut written, mut place) = ([0; 1], [0; 2]);
    let (lent, room) = (summary.as_mut_ptr(), summary.len());
    // SAFETY: as in `sheet`.
    let answer = unsafe { library::tsav_quarter(sheets.as_ptr(), sheets.len(), lent, room, &mut written, &mut place) };
    contract::quarter(answer, place)?;
    contract::summary_length(written[0], room)
}

/// Another version may write more than is lent here.
fn compare_versions() -> Result<(), Error> {
    // SAFETY: nothing is lent.
    contract::version(unsafe { library::tsav_version() })
}

/// include/tsav.h.
mod library {
    use crate::{BLOCK_FIGURES, BLOCK_NUMBERS, GENERAL_NUMBERS, PARTS};

    extern "C" {
        pub fn tsav_version() -> u64;
        pub fn tsav_block(
            numbers: &[u64; BLOCK_NUMBERS],
            figures: &mut [u64; BLOCK_FIGURES],
            place: &mut [u64; 2],
        ) -> u64;
        pub fn tsav_shares(numbers: &[u64; BLOCK_NUMBERS], shares: &mut [u64; PARTS], place: &mut [u64; 2]) -> u64;
        pub fn tsav_operational(
            volumes: *const u64,
            count: usize,
            general: &[u64; GENERAL_NUMBERS],
            figure: &mut [u64; 1],
            place: &mut [u64; 2],
        ) -> u64;
        pub fn tsav_fluctuation(
            row: u64,
            requirement: u64,
            face: u64,
            figure: &mut [u64; 1],
            place: &mut [u64; 2],
        ) -> u64;
        pub fn tsav_sheet(
            sheet: *const u8,
            bytes: usize,
            report: *mut u8,
            room: usize,
            written: &mut [u64; 1],
            place: &mut [u64; 2],
        ) -> u64;
        pub fn tsav_convert(
            sheet: *const u8,
            bytes: usize,
            converted: *mut u8,
            room: usize,
            written: &mut [u64; 1],
            place: &mut [u64; 2],
        ) -> u64;
        pub fn tsav_check(
            sheet: *const u8,
            bytes: usize,
            listing: *mut u8,
            room: usize,
            written: &mut [u64; 1],
            place: &mut [u64; 2],
        ) -> u64;
        pub fn tsav_movement(
            numbers: *const u8,
            bytes: usize,
            movements: *mut u8,
            room: usize,
            written: &mut [u64; 1],
            place: &mut [u64; 2],
        ) -> u64;
        pub fn tsav_quarter(
            sheets: *const u8,
            bytes: usize,
            summary: *mut u8,
            room: usize,
            written: &mut [u64; 1],
            place: &mut [u64; 2],
        ) -> u64;
    }
}

#[cfg(all(test, feature = "papers"))]
mod tests;
