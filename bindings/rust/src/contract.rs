//! What the numbers that the library gives mean, by include/tsav.h. The library is proved to give no others; if others
//! come all the same, another library was linked, and they are handed on as they are and not guessed at.

use std::ops::RangeInclusive;

use crate::{
    report_length, Breach, Error, Place, Refusal, BLOCK_NUMBERS, FLUCTUATION_AMOUNTS, GENERAL_NUMBERS, LISTING_LINE,
    LONGEST_LISTING, LONGEST_SUMMARY, MOST_BLOCKS, MOVEMENTS, SHEET_LINE, SUMMARY_LINE, VERSION,
};

/// The kinds of a place.
pub(crate) const NOWHERE: u64 = 0;
pub(crate) const LINE: u64 = 1;
pub(crate) const POSITION: u64 = 2;
/// Of 22, and of 24 and 25, which no call gives.
#[cfg(test)]
pub(crate) const RISK: u64 = 3;
#[cfg(test)]
pub(crate) const SHEET: u64 = 4;

/// Where the block call has level and trend of expenses, the last of the seven pairs.
const EXPENSES_LT: usize = 13;

/// The version that the library gives.
pub(crate) fn version(found: u64) -> Result<(), Error> {
    (found == VERSION).then_some(()).ok_or(Error::Contract(Breach::Version { found }))
}

/// The block call's answer: 0, or a refusal with the place that was written.
pub(crate) fn block(answer: u64, place: [u64; 2]) -> Result<(), Error> {
    let listed = match answer {
        0 => return Ok(()),
        7 => position(place).filter(|&at| at < BLOCK_NUMBERS),
        8 => position(place).filter(|&at| at == EXPENSES_LT),
        // At a level and trend part; the last of them has passed 8, and is 0.
        9 => position(place).filter(|&at| at < EXPENSES_LT && at % 2 == 1),
        _ => None,
    };
    Err(refused(answer, place, listed.map(Place::Position)))
}

/// The shares call's answer: those of the block call, and 23.
pub(crate) fn shares(answer: u64, place: [u64; 2]) -> Result<(), Error> {
    match answer {
        23 => Err(refused(answer, place, nowhere(place))),
        _ => block(answer, place),
    }
}

/// The operational call's answer, on so many volumes.
pub(crate) fn operational(answer: u64, place: [u64; 2], volumes: usize) -> Result<(), Error> {
    let listed = match answer {
        0 => return Ok(()),
        7 => position(place).filter(|&at| at < volumes + GENERAL_NUMBERS).map(Place::Position),
        15 => nowhere(place),
        _ => None,
    };
    Err(refused(answer, place, listed))
}

/// The fluctuation call's answer.
pub(crate) fn fluctuation(answer: u64, place: [u64; 2]) -> Result<(), Error> {
    let listed = match answer {
        0 => return Ok(()),
        7 => position(place).filter(|&at| at < FLUCTUATION_AMOUNTS).map(Place::Position),
        18 => nowhere(place),
        _ => None,
    };
    Err(refused(answer, place, listed))
}

/// The answer of the sheet call and of the check call, on a sheet of so many bytes.
pub(crate) fn sheet(answer: u64, place: [u64; 2], bytes: usize) -> Result<(), Error> {
    let listed = match answer {
        0 => return Ok(()),
        1 | 2 | 12..=14 | 16 | 17 => nowhere(place),
        3..=6 | 8..=11 | 19 => line_of(place, bytes),
        _ => None,
    };
    Err(refused(answer, place, listed))
}

/// The convert call's answer, on a sheet of so many bytes.
pub(crate) fn convert(answer: u64, place: [u64; 2], bytes: usize) -> Result<(), Error> {
    let listed = match answer {
        0 => return Ok(()),
        1 | 2 | 14 => nowhere(place),
        3..=6 | 8..=11 | 19..=21 => line_of(place, bytes),
        _ => None,
    };
    Err(refused(answer, place, listed))
}

/// The movement call's answer: 2, 3 at one of the lines that all hold a number, those of the block call but 7, and 14.
pub(crate) fn movement(answer: u64, place: [u64; 2]) -> Result<(), Error> {
    match answer {
        2 | 14 => Err(refused(answer, place, nowhere(place))),
        3 => {
            let listed = of_kind(LINE, place).filter(|line| (1..=BLOCK_NUMBERS + 1).contains(line));
            Err(refused(answer, place, listed.map(Place::Line)))
        }
        7 => Err(refused(answer, place, None)),
        _ => block(answer, place),
    }
}

/// The quarter call's answer.
pub(crate) fn quarter(answer: u64, place: [u64; 2]) -> Result<(), Error> {
    match answer {
        0 => Ok(()),
        14 => Err(refused(answer, place, nowhere(place))),
        _ => Err(refused(answer, place, None)),
    }
}

/// The length that the sheet call gives where it accepts, with so many bytes lent.
pub(crate) fn length(length: u64, room: usize) -> Result<usize, Error> {
    (0..=MOST_BLOCKS)
        .map(report_length)
        .find(|&report| report as u64 == length && report <= room)
        .ok_or(Error::Contract(Breach::Length { length, room }))
}

/// The length that the convert call gives where it accepts a sheet of so many bytes, with so many lent.
pub(crate) fn converted_length(length: u64, bytes: usize, room: usize) -> Result<usize, Error> {
    let sound = length == bytes as u64 && bytes <= room;
    sound.then_some(bytes).ok_or(Error::Contract(Breach::Length { length, room }))
}

/// The length that the check call gives where it accepts, with so many bytes lent.
pub(crate) fn listing_length(length: u64, room: usize) -> Result<usize, Error> {
    whole_lines(LISTING_LINE, 0..=LONGEST_LISTING, length, room)
}

/// The length that the movement call gives where it accepts, with so many bytes lent.
pub(crate) fn movements_length(length: u64, room: usize) -> Result<usize, Error> {
    whole_lines(MOVEMENTS, MOVEMENTS..=MOVEMENTS, length, room)
}

/// The length that the quarter call gives where it accepts, with so many bytes lent: a last line is always there.
pub(crate) fn summary_length(length: u64, room: usize) -> Result<usize, Error> {
    whole_lines(SUMMARY_LINE, SUMMARY_LINE..=LONGEST_SUMMARY, length, room)
}

/// A length of some whole lines, within the lent bytes.
fn whole_lines(line: usize, lengths: RangeInclusive<usize>, length: u64, room: usize) -> Result<usize, Error> {
    usize::try_from(length)
        .ok()
        .filter(|text| lengths.contains(text) && (text - lengths.start()) % line == 0 && *text <= room)
        .ok_or(Error::Contract(Breach::Length { length, room }))
}

/// A refusal, where the call lists it with a place of this kind.
fn refused(answer: u64, place: [u64; 2], listed: Option<Place>) -> Error {
    match (u8::try_from(answer), listed) {
        (Ok(number), Some(place)) => Error::Refused(Refusal { number, place }),
        _ => Error::Contract(Breach::Refusal { number: answer, place }),
    }
}

fn nowhere(place: [u64; 2]) -> Option<Place> {
    (place == [NOWHERE, 0]).then_some(Place::Nowhere)
}

/// A whole line of a sheet of so many bytes.
fn line_of(place: [u64; 2], bytes: usize) -> Option<Place> {
    of_kind(LINE, place).filter(|line| (1..=bytes / SHEET_LINE).contains(line)).map(Place::Line)
}

fn position(place: [u64; 2]) -> Option<usize> {
    of_kind(POSITION, place)
}

fn of_kind(kind: u64, place: [u64; 2]) -> Option<usize> {
    usize::try_from(place[1]).ok().filter(|_| place[0] == kind)
}

#[cfg(test)]
mod tests {
    use super::*;
    use crate::{LAST_REFUSAL, LONGEST_REPORT, LONGEST_SHEET};

    type Answer = Result<(), Error>;
    type Call = fn(u64, [u64; 2]) -> Answer;

    const VOLUMES: usize = 32;

    /// The answers of the calls, on what is lent in these tests; those of the check call are the sheet call's.
    const CALLS: [(&str, Call); 8] = [
        ("block", block),
        ("shares", shares),
        ("operational", |answer, place| operational(answer, place, VOLUMES)),
        ("fluctuation", fluctuation),
        ("sheet", |answer, place| sheet(answer, place, LONGEST_SHEET)),
        ("convert", |answer, place| convert(answer, place, LONGEST_SHEET)),
        ("movement", movement),
        ("quarter", quarter),
    ];

    fn broken(number: u64, place: [u64; 2]) -> Answer {
        Err(Error::Contract(Breach::Refusal { number, place }))
    }

    fn refused(number: u8, place: Place) -> Answer {
        Err(Error::Refused(Refusal { number, place }))
    }

    #[test]
    fn versions() {
        assert_eq!(version(VERSION), Ok(()));
        for found in [0, VERSION - 1, VERSION + 1, u64::MAX] {
            assert_eq!(version(found), Err(Error::Contract(Breach::Version { found })));
        }
    }

    #[test]
    fn accepted_whatever_the_place() {
        for (name, call) in CALLS {
            assert_eq!(call(0, [u64::MAX; 2]), Ok(()), "{name}");
        }
    }

    /// Of every number with every kind of place, those that the header lists under the call are refusals; none is at a risk or a sheet.
    #[test]
    fn each_call_has_its_refusals() {
        // Of each call: nowhere, at a line, at a position, at a risk, at a sheet.
        let listed: [[&[u64]; 5]; 8] = [
            [&[], &[], &[7, 8, 9], &[], &[]],   // block
            [&[23], &[], &[7, 8, 9], &[], &[]], // shares
            [&[15], &[], &[7], &[], &[]],       // operational
            [&[18], &[], &[7], &[], &[]],       // fluctuation
            [&[1, 2, 12, 13, 14, 16, 17], &[3, 4, 5, 6, 8, 9, 10, 11, 19], &[], &[], &[]],
            [&[1, 2, 14], &[3, 4, 5, 6, 8, 9, 10, 11, 19, 20, 21], &[], &[], &[]],
            [&[2, 14], &[3], &[8, 9], &[], &[]], // movement
            [&[14], &[], &[], &[], &[]],         // quarter
        ];
        for ((name, call), listed) in CALLS.into_iter().zip(listed) {
            for (kind, numbers) in (NOWHERE..).zip(listed) {
                for number in 1..=LAST_REFUSAL as u64 {
                    // The places of each refusal begin below 20.
                    let found = (0..20).any(|at| matches!(call(number, [kind, at]), Err(Error::Refused(_))));
                    assert_eq!(found, numbers.contains(&number), "{name}: {number}, {kind}");
                }
            }
        }
    }

    #[test]
    fn refusals_of_the_contract() {
        assert_eq!(block(7, [POSITION, 16]), refused(7, Place::Position(16)));
        assert_eq!(block(8, [POSITION, 13]), refused(8, Place::Position(13)));
        assert_eq!(block(9, [POSITION, 11]), refused(9, Place::Position(11)));
        assert_eq!(shares(9, [POSITION, 11]), refused(9, Place::Position(11)));
        assert_eq!(shares(23, [NOWHERE, 0]), refused(23, Place::Nowhere));
        assert_eq!(operational(7, [POSITION, 34], VOLUMES), refused(7, Place::Position(34)));
        assert_eq!(operational(15, [NOWHERE, 0], 1), refused(15, Place::Nowhere));
        assert_eq!(fluctuation(7, [POSITION, 1]), refused(7, Place::Position(1)));
        assert_eq!(fluctuation(18, [NOWHERE, 0]), refused(18, Place::Nowhere));
        assert_eq!(sheet(11, [LINE, 629], LONGEST_SHEET), refused(11, Place::Line(629)));
        assert_eq!(sheet(19, [LINE, 2], 2 * SHEET_LINE), refused(19, Place::Line(2)));
        assert_eq!(sheet(16, [NOWHERE, 0], SHEET_LINE), refused(16, Place::Nowhere));
        assert_eq!(sheet(17, [NOWHERE, 0], SHEET_LINE), refused(17, Place::Nowhere));
        assert_eq!(sheet(1, [NOWHERE, 0], LONGEST_SHEET + 1), refused(1, Place::Nowhere));
        assert_eq!(convert(20, [LINE, 1], SHEET_LINE), refused(20, Place::Line(1)));
        assert_eq!(convert(21, [LINE, 629], LONGEST_SHEET), refused(21, Place::Line(629)));
        assert_eq!(convert(14, [NOWHERE, 0], SHEET_LINE), refused(14, Place::Nowhere));
        assert_eq!(movement(2, [NOWHERE, 0]), refused(2, Place::Nowhere));
        assert_eq!(movement(3, [LINE, 18]), refused(3, Place::Line(18)));
        assert_eq!(movement(8, [POSITION, 13]), refused(8, Place::Position(13)));
        assert_eq!(movement(9, [POSITION, 11]), refused(9, Place::Position(11)));
        assert_eq!(quarter(14, [NOWHERE, 0]), refused(14, Place::Nowhere));
    }

    #[test]
    fn numbers_that_no_refusal_has() {
        // 263 is 7 in its lowest byte.
        for number in [22, 24, 25, 26, 255, 256, 263, u64::MAX] {
            for place in [[NOWHERE, 0], [LINE, 1], [POSITION, 0], [RISK, 1], [SHEET, 1]] {
                for (name, call) in CALLS {
                    assert_eq!(call(number, place), broken(number, place), "{name}");
                }
            }
        }
    }

    #[test]
    fn places_that_no_refusal_has() {
        for kind in [RISK, SHEET, 5, 258, u64::MAX] {
            assert_eq!(block(7, [kind, 0]), broken(7, [kind, 0]));
            assert_eq!(shares(23, [kind, 0]), broken(23, [kind, 0]));
            assert_eq!(operational(15, [kind, 0], VOLUMES), broken(15, [kind, 0]));
            assert_eq!(fluctuation(18, [kind, 0]), broken(18, [kind, 0]));
            assert_eq!(sheet(3, [kind, 1], LONGEST_SHEET), broken(3, [kind, 1]));
            assert_eq!(movement(3, [kind, 1]), broken(3, [kind, 1]));
            assert_eq!(quarter(14, [kind, 0]), broken(14, [kind, 0]));
        }
        assert_eq!(sheet(12, [NOWHERE, 1], LONGEST_SHEET), broken(12, [NOWHERE, 1]));
        assert_eq!(block(7, [LINE, 1]), broken(7, [LINE, 1]));
        assert_eq!(shares(23, [NOWHERE, 1]), broken(23, [NOWHERE, 1]));
        assert_eq!(shares(23, [POSITION, 0]), broken(23, [POSITION, 0]));
        assert_eq!(fluctuation(18, [POSITION, 0]), broken(18, [POSITION, 0]));
        assert_eq!(sheet(9, [POSITION, 1], LONGEST_SHEET), broken(9, [POSITION, 1]));
        assert_eq!(sheet(19, [NOWHERE, 0], LONGEST_SHEET), broken(19, [NOWHERE, 0]));
    }

    #[test]
    fn places_outside_what_was_lent() {
        for at in [17, u64::MAX] {
            assert_eq!(block(7, [POSITION, at]), broken(7, [POSITION, at]));
            assert_eq!(shares(7, [POSITION, at]), broken(7, [POSITION, at]));
        }
        for line in [0, 19, u64::MAX] {
            assert_eq!(movement(3, [LINE, line]), broken(3, [LINE, line]));
        }
        assert_eq!(block(8, [POSITION, 12]), broken(8, [POSITION, 12]));
        for at in [0, 12, 13, 15] {
            assert_eq!(block(9, [POSITION, at]), broken(9, [POSITION, at]));
        }
        assert_eq!(operational(7, [POSITION, 35], VOLUMES), broken(7, [POSITION, 35]));
        assert_eq!(fluctuation(7, [POSITION, 2]), broken(7, [POSITION, 2]));
        // Whole lines alone: of 119 bytes there are two.
        for bytes in [2 * SHEET_LINE, 3 * SHEET_LINE - 1] {
            assert_eq!(sheet(3, [LINE, 2], bytes), refused(3, Place::Line(2)));
            for line in [0, 3, u64::MAX] {
                assert_eq!(sheet(3, [LINE, line], bytes), broken(3, [LINE, line]));
                assert_eq!(convert(20, [LINE, line], bytes), broken(20, [LINE, line]));
            }
        }
    }

    #[test]
    fn lengths() {
        for blocks in 0..=MOST_BLOCKS {
            let report = report_length(blocks);
            assert_eq!(length(report as u64, report), Ok(report));
            assert_eq!(length(report as u64, usize::MAX), Ok(report));
        }
        let longest = LONGEST_REPORT as u64;
        let longer = report_length(MOST_BLOCKS + 1) as u64;
        let excluded = [
            (0, LONGEST_REPORT),
            (longest - 1, LONGEST_REPORT),
            (longest, LONGEST_REPORT - 1),
            (longer, usize::MAX),
            (u64::MAX, usize::MAX),
        ];
        for (given, room) in excluded {
            assert_eq!(length(given, room), Err(Error::Contract(Breach::Length { length: given, room })));
        }
    }

    #[test]
    fn listing_lengths() {
        for lines in 0..=176 {
            let listing = LISTING_LINE * lines;
            assert_eq!(listing_length(listing as u64, listing), Ok(listing));
            assert_eq!(listing_length(listing as u64, usize::MAX), Ok(listing));
        }
        let longest = LONGEST_LISTING as u64;
        for (given, room) in [(1, 40), (20, 19), (30, 40), (longest + 20, usize::MAX), (u64::MAX, usize::MAX)] {
            assert_eq!(listing_length(given, room), Err(Error::Contract(Breach::Length { length: given, room })));
        }
    }

    #[test]
    fn movements_and_summary_lengths() {
        assert_eq!(movements_length(MOVEMENTS as u64, MOVEMENTS), Ok(MOVEMENTS));
        assert_eq!(movements_length(MOVEMENTS as u64, usize::MAX), Ok(MOVEMENTS));
        for lines in 1..=68 {
            let summary = SUMMARY_LINE * lines;
            assert_eq!(summary_length(summary as u64, summary), Ok(summary));
        }
        let breach = |given: u64, room: usize| Err(Error::Contract(Breach::Length { length: given, room }));
        for (given, room) in [(0, 203), (202, 203), (203, 202), (406, usize::MAX), (u64::MAX, usize::MAX)] {
            assert_eq!(movements_length(given, room), breach(given, room));
        }
        for (given, room) in [(0, 30), (29, 30), (30, 29), (2070, usize::MAX), (u64::MAX, usize::MAX)] {
            assert_eq!(summary_length(given, room), breach(given, room));
        }
    }

    #[test]
    fn converted_lengths() {
        assert_eq!(converted_length(0, 0, 0), Ok(0));
        assert_eq!(converted_length(80, 80, 80), Ok(80));
        assert_eq!(converted_length(80, 80, usize::MAX), Ok(80));
        for (given, bytes, room) in [(0, 80, 80), (40, 80, 80), (120, 80, 120), (80, 80, 79), (u64::MAX, 80, 80)] {
            let breach = Breach::Length { length: given, room };
            assert_eq!(converted_length(given, bytes, room), Err(Error::Contract(breach)));
        }
    }
}
