//! Document 02, #104: the fluctuation factors of section 11.1.2.

use crate::big::Big;
use crate::{Refusal, LARGEST_AMOUNT};

/// What the root is taken of.
#[derive(Clone, Copy, Debug, PartialEq, Eq)]
pub(crate) enum Base {
    Requirement,
    Face,
}

/// A row: "the first number plus the second divided by the square root of the base in dollars", above the threshold.
pub(crate) struct Row {
    /// In hundredths.
    first: u64,
    second: u64,
    /// "Thresholds are dollars."
    threshold: u64,
    pub base: Base,
}

/// "Seven rows, numbered as listed", from 1.
const ROWS: [Row; FLUCTUATION_ROWS] = [
    // disability level
    Row { first: 90, second: 648, threshold: 42_000_000, base: Base::Requirement },
    // long-term care level
    Row { first: 50, second: 4_330, threshold: 75_000_000, base: Base::Requirement },
    // disability volatility
    Row { first: 70, second: 734, threshold: 6_000_000, base: Base::Requirement },
    // long-term care volatility
    Row { first: 30, second: 1_212, threshold: 3_000_000, base: Base::Requirement },
    // travel and credit
    Row { first: 20, second: 1_788, threshold: 5_000_000, base: Base::Requirement },
    // medical and dental
    Row { first: 70, second: 519, threshold: 3_000_000, base: Base::Requirement },
    // critical illness
    Row { first: 15, second: 14_722, threshold: 300_000_000, base: Base::Face },
];

/// The rows are numbered 1 to this.
pub const FLUCTUATION_ROWS: usize = 7;

/// The row of this number, if there is one.
pub(crate) fn row_of(number: u64) -> Option<&'static Row> {
    usize::try_from(number).ok()?.checked_sub(1).and_then(|at| ROWS.get(at))
}

impl Row {
    /// In cents.
    pub fn threshold_in_cents(&self) -> u64 {
        100 * self.threshold
    }

    /// "The base is the requirement B itself, for critical illness the face amount", in cents.
    fn base_of(&self, b: u64, face: u64) -> u64 {
        match self.base {
            Base::Requirement => b,
            Base::Face => face,
        }
    }

    /// Are so many cents at or above the exact result?
    fn at_or_above(&self, b: u64, face: u64, cents: u64) -> bool {
        let base = self.base_of(b, face);
        // "Up to the threshold the exact result is B";
        if base <= self.threshold_in_cents() {
            return cents >= b;
        }
        // above it they are "when it is at least B times the first number", here in hundredths of a cent,
        let (cents, b, base) = (u128::from(cents), u128::from(b), u128::from(base));
        let Some(excess) = (100 * cents).checked_sub(b * u128::from(self.first)) else {
            return false;
        };
        // "and the square of its excess over that, times the base in dollars, is at least the square of the product of B
        // and the second number". The excess is in hundredths and the base in cents, so that 100² × 100 stands on the
        // other side.
        let (excess, product) = (Big::from(excess), Big::from(b * u128::from(self.second)));
        excess * excess * Big::from(base) >= Big::from(1_000_000) * product * product
    }
}

/// The fluctuation call: a row's number, B and a face amount give "B times the factor, rounded up to the cent".
pub fn fluctuation_call(row: u64, b: u64, face: u64) -> Result<u64, Refusal> {
    // "It refuses, as number 18 with no place, a row outside 1–7, before 7, at position 0 for B and 1 for the face."
    let Some(row) = row_of(row) else {
        return Err(Refusal::nowhere(18));
    };
    if let Some(position) = [b, face].iter().position(|&amount| amount > LARGEST_AMOUNT) {
        return Err(Refusal::at_position(7, position));
    }
    // The least number of cents at or above the exact result, found by halving an interval.
    let (mut below, mut enough) = (0, 1 << 62);
    if row.at_or_above(b, face, below) {
        return Ok(below);
    }
    assert!(row.at_or_above(b, face, enough));
    while enough - below > 1 {
        let middle = (below + enough) / 2;
        if row.at_or_above(b, face, middle) {
            enough = middle;
        } else {
            below = middle;
        }
    }
    Ok(enough)
}

/// "The accuracy rule holds for it with one cent": is this result, of a call that is accepted, at or above the exact one
/// and less than a cent above it? And it is never above B. Whole numbers decide.
pub fn judge_fluctuation(row: u64, b: u64, face: u64, result: u64) -> Result<(), String> {
    let row = row_of(row).ok_or(format!("there is no row {row}"))?;
    if !row.at_or_above(b, face, result) {
        return Err(format!("the result {result} is below the exact one"));
    }
    if result > 0 && row.at_or_above(b, face, result - 1) {
        return Err(format!("the result {result} is a cent or more above the exact one"));
    }
    if result > b {
        return Err(format!("the result {result} is above the requirement"));
    }
    Ok(())
}

/// A stored call: row, B and face amount, and what is answered.
pub type FluctuationCase = ([u64; 3], Result<u64, Refusal>);

/// The stored calls of fluctuation.cases, which says how a line reads.
pub fn fluctuation_cases() -> Vec<FluctuationCase> {
    let lines = include_str!("../fluctuation.cases").lines().filter(|line| !line.starts_with('#'));
    lines.map(|line| stored_case(line).unwrap_or_else(|| panic!("fluctuation.cases: {line}"))).collect()
}

fn stored_case(line: &str) -> Option<FluctuationCase> {
    let (call, answer) = line.split_once(" -> ")?;
    let call: Option<Vec<u64>> = call.split(' ').map(|word| word.parse().ok()).collect();
    let answer = match answer.split(' ').collect::<Vec<&str>>()[..] {
        [result] => Ok(result.parse().ok()?),
        ["refused", number] => Err(Refusal::nowhere(number.parse().ok()?)),
        ["refused", number, "at", position] => Err(Refusal::at_position(number.parse().ok()?, position.parse().ok()?)),
        _ => return None,
    };
    Some((call?.try_into().ok()?, answer))
}

#[cfg(test)]
mod tests {
    use super::*;
    use crate::generate::fluctuation_numbers;

    /// "The print lost the root sign; the thresholds show it": with the root each factor is from 0.9996 to 1 at its
    /// threshold; divided by the base itself it is the first number and less than 0.0005, and multiplied, as most rows are
    /// printed, above a billion.
    #[test]
    fn the_thresholds_show_the_root() {
        for row in &ROWS {
            // In ten-thousandths, what the second number adds at the threshold is squared and multiplied by it.
            let (first, second, threshold) = (100 * row.first, row.second, row.threshold);
            let added = (10_000 * second).pow(2);
            assert!((9_996 - first).pow(2) * threshold <= added && added <= (10_000 - first).pow(2) * threshold);
            assert!(10_000 * second < 5 * threshold);
            assert!(second * threshold > 1_000_000_000);
        }
    }

    /// The result once more, by a root that is enclosed from both sides, as demand 3 is judged; the two ends agree on the cent.
    #[test]
    fn the_result_by_roots() {
        const SCALE: u64 = 1_000_000_000_000_000;
        let of = |n: u64| Big::from(u128::from(n));
        let mut above = 0;
        let generated = (0..20_000).map(|index| fluctuation_numbers(11, index));
        for [number, b, face] in generated.chain(fluctuation_cases().into_iter().map(|(call, _)| call)) {
            let Ok(result) = fluctuation_call(number, b, face) else { continue };
            let row = row_of(number).unwrap();
            let base = row.base_of(b, face);
            if base <= row.threshold_in_cents() {
                assert_eq!(result, b);
                continue;
            }
            // In hundredths of a cent: B × first, and 1,000 × B × second over the root of the base in cents.
            let product = of(1_000) * of(SCALE) * of(b) * of(row.second);
            let (low, high) = (product * product).quotients(base);
            let cents = |root: Big| (of(b) * of(row.first) * of(SCALE) + root).quotients(100 * SCALE).1;
            assert_eq!(cents(low.roots().0), of(result), "{number} {b} {face}");
            assert_eq!(cents(high.roots().1), of(result), "{number} {b} {face}");
            above += 1;
        }
        assert!(above >= 5_000, "{above} above a threshold");
    }
}
