//! "A block": I, D, U, LT and K from 17 amounts, by #109 with finer roots; and the steps of the two roots, by #107.

use crate::{Refusal, BLOCK_NUMBERS, BLOCK_VALUES, FINENESS, LARGEST_AMOUNT, RISKS};

/// LT(7), of expenses.
pub(crate) const EXPENSES_LT: usize = 2 * RISKS - 1;

/// IR(1) and LT(1), of mortality.
pub(crate) const MORTALITY_IR: usize = 0;
pub(crate) const MORTALITY_LT: usize = 1;

/// The positions of PC, credit and market.
pub(crate) const PC: usize = 2 * RISKS;
const CREDIT: usize = PC + 1;
const MARKET: usize = PC + 2;

/// The correlation factors, in quarters, rows and columns 1 to 7.
const FACTORS: [[i128; RISKS]; RISKS] = [
    [4, -1, 2, -1, 1, 0, 2],
    [-1, 4, -1, 2, 1, -1, 1],
    [2, -1, 4, 1, 2, 0, 2],
    [-1, 2, 1, 4, 2, -1, 2],
    [1, 1, 2, 2, 4, -2, 2],
    [0, -1, 0, -1, -2, 4, -1],
    [2, 1, 2, 2, 2, -1, 4],
];

/// What a block's amounts give before any root is taken.
pub(crate) struct Terms {
    /// 4 × Q: the sum over all i, j of factor × y(i) × y(j).
    pub quarters: u128,
    /// The largest y(i), in half cents.
    pub largest: u128,
    /// 2 × PC and a = 2 × A, in half cents.
    pub twice_pc: u128,
    pub a: u128,
    pub u: u128,
    pub lt: u128,
    pub v: u128,
}

/// "A block": seven pairs IR, LT, then PC, credit and market, all at most the limit and no LT above its IR.
pub(crate) fn terms(b: &[u64; BLOCK_NUMBERS]) -> Terms {
    let amount = |position: usize| u128::from(b[position]);
    let (pc, credit, market) = (amount(PC), amount(CREDIT), amount(MARKET));

    // y(i) = 2 × IR(i) − LT(i)
    let y: Vec<u128> = (0..RISKS).map(|i| 2 * amount(2 * i) - amount(2 * i + 1)).collect();

    // A single term may be negative; the sum never is.
    let mut sum: i128 = 0;
    for i in 0..RISKS {
        for j in 0..RISKS {
            sum += FACTORS[i][j] * (y[i] * y[j]) as i128;
        }
    }

    let u = (0..RISKS).map(|i| amount(2 * i)).sum::<u128>() + pc + credit + market;
    let lt = (0..RISKS).map(|i| amount(2 * i + 1)).sum::<u128>();
    Terms {
        quarters: u128::try_from(sum).expect("Q is never negative"),
        largest: *y.iter().max().unwrap(),
        twice_pc: 2 * pc,
        a: 2 * (credit + market),
        u,
        lt,
        v: 2 * u - lt,
    }
}

/// The block call: I and D in half cents, U, LT and K in cents; then the steps for I and those for D.
pub fn block_call(b: &[u64; BLOCK_NUMBERS]) -> Result<[u64; BLOCK_VALUES], Refusal> {
    // "What is turned away": 7 at the first bad position,
    if let Some(position) = b.iter().position(|&amount| amount > LARGEST_AMOUNT) {
        return Err(Refusal::at_position(7, position));
    }
    // then 8, LT(7) not 0,
    if b[EXPENSES_LT] != 0 {
        return Err(Refusal::at_position(8, EXPENSES_LT));
    }
    // then 9 at the first LT above its IR.
    if let Some(risk) = (0..RISKS).find(|&i| b[2 * i + 1] > b[2 * i]) {
        return Err(Refusal::at_position(9, 2 * risk + 1));
    }

    let Terms { quarters, largest, twice_pc, a, u, lt, v } = terms(b);
    // #109: "in hundredths of the half cent, each root the least whole number of them (the radicand of I is 10,000 × Q)". Q has
    // quarters, and 10,000 × Q is a whole number.
    let fine = u128::from(FINENESS);
    let radicand_of_i = fine * fine * quarters / 4;
    let fine_i = root_up(radicand_of_i).max(fine * largest) + fine * twice_pc;
    let radicand_of_d = fine * a * fine * a + fine * a * fine_i + fine_i * fine_i;
    let fine_d = root_up(radicand_of_d);
    let k = if u == 0 { 0 } else { requirement(u, lt, v, fine_d) };
    // "still give I and D in half cents, the least at or above"
    let [i, d] = [fine_i, fine_d].map(|figure| figure.div_ceil(fine));
    Ok([i, d, u, lt, k, steps(radicand_of_i), steps(radicand_of_d)].map(|value| u64::try_from(value).unwrap()))
}

/// K, "taken at this finer D and still rounded up to a cent": the least whole number with 60 × V × K at least
/// 48 × U × V + 6 × LT × V + M, both sides times 10,000, since M at hundredths has ten-thousandths.
fn requirement(u: u128, lt: u128, v: u128, fine_d: u128) -> u128 {
    let fine = u128::from(FINENESS);
    let square = fine * fine;
    (square * (48 * u * v + 6 * lt * v) + m(fine * v, fine_d)).div_ceil(square * 60 * v)
}

/// M: the larger of 0 and 7V² − 31 × D × V + 30D², of V and D in the same unit.
fn m(v: u128, d: u128) -> u128 {
    (7 * v * v + 30 * d * d).saturating_sub(31 * d * v)
}

/// The least whole number whose square is at least the radicand, found by halving an interval.
pub(crate) fn root_up(radicand: u128) -> u128 {
    let (mut below, mut enough) = (0, 1 << 62);
    if radicand == 0 {
        return 0;
    }
    assert!(radicand <= enough * enough);
    while enough - below > 1 {
        let middle = (below + enough) / 2;
        if middle * middle >= radicand {
            enough = middle;
        } else {
            below = middle;
        }
    }
    enough
}

/// #107: "half that padded length, 0 for radicand 0". The binary digits are counted one by one, and where their number is odd
/// there is one more, a 0 in front.
fn steps(mut radicand: u128) -> u128 {
    let mut length = 0;
    while radicand > 0 {
        radicand /= 2;
        length += 1;
    }
    (length + length % 2) / 2
}

#[cfg(test)]
mod tests {
    use super::*;

    /// #107, word by word: "after step j the held value is the root, rounded down, of the leading 2j digits of the radicand, its
    /// length padded in front to an even number", and "one step fixes one binary digit". Gives the value that is held at the
    /// end, and how many steps there were.
    fn root_by_steps(radicand: u128) -> (u128, u128) {
        let mut digits = if radicand == 0 { String::new() } else { format!("{radicand:b}") };
        if digits.len() % 2 == 1 {
            digits.insert(0, '0');
        }
        let (mut held, mut j) = (0_u128, 0);
        while 2 * j < digits.len() {
            j += 1;
            let leading = u128::from_str_radix(&digits[..2 * j], 2).unwrap();
            let down = leading.isqrt();
            assert!(down == 2 * held || down == 2 * held + 1, "step {j} of {radicand} fixes one binary digit");
            held = down;
        }
        (held, j as u128)
    }

    #[test]
    fn the_steps_of_a_root() {
        let powers =
            (0..62).flat_map(|e| [(1_u128 << (2 * e)) - 1, 1 << (2 * e), (1 << (2 * e)) + 1, 1 << (2 * e + 1)]);
        for radicand in (0..20_000).chain(powers) {
            let (held, count) = root_by_steps(radicand);
            assert_eq!(steps(radicand), count, "{radicand}");
            assert_eq!(root_up(radicand), held + u128::from(held * held < radicand), "{radicand}");
        }
        // The first radicand that takes so many steps, and the last.
        assert_eq!(steps(0), 0);
        for count in 1..=62 {
            assert_eq!((steps(1 << (2 * count - 2)), steps((1 << (2 * count)) - 1)), (count, count));
        }
    }

    /// #109: "These roots take at most 58 steps". The largest Q is that of all risks but the sixth, and the largest radicand of D
    /// that with PC, credit and market beside them.
    #[test]
    fn the_most_steps() {
        let mut b = [LARGEST_AMOUNT; BLOCK_NUMBERS];
        (0..RISKS).for_each(|risk| b[2 * risk + 1] = 0);
        b[2 * 5] = 0;
        let q = 2_500 * terms(&b).quarters;
        let (i, a) = (root_up(q) + 100 * terms(&b).twice_pc, 100 * terms(&b).a);
        let d = a * a + a * i + i * i;
        let expected =
            (5_799_999_999_999_884_000_000_000_000_580_000, 14_692_618_484_690_832_943_588_369_896_598_084_u128);
        assert_eq!((q, d), expected);
        assert_eq!((i, root_up(d)), (96_157_731_058_638_122, 121_213_111_851_362_157));
        assert_eq!((steps(q), steps(d)), (57, 57));
        assert_eq!(block_call(&b).unwrap()[5..], [57, 57]);
    }

    /// The example: I' and D' in hundredths of the half cent.
    #[test]
    fn the_finer_roots_of_the_example() {
        let t = terms(&crate::example());
        let i = root_up(2_500 * t.quarters) + 100 * t.twice_pc;
        let d = root_up(10_000 * t.a * t.a + 100 * t.a * i + i * i);
        assert_eq!((i, d), (15_788_417_185, 19_140_543_664));
    }

    #[test]
    fn the_root_is_the_least() {
        assert_eq!(root_up(0), 0);
        for r in (1..2_000).chain([(1 << 52) - 1, 1 << 52, 1_600_000_000_000_000, (1 << 58) - 1, 1 << 58]) {
            assert_eq!(root_up(r * r), r);
            assert_eq!(root_up(r * r + 1), r + 1);
            assert_eq!(root_up((r - 1) * (r - 1) + 1), r);
        }
    }

    /// #109: the I that is given is that of a root in whole half cents, the least whole number whose square is at least Q.
    #[test]
    fn i_is_that_of_whole_half_cents() {
        let mut accepted = 0;
        for index in 0..20_000 {
            let numbers = crate::generate::block_numbers(17, index);
            let Ok([i, ..]) = block_call(&numbers) else { continue };
            let Terms { quarters, largest, twice_pc, .. } = terms(&numbers);
            assert_eq!(u128::from(i), root_up(quarters.div_ceil(4)).max(largest) + twice_pc, "block {index}");
            accepted += 1;
        }
        assert!(accepted > 5_000, "{accepted}");
    }

    #[test]
    fn the_factors_are_symmetric() {
        for i in 0..RISKS {
            assert_eq!(FACTORS[i][i], 4);
            for j in 0..RISKS {
                assert_eq!(FACTORS[i][j], FACTORS[j][i]);
            }
        }
    }
}
