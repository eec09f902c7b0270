//! The calculator of document 01, with requests #101, #102, #104 to #110, #112 and #113 of document 02, as a good programmer writes it
//! with u128: no allocation, every figure worked out once, and everything tested that the papers have tested. It is here for its
//! speed; tests/reference, written to be plain, is the independent calculation.
//!
//! An amount is read as one number without a jump on its length, as ours is; a converted line moves its columns and formats nothing; a
//! number of two words is divided by one machine instruction where the quotient fits a word.
//!
//! The root is the caller's, and there are six. Three take one binary digit a step without a jump, as the papers ask: one picks
//! the digits of the radicand, the second shifts it through two words, as ours does, and the third holds an odd number in place
//! of the root that #107 speaks of. The others are there for information: the second with all 49 products of two risks, which
//! shows what the papers' forms cost; a jump on each digit, as it is mostly written; and Newton's. The steps of #107 are those of
//! the radicand's length, whichever root is taken.

use reference::{
    Refusal, ADJUSTABLE_PRODUCTS, BLOCK_NUMBERS, BLOCK_VALUES, FIGURES, GENERAL_CLASSES, GENERAL_NUMBERS,
    LARGEST_AMOUNT, LARGEST_SCALAR, LINE_BYTES, LISTING_LINE_BYTES, LONGEST_LISTING, LONGEST_SHEET, MOST_BLOCKS,
    MOST_TERRITORIES, MOST_VOLUMES, NON_PARTICIPATING, PARTS, REPORT_LINE_BYTES, RISKS, TERRITORY_NUMBERS,
    THOUSAND_DOLLARS, VOLUME_CLASSES,
};

/// The least whole number whose square is at least the radicand, below 2^124.
pub trait Root {
    /// Whether the correlation sum goes over all 49 products of two risks, as document 01 names it, and not over 28.
    const ALL_PRODUCTS: bool = false;

    fn of(radicand: u128) -> u64;
}

/// One binary digit a step, without a jump: the digit is a number to reckon with. Two digits of the radicand are brought down in
/// each step, so that the root and the rest stay within a word. They are picked out of the radicand, which stays as it is.
pub struct Picking;

impl Root for Picking {
    #[inline]
    fn of(radicand: u128) -> u64 {
        let (mut root, mut rest) = (0_u64, 0_u64);
        for at in (0..(129 - radicand.leading_zeros()) / 2).rev() {
            let word = if at < 32 { radicand as u64 } else { (radicand >> 64) as u64 };
            (root, rest) = step(root, rest, (word >> (2 * at % 64)) % 4);
        }
        root + u64::from(rest != 0)
    }
}

/// The same, but that the radicand moves up through two words, and the two digits at its top are brought down.
pub struct Shifting;

impl Root for Shifting {
    #[inline]
    fn of(radicand: u128) -> u64 {
        let steps = (129 - radicand.leading_zeros()) / 2;
        if steps == 0 {
            return 0;
        }
        // The digits stand two below the word's top. At its top the compiler would bring them down by one shift across two words,
        // the rest and the window's, on which the next step waits.
        let window = radicand << (126 - 2 * steps);
        let (mut high, mut low) = ((window >> 64) as u64, window as u64);
        let (mut root, mut rest) = (0, 0);
        for _ in 0..steps {
            (root, rest) = step(root, rest, high >> 60);
            high = ((high % (1 << 60)) << 2) + (low >> 62);
            low <<= 2;
        }
        root + u64::from(rest != 0)
    }
}

/// The next digit of a root, and what its square leaves.
#[inline(always)]
fn step(root: u64, rest: u64, digits: u64) -> (u64, u64) {
    let next = 4 * rest + digits;
    let odd = 4 * root + 1;
    let digit = u64::from(odd <= next);
    (2 * root + digit, next - digit * odd)
}

/// The root that is shifted, and all 49 products of two risks: document 01's forms of both.
pub struct Forms;

impl Root for Forms {
    const ALL_PRODUCTS: bool = true;

    #[inline]
    fn of(radicand: u128) -> u64 {
        Shifting::of(radicand)
    }
}

/// As the shifted one, but that the odd number is held by which the next digit is tested, four times the root and one. The digit is the sign of
/// a difference, and nothing is multiplied by it.
pub struct Odd;

impl Root for Odd {
    #[inline]
    fn of(radicand: u128) -> u64 {
        let steps = (129 - radicand.leading_zeros()) / 2;
        if steps == 0 {
            return 0;
        }
        // The upper word is held two places higher than the lower one asks: the two digits that cross are added first, and both are
        // then moved.
        let window = radicand << (124 - 2 * steps);
        let (mut high, mut low) = (((window >> 64) as u64) << 2, window as u64);
        let (mut odd, mut rest) = (1, 0);
        for _ in 0..steps {
            let next = 4 * rest + (high >> 60);
            let left = next.wrapping_sub(odd) as i64;
            (odd, rest) = if left < 0 { (2 * odd - 1, next) } else { (2 * odd + 3, left as u64) };
            high = (high % (1 << 60) + (low >> 62)) << 2;
            low <<= 2;
        }
        odd / 4 + u64::from(rest != 0)
    }
}

/// One binary digit a step, the plain way: a jump decides each digit.
pub struct Jumping;

impl Root for Jumping {
    #[inline]
    fn of(radicand: u128) -> u64 {
        let (mut root, mut rest) = (0_u128, radicand);
        let mut bit = 1_u128 << ((127 - (radicand | 1).leading_zeros()) & !1);
        while bit != 0 {
            let odd = root + bit;
            root >>= 1;
            if odd <= rest {
                rest -= odd;
                root += bit;
            }
            bit >>= 2;
        }
        root as u64 + u64::from(rest != 0)
    }
}

/// By Newton's way: from the machine's square root of the rounded number, one step and a correction.
pub struct Newton;

impl Root for Newton {
    #[inline]
    fn of(radicand: u128) -> u64 {
        if radicand == 0 {
            return 0;
        }
        let guess = (radicand as f64).sqrt() as u128;
        let mut root = (guess + radicand / guess) / 2;
        while root * root > radicand {
            root -= 1;
        }
        while root * root < radicand {
            root += 1;
        }
        root as u64
    }
}

/// Quotient and rest of a number of two words by a word that is above the upper one, so that the quotient fits a word.
#[inline(always)]
fn divide(number: u128, by: u64) -> (u64, u64) {
    let (upper, lower) = ((number >> 64) as u64, number as u64);
    debug_assert!(upper < by, "the quotient fits a word");
    let (quotient, rest);
    // SAFETY: the instruction reads and writes these three registers alone, and the quotient fits.
    unsafe {
        std::arch::asm!(
            "div {by}",
            by = in(reg) by,
            inlateout("rax") lower => quotient,
            inlateout("rdx") upper => rest,
            options(pure, nomem, nostack),
        );
    }
    (quotient, rest)
}

/// The correlation factors, in quarters, above the diagonal twice: they are symmetric.
const FACTORS: [[i128; RISKS]; RISKS] = [
    [4, -2, 4, -2, 2, 0, 4],
    [0, 4, -2, 4, 2, -2, 2],
    [0, 0, 4, 2, 4, 0, 4],
    [0, 0, 0, 4, 4, -2, 4],
    [0, 0, 0, 0, 4, -4, 4],
    [0, 0, 0, 0, 0, 4, -2],
    [0, 0, 0, 0, 0, 0, 4],
];

/// The block call: the figures, and the steps of the two roots.
pub fn block<R: Root>(b: &[u64; BLOCK_NUMBERS]) -> Result<[u64; BLOCK_VALUES], Refusal> {
    test_block(b)?;
    let ([i, d, u, lt, k], radicands) = figures::<R>(b);
    let [steps_i, steps_d] = radicands.map(|radicand| u64::from(129 - radicand.leading_zeros()) / 2);
    Ok([i, d, u, lt, k, steps_i, steps_d])
}

/// Rules 7, 8 and 9 of a block.
fn test_block(b: &[u64; BLOCK_NUMBERS]) -> Result<(), Refusal> {
    if let Some(position) = b.iter().position(|&amount| amount > LARGEST_AMOUNT) {
        return Err(Refusal::at_position(7, position));
    }
    if b[2 * RISKS - 1] != 0 {
        return Err(Refusal::at_position(8, 2 * RISKS - 1));
    }
    if let Some(risk) = (0..RISKS).find(|&i| b[2 * i] < b[2 * i + 1]) {
        return Err(Refusal::at_position(9, 2 * risk + 1));
    }
    Ok(())
}

/// The shares call: eleven blocks, the whole one and each without a part.
pub fn shares<R: Root>(b: &[u64; BLOCK_NUMBERS]) -> Result<[u64; PARTS], Refusal> {
    test_block(b)?;
    let k_of = |b: &[u64; BLOCK_NUMBERS]| figures::<R>(b).0[4];
    let k = k_of(b);
    let mut margins = [0; PARTS];
    for (part, margin) in margins.iter_mut().enumerate() {
        let mut without = *b;
        if part < RISKS {
            without[2 * part..2 * part + 2].fill(0);
        } else {
            without[RISKS + part] = 0;
        }
        *margin = k.checked_sub(k_of(&without)).ok_or(Refusal::nowhere(23))?;
    }
    let sum: u64 = margins.iter().sum();
    if sum == 0 {
        return Err(Refusal::nowhere(23));
    }
    let (mut shares, mut remainders, mut left_over) = ([0; PARTS], [0; PARTS], k);
    for part in 0..PARTS {
        let product = u128::from(k) * u128::from(margins[part]);
        (shares[part], remainders[part]) = divide(product, sum);
        left_over -= shares[part];
    }
    // A part gets a cent where fewer come before it than there are cents.
    for part in 0..PARTS {
        let before = |other: usize| {
            remainders[other] > remainders[part] || (remainders[other] == remainders[part] && other < part)
        };
        shares[part] += u64::from(((0..PARTS).filter(|&other| before(other)).count() as u64) < left_over);
    }
    Ok(shares)
}

/// The correlation sum, in quarters, of a product for each two risks.
#[inline(always)]
fn sum_of_28(y: &[u64; RISKS]) -> i128 {
    let mut sum = 0;
    for i in 0..RISKS {
        for j in i..RISKS {
            sum += FACTORS[i][j] * (i128::from(y[i]) * i128::from(y[j]));
        }
    }
    sum
}

/// The same over all 49, row by row, as document 01 names it. The factors are written out, so that none is multiplied by.
#[inline(always)]
fn sum_of_49(y: &[u64; RISKS]) -> i128 {
    let row = |sum: i128, i: usize, factors: [i128; RISKS]| {
        factors.iter().zip(y).fold(sum, |sum, (factor, &yj)| sum + factor * (i128::from(y[i]) * i128::from(yj)))
    };
    let sum = row(0, 0, [4, -1, 2, -1, 1, 0, 2]);
    let sum = row(sum, 1, [-1, 4, -1, 2, 1, -1, 1]);
    let sum = row(sum, 2, [2, -1, 4, 1, 2, 0, 2]);
    let sum = row(sum, 3, [-1, 2, 1, 4, 2, -1, 2]);
    let sum = row(sum, 4, [1, 1, 2, 2, 4, -2, 2]);
    let sum = row(sum, 5, [0, -1, 0, -1, -2, 4, -1]);
    row(sum, 6, [2, 1, 2, 2, 2, -1, 4])
}

/// I, D, U, LT and K of a block that rules 7, 8 and 9 let pass, and the radicands of I and D.
fn figures<R: Root>(b: &[u64; BLOCK_NUMBERS]) -> ([u64; FIGURES], [u128; 2]) {
    let [pc, credit, market] = [b[14], b[15], b[16]];
    let (mut u, mut lt, mut largest) = (pc + credit + market, 0, 0);
    let mut y = [0; RISKS];
    for (i, y) in y.iter_mut().enumerate() {
        *y = 2 * b[2 * i] - b[2 * i + 1];
        largest = largest.max(*y);
        u += b[2 * i];
        lt += b[2 * i + 1];
    }
    let sum = if R::ALL_PRODUCTS { sum_of_49(&y) } else { sum_of_28(&y) };
    // 10,000 × Q, of the sum in quarters: I and D are in hundredths of the half cent.
    let radicand_of_i = 2_500 * sum as u128;
    let i = R::of(radicand_of_i).max(100 * largest) + 200 * pc;
    let (a, wide_i) = (u128::from(200 * (credit + market)), u128::from(i));
    let radicand_of_d = a * a + a * wide_i + wide_i * wide_i;
    let d = R::of(radicand_of_d);
    let k = requirement(u, lt, d);
    ([i.div_ceil(100), d.div_ceil(100), u, lt, k], [radicand_of_i, radicand_of_d])
}

/// K, at D in hundredths of the half cent.
fn requirement(u: u64, lt: u64, d: u64) -> u64 {
    if u == 0 {
        return 0;
    }
    // With D and V in hundredths, M is 7V² − 31DV + 30D² = (3D − V) × (10D − 7V), where 3D is at least V. Over 60 × V and in tenths
    // it is that over 6,000 × V, a word, and what is rounded up to tenths first is rounded no further.
    let v = 2 * u - lt;
    let m = u128::from(3 * d - 100 * v) * u128::from(d.saturating_sub(70 * v));
    let (tenths, rest) = divide(m, 6_000 * v);
    (8 * u + lt + tenths + u64::from(rest != 0)).div_ceil(10)
}

/// The credit of survival and death business: S + T less the root of S² + T² − 1.5 × S × T.
fn credit<R: Root>([s, t]: [u64; 2]) -> u64 {
    let (difference, product) = (u128::from(s.abs_diff(t)), u128::from(s) * u128::from(t));
    s + t - R::of(difference * difference + product.div_ceil(2))
}

/// The fluctuation call.
pub fn fluctuation<R: Root>(row: u64, requirement: u64, face: u64) -> Result<u64, Refusal> {
    // The first number in twentieths, the second, and the threshold and the base in cents.
    let (first, second, threshold, base) = match row {
        1 => (18, 648, 4_200_000_000, requirement),
        2 => (10, 4_330, 7_500_000_000, requirement),
        3 => (14, 734, 600_000_000, requirement),
        4 => (6, 1_212, 300_000_000, requirement),
        5 => (4, 1_788, 500_000_000, requirement),
        6 => (14, 519, 300_000_000, requirement),
        7 => (3, 14_722, 30_000_000_000, face),
        _ => return Err(Refusal::nowhere(18)),
    };
    if let Some(position) = [requirement, face].iter().position(|&amount| amount > LARGEST_AMOUNT) {
        return Err(Refusal::at_position(7, position));
    }
    if base <= threshold {
        return Ok(requirement);
    }
    let radicand = if row == 7 {
        // 40,000 × (B × second)² over the base, rounded up; it is divided before it is multiplied, so that 128 bits hold it.
        let square = u128::from(requirement * second) * u128::from(requirement * second);
        let (upper, lower) = ((square >> 64) as u64, square as u64);
        let (quotient, rest) = divide((u128::from(upper % base) << 64) + u128::from(lower), base);
        40_000 * ((u128::from(upper / base) << 64) + u128::from(quotient)) + u128::from((40_000 * rest).div_ceil(base))
    } else {
        u128::from(40_000 * second * second) * u128::from(requirement)
    };
    Ok((first * requirement + R::of(radicand)).div_ceil(20))
}

/// The factors of the volume classes and of the general figures, in ten-thousandths.
const VOLUME_FACTORS: [u64; VOLUME_CLASSES] = [250, 250, 250, 175, 40, 15, 10, 10];
const GENERAL_FACTORS: [u64; GENERAL_NUMBERS] = [575, 450, 250];

/// RO of amounts within the limit, and of prior ones within twice the limit.
fn operational(volumes: &[u64; MOST_VOLUMES], general: &[u64; GENERAL_CLASSES]) -> u64 {
    // At most 1.67 × 10^19, which fits a word.
    let mut sum = 0;
    for territory in volumes.chunks_exact(TERRITORY_NUMBERS) {
        for (pair, factor) in territory.chunks_exact(2).zip(VOLUME_FACTORS) {
            // Most classes of a small society are empty.
            if pair[0] != 0 {
                let current = 5 * pair[0];
                sum += factor * (current + current.saturating_sub(6 * pair[1]));
            }
        }
    }
    for (factor, amount) in GENERAL_FACTORS.iter().zip(general) {
        sum += factor * 5 * amount;
    }
    sum.div_ceil(50_000)
}

/// What the lines of a sheet say: tables of the amounts, and which lines and blocks there were.
struct Sheet {
    blocks: [[u64; BLOCK_NUMBERS]; MOST_BLOCKS],
    /// Current and prior of each class; the acquired prior is added to the prior, since ACQ comes after VOL.
    volumes: [u64; MOST_VOLUMES],
    general: [u64; GENERAL_CLASSES],
    /// S and T of each block without participation.
    sums: [[u64; 2]; NON_PARTICIPATING],
    /// The dividend credit of each block, and the sum of the credits of adjustable products.
    dividends: [u64; MOST_BLOCKS],
    adjustable: u64,
    before: Before,
}

/// The lines that were read.
struct Before {
    /// A bit for each class: of RSK, then OTH, then VOL, MOR and ACQ or CRD, for each block; of GEN and CRD in the last.
    seen: [u32; MOST_BLOCKS + 1],
    /// What the line before is compared by: its code's place in their order, from 1, its block and its class; 0 before any.
    last: usize,
}

/// Rules 1 and 2, and the 3 before 2.
fn measure(bytes: &[u8]) -> Result<(), Refusal> {
    if bytes.len() > LONGEST_SHEET {
        return Err(Refusal::nowhere(1));
    }
    if !bytes.len().is_multiple_of(LINE_BYTES) {
        let broken = bytes.chunks_exact(LINE_BYTES).position(|line| fields(line.try_into().unwrap()).is_none());
        return Err(broken.map_or(Refusal::nowhere(2), |at| Refusal::at_line(3, at + 1)));
    }
    Ok(())
}

/// The converting call. Every line is tested before the first is written, because a refusal leaves the lent room as it was.
pub fn convert(bytes: &[u8], converted: &mut [u8]) -> Result<usize, Refusal> {
    measure(bytes)?;
    let small = bytes.get(..3).is_some_and(|code| code.iter().all(u8::is_ascii_lowercase));
    let mut before = Before { seen: [0; MOST_BLOCKS + 1], last: 0 };
    for (at, line) in bytes.chunks_exact(LINE_BYTES).enumerate() {
        if let Err(number) = test_line(line.try_into().unwrap(), small, &mut before) {
            return Err(Refusal::at_line(number, at + 1));
        }
    }
    let Some(room) = converted.get_mut(..bytes.len()) else { return Err(Refusal::nowhere(14)) };
    for (line, out) in bytes.chunks_exact(LINE_BYTES).zip(room.chunks_exact_mut(LINE_BYTES)) {
        move_line(line.try_into().unwrap(), out.try_into().unwrap(), small);
    }
    Ok(bytes.len())
}

/// A line's rules, 20 and 21 among them.
fn test_line(line: &[u8; LINE_BYTES], small: bool, before: &mut Before) -> Result<(), u8> {
    let numbers = fields(line).ok_or(3)?;
    let code = [line[0], line[1], line[2]];
    before.admit(&if small { code.map(|letter| letter ^ 0x20) } else { code }, numbers)?;
    let [_, class, first, second] = numbers;
    if line[0] | 0x20 == b'g' && class == 4 {
        return Ok(());
    }
    for amount in [first, second] {
        if small && amount > LARGEST_AMOUNT / THOUSAND_DOLLARS {
            return Err(21);
        }
        if !small && amount % THOUSAND_DOLLARS != 0 {
            return Err(20);
        }
    }
    Ok(())
}

/// A line that its rules let pass, as the other sort of sheet has it: the scalar's line and 0 keep their columns.
#[inline(always)]
fn move_line(line: &[u8; LINE_BYTES], out: &mut [u8; LINE_BYTES], small: bool) {
    *out = *line;
    for letter in &mut out[..3] {
        *letter ^= 0x20;
    }
    if line[0] | 0x20 == b'g' && line[7..9] == *b" 4" {
        return;
    }
    for from in [10, 25] {
        let (amount, to) = (&line[from..from + AMOUNT], &mut out[from..from + AMOUNT]);
        if amount[AMOUNT - 2..] != *b" 0" {
            move_columns(amount.try_into().unwrap(), to.try_into().unwrap(), small);
        }
    }
}

/// The columns of an amount, and the columns of its five zeros that a thousand dollars have in cents.
const AMOUNT: usize = 14;
const ZEROS: usize = 5;

/// An amount of thousands of dollars in cents, or one in cents in thousands: its columns with five zeros more or less.
#[inline(always)]
fn move_columns(from: &[u8; AMOUNT], to: &mut [u8; AMOUNT], small: bool) {
    if small {
        to[..AMOUNT - ZEROS].copy_from_slice(&from[ZEROS..]);
        to[AMOUNT - ZEROS..].fill(b'0');
    } else {
        to[ZEROS..].copy_from_slice(&from[..AMOUNT - ZEROS]);
        to[..ZEROS].fill(b' ');
    }
}

/// The sheet call.
pub fn sheet<R: Root>(bytes: &[u8], report: &mut [u8]) -> Result<usize, Refusal> {
    let mut sheet = EMPTY;
    sheet.read(bytes)?;
    sheet.report::<R>(report)
}

/// The check call. The lines are listed before the credits are taken off, into a room of its own.
pub fn check<R: Root>(bytes: &[u8], listing: &mut [u8]) -> Result<usize, Refusal> {
    let mut sheet = EMPTY;
    sheet.read(bytes)?;
    let (mut room, mut rows) = ([b' '; LONGEST_LISTING], NO_ROWS);
    let length = sheet.list(bytes, &mut room);
    sheet.judge::<R>(&mut rows)?;
    if listing.len() < length {
        return Err(Refusal::nowhere(14));
    }
    listing[..length].copy_from_slice(&room[..length]);
    Ok(length)
}

/// Before any line.
const EMPTY: Sheet = Sheet {
    blocks: [[0; BLOCK_NUMBERS]; MOST_BLOCKS],
    volumes: [0; MOST_VOLUMES],
    general: [0; GENERAL_CLASSES],
    sums: [[0; 2]; NON_PARTICIPATING],
    dividends: [0; MOST_BLOCKS],
    adjustable: 0,
    before: Before { seen: [0; MOST_BLOCKS + 1], last: 0 },
};

/// Each block that exists with its figures.
type Rows = [(u64, [u64; FIGURES]); MOST_BLOCKS];
const NO_ROWS: Rows = [(0, [0; FIGURES]); MOST_BLOCKS];

/// The bits of `seen` that say that a block exists, those of RSK and OTH; where those of OTH, VOL, MOR, ACQ and CRD
/// begin.
const EXISTS: u32 = (1 << VOLUMES_FROM) - 1;
const OTHERS_FROM: usize = RISKS;
const VOLUMES_FROM: usize = RISKS + 3;
const SUMS_FROM: usize = VOLUMES_FROM + VOLUME_CLASSES;
const ACQUIRED_FROM: usize = SUMS_FROM + 1;
const CREDITS_FROM: usize = VOLUMES_FROM;

impl Before {
    /// One line more, which keeps the layout: its row, or the number of the rule that turns it away.
    // Compiled into both of its calls, so that the sheet call is as quick as with one.
    #[inline(always)]
    fn admit(&mut self, code: &[u8; 3], [block, class, first, second]: [u64; 4]) -> Result<usize, u8> {
        let (block, class) = (block as usize, class as usize);
        let (rank, blocks, classes, bits_from) = match code {
            b"RSK" => (1, 1..=MOST_BLOCKS, RISKS, 0),
            b"OTH" => (2, 1..=MOST_BLOCKS, 3, OTHERS_FROM),
            b"MOR" => (3, 1..=NON_PARTICIPATING, 1, SUMS_FROM),
            b"VOL" => (4, 1..=MOST_TERRITORIES, VOLUME_CLASSES, VOLUMES_FROM),
            b"ACQ" => (5, 1..=MOST_TERRITORIES, VOLUME_CLASSES, ACQUIRED_FROM),
            b"GEN" => (6, 0..=0, GENERAL_CLASSES, 0),
            b"CRD" if block == 0 => (7, 0..=0, ADJUSTABLE_PRODUCTS, CREDITS_FROM),
            b"CRD" => (7, NON_PARTICIPATING + 1..=MOST_BLOCKS, 1, CREDITS_FROM),
            _ => return Err(4),
        };
        if !blocks.contains(&block) {
            return Err(5);
        }
        if class < 1 || classes < class {
            return Err(6);
        }
        if let Some(rule) = amounts_refused(code[0], class, first, second) {
            return Err(rule);
        }
        let row = block.wrapping_sub(1).min(MOST_BLOCKS);
        let bit = 1 << (bits_from + class - 1);
        if self.seen[row] & bit != 0 {
            return Err(11);
        }
        // Block and class have two digits.
        let key = (rank << 16) + (block << 8) + class;
        if key <= self.last {
            return Err(19);
        }
        self.last = key;
        self.seen[row] |= bit;
        Ok(row)
    }
}

impl Sheet {
    /// The lines of a sheet into the tables, by rules 1 to 11 and 19.
    fn read(&mut self, bytes: &[u8]) -> Result<(), Refusal> {
        measure(bytes)?;
        for (at, line) in bytes.chunks_exact(LINE_BYTES).enumerate() {
            if let Err(number) = self.enter(line.try_into().unwrap()) {
                return Err(Refusal::at_line(number, at + 1));
            }
        }
        Ok(())
    }

    /// A line, or the number of the rule that turns it away.
    fn enter(&mut self, line: &[u8; LINE_BYTES]) -> Result<(), u8> {
        let numbers = fields(line).ok_or(3)?;
        let row = self.before.admit(&[line[0], line[1], line[2]], numbers)?;
        let [_, class, first, second] = numbers;
        self.store(line[0], row, class as usize - 1, [first, second]);
        Ok(())
    }

    /// The amounts of a line at their places, by the first letter of its code, its block and its class, both from 0; block 0 of
    /// the sheet comes last.
    fn store(&mut self, code: u8, block: usize, class: usize, amounts: [u64; 2]) {
        match code {
            b'R' => self.blocks[block][2 * class..2 * class + 2].copy_from_slice(&amounts),
            b'O' => self.blocks[block][2 * RISKS + class] = amounts[0],
            b'M' => self.sums[block] = amounts,
            b'C' if block == MOST_BLOCKS => self.adjustable += amounts[0],
            b'C' => self.dividends[block] = amounts[0],
            b'V' => {
                let from = TERRITORY_NUMBERS * block + 2 * class;
                self.volumes[from..from + 2].copy_from_slice(&amounts);
            }
            b'A' => self.volumes[TERRITORY_NUMBERS * block + 2 * class + 1] += amounts[0],
            _ => self.general[class] = amounts[0],
        }
    }

    /// Rule 16: IR(1) and LT(1) of each block that has S and T become those after the credit.
    fn take_credits<R: Root>(&mut self) -> Result<(), Refusal> {
        for ((numbers, &sums), seen) in self.blocks.iter_mut().zip(&self.sums).zip(self.before.seen) {
            if seen & (1 << SUMS_FROM) != 0 {
                let credit = credit::<R>(sums);
                if numbers[1] < credit {
                    return Err(Refusal::nowhere(16));
                }
                numbers[0] -= credit;
                numbers[1] -= credit;
            }
        }
        Ok(())
    }

    /// The lines of the sheet whose companion is absent or has first amount 0: how many bytes they take in a room of spaces.
    fn list(&self, bytes: &[u8], room: &mut [u8; LONGEST_LISTING]) -> usize {
        let mut lines = room.chunks_exact_mut(LISTING_LINE_BYTES);
        let mut length = 0;
        for line in bytes.chunks_exact(LINE_BYTES) {
            if !matches!(line[0], b'M' | b'V' | b'A' | b'C') {
                continue;
            }
            let (Some(block), Some(class)) = (pair(line[4], line[5]), pair(line[7], line[8])) else { continue };
            // The lines keep the layout, so that an amount is 0 where its last columns are a space and a 0.
            if line[22..24] == *b" 0" && line[37..39] == *b" 0" {
                continue;
            }
            let (at, volume) = (block.wrapping_sub(1) as usize, class as usize - 1);
            let (code, of, needed, met) = match line[0] {
                b'M' => (b"RSK", block, 1, self.blocks[at][0] > 0),
                b'V' if class == 5 => (b"GEN", 0, 2, self.general[1] > 0),
                b'A' => (b"VOL", block, class, self.volumes[TERRITORY_NUMBERS * at + 2 * volume] > 0),
                b'C' if block > 0 => (b"RSK", block, 0, (0..RISKS).any(|risk| self.blocks[at][2 * risk] > 0)),
                _ => continue,
            };
            if met {
                continue;
            }
            let Some(out) = lines.next() else { break };
            out[..9].copy_from_slice(&line[..9]);
            out[10..13].copy_from_slice(code);
            write_number(&mut out[14..16], of);
            write_number(&mut out[17..19], needed);
            out[19] = b'\n';
            length += LISTING_LINE_BYTES;
        }
        length
    }

    /// Rule 14, and the report.
    fn report<R: Root>(&mut self, report: &mut [u8]) -> Result<usize, Refusal> {
        let mut rows = NO_ROWS;
        let (blocks, totals) = self.judge::<R>(&mut rows)?;
        let length = REPORT_LINE_BYTES * (FIGURES * blocks + 3);
        if report.len() < length {
            return Err(Refusal::nowhere(14));
        }
        let (lines, last) = report[..length].split_at_mut(REPORT_LINE_BYTES * FIGURES * blocks);
        for ((number, figures), lines) in rows.iter().zip(lines.chunks_exact_mut(REPORT_LINE_BYTES * FIGURES)) {
            write_items(lines, b"BLK", *number, figures);
        }
        write_items(last, b"TOT", 0, &totals);
        Ok(length)
    }

    /// Rules 12, 16, 17 and 13: how many blocks exist, their rows, and the totals.
    fn judge<R: Root>(&mut self, rows: &mut Rows) -> Result<(usize, [u64; 3]), Refusal> {
        let [_, guarantee, _, scalar, credits] = self.general;
        if scalar == 0 {
            return Err(Refusal::nowhere(12));
        }
        self.take_credits::<R>()?;
        let (mut blocks, mut sum, mut dividends) = (0, 0, 0);
        for (number, (numbers, seen)) in self.blocks.iter().zip(self.before.seen).enumerate() {
            if seen & EXISTS != 0 {
                rows[blocks] = (number as u64 + 1, figures::<R>(numbers).0);
                let k = rows[blocks].1[4];
                if k < self.dividends[number] {
                    return Err(Refusal::nowhere(17));
                }
                sum += k;
                dividends += self.dividends[number];
                blocks += 1;
            } else if number >= NON_PARTICIPATING && seen & (1 << CREDITS_FROM) != 0 {
                return Err(Refusal::nowhere(17));
            }
        }
        let ro = operational(&self.volumes, &self.general);
        let left = sum - dividends + guarantee + ro;
        let Some(bracket) = left.checked_sub(credits + self.adjustable) else {
            return Err(Refusal::nowhere(13));
        };
        let (quotient, rest) = divide(u128::from(scalar) * u128::from(bracket), 10_000);
        let buffer = quotient + u64::from(rest != 0);
        Ok((blocks, [sum, ro, buffer]))
    }
}

/// Rules 8 to 10: the number of the one that turns a line's amounts away, by the first letter of its code and its class from 1.
fn amounts_refused(code: u8, class: usize, first: u64, second: u64) -> Option<u8> {
    match code {
        b'R' if class == RISKS && second != 0 => Some(8),
        b'R' if first < second => Some(9),
        b'O' | b'A' | b'G' | b'C' if second != 0 => Some(8),
        b'G' if class == 4 && !(1..=LARGEST_SCALAR).contains(&first) => Some(10),
        _ => None,
    }
}

/// Block, class and amounts of a line whose columns 4–40 keep the layout.
fn fields(line: &[u8; LINE_BYTES]) -> Option<[u64; 4]> {
    if line[3] != b' ' || line[6] != b' ' || line[9] != b' ' || line[24] != b' ' || line[39] != b'\n' {
        return None;
    }
    let (first, second) = (line[10..24].try_into().unwrap(), line[25..39].try_into().unwrap());
    Some([pair(line[4], line[5])?, pair(line[7], line[8])?, amount(first)?, amount(second)?])
}

/// A number of two columns: right-justified, no leading zero except 0 itself.
#[inline(always)]
fn pair(tens: u8, ones: u8) -> Option<u64> {
    let (x, y) = (tens.wrapping_sub(b'0'), ones.wrapping_sub(b'0'));
    match (x, y) {
        (_, 0..=9) if tens == b' ' => Some(y.into()),
        (1..=9, 0..=9) => Some((10 * x + y).into()),
        _ => None,
    }
}

/// A number of an amount's columns: decimal, right-justified, spaces before, at least one digit, no leading zero except 0 itself.
/// All columns are one number. Less a space each, a digit is its number with a mark, so that the marks tell where digits stand.
#[inline(always)]
fn amount(field: &[u8; AMOUNT]) -> Option<u64> {
    const SPACES: u128 = 0x2020_2020_2020_2020_2020_2020_2020;
    const MARKS: u128 = 0x1010_1010_1010_1010_1010_1010_1010;
    const TOPS: u128 = 0x8080_8080_8080_8080_8080_8080_8080;
    // What takes a byte above 9 to its top bit.
    const TO_TOP: u128 = 0x7676_7676_7676_7676_7676_7676_7676;
    let four = u32::from_be_bytes(field[..4].try_into().unwrap());
    let two = u16::from_be_bytes(field[4..6].try_into().unwrap());
    let eight = u64::from_be_bytes(field[6..].try_into().unwrap());
    let word = (u128::from((u64::from(four) << 16) + u64::from(two)) << 64) + u128::from(eight);
    if word <= SPACES {
        return None;
    }
    let held = word - SPACES;
    let marks = held & MARKS;
    let values = held - marks;
    // The marks of all digits but the first.
    let behind = marks >> 8;
    if marks & behind != behind || values < behind || marks < values {
        return None;
    }
    if (values | (values + TO_TOP)) & TOPS != 0 {
        return None;
    }
    Some(joined((values >> 64) as u64) * 100_000_000 + joined(values as u64))
}

/// The number of eight digits, a byte each, the first in the top byte.
#[inline(always)]
fn joined(digits: u64) -> u64 {
    let pairs = (digits + (digits >> 8) * 10) & 0x00ff_00ff_00ff_00ff;
    let fours = (pairs + (pairs >> 16) * 100) & 0x0000_ffff_0000_ffff;
    (fours + (fours >> 32) * 10_000) & 0xffff_ffff
}

/// A line for each figure, the items counted from 1.
fn write_items(lines: &mut [u8], code: &[u8; 3], block: u64, figures: &[u64]) {
    for ((line, item), &figure) in lines.chunks_exact_mut(REPORT_LINE_BYTES).zip(1..).zip(figures) {
        line.fill(b' ');
        line[..3].copy_from_slice(code);
        write_number(&mut line[4..6], block);
        write_number(&mut line[7..9], item);
        write_number(&mut line[10..28], figure);
        line[28] = b'\n';
    }
}

/// Two digits of each number below 100.
const PAIRS: [[u8; 2]; 100] = {
    let mut pairs = [[0; 2]; 100];
    let mut n = 0;
    while n < 100 {
        pairs[n] = [b'0' + (n / 10) as u8, b'0' + (n % 10) as u8];
        n += 1;
    }
    pairs
};

/// A number at the end of a field of spaces, two digits at a time.
#[inline(always)]
fn write_number(field: &mut [u8], mut number: u64) {
    let mut at = field.len();
    while number >= 100 {
        field[at - 2..at].copy_from_slice(&PAIRS[(number % 100) as usize]);
        number /= 100;
        at -= 2;
    }
    if number >= 10 {
        field[at - 2..at].copy_from_slice(&PAIRS[number as usize]);
    } else {
        field[at - 1] = b'0' + number as u8;
    }
}

#[cfg(test)]
mod tests {
    use super::*;
    use reference::generate;

    const CASES: u64 = 20_000;

    /// It refuses and answers as the independent calculation does, with each root.
    #[test]
    fn it_answers_as_the_reference_does() {
        for index in 0..CASES {
            let case = Case::of(index);
            answers::<Picking>(&case);
            answers::<Shifting>(&case);
            answers::<Odd>(&case);
            answers::<Forms>(&case);
            answers::<Jumping>(&case);
            answers::<Newton>(&case);
            let (given, lent) = generate::convert_case(1, index);
            let (mut one, mut two) = (vec![0; lent], vec![0; lent]);
            assert_eq!(convert(&given, &mut one), reference::convert_call(&given, &mut two), "conversion {index}");
            assert!(one == two, "converted sheet {index}");
        }
    }

    /// What is given to the calls that take a root, and what they answer.
    struct Case {
        index: u64,
        sheet: (Vec<u8>, Result<usize, Refusal>, Vec<u8>),
        block: ([u64; BLOCK_NUMBERS], Result<[u64; BLOCK_VALUES], Refusal>),
        fluctuation: ([u64; 3], Result<u64, Refusal>),
        shares: ([u64; BLOCK_NUMBERS], Result<[u64; PARTS], Refusal>),
        check: (Vec<u8>, Result<usize, Refusal>, Vec<u8>),
    }

    impl Case {
        fn of(index: u64) -> Case {
            let (lines, room) = generate::case(1, index);
            let mut report = vec![0; room];
            let given = reference::sheet_call(&lines, &mut report);
            let numbers = generate::block_numbers(1, index);
            let [row, requirement, face] = generate::fluctuation_numbers(1, index);
            let parts = generate::shares_numbers(1, index);
            let (checked, lent) = generate::check_case(1, index);
            let mut listing = vec![0; lent];
            let listed = reference::check_call(&checked, &mut listing);
            Case {
                index,
                sheet: (lines, given, report),
                block: (numbers, reference::block_call(&numbers)),
                fluctuation: ([row, requirement, face], reference::fluctuation_call(row, requirement, face)),
                shares: (parts, reference::shares_call(&parts)),
                check: (checked, listed, listing),
            }
        }
    }

    fn answers<R: Root>(case: &Case) {
        let index = case.index;
        let (lines, given, wanted) = &case.sheet;
        let mut report = vec![0; wanted.len()];
        assert_eq!(sheet::<R>(lines, &mut report), *given, "sheet {index}");
        assert!(report == *wanted, "report {index}");
        assert_eq!(block::<R>(&case.block.0), case.block.1, "block {index}");
        let [row, requirement, face] = case.fluctuation.0;
        assert_eq!(fluctuation::<R>(row, requirement, face), case.fluctuation.1, "fluctuation {index}");
        assert_eq!(shares::<R>(&case.shares.0), case.shares.1, "shares {index}");
        let (checked, listed, wanted) = &case.check;
        let mut listing = vec![0; wanted.len()];
        assert_eq!(check::<R>(checked, &mut listing), *listed, "check {index}");
        assert!(listing == *wanted, "listing {index}");
    }
}
