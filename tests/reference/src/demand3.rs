//! Demand 3, checked on a sheet and its report without floating point.
//!
//! "The exact values": the exact I is the larger of the root of Q and the largest y, plus 2PC; the exact D is the root
//! of a² + aI + I² with the exact I; the exact K is K's fraction at the exact D, because the fraction never falls as d
//! rises from V / 3 on; the exact buffer is g times the unrounded bracket with these K.
//!
//! How the bracket decides. Each radicand is multiplied by SCALE², so that the whole numbers at and next to its root
//! enclose the root times SCALE, 20 digits after the point (and meet it where the root is whole there). Every further
//! step never falls as a root rises, so the lower ends give a buffer at or below the exact one and the upper ends one
//! at or above it.
//! - The reported buffer must be at or above the exact one: met when it is at or above the upper end, broken when it is
//!   below the lower end.
//! - The reported buffer less the allowance must be strictly below the exact one: met when it is below the lower end,
//!   broken when it is at or above the upper end.
//!
//! Between the ends the bracket can't decide, and the sheet counts as agreeing.
//!
//! #109: "A block's K is then less than 1.01 cents above the exact one", and it isn't below it: decided in the same way. The
//! exact values are what they were; the allowance has 1.01 cents for a block.
//!
//! #106: the exact operational figure is that of the joined prior.
//!
//! #102: all credits are taken off the bracket, those of participating blocks, of adjustable products and the group's; n
//! counts blocks of both sorts.
//!
//! #101: the exact values take IR(1) and LT(1) after the reported credit, which is by how much a block's reported U and
//! LT are below the sheet's. The exact credit is S + T less the root of S² + T² − 1.5 × S × T; whole numbers decide.

use crate::big::Big;
use crate::block::{terms, Terms, MORTALITY_LT};
use crate::mortality::{mortality_credit, twice_radicand};
use crate::operational::over_50_000;
use crate::sheet::{lower, number, read_sheet, Sheet, REPORT_NUMBER};
use crate::{BLOCK_NUMBERS, FIGURES, REPORT_LINE_BYTES};

/// A multiple of 10, so that a quarter and a hundredth of SCALE² are whole numbers.
const SCALE: u128 = 100_000_000_000_000_000_000;

/// For an accepted sheet and its report: does demand 3 hold?
pub fn demand3(sheet: &[u8], report: &[u8]) -> Result<(), String> {
    judge(sheet, report).map(|_| ())
}

/// As demand3, and whether the brackets decided both bounds of the buffer and of every K.
pub fn judge(sheet: &[u8], report: &[u8]) -> Result<bool, String> {
    let sheet = read_sheet(sheet).map_err(|refusal| format!("the sheet is refused: {refusal:?}"))?;
    let (mut brackets, mut decided) = (Vec::new(), true);
    for (at, (&block, amounts)) in sheet.blocks.iter().enumerate() {
        let credit = reported_credit(report, at, block, amounts)?;
        judge_credit(credit, sheet.sums(block)).map_err(|why| format!("block {block}: {why}"))?;
        judge_block(report, at, block)?;
        let bracket = exact_k(&terms(&lower(amounts, credit))).ok_or(format!("block {block}: no d fits"))?;
        decided &= judge_k(figure(report, FIGURES * at + 4, "BLK", block, 5)?, bracket)
            .map_err(|why| format!("block {block}: {why}"))?;
        brackets.push(bracket);
    }
    let buffer = figure(report, FIGURES * brackets.len() + 2, "TOT", 0, 3)?;
    Ok(judge_buffer(&sheet, &brackets, buffer)? && decided)
}

/// #101: by how much the reported U and LT of a block are below those of the amounts entered.
fn reported_credit(report: &[u8], at: usize, block: u64, amounts: &[u64; BLOCK_NUMBERS]) -> Result<u64, String> {
    let item = |item: usize| figure(report, FIGURES * at + item - 1, "BLK", block, item);
    let Terms { u, lt, .. } = terms(amounts);
    let (of_u, of_lt) = (u.checked_sub(item(3)?.into()), lt.checked_sub(item(4)?.into()));
    match of_u {
        Some(credit) if of_u == of_lt && credit <= amounts[MORTALITY_LT].into() => Ok(credit as u64),
        _ => Err(format!("block {block}: U and LT aren't those after a credit")),
    }
}

/// #101: the credit is at most the exact one and less than a cent below it. A number is at or below the exact credit
/// when S + T less it is 0 or more, with a square that is at least S² + T² − 1.5 × S × T.
fn judge_credit(credit: u64, (s, t): (u64, u64)) -> Result<(), String> {
    let at_or_below = |credit: u64| match (s + t).checked_sub(credit) {
        Some(rest) => 2 * u128::from(rest) * u128::from(rest) >= twice_radicand(s, t),
        None => false,
    };
    if !at_or_below(credit) {
        return Err(format!("the credit {credit} is above the exact one"));
    }
    if at_or_below(credit + 1) {
        return Err(format!("the credit {credit} is a cent or more below the exact one"));
    }
    Ok(())
}

/// For every block 2 × K is at least LT + D, and K is at most U, all as reported.
fn judge_block(report: &[u8], at: usize, block: u64) -> Result<(), String> {
    let item = |item: usize| figure(report, FIGURES * at + item - 1, "BLK", block, item);
    let (d, u, lt, k) = (item(2)?, item(3)?, item(4)?, item(5)?);
    if 2 * u128::from(k) < u128::from(lt) + u128::from(d) {
        return Err(format!("block {block}: 2 × K is below LT + D"));
    }
    if k > u {
        return Err(format!("block {block}: K is above U"));
    }
    Ok(())
}

/// The reported K's two bounds, of a block after the reported credit, and whether the bracket decided both.
fn judge_k(k: u64, bracket: (Big, Big)) -> Result<bool, String> {
    // 1.01 cents
    let allowance = Big::from(101) * hundredth_of_a_cent();
    within(Big::from(u128::from(k)) * cent(), bracket, allowance).map_err(|why| format!("K, {k}, is {why}"))
}

/// The reported buffer's two bounds, of the brackets of the blocks, and whether they decided both.
fn judge_buffer(sheet: &Sheet, blocks: &[(Big, Big)], buffer: u64) -> Result<bool, String> {
    let Bounds { credits, lower, upper, allowance } = bounds(sheet, blocks);
    let reported = Big::from(u128::from(buffer)) * Bounds::cent() + credits;
    within(reported, (lower, upper), allowance).map_err(|why| format!("the buffer {buffer} is {why}"))
}

/// The ends of a sheet's exact buffer with the scalar times its credits, and these and the allowance: all in the unit of `cent`.
pub(crate) struct Bounds {
    pub credits: Big,
    pub lower: Big,
    pub upper: Big,
    pub allowance: Big,
}

impl Bounds {
    /// A cent, times 10,000 × 50,000 × SCALE².
    pub fn cent() -> Big {
        Big::from(10_000) * Big::from(50_000) * cent()
    }
}

/// #114: those of a sheet that is accepted, after its credits of survival and death business as they are reported.
pub(crate) fn buffer_bounds(sheet: &Sheet) -> Result<Bounds, String> {
    let exact = |(&block, amounts): (&u64, &[u64; BLOCK_NUMBERS])| {
        let (s, t) = sheet.sums(block);
        exact_k(&terms(&lower(amounts, mortality_credit(s, t)))).ok_or(format!("block {block}: no d fits"))
    };
    let brackets: Vec<(Big, Big)> = sheet.blocks.iter().map(exact).collect::<Result<_, _>>()?;
    Ok(bounds(sheet, &brackets))
}

fn bounds(sheet: &Sheet, blocks: &[(Big, Big)]) -> Bounds {
    // The exact sum of K, in cents × SCALE².
    let (mut lower, mut upper) = (Big::from(0), Big::from(0));
    for &(low, high) in blocks {
        lower = lower + low;
        upper = upper + high;
    }

    // Both sides times 10,000 × 50,000 × SCALE²; credits and allowance stand where they are added.
    let of = |amount: u64| Big::from(u128::from(amount));
    let (g, ten_thousand, fifty_thousand) = (of(sheet.scalar()), Big::from(10_000), Big::from(50_000));
    let ro = Big::from(over_50_000(&sheet.joined(), &sheet.operational()));
    let credits = of(sheet.dividends() + sheet.free_credits());
    let exact = |sum_of_k: Big| g * ((sum_of_k + of(sheet.guarantee()) * cent()) * fifty_thousand + ro * cent());
    // #109: the allowance is g × (1.01 × n + 1) + 1 cents.
    let per_g = Big::from(101 * blocks.len() as u128 + 100) * hundredth_of_a_cent();
    Bounds {
        credits: g * credits * fifty_thousand * cent(),
        lower: exact(lower),
        upper: exact(upper),
        allowance: (g * per_g + ten_thousand * cent()) * fifty_thousand,
    }
}

/// What a cent is where numbers are times SCALE², and a hundredth of it.
pub(crate) fn cent() -> Big {
    Big::from(SCALE) * Big::from(SCALE)
}
fn hundredth_of_a_cent() -> Big {
    Big::from(SCALE / 10) * Big::from(SCALE / 10)
}

/// At or above the exact number between these ends, and less than the allowance above it; and whether the ends decided both.
pub(crate) fn within(reported: Big, (lower, upper): (Big, Big), allowance: Big) -> Result<bool, &'static str> {
    if reported < lower {
        return Err("below the exact one");
    }
    if reported >= upper + allowance {
        return Err("the allowance or more above the exact one");
    }
    Ok(reported >= upper && reported < lower + allowance)
}

/// The ends of the exact K, in cents × SCALE². None when no d fits: "3 × d is at least V" fails at the exact D.
pub(crate) fn exact_k(t: &Terms) -> Option<(Big, Big)> {
    if t.u == 0 {
        return Some((Big::from(0), Big::from(0)));
    }
    let scale = Big::from(SCALE);
    // I × SCALE
    let (low, high) = (Big::from(t.quarters) * Big::from(SCALE / 2) * Big::from(SCALE / 2)).roots();
    let i = |root: Big| root.max(Big::from(t.largest) * scale) + Big::from(t.twice_pc) * scale;
    // D × SCALE
    let a = Big::from(t.a) * scale;
    let radicand = |i: Big| a * a + a * i + i * i;
    let (low, high) = (radicand(i(low)).roots().0, radicand(i(high)).roots().1);

    let v = Big::from(t.v) * scale;
    if Big::from(3) * high < v {
        return None;
    }
    // M × SCALE², the larger of 0 and 7V² − 31dV + 30d². At V / 3 it is 0, and a lower end below that doesn't count.
    let m = |d: Big| {
        let (plus, minus) = (Big::from(7) * v * v + Big::from(30) * d * d, Big::from(31) * d * v);
        if plus > minus && Big::from(3) * d >= v {
            plus - minus
        } else {
            Big::from(0)
        }
    };
    // 48 × U × V + 6 × LT × V + M over 60 × V
    let rest = Big::from(48 * t.u * t.v + 6 * t.lt * t.v) * scale * scale;
    let divisor = u64::try_from(60 * t.v).unwrap();
    Some(((rest + m(low)).quotients(divisor).0, (rest + m(high)).quotients(divisor).1))
}

/// The number on a report's line, which must be the line of this code, block and item.
fn figure(report: &[u8], line: usize, code: &str, block: u64, item: usize) -> Result<u64, String> {
    let wrong = || format!("line {} isn't the line {code} {block} {item}", line + 1);
    let start = REPORT_LINE_BYTES * line;
    let bytes = report.get(start..start + REPORT_LINE_BYTES).ok_or_else(wrong)?;
    let (before, after) = (&bytes[..REPORT_NUMBER.start], &bytes[REPORT_NUMBER.end..]);
    if before != format!("{code} {block:>2} {item:>2} ").as_bytes() || after != b"\n" {
        return Err(wrong());
    }
    number(&bytes[REPORT_NUMBER]).ok_or_else(wrong)
}
