//! Writes the stored cases of the crate sheet_cases into two files, its stdin and its stdout: `cases INPUT EXPECTED`.
//!
//! INPUT: for each case a header of 12 bytes, the sheet's length in 5 digits with leading zeros, a space, the room in 5
//! digits with leading zeros, a line feed; then the sheet's bytes.
//!
//! EXPECTED: for each case a line in the form of a report's line, `ACC`, 0, 0 and the report's length where the sheet is
//! accepted, `REF`, the refusal's number, the kind of its place (0 nowhere, 1 line, 2 position) and the place (0 where
//! nowhere) where it is refused; then all bytes of the room, which were 35 ('#') before the call; then a line feed.
//!
//! Every case says here by hand what is answered; nothing is written unless the reference answers so.

use reference::*;
use std::{env, error::Error, fs};

type Line = (&'static str, u64, u64, u64, u64);

struct Case {
    sheet: Vec<u8>,
    room: usize,
    answer: Result<usize, Refusal>,
}

struct Cases(Vec<Case>);

impl Cases {
    /// Accepted with so many blocks; three bytes of the room are past the report.
    fn accepted(&mut self, blocks: usize, sheet: Vec<u8>) {
        let length = report_length(blocks);
        self.0.push(Case { sheet, room: length + 3, answer: Ok(length) });
    }

    /// Refused, although the room would hold one block's report.
    fn refused(&mut self, refusal: Refusal, sheet: Vec<u8>) {
        self.refused_with(1, refusal, sheet);
    }

    /// Refused, although the room would hold a report of so many blocks.
    fn refused_with(&mut self, blocks: usize, refusal: Refusal, sheet: Vec<u8>) {
        self.room(report_length(blocks) + 3, Err(refusal), sheet);
    }

    fn room(&mut self, room: usize, answer: Result<usize, Refusal>, sheet: Vec<u8>) {
        self.0.push(Case { sheet, room, answer });
    }
}

fn at(number: u8, line: usize) -> Refusal {
    Refusal::at_line(number, line)
}

fn nowhere(number: u8) -> Refusal {
    Refusal::nowhere(number)
}

fn sheet(lines: &[Line]) -> Vec<u8> {
    lines
        .iter()
        .flat_map(|&(code, block, class, first, second)| sheet_line(code, block, class, first, second))
        .collect()
}

/// One line of risk 1, then g: a sound sheet of one block, into whose first line bytes are put.
const RISK: Line = ("RSK", 1, 1, 100, 40);
const G: Line = ("GEN", 0, SCALAR, 10_000, 0);

/// The sound sheet with these bytes from this column of line 1 on. Columns count from 1.
fn put(column: usize, bytes: &[u8]) -> Vec<u8> {
    let mut sheet = sheet(&[RISK, G]);
    sheet[column - 1..column - 1 + bytes.len()].copy_from_slice(bytes);
    sheet
}

/// The first line of that sheet, broken.
fn broken() -> Vec<u8> {
    put(4, b"x")[..LINE_BYTES].to_vec()
}

/// All 629 lines, in their order, every amount the largest; LT (but for risk 7), prior volumes, acquired ones, dividend
/// credits, those of adjustable products and the group's as given. T is two thirds of them, with which the credit of
/// survival and death business is LT(1) itself.
fn full(seconds: u64) -> Vec<Line> {
    const MOST: u64 = LARGEST_AMOUNT;
    let amounts = |(code, block, class): (&'static str, u64, u64)| match (code, class) {
        ("RSK", EXPENSES) | ("OTH", _) => (code, block, class, MOST, 0),
        ("RSK" | "VOL", _) => (code, block, class, MOST, seconds),
        ("MOR", _) => (code, block, class, MOST, seconds / 3 * 2),
        ("GEN", SCALAR) => (code, block, class, LARGEST_SCALAR, 0),
        ("GEN", CREDITS) | ("ACQ" | "CRD", _) => (code, block, class, seconds, 0),
        _ => (code, block, class, MOST, 0),
    };
    all_lines(MOST_BLOCKS).into_iter().map(amounts).collect()
}

/// Every hundredth line in turn: 100 has no divisor in common with their number, 629, so that each comes once.
fn shuffled(lines: &[Line]) -> Vec<Line> {
    (0..lines.len()).map(|i| lines[(100 * i + 7) % lines.len()]).collect()
}

fn cases() -> Vec<Case> {
    let mut cases = Cases(Vec::new());
    cases.accepted(1, WHOLE_RUN.to_vec());
    let parts = [
        rows_1_to_4,
        rows_5_and_6,
        rows_8_to_10,
        rows_11_to_14,
        survival_and_death,
        row_16,
        participating,
        row_17,
        adjustable,
        bought_business,
        joined_prior,
        rules_of_acquired,
        two_bad_lines,
        duplicates,
        scalars,
        largest_amounts,
        blocks_of_zeros,
        lengths,
        lengths_and_layout,
        carriage_returns,
        strange_bytes,
        numbers_out_of_layout,
        credits,
        rooms,
        roots,
        finer_roots,
        orders,
        row_19,
        row_19_in_the_same_line,
        row_19_in_other_lines,
    ];
    for part in parts {
        part(&mut cases);
    }
    cases.0
}

/// The rows that a sheet can give, each with its number and place, alone and beside a fault that is tested later.
fn rows_1_to_4(c: &mut Cases) {
    // 1 beside 2: a full sheet and one byte more. (Alone, without 2, it is a whole line more, which the program's room
    // for a sheet and one byte doesn't hold.)
    c.room(0, Err(nowhere(1)), [sheet(&full(0)), b"\n".to_vec()].concat());
    // 2 alone: the last line feed is missing.
    c.refused(nowhere(2), sheet(&[RISK, G])[..79].to_vec());
    // 3 alone.
    c.refused(at(3, 1), put(40, b" "));
    // 3 beside 4 in the same line.
    c.refused(at(3, 1), put(1, b"XXXX"));
    // 3 beside 12: the broken line is the g line.
    c.refused(at(3, 2), [sheet(&[RISK]), broken()].concat());
    // 4 alone.
    c.refused(at(4, 2), sheet(&[RISK, ("RIS", 1, 2, 100, 0), G]));
    // 4 beside 5: block 33 of no code.
    c.refused(at(4, 1), sheet(&[("rsk", 33, 1, 100, 0), G]));
    // 4, a code of the report.
    c.refused(at(4, 1), sheet(&[("BLK", 1, 1, 100, 0), G]));
}

fn rows_5_and_6(c: &mut Cases) {
    // 5 alone: RSK block 0.
    c.refused(at(5, 1), sheet(&[("RSK", 0, 1, 100, 0), G]));
    // 5 alone: RSK block 33.
    c.refused(at(5, 1), sheet(&[("RSK", 33, 1, 100, 0), G]));
    // 5 alone: OTH block 33.
    c.refused(at(5, 2), sheet(&[RISK, ("OTH", 33, 1, 100, 0), G]));
    // 5 alone: VOL block 17.
    c.refused(at(5, 2), sheet(&[RISK, ("VOL", 17, 1, 100, 0), G]));
    // 5 alone: GEN block 1.
    c.refused(at(5, 2), sheet(&[G, ("GEN", 1, 1, 100, 0)]));
    // 5 beside 6.
    c.refused(at(5, 1), sheet(&[("VOL", 0, 9, 100, 0), G]));
    // 6 alone: RSK class 0.
    c.refused(at(6, 1), sheet(&[("RSK", 1, 0, 100, 0), G]));
    // 6 alone: RSK class 8.
    c.refused(at(6, 1), sheet(&[("RSK", 16, 8, 100, 0), G]));
    // 6 alone: OTH class 4.
    c.refused(at(6, 1), sheet(&[("OTH", 1, 4, 100, 0), G]));
    // 6 alone: VOL class 9.
    c.refused(at(6, 1), sheet(&[("VOL", 1, 9, 100, 0), G]));
    // 6 alone: GEN class 6.
    c.refused(at(6, 2), sheet(&[G, ("GEN", 0, 6, 100, 0)]));
    // 6 beside 8: a second amount too.
    c.refused(at(6, 1), sheet(&[("GEN", 0, 0, 100, 1), G]));
}

fn rows_8_to_10(c: &mut Cases) {
    // 8 alone: OTH with a second amount.
    c.refused(at(8, 1), sheet(&[("OTH", 1, 2, 100, 1), G]));
    // 8 alone: GEN with a second amount.
    c.refused(at(8, 2), sheet(&[RISK, ("GEN", 0, 3, 100, 100), G]));
    // 8 alone: LT(7) not 0.
    c.refused(at(8, 2), sheet(&[RISK, ("RSK", 1, 7, 100, 1), G]));
    // 8 beside 9: LT(7) above IR(7).
    c.refused(at(8, 1), sheet(&[("RSK", 1, 7, 0, 1), G]));
    // 8 beside 10: a g line with both amounts wrong.
    c.refused(at(8, 1), sheet(&[("GEN", 0, SCALAR, 0, 1)]));
    // 8 beside 11: the line stood before.
    c.refused(at(8, 2), sheet(&[("OTH", 1, 1, 100, 0), ("OTH", 1, 1, 100, 1), G]));
    // 9 alone: document 01's LT 3001 over IR 3000.
    c.refused(at(9, 1), sheet(&[("RSK", 1, 2, 3_000, 3_001), G]));
    // 9 beside 11: the line stood before.
    c.refused(at(9, 2), sheet(&[RISK, ("RSK", 1, 1, 0, 1), G]));
    // 9 beside 12: and there is no g line.
    c.refused(at(9, 1), sheet(&[("RSK", 16, 6, 0, LARGEST_AMOUNT)]));
    // 10 alone: the largest amount as g.
    c.refused(at(10, 2), sheet(&[RISK, ("GEN", 0, SCALAR, LARGEST_AMOUNT, 0)]));
    // 10 beside 14: no room either.
    c.room(0, Err(at(10, 2)), sheet(&[RISK, ("GEN", 0, SCALAR, 20_002, 0)]));
}

fn rows_11_to_14(c: &mut Cases) {
    // 11 alone.
    c.refused(at(11, 2), sheet(&[RISK, RISK, G]));
    // 11 beside 12: and there is no g line.
    c.refused(at(11, 2), sheet(&[RISK, RISK]));
    // 12 alone.
    c.refused(nowhere(12), sheet(&[RISK]));
    // 12 beside 13: credits above the bracket.
    c.refused(nowhere(12), sheet(&[RISK, ("GEN", 0, CREDITS, 1_000_000, 0)]));
    // 12 beside 14: no room either.
    c.room(0, Err(nowhere(12)), sheet(&[RISK]));
    // 13 alone.
    c.refused(nowhere(13), sheet(&[RISK, G, ("GEN", 0, CREDITS, LARGEST_AMOUNT, 0)]));
    // 13 beside 14: no room either.
    c.room(0, Err(nowhere(13)), sheet(&[G, ("GEN", 0, CREDITS, 1, 0)]));
    // 14 alone: room for no block, and there is one.
    c.room(report_length(0), Err(nowhere(14)), sheet(&[RISK, G]));
}

/// S and T, of which the credit lowers IR(1) and LT(1).
fn survival_and_death(c: &mut Cases) {
    let sums = |block: u64, s: u64, t: u64| ("MOR", block, 1, s, t);
    // The papers' 100 and 100: a credit of 129, below LT(1) and LT(1) itself.
    c.accepted(1, sheet(&[("RSK", 1, 1, 1_000, 400), sums(1, 100, 100), G]));
    c.accepted(1, sheet(&[("RSK", 1, 1, 129, 129), sums(1, 100, 100), G]));
    // T above S; the other block has no credit.
    c.accepted(
        2,
        sheet(&[
            ("RSK", 2, 1, 900, 800),
            ("RSK", 16, 1, 900, 800),
            ("RSK", 16, 3, 500, 77),
            ("OTH", 16, 2, 333, 0),
            sums(16, 7, 60_001),
            G,
        ]),
    );
    // The line makes no block exist: a credit of 0, with S and with T.
    c.accepted(0, sheet(&[sums(1, LARGEST_AMOUNT, 0), sums(2, 0, LARGEST_AMOUNT), sums(3, 0, 0), G]));
    // A block that exists by others: LT(1) is 0, and so is the credit.
    c.accepted(1, sheet(&[("OTH", 4, 1, 50, 0), sums(4, 0, 12), G]));
    // 5: block 0 and block 17.
    c.refused(at(5, 1), sheet(&[sums(0, 0, 0), G]));
    c.refused(at(5, 1), sheet(&[sums(17, 0, 0), G]));
    // 6: class 2, and class 0.
    c.refused(at(6, 1), sheet(&[("MOR", 1, 2, 0, 0), G]));
    c.refused(at(6, 1), sheet(&[("MOR", 16, 0, 0, 0), G]));
    // 4: letters of the code in another order.
    c.refused(at(4, 1), sheet(&[("MRO", 1, 1, 0, 0), G]));
    // 11: it stood before, beside 16.
    c.refused(at(11, 2), sheet(&[sums(1, 5, 5), sums(1, 5, 5), G]));
}

/// 16, a credit above its block's LT(1), alone and beside what is tested before it and after it.
fn row_16(c: &mut Cases) {
    let sums = ("MOR", 1, 1, 101, 101);
    let risk = ("RSK", 1, 1, 1_000, 129);
    // Alone: the credit of 101 and 101 is 130, a cent above.
    c.refused(nowhere(16), sheet(&[risk, sums, G]));
    // Alone: the block has no line of risk 1, or isn't there at all.
    c.refused(nowhere(16), sheet(&[("RSK", 1, 2, 1_000, 400), sums, G]));
    c.refused(nowhere(16), sheet(&[("RSK", 1, 1, 1_000, 400), ("MOR", 9, 1, 1, 1), G]));
    // Alone: the largest credit, which is above the largest amount.
    let (most, largest) = (LARGEST_AMOUNT, ("MOR", 16, 1, LARGEST_AMOUNT, LARGEST_AMOUNT));
    c.refused(nowhere(16), sheet(&[("RSK", 16, 1, most, most), largest, G]));
    // Beside a bad line after it.
    c.refused(at(8, 4), sheet(&[risk, sums, G, ("GEN", 0, CREDITS, 0, 1)]));
    // Beside 12.
    c.refused(nowhere(12), sheet(&[risk, sums]));
    // Beside 13.
    c.refused(nowhere(16), sheet(&[risk, sums, G, ("GEN", 0, CREDITS, most, 0)]));
    // Beside 14: no room either.
    c.room(0, Err(nowhere(16)), sheet(&[risk, sums, G]));
}

/// Blocks 17 to 32 and their dividend credits. Credit of 100 alone has K 100.
fn participating(c: &mut Cases) {
    let other = |block: u64| ("OTH", block, 2, 100, 0);
    // A participating block beside the block before it, without a credit.
    c.accepted(2, sheet(&[("RSK", 16, 1, 100, 40), other(17), G]));
    // Credits of a part of K, of all of it and of 0, and a block without one.
    c.accepted(3, sheet(&[other(17), other(20), other(32), G, ("CRD", 17, 1, 100, 0), ("CRD", 32, 1, 30, 0)]));
    c.accepted(2, sheet(&[RISK, ("RSK", 31, 7, 0, 0), G, ("CRD", 31, 1, 0, 0)]));
    // 4: letters of the code in another order.
    c.refused(at(4, 2), sheet(&[G, ("CDR", 17, 1, 0, 0)]));
    // 5: blocks 1, 16 and 33.
    c.refused(at(5, 2), sheet(&[G, ("CRD", 1, 1, 0, 0)]));
    c.refused(at(5, 2), sheet(&[G, ("CRD", 16, 1, 0, 0)]));
    c.refused(at(5, 2), sheet(&[G, ("CRD", 33, 1, 0, 0)]));
    // 6: classes 2 and 0, the first beside 8.
    c.refused(at(6, 3), sheet(&[other(17), G, ("CRD", 17, 2, 0, 1)]));
    c.refused(at(6, 3), sheet(&[other(32), G, ("CRD", 32, 0, 0, 0)]));
    // 8: a second amount, beside 11.
    c.refused(at(8, 4), sheet(&[other(17), G, ("CRD", 17, 1, 5, 0), ("CRD", 17, 1, 5, 1)]));
    // 11: it stood before, beside 17.
    c.refused(at(11, 4), sheet(&[other(17), G, ("CRD", 17, 1, 500, 0), ("CRD", 17, 1, 0, 0)]));
}

/// 17, a dividend credit above its block's K or for no block, alone and beside what is tested before it and after it.
fn row_17(c: &mut Cases) {
    let (other, above) = (("OTH", 17, 2, 100, 0), ("CRD", 17, 1, 101, 0));
    // Alone: a cent above; another block has enough.
    c.refused(nowhere(17), sheet(&[other, G, above]));
    c.refused(nowhere(17), sheet(&[other, ("OTH", 18, 2, 900, 0), G, above]));
    // Alone: the block isn't there, the credit is 0, or the largest.
    c.refused(nowhere(17), sheet(&[other, G, ("CRD", 18, 1, 0, 0)]));
    c.refused(nowhere(17), sheet(&[G, ("CRD", 32, 1, LARGEST_AMOUNT, 0)]));
    // Beside a bad line after it.
    c.refused(at(8, 4), sheet(&[other, G, above, ("CRD", 18, 1, 0, 1)]));
    // Beside 12.
    c.refused(nowhere(12), sheet(&[other, above]));
    // Beside 16.
    c.refused(nowhere(16), sheet(&[other, ("MOR", 1, 1, 1, 1), G, above]));
    // Beside 13, of the group credits and of an adjustable product.
    c.refused(nowhere(17), sheet(&[other, G, ("GEN", 0, CREDITS, LARGEST_AMOUNT, 0), above]));
    c.refused(nowhere(17), sheet(&[other, G, ("CRD", 0, 16, LARGEST_AMOUNT, 0), above]));
    // Beside 14: no room either.
    c.room(0, Err(nowhere(17)), sheet(&[other, G, above]));
}

/// Credits of adjustable products, compared with what is left: K 100 less 60, and 500 + RO 23.
fn adjustable(c: &mut Cases) {
    let bracket = [("OTH", 17, 2, 100, 0), ("GEN", 0, 2, 500, 0), G];
    let with = |more: &[Line]| sheet(&[&bracket, more, &[("CRD", 17, 1, 60, 0)]].concat());
    // Some of it; all of it, by one product, and by several and the group.
    c.accepted(1, with(&[("CRD", 0, 1, 63, 0)]));
    c.accepted(1, with(&[("CRD", 0, 16, 563, 0)]));
    c.accepted(1, with(&[("GEN", 0, CREDITS, 62, 0), ("CRD", 0, 3, 200, 0), ("CRD", 0, 9, 301, 0)]));
    // 13: a cent above, in the same ways.
    c.refused(nowhere(13), with(&[("CRD", 0, 16, 564, 0)]));
    c.refused(nowhere(13), with(&[("GEN", 0, CREDITS, 62, 0), ("CRD", 0, 3, 200, 0), ("CRD", 0, 9, 302, 0)]));
    // 6: classes 0 and 17.
    c.refused(at(6, 4), with(&[("CRD", 0, 0, 0, 0)]));
    c.refused(at(6, 4), with(&[("CRD", 0, 17, 0, 0)]));
    // 8: a second amount.
    c.refused(at(8, 4), with(&[("CRD", 0, 16, 1, 1)]));
    // 11: it stood before. The same class of GEN, and of block 17, is another line.
    c.refused(at(11, 5), with(&[("CRD", 0, 2, 1, 0), ("CRD", 0, 2, 1, 0)]));
    c.accepted(1, sheet(&[bracket[0], ("GEN", 0, 1, 1, 0), G, ("CRD", 0, 1, 1, 0), ("CRD", 17, 1, 1, 0)]));
}

/// #106: ACQ gives the acquired prior amount, which is added to the prior of its class and territory.
fn bought_business(c: &mut Cases) {
    let volume = |class: u64, current: u64, prior: u64| ("VOL", 1, class, current, prior);
    let acquired = |block: u64, class: u64, prior: u64| ("ACQ", block, class, prior, 0);
    // Document 003's example, in cents: 10,000 and 5,000 of prior and 22,500 of direct premiums, RO 675; the joined prior
    // typed in; and none acquired.
    c.accepted(0, sheet(&[volume(1, 22_500, 10_000), acquired(1, 1, 5_000), G]));
    c.accepted(0, sheet(&[volume(1, 22_500, 15_000), G]));
    c.accepted(0, sheet(&[volume(1, 22_500, 10_000), acquired(1, 1, 0), G]));
    // No prior of one's own.
    c.accepted(0, sheet(&[volume(1, 22_500, 0), acquired(1, 1, 15_000), G]));
    // The growth charge at 120 % of the joined prior of 200, at that of a cent less and at that of a cent more; and where the
    // prior is a cent less, in the last class of the last territory.
    for prior in [100, 99, 101] {
        c.accepted(0, sheet(&[volume(1, 240, 100), acquired(1, 1, prior), G]));
    }
    let last = |current: u64, prior: u64| ("VOL", 16, 8, current, prior);
    c.accepted(0, sheet(&[last(6_000, 2_500), acquired(16, 8, 2_500), G]));
    c.accepted(0, sheet(&[last(6_000, 2_499), acquired(16, 8, 2_500), G]));
    // Another class and another territory stay as they are, and what they have too much helps no other.
    c.accepted(0, sheet(&[volume(1, 240, 100), acquired(1, 2, 100), acquired(2, 1, 100), G]));
    c.accepted(0, sheet(&[volume(1, 240, 100), volume(2, 240, 100), acquired(1, 1, 100), acquired(2, 2, 900), G]));
    // A line for each class, of its factor.
    let classes = 1..=VOLUME_CLASSES as u64;
    let lines: Vec<Line> = classes.clone().map(|class| volume(class, 10_007 * class, 1_009 * class)).collect();
    let bought: Vec<Line> = classes.map(|class| acquired(1, class, 7_001)).collect();
    c.accepted(0, sheet(&[lines, bought, vec![G]].concat()));
    // It makes no block exist, and needs no VOL line: alone, in every territory, beside a block's own lines, and where MOR has
    // a credit. The room is for a report of no block, just so.
    c.room(report_length(0), Ok(report_length(0)), sheet(&[acquired(1, 1, 5_000), G]));
    let everywhere: Vec<Line> = (1..=MOST_TERRITORIES as u64).map(|block| acquired(block, 8, LARGEST_AMOUNT)).collect();
    c.room(report_length(0), Ok(report_length(0)), sheet(&[everywhere, vec![G]].concat()));
    c.accepted(1, sheet(&[RISK, acquired(1, 1, 5_000), acquired(2, 1, 5_000), G]));
    c.refused(nowhere(16), sheet(&[("MOR", 2, 1, 1, 1), acquired(2, 1, 5_000), G]));
}

/// #106: a joined prior above the largest amount isn't refused and nothing of it is cut.
fn joined_prior(c: &mut Cases) {
    const MOST: u64 = LARGEST_AMOUNT;
    let joined = |current: u64, prior: u64, acquired: u64| {
        sheet(&[("VOL", 3, 1, current, prior), ("ACQ", 3, 1, acquired, 0), G])
    };
    // A cent above it, and twice; with the largest current and with none.
    c.accepted(0, joined(MOST, MOST, 1));
    c.accepted(0, joined(MOST, 1, MOST));
    c.accepted(0, joined(MOST, MOST, MOST));
    c.accepted(0, joined(0, MOST, MOST));
    // Within it: all of it acquired, and just five sixths of the current, where there is a growth charge of a part of a cent.
    c.accepted(0, joined(MOST, 0, MOST));
    c.accepted(0, joined(MOST, MOST / 6 * 4, MOST / 6));
    // 13: RO is that of the joined prior, 675, and the group's credits are a cent above it; 825 would be that of the prior.
    let credits = |credits: u64| {
        sheet(&[("VOL", 1, 1, 22_500, 10_000), ("ACQ", 1, 1, 5_000, 0), G, ("GEN", 0, CREDITS, credits, 0)])
    };
    c.accepted(0, credits(675));
    c.refused(nowhere(13), credits(676));
    // 14: no room either.
    c.room(report_length(0) - 1, Err(nowhere(14)), credits(675));
}

/// #106: the rules of an ACQ line.
fn rules_of_acquired(c: &mut Cases) {
    let line = zeros("ACQ", 1, 1);
    // 3: a line that breaks the layout too.
    c.refused(at(3, 1), [&sheet(&[("ACQ", 17, 9, 0, 1)])[..LINE_BYTES - 1], b" ", &sheet(&[G])].concat());
    // 4: letters of the code in another order, and small ones.
    c.refused(at(4, 1), sheet(&[zeros("AQC", 1, 1), G]));
    c.refused(at(4, 1), sheet(&[zeros("acq", 1, 1), G]));
    // 5: block 0, which GEN has, 17 and 32, which RSK has, and 33; beside 6 and 8.
    for block in [0, 17, 32, 33] {
        c.refused(at(5, 1), sheet(&[zeros("ACQ", block, 1), G]));
    }
    c.refused(at(5, 1), sheet(&[("ACQ", 17, 9, 0, 1), G]));
    // 6: classes 0 and 9; beside 8.
    c.refused(at(6, 1), sheet(&[zeros("ACQ", 1, 0), G]));
    c.refused(at(6, 1), sheet(&[zeros("ACQ", 16, 9), G]));
    c.refused(at(6, 1), sheet(&[("ACQ", 16, 9, 0, 1), G]));
    // 8: a second amount, also one above the first; beside 11, and beside 19.
    c.refused(at(8, 1), sheet(&[("ACQ", 1, 1, 5_000, 1), G]));
    c.refused(at(8, 2), sheet(&[zeros("VOL", 16, 8), ("ACQ", 16, 8, 0, LARGEST_AMOUNT), G]));
    c.refused(at(8, 2), sheet(&[line, ("ACQ", 1, 1, 0, 1), G]));
    c.refused(at(8, 2), sheet(&[G, ("ACQ", 1, 1, 0, 1)]));
    // 11: it stood before, with its amount and with another; beside 12; out of order. VOL of the same block and class is
    // another line.
    c.refused(at(11, 2), sheet(&[line, line, G]));
    c.refused(at(11, 3), sheet(&[zeros("VOL", 1, 1), line, ("ACQ", 1, 1, 7, 0)]));
    c.refused(at(11, 3), sheet(&[line, G, line]));
    // 19: before VOL, also one of a higher block; after GEN, and after CRD; before MOR. (Beside its neighbours: `steps`.)
    c.refused(at(19, 2), sheet(&[line, zeros("VOL", 1, 1), G]));
    c.refused(at(19, 3), sheet(&[zeros("VOL", 1, 1), zeros("ACQ", 1, 8), zeros("VOL", 2, 1), G]));
    c.refused(at(19, 3), sheet(&[zeros("VOL", 1, 1), G, line]));
    c.refused(at(19, 3), sheet(&[G, zeros("CRD", 0, 1), line]));
    c.refused(at(19, 2), sheet(&[line, zeros("MOR", 1, 1), G]));
    // 12: it is the only line, and beside another of GEN; beside 13.
    c.refused(nowhere(12), sheet(&[line]));
    c.refused(nowhere(12), sheet(&[("ACQ", 1, 1, 10_000, 0), ("GEN", 0, 2, 5, 0), ("GEN", 0, CREDITS, 9, 0)]));
}

/// Two bad lines: the first one answers.
fn two_bad_lines(c: &mut Cases) {
    // 11 in line 2, 3 in line 3.
    c.refused(at(11, 2), [sheet(&[RISK, RISK]), broken()].concat());
    // 9 in line 1, 4 in line 2.
    c.refused(at(9, 1), sheet(&[("RSK", 1, 1, 0, 1), ("XXX", 1, 1, 0, 0), G]));
    // 3 in line 1, 3 in line 2.
    c.refused(at(3, 1), [broken(), put(4, b"x")].concat());
    // A bad line as the last of a full sheet: the block before it has no credit, and its own stands twice.
    let mut last = full(0);
    last.retain(|line| *line != ("CRD", 31, 1, 0, 0));
    last.push(("CRD", 32, 1, 0, 0));
    c.room(0, Err(at(11, MOST_LINES)), sheet(&last));
}

fn duplicates(c: &mut Cases) {
    // Equal amounts.
    c.refused(at(11, 2), sheet(&[("VOL", 2, 8, 5, 6), ("VOL", 2, 8, 5, 6), G]));
    // Other amounts.
    c.refused(at(11, 2), sheet(&[("VOL", 2, 8, 5, 6), ("VOL", 2, 8, 0, 0), G]));
    // A repeated g line, good.
    c.refused(at(11, 2), sheet(&[G, ("GEN", 0, SCALAR, 20_000, 0)]));
    // A repeated g line, bad.
    c.refused(at(10, 2), sheet(&[G, ("GEN", 0, SCALAR, 0, 0)]));
    // No duplicates: the same block and class under four codes, the same class of two blocks.
    c.accepted(
        2,
        sheet(&[
            RISK,
            ("RSK", 2, 1, 100, 40),
            ("OTH", 1, 1, 7, 0),
            ("VOL", 1, 1, 9, 3),
            ("ACQ", 1, 1, 3, 0),
            ("GEN", 0, 1, 9, 0),
            G,
        ]),
    );
}

fn scalars(c: &mut Cases) {
    // g 0.
    c.refused(at(10, 1), sheet(&[("GEN", 0, SCALAR, 0, 0)]));
    // g 1.
    c.accepted(1, sheet(&[RISK, ("GEN", 0, SCALAR, 1, 0)]));
    // g 20,000.
    c.accepted(1, sheet(&[RISK, ("GEN", 0, SCALAR, 20_000, 0)]));
    // g 20,001.
    c.refused(at(10, 1), sheet(&[("GEN", 0, SCALAR, 20_001, 0)]));
}

/// 629 lines with 32 blocks at the largest amounts.
fn largest_amounts(c: &mut Cases) {
    // LT, prior volumes, acquired ones and credits the largest as well: every joined prior is two amounts.
    c.accepted(32, sheet(&full(LARGEST_AMOUNT)));
    // LT, prior volumes, acquired ones and credits 0, which gives the largest figures of all.
    c.accepted(32, sheet(&full(0)));
}

/// Blocks that exist by zeros alone.
fn blocks_of_zeros(c: &mut Cases) {
    // A risk of zeros.
    c.accepted(1, sheet(&[("RSK", 3, 5, 0, 0), G]));
    // Credit of zero, in block 1, in a line behind that of a block with amounts.
    c.accepted(2, sheet(&[("RSK", 16, 1, 100, 40), ("OTH", 1, 2, 0, 0), G]));
    // Volumes make no block.
    c.accepted(0, sheet(&[("VOL", 5, 1, 15_000, 10_000), G]));
    // The scalar alone.
    c.accepted(0, sheet(&[G]));
}

fn lengths(c: &mut Cases) {
    // The empty sheet.
    c.room(report_length(0), Err(nowhere(12)), Vec::new());
    // 1 byte.
    c.refused(nowhere(2), b"\n".to_vec());
    // 39 bytes: a line without its line feed.
    c.refused(nowhere(2), sheet(&[G])[..39].to_vec());
    // 41 bytes: a line and an empty line.
    c.refused(nowhere(2), [sheet(&[G]), b"\n".to_vec()].concat());
    // The longest, lines of spaces.
    c.refused(at(3, 1), vec![b' '; LONGEST_SHEET]);
    // A byte too long: spaces, and no room.
    c.room(0, Err(nowhere(1)), vec![b' '; LONGEST_SHEET + 1]);
}

/// #108: the length isn't a multiple of 40. 3 with the first whole line that breaks the layout, and 2 where none does.
fn lengths_and_layout(c: &mut Cases) {
    let longer = |sheet: Vec<u8>| [sheet, b"\n".to_vec()].concat();
    // Line 1 of two, whose last line feed is missing, and with a byte behind it alone.
    c.refused(at(3, 1), put(4, b"x")[..79].to_vec());
    c.refused(at(3, 1), longer(broken()));
    // Line 2 of two and a byte; both, of which the first answers.
    c.refused(at(3, 2), longer([sheet(&[RISK]), broken()].concat()));
    c.refused(at(3, 1), longer([broken(), broken()].concat()));
    // What is behind the last whole line isn't looked at: 39 bytes that no layout allows.
    c.refused(nowhere(2), [sheet(&[G]), broken()[..39].to_vec()].concat());
    c.refused(nowhere(2), broken()[..39].to_vec());
    // 81 bytes.
    c.refused(nowhere(2), longer(sheet(&[RISK, G])));
    // Beside 4, 9, 11 and 12, which aren't tested: 2 where the lines keep the layout, and 3 where one behind them doesn't.
    let (no_code, above) = (("RIS", 1, 2, 100, 0), ("RSK", 1, 2, 0, 1));
    c.refused(nowhere(2), longer(sheet(&[no_code, G])));
    c.refused(nowhere(2), longer(sheet(&[RISK, RISK, G])));
    c.refused(at(3, 3), longer([sheet(&[above, RISK]), broken()].concat()));
    // A line that breaks the layout and has no code, and one that has no code alone.
    c.refused(at(3, 1), longer(put(1, b"XXXX")));
    c.refused(nowhere(2), longer(put(1, b"\n\r\0")));
    // As long as 1 lets pass, less a byte: the last whole line of 628.
    let mut most = sheet(&full(0));
    most[LINE_BYTES * 628 - 1] = b'\r';
    c.room(0, Err(at(3, 628)), most[..LONGEST_SHEET - 1].to_vec());
}

/// #108: "A sheet saved with carriage returns has 41 bytes a line": line 1 has one in column 40. Of 40 such lines the length is
/// a multiple of 40, and the first bad line answers as ever.
fn carriage_returns(c: &mut Cases) {
    let lines = full(0);
    for count in [1, 2, 39, 40, 41] {
        let saved = |line: &Line| [&sheet(&[*line])[..LINE_BYTES - 1], b"\r\n"].concat();
        c.refused(at(3, 1), lines[..count].iter().flat_map(saved).collect());
    }
}

/// NUL, carriage return, tab, line feed and bytes above 127, in numbers, between the columns and in the code.
fn strange_bytes(c: &mut Cases) {
    // NUL in a number.
    c.refused(at(3, 1), put(23, b"\0"));
    // NUL between the columns.
    c.refused(at(3, 1), put(7, b"\0"));
    // NUL in the code.
    c.refused(at(4, 1), put(3, b"\0"));
    // Carriage return in a number.
    c.refused(at(3, 1), put(39, b"\r"));
    // Carriage return between the columns.
    c.refused(at(3, 1), put(10, b"\r"));
    // Carriage return in the code.
    c.refused(at(4, 1), put(1, b"\r"));
    // Carriage return in place of the line feed.
    c.refused(at(3, 1), put(40, b"\r"));
    // Tab in a number, before its digits.
    c.refused(at(3, 1), put(11, b"\t"));
    // Tab between the columns.
    c.refused(at(3, 1), put(25, b"\t"));
    // Tab in the code.
    c.refused(at(4, 1), put(2, b"\t"));
    // A byte above 127 in a number: the digit 1 with its highest bit set.
    c.refused(at(3, 1), put(6, b"\xB1"));
    // A byte above 127 between the columns: a space with its highest bit set.
    c.refused(at(3, 1), put(4, b"\xA0"));
    // A byte above 127 in the code: an R with its highest bit set.
    c.refused(at(4, 1), put(1, b"\xD2"));
    // Line feed in the code.
    c.refused(at(4, 1), put(3, b"\n"));
}

/// Digits where none may be, numbers that are not right-justified, and none at all.
fn numbers_out_of_layout(c: &mut Cases) {
    // A digit between class and first amount.
    c.refused(at(3, 1), put(10, b"1"));
    // A digit between the amounts.
    c.refused(at(3, 1), put(25, b"0"));
    // A leading zero of the block.
    c.refused(at(3, 1), put(5, b"01"));
    // A leading zero of the class.
    c.refused(at(3, 1), put(8, b"01"));
    // A leading zero of the first amount.
    c.refused(at(3, 1), put(21, b"0100"));
    // A leading zero of the second amount, which is 00.
    c.refused(at(3, 1), put(38, b"00"));
    // A left-justified block.
    c.refused(at(3, 1), put(5, b"1 "));
    // A left-justified class.
    c.refused(at(3, 1), put(8, b"1 "));
    // A left-justified first amount.
    c.refused(at(3, 1), put(11, b"100           "));
    // A left-justified second amount.
    c.refused(at(3, 1), put(26, b"40            "));
    // No digit in the block.
    c.refused(at(3, 1), put(5, b"  "));
    // No digit in the second amount.
    c.refused(at(3, 1), put(26, b"              "));
    // A space inside a number.
    c.refused(at(3, 1), put(22, b"1 0"));
    // A sign before a number.
    c.refused(at(3, 1), put(37, b"-40"));
}

/// IR 100 with LT 40 has K 100; the bracket is 100 + 500 + RO 23.
fn credits(c: &mut Cases) {
    // Equal to the bracket: the buffer is 0.
    c.accepted(1, sheet(&[RISK, ("GEN", 0, 2, 500, 0), G, ("GEN", 0, CREDITS, 623, 0)]));
    // One cent above.
    c.refused(nowhere(13), sheet(&[RISK, ("GEN", 0, 2, 500, 0), G, ("GEN", 0, CREDITS, 624, 0)]));
}

/// Rooms for one block's report.
fn rooms(c: &mut Cases) {
    let length = report_length(1);
    // Empty.
    c.room(0, Err(nowhere(14)), sheet(&[RISK, G]));
    // One byte short.
    c.room(length - 1, Err(nowhere(14)), sheet(&[RISK, G]));
    // Exact.
    c.room(length, Ok(length), sheet(&[RISK, G]));
    // One byte long.
    c.room(length + 1, Ok(length), sheet(&[RISK, G]));
}

/// "Miscalibrations to exclude", and roots of every block.
fn roots(c: &mut Cases) {
    // An odd LT: K stays at U.
    c.accepted(1, sheet(&[("RSK", 1, 1, 1, 1), G]));
    // Roots that would be rounded down to the nearest, in two blocks.
    c.accepted(2, sheet(&[("RSK", 1, 1, 3, 0), ("RSK", 1, 2, 3, 0), ("RSK", 7, 1, 100, 0), ("OTH", 7, 2, 100, 0), G]));
    // A shrinking class and a shrinking territory beside a growing class.
    c.accepted(0, sheet(&[("VOL", 1, 1, 15_000, 10_000), ("VOL", 1, 2, 0, 90_000), ("VOL", 2, 1, 1, 90_000), G]));
    // PC where the floor is the larger, and where the root is.
    c.accepted(
        2,
        sheet(&[
            ("RSK", 1, 5, 100, 0),
            ("RSK", 1, 6, 100, 0),
            ("RSK", 2, 1, 100, 31),
            ("RSK", 2, 3, 80, 0),
            ("OTH", 1, 1, 50, 0),
            ("OTH", 2, 1, 50, 0),
            ("OTH", 2, 3, 33, 0),
            G,
        ]),
    );
}

/// #109: K is taken at D in hundredths of the half cent. Of components of 2 and 3 cents and credit of 8 it is 11, where whole half
/// cents would give 12: a dividend credit of 11, and of 12.
fn finer_roots(c: &mut Cases) {
    let with = |dividend: u64| {
        let lines = [("RSK", 17, 1, 2, 0), ("RSK", 17, 2, 3, 0), ("OTH", 17, 2, 8, 0), G, ("CRD", 17, 1, dividend, 0)];
        sheet(&lines)
    };
    c.accepted(1, with(11));
    c.refused(nowhere(17), with(12));
}

/// A line of zeros.
fn zeros(code: &'static str, block: u64, class: u64) -> Line {
    (code, block, class, 0, 0)
}

/// #105: a line for every step of the order, from class to class, from block to block, where classes may fall, and from code
/// to code, where both may.
fn steps() -> Vec<Line> {
    vec![
        zeros("RSK", 1, 7),
        zeros("RSK", 2, 1),
        zeros("RSK", 32, 1),
        zeros("RSK", 32, 2),
        zeros("RSK", 32, 7),
        zeros("OTH", 1, 2),
        zeros("OTH", 1, 3),
        zeros("OTH", 16, 3),
        zeros("OTH", 17, 1),
        zeros("OTH", 18, 1),
        zeros("OTH", 32, 3),
        zeros("MOR", 1, 1),
        zeros("MOR", 15, 1),
        zeros("MOR", 16, 1),
        zeros("VOL", 1, 1),
        zeros("VOL", 9, 8),
        zeros("VOL", 10, 1),
        zeros("VOL", 16, 7),
        zeros("VOL", 16, 8),
        zeros("ACQ", 1, 1),
        zeros("ACQ", 9, 8),
        zeros("ACQ", 10, 1),
        zeros("ACQ", 16, 8),
        zeros("GEN", 0, 1),
        zeros("GEN", 0, 2),
        G,
        zeros("GEN", 0, CREDITS),
        zeros("CRD", 0, 1),
        zeros("CRD", 0, 9),
        zeros("CRD", 0, 10),
        zeros("CRD", 0, 16),
        zeros("CRD", 17, 1),
        zeros("CRD", 18, 1),
    ]
}

/// The steps in their order, and every two neighbours of them exchanged: 19 alone, at the second of the two.
fn orders(c: &mut Cases) {
    let lines = steps();
    c.accepted(6, sheet(&lines));
    for first in 0..lines.len() - 1 {
        let mut exchanged = lines.clone();
        exchanged.swap(first, first + 1);
        c.refused_with(6, at(19, first + 2), sheet(&exchanged));
    }
}

/// 19, a line that doesn't come after the one before it, alone and beside faults of the whole sheet, which are tested before
/// it (1, 2) and after it.
fn row_19(c: &mut Cases) {
    // Alone: the two lines of the sound sheet; document 01's whole run, its first line put last; a line that comes after
    // the first and not after the one before it; the codes by the alphabet, from its start and from its end.
    c.refused(at(19, 2), sheet(&[G, RISK]));
    c.refused(at(19, 13), [&WHOLE_RUN[LINE_BYTES..], &WHOLE_RUN[..LINE_BYTES]].concat());
    c.refused(at(19, 3), sheet(&[RISK, zeros("RSK", 1, 3), zeros("RSK", 1, 2), G]));
    let (mortality, volume, acquired) = (zeros("MOR", 1, 1), zeros("VOL", 1, 1), zeros("ACQ", 1, 1));
    let (other, product) = (zeros("OTH", 1, 1), zeros("CRD", 0, 1));
    c.refused(at(19, 3), sheet(&[acquired, product, G, mortality, other, RISK, volume]));
    c.refused(at(19, 2), sheet(&[volume, RISK, other, mortality, G, product, acquired]));
    // The lines of a block together, as sheets were written before.
    c.refused_with(2, at(19, 3), sheet(&[RISK, zeros("OTH", 1, 1), zeros("RSK", 2, 1), zeros("OTH", 2, 1), G]));
    // Beside 1: a full sheet out of order, and one byte more.
    c.room(0, Err(nowhere(1)), [sheet(&shuffled(&full(0))), b"\n".to_vec()].concat());
    // Beside 2: the last line feed is missing.
    c.refused(nowhere(2), sheet(&[G, RISK])[..79].to_vec());
    // Beside 12.
    c.refused(at(19, 2), sheet(&[zeros("OTH", 1, 1), RISK]));
    // Beside 16.
    c.refused(at(19, 2), sheet(&[("MOR", 1, 1, 5, 5), zeros("OTH", 1, 1), G]));
    // Beside 17.
    c.refused(at(19, 2), sheet(&[zeros("CRD", 18, 1), G]));
    // Beside 13.
    c.refused(at(19, 2), sheet(&[("GEN", 0, CREDITS, LARGEST_AMOUNT, 0), G]));
    // Beside 14: no room either; a full sheet whose lines are mixed, and one whose first line is put last.
    c.room(0, Err(at(19, 2)), sheet(&[G, RISK]));
    c.room(0, Err(at(19, 8)), sheet(&shuffled(&full(0))));
    let mut turned = full(0);
    turned.rotate_left(1);
    c.room(0, Err(at(19, MOST_LINES)), sheet(&turned));
}

/// 19 beside another fault of the same line: all the others are tested before it.
fn row_19_in_the_same_line(c: &mut Cases) {
    // 3 and 4. Without a code the line has no place in the order.
    c.refused(at(3, 2), [sheet(&[G]), broken()].concat());
    c.refused(at(4, 2), sheet(&[G, zeros("RKS", 1, 1)]));
    // 5: a block too low, and one too high, of a code that comes before.
    c.refused(at(5, 2), sheet(&[zeros("RSK", 1, 2), zeros("RSK", 0, 1), G]));
    c.refused(at(5, 2), sheet(&[G, zeros("VOL", 17, 1)]));
    // 6.
    c.refused(at(6, 2), sheet(&[zeros("OTH", 1, 1), zeros("OTH", 1, 0), G]));
    c.refused(at(6, 2), sheet(&[zeros("VOL", 1, 1), zeros("MOR", 1, 2), G]));
    // 8, of each sort.
    c.refused(at(8, 2), sheet(&[G, ("OTH", 1, 1, 1, 1)]));
    c.refused(at(8, 2), sheet(&[G, ("GEN", 0, 3, 1, 1)]));
    c.refused(at(8, 2), sheet(&[G, ("RSK", 1, 7, 1, 1)]));
    // 9.
    c.refused(at(9, 2), sheet(&[G, ("RSK", 1, 1, 0, 1)]));
    // 10: a wrong g in a wrong place.
    c.refused(at(10, 2), sheet(&[zeros("GEN", 0, CREDITS), zeros("GEN", 0, SCALAR)]));
    // 11: the line stood before, with its amounts and with others, one line and two lines before.
    c.refused(at(11, 3), sheet(&[RISK, G, RISK]));
    c.refused(at(11, 3), sheet(&[("VOL", 2, 8, 5, 6), G, zeros("VOL", 2, 8)]));
    c.refused(at(11, 4), sheet(&[RISK, zeros("RSK", 1, 2), zeros("RSK", 1, 3), RISK, G]));
    // 11 and no 19: right behind its equal.
    c.refused(at(11, 2), sheet(&[zeros("OTH", 32, 3), zeros("OTH", 32, 3), G]));
}

/// 19 beside another fault of another line: the first bad line answers.
fn row_19_in_other_lines(c: &mut Cases) {
    // Before it: 3, 5, 9 and 11.
    c.refused(at(3, 1), [broken(), sheet(&[G, RISK])].concat());
    c.refused(at(5, 1), sheet(&[zeros("GEN", 1, 1), RISK, G]));
    c.refused(at(9, 1), sheet(&[("RSK", 1, 2, 0, 1), RISK, G]));
    c.refused(at(11, 2), sheet(&[zeros("OTH", 1, 1), zeros("OTH", 1, 1), RISK, G]));
    // Behind it: 3, 4, 5, 6, 8, 9, 10 and 11.
    let turned = [zeros("OTH", 1, 1), RISK];
    c.refused(at(19, 2), [sheet(&turned), broken()].concat());
    for bad in [
        zeros("XXX", 1, 1),
        zeros("RSK", 33, 1),
        zeros("VOL", 1, 9),
        ("GEN", 0, 1, 0, 1),
        ("RSK", 2, 1, 0, 1),
        zeros("GEN", 0, SCALAR),
        RISK,
    ] {
        c.refused(at(19, 2), sheet(&[&turned[..], &[bad]].concat()));
    }
    // Two lines out of order: the first of them.
    c.refused(at(19, 2), sheet(&[zeros("RSK", 1, 5), zeros("RSK", 1, 3), RISK, G]));
    c.refused(
        at(19, 3),
        sheet(&[RISK, zeros("RSK", 1, 5), zeros("RSK", 1, 3), zeros("RSK", 1, 4), zeros("RSK", 1, 2)]),
    );
}

/// The header and the sheet.
fn input(case: &Case) -> Vec<u8> {
    let mut bytes = format!("{:05} {:05}\n", case.sheet.len(), case.room).into_bytes();
    bytes.extend(&case.sheet);
    bytes
}

/// The answer's line and the room after the call.
fn expected(case: &Case) -> Result<Vec<u8>, String> {
    let mut room = vec![b'#'; case.room];
    let answer = sheet_call(&case.sheet, &mut room);
    if answer != case.answer {
        return Err(format!("written {:?}, answered {answer:?}", case.answer));
    }
    let mut bytes = match answer {
        Ok(length) => report_line("ACC", 0, 0, length as u64),
        Err(Refusal { number, place }) => {
            let (kind, place) = match place {
                Place::Nowhere => (0, 0),
                Place::Line(line) => (1, line),
                Place::Position(position) => (2, position),
                other => return Err(format!("the sheet call has no place {other:?}")),
            };
            report_line("REF", number.into(), kind, place as u64)
        }
    };
    bytes.extend(room);
    bytes.push(b'\n');
    Ok(bytes)
}

fn main() -> Result<(), Box<dyn Error>> {
    let arguments: Vec<String> = env::args().skip(1).collect();
    let [input_file, expected_file] = &arguments[..] else {
        return Err("usage: cases INPUT EXPECTED".into());
    };
    let (mut inputs, mut outputs) = (Vec::new(), Vec::new());
    let cases = cases();
    for (at, case) in cases.iter().enumerate() {
        inputs.extend(input(case));
        outputs.extend(expected(case).map_err(|why| format!("case {}: {why}", at + 1))?);
    }
    fs::write(input_file, inputs)?;
    fs::write(expected_file, outputs)?;
    println!("{} cases", cases.len());
    Ok(())
}

#[cfg(test)]
mod tests {
    use super::*;

    #[test]
    fn the_reference_answers_as_written() {
        let cases = cases();
        assert!(cases.len() <= 300, "{} cases", cases.len());
        for (at, case) in cases.iter().enumerate() {
            assert!(case.sheet.len() <= LONGEST_SHEET + 1 && case.room <= LONGEST_REPORT + 93);
            assert_eq!(input(case).len(), 12 + case.sheet.len());
            let expected = expected(case).unwrap_or_else(|why| panic!("case {}: {why}", at + 1));
            assert_eq!(expected.len(), REPORT_LINE_BYTES + case.room + 1);
            if let Ok(length) = case.answer {
                demand3(&case.sheet, &expected[REPORT_LINE_BYTES..REPORT_LINE_BYTES + length]).unwrap();
            }
        }
    }

    #[test]
    fn no_case_stands_twice() {
        let mut cases: Vec<Vec<u8>> = cases().iter().map(input).collect();
        let all = cases.len();
        cases.sort();
        cases.dedup();
        assert_eq!(cases.len(), all);
    }

    #[test]
    fn every_row_of_a_sheet_stands() {
        let numbers: std::collections::BTreeSet<u8> =
            cases().iter().filter_map(|case| case.answer.err().map(|refusal| refusal.number)).collect();
        assert_eq!(numbers.into_iter().collect::<Vec<u8>>(), [1, 2, 3, 4, 5, 6, 8, 9, 10, 11, 12, 13, 14, 16, 17, 19]);
    }
}
