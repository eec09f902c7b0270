//! "The sheet and the report": the sheet call.

use crate::block::{MORTALITY_IR, MORTALITY_LT, PC};
use crate::operational::ro;
use crate::*;
use std::collections::{BTreeMap, BTreeSet};
use std::ops::Range;

/// What a sheet says. An absent line means zeros.
pub(crate) struct Sheet {
    /// The blocks that exist, ascending, each with the numbers of the block call as they were entered.
    pub blocks: BTreeMap<u64, [u64; BLOCK_NUMBERS]>,
    /// #101: S and T of the blocks that have such a line.
    mortality: BTreeMap<u64, (u64, u64)>,
    /// #102: the dividend credits of the blocks that have such a line.
    dividends: BTreeMap<u64, u64>,
    /// #102: the credits of adjustable products.
    adjustable: [u64; ADJUSTABLE_PRODUCTS],
    /// The territories, current and prior as they were entered.
    pub volumes: [u64; MOST_VOLUMES],
    /// #106: the acquired prior amounts, each class of a territory after the other.
    acquired: [u64; MOST_TERRITORIES * VOLUME_CLASSES],
    /// GEN classes 1 to 5 at 0 to 4.
    general: [u64; GENERAL_CLASSES],
}

impl Sheet {
    pub fn operational(&self) -> [u64; GENERAL_NUMBERS] {
        [self.general[0], self.general[1], self.general[2]]
    }
    pub fn guarantee(&self) -> u64 {
        self.general[1]
    }
    pub fn scalar(&self) -> u64 {
        self.general[SCALAR as usize - 1]
    }
    /// #102: the credits that belong to no block, those of adjustable products and the group credits.
    pub fn free_credits(&self) -> u64 {
        self.adjustable.iter().sum::<u64>() + self.general[CREDITS as usize - 1]
    }
    /// #102: the credits that belong to blocks.
    pub fn dividends(&self) -> u64 {
        self.dividends.values().sum()
    }

    /// #101: S and T of a block.
    pub fn sums(&self, block: u64) -> (u64, u64) {
        self.mortality.get(&block).copied().unwrap_or_default()
    }
    /// #101: LT(1) of a block, which need not exist.
    fn mortality_lt(&self, block: u64) -> u64 {
        self.blocks.get(&block).map_or(0, |amounts| amounts[MORTALITY_LT])
    }
    /// #106: the territories, to each class's prior added the acquired one. The joined prior may be two amounts large, so
    /// that it isn't one of the operational call.
    pub fn joined(&self) -> [u64; MOST_VOLUMES] {
        let mut volumes = self.volumes;
        for (pair, acquired) in volumes.chunks_mut(2).zip(self.acquired) {
            pair[1] += acquired;
        }
        volumes
    }
    /// Each block's number with its I, D, U, LT and K. Lines that were accepted can't be refused by the block call.
    pub fn figures(&self) -> Vec<(u64, [u64; FIGURES])> {
        let lowered = |(&number, amounts)| {
            let (s, t) = self.sums(number);
            (number, lower(amounts, mortality_credit(s, t)))
        };
        let reported = |(number, amounts)| {
            // #107: the report doesn't have the steps.
            let [i, d, u, lt, k, ..] = block_call(&amounts).unwrap();
            (number, [i, d, u, lt, k])
        };
        self.blocks.iter().map(lowered).map(reported).collect()
    }
    pub fn sum_of_k(&self) -> u64 {
        self.figures().iter().map(|(_, figures)| figures[4]).sum()
    }
    pub fn ro(&self) -> u64 {
        ro(&self.joined(), &self.operational())
    }
    /// #102: whether a dividend credit is above its block's K, or its block has no RSK or OTH line, whatever its amount.
    pub fn dividend_too_large(&self) -> bool {
        let k: BTreeMap<u64, u64> = self.figures().iter().map(|&(number, figures)| (number, figures[4])).collect();
        self.dividends.iter().any(|(block, &dividend)| k.get(block).is_none_or(|&k| dividend > k))
    }
    /// "The buffer": the bracket as reported, the credits that belong to no block not yet taken off.
    pub fn before_free_credits(&self) -> u64 {
        self.sum_of_k() - self.dividends() + self.guarantee() + self.ro()
    }
}

/// #101: the credit lowers both IR(1) and LT(1) of the block. It isn't above LT(1).
pub(crate) fn lower(amounts: &[u64; BLOCK_NUMBERS], credit: u64) -> [u64; BLOCK_NUMBERS] {
    let mut lowered = *amounts;
    lowered[MORTALITY_IR] -= credit;
    lowered[MORTALITY_LT] -= credit;
    lowered
}

/// The sheet call: the report's length, and the report in the lent bytes. A refusal changes none of them.
pub fn sheet_call(sheet: &[u8], report: &mut [u8]) -> Result<usize, Refusal> {
    let sheet = read_sheet(sheet)?;

    // 17: a dividend credit above its block's K, or of no block.
    if sheet.dividend_too_large() {
        return Err(Refusal::nowhere(17));
    }
    // 13: credits above sum of K + guarantee requirement + RO, as reported; by #102 those that belong to no block, above
    // what is left after the dividend credits.
    let before_credits = sheet.before_free_credits();
    if sheet.free_credits() > before_credits {
        return Err(Refusal::nowhere(13));
    }
    // 14: the lent report is shorter than the report.
    let length = report_length(sheet.blocks.len());
    if report.len() < length {
        return Err(Refusal::nowhere(14));
    }

    // "The buffer": g × the whole bracket, rounded up to a cent.
    let bracket = u128::from(before_credits - sheet.free_credits());
    let buffer = u64::try_from((u128::from(sheet.scalar()) * bracket).div_ceil(10_000)).unwrap();

    // Blocks ascend, each with five BLK lines; three TOT lines close the report.
    let mut lines = Vec::new();
    for (number, figures) in sheet.figures() {
        for (item, figure) in (1..).zip(figures) {
            lines.push(report_line("BLK", number, item, figure));
        }
    }
    for (item, figure) in (1..).zip([sheet.sum_of_k(), sheet.ro(), buffer]) {
        lines.push(report_line("TOT", 0, item, figure));
    }
    report[..length].copy_from_slice(&lines.concat());
    Ok(length)
}

/// What tsav-sheet is to print: the report, or the line of the refusal.
pub fn print_sheet(sheet: &[u8]) -> Vec<u8> {
    let mut report = vec![0; LONGEST_REPORT];
    match sheet_call(sheet, &mut report) {
        Ok(length) => report[..length].to_vec(),
        Err(refusal) => refusal.line(),
    }
}

/// 29 × (5n + 3) bytes for n blocks.
pub const fn report_length(blocks: usize) -> usize {
    REPORT_LINE_BYTES * (FIGURES * blocks + 3)
}

/// The columns of the number in a report's line, as indexes.
pub(crate) const REPORT_NUMBER: Range<usize> = 10..28;

/// A report's line: code 1–3, block 5–6, item 8–9, number in 11–28, a line feed last.
pub fn report_line(code: &str, block: u64, item: u64, number: u64) -> Vec<u8> {
    let line = format!("{code} {block:>2} {item:>2} {number:>18}\n").into_bytes();
    assert_eq!(line.len(), REPORT_LINE_BYTES);
    line
}

/// A sheet's line: code 1–3, block 5–6, class 8–9, amounts in 11–24 and 26–39, a line feed last.
pub fn sheet_line(code: &str, block: u64, class: u64, first: u64, second: u64) -> Vec<u8> {
    let line = format!("{code} {block:>2} {class:>2} {first:>14} {second:>14}\n").into_bytes();
    assert_eq!(line.len(), LINE_BYTES);
    line
}

/// #105: the codes in the order in which their lines come; by #106 ACQ after VOL.
const CODES: [&str; 7] = ["RSK", "OTH", "MOR", "VOL", "ACQ", "GEN", "CRD"];

/// #105: "ascend strictly by code, .. then by block, then by class". What a line is compared by: the place of its code among
/// them, its block, its class.
pub(crate) type Key = (usize, u64, u64);

/// The key of a line whose code is one of them.
pub(crate) fn key_of(code: &[u8], block: u64, class: u64) -> Key {
    let code = CODES.iter().position(|known| known.as_bytes() == code).expect("a known code");
    (code, block, class)
}

/// Code, block and class of every line that a sheet of so many blocks and territories can have, in the order of a sheet.
pub fn all_lines(blocks: usize) -> Vec<(&'static str, u64, u64)> {
    let lines_of = |code: &'static str, block: u64| {
        let last = last_class(code.as_bytes(), block).unwrap_or(0);
        (1..=last).map(move |class| (code, block, class))
    };
    let of_code = |code: &'static str| (0..=blocks as u64).flat_map(move |block| lines_of(code, block));
    CODES.into_iter().flat_map(of_code).collect()
}

/// "What is turned away": 1, then 2, before which #108 tests the whole lines for 3.
pub(crate) fn measure(bytes: &[u8]) -> Result<(), Refusal> {
    if bytes.len() > LONGEST_SHEET {
        return Err(Refusal::nowhere(1));
    }
    if !bytes.len().is_multiple_of(LINE_BYTES) {
        // #108: "3 with the first bad whole line, and 2 if all are sound".
        return Err(first_broken_line(bytes).map_or(Refusal::nowhere(2), |line| Refusal::at_line(3, line)));
    }
    Ok(())
}

/// The lines that were read, for the rules of a line beside those before it.
#[derive(Default)]
pub(crate) struct Before {
    all: BTreeSet<Key>,
    last: Option<Key>,
}

impl Before {
    /// One line more, tested for 3 to 10, then 11, and by #105 last for 19.
    pub fn read<'a>(&mut self, bytes: &'a [u8]) -> Result<Line<'a>, u8> {
        let line = read_line(bytes)?;
        let key = key_of(line.code, line.block, line.class);
        // 11: code, block and class stood before.
        if !self.all.insert(key) {
            return Err(11);
        }
        // 19, by #105: the line doesn't come after the one before it.
        if self.last.is_some_and(|last| key <= last) {
            return Err(19);
        }
        self.last = Some(key);
        Ok(line)
    }
}

/// "What is turned away": 1, 2, the first bad line, in it by #105 19 last, 12; by #101 then 16.
pub(crate) fn read_sheet(bytes: &[u8]) -> Result<Sheet, Refusal> {
    measure(bytes)?;
    let mut sheet = Sheet {
        blocks: BTreeMap::new(),
        mortality: BTreeMap::new(),
        dividends: BTreeMap::new(),
        adjustable: [0; ADJUSTABLE_PRODUCTS],
        volumes: [0; MOST_VOLUMES],
        acquired: [0; MOST_TERRITORIES * VOLUME_CLASSES],
        general: [0; GENERAL_CLASSES],
    };
    let mut before = Before::default();
    for (at, bytes) in bytes.chunks(LINE_BYTES).enumerate() {
        let line = before.read(bytes).map_err(|number| Refusal::at_line(number, at + 1))?;
        sheet.enter(&line);
    }
    // An accepted g line is never 0, so 0 means that there is none.
    if sheet.scalar() == 0 {
        return Err(Refusal::nowhere(12));
    }
    // 16: a credit above its block's LT(1).
    if sheet.mortality.iter().any(|(&block, &(s, t))| mortality_credit(s, t) > sheet.mortality_lt(block)) {
        return Err(Refusal::nowhere(16));
    }
    Ok(sheet)
}

/// #108: the first of the whole lines, counted from 1, whose columns 4–40 break the layout. The bytes behind the last whole line
/// are no line, and no other rule is tested.
fn first_broken_line(bytes: &[u8]) -> Option<usize> {
    let whole_lines = bytes.len() / LINE_BYTES;
    (1..=whole_lines).find(|line| read_layout(&bytes[LINE_BYTES * (line - 1)..LINE_BYTES * line]).is_none())
}

pub(crate) struct Line<'a> {
    pub code: &'a [u8],
    pub block: u64,
    pub class: u64,
    pub first: u64,
    pub second: u64,
}

/// One line, tested for 3, 4, 5, 6, 8, 9 and 10 in this order.
fn read_line(bytes: &[u8]) -> Result<Line<'_>, u8> {
    // 3: columns 4–40 break the layout.
    let line = read_layout(bytes).ok_or(3)?;
    let Line { code, block, class, first, second } = line;
    // 4: the code isn't one of the four, seven with #101, #102 and #106. 5: the block is outside the code's range.
    let last = last_class(code, block)?;
    // 6: the class is.
    if !(1..=last).contains(&class) {
        return Err(6);
    }
    // 8: second amount not 0 for OTH or GEN, by #102 for CRD, by #106 for ACQ; LT(7) not 0.
    let alone = matches!(code, b"OTH" | b"ACQ" | b"GEN" | b"CRD") || (code == b"RSK" && class == EXPENSES);
    if second != 0 && alone {
        return Err(8);
    }
    // 9: LT above IR.
    if code == b"RSK" && second > first {
        return Err(9);
    }
    // 10: g outside 1–20,000.
    if code == b"GEN" && class == SCALAR && !(1..=LARGEST_SCALAR).contains(&first) {
        return Err(10);
    }
    Ok(line)
}

/// The table of codes: the classes of a code and block are 1 to this. 4 where there is no such code, 5 where it hasn't this
/// block.
pub(crate) fn last_class(code: &[u8], block: u64) -> Result<u64, u8> {
    const LAST: u64 = MOST_BLOCKS as u64;
    const TERRITORIES: u64 = MOST_TERRITORIES as u64;
    const SIXTEEN: u64 = NON_PARTICIPATING as u64;
    const SEVENTEEN: u64 = SIXTEEN + 1;
    match (code, block) {
        (b"RSK", 1..=LAST) => Ok(RISKS as u64),
        (b"OTH", 1..=LAST) => Ok(3),
        (b"MOR", 1..=SIXTEEN) => Ok(1),
        (b"VOL" | b"ACQ", 1..=TERRITORIES) => Ok(VOLUME_CLASSES as u64),
        (b"GEN", 0) => Ok(GENERAL_CLASSES as u64),
        (b"CRD", 0) => Ok(ADJUSTABLE_PRODUCTS as u64),
        (b"CRD", SEVENTEEN..=LAST) => Ok(1),
        (b"RSK" | b"OTH" | b"MOR" | b"VOL" | b"ACQ" | b"GEN" | b"CRD", _) => Err(5),
        _ => Err(4),
    }
}

impl Sheet {
    /// A line that was tested.
    fn enter(&mut self, line: &Line) {
        let at = line.class as usize - 1;
        match line.code {
            // A block exists when it has an RSK or OTH line, zeros included.
            b"RSK" => {
                let amounts = self.blocks.entry(line.block).or_insert([0; BLOCK_NUMBERS]);
                amounts[2 * at] = line.first;
                amounts[2 * at + 1] = line.second;
            }
            b"OTH" => self.blocks.entry(line.block).or_insert([0; BLOCK_NUMBERS])[PC + at] = line.first,
            // It makes no block exist.
            b"MOR" => {
                self.mortality.insert(line.block, (line.first, line.second));
            }
            b"VOL" => {
                let territory = TERRITORY_NUMBERS * (line.block as usize - 1);
                self.volumes[territory + 2 * at] = line.first;
                self.volumes[territory + 2 * at + 1] = line.second;
            }
            // Neither does this, nor does it need its VOL line.
            b"ACQ" => self.acquired[VOLUME_CLASSES * (line.block as usize - 1) + at] = line.first,
            // Neither does this; block 0 has the adjustable products.
            b"CRD" if line.block == 0 => self.adjustable[at] = line.first,
            b"CRD" => {
                self.dividends.insert(line.block, line.first);
            }
            _ => self.general[at] = line.first,
        }
    }
}

/// A sheet's line as indexes, which count from 0 where columns count from 1: the code in columns 1–3, block in 5–6,
/// class in 8–9, amounts in 11–24 and 26–39, spaces between them, a line feed in 40.
pub(crate) const CODE: Range<usize> = 0..3;
pub(crate) const FIELDS: [Range<usize>; 4] = [4..6, 7..9, 10..24, 25..39];
pub(crate) const SPACES: [usize; 4] = [3, 6, 9, 24];
pub(crate) const LINE_FEED: usize = LINE_BYTES - 1;

/// Columns 4–40, and the code as it stands.
fn read_layout(line: &[u8]) -> Option<Line<'_>> {
    if SPACES.iter().any(|&at| line[at] != b' ') || line[LINE_FEED] != b'\n' {
        return None;
    }
    let [block, class, first, second] = FIELDS.map(|field| number(&line[field]));
    Some(Line { code: &line[CODE], block: block?, class: class?, first: first?, second: second? })
}

/// A number: decimal, right-justified, spaces before, at least one digit, no leading zero except 0 itself.
pub(crate) fn number(field: &[u8]) -> Option<u64> {
    let spaces = field.iter().take_while(|&&byte| byte == b' ').count();
    let digits = &field[spaces..];
    let sound = match digits {
        [] => false,
        [b'0', _, ..] => false,
        _ => digits.iter().all(u8::is_ascii_digit),
    };
    if !sound {
        return None;
    }
    Some(digits.iter().fold(0, |value, digit| 10 * value + u64::from(digit - b'0')))
}
