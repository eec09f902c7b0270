//! Blocks, sheets and fluctuation calls that change: amounts of a few digits less or more in every one, so that no jump can
//! be learnt by heart.

use reference::{
    all_lines, sheet_line, BLOCK_NUMBERS, CREDITS, EXPENSES, FLUCTUATION_ROWS, LARGEST_AMOUNT, LARGEST_SCALAR,
    MOST_BLOCKS, RISKS, SCALAR, THOUSAND_DOLLARS,
};

/// Code, block and class of a line.
pub type Line = (&'static str, u64, u64);

/// How large the amounts are.
#[derive(Clone, Copy)]
pub enum Size {
    /// From 10,000 dollars to 10 billion, as many of each length.
    Middling,
    /// The last hundredth below the limit.
    NearTheLimit,
}

/// A drawn sequence: the same one in every run.
pub struct Draws(u64);

impl Draws {
    pub fn new() -> Draws {
        Draws(0x9e37_79b9_7f4a_7c15)
    }

    /// A number below this one.
    fn below(&mut self, n: u64) -> u64 {
        self.0 ^= self.0 << 13;
        self.0 ^= self.0 >> 7;
        self.0 ^= self.0 << 17;
        self.0 % n
    }

    fn amount(&mut self, size: Size) -> u64 {
        match size {
            Size::Middling => {
                let length = 10_u64.pow(6 + self.below(6) as u32);
                length + self.below(9 * length)
            }
            Size::NearTheLimit => LARGEST_AMOUNT - self.below(LARGEST_AMOUNT / 100),
        }
    }

    /// A part of an amount.
    fn part(&mut self, amount: u64) -> u64 {
        self.below(amount + 1)
    }

    /// A block that is accepted.
    pub fn block(&mut self, size: Size) -> [u64; BLOCK_NUMBERS] {
        let mut numbers = [0; BLOCK_NUMBERS].map(|_: u64| self.amount(size));
        for risk in 0..RISKS {
            numbers[2 * risk + 1] = if risk + 1 == EXPENSES as usize { 0 } else { self.part(numbers[2 * risk]) };
        }
        numbers
    }

    /// A row, a requirement and a face amount of a fluctuation call that is accepted.
    pub fn fluctuation(&mut self, size: Size) -> [u64; 3] {
        [1 + self.below(FLUCTUATION_ROWS as u64), self.amount(size), self.amount(size)]
    }

    /// A sheet of these lines, its amounts in whole thousands of dollars: such a one in cents, which can be converted.
    pub fn whole_thousands(&mut self, lines: &[Line], size: Size) -> Vec<u8> {
        let line = |&(code, block, class): &Line| {
            let first = self.amount(size) / THOUSAND_DOLLARS * THOUSAND_DOLLARS;
            let (first, second) = match (code, class) {
                ("GEN", SCALAR) => (1 + self.below(LARGEST_SCALAR), 0),
                ("RSK", EXPENSES) | ("OTH" | "ACQ" | "GEN" | "CRD", _) => (first, 0),
                _ => (first, self.part(first) / THOUSAND_DOLLARS * THOUSAND_DOLLARS),
            };
            sheet_line(code, block, class, first, second)
        };
        lines.iter().flat_map(line).collect()
    }

    /// A sheet that is accepted, of these lines, among which RSK 1 of a block stands before MOR, and OTH 3 before CRD.
    pub fn sheet(&mut self, lines: &[Line], size: Size) -> Vec<u8> {
        // Of each block.
        let (mut mortality_lt, mut market) = ([0; MOST_BLOCKS + 1], [0; MOST_BLOCKS + 1]);
        let line = |&(code, block, class): &Line| {
            let (amount, at) = (self.amount(size), block as usize);
            let (first, second) = match (code, class) {
                ("GEN", SCALAR) => (1 + self.below(LARGEST_SCALAR), 0),
                // The credits are within what there is, which is at least RO.
                ("GEN", CREDITS) => (self.below(1_000), 0),
                ("CRD", _) if block == 0 => (self.below(1_000), 0),
                // A block's K isn't below its requirement for market.
                ("CRD", _) => (self.part(market[at] / 2), 0),
                ("OTH", _) => {
                    market[at] = amount;
                    (amount, 0)
                }
                ("RSK", EXPENSES) | ("ACQ" | "GEN", _) => (amount, 0),
                ("RSK", 1) => {
                    mortality_lt[at] = self.part(amount);
                    (amount, mortality_lt[at])
                }
                ("RSK", _) => (amount, self.part(amount)),
                // The credit is below twice T.
                ("MOR", _) => (amount, self.part(mortality_lt[at] / 2)),
                _ => (amount, self.amount(size)),
            };
            sheet_line(code, block, class, first, second)
        };
        lines.iter().flat_map(line).collect()
    }
}

/// Every line that a sheet without bought business can have: 501, as many as there were before ACQ.
pub fn lines_without_bought() -> Vec<Line> {
    all_lines(MOST_BLOCKS).into_iter().filter(|&(code, ..)| code != "ACQ").collect()
}

/// Every line but those that another one needs: without RSK a MOR line has no credit, as T is a part of an LT(1) of 0.
pub fn lines_with_needs() -> Vec<Line> {
    let needed = |&(code, _, class): &Line| matches!(code, "RSK" | "VOL") || (code == "GEN" && class == 2);
    all_lines(MOST_BLOCKS).into_iter().filter(|line| !needed(line)).collect()
}

/// The lines of document 01's whole run: one block, one volume, the first general figure and the scalar.
pub fn small_lines() -> Vec<Line> {
    let in_run = |&(code, _, class): &Line| match code {
        "MOR" | "ACQ" | "CRD" => false,
        "VOL" => class == 1,
        "GEN" => class == 1 || class == SCALAR,
        _ => true,
    };
    all_lines(1).into_iter().filter(in_run).collect()
}
