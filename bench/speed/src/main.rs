//! The library's calls, through the Rust wrapper, beside those of the best u128 program of the same steps that we can write
//! (peer.rs), on figures that change (figures.rs). Its root takes one binary digit a step without a jump, in three ways; each row's
//! ratio is to the quickest of them. For information there are the papers' forms, the root shifted and all 49 products of two risks,
//! a root with a jump on each digit, and Newton's.
//!
//! A conversion takes no root, so that there are two sides alone.
//!
//! A sample is one pass over all the calls of a kind. Samples of the sides take turns, and so do the kinds and the side that is
//! first, so that whatever else the machine does falls on all of them. The answers are compared first.
//!
//! Where code stands in a cache line is worth up to a fifth of its time, of ours and of the peer's. So bench/run builds the
//! program at four places, each 16 bytes further: `speed --place` measures at one and prints a line for each kind, and
//! `speed FILE..` puts these together. A side's time is the mean of its medians at the places, which the ratios are of; beside it
//! stand the least and the largest of these medians.
//!
//! All are treated alike: the same sheets, and a lent report of the same length that is cleared before no call, of
//! any side. What a call itself clears is part of its time.

mod figures;
mod peer;

use figures::{lines_with_needs, lines_without_bought, small_lines, Draws, Line, Size};
use peer::{Forms, Jumping, Newton, Odd, Picking, Shifting};
use reference::{all_lines, BLOCK_NUMBERS, BLOCK_VALUES};
use std::hint::black_box;
use std::time::Instant;
use tsav::{LONGEST_LISTING, LONGEST_REPORT, LONGEST_SHEET, MOST_BLOCKS};

// The code behind this is moved by PLACE bytes, which bench/run sets. The name keeps the linker from leaving them out.
std::arch::global_asm!(".text", ".p2align 6", ".globl bytes_before", "bytes_before: .skip {}", const PLACE);

extern "C" {
    static bytes_before: u8;
}

const PLACE: usize = match option_env!("PLACE") {
    Some(digits) => number_of(digits.as_bytes()),
    None => 0,
};

const fn number_of(digits: &[u8]) -> usize {
    let (mut number, mut at) = (0, 0);
    while at < digits.len() {
        number = 10 * number + (digits[at] - b'0') as usize;
        at += 1;
    }
    number
}

/// Samples of each side, at each place.
const SAMPLES: usize = 100;

/// Ours, and the peer with each of its roots: the three that a ratio is to, and the three for information.
const SIDES: usize = 7;
const PEERS: [&str; SIDES - 1] =
    ["digits picked", "window shifted", "odd number held", "the papers' forms", "jumps", "Newton's"];
const BESIDE: usize = 3;

/// How many there are of each kind: blocks, shares calls, fluctuation calls, full sheets, small sheets, and sheets for each line
/// of the table.
const BLOCKS: usize = 4096;
const SHARES: usize = 512;
const FLUCTUATIONS: usize = 4096;
const FULL_SHEETS: usize = 64;
const SMALL_SHEETS: usize = 1024;
const TABLE_SHEETS: usize = 64;

/// The blocks of the sheets in the table, each with every line that so many blocks can have. The last are full sheets, of 629.
const TABLE: [usize; 7] = [0, 1, 2, 4, 8, 16, MOST_BLOCKS];

const SIZES: [(&str, Size); 2] = [("", Size::Middling), (", near the limit", Size::NearTheLimit)];

fn main() {
    let arguments: Vec<String> = std::env::args().skip(1).collect();
    if arguments == ["--place"] {
        measure();
    } else {
        assert!(!arguments.is_empty(), "bench/run gives the files");
        print(&places(&arguments));
    }
}

/// Measures all kinds at this place, and prints a line for each: its name, how many lines its sheet has, and each side's median.
fn measure() {
    black_box(&raw const bytes_before);
    let mut draws = Draws::new();
    let mut named = Vec::new();
    for (size_name, size) in SIZES {
        named.push((format!("full sheet{size_name}"), sheets(&mut draws, FULL_SHEETS, &all_lines(MOST_BLOCKS), size)));
        named.push((format!("small sheet{size_name}"), sheets(&mut draws, SMALL_SHEETS, &small_lines(), size)));
        named.push((format!("block call{size_name}"), blocks(&mut draws, size)));
    }
    let mut table = TABLE.map(|blocks| sheets(&mut draws, TABLE_SHEETS, &all_lines(blocks), Size::Middling));
    for (size_name, size) in SIZES {
        named.push((format!("fluctuation call{size_name}"), fluctuations(&mut draws, size)));
    }
    for (size_name, size) in SIZES {
        let lines = lines_without_bought();
        let name = format!("full sheet without ACQ, {} lines{size_name}", lines.len());
        named.push((name, sheets(&mut draws, FULL_SHEETS, &lines, size)));
    }
    for (size_name, size) in SIZES {
        named.push((format!("shares call{size_name}"), shares(&mut draws, size)));
    }
    for (size_name, size) in SIZES {
        named.push((format!("full sheet to thousands{size_name}"), conversions(&mut draws, size, false)));
        named.push((format!("full sheet to cents{size_name}"), conversions(&mut draws, size, true)));
    }
    named.push(("check of a full sheet".into(), checks(&mut draws, &all_lines(MOST_BLOCKS))));
    named.push(("check of a full sheet without RSK, VOL and GEN 2".into(), checks(&mut draws, &lines_with_needs())));
    for round in 0..SAMPLES {
        for (_, kind) in &mut named {
            kind.sample(round);
        }
        for kind in &mut table {
            kind.sample(round);
        }
    }
    let tabled = TABLE.iter().zip(table).map(|(blocks, kind)| (format!("{blocks} blocks"), kind));
    for (name, kind) in named.into_iter().chain(tabled) {
        let medians: Vec<String> = kind.medians().iter().map(|median| format!("{median:.6}")).collect();
        println!("{name}\t{}\t{}", kind.lines, medians.join("\t"));
    }
}

/// A kind at the places: its name, the lines of its sheet, and each side's medians.
struct Row {
    name: String,
    lines: usize,
    sides: Vec<Time>,
}

/// What was measured at each of the places, put together.
fn places(files: &[String]) -> Vec<Row> {
    let mut rows: Vec<Row> = Vec::new();
    for file in files {
        let text = std::fs::read_to_string(file).expect("a file of a place");
        for (at, line) in text.lines().enumerate() {
            let mut columns = line.split('\t');
            let name = columns.next().expect("a name").to_string();
            let lines = columns.next().expect("a number of lines").parse().expect("a number");
            if rows.len() == at {
                rows.push(Row { name: name.clone(), lines, sides: Vec::new() });
            }
            assert_eq!(rows[at].name, name, "the places have the same kinds");
            for (side, column) in columns.enumerate() {
                if rows[at].sides.len() == side {
                    rows[at].sides.push(Time::default());
                }
                rows[at].sides[side].medians.push(column.parse().expect("a time"));
            }
        }
    }
    rows
}

/// Prints the rows, the named ones and the table.
fn print(rows: &[Row]) {
    println!("{}\n", machine());
    let (named, table) = rows.split_at(rows.len() - TABLE.len());
    for row in named {
        let ours = row.sides[0].mean();
        print!("{}: ours {}", row.name, row.sides[0]);
        for (peer, time) in row.sides.iter().enumerate().skip(1) {
            print!(", {} {time}", row.peer(peer - 1));
        }
        print!("; ratio to the best {:.2}", ours / row.best());
        for (peer, time) in row.sides.iter().enumerate().skip(1).filter(|_| row.sides.len() == SIDES) {
            print!(", {} {:.2}", row.peer(peer - 1), ours / time.mean());
        }
        println!();
    }
    println!("\n     blocks  lines  ours us  u128 us  ratio");
    for row in table {
        let (ours, best) = (row.sides[0].mean(), row.best());
        println!("{:>11} {:>6} {ours:>8.2} {best:>8.2} {:>6.2}", row.name, row.lines, ours / best);
    }
}

impl Row {
    /// The time of the best of the peers that a ratio is to.
    fn best(&self) -> f64 {
        self.sides[1..].iter().take(BESIDE).map(Time::mean).fold(f64::INFINITY, f64::min)
    }

    /// What a peer is called.
    fn peer(&self, number: usize) -> &'static str {
        if self.sides.len() == SIDES {
            PEERS[number]
        } else {
            "u128"
        }
    }
}

/// What it ran on, as the system names it.
fn machine() -> String {
    let told = std::fs::read_to_string("/proc/cpuinfo").unwrap_or_default();
    let model = told
        .lines()
        .find_map(|line| line.strip_prefix("model name")?.split_once(": "))
        .map_or("unknown", |(_, name)| name);
    let processors = std::thread::available_parallelism().map_or(0, usize::from);
    format!("processor: {model}, {processors} of them")
}

/// The time of a side: microseconds of one call, its median at each of the places.
#[derive(Default)]
struct Time {
    medians: Vec<f64>,
}

impl Time {
    fn mean(&self) -> f64 {
        self.medians.iter().sum::<f64>() / self.medians.len() as f64
    }
}

impl std::fmt::Display for Time {
    fn fmt(&self, to: &mut std::fmt::Formatter) -> std::fmt::Result {
        let least = self.medians.iter().copied().fold(f64::INFINITY, f64::min);
        let largest = self.medians.iter().copied().fold(0.0, f64::max);
        write!(to, "{:.3} us ({least:.3} to {largest:.3})", self.mean())
    }
}

/// One kind of call, measured on each of the sides.
struct Kind {
    /// One pass of a side, which is called with its number.
    pass: Box<dyn FnMut(usize)>,
    /// How many calls a pass has, and the lines of one's sheet.
    calls: usize,
    lines: usize,
    /// How many of the sides there are.
    sides: usize,
    /// The passes of each side, in microseconds.
    samples: [Vec<f64>; SIDES],
}

impl Kind {
    fn new(calls: usize, lines: usize, pass: impl FnMut(usize) + 'static) -> Kind {
        Kind { pass: Box::new(pass), calls, lines, sides: SIDES, samples: Default::default() }
    }

    /// Ours and one other side, without a root.
    fn without_roots(calls: usize, lines: usize, pass: impl FnMut(usize) + 'static) -> Kind {
        Kind { sides: 2, ..Kind::new(calls, lines, pass) }
    }

    /// A pass of each side, another one first in each round, and now one way round, now the other.
    fn sample(&mut self, round: usize) {
        for turn in 0..self.sides {
            let forwards = round / self.sides % 2 == 0;
            let side = (round + if forwards { turn } else { self.sides - turn }) % self.sides;
            let start = Instant::now();
            (self.pass)(side);
            self.samples[side].push(start.elapsed().as_secs_f64() * 1e6);
        }
    }

    /// The median of a call of each side, in microseconds.
    fn medians(&self) -> Vec<f64> {
        let of_side = |samples: &Vec<f64>| {
            let mut passes = samples.clone();
            passes.sort_by(f64::total_cmp);
            passes[(passes.len() - 1) / 2] / self.calls as f64
        };
        self.samples[..self.sides].iter().map(of_side).collect()
    }
}

/// An expression over a root, which is that of a peer's side.
macro_rules! with_root {
    ($side:expr, $root:ident => $pass:expr) => {
        match $side {
            1 => {
                type $root = Picking;
                $pass
            }
            2 => {
                type $root = Shifting;
                $pass
            }
            3 => {
                type $root = Odd;
                $pass
            }
            4 => {
                type $root = Forms;
                $pass
            }
            5 => {
                type $root = Jumping;
                $pass
            }
            _ => {
                type $root = Newton;
                $pass
            }
        }
    };
}

fn sheets(draws: &mut Draws, count: usize, lines: &[Line], size: Size) -> Kind {
    let sheets: Vec<Vec<u8>> = (0..count).map(|_| draws.sheet(lines, size)).collect();
    let (mut one, mut two) = ([0; LONGEST_REPORT], [0; LONGEST_REPORT]);
    for sheet in &sheets {
        let ours = tsav::sheet(sheet, &mut one).expect("the sheet is accepted");
        for side in 1..SIDES {
            with_root!(side, R => assert_eq!(peer::sheet::<R>(sheet, &mut two), Ok(ours)));
            assert_eq!(one[..ours], two[..ours], "the same report");
        }
    }
    let mut report = [0; LONGEST_REPORT];
    Kind::new(count, lines.len(), move |side| match side {
        0 => each(&sheets, |sheet| tsav::sheet(sheet, black_box(&mut report)).ok()),
        _ => with_root!(side, R => each(&sheets, |sheet| peer::sheet::<R>(sheet, black_box(&mut report)).ok())),
    })
}

fn blocks(draws: &mut Draws, size: Size) -> Kind {
    let blocks: Vec<[u64; BLOCK_NUMBERS]> = (0..BLOCKS).map(|_| draws.block(size)).collect();
    for numbers in &blocks {
        for side in 1..SIDES {
            with_root!(side, R => assert_eq!(peer::block::<R>(numbers), Ok(ours(numbers)), "the same figures"));
        }
    }
    Kind::new(BLOCKS, 0, move |side| match side {
        0 => each(&blocks, |numbers| tsav::block(numbers).ok()),
        _ => with_root!(side, R => each(&blocks, |numbers| peer::block::<R>(numbers).ok())),
    })
}

fn shares(draws: &mut Draws, size: Size) -> Kind {
    // Some blocks have none, by 23.
    let drawn = std::iter::repeat_with(|| draws.block(size)).filter(|numbers| tsav::shares(numbers).is_ok());
    let blocks: Vec<[u64; BLOCK_NUMBERS]> = drawn.take(SHARES).collect();
    for numbers in &blocks {
        let ours = tsav::shares(numbers).expect("the block has shares");
        for side in 1..SIDES {
            with_root!(side, R => assert_eq!(peer::shares::<R>(numbers), Ok(ours), "the same shares"));
        }
    }
    Kind::new(SHARES, 0, move |side| match side {
        0 => each(&blocks, |numbers| tsav::shares(numbers).ok()),
        _ => with_root!(side, R => each(&blocks, |numbers| peer::shares::<R>(numbers).ok())),
    })
}

/// Full sheets converted from cents, or, where they are small, from thousands of dollars.
fn conversions(draws: &mut Draws, size: Size, small: bool) -> Kind {
    let lines = all_lines(MOST_BLOCKS);
    let (mut one, mut two) = ([0; LONGEST_SHEET], [0; LONGEST_SHEET]);
    let sheet = |_| {
        let cents = draws.whole_thousands(&lines, size);
        let length = tsav::convert(&cents, &mut one).expect("the sheet is converted");
        if small {
            one[..length].to_vec()
        } else {
            cents
        }
    };
    let sheets: Vec<Vec<u8>> = (0..FULL_SHEETS).map(sheet).collect();
    for sheet in &sheets {
        assert_eq!(tsav::convert(sheet, &mut one), Ok(sheet.len()));
        assert_eq!(peer::convert(sheet, &mut two), Ok(sheet.len()));
        assert_eq!(one[..sheet.len()], two[..sheet.len()], "the same sheet");
    }
    let mut converted = [0; LONGEST_SHEET];
    Kind::without_roots(FULL_SHEETS, lines.len(), move |side| match side {
        0 => each(&sheets, |sheet| tsav::convert(sheet, black_box(&mut converted)).ok()),
        _ => each(&sheets, |sheet| peer::convert(sheet, black_box(&mut converted)).ok()),
    })
}

fn checks(draws: &mut Draws, lines: &[Line]) -> Kind {
    let sheets: Vec<Vec<u8>> = (0..FULL_SHEETS).map(|_| draws.sheet(lines, Size::Middling)).collect();
    let (mut one, mut two) = ([0; LONGEST_LISTING], [0; LONGEST_LISTING]);
    for sheet in &sheets {
        let ours = tsav::check(sheet, &mut one).expect("the sheet is accepted");
        for side in 1..SIDES {
            with_root!(side, R => assert_eq!(peer::check::<R>(sheet, &mut two), Ok(ours)));
            assert_eq!(one[..ours], two[..ours], "the same listing");
        }
    }
    let mut listing = [0; LONGEST_LISTING];
    Kind::new(FULL_SHEETS, lines.len(), move |side| match side {
        0 => each(&sheets, |sheet| tsav::check(sheet, black_box(&mut listing)).ok()),
        _ => with_root!(side, R => each(&sheets, |sheet| peer::check::<R>(sheet, black_box(&mut listing)).ok())),
    })
}

fn fluctuations(draws: &mut Draws, size: Size) -> Kind {
    let calls: Vec<[u64; 3]> = (0..FLUCTUATIONS).map(|_| draws.fluctuation(size)).collect();
    for &[row, requirement, face] in &calls {
        let ours = tsav::fluctuation(row, requirement, face).expect("the call is accepted");
        for side in 1..SIDES {
            with_root!(side, R => assert_eq!(peer::fluctuation::<R>(row, requirement, face), Ok(ours), "the same result"));
        }
    }
    Kind::new(FLUCTUATIONS, 0, move |side| match side {
        0 => each(&calls, |&[row, requirement, face]| tsav::fluctuation(row, requirement, face).ok()),
        _ => {
            with_root!(side, R => each(&calls, |&[row, requirement, face]| peer::fluctuation::<R>(row, requirement, face).ok()))
        }
    })
}

/// Our figures of a block, and the steps.
fn ours(numbers: &[u64; BLOCK_NUMBERS]) -> [u64; BLOCK_VALUES] {
    let figures = tsav::block(numbers).expect("the block is accepted");
    [figures.i, figures.d, figures.u, figures.lt, figures.k, figures.steps_i, figures.steps_d]
}

/// A call for each, none of which may be left out.
fn each<T, R>(items: &[T], mut call: impl FnMut(&T) -> R) {
    for item in items {
        black_box(call(black_box(item)));
    }
}
