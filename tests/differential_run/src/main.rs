//! `differential_run SEED COUNT [FIRST]`: the library's calls, through the wrapper, against the reference's, on
//! COUNT generated sheets, block calls, operational calls, fluctuation calls, conversions, shares calls, checks and movement calls from
//! number FIRST on (0 where it isn't given), and a quarter call for every eighth number, which has some dozen sheets.
//!
//! Compared are the answers and every byte of the lent room, and some bytes on both sides of it, which nobody may
//! write. On each accepted sheet the library's report must also satisfy demand 3, with each K within 1.01 cents of the exact
//! one, and each result of a fluctuation call document 02's rule of one cent; each converted sheet must convert back to the first
//! one; shares must total K and be those of the largest remainders; a listing must list exactly the unmet needs; movements must be near
//! t, and a quarter's summary be that of its lines, its total near the exact one. The same words give the same cases and the same output,
//! however many processors share them.

use std::env;
use std::fmt::{Debug, Write};
use std::process::ExitCode;
use std::thread;

use reference::generate;

const KINDS: [&str; 9] = [
    "sheet",
    "block call",
    "operational call",
    "fluctuation call",
    "conversion",
    "shares call",
    "check",
    "movement call",
    "quarter call",
];

fn main() -> ExitCode {
    let words: Option<Vec<u64>> = env::args().skip(1).map(|word| word.parse().ok()).collect();
    let (seed, count, first) = match words.as_deref() {
        Some(&[seed, count]) => (seed, count, 0),
        Some(&[seed, count, first]) => (seed, count, first),
        _ => {
            eprintln!("usage: tests/differential SEED COUNT [FIRST], whole numbers");
            return ExitCode::from(2);
        }
    };
    let found = compare(seed, count, first);
    print!("{}", found.summary(seed));
    ExitCode::from(u8::from(found.differed > 0))
}

/// What was found of some cases.
#[derive(Default)]
struct Found {
    /// For each kind, how many calls were accepted (0) or refused by each number, as both answered.
    answers: [[u64; tsav::LAST_REFUSAL + 1]; KINDS.len()],
    /// Accepted sheets whose buffer lies within the bracket of the exact one, so that demand 3 isn't decided.
    undecided: u64,
    differed: u64,
    /// The first case that differs: its number, its kind, and all about it.
    first: Option<(u64, usize, String)>,
}

/// The cases, shared between the processors.
fn compare(seed: u64, count: u64, first: u64) -> Found {
    let shares = thread::available_parallelism().map_or(1, |n| n.get() as u64);
    let share = |at: u64| {
        let mut found = Found::default();
        for index in (at..count).step_by(shares as usize) {
            let index = first.wrapping_add(index);
            found.add(index, 0, sheet_case(seed, index));
            found.add(index, 1, block_case(seed, index));
            found.add(index, 2, operational_case(seed, index));
            found.add(index, 3, fluctuation_case(seed, index));
            found.add(index, 4, convert_case(seed, index));
            found.add(index, 5, shares_case(seed, index));
            found.add(index, 6, check_case(seed, index));
            found.add(index, 7, movement_case(seed, index));
            if index.is_multiple_of(8) {
                found.add(index, 8, quarter_case(seed, index));
            }
        }
        found
    };
    thread::scope(|scope| {
        let running: Vec<_> = (0..shares).map(|at| scope.spawn(move || share(at))).collect();
        running.into_iter().map(|share| share.join().unwrap()).fold(Found::default(), Found::join)
    })
}

/// What a case agreed on: accepted (0) or the refusal's number, and whether demand 3 was decided.
struct Agreed {
    answer: u8,
    decided: bool,
}

impl Found {
    fn add(&mut self, index: u64, kind: usize, case: Result<Agreed, String>) {
        match case {
            Ok(agreed) => {
                self.answers[kind][usize::from(agreed.answer)] += 1;
                self.undecided += u64::from(!agreed.decided);
            }
            Err(about) => {
                self.differed += 1;
                self.first.get_or_insert((index, kind, about));
            }
        }
    }

    fn join(mut self, other: Found) -> Found {
        for (counts, others) in self.answers.iter_mut().flatten().zip(other.answers.iter().flatten()) {
            *counts += others;
        }
        self.undecided += other.undecided;
        self.differed += other.differed;
        self.first = match (self.first, other.first) {
            (Some(one), Some(two)) => Some(one.min(two)),
            (one, two) => one.or(two),
        };
        self
    }

    fn summary(&self, seed: u64) -> String {
        let mut text = String::new();
        for (kind, counts) in KINDS.iter().zip(&self.answers) {
            write!(text, "{kind}s: {} accepted", counts[0]).unwrap();
            for (number, count) in counts.iter().enumerate().skip(1).filter(|(_, &count)| count > 0) {
                write!(text, ", {count} refused by {number}").unwrap();
            }
            text.push('\n');
        }
        let reports = self.answers[0][0];
        writeln!(text, "demand 3: {reports} reports, {} of them not decided by the bracket", self.undecided).unwrap();
        let results = self.answers[3][0];
        writeln!(text, "one cent: {results} results of fluctuation calls, all decided by whole numbers").unwrap();
        let converted = self.answers[4][0];
        writeln!(text, "both ways: {converted} converted sheets, each converted back").unwrap();
        let divided = self.answers[5][0];
        writeln!(text, "shares: {divided} blocks, of each the shares total K, all decided by whole numbers").unwrap();
        let listings = self.answers[6][0];
        writeln!(text, "needs: {listings} listings, each of exactly the unmet needs").unwrap();
        let moved = self.answers[7][0];
        writeln!(text, "movements: {moved} blocks, no movement of t + 2 or more").unwrap();
        let quarters = self.answers[8][0];
        writeln!(text, "quarters: {quarters} summaries, each of its sheets' lines, no total that is too far").unwrap();
        if let Some((index, kind, about)) = &self.first {
            writeln!(text, "first difference: {} {index} of seed {seed}", KINDS[*kind]).unwrap();
            writeln!(text, "{about}again: tests/differential {seed} 1 {index}").unwrap();
        }
        let agreed: u64 = self.answers.iter().flatten().sum();
        writeln!(text, "{agreed} agreed, {} differed", self.differed).unwrap();
        text
    }
}

/// A refusal of the reference in the wrapper's types.
fn refused(refusal: reference::Refusal) -> tsav::Error {
    let place = match refusal.place {
        reference::Place::Line(line) => tsav::Place::Line(line),
        reference::Place::Position(position) => tsav::Place::Position(position),
        reference::Place::Nowhere => tsav::Place::Nowhere,
        other => panic!("no call has a place {other:?}"),
    };
    tsav::Error::Refused(tsav::Refusal { number: refusal.number, place })
}

/// Equal answers agree, and a broken contract with none; others are written down after the case, as Rust writes them.
fn agree<T: Debug + PartialEq>(
    case: impl Fn() -> String,
    ours: Result<T, tsav::Error>,
    theirs: Result<T, reference::Refusal>,
) -> Result<Agreed, String> {
    let answer = theirs.as_ref().map_or_else(|refusal| refusal.number, |_| 0);
    let theirs = theirs.map_err(refused);
    if ours == theirs {
        return Ok(Agreed { answer, decided: true });
    }
    Err(format!("{}library: {ours:?}\nreference: {theirs:?}\n", case()))
}

/// Bytes before and behind the lent room.
const MARGIN: usize = 32;

/// What the library's call answers and what it leaves in the lent bytes, where both are the reference's.
fn written(
    (input, room): (&[u8], usize),
    index: u64,
    ours: impl Fn(&[u8], &mut [u8]) -> Result<usize, tsav::Error>,
    theirs: impl Fn(&[u8], &mut [u8]) -> Result<usize, reference::Refusal>,
) -> Result<(Agreed, Vec<u8>), String> {
    // Neighbouring bytes differ, and from one case to the next, so that none is written unseen.
    let before: Vec<u8> = (0..room + 2 * MARGIN).map(|at| (at as u64 * 31).wrapping_add(index) as u8).collect();
    let lent = MARGIN..MARGIN + room;
    let (mut one, mut two) = (before.clone(), before);
    let ours = ours(input, &mut one[lent.clone()]);
    let theirs = theirs(input, &mut two[lent.clone()]);

    let agreed = agree(|| about(input, room), ours, theirs)?;
    if one != two {
        let (one, two) = (one.escape_ascii(), two.escape_ascii());
        return Err(format!(
            "{}room of the library, {MARGIN} bytes before and behind: b\"{one}\"\nof the reference: b\"{two}\"\n",
            about(input, room)
        ));
    }
    Ok((agreed, one[lent][..ours.unwrap_or(0)].to_vec()))
}

fn about(input: &[u8], room: usize) -> String {
    format!("input: b\"{}\"\nroom: {room}\n", input.escape_ascii())
}

fn sheet_case(seed: u64, index: u64) -> Result<Agreed, String> {
    let (sheet, room) = generate::case(seed, index);
    let (mut agreed, report) = written((&sheet, room), index, tsav::sheet, reference::sheet_call)?;
    if agreed.answer == 0 {
        let judged = reference::judge(&sheet, &report);
        agreed.decided = judged.map_err(|why| format!("{}demand 3: {why}\n", about(&sheet, room)))?;
    }
    Ok(agreed)
}

fn convert_case(seed: u64, index: u64) -> Result<Agreed, String> {
    let (sheet, room) = generate::convert_case(seed, index);
    let (agreed, converted) = written((&sheet, room), index, tsav::convert, reference::convert_call)?;
    let mut back = vec![0; sheet.len()];
    if agreed.answer == 0 && (tsav::convert(&converted, &mut back) != Ok(sheet.len()) || back != sheet) {
        return Err(format!("{}converted back: b\"{}\"\n", about(&sheet, room), back.escape_ascii()));
    }
    Ok(agreed)
}

fn check_case(seed: u64, index: u64) -> Result<Agreed, String> {
    let (sheet, room) = generate::check_case(seed, index);
    let (agreed, listing) = written((&sheet, room), index, tsav::check, reference::check_call)?;
    if agreed.answer == 0 {
        reference::judge_check(&sheet, &listing).map_err(|why| format!("{}needs: {why}\n", about(&sheet, room)))?;
    }
    Ok(agreed)
}

fn movement_case(seed: u64, index: u64) -> Result<Agreed, String> {
    let (numbers, room) = generate::movement_case(seed, index);
    let (agreed, lines) = written((&numbers, room), index, tsav::movement, reference::movement_lines)?;
    if agreed.answer == 0 {
        let judged = reference::judge_movements(&numbers, &lines);
        judged.map_err(|why| format!("{}movements: {why}\n", about(&numbers, room)))?;
    }
    Ok(agreed)
}

fn quarter_case(seed: u64, index: u64) -> Result<Agreed, String> {
    let (sheets, room) = generate::quarter_case(seed, index);
    let (agreed, summary) = written((&sheets, room), index, tsav::quarter, reference::quarter_call)?;
    if agreed.answer == 0 && reference::quarter_refusal(&sheets).is_none() {
        let judged = reference::judge_quarter(&sheets, &summary);
        judged.map_err(|why| format!("{}summary: {why}\n", about(&sheets, room)))?;
    }
    Ok(agreed)
}

fn block_case(seed: u64, index: u64) -> Result<Agreed, String> {
    let numbers = generate::block_numbers(seed, index);
    let values = |tsav::Figures { i, d, u, lt, k, steps_i, steps_d }| [i, d, u, lt, k, steps_i, steps_d];
    let ours = tsav::block(&numbers).map(values);
    agree(|| format!("numbers: {numbers:?}\n"), ours, reference::block_call(&numbers))
}

fn shares_case(seed: u64, index: u64) -> Result<Agreed, String> {
    let numbers = generate::shares_numbers(seed, index);
    let case = || format!("numbers: {numbers:?}\n");
    let ours = tsav::shares(&numbers);
    let agreed = agree(case, ours, reference::shares_call(&numbers))?;
    if let Ok(shares) = ours {
        reference::judge_shares(&numbers, &shares).map_err(|why| format!("{}shares: {why}\n", case()))?;
    }
    Ok(agreed)
}

fn operational_case(seed: u64, index: u64) -> Result<Agreed, String> {
    let (volumes, general) = generate::operational_numbers(seed, index);
    let ours = tsav::operational(&volumes, &general);
    let theirs = reference::operational_call(&volumes, &general);
    agree(|| format!("volumes: {volumes:?}\ngeneral: {general:?}\n"), ours, theirs)
}

fn fluctuation_case(seed: u64, index: u64) -> Result<Agreed, String> {
    let [row, requirement, face] = generate::fluctuation_numbers(seed, index);
    let ours = tsav::fluctuation(row, requirement, face);
    let case = || format!("row: {row}\nrequirement: {requirement}\nface: {face}\n");
    let agreed = agree(case, ours, reference::fluctuation_call(row, requirement, face))?;
    if let Ok(result) = ours {
        let judged = reference::judge_fluctuation(row, requirement, face, result);
        judged.map_err(|why| format!("{}one cent: {why}\n", case()))?;
    }
    Ok(agreed)
}
