//! #114: the quarter's sheets together: a line for each sheet of the input, and their summary.

use crate::big::Big;
use crate::demand3::{buffer_bounds, within, Bounds};
use crate::sheet::{number, read_sheet};
use crate::*;

/// "up to 60 sheets".
pub const MOST_SHEETS: usize = 60;

/// "a line of 39 minus signs and a line feed".
pub const CLOSING_LINE: &[u8] = b"---------------------------------------\n";

/// "report lines of 30 bytes, the number (for REF the place) in 11–29".
pub const QUARTER_LINE_BYTES: usize = 30;

/// "SUM, 0, items 1 to 8".
const ITEMS: usize = 8;

/// The sheets that are closed, and what stands behind the last closing line. A closing line "counts at the start of the input or right
/// after a line feed", wherever that stands.
fn split(input: &[u8]) -> (Vec<&[u8]>, &[u8]) {
    let (mut sheets, mut from, mut at) = (Vec::new(), 0, 0);
    while at < input.len() {
        let counts = at == 0 || input[at - 1] == b'\n';
        if counts && input[at..].starts_with(CLOSING_LINE) {
            sheets.push(&input[from..at]);
            at += CLOSING_LINE.len();
            from = at;
        } else {
            at += 1;
        }
    }
    (sheets, &input[from..])
}

/// What an input is cut short by: 24, "an input with more than 60 sheets", closed or not; then 25, "one whose last sheet isn't closed".
pub fn quarter_refusal(input: &[u8]) -> Option<Refusal> {
    let (sheets, rest) = split(input);
    let open = usize::from(!rest.is_empty());
    if sheets.len() + open > MOST_SHEETS {
        return Some(Refusal::at_sheet(24, MOST_SHEETS + 1));
    }
    (open == 1).then_some(Refusal::at_sheet(25, sheets.len() + 1))
}

/// What the program is to print.
pub fn print_quarter(input: &[u8]) -> Vec<u8> {
    let (sheets, _) = split(input);
    let (mut printed, mut buffers) = (Vec::new(), Vec::new());
    for (at, sheet) in (1..).zip(sheets.into_iter().take(MOST_SHEETS)) {
        match buffer_of(sheet) {
            Ok(buffer) => {
                buffers.push((at, buffer));
                printed.extend(quarter_line("SHT", at, 1, buffer));
            }
            Err(refusal) => printed.extend(refusal_line(refusal)),
        }
    }
    // "the sheets before it are answered and no summary follows".
    match quarter_refusal(input) {
        Some(refusal) => printed.extend(refusal_line(refusal)),
        None => {
            printed.extend((1..).zip(summary(&buffers)).flat_map(|(item, figure)| quarter_line("SUM", 0, item, figure)))
        }
    }
    printed
}

/// The same in lent room: "the sheets before it are answered", so that 24 and 25 refuse no call.
pub fn quarter_call(input: &[u8], summary: &mut [u8]) -> Result<usize, Refusal> {
    into_room(&print_quarter(input), summary)
}

/// TOT item 3 of the sheet's report.
fn buffer_of(sheet: &[u8]) -> Result<u64, Refusal> {
    let mut report = vec![0; LONGEST_REPORT];
    let length = sheet_call(sheet, &mut report)?;
    Ok(number(&report[length - 19..length - 1]).expect("a number in columns 11–28"))
}

/// "the number accepted, the smallest buffer, the first sheet that has it, the largest, the first sheet that has it, the total, the mean
/// in whole cents, its remainder over the count. With none accepted it prints zeros."
fn summary(buffers: &[(u64, u64)]) -> [u64; ITEMS] {
    let first_of = |wanted: u64| buffers.iter().find(|(_, buffer)| *buffer == wanted).unwrap().0;
    let all = || buffers.iter().map(|(_, buffer)| *buffer);
    let (Some(smallest), Some(largest)) = (all().min(), all().max()) else {
        return [0; ITEMS];
    };
    let (count, total) = (buffers.len() as u64, all().sum::<u64>());
    [count, smallest, first_of(smallest), largest, first_of(largest), total, total / count, total % count]
}

fn quarter_line(code: &str, second: u64, third: u64, figure: u64) -> Vec<u8> {
    let line = format!("{code} {second:>2} {third:>2} {figure:>19}\n").into_bytes();
    assert_eq!(line.len(), QUARTER_LINE_BYTES);
    line
}

fn refusal_line(refusal: Refusal) -> Vec<u8> {
    quarter_line("REF", refusal.number.into(), 0, refusal.printed_place())
}

/// What was judged of a quarter: the accepted sheets, and whether the brackets of their exact buffers decided both bounds of the total.
#[derive(Clone, Copy, Debug, PartialEq, Eq)]
pub struct Judged {
    pub accepted: usize,
    pub decided: bool,
}

/// Of an input that isn't cut short and what was printed of it: "If a sheet is accepted, the total is at or above the exact total, by
/// less than the sum of the accepted sheets' allowances"; the count, the total, the smallest and the largest are those of the SHT lines,
/// of which no earlier one has them; and the mean times the count and the remainder, which is below it, are the total.
pub fn judge_quarter(input: &[u8], printed: &[u8]) -> Result<Judged, String> {
    let text = std::str::from_utf8(printed).map_err(|_| "no text")?;
    let numbers = |line: &str| line[3..].split_whitespace().map(|word| word.parse().unwrap()).collect::<Vec<u64>>();
    let lines: Vec<(&str, Vec<u64>)> = text.lines().map(|line| (&line[..3], numbers(line))).collect();
    let (sheets, _) = split(input);
    if lines.len() != sheets.len() + ITEMS {
        return Err(format!("{} lines for {} sheets", lines.len(), sheets.len()));
    }
    let (answers, sums) = lines.split_at(sheets.len());
    let figures: Vec<u64> = sums.iter().map(|(_, numbers)| numbers[2]).collect();
    let [count, smallest, first_smallest, largest, first_largest, total, mean, remainder] = figures[..] else {
        return Err("no summary".into());
    };
    let accepted: Vec<(u64, u64)> =
        answers.iter().filter(|(code, _)| *code == "SHT").map(|(_, numbers)| (numbers[0], numbers[2])).collect();
    if count != accepted.len() as u64 || total != accepted.iter().map(|(_, buffer)| buffer).sum::<u64>() {
        return Err("count or total aren't those of the sheets".into());
    }
    if accepted.is_empty() {
        return if figures == [0; ITEMS] { Ok(Judged { accepted: 0, decided: true }) } else { Err("not zeros".into()) };
    }
    if mean * count + remainder != total || remainder >= count {
        return Err("mean and remainder aren't those of the total".into());
    }
    for (wanted, first) in [(smallest, first_smallest), (largest, first_largest)] {
        let before = accepted.iter().take_while(|(sheet, _)| *sheet < first);
        if !accepted.contains(&(first, wanted)) || before.clone().any(|(_, buffer)| *buffer == wanted) {
            return Err(format!("{wanted} isn't of sheet {first} first"));
        }
    }
    if accepted.iter().any(|(_, buffer)| !(smallest..=largest).contains(buffer)) {
        return Err("a buffer is below the smallest or above the largest".into());
    }
    let exact: Vec<Bounds> =
        accepted.iter().map(|&(at, _)| bounds_of(sheets[at as usize - 1])).collect::<Result<_, _>>()?;
    let sum = |of: fn(&Bounds) -> Big| exact.iter().map(of).fold(Big::from(0), |sum, bound| sum + bound);
    let reported = Big::from(u128::from(total)) * Bounds::cent() + sum(|b| b.credits);
    let decided = within(reported, (sum(|b| b.lower), sum(|b| b.upper)), sum(|b| b.allowance));
    let decided = decided.map_err(|why| format!("the total {total} is {why}"))?;
    Ok(Judged { accepted: accepted.len(), decided })
}

/// The exact buffer of a sheet that is accepted.
fn bounds_of(sheet: &[u8]) -> Result<Bounds, String> {
    let sheet = read_sheet(sheet).map_err(|refusal| format!("a sheet is refused: {refusal:?}"))?;
    buffer_bounds(&sheet)
}
