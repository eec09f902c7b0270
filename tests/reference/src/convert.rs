//! #110: a sheet in cents becomes one in thousands of dollars, with its codes in small letters, and back.

use crate::sheet::{measure, Before, CODE};
use crate::*;

/// "every other amount is multiplied or divided by 100,000": the cents of a thousand dollars.
pub const THOUSAND_DOLLARS: u64 = 100_000;

/// The converting call: the length written, and the converted sheet in the lent bytes. A refusal changes none of them.
pub fn convert_call(sheet: &[u8], converted: &mut [u8]) -> Result<usize, Refusal> {
    measure(sheet)?;
    let to_cents = in_thousands(sheet);
    let (mut lines, mut before) = (Vec::new(), Before::default());
    for (at, line) in sheet.chunks(LINE_BYTES).enumerate() {
        let line = convert_line(line, to_cents, &mut before).map_err(|number| Refusal::at_line(number, at + 1))?;
        lines.extend(line);
    }
    // 14: "the output shorter than the sheet", which comes last. 12, 13, 16 and 17 "aren't tested".
    if converted.len() < lines.len() {
        return Err(Refusal::nowhere(14));
    }
    converted[..lines.len()].copy_from_slice(&lines);
    Ok(lines.len())
}

/// "line 1's letters tell which": whether they are small. Where they are mixed, line 1 has no code in either sort of sheet.
fn in_thousands(sheet: &[u8]) -> bool {
    sheet.get(CODE).is_some_and(|code| code.iter().all(u8::is_ascii_lowercase))
}

/// One line, tested as the sheet call tests it, then for 20 or 21.
fn convert_line(bytes: &[u8], to_cents: bool, before: &mut Before) -> Result<Vec<u8>, u8> {
    // With the letters of a small sheet exchanged its codes are those of the table, and a capital or mixed one isn't: 4.
    let exchanged = with_letters_exchanged(bytes);
    let line = before.read(if to_cents { &exchanged } else { bytes })?;
    // "The scalar's line keeps its number".
    let kept = line.code == b"GEN" && line.class == SCALAR;
    let scaled = |amount: u64| match (kept, to_cents) {
        (true, _) => Ok(amount),
        // 20: "an amount that isn't whole thousands".
        (_, false) if amount % THOUSAND_DOLLARS != 0 => Err(20),
        (_, false) => Ok(amount / THOUSAND_DOLLARS),
        // 21: "one that passes 14 digits in cents". The product of 14 digits fits into 64 bits.
        (_, true) if amount * THOUSAND_DOLLARS > LARGEST_AMOUNT => Err(21),
        (_, true) => Ok(amount * THOUSAND_DOLLARS),
    };
    let (first, second) = (scaled(line.first)?, scaled(line.second)?);
    let code = String::from_utf8(exchanged[CODE].to_vec()).expect("letters");
    Ok(sheet_line(&code, line.block, line.class, first, second))
}

/// The line with the small letters of its code as capitals, and the capitals as small ones.
fn with_letters_exchanged(line: &[u8]) -> Vec<u8> {
    let mut line = line.to_vec();
    for byte in &mut line[CODE] {
        *byte = if byte.is_ascii_lowercase() { byte.to_ascii_uppercase() } else { byte.to_ascii_lowercase() };
    }
    line
}

/// A stored conversion: a sheet, and the converted one or the refusal.
pub type ConvertCase = (Vec<u8>, Result<Vec<u8>, Refusal>);

/// The stored conversions of convert.cases, which says how a line reads.
pub fn convert_cases() -> Vec<ConvertCase> {
    let (mut cases, mut given): (Vec<ConvertCase>, _) = (Vec::new(), Vec::new());
    for line in include_str!("../convert.cases").lines() {
        let (kind, text) = line.split_once(' ').unwrap_or_else(|| panic!("convert.cases: {line}"));
        match (kind, cases.last_mut()) {
            ("#", _) => {}
            ("<", _) => given.extend([text.as_bytes(), b"\n"].concat()),
            ("<~", _) => given.extend(text.as_bytes()),
            ("=", _) => cases.push((std::mem::take(&mut given), stored_answer(text))),
            (">", Some((_, Ok(converted)))) => converted.extend([text.as_bytes(), b"\n"].concat()),
            _ => panic!("convert.cases: {line}"),
        }
    }
    assert!(given.is_empty(), "convert.cases: a sheet without an answer");
    cases
}

/// What stands after `= `; the lines of a converted sheet follow.
fn stored_answer(text: &str) -> Result<Vec<u8>, Refusal> {
    let number = |word: &str| word.parse().unwrap_or_else(|_| panic!("convert.cases: {text}"));
    match text.split(' ').collect::<Vec<&str>>()[..] {
        ["converted"] => Ok(Vec::new()),
        ["refused", rule] => Err(Refusal::nowhere(number(rule) as u8)),
        ["refused", rule, "at", line] => Err(Refusal::at_line(number(rule) as u8, number(line))),
        _ => panic!("convert.cases: {text}"),
    }
}
