//! #113: what a line needs: the lines of an accepted sheet whose companion is absent or has first amount 0.

use crate::sheet::{read_sheet, Before, Line};
use crate::*;

/// "20 bytes a line".
pub const LISTING_LINE_BYTES: usize = 20;

/// The lines that can have a need: VOL class 5, MOR, ACQ and CRD of a block.
pub const LONGEST_LISTING: usize =
    LISTING_LINE_BYTES * (2 * NON_PARTICIPATING + MOST_TERRITORIES * VOLUME_CLASSES + MOST_BLOCKS - NON_PARTICIPATING);

/// What meets a need: code, block and class; "class 0 for a CRD line", which any RSK line of its block meets.
type Companion = (&'static str, u64, u64);

/// The check call: the length of the listing, and the listing in the lent bytes. A refusal changes none of them.
pub fn check_call(sheet: &[u8], listing: &mut [u8]) -> Result<usize, Refusal> {
    // "14, last, here means room shorter than the listing".
    into_room(&listing_of(sheet)?, listing)
}

/// What tsav-check is to print: the listing, or the line of the refusal.
pub fn print_check(sheet: &[u8]) -> Vec<u8> {
    listing_of(sheet).unwrap_or_else(Refusal::line)
}

/// "reads an accepted sheet"; "A refused sheet gets its refusal", by every rule but the report's 14.
fn listing_of(sheet: &[u8]) -> Result<Vec<u8>, Refusal> {
    sheet_call(sheet, &mut vec![0; LONGEST_REPORT])?;
    let lines = lines_of(sheet);
    // "The listing follows the sheet's order".
    let unmet = |line: &&Line| companion_of(line).is_some_and(|companion| !is_met(companion, &lines));
    Ok(lines.iter().filter(unmet).flat_map(|line| listing_line(line, companion_of(line).unwrap())).collect())
}

/// The lines of a sheet that is accepted.
fn lines_of(sheet: &[u8]) -> Vec<Line<'_>> {
    let mut before = Before::default();
    sheet.chunks(LINE_BYTES).map(|line| before.read(line).expect("a line of an accepted sheet")).collect()
}

/// What a line needs, if it needs something.
fn companion_of(line: &Line) -> Option<Companion> {
    // "A line with amounts all zero needs nothing."
    if line.first == 0 && line.second == 0 {
        return None;
    }
    match (line.code, line.block, line.class) {
        (b"VOL", _, 5) => Some(("GEN", 0, 2)),
        (b"MOR", block, _) => Some(("RSK", block, 1)),
        (b"ACQ", block, class) => Some(("VOL", block, class)),
        // "CRD of a block": block 0 has those of adjustable products, which are of none.
        (b"CRD", 1.., _) => Some(("RSK", line.block, 0)),
        _ => None,
    }
}

/// Whether a line is there that is the companion and has a first amount above 0.
fn is_met((code, block, class): Companion, lines: &[Line]) -> bool {
    let is_it =
        |line: &&Line| line.code == code.as_bytes() && line.block == block && (class == 0 || line.class == class);
    lines.iter().filter(is_it).any(|line| line.first > 0)
}

/// "code, block and class in the sheet's columns, the companion's in 11–13, 15–16, 18–19, a line feed".
fn listing_line(line: &Line, (code, block, class): Companion) -> Vec<u8> {
    let own = std::str::from_utf8(line.code).expect("a known code");
    let listed = format!("{own} {:>2} {:>2} {code} {block:>2} {class:>2}\n", line.block, line.class).into_bytes();
    assert_eq!(listed.len(), LISTING_LINE_BYTES);
    listed
}

/// Of an accepted sheet and a listing: "A line is listed exactly when its need is unmet", once and in the sheet's order, said of the
/// bytes of both. The companions are looked up in what the report is worked out of, where an absent line is zeros.
pub fn judge_check(sheet: &[u8], listing: &[u8]) -> Result<(), String> {
    let amounts = read_sheet(sheet).map_err(|refusal| format!("the sheet is refused: {refusal:?}"))?;
    let risks = |block: &str| block.trim().parse().ok().and_then(|block: u64| amounts.blocks.get(&block));
    let mut listed = listing.chunks(LISTING_LINE_BYTES).peekable();
    for line in sheet.chunks(LINE_BYTES) {
        let text = std::str::from_utf8(line).map_err(|_| "no text")?;
        let (key, block, class) = (&text[..9], &text[4..6], &text[7..9]);
        let current = |block: &str, class: &str| {
            let at = |number: &str| number.trim().parse::<usize>().unwrap() - 1;
            amounts.volumes[TERRITORY_NUMBERS * at(block) + 2 * at(class)]
        };
        let (needs, met) = match &key[..3] {
            "VOL" if class == " 5" => ("GEN  0  2".to_string(), amounts.guarantee() > 0),
            "MOR" => (format!("RSK {block}  1"), risks(block).is_some_and(|numbers| numbers[0] > 0)),
            "ACQ" => (format!("VOL {block} {class}"), current(block, class) > 0),
            "CRD" if block != " 0" => {
                let some = |numbers: &[u64; BLOCK_NUMBERS]| (0..RISKS).any(|risk| numbers[2 * risk] > 0);
                (format!("RSK {block}  0"), risks(block).is_some_and(some))
            }
            _ => (String::new(), true),
        };
        let zeros = text[10..].split_whitespace().all(|amount| amount == "0");
        let unmet = !met && !zeros;
        let stands = listed.peek().is_some_and(|listed| listed.starts_with(key.as_bytes()));
        if stands != unmet {
            return Err(format!("{key} is {}listed", if stands { "" } else { "not " }));
        }
        if stands && listed.next() != Some(format!("{key} {needs}\n").as_bytes()) {
            return Err(format!("{key} is listed, and not with {needs}"));
        }
    }
    listed.next().map_or(Ok(()), |line| Err(format!("{} is listed and no line", line.escape_ascii())))
}
