//! A seeded generator of sheets, sound and damaged, and of rooms for their reports; of sheets to convert and to check; of numbers for the
//! other four calls; and of inputs for the calls and programs of #111 and #114.
//! The same seed and index always give the same case.

use crate::block::{EXPENSES_LT, PC};
use crate::fluctuation::{row_of, Base};
use crate::sheet::{key_of, last_class, read_sheet, Key, Sheet, CODE, FIELDS, LINE_FEED, SPACES};
use crate::*;
use std::collections::BTreeMap;

/// Case `index` of `seed`: a sheet and the length of the report to lend.
pub fn case(seed: u64, index: u64) -> (Vec<u8>, usize) {
    let mut random = Random::new(seed, index);
    let lines = sound_lines(&mut random);
    let room = room(&mut random, &lines);
    let sheet = if random.one_in(2) { bytes(&lines) } else { damaged(&mut random, lines, 0) };
    (sheet, room)
}

/// Sheet `index` of `seed`, one that is accepted.
pub fn accepted(seed: u64, index: u64) -> Vec<u8> {
    bytes(&sound_lines(&mut Random::new(seed, index)))
}

/// #110: converting call `index` of `seed`: a sheet, in cents or in thousands of dollars, and the length of the room to lend.
pub fn convert_case(seed: u64, index: u64) -> (Vec<u8>, usize) {
    let mut random = Random::new(seed, index);
    let small = random.one_in(2);
    let mut lines = sound_lines(&mut random);
    lines.iter_mut().filter(|l| !l.is_scalar()).for_each(|l| in_whole_thousands(l, small));
    // 12 isn't tested.
    match random.below(32) {
        0 => lines.clear(),
        1..=4 => lines.retain(|l| !l.is_scalar()),
        _ => {}
    }
    if !lines.is_empty() && random.one_in(4) {
        amount_out_of_unit(&mut random, &mut lines, small);
    }
    let sound = lines.is_empty() || random.below(8) < 5;
    let mut sheet = if sound { bytes(&lines) } else { damaged(&mut random, lines, FIRST_OF_A_LINE) };
    if small {
        sheet.chunks_mut(LINE_BYTES).filter(|l| l.len() > CODE.end).for_each(|l| l[CODE].make_ascii_lowercase());
    }
    if random.one_in(8) {
        in_other_letters(&mut random, &mut sheet);
    }
    let any = random.at(LONGEST_SHEET);
    let (exact, less) = (sheet.len(), sheet.len().saturating_sub(1));
    let room = random.pick(&[0, less, any, exact, exact, exact, exact, exact + 1, exact + 3, LONGEST_SHEET]);
    (sheet, room)
}

/// #113: check call `index` of `seed`: a sheet, often with lines whose companion is absent or has first amount 0, and the length of
/// the room to lend.
pub fn check_case(seed: u64, index: u64) -> (Vec<u8>, usize) {
    let mut random = Random::new(seed, index);
    let mut lines = sound_lines(&mut random);
    if !random.one_in(8) {
        take_companions(&mut random, &mut lines);
    }
    let sheet = if random.below(8) < 6 { bytes(&lines) } else { damaged(&mut random, lines, FIRST_OF_A_LINE) };
    let exact = check_call(&sheet, &mut [0; LONGEST_LISTING]).unwrap_or(0);
    let any = random.at(LONGEST_LISTING + 1);
    let less = exact.saturating_sub(1);
    (sheet, random.pick(&[0, less, any, exact, exact, exact, exact + 1, exact + 7, LONGEST_LISTING, LONGEST_LISTING]))
}

/// Some companions of lines are left out or become zeros, and some lines zeros too. What would make the sheet refused is changed with
/// it, mostly: a credit of survival and death business, what a dividend credit is taken from, the credits of no block.
fn take_companions(random: &mut Random, lines: &mut Vec<Line>) {
    if random.one_in(2) {
        lines.retain(|l| !(l.is("GEN", 0, CREDITS) || l.code == "CRD" && l.block == 0));
    }
    let often = random.from(1, 4);
    if random.below(4) < often {
        leave_out(random, lines, |l| l.is("GEN", 0, 2));
    }
    for block in 1..=MOST_BLOCKS as u64 {
        if random.below(4) >= often {
            continue;
        }
        for l in lines.iter_mut().filter(|l| l.code == "MOR" && l.block == block) {
            // Now and then the credit stays, for 16.
            if !random.one_in(32) {
                (l.first, l.second) = random.pick(&[(l.first, 0), (0, l.second), (0, l.first.max(1)), (0, 0)]);
            }
        }
        leave_out(random, lines, |l| l.is("RSK", block, 1));
        if block > NON_PARTICIPATING as u64 && random.one_in(2) {
            without_risks(random, lines, block);
        }
        for class in 1..=VOLUME_CLASSES as u64 {
            if random.one_in(2) {
                leave_out(random, lines, |l| l.is("VOL", block, class));
            }
        }
    }
    // A volume of the year before alone has a need too.
    for l in lines.iter_mut().filter(|l| l.code == "VOL") {
        if random.one_in(8) {
            (l.first, l.second) = (0, random.pick(&[0, 1, LARGEST_AMOUNT]));
        }
    }
    for l in lines.iter_mut().filter(|l| matches!(l.code, "ACQ" | "CRD" | "MOR")) {
        if random.one_in(8) {
            (l.first, l.second) = (0, 0);
        }
    }
}

/// These lines go, or their first amounts become 0, and of RSK the second too.
fn leave_out(random: &mut Random, lines: &mut Vec<Line>, which: impl Fn(&Line) -> bool) {
    if random.one_in(2) {
        lines.retain(|l| !which(l));
    } else {
        for l in lines.iter_mut().filter(|l| which(l)) {
            l.first = 0;
            l.second = if l.code == "RSK" { 0 } else { l.second };
        }
    }
}

/// The dividend credit of a block that has no risk above 0, or none but one, is of its requirement for credit.
fn without_risks(random: &mut Random, lines: &mut Vec<Line>, block: u64) {
    leave_out(random, lines, |l| l.code == "RSK" && l.block == block);
    let dividend = lines.iter().find(|l| l.is("CRD", block, 1)).map_or(0, |l| l.first);
    lines.retain(|l| !l.is("OTH", block, 2));
    put(random, lines, Line { code: "OTH", block, class: 2, first: dividend, second: 0 });
    if random.one_in(4) {
        let class = random.from(1, EXPENSES);
        lines.retain(|l| !l.is("RSK", block, class));
        put(random, lines, Line { code: "RSK", block, class, first: 1, second: 0 });
    }
}

/// #114: quarter call `index` of `seed`: an input, and the length of the room to lend.
pub fn quarter_case(seed: u64, index: u64) -> (Vec<u8>, usize) {
    let input = quarter_input(seed, index);
    let exact = print_quarter(&input).len();
    let room = text_room(&mut Random::new(!seed, index), exact);
    (input, room)
}

/// #114: input `index` of `seed` of the quarter program: sheets, accepted, refused or broken, and closing lines, whole and broken.
pub fn quarter_input(seed: u64, index: u64) -> Vec<u8> {
    let mut random = Random::new(seed, index);
    let most = MOST_SHEETS as u64;
    let (few, any) = (random.from(1, 6), random.below(most + 4));
    let count = random.pick(&[0, 1, 2, few, few, few, any, most - 1, most, most, most + 1, most + 3]);
    // A third of the inputs has sheets that are accepted and sound closing lines alone, until the last.
    let sound = random.one_in(3);
    let (mut input, mut last) = (Vec::new(), Vec::new());
    for at in 0..count {
        // The sheet before once more, for ties; of many sheets most are small.
        let sheet = match random.below(8) {
            0 | 1 if at > 0 => last.clone(),
            2 if !sound => quarter_damage(&mut random),
            3 if count < 8 => bytes(&sound_lines(&mut random)),
            _ => small_sheet(&mut random),
        };
        input.extend(&sheet);
        let closed = sound || !random.one_in(24);
        input.extend(if closed { CLOSING_LINE.to_vec() } else { broken_closing(&mut random) });
        last = sheet;
    }
    // Behind the last closing line: nothing, mostly; a sheet that isn't closed, a byte, a closing line without its line feed.
    match random.below(8) {
        0 => input.extend(small_sheet(&mut random)),
        1 => input.extend(random.pick(&[&b"\n"[..], b"-", b"x", &CLOSING_LINE[..39]])),
        _ => {}
    }
    input
}

/// A scalar, and a volume, a block or both: a buffer of a few cents or of many.
fn small_sheet(random: &mut Random) -> Vec<u8> {
    let style = random.below(STYLES + 1);
    let mut lines = Vec::new();
    if random.one_in(2) {
        lines.push(Line { code: "OTH", block: 1, class: random.from(1, 3), first: amount(random, style), second: 0 });
    }
    if random.one_in(2) {
        lines.push(Line { code: "VOL", block: 1, class: 1, first: amount(random, style), second: 0 });
    }
    lines.push(general_line(SCALAR, random.pick(&[1, 10_000, LARGEST_SCALAR])));
    bytes(&lines)
}

/// A sheet that is refused, mostly: damaged, empty, with a line that is no closing line, without its last line feed, too long.
fn quarter_damage(random: &mut Random) -> Vec<u8> {
    let mut sheet = small_sheet(random);
    match random.below(8) {
        0 => return Vec::new(),
        1 => sheet.truncate(sheet.len() - 1),
        2 => sheet.extend(broken_closing(random)),
        3 => sheet = [broken_closing(random), sheet].concat(),
        4 => {
            let length = LONGEST_SHEET + random.pick(&[0, 1, 2, 40, 30_000]);
            sheet = sheet.iter().copied().cycle().take(length).collect();
        }
        5 => sheet = with_carriage_returns(&sheet),
        6 => sheet = any_bytes(random),
        _ => {
            let lines = sound_lines(random);
            sheet = damaged(random, lines, FIRST_OF_A_LINE);
        }
    }
    sheet
}

/// No closing line: 38 or 40 minus signs, another byte among them, a carriage return, one behind a byte in its line.
fn broken_closing(random: &mut Random) -> Vec<u8> {
    let (minus, other) = (b'-', random.pick(&STRANGE));
    match random.below(6) {
        0 => [vec![minus; 38], b"\n".to_vec()].concat(),
        1 => [vec![minus; 40], b"\n".to_vec()].concat(),
        2 => [vec![minus; 39], b"\r\n".to_vec()].concat(),
        3 => [b" ".to_vec(), CLOSING_LINE.to_vec()].concat(),
        4 => {
            let mut line = CLOSING_LINE.to_vec();
            line[random.at(39)] = other;
            line
        }
        _ => b"-\n".to_vec(),
    }
}

/// The line's amounts rounded down to whole thousands of dollars, in the unit of the sheet.
fn in_whole_thousands(line: &mut Line, small: bool) {
    let unit = if small { 1 } else { THOUSAND_DOLLARS };
    line.first = line.first / THOUSAND_DOLLARS * unit;
    line.second = line.second / THOUSAND_DOLLARS * unit;
}

/// 20, or 21 in a small sheet, of the first amount, or of the second where there is one; in the scalar's line 10 or nothing.
/// Alone, beside 19 or beside 11 in the same line.
fn amount_out_of_unit(random: &mut Random, lines: &mut Vec<Line>, small: bool) {
    let at = random.at(lines.len());
    let line = &mut lines[at];
    let highest = LARGEST_AMOUNT / THOUSAND_DOLLARS;
    let (near, far) = (random.from(1, THOUSAND_DOLLARS - 1), random.from(highest + 1, LARGEST_AMOUNT));
    let amount = if small {
        random.pick(&[highest + 1, highest + 1, LARGEST_AMOUNT, far])
    } else {
        let any = random.from(1, LARGEST_AMOUNT);
        random.pick(&[1, THOUSAND_DOLLARS - 1, line.first + near, line.first.saturating_sub(near), any])
    };
    let amount = amount.min(LARGEST_AMOUNT);
    match line.code {
        "VOL" | "MOR" if random.one_in(2) => line.second = amount,
        // Both amounts, or the second alone: that of RSK isn't above the first.
        "RSK" if line.class != EXPENSES && random.one_in(2) => {
            line.second = amount;
            line.first =
                if small { line.first.max(amount) } else { line.first.max(amount.next_multiple_of(THOUSAND_DOLLARS)) };
            line.first = line.first.min(LARGEST_AMOUNT);
        }
        _ => line.first = amount,
    }
    match random.below(6) {
        0 if at + 1 < lines.len() => lines.swap(at, at + 1),
        1 if lines.len() < MOST_LINES => {
            lines.insert(at, Line { first: u64::from(lines[at].is_scalar()), second: 0, ..lines[at] });
        }
        _ => {}
    }
}

/// 4: a line, the first too, with one letter of its code or all of them capital in place of small, and small in place of capital.
fn in_other_letters(random: &mut Random, sheet: &mut [u8]) {
    let whole_lines = sheet.len() / LINE_BYTES;
    if whole_lines == 0 {
        return;
    }
    let (last, any) = (whole_lines - 1, random.at(whole_lines));
    let at = LINE_BYTES * random.pick(&[0, last.min(1), last, any, any]);
    let letter = random.at(CODE.len());
    let letters = if random.one_in(2) { CODE } else { letter..letter + 1 };
    for byte in &mut sheet[at..at + LINE_BYTES][letters] {
        *byte = if byte.is_ascii_lowercase() { byte.to_ascii_uppercase() } else { byte.to_ascii_lowercase() };
    }
}

/// The numbers of block call `index` of `seed`: sound, with faults, or of any size.
pub fn block_numbers(seed: u64, index: u64) -> [u64; BLOCK_NUMBERS] {
    let mut random = Random::new(seed, index);
    if random.one_in(16) {
        return std::array::from_fn(|_| any_size(&mut random));
    }
    let mut numbers = if random.one_in(8) { next_to_a_step(&mut random) } else { sound_block(&mut random) };
    for _ in 0..random.pick(&[0, 0, 0, 1, 1, 2]) {
        match random.below(4) {
            // 7
            0 => numbers[random.at(BLOCK_NUMBERS)] = too_large(&mut random),
            // 8
            1 => numbers[EXPENSES_LT] = some_amount(&mut random),
            // 9, or 7 where IR is the largest amount
            _ => {
                let risk = random.at(RISKS - 1);
                numbers[2 * risk + 1] = numbers[2 * risk].saturating_add(random.pick(&[1, 1, 2, 1_000]));
            }
        }
    }
    numbers
}

fn sound_block(random: &mut Random) -> [u64; BLOCK_NUMBERS] {
    let (style, density) = (random.below(STYLES + 1), random.from(1, 8));
    let mut numbers = [0; BLOCK_NUMBERS];
    for risk in 0..RISKS {
        if random.below(8) < density {
            let ir = amount(random, style);
            numbers[2 * risk] = ir;
            numbers[2 * risk + 1] = if 2 * risk + 1 == EXPENSES_LT { 0 } else { part_of(random, ir) };
        }
    }
    for position in PC..BLOCK_NUMBERS {
        if random.below(8) < density && random.one_in(2) {
            numbers[position] = amount(random, style);
        }
    }
    numbers
}

/// #112: the numbers of shares call `index` of `seed`: as of a block call; of a few cents, where margins are often zero; or with
/// lapse-supported business beside others, where one may be negative.
pub fn shares_numbers(seed: u64, index: u64) -> [u64; BLOCK_NUMBERS] {
    let mut random = Random::new(seed, index);
    let kind = random.below(4);
    if kind >= 2 {
        return block_numbers(seed, index);
    }
    let mut numbers = sound_block(&mut random);
    if kind == 0 {
        let most = random.from(1, 3);
        for number in &mut numbers {
            *number = random.below(most + 1);
        }
        (0..RISKS).for_each(|risk| numbers[2 * risk + 1] = numbers[2 * risk + 1].min(numbers[2 * risk]));
        numbers[EXPENSES_LT] = 0;
    } else {
        falling(&mut random, &mut numbers);
    }
    // Beside 23, sometimes one of the block's own tests.
    match random.below(8) {
        0 => numbers[random.at(BLOCK_NUMBERS)] = too_large(&mut random),
        1 => numbers[EXPENSES_LT] = 1,
        2 => numbers[1] = numbers[0].saturating_add(1),
        _ => {}
    }
    numbers
}

/// #107: a block with a radicand next to a power of 4, so that a step more or less is seen. By #109 it is 10,000 times the square
/// of y where there is one risk alone, and 100 times y is the last below a power of 2, the first above it, or one of their
/// neighbours; or 200 times PC, credit or market is. With some longevity beside mortality, Q is lower than the square of the
/// floor, which has a step more.
fn next_to_a_step(random: &mut Random) -> [u64; BLOCK_NUMBERS] {
    let mut numbers = [0; BLOCK_NUMBERS];
    let y = (1 << random.from(7, 54)) / FINENESS + random.below(3) - 1;
    let kind = random.below(4);
    if kind == 0 {
        numbers[PC + random.at(BLOCK_NUMBERS - PC)] = y.div_ceil(2);
        return numbers;
    }
    let risk = if kind == 1 { 0 } else { random.at(RISKS - 1) };
    (numbers[2 * risk], numbers[2 * risk + 1]) = (y.div_ceil(2), y % 2);
    if kind == 1 {
        numbers[2] = random.from(0, y / 4);
    }
    numbers
}

/// #111: movement call `index` of `seed`: an input, and the length of the room to lend.
pub fn movement_case(seed: u64, index: u64) -> (Vec<u8>, usize) {
    let room = text_room(&mut Random::new(!seed, index), RISKS * REPORT_LINE_BYTES);
    (movement_input(seed, index), room)
}

/// Room for a text of so many bytes, mostly.
fn text_room(random: &mut Random, exact: usize) -> usize {
    let any = random.at(exact + 100);
    random.pick(&[0, exact - 1, any, exact, exact, exact, exact, exact + 1, exact + 7, exact + 3_000])
}

/// #111: input `index` of `seed` of the movement program: a block's numbers and t, sound, with faults, or of any bytes.
pub fn movement_input(seed: u64, index: u64) -> Vec<u8> {
    let mut random = Random::new(seed, index);
    let mut numbers = if random.one_in(8) { next_to_a_step(&mut random) } else { sound_block(&mut random) };
    if random.one_in(8) {
        falling(&mut random, &mut numbers);
    }
    let t = raise(&mut random, &numbers);
    for _ in 0..random.pick(&[0, 0, 0, 0, 1, 2]) {
        let risk = random.at(RISKS - 1);
        match random.below(3) {
            // 8
            0 => numbers[EXPENSES_LT] = some_amount(&mut random),
            // 9
            _ => numbers[2 * risk + 1] = (numbers[2 * risk] + 1).min(LARGEST_AMOUNT),
        }
    }
    let mut input: Vec<u8> = numbers.iter().chain([&t]).flat_map(|n| format!("{n:>14}\n").into_bytes()).collect();
    for _ in 0..random.pick(&[0, 0, 0, 0, 1, 2]) {
        damage_input(&mut random, &mut input);
    }
    input
}

/// Lapse-sensitive business, little or nothing of lapse-supported, and some other risks: K may fall as the latter is raised.
fn falling(random: &mut Random, numbers: &mut [u64; BLOCK_NUMBERS]) {
    let most = 1 << random.from(1, 40);
    numbers[8] = random.from(1, most);
    numbers[9] = 0;
    numbers[10] = part_of(random, numbers[8] / 8);
    numbers[11] = 0;
}

/// t: nothing, little, a part of an IR, what takes one to the limit or just above it, any.
fn raise(random: &mut Random, numbers: &[u64; BLOCK_NUMBERS]) -> u64 {
    let style = random.below(STYLES + 1);
    let (any, ir) = (amount(random, style), numbers[2 * random.at(RISKS)]);
    let to_the_limit = LARGEST_AMOUNT - ir;
    let part = part_of(random, ir);
    random.pick(&[0, 1, 2, 100, part, to_the_limit, (to_the_limit + 1).min(LARGEST_AMOUNT), any, any, any])
}

/// 2: a byte, a line or more too many or too few, or carriage returns. 3: a wrong byte, a number that isn't right-justified, or none.
fn damage_input(random: &mut Random, input: &mut Vec<u8>) {
    let line_bytes = MOVEMENT_INPUT_BYTES / (BLOCK_NUMBERS + 1);
    match random.below(8) {
        0 => input.truncate(random.at(input.len() + 1)),
        1 => input.extend_from_within(..random.at(input.len() + 1).min(2 * line_bytes)),
        2 => *input = with_carriage_returns(input),
        _ if input.len() < line_bytes => {}
        3 | 4 => {
            let at = random.at(input.len());
            input[at] = random.pick(&STRANGE);
        }
        5 => {
            let any = random.at(input.len() / line_bytes);
            input[line_bytes * (any + 1) - 1] = random.pick(b" 0\r\0");
        }
        _ => {
            let at = line_bytes * random.at(input.len() / line_bytes);
            move_number(random, &mut input[at..at + line_bytes - 1]);
        }
    }
}

/// The volumes and the general figures of operational call `index` of `seed`: sound, with faults, or of any size.
pub fn operational_numbers(seed: u64, index: u64) -> (Vec<u64>, [u64; GENERAL_NUMBERS]) {
    let mut random = Random::new(seed, index);
    let any = random.at(MOST_TERRITORIES + 1);
    let territories = random.pick(&[0, 1, 1, 2, MOST_TERRITORIES, any, any]);
    let (style, density) = (random.below(STYLES + 1), random.from(1, 8));
    let mut list = Vec::new();
    for _ in 0..VOLUME_CLASSES * territories {
        let (current, prior) = if random.below(8) < density { volumes(&mut random, style) } else { (0, 0) };
        list.extend([current, prior]);
    }
    let mut general = [0; GENERAL_NUMBERS].map(|_: u64| amount(&mut random, style));
    for _ in 0..random.pick(&[0, 0, 0, 1, 1, 2]) {
        damage_numbers(&mut random, style, &mut list, &mut general);
    }
    (list, general)
}

fn damage_numbers(random: &mut Random, style: u64, list: &mut Vec<u64>, general: &mut [u64; GENERAL_NUMBERS]) {
    match random.below(4) {
        // 15: longer by some numbers or by territories, shorter, or of any length
        0 => {
            let any = random.at(600);
            let (longer, shorter) =
                ([list.len() + 1, list.len() + TERRITORY_NUMBERS - 1], list.len().saturating_sub(1));
            let too_long = [MOST_VOLUMES + 1, MOST_VOLUMES + TERRITORY_NUMBERS];
            let length = random.pick(&[longer[0], longer[1], shorter, any, too_long[0], too_long[1]]);
            let number = amount(random, style);
            list.resize(length, number);
        }
        // 7, in either list
        1 | 2 => {
            let position = random.at(list.len() + GENERAL_NUMBERS);
            let number = too_large(random);
            match list.len() {
                length if position >= length => general[position - length] = number,
                _ => list[position] = number,
            }
        }
        _ => list.iter_mut().chain(general).for_each(|number| *number = any_size(random)),
    }
}

/// Row, B and face amount of fluctuation call `index` of `seed`: sound, with faults, or of any size.
pub fn fluctuation_numbers(seed: u64, index: u64) -> [u64; 3] {
    let mut random = Random::new(seed, index);
    if random.one_in(16) {
        return std::array::from_fn(|_| any_size(&mut random));
    }
    let number = random.from(1, FLUCTUATION_ROWS as u64);
    let row = row_of(number).unwrap();
    let base = fluctuation_base(&mut random, row.threshold_in_cents());
    // The other amount: alike, a part of the base, a multiple of its root in dollars (with which the radicand is a square
    // where the base is one, and next to a square where it is a neighbour), any.
    let style = random.below(STYLES + 1);
    let any = amount(&mut random, style);
    let other = match random.below(4) {
        0 => base,
        1 => part_of(&mut random, base),
        2 => {
            let times = [random.below(1_000_000), random.below(40), 20 * random.from(1, 2), 20 * random.below(1_000)];
            ((base + 1) / 100).isqrt() * random.pick(&times)
        }
        _ => any,
    };
    let mut numbers = match row.base {
        Base::Requirement => [number, base, other],
        Base::Face => [number, other, base],
    };
    for _ in 0..random.pick(&[0, 0, 0, 1, 1, 2]) {
        match random.below(3) {
            // 18: next to a row, a row in the lowest byte or half word alone, any
            0 => {
                let any = random.from(FLUCTUATION_ROWS as u64 + 1, u64::MAX);
                let outside =
                    [0, 0, FLUCTUATION_ROWS as u64 + 1, 9, (1 << 8) + number, (1 << 32) + number, u64::MAX, any];
                numbers[0] = random.pick(&outside);
            }
            // 7, of B, and of the face
            at => numbers[at as usize] = too_large(&mut random),
        }
    }
    numbers
}

/// A base: about the threshold, just above it, a square in dollars, of which the root is whole, and its neighbours, the
/// largest, any.
fn fluctuation_base(random: &mut Random, threshold: u64) -> u64 {
    let style = random.below(STYLES + 1);
    let any = amount(random, style);
    let (nearer, farther) = (random.below(1_000), random.from(threshold, LARGEST_AMOUNT));
    match random.below(8) {
        0 => threshold + random.pick(&[0, 1, 2]) - 1,
        1 => threshold + nearer,
        2 | 3 => {
            let root = random.from((threshold / 100).isqrt(), (LARGEST_AMOUNT / 100).isqrt());
            100 * root * root + random.pick(&[0, 1, 2]) - 1
        }
        4 => LARGEST_AMOUNT - random.below(3),
        5 | 6 => farther,
        _ => any,
    }
}

/// Numbers above the limit: by one, by little, by a bit, the largest of all.
fn too_large(random: &mut Random) -> u64 {
    let any = random.from(LARGEST_AMOUNT + 1, u64::MAX);
    random.pick(&[LARGEST_AMOUNT + 1, LARGEST_AMOUNT + 2, 1 << 47, 1 << 63, u64::MAX - 1, u64::MAX, any])
}

/// A number of any length in bits.
fn any_size(random: &mut Random) -> u64 {
    random.next() >> random.below(64)
}

/// The splitmix64 generator.
struct Random(u64);

impl Random {
    fn new(seed: u64, index: u64) -> Random {
        let mut random = Random(seed);
        let start = random.next();
        Random(start ^ index.wrapping_mul(0xD1B5_4A32_D192_ED03))
    }

    fn next(&mut self) -> u64 {
        self.0 = self.0.wrapping_add(0x9E37_79B9_7F4A_7C15);
        let mut z = self.0;
        z = (z ^ (z >> 30)).wrapping_mul(0xBF58_476D_1CE4_E5B9);
        z = (z ^ (z >> 27)).wrapping_mul(0x94D0_49BB_1331_11EB);
        z ^ (z >> 31)
    }

    fn below(&mut self, bound: u64) -> u64 {
        self.next() % bound
    }

    fn from(&mut self, first: u64, last: u64) -> u64 {
        first + self.below(last - first + 1)
    }

    fn at(&mut self, length: usize) -> usize {
        self.below(length as u64) as usize
    }

    fn one_in(&mut self, n: u64) -> bool {
        self.below(n) == 0
    }

    fn pick<T: Copy>(&mut self, of: &[T]) -> T {
        of[self.at(of.len())]
    }

    fn shuffle<T>(&mut self, list: &mut [T]) {
        for last in (1..list.len()).rev() {
            list.swap(last, self.at(last + 1));
        }
    }
}

#[derive(Clone, Copy)]
struct Line {
    code: &'static str,
    block: u64,
    class: u64,
    first: u64,
    second: u64,
}

impl Line {
    fn is(&self, code: &str, block: u64, class: u64) -> bool {
        (self.code, self.block, self.class) == (code, block, class)
    }

    fn is_scalar(&self) -> bool {
        self.is("GEN", 0, SCALAR)
    }

    fn key(&self) -> Key {
        key_of(self.code.as_bytes(), self.block, self.class)
    }
}

fn bytes(lines: &[Line]) -> Vec<u8> {
    lines.iter().flat_map(|l| sheet_line(l.code, l.block, l.class, l.first, l.second)).collect()
}

// Sound sheets

/// How full a sheet is and what amounts it has.
struct Manner {
    style: u64,
    /// Every line that can stand does; else of 8 so many do.
    full: bool,
    density: u64,
}

impl Manner {
    fn stands(&self, random: &mut Random) -> bool {
        self.full || random.below(8) < self.density
    }
}

/// The lines of a sheet that is accepted, in their order.
fn sound_lines(random: &mut Random) -> Vec<Line> {
    let mut lines = Vec::new();
    let manner = Manner { style: random.below(STYLES + 1), full: random.one_in(12), density: random.from(1, 8) };
    for block in numbers(random, manner.full, MOST_BLOCKS) {
        block_lines(random, &manner, block, &mut lines);
    }
    mortality_lines(random, &manner, &mut lines);
    for block in numbers(random, manner.full, MOST_TERRITORIES) {
        for class in 1..=VOLUME_CLASSES as u64 {
            if manner.stands(random) {
                let (current, prior) = volumes(random, manner.style);
                lines.push(Line { code: "VOL", block, class, first: current, second: prior });
            }
        }
    }
    acquired_lines(random, &manner, &mut lines);
    general_lines(random, &manner, &mut lines);
    dividend_lines(random, &manner, &mut lines);
    free_credit_lines(random, &manner, &mut lines);
    lines.sort_by_key(Line::key);
    lines
}

/// The RSK and OTH lines of a block, one at least.
fn block_lines(random: &mut Random, manner: &Manner, block: u64, lines: &mut Vec<Line>) {
    let style = if random.one_in(8) { ZEROS } else { manner.style };
    let before = lines.len();
    for class in 1..=EXPENSES {
        if manner.stands(random) {
            let ir = amount(random, style);
            let lt = if class == EXPENSES { 0 } else { part_of(random, ir) };
            lines.push(Line { code: "RSK", block, class, first: ir, second: lt });
        }
    }
    for class in 1..=3 {
        // Without PC, credit and market the floor of I and K = U are reached more often.
        if manner.stands(random) && (manner.full || random.one_in(2)) {
            lines.push(Line { code: "OTH", block, class, first: amount(random, style), second: 0 });
        }
    }
    // A block exists by zeros alone.
    if lines.len() == before {
        let (code, class) = random.pick(&[("RSK", 1), ("RSK", EXPENSES), ("OTH", 1), ("OTH", 3)]);
        lines.push(Line { code, block, class, first: 0, second: 0 });
    }
}

/// The MOR lines, of some blocks that exist and of a few that don't, with credits up to LT(1).
fn mortality_lines(random: &mut Random, manner: &Manner, lines: &mut Vec<Line>) {
    for block in 1..=NON_PARTICIPATING as u64 {
        let exists = lines.iter().any(|l| l.block == block);
        if manner.stands(random) && (manner.full || exists || random.one_in(4)) {
            let (s, t) = sums(random, manner.style, mortality_lt(lines, block));
            lines.push(Line { code: "MOR", block, class: 1, first: s, second: t });
        }
    }
}

/// LT(1) of a block, 0 where there is no such line.
fn mortality_lt(lines: &[Line], block: u64) -> u64 {
    lines.iter().find(|l| l.is("RSK", block, 1)).map_or(0, |l| l.second)
}

/// S and T with a credit up to this: one of them 0, both alike, the credit reached to the cent, or one of any size.
fn sums(random: &mut Random, style: u64, most: u64) -> (u64, u64) {
    let credit = part_of(random, most);
    let any = amount(random, style);
    let (s, t) = match random.below(6) {
        0 => (any, 0),
        1 => {
            let both = largest(|both| mortality_credit(both, both) <= credit);
            (both, both)
        }
        2 | 3 => nearly_alike(random, credit),
        _ => (largest(|s| mortality_credit(s, any) <= credit), any),
    };
    if random.one_in(2) {
        (s, t)
    } else {
        (t, s)
    }
}

/// S and T with just this credit: a cent more on S raises it by less than a cent where T isn't much the larger.
fn nearly_alike(random: &mut Random, credit: u64) -> (u64, u64) {
    let t = credit / 129 * 100 + credit % 129 * 100 / 129 + random.below(3);
    (largest(|s| mortality_credit(s, t) <= credit), t)
}

/// The largest amount that is as wanted: 0 is, and an amount is only where all smaller ones are.
fn largest(wanted: impl Fn(u64) -> bool) -> u64 {
    let (mut fits, mut above) = (0, LARGEST_AMOUNT + 1);
    while above - fits > 1 {
        let middle = (fits + above) / 2;
        if wanted(middle) {
            fits = middle;
        } else {
            above = middle;
        }
    }
    fits
}

/// In half of the sheets ACQ lines, beside some VOL lines and a few without one.
fn acquired_lines(random: &mut Random, manner: &Manner, lines: &mut Vec<Line>) {
    if !manner.full && random.one_in(2) {
        return;
    }
    let volumes: BTreeMap<(u64, u64), (u64, u64)> =
        lines.iter().filter(|l| l.code == "VOL").map(|l| ((l.block, l.class), (l.first, l.second))).collect();
    for block in 1..=MOST_TERRITORIES as u64 {
        for class in 1..=VOLUME_CLASSES as u64 {
            let beside = volumes.get(&(block, class)).copied();
            if manner.stands(random) && (manner.full || beside.is_some() || random.one_in(16)) {
                let first = acquired(random, manner.style, beside.unwrap_or_default());
                lines.push(Line { code: "ACQ", block, class, first, second: 0 });
            }
        }
    }
}

/// An acquired prior amount: any, with which the joined prior times 120 % is next to the current volume, a part of the
/// current or of the prior, the largest.
fn acquired(random: &mut Random, style: u64, (current, prior): (u64, u64)) -> u64 {
    match random.below(6) {
        0 | 1 => (current / 6 * 5 + current % 6 * 5 / 6 + random.below(3)).saturating_sub(prior),
        2 => part_of(random, current),
        3 => part_of(random, prior),
        4 => LARGEST_AMOUNT - random.below(3),
        _ => amount(random, style),
    }
}

/// The GEN lines but for the credits, which come last, because the lines before them limit them.
fn general_lines(random: &mut Random, manner: &Manner, lines: &mut Vec<Line>) {
    for class in 1..SCALAR {
        if manner.stands(random) {
            lines.push(general_line(class, amount(random, manner.style)));
        }
    }
    let any = random.from(1, LARGEST_SCALAR);
    let g = random.pick(&[1, 2, 9_000, 9_999, 10_000, 10_000, 10_001, LARGEST_SCALAR - 1, LARGEST_SCALAR, any]);
    lines.push(general_line(SCALAR, g));
}

/// Dividend credits up to K, of some participating blocks that exist.
fn dividend_lines(random: &mut Random, manner: &Manner, lines: &mut Vec<Line>) {
    for (block, [.., k]) in sheet_of(lines).figures() {
        if block > NON_PARTICIPATING as u64 && manner.stands(random) {
            lines.push(credit_line(block, 1, part_of(random, k.min(LARGEST_AMOUNT))));
        }
    }
}

/// The group credits and those of some adjustable products, together up to what is left, which is often used up.
fn free_credit_lines(random: &mut Random, manner: &Manner, lines: &mut Vec<Line>) {
    let mut left = sheet_of(lines).before_free_credits();
    let mut free: Vec<Line> = Vec::new();
    if manner.full || random.one_in(2) {
        free.push(general_line(CREDITS, 0));
    }
    let products = manner.full || random.one_in(2);
    for class in 1..=ADJUSTABLE_PRODUCTS as u64 {
        if products && manner.stands(random) {
            free.push(credit_line(0, class, 0));
        }
    }
    random.shuffle(&mut free);
    for mut line in free {
        line.first = part_of(random, left.min(LARGEST_AMOUNT));
        left -= line.first;
        lines.push(line);
    }
}

fn credit_line(block: u64, class: u64, first: u64) -> Line {
    Line { code: "CRD", block, class, first, second: 0 }
}

fn general_line(class: u64, first: u64) -> Line {
    Line { code: "GEN", block: 0, class, first, second: 0 }
}

/// Which of the blocks or territories up to the last: none, a few, any number, all.
fn numbers(random: &mut Random, all: bool, last: usize) -> Vec<u64> {
    let mut numbers: Vec<u64> = (1..=last as u64).collect();
    if all {
        return numbers;
    }
    random.shuffle(&mut numbers);
    let most = random.pick(&[0, 1, 1, 2, 3, numbers.len(), numbers.len()]);
    numbers.truncate(random.from(most.min(1) as u64, most as u64) as usize);
    numbers.sort();
    numbers
}

/// Amounts of a sheet are of one style, or mixed where the style is STYLES.
const STYLES: u64 = 9;
const ZEROS: u64 = 0;

fn amount(random: &mut Random, style: u64) -> u64 {
    match style {
        ZEROS => 0,
        1 => random.below(3),
        2 => random.below(10),
        3 => random.below(1_000),
        4 => 100 * random.below(100_000_000),
        5 => random.below(10_000_000_000),
        6 => {
            let digits = random.below(15) as u32;
            random.below(10_u64.pow(digits))
        }
        7 => LARGEST_AMOUNT - random.below(3),
        8 => LARGEST_AMOUNT,
        _ => {
            let style = random.below(STYLES);
            amount(random, style)
        }
    }
}

/// A part of an amount: nothing, little, some, all but a cent, all.
fn part_of(random: &mut Random, most: u64) -> u64 {
    match random.below(6) {
        0 => 0,
        1 => most.min(1),
        2 => most - most.min(1),
        3 => most,
        _ => random.from(0, most),
    }
}

/// Current and prior: new, grown, at the limit of 120 %, shrunk, in any relation.
fn volumes(random: &mut Random, style: u64) -> (u64, u64) {
    let current = amount(random, style);
    match random.below(6) {
        0 => (current, 0),
        1 => (current, random.from(0, current / 6 * 5)),
        2 => {
            let sixth = current / 6;
            (6 * sixth + random.below(3), 5 * sixth + random.below(2))
        }
        3 => (current, random.from(current, LARGEST_AMOUNT)),
        4 => (random.from(0, current), current),
        _ => (current, amount(random, style)),
    }
}

/// What lines say that rules 3 to 12 and 16 let pass, once they are in order.
fn sheet_of(lines: &[Line]) -> Sheet {
    let mut lines = lines.to_vec();
    lines.sort_by_key(Line::key);
    read_sheet(&bytes(&lines)).expect("sound lines")
}

/// Rooms: none, too little, exact, a byte or more too many, the longest report's.
fn room(random: &mut Random, lines: &[Line]) -> usize {
    let mut blocks: Vec<u64> = lines.iter().filter(|l| l.code == "RSK" || l.code == "OTH").map(|l| l.block).collect();
    blocks.sort();
    blocks.dedup();
    let exact = report_length(blocks.len());
    match random.below(16) {
        0 => 0,
        1 => exact - 1,
        2 => random.at(exact),
        3..=8 => exact,
        9 | 10 => exact + 1,
        11 => exact + 3,
        _ => LONGEST_REPORT,
    }
}

// Damaged sheets

/// The kinds of faults, and how many of them are of lines, the first ones of the whole sheet; the others are of bytes.
const KINDS: u64 = 23;
const OF_LINES: u64 = 13;
const FIRST_OF_A_LINE: u64 = 3;

/// A sound sheet with one fault, or two or three of any kinds together, from this kind on.
fn damaged(random: &mut Random, mut lines: Vec<Line>, first: u64) -> Vec<u8> {
    let faults = random.pick(&[1, 1, 1, 2, 2, 3]);
    let mut kinds: Vec<u64> = (0..faults).map(|_| random.from(first, KINDS - 1)).collect();
    // Faults of lines come before faults of bytes, those of 13, 17 and 16 first, because they need sound lines.
    kinds.sort();
    kinds.dedup();
    let mut sheet = None;
    for kind in kinds {
        if kind < OF_LINES {
            damage_lines(random, &mut lines, kind);
            // Later faults need a line to stand in.
            if lines.is_empty() {
                lines.push(general_line(1, 0));
            }
        } else {
            damage_bytes(random, sheet.get_or_insert_with(|| bytes(&lines)), kind);
        }
    }
    sheet.unwrap_or_else(|| bytes(&lines))
}

/// Puts in a fault of lines, of this kind: the refusal that it is to give is named.
fn damage_lines(random: &mut Random, lines: &mut Vec<Line>, kind: u64) {
    match kind {
        // 13
        0 => credits_above_bracket(random, lines),
        // 17
        1 => dividend_too_large(random, lines),
        // 16
        2 => credit_above_lt(random, lines),
        // 5
        3 => {
            let at = random.at(lines.len());
            lines[at].block = block_outside(random, lines[at].code);
        }
        // 6
        4 => {
            let at = random.at(lines.len());
            lines[at].class = class_outside(random, &lines[at]);
        }
        // 8: a second amount that must be 0
        5 => {
            let at = line_of(random, lines, |l| matches!(l.code, "OTH" | "ACQ" | "GEN" | "CRD"));
            lines[at].second = some_amount(random);
        }
        // 8: LT(7), which may be above IR(7) too
        6 => {
            let at = line_of(random, lines, |l| l.code == "RSK");
            lines[at].class = EXPENSES;
            lines[at].second = some_amount(random);
        }
        // 9
        7 => lt_above_ir(random, lines),
        // 10
        8 => {
            let at = line_of(random, lines, Line::is_scalar);
            lines[at].first = random.pick(&[0, LARGEST_SCALAR + 1, LARGEST_SCALAR + 2, 100_000, LARGEST_AMOUNT]);
        }
        // 11
        9 => line_twice(random, lines),
        // 12
        10 => lines.retain(|l| !l.is_scalar()),
        // 19
        _ => out_of_order(random, lines),
    }
}

/// The group credits or those of an adjustable product are above what the others leave, by a cent or more.
fn credits_above_bracket(random: &mut Random, lines: &mut Vec<Line>) {
    let product = random.from(1, ADJUSTABLE_PRODUCTS as u64);
    let mut line = if random.one_in(2) { general_line(CREDITS, 0) } else { credit_line(0, product, 0) };
    lines.retain(|l| !l.is(line.code, 0, line.class));
    let left = |lines: &[Line]| {
        let sheet = sheet_of(lines);
        sheet.before_free_credits() - sheet.free_credits()
    };
    if left(lines) >= LARGEST_AMOUNT {
        lines.retain(Line::is_scalar);
    }
    let least = left(lines) + 1;
    line.first = if random.one_in(2) { least } else { random.from(least, LARGEST_AMOUNT) };
    put(random, lines, line);
}

/// A dividend credit above K, by a cent or more, or of a block that doesn't exist, also one of 0; alone, beside 12, 16 or
/// 13.
fn dividend_too_large(random: &mut Random, lines: &mut Vec<Line>) {
    let block = random.from(NON_PARTICIPATING as u64 + 1, MOST_BLOCKS as u64);
    lines.retain(|l| !l.is("CRD", block, 1));
    let first = if random.one_in(3) {
        lines.retain(|l| l.block != block);
        let any = some_amount(random);
        random.pick(&[0, 0, 1, any])
    } else {
        let k = |lines: &[Line]| sheet_of(lines).figures().iter().find(|row| row.0 == block).map(|row| row.1[4]);
        if k(lines).is_none_or(|k| k >= LARGEST_AMOUNT) {
            lines.retain(|l| l.block != block);
            let first = random.below(1_000);
            put(random, lines, Line { code: "OTH", block, class: 2, first, second: 0 });
        }
        let least = k(lines).map_or(0, |k| k + 1);
        if random.one_in(2) {
            least
        } else {
            random.from(least, LARGEST_AMOUNT)
        }
    };
    put(random, lines, credit_line(block, 1, first));
    match random.below(8) {
        0 => lines.retain(|l| !l.is_scalar()),
        1 => {
            lines.retain(|l| !l.is("GEN", 0, CREDITS));
            put(random, lines, general_line(CREDITS, LARGEST_AMOUNT));
        }
        2 => credit_above_lt(random, lines),
        _ => {}
    }
}

/// A credit above LT(1), by a cent or more, of a block that exists or doesn't; alone, beside 12 or beside 13.
fn credit_above_lt(random: &mut Random, lines: &mut Vec<Line>) {
    let last = NON_PARTICIPATING as u64;
    let mut block = random.from(1, last);
    if random.one_in(2) {
        let risk = line_of(random, lines, |l| l.code == "RSK" && l.class == 1 && l.block <= last);
        block = lines[risk].block;
    }
    lines.retain(|l| !l.is("MOR", block, 1));
    let lt = mortality_lt(lines, block);
    let (s, t) = if random.one_in(4) { (LARGEST_AMOUNT, LARGEST_AMOUNT) } else { nearly_alike(random, lt + 1) };
    put(random, lines, Line { code: "MOR", block, class: 1, first: s, second: t });
    match random.below(4) {
        0 => lines.retain(|l| !l.is_scalar()),
        1 => {
            lines.retain(|l| !l.is("GEN", 0, CREDITS));
            put(random, lines, general_line(CREDITS, LARGEST_AMOUNT));
        }
        _ => {}
    }
}

fn block_outside(random: &mut Random, code: &str) -> u64 {
    let has = |block: u64| last_class(code.as_bytes(), block).is_ok();
    let outside: Vec<u64> = (0..=99).filter(|&block| !has(block)).collect();
    // Most are next to a block that the code has.
    let next: Vec<u64> =
        outside.iter().copied().filter(|&block| has(block + 1) || (block > 0 && has(block - 1))).collect();
    let (next, any) = (random.pick(&next), random.pick(&outside));
    random.pick(&[next, next, any, 99])
}

/// Of a line whose block may be wrong already.
fn class_outside(random: &mut Random, line: &Line) -> u64 {
    let next = last_class(line.code.as_bytes(), line.block).unwrap_or(0) + 1;
    random.pick(&[0, next, next, next + 10, 99])
}

fn lt_above_ir(random: &mut Random, lines: &mut Vec<Line>) {
    let at = line_of(random, lines, |l| l.code == "RSK" && l.class != EXPENSES);
    let line = &mut lines[at];
    line.first = line.first.min(LARGEST_AMOUNT - 1);
    line.second = if random.one_in(2) { line.first + 1 } else { random.from(line.first + 1, LARGEST_AMOUNT) };
}

/// A line that stands twice, with its own or another amount, the second time anywhere: behind the first it is 11, right
/// behind it in order and farther off out of order; before the first, it is 19 for the line that follows it, if that isn't
/// the first itself.
fn line_twice(random: &mut Random, lines: &mut Vec<Line>) {
    let from = random.at(lines.len());
    let mut line = lines[from];
    if random.one_in(2) {
        line.first = some_amount(random);
    }
    let (next, behind, any) = (from + 1, from + 1 + random.at(lines.len() - from), random.at(lines.len() + 1));
    let to = random.pick(&[next, behind, any]);
    if lines.len() < MOST_LINES {
        lines.insert(to, line);
    } else {
        lines[to.min(MOST_LINES - 1)] = line;
    }
}

/// Lines that don't come after the one before them: two neighbours exchanged, any two, one moved, all of them turned round
/// or mixed; or a line more, before its place or behind it, where there are too few.
fn out_of_order(random: &mut Random, lines: &mut Vec<Line>) {
    if lines.len() < 2 {
        let line = Line { code: "RSK", block: 1, class: random.from(1, EXPENSES), first: 0, second: 0 };
        lines.insert(random.at(lines.len() + 1), line);
    }
    let (one, other) = (random.at(lines.len()), random.at(lines.len()));
    match random.below(8) {
        0..=2 => {
            let at = random.at(lines.len() - 1);
            lines.swap(at, at + 1);
        }
        3 => lines.swap(one, other),
        4 | 5 => {
            let line = lines.remove(one);
            lines.insert(other, line);
        }
        6 => lines.reverse(),
        _ => random.shuffle(lines),
    }
}

fn some_amount(random: &mut Random) -> u64 {
    let style = random.from(1, STYLES);
    amount(random, style).max(1)
}

/// Puts a line where it belongs; a full sheet loses another for it.
fn put(random: &mut Random, lines: &mut Vec<Line>, line: Line) {
    if lines.len() == MOST_LINES {
        lines.remove(random.at(MOST_LINES));
    }
    let at = lines.iter().take_while(|l| l.key() < line.key()).count();
    lines.insert(at, line);
}

/// Any line that is as wanted, or else one of risk 1.
fn line_of(random: &mut Random, lines: &mut Vec<Line>, wanted: impl Fn(&Line) -> bool) -> usize {
    let such: Vec<usize> = (0..lines.len()).filter(|&at| wanted(&lines[at])).collect();
    if such.is_empty() {
        let block = random.from(1, NON_PARTICIPATING as u64);
        let line = Line { code: "RSK", block, class: 1, first: 0, second: 0 };
        put(random, lines, line);
        return lines.iter().position(|l| l.is("RSK", block, 1)).expect("it was put there");
    }
    random.pick(&such)
}

/// NUL, tab, line feed, carriage return, signs, points, the neighbours of the digits, letters, bytes above 127.
const STRANGE: [u8; 17] = [0, 9, 10, 11, 13, b'+', b',', b'-', b'.', b'/', b':', b'A', 127, 128, 160, 233, 255];

const WRONG_CODES: [[u8; 3]; 18] = [
    *b"rsk", *b"RSX", *b"XSK", *b"   ", *b"BLK", *b"TOT", *b"REF", *b"OHT", *b"VO ", *b" GE", *b"\0\0\0", *b"GE\n",
    *b"VO\r", *b"\xCBSK", *b"MOT", *b"CDR", *b"AQC", *b"ACO",
];

/// Puts in a fault of bytes, of this kind: the refusal that it is to give is named.
fn damage_bytes(random: &mut Random, sheet: &mut Vec<u8>, kind: u64) {
    let whole_lines = sheet.len() / LINE_BYTES;
    if whole_lines == 0 {
        return;
    }
    let at = LINE_BYTES * random.at(whole_lines);
    let line = &mut sheet[at..at + LINE_BYTES];
    let field = &mut line[FIELDS[random.at(FIELDS.len())].clone()];
    match kind {
        // 3: a wrong byte in a number
        13 => field[random.at(field.len())] = random.pick(&STRANGE),
        // 3: a wrong byte between the columns or at the end
        14 => {
            let any = random.pick(&STRANGE);
            let [one, two, three, four] = SPACES;
            line[random.pick(&[one, two, three, four, LINE_FEED])] = random.pick(&[any, b'0', b'7', 0, 9, 13, 200]);
        }
        // 3
        15 => move_number(random, field),
        // 4: a wrong code
        16 => line[CODE].copy_from_slice(&random.pick(&WRONG_CODES)),
        // 4: a wrong byte in the code
        17 => line[random.at(CODE.len())] = random.pick(&STRANGE),
        // 2, or by #108 the 3 of a whole line
        18 => cut_or_lengthen(random, sheet),
        // 1: too long, by a byte, a line, or more
        19 => {
            let any = 1 + random.at(10 * LINE_BYTES);
            let length = LONGEST_SHEET + random.pick(&[1, 1, LINE_BYTES, any]);
            *sheet = sheet.iter().copied().cycle().take(length).collect();
        }
        // 3, or 2 where it is a line feed right before the last one
        20 => longer_line(random, sheet, at),
        21 => *sheet = any_bytes(random),
        // 3 at line 1, or 1
        _ => *sheet = with_carriage_returns(sheet),
    }
}

/// A number with a leading zero, left-justified, moved by one, or none.
fn move_number(random: &mut Random, field: &mut [u8]) {
    let spaces = field.iter().take_while(|&&byte| byte == b' ').count();
    match random.below(4) {
        0 if spaces > 0 => field[spaces - 1] = b'0',
        1 => field.rotate_left(spaces),
        2 if spaces > 0 => field.rotate_left(1),
        _ => field.fill(b' '),
    }
}

/// The last line is cut, or behind it there is the beginning of another, sound or strange; or there is no whole line at all.
fn cut_or_lengthen(random: &mut Random, sheet: &mut Vec<u8>) {
    let rest = 1 + random.at(LINE_BYTES - 1);
    match random.below(8) {
        0..=2 => sheet.truncate(sheet.len() - rest),
        3 | 4 => sheet.extend_from_within(..rest),
        5 => sheet.truncate(rest),
        _ => sheet.extend((0..rest).map(|_| random.pick(&STRANGE))),
    }
}

/// #108: "A sheet saved with carriage returns".
fn with_carriage_returns(sheet: &[u8]) -> Vec<u8> {
    let saved = |&byte: &u8| if byte == b'\n' { vec![b'\r', b'\n'] } else { vec![byte] };
    sheet.iter().flat_map(saved).collect()
}

/// The line from this byte on gets a byte more, and the sheet too or not.
fn longer_line(random: &mut Random, sheet: &mut Vec<u8>, at: usize) {
    sheet.insert(at + random.at(LINE_BYTES), random.pick(b" 0\n\r\0"));
    if random.one_in(2) {
        sheet.pop();
    }
}

/// Any bytes at all, or any of those that a sheet has.
fn any_bytes(random: &mut Random) -> Vec<u8> {
    let length = LINE_BYTES * random.pick(&[1, 2, 10]) + random.pick(&[0, 0, 1, LINE_BYTES - 1]);
    let alphabet: Vec<u8> = if random.one_in(2) { (0..=255).collect() } else { b" 0123456789RSKGENMOCDAQ\n".to_vec() };
    (0..length).map(|_| random.pick(&alphabet)).collect()
}
