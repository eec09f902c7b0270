//! Generated sheets.

use reference::generate::{
    accepted, block_numbers, case, check_case, convert_case, fluctuation_numbers, movement_input, operational_numbers,
    quarter_input, shares_numbers,
};
use reference::*;
use std::collections::{BTreeMap, BTreeSet};

/// Every accepted sheet that the generator makes is accepted, and demand 3 holds for its report.
#[test]
fn demand_3_on_accepted_sheets() {
    let (sheets, mut undecided) = (6_000, 0);
    let (mut blocks, mut longest) = (BTreeSet::new(), 0);
    for index in 0..sheets {
        let sheet = accepted(3, index);
        let mut report = vec![b'#'; LONGEST_REPORT];
        let length = sheet_call(&sheet, &mut report).unwrap_or_else(|refusal| panic!("sheet {index}: {refusal:?}"));
        blocks.insert((length / REPORT_LINE_BYTES - 3) / FIGURES);
        longest = longest.max(sheet.len());
        match judge(&sheet, &report[..length]) {
            Ok(decided) => undecided += u64::from(!decided),
            Err(why) => panic!("sheet {index}: {why}"),
        }
    }
    println!("{sheets} sheets, {undecided} of them not decided by the bracket");
    assert!(undecided < sheets / 100);
    assert!((0..=MOST_BLOCKS).all(|n| blocks.contains(&n)) && longest == LONGEST_SHEET, "sheets of all sizes");
}

/// A buffer below the reported one by the bracket's rounding, or above it by the allowance, is found out.
#[test]
fn demand_3_finds_wrong_buffers() {
    for index in 0..500 {
        let sheet = accepted(4, index);
        let mut report = vec![0; LONGEST_REPORT];
        let length = sheet_call(&sheet, &mut report).unwrap();
        let last = length - REPORT_LINE_BYTES;
        let line = std::str::from_utf8(&report[last..length]).unwrap();
        let buffer: u64 = line.split_whitespace().last().unwrap().parse().unwrap();
        // The allowance is at most 2 × (1.01 × 32 + 1) + 1 = 67.64 cents.
        let above = [&report[..last], &report_line("TOT", 0, 3, buffer + 68)].concat();
        assert!(demand3(&sheet, &above).is_err(), "sheet {index}");
        if buffer >= 68 {
            let below = [&report[..last], &report_line("TOT", 0, 3, buffer - 68)].concat();
            assert!(demand3(&sheet, &below).is_err(), "sheet {index}");
        }
    }
}

/// #109: so is a K that is two cents off: K is less than 1.01 cents above the exact one and not below it.
#[test]
fn demand_3_finds_wrong_requirements() {
    let mut whys = BTreeMap::new();
    for index in 0..500 {
        let sheet = accepted(15, index);
        let mut report = vec![0; LONGEST_REPORT];
        let length = sheet_call(&sheet, &mut report).unwrap();
        for at in (0..length / REPORT_LINE_BYTES - 3).skip(4).step_by(FIGURES) {
            let line = REPORT_LINE_BYTES * at..REPORT_LINE_BYTES * (at + 1);
            let words: Vec<u64> =
                std::str::from_utf8(&report[line.clone()]).unwrap().split_whitespace().flat_map(str::parse).collect();
            let [block, 5, k] = words[..] else { panic!("sheet {index}: {words:?}") };
            for k in [Some(k + 2), k.checked_sub(2)].into_iter().flatten() {
                let mut other = report[..length].to_vec();
                other[line.clone()].copy_from_slice(&report_line("BLK", block, 5, k));
                let why = demand3(&sheet, &other).expect_err("two cents");
                let kind =
                    ["is below LT + D", "above U", "K, ", "the buffer"].into_iter().find(|kind| why.contains(kind));
                *whys.entry(kind.unwrap()).or_insert(0) += 1;
            }
        }
    }
    println!("what two cents more or less break: {whys:?}");
    assert!(["is below LT + D", "above U", "K, "].iter().all(|kind| whys[kind] >= 100) && whys.len() == 3, "{whys:?}");
}

/// The cases reach every row that a sheet can give; a refusal changes no byte, and an answer none past its length.
#[test]
fn cases_reach_every_row() {
    let (cases, mut counts) = (20_000, BTreeMap::new());
    for index in 0..cases {
        let (sheet, room) = case(5, index);
        assert!(room <= LONGEST_REPORT + 3);
        let mut report = vec![b'#'; room];
        let answer = sheet_call(&sheet, &mut report);
        let length = answer.unwrap_or(0);
        assert!(report[length..].iter().all(|&byte| byte == b'#'), "case {index}");
        if let Ok(length) = answer {
            assert_eq!(demand3(&sheet, &report[..length]), Ok(()), "case {index}");
        }
        let number = answer.map_or_else(|refusal| refusal.number, |_| 0);
        *counts.entry(number).or_insert(0) += 1;
    }
    println!("answers of {cases} cases, 0 for accepted: {counts:?}");
    let reached: Vec<u8> = counts.keys().copied().collect();
    assert_eq!(reached, [0, 1, 2, 3, 4, 5, 6, 8, 9, 10, 11, 12, 13, 14, 16, 17, 19]);
    assert!(counts.values().all(|&count| count >= 100), "{counts:?}");
}

/// #110: the sheets to convert reach every row that the converting call has, from both units; a refusal changes no byte, and an
/// answer none past its length. What is converted, from cents or from thousands, converts back to the same bytes; 20 is of
/// cents alone and 21 of thousands, at either amount.
#[test]
fn conversions_of_every_kind() {
    let (cases, mut counts) = (10_000, [BTreeMap::new(), BTreeMap::new()]);
    let (mut seconds, mut without_scalar, mut later_letters) = (BTreeSet::new(), 0, 0);
    for index in 0..cases {
        let (sheet, room) = convert_case(5, index);
        let mut converted = vec![b'#'; room];
        let answer = convert_call(&sheet, &mut converted);
        let length = answer.unwrap_or(0);
        assert!(converted[length..].iter().all(|&byte| byte == b'#'), "case {index}");
        let small = sheet.first().is_some_and(u8::is_ascii_lowercase);
        let number = answer.map_or_else(|refusal| refusal.number, |_| 0);
        *counts[usize::from(small)].entry(number).or_insert(0) += 1;
        match answer {
            Ok(_) => {
                assert_eq!(length, sheet.len());
                let mut back = vec![0; length];
                assert_eq!(convert_call(&converted[..length], &mut back), Ok(length), "case {index}");
                assert_eq!(back, sheet, "case {index}");
                without_scalar +=
                    usize::from(!sheet.chunks(LINE_BYTES).any(|line| line[..9].eq_ignore_ascii_case(b"GEN  0  4")));
            }
            Err(Refusal { number: 20 | 21, place: Place::Line(at) }) => {
                let line = &sheet[LINE_BYTES * (at - 1)..LINE_BYTES * at];
                let number_of = |field: &[u8]| std::str::from_utf8(field).unwrap().trim().parse::<u64>().unwrap();
                let wrong = |amount: u64| if small { amount > 999_999_999 } else { amount % THOUSAND_DOLLARS > 0 };
                seconds.insert((small, wrong(number_of(&line[10..24])), wrong(number_of(&line[25..39]))));
            }
            Err(Refusal { number: 4, place: Place::Line(at) }) if at > 1 => {
                let code = &sheet[LINE_BYTES * (at - 1)..][..3];
                later_letters += usize::from(code.iter().any(u8::is_ascii_lowercase) != small);
            }
            _ => {}
        }
    }
    println!("answers of {cases} cases in cents and in thousands, 0 for accepted: {counts:?}");
    println!("accepted without a scalar: {without_scalar}; 4 in the letters of the other unit: {later_letters}");
    assert!(counts[0].keys().eq(&[0, 1, 2, 3, 4, 5, 6, 8, 9, 10, 11, 14, 19, 20]), "{counts:?}");
    assert!(counts[1].keys().eq(&[0, 1, 2, 3, 4, 5, 6, 8, 9, 10, 11, 14, 19, 21]), "{counts:?}");
    assert!(counts.iter().flat_map(BTreeMap::values).all(|&count| count >= 30), "{counts:?}");
    assert!(without_scalar >= 100 && later_letters >= 100);
    // The first amount alone, the second alone, both; never neither.
    assert_eq!(seconds.len(), 6, "{seconds:?}");
    assert!(seconds.iter().all(|&(_, first, second)| first || second));
}

/// #111: the movements reach every row that the program has, and movements of every kind; both of the theorem's bounds hold of all
/// that is printed, and K moves by t itself and falls.
#[test]
fn movements_of_every_kind() {
    let (mut counts, mut kinds) = (BTreeMap::new(), BTreeMap::<&str, u64>::new());
    let (mut moved, mut decided) = (0, 0);
    for index in 0..20_000 {
        let input = movement_input(5, index);
        let answer = movement_call(&input);
        let number = answer.as_ref().map_or_else(|refusal| refusal.number, |_| 0);
        *counts.entry(number).or_insert(0) += 1;
        let Ok(movements) = answer else { continue };
        let judged = judge_movements(&input, &print_movements(&input));
        let judged = judged.unwrap_or_else(|why| panic!("input {index}: {why}"));
        moved += judged.movements;
        decided += judged.decided;
        let t: i64 = std::str::from_utf8(&input[255..269]).unwrap().trim().parse().unwrap();
        let refused = movements.iter().filter(|movement| movement.is_err()).count();
        assert_eq!(judged.movements + refused, RISKS);
        let some = |holds: &dyn Fn(i64) -> bool| movements.iter().flatten().any(|&movement| holds(movement));
        for (kind, holds) in [
            ("no raise", t == 0),
            ("by t", t > 0 && some(&|movement| movement == t)),
            ("a fall", some(&|movement| movement < 0)),
            ("a fall by more than a cent", some(&|movement| movement < -1)),
            ("some risks refused", 0 < refused && refused < RISKS),
            ("all risks refused", refused == RISKS),
        ] {
            *kinds.entry(kind).or_default() += u64::from(holds);
        }
    }
    println!("answers of 20,000 inputs, 0 for accepted: {counts:?}; {moved} movements, {decided} decided; {kinds:?}");
    assert!(counts.keys().eq(&[0, 2, 3, 8, 9]) && counts.values().all(|&count| count >= 100), "{counts:?}");
    assert!(kinds.values().all(|&count| count >= 20), "{kinds:?}");
    assert!(decided * 100 >= moved * 99, "{decided} of {moved}");
}

/// #112: the shares reach every row that the call has, and shares of every kind; what is promised of them holds of all of them, and
/// shares with a cent moved are found out.
#[test]
fn shares_of_every_kind() {
    let (mut counts, mut kinds) = (BTreeMap::new(), BTreeMap::<&str, u64>::new());
    for index in 0..20_000 {
        let numbers = shares_numbers(5, index);
        let answer = shares_call(&numbers);
        let number = answer.map_or_else(|refusal| refusal.number, |_| 0);
        *counts.entry(number).or_insert(0) += 1;
        // What is left out has its amounts zero; the margins may be below 0.
        let k = |part: usize| {
            let mut numbers = numbers;
            match part {
                0..RISKS => (numbers[2 * part], numbers[2 * part + 1]) = (0, 0),
                RISKS..PARTS => numbers[RISKS + part] = 0,
                _ => {}
            }
            block_call(&numbers).map(|values| values[4] as i128)
        };
        let Ok(whole) = k(PARTS) else {
            assert!(number != 0 && number != 23, "call {index}");
            continue;
        };
        let margins: Vec<i128> = (0..PARTS).map(|part| whole - k(part).unwrap()).collect();
        let (negative, zero) = (margins.iter().any(|&m| m < 0), margins.iter().all(|&m| m == 0));
        assert_eq!(number == 23, negative || zero, "call {index}: {margins:?}");
        let mut held = vec![
            ("a negative margin", negative),
            ("all margins zero, and K isn't", zero && whole > 0),
            ("no block", whole == 0),
        ];
        if let Ok(shares) = answer {
            assert_eq!(judge_shares(&numbers, &shares), Ok(()), "call {index}");
            let sum: i128 = margins.iter().sum();
            let down: i128 = margins.iter().map(|margin| whole * margin / sum).sum();
            let rests: Vec<i128> = margins.iter().map(|margin| whole * margin % sum).collect();
            let up = |part: usize| shares[part] as i128 > whole * margins[part] / sum;
            let between = (0..PARTS).any(|p| (p + 1..PARTS).any(|q| rests[p] == rests[q] && up(p) && !up(q)));
            held.extend([
                ("no cent left over", whole == down),
                ("one", whole == down + 1),
                ("four and more", whole >= down + 4),
                ("the last cent between equal remainders", between),
                ("margins above K together", sum > whole),
                ("margins below K together", sum < whole),
            ]);
            // A cent from one part to another.
            let (from, to) =
                ((0..PARTS).find(|&part| shares[part] > 0), (0..PARTS).rev().find(|&part| shares[part] == 0));
            if let (Some(from), Some(to)) = (from, to) {
                let mut other = shares;
                other[from] -= 1;
                other[to] += 1;
                assert!(judge_shares(&numbers, &other).is_err(), "call {index}");
                other[to] -= 1;
                assert!(judge_shares(&numbers, &other).is_err(), "call {index}");
            }
        }
        for (kind, holds) in held {
            *kinds.entry(kind).or_default() += u64::from(holds);
        }
    }
    println!("answers of 20,000 shares calls, 0 for accepted: {counts:?}; {kinds:?}");
    assert!(counts.keys().eq(&[0, 7, 8, 9, 23]) && counts.values().all(|&count| count >= 100), "{counts:?}");
    assert!(kinds.len() == 9 && kinds.values().all(|&count| count >= 20), "{kinds:?}");
}

/// #113: the checks reach every row that the call has; a refusal changes no byte, and an answer none past its length. Lines of every
/// kind are listed and not listed, and every listing lists exactly the unmet needs.
#[test]
fn listings_of_every_kind() {
    let (mut counts, mut kinds) = (BTreeMap::new(), BTreeMap::<(String, &str), u64>::new());
    let mut longest = 0;
    for index in 0..12_000 {
        let (sheet, room) = check_case(5, index);
        let mut listing = vec![b'#'; room];
        let answer = check_call(&sheet, &mut listing);
        let length = answer.unwrap_or(0);
        assert!(listing[length..].iter().all(|&byte| byte == b'#'), "case {index}");
        let number = answer.map_or_else(|refusal| refusal.number, |_| 0);
        *counts.entry(number).or_insert(0) += 1;
        if answer.is_err() {
            continue;
        }
        assert_eq!(judge_check(&sheet, &listing[..length]), Ok(()), "case {index}");
        longest = longest.max(length);
        let text = String::from_utf8(listing[..length].to_vec()).unwrap();
        let listed: BTreeSet<&str> = text.lines().map(|line| &line[..9]).collect();
        // A listing that lacks a line, or has one twice, is found out.
        if length > 0 {
            assert!(judge_check(&sheet, &listing[LISTING_LINE_BYTES..length]).is_err(), "case {index}");
            assert!(judge_check(&sheet, &[&listing[..length], &listing[..LISTING_LINE_BYTES]].concat()).is_err());
        }
        let lines: Vec<(&str, [u64; 4])> = sheet.chunks(LINE_BYTES).filter_map(line_of).collect();
        for (code, [block, class, first, second]) in &lines {
            let sort = match (*code, block, class) {
                ("VOL", _, 5) => "VOL 5",
                ("CRD", 0, _) => "CRD of no block",
                ("MOR" | "ACQ" | "CRD", ..) => *code,
                _ => continue,
            };
            let is_listed = listed.contains(format!("{code} {block:>2} {class:>2}").as_str());
            let stands = |code: &str, class: Option<u64>| {
                let is = |line: &&(&str, [u64; 4])| {
                    line.0 == code && line.1[0] == *block && class.is_none_or(|c| c == line.1[1])
                };
                lines.iter().any(|line| is(&line))
            };
            let companion = match sort {
                "VOL 5" => lines.iter().any(|line| line.0 == "GEN" && line.1[1] == 2),
                "MOR" => stands("RSK", Some(1)),
                "ACQ" => stands("VOL", Some(*class)),
                _ => stands("RSK", None),
            };
            let kind = match (is_listed, companion, first + second) {
                (true, false, _) => "listed, its companion absent",
                (true, true, _) => "listed, its companion 0",
                (false, _, 0) => "zeros",
                _ => "met",
            };
            *kinds.entry((sort.to_string(), kind)).or_default() += 1;
            *kinds.entry((sort.to_string(), "first amount 0 alone")).or_default() +=
                u64::from(is_listed && *first == 0 && *second > 0);
        }
    }
    println!("answers of 12,000 checks, 0 for accepted: {counts:?}; longest {longest}; {kinds:?}");
    assert!(counts.keys().eq(&[0, 1, 2, 3, 4, 5, 6, 8, 9, 10, 11, 12, 13, 14, 16, 17, 19]), "{counts:?}");
    assert!(counts.values().all(|&count| count >= 10) && counts[&0] > 3_000, "{counts:?}");
    for sort in ["VOL 5", "MOR", "ACQ", "CRD"] {
        for kind in ["listed, its companion absent", "listed, its companion 0", "zeros", "met"] {
            assert!(
                kinds.get(&(sort.to_string(), kind)).is_some_and(|&count| count >= 50),
                "{sort}, {kind}: {kinds:?}"
            );
        }
    }
    for sort in ["VOL 5", "MOR"] {
        assert!(kinds[&(sort.to_string(), "first amount 0 alone")] >= 50, "{sort}: {kinds:?}");
    }
    let free = |kind: &str| {
        kinds.iter().any(|((sort, found), &count)| sort == "CRD of no block" && *found == kind && count > 0)
    };
    assert!(!free("listed, its companion absent") && !free("listed, its companion 0") && free("met"), "{kinds:?}");
}

/// #114: the quarters reach 24, 25 and numbers of sheets from 0 to 60, with sheets that are refused, ties, and closing lines that are none;
/// what is promised of a summary holds of each, and another total is found out.
#[test]
fn quarters_of_every_kind() {
    let (mut counts, mut kinds) = (BTreeMap::new(), BTreeMap::<&str, u64>::new());
    let (mut sizes, mut accepted, mut undecided) = (BTreeSet::new(), 0, 0);
    for index in 0..3_000 {
        let input = quarter_input(5, index);
        let printed = print_quarter(&input);
        let text = std::str::from_utf8(&printed).unwrap();
        assert!(text.lines().all(|line| line.len() == QUARTER_LINE_BYTES - 1), "input {index}");
        let refusal = quarter_refusal(&input);
        *counts.entry(refusal.map_or(0, |refusal| refusal.number)).or_insert(0) += 1;
        let count = |code: &str| text.lines().filter(|line| line.starts_with(code)).count();
        let (sheets, refs) = (count("SHT"), count("REF"));
        let mut held = vec![
            ("24 alone behind 60 answers", refusal.is_some_and(|r| r.number == 24) && sheets + refs == 61),
            ("25 alone", refusal.is_some_and(|r| r.number == 25) && sheets + refs == 1),
            ("25 behind accepted sheets", refusal.is_some_and(|r| r.number == 25) && sheets > 0),
            ("REF 1 of a sheet that is too long", text.contains("REF  1")),
            ("REF 12 of an empty sheet", text.contains("REF 12")),
        ];
        if refusal.is_some() {
            assert_eq!(count("SUM"), 0, "input {index}");
        } else {
            sizes.insert(sheets + refs);
            let judged = judge_quarter(&input, &printed).unwrap_or_else(|why| panic!("input {index}: {why}"));
            assert_eq!(judged.accepted, sheets);
            accepted += sheets;
            undecided += u64::from(!judged.decided);
            let item = |at: usize| text.lines().rev().nth(8 - at).unwrap()[10..].trim().parse::<u64>().unwrap();
            let buffers: Vec<&str> =
                text.lines().filter(|line| line.starts_with("SHT")).map(|line| &line[10..]).collect();
            let same = |wanted: u64| buffers.iter().filter(|buffer| buffer.trim() == wanted.to_string()).count();
            held.extend([
                ("no sheet", sheets + refs == 0),
                ("all refused", sheets == 0 && refs > 0),
                ("60 accepted", sheets == 60),
                ("a smallest buffer twice", sheets > 0 && same(item(2)) > 1 && item(2) < item(4)),
                ("a largest buffer twice", sheets > 0 && same(item(4)) > 1 && item(2) < item(4)),
                ("a remainder", item(8) > 0),
                ("the smallest isn't the first", sheets > 0 && item(3) > 1),
            ]);
            // A total that is off by the allowances, with a mean that follows.
            if sheets > 0 {
                let total = item(6) + 68 * sheets as u64;
                let other: String = text
                    .lines()
                    .map(|line| match &line[..9] {
                        "SUM  0  6" => format!("SUM  0  6 {total:>19}\n"),
                        "SUM  0  7" => format!("SUM  0  7 {:>19}\n", total / sheets as u64),
                        "SUM  0  8" => format!("SUM  0  8 {:>19}\n", total % sheets as u64),
                        _ => format!("{line}\n"),
                    })
                    .collect();
                assert!(judge_quarter(&input, other.as_bytes()).is_err(), "input {index}");
            }
        }
        for (kind, holds) in held {
            *kinds.entry(kind).or_default() += u64::from(holds);
        }
    }
    println!(
        "quarters, 0 for those that aren't cut short: {counts:?}; {accepted} sheets, {undecided} undecided; {kinds:?}"
    );
    assert!(counts.keys().eq(&[0, 24, 25]) && counts.values().all(|&count| count >= 100), "{counts:?}");
    assert!(kinds.len() == 12 && kinds.values().all(|&count| count >= 10), "{kinds:?}");
    assert!([0, 1, 2, 59, 60].iter().all(|size| sizes.contains(size)) && sizes.len() > 40, "{sizes:?}");
    assert!(undecided < 30);
}

/// The numbers of the other three calls reach every row that these can give, and 7 at positions of every size.
#[test]
fn numbers_reach_every_row() {
    let mut positions = BTreeSet::new();
    let mut counts = [BTreeMap::new(), BTreeMap::new(), BTreeMap::new()];
    for index in 0..20_000 {
        let (volumes, general) = operational_numbers(5, index);
        let [row, b, face] = fluctuation_numbers(5, index);
        let answers = [
            block_call(&block_numbers(5, index)).map(|_| ()),
            operational_call(&volumes, &general).map(|_| ()),
            fluctuation_call(row, b, face).map(|_| ()),
        ];
        for (call, answer) in answers.iter().enumerate() {
            let number = answer.map_or_else(|refusal| refusal.number, |_| 0);
            *counts[call].entry(number).or_insert(0) += 1;
            if let Err(Refusal { number: 7, place: Place::Position(position) }) = answer {
                positions.insert((call, *position));
            }
        }
    }
    println!("answers of the block, the operational and the fluctuation call, 0 for accepted: {counts:?}");
    assert!(counts[0].keys().eq(&[0, 7, 8, 9]) && counts[1].keys().eq(&[0, 7, 15]) && counts[2].keys().eq(&[0, 7, 18]));
    assert!(counts.iter().flat_map(BTreeMap::values).all(|&count| count >= 100), "{counts:?}");
    assert!((0..BLOCK_NUMBERS).all(|position| positions.contains(&(0, position))));
    assert!((0..2).all(|position| positions.contains(&(2, position))));
    assert!(positions.len() >= BLOCK_NUMBERS + 200, "{positions:?}");
}

/// #107: block calls with every number of steps stand, up to the most that there are: none, and from 7 on, which a single half
/// cent has by #109; the first y that takes so many, and the last; none for I beside some for D; and fewer for I than the
/// square of its floor takes.
#[test]
fn steps_of_every_kind() {
    let (mut of_i, mut of_d) = (BTreeSet::new(), BTreeSet::new());
    let mut counts: BTreeMap<&str, u64> = BTreeMap::new();
    // Of the square of so many half cents, in hundredths: half its padded length, which is the length of its root.
    let of_square = |n: u64| u64::from(64 - (100 * n).leading_zeros());
    for index in 0..40_000 {
        let numbers = block_numbers(13, index);
        let Ok([i, d, _, _, _, steps_i, steps_d]) = block_call(&numbers) else { continue };
        of_i.insert(steps_i);
        of_d.insert(steps_d);
        // The radicand of D is at least the square of I's root. D's root is at most D and above D less a half cent.
        assert!(steps_i <= steps_d && steps_d <= 58, "call {index}");
        assert!(of_square(d.saturating_sub(1)) <= steps_d && steps_d <= of_square(d), "call {index}");
        let without_pc = i - 2 * numbers[2 * RISKS];
        let floor = (0..RISKS).map(|risk| 2 * numbers[2 * risk] - numbers[2 * risk + 1]).max().unwrap();
        let of_root = 0 < steps_i && steps_i == of_square(without_pc);
        for (kind, holds) in [
            ("the first y", of_root && of_square(without_pc - 1) < steps_i),
            ("the last y", of_root && of_square(without_pc + 1) > steps_i),
            ("none for I", steps_i == 0 && steps_d > 0),
            ("fewer than the floor's square", without_pc == floor && 0 < steps_i && steps_i < of_square(floor)),
            ("D by two more", steps_i > 0 && steps_d >= steps_i + 2),
        ] {
            *counts.entry(kind).or_default() += u64::from(holds);
        }
    }
    println!("steps in 40,000 calls: {counts:?}");
    assert!(of_i.into_iter().eq((0..1).chain(7..=57)) && of_d.into_iter().eq((0..1).chain(7..=57)));
    assert!(counts.values().all(|&count| count >= 100), "{counts:?}");
}

/// #109, beside document 01's roots in whole half cents: D is the same or 1 lower, and K the same or a cent lower (I is the same:
/// the tests of the block call's own file).
/// Each happens, K also where D is the same.
#[test]
fn finer_beside_whole_half_cents() {
    let least = |radicand: u128| {
        let down = radicand.isqrt();
        down + u128::from(down * down < radicand)
    };
    let mut counts: BTreeMap<(u128, u128), u64> = BTreeMap::new();
    for index in 0..40_000 {
        let numbers = block_numbers(16, index);
        let Ok([i, d, u, lt, k, ..]) = block_call(&numbers).map(|values| values.map(u128::from)) else { continue };
        let a = 2 * u128::from(numbers[BLOCK_NUMBERS - 2] + numbers[BLOCK_NUMBERS - 1]);
        let (whole, v) = (least(a * a + a * i + i * i), 2 * u - lt);
        let m = (7 * v * v + 30 * whole * whole).saturating_sub(31 * whole * v);
        let at_whole = if u == 0 { 0 } else { (48 * u * v + 6 * lt * v + m).div_ceil(60 * v) };
        assert!(d <= whole && whole <= d + 1 && k <= at_whole && at_whole <= k + 1, "call {index}");
        *counts.entry((whole - d, at_whole - k)).or_default() += 1;
    }
    println!("D and K lower by, in 40,000 calls: {counts:?}");
    assert!(counts.len() == 4 && counts.values().all(|&count| count >= 100), "{counts:?}");
}

/// Fluctuation calls of every kind stand, in each row: at the threshold and next to it, far above it, a base whose root is
/// whole, the largest; refused at either amount, at both, and for the row beside them.
#[test]
fn fluctuations_of_every_kind() {
    // In dollars.
    let thresholds = [42_000_000, 75_000_000, 6_000_000, 3_000_000, 5_000_000, 3_000_000, 300_000_000];
    let mut counts: BTreeMap<(u64, &str), u64> = BTreeMap::new();
    for index in 0..60_000 {
        let [row, b, face] = fluctuation_numbers(10, index);
        let base = if row == 7 { face } else { b };
        let (over_b, over_face) = (b > LARGEST_AMOUNT, face > LARGEST_AMOUNT);
        let answer = fluctuation_call(row, b, face);
        if let Ok(result) = answer {
            assert_eq!(judge_fluctuation(row, b, face, result), Ok(()), "call {index}");
        }
        let mut kinds = vec![];
        if (1..=FLUCTUATION_ROWS as u64).contains(&row) {
            let threshold = 100 * thresholds[row as usize - 1];
            let dollars = base / 100;
            kinds.extend([
                ("a cent below", base == threshold - 1 && answer.is_ok()),
                ("at it", base == threshold && answer.is_ok()),
                ("a cent above", base == threshold + 1 && answer.is_ok()),
                ("twice and more", base > 2 * threshold && answer.is_ok()),
                ("a whole root", base > threshold && base == 100 * dollars.isqrt().pow(2) && answer.is_ok()),
                ("the largest base", base == LARGEST_AMOUNT && answer.is_ok()),
                ("no requirement", b == 0 && answer.is_ok()),
                ("7 of B alone", over_b && !over_face),
                ("7 of the face alone", !over_b && over_face),
                ("7 of both", over_b && over_face),
            ]);
        } else {
            kinds.extend([
                ("18 alone", !over_b && !over_face),
                ("18 beside 7 of B", over_b && !over_face),
                ("18 beside 7 of the face", !over_b && over_face),
            ]);
        }
        for (kind, holds) in kinds {
            let row = if row > FLUCTUATION_ROWS as u64 { 0 } else { row };
            *counts.entry((row, kind)).or_default() += u64::from(holds);
        }
    }
    println!("fluctuation calls of 60,000, row 0 for none: {counts:?}");
    assert_eq!(counts.len(), 10 * FLUCTUATION_ROWS + 3);
    assert!(counts.values().all(|&count| count >= 10), "{counts:?}");
}

/// The same seed and index give the same case.
#[test]
fn cases_repeat() {
    for index in 0..200 {
        assert_eq!(case(6, index), case(6, index));
        assert_eq!(block_numbers(6, index), block_numbers(6, index));
        assert_eq!(operational_numbers(6, index), operational_numbers(6, index));
        assert_eq!(fluctuation_numbers(6, index), fluctuation_numbers(6, index));
    }
    assert!((0..200).any(|index| case(6, index) != case(7, index)));
}

/// #105: lines in any order but their own are refused by 19: two neighbours exchanged, the last line put first, all of them
/// turned round.
#[test]
fn no_other_order_is_accepted() {
    let answer = |lines: &[&[u8]]| sheet_call(&lines.concat(), &mut [b'#'; LONGEST_REPORT]).map(|_| ());
    for index in 0..2_000 {
        let sheet = accepted(11, index);
        let mut lines: Vec<&[u8]> = sheet.chunks(LINE_BYTES).collect();
        assert_eq!(answer(&lines), Ok(()), "sheet {index}");
        if lines.len() < 2 {
            continue;
        }
        let at = index as usize % (lines.len() - 1);
        lines.swap(at, at + 1);
        assert_eq!(answer(&lines), Err(Refusal::at_line(19, at + 2)), "sheet {index}, lines {at} and the next");
        lines.swap(at, at + 1);
        lines.rotate_right(1);
        assert_eq!(answer(&lines), Err(Refusal::at_line(19, 2)), "sheet {index}, its last line first");
        lines.rotate_left(1);
        lines.reverse();
        assert_eq!(answer(&lines), Err(Refusal::at_line(19, 2)), "sheet {index}, turned round");
    }
}

/// #105: 19 and 11 of every kind stand: the code, the block or the class falls, whatever the others do; in the second line,
/// in the last and between; beside a line that stands twice and what concerns the whole sheet; a line right behind its equal
/// and farther off.
#[test]
fn orders_of_every_kind() {
    let rank = |code: &str| "RSK OTH MOR VOL ACQ GEN CRD".find(code);
    let mut counts: BTreeMap<&str, u64> = BTreeMap::new();
    for index in 0..20_000 {
        let (sheet, room) = case(12, index);
        let answer = sheet_call(&sheet, &mut vec![0; room]);
        let lines: Vec<Option<(&str, [u64; 4])>> = sheet.chunks(LINE_BYTES).map(line_of).collect();
        // Code, block and class of a line, counted from 1.
        let key = |at: usize| lines[at - 1].map(|(code, [block, class, ..])| (rank(code), block, class));
        let kinds = match answer {
            Err(Refusal { number: 19, place: Place::Line(at) }) => {
                let ((code, block, class), (code_before, block_before, class_before)) =
                    (key(at).unwrap(), key(at - 1).unwrap());
                let no_scalar = !lines.iter().flatten().any(|line| line.0 == "GEN" && line.1[1] == SCALAR);
                let stands_again = |at: usize| (at + 1..=lines.len()).any(|other| key(other) == key(at));
                vec![
                    ("code falls, block rises", code < code_before && block > block_before),
                    ("code falls, block as well", code < code_before && block < block_before),
                    ("block falls, class rises", code == code_before && block < block_before && class > class_before),
                    ("block falls, class as well", code == code_before && block < block_before && class < class_before),
                    ("class falls", (code, block) == (code_before, block_before) && class < class_before),
                    ("in line 2", at == 2 && lines.len() > 2),
                    ("in the last line", at == lines.len() && at > 2),
                    ("in another", 2 < at && at < lines.len()),
                    ("the one before it stands again", stands_again(at - 1)),
                    ("beside a line that is none", lines.contains(&None)),
                    ("beside 12", no_scalar),
                    ("beside 14", room == 0),
                ]
            }
            Err(Refusal { number: 11, place: Place::Line(at) }) => {
                vec![("11 right behind", key(at) == key(at - 1)), ("11 farther off", key(at) < key(at - 1))]
            }
            _ => vec![],
        };
        for (kind, holds) in kinds {
            *counts.entry(kind).or_default() += u64::from(holds);
        }
    }
    println!("19 and 11 in 20,000 cases: {counts:?}");
    assert_eq!(counts.len(), 14);
    assert!(counts.values().all(|&count| count >= 10), "{counts:?}");
}

/// #108: where the length isn't a multiple of 40, the answer is 3 with the first whole line that can't be printed back from its
/// numbers, and else 2, whatever else is wrong. Of each there is every kind: no whole line, the first, the last and another; a
/// rest that is no beginning of a line; a fault of another rule in the lines before the broken one, and in sound lines; and
/// sheets with carriage returns.
#[test]
fn lengths_of_every_kind() {
    let sound = |line: &[u8]| {
        let text = [b"XXX", &line[3..]].concat();
        let Some((_, [block, class, first, second])) = line_of(&text) else { return false };
        format!("XXX {block:>2} {class:>2} {first:>14} {second:>14}\n").into_bytes() == text
    };
    let mut counts: BTreeMap<&str, u64> = BTreeMap::new();
    for index in 0..20_000 {
        let (sheet, room) = case(14, index);
        let returns = sheet.windows(2).filter(|bytes| bytes == b"\r\n").count();
        let all_returns = returns > 0 && returns == sheet.iter().filter(|&&byte| byte == b'\n').count();
        let answer = sheet_call(&sheet, &mut vec![0; room]);
        if sheet.len() > LONGEST_SHEET {
            assert_eq!(answer, Err(Refusal::nowhere(1)), "case {index}");
            *counts.entry("1 beside carriage returns").or_default() += u64::from(all_returns);
            continue;
        }
        let (whole, rest) = sheet.split_at(LINE_BYTES * (sheet.len() / LINE_BYTES));
        let broken = whole.chunks(LINE_BYTES).position(|line| !sound(line)).map(|at| at + 1);
        if rest.is_empty() {
            *counts.entry("40 carriage returns, or 80, ..").or_default() += u64::from(all_returns);
            continue;
        }
        let expected = broken.map_or(Refusal::nowhere(2), |line| Refusal::at_line(3, line));
        assert_eq!(answer, Err(expected), "case {index}");
        // What the whole lines alone are answered.
        let alone = sheet_call(whole, &mut vec![0; room]);
        let in_line = |numbers: &[u8]| matches!(alone, Err(Refusal { number, .. }) if numbers.contains(&number));
        let strange = rest.iter().any(|byte| !b"RSKOTHMVLACQGEND 0123456789".contains(byte));
        let kinds = match broken {
            None => vec![
                ("2, no whole line", whole.is_empty()),
                ("2, the lines accepted", alone.is_ok()),
                ("2 beside 4", in_line(&[4])),
                ("2 beside 5 to 10", in_line(&[5, 6, 8, 9, 10])),
                ("2 beside 11", in_line(&[11])),
                ("2 beside 19", in_line(&[19])),
                ("2 beside 12 or later", in_line(&[12, 13, 14, 16, 17])),
                ("2, a strange rest", strange),
            ],
            Some(line) => vec![
                ("3, line 1", line == 1),
                ("3, the last whole line", line > 1 && LINE_BYTES * line == whole.len()),
                ("3, another", 1 < line && LINE_BYTES * line < whole.len()),
                ("3 behind another rule's line", alone != answer),
                ("3, carriage returns", all_returns),
            ],
        };
        for (kind, holds) in kinds {
            *counts.entry(kind).or_default() += u64::from(holds);
        }
    }
    println!("lengths in 20,000 cases: {counts:?}");
    assert_eq!(counts.len(), 15);
    assert!(counts.values().all(|&count| count >= 10), "{counts:?}");
}

/// S and T of every kind stand: none, alike, far apart, the credit LT(1) itself and a cent above it, and a block that
/// doesn't exist.
#[test]
fn sums_of_every_kind() {
    let mut counts: BTreeMap<&str, u64> = BTreeMap::new();
    for index in 0..6_000 {
        let (sheet, _) = case(8, index);
        let lines: Vec<Vec<&str>> = sheet
            .chunks(LINE_BYTES)
            .map(|line| std::str::from_utf8(line).unwrap_or_default().split_whitespace().collect())
            .collect();
        let amount = |text: &str| text.parse::<u64>().unwrap_or(0);
        for line in lines.iter().filter(|line| line.len() == 5 && line[0] == "MOR") {
            let (s, t) = (amount(line[3]), amount(line[4]));
            let credit = mortality_credit(s, t);
            let of_block = |other: &&Vec<&str>| other.len() == 5 && other[1] == line[1];
            let risk = lines.iter().filter(of_block).find(|other| other[0] == "RSK" && other[2] == "1");
            let lt = risk.map_or(0, |risk| amount(risk[4]));
            let exists = lines.iter().filter(of_block).any(|other| other[0] == "RSK" || other[0] == "OTH");
            let kinds = [
                ("no credit", credit == 0 && s + t > 0),
                ("zeros", s + t == 0),
                ("alike", s == t && s > 0),
                ("far apart", s > 1_000 * (t + 1) && t > 0),
                ("the largest", s == LARGEST_AMOUNT && t > 0),
                ("T above S", t > s && s > 0),
                ("a part of LT(1)", 0 < credit && credit < lt),
                ("all of LT(1)", credit == lt && credit > 0),
                ("a cent above LT(1)", credit == lt + 1 && lt > 0),
                ("no line of risk 1", risk.is_none() && exists && credit > 0),
                ("no block, accepted", !exists && credit == 0),
                ("no block, refused", !exists && credit > 0),
            ];
            for (kind, holds) in kinds {
                *counts.entry(kind).or_default() += u64::from(holds);
            }
        }
    }
    println!("pairs S and T in 6,000 cases: {counts:?}");
    assert!(counts.values().all(|&count| count >= 10), "{counts:?}");
}

/// Credits of every kind stand: dividend credits of 0, of a part of K, of all of it, a cent above it and of a block that
/// doesn't exist; credits of adjustable products beside the group's and alone; and all that is left used up.
#[test]
fn credits_of_every_kind() {
    let mut counts: BTreeMap<&str, u64> = BTreeMap::new();
    for index in 0..12_000 {
        let (sheet, _) = case(9, index);
        let mut report = vec![0; LONGEST_REPORT];
        let answer = sheet_call(&sheet, &mut report);
        let lines: Vec<(&str, [u64; 4])> = sheet.chunks(LINE_BYTES).filter_map(line_of).collect();
        let of = |code: &str, block: u64| {
            let such = |line: &&(&str, [u64; 4])| line.0 == code && line.1[0] == block;
            lines.iter().filter(such).map(|line| line.1).collect::<Vec<[u64; 4]>>()
        };
        let products: u64 = of("CRD", 0).iter().map(|line| line[2]).sum();
        let group: u64 = of("GEN", 0).iter().filter(|line| line[1] == CREDITS).map(|line| line[2]).sum();
        let refused = |number: u8| answer == Err(Refusal::nowhere(number));
        let used_up = answer.is_ok_and(|length| report[..length].ends_with(b"  0\n"));
        let mut kinds = vec![
            ("adjustable alone", products > 0 && group == 0 && answer.is_ok()),
            ("adjustable beside the group's", products > 0 && group > 0 && answer.is_ok()),
            ("used up by adjustable products alone", used_up && products > 0 && group == 0),
            ("used up by both", used_up && products > 0 && group > 0),
            ("too much of adjustable products alone", refused(13) && products > 0 && group == 0),
            ("too much of both", refused(13) && products > 0 && group > 0),
        ];
        for block in NON_PARTICIPATING as u64 + 1..=MOST_BLOCKS as u64 {
            for [_, _, dividend, _] in of("CRD", block) {
                let exists = !of("RSK", block).is_empty() || !of("OTH", block).is_empty();
                let mut numbers = [0; BLOCK_NUMBERS];
                for [_, class, first, second] in of("RSK", block) {
                    let at = 2 * (class as usize).clamp(1, RISKS) - 2;
                    (numbers[at], numbers[at + 1]) = (first, second);
                }
                for [_, class, first, _] in of("OTH", block) {
                    numbers[2 * RISKS + (class as usize).clamp(1, 3) - 1] = first;
                }
                let k = block_call(&numbers).map_or(u64::MAX, |values| values[4]);
                kinds.extend([
                    ("no block, 0", !exists && dividend == 0 && refused(17)),
                    ("no block, above 0", !exists && dividend > 0 && refused(17)),
                    ("0", exists && dividend == 0 && answer.is_ok()),
                    ("a part of K", 0 < dividend && dividend < k && answer.is_ok()),
                    ("all of K", exists && dividend > 0 && dividend == k && answer.is_ok()),
                    ("a cent above K", exists && k.checked_add(1) == Some(dividend) && refused(17)),
                    ("above K beside 12", exists && dividend > k && refused(12)),
                    ("above K beside 16", exists && dividend > k && refused(16)),
                    ("above K beside the largest credits", dividend > k && group == LARGEST_AMOUNT && refused(17)),
                ]);
            }
        }
        for (kind, holds) in kinds {
            *counts.entry(kind).or_default() += u64::from(holds);
        }
    }
    println!("credits in 12,000 cases: {counts:?}");
    assert_eq!(counts.len(), 15);
    assert!(counts.values().all(|&count| count >= 10), "{counts:?}");
}

/// #106: acquired prior amounts of every kind stand: none, beside a VOL line and without one, with and without a prior; where
/// the joined prior takes the growth charge to 0, just to it, next to it, or leaves some; where it passes the largest amount;
/// of a territory whose block exists and of one whose block doesn't; and ACQ lines that are refused, each in its ways.
#[test]
fn acquired_of_every_kind() {
    let mut counts: BTreeMap<&str, u64> = BTreeMap::new();
    for index in 0..12_000 {
        let (sheet, room) = case(13, index);
        let answer = sheet_call(&sheet, &mut vec![0; room]);
        let lines: Vec<Option<(&str, [u64; 4])>> = sheet.chunks(LINE_BYTES).map(line_of).collect();
        let find = |code: &str, block: u64, class: u64| {
            let mut such = lines.iter().flatten().filter(|line| line.0 == code && line.1[..2] == [block, class]);
            such.next().map(|line| line.1)
        };
        let exists =
            |block: u64| lines.iter().flatten().any(|line| matches!(line.0, "RSK" | "OTH") && line.1[0] == block);
        let mut kinds = vec![];
        for &(code, [block, class, acquired, _]) in lines.iter().flatten() {
            if code != "ACQ" || answer.is_err() {
                continue;
            }
            let [_, _, current, prior] = find("VOL", block, class).unwrap_or_default();
            let (five, six, alone) = (5 * current, 6 * (prior + acquired), 6 * prior);
            let volume = find("VOL", block, class).is_some();
            kinds.extend([
                ("nothing", acquired == 0),
                ("without VOL", !volume && acquired > 0),
                ("beside VOL", volume && acquired > 0),
                ("no prior of its own", volume && prior == 0 && acquired > 0 && current > 0),
                ("some growth is left", acquired > 0 && prior > 0 && five > six),
                ("no growth is left", acquired > 0 && five > alone && five < six),
                ("just no growth", acquired > 0 && five > alone && five == six),
                ("next to it, growth", acquired > 0 && six < five && five - six < 6),
                ("next to it, none", acquired > 0 && five < six && six - five < 6),
                ("none without it either", acquired > 0 && current > 0 && five <= alone),
                ("above the largest amount", prior + acquired > LARGEST_AMOUNT),
                ("twice the largest amount", prior + acquired == 2 * LARGEST_AMOUNT),
                ("a block that exists", exists(block)),
                ("a block that doesn't", !exists(block)),
            ]);
        }
        if let Err(Refusal { number, place: Place::Line(at) }) = answer {
            let is = |code: &str, at: usize| matches!(lines[at - 1], Some((found, _)) if found == code);
            kinds.extend([
                ("5", number == 5 && is("ACQ", at)),
                ("6", number == 6 && is("ACQ", at)),
                ("8", number == 8 && is("ACQ", at)),
                ("11", number == 11 && is("ACQ", at)),
                ("19, it comes before ACQ", number == 19 && is("VOL", at) && is("ACQ", at - 1)),
                ("19, of ACQ after another", number == 19 && is("ACQ", at) && !is("ACQ", at - 1)),
                ("19, of two ACQ", number == 19 && is("ACQ", at) && is("ACQ", at - 1)),
            ]);
        }
        for (kind, holds) in kinds {
            *counts.entry(kind).or_default() += u64::from(holds);
        }
    }
    println!("acquired prior amounts in 12,000 cases: {counts:?}");
    assert_eq!(counts.len(), 21);
    assert!(counts.values().all(|&count| count >= 10), "{counts:?}");
}

/// A line's code, and block, class and amounts, where they are numbers.
fn line_of(line: &[u8]) -> Option<(&str, [u64; 4])> {
    let mut words = std::str::from_utf8(line).ok()?.split_whitespace();
    let code = words.next()?;
    let numbers: Vec<u64> = words.map(|word| word.parse().ok()).collect::<Option<_>>()?;
    Some((code, numbers.try_into().ok()?))
}
