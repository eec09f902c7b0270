//! The figures that the papers print.

use reference::*;
use std::cmp::Ordering;

/// What the block call gives of zeros but for these positions.
fn values(amounts: &[(usize, u64)]) -> [u64; BLOCK_VALUES] {
    let mut b = [0; BLOCK_NUMBERS];
    for &(position, amount) in amounts {
        b[position] = amount;
    }
    block_call(&b).unwrap()
}

/// I, D, U, LT and K of such a block.
fn block(amounts: &[(usize, u64)]) -> [u64; FIGURES] {
    let [i, d, u, lt, k, ..] = values(amounts);
    [i, d, u, lt, k]
}

/// The steps for I and those for D.
fn steps(amounts: &[(usize, u64)]) -> [u64; 2] {
    let [.., of_i, of_d] = values(amounts);
    [of_i, of_d]
}

/// RO of one territory with one class.
fn volume(class: usize, current: u64, prior: u64) -> u64 {
    let mut volumes = [0; TERRITORY_NUMBERS];
    volumes[2 * (class - 1)] = current;
    volumes[2 * (class - 1) + 1] = prior;
    operational_call(&volumes, &[0; 3]).unwrap()
}

/// The sheet call with the longest report's room.
fn run(sheet: &[u8]) -> Result<Vec<u8>, Refusal> {
    let mut report = vec![b'#'; LONGEST_REPORT];
    let length = sheet_call(sheet, &mut report)?;
    assert!(report[length..].iter().all(|&byte| byte == b'#'));
    report.truncate(length);
    Ok(report)
}

/// "Calibration points": the rows of the block call.
#[test]
fn calibration_of_the_block() {
    assert_eq!(block_call(&example()), Ok(EXAMPLE_FIGURES));
    assert_eq!(block(&[]), [0; FIGURES]);
    let [i, d, _, _, k] = block(&[(0, 100)]);
    assert_eq!([i, d, k], [200, 200, 100]);
    let [i, d, _, _, k] = block(&[(0, 100), (1, 100)]);
    assert_eq!([i, d, k], [100, 100, 100]);
    let [i, d, _, _, k] = block(&[(0, 1), (1, 1)]);
    assert_eq!([i, d, k], [1, 1, 1]);
    let [i, d, _, _, k] = block(&[(8, 100), (10, 100)]);
    assert_eq!([i, d, k], [200, 200, 160]);
    let [i, _, _, _, k] = block(&[(0, 100), (2, 100)]);
    assert_eq!([i, k], [245, 160]);
    let [_, d, _, _, k] = block(&[(0, 100), (15, 100)]);
    assert_eq!([d, k], [347, 178]);
}

/// "Calibration points": the rows of the operational call.
#[test]
fn calibration_of_operational_risk() {
    assert_eq!(volume(1, 15_000, 10_000), 450);
    assert_eq!(volume(1, 12_000, 10_000), 300);
    assert_eq!(volume(1, 22_500, 15_000), 675);
    assert_eq!(volume(7, 1, 1), 1);
}

/// "Calibration points": the refused rows.
#[test]
fn calibration_of_refusals() {
    let mut b = [0; BLOCK_NUMBERS];
    (b[2], b[3]) = (3_000, 3_001);
    assert_eq!(block_call(&b), Err(Refusal::at_position(9, 3)));
    assert_eq!(run(&sheet_line("RSK", 1, 2, 3_000, 3_001)), Err(Refusal::at_line(9, 1)));
    assert_eq!(run(&sheet_line("GEN", 0, 4, 0, 0)), Err(Refusal::at_line(10, 1)));
    assert_eq!(run(&sheet_line("GEN", 0, 4, 20_001, 0)), Err(Refusal::at_line(10, 1)));
    assert_eq!(run(b""), Err(Refusal::nowhere(12)));
}

/// Document 000's printed figures, whole dollars, ours rounded to the nearest.
#[test]
fn example_of_document_000() {
    let [i, d, u, lt, k, ..] = block_call(&example()).unwrap();
    let of_half_cents = |figure: u64| (figure + 100) / 200;
    let of_cents = |figure: u64| (figure + 50) / 100;
    assert_eq!(of_half_cents(i), 789_421);
    assert_eq!(of_half_cents(i - 2 * example()[14]), 764_421);
    assert_eq!(of_half_cents(d), 957_027);
    assert_eq!(of_cents(u), 1_765_500);
    assert_eq!(of_cents(lt), 904_000);
    assert_eq!(of_cents(k), 1_517_653);
}

/// Document 003's two examples, times 1,000: volume and growth together.
#[test]
fn examples_of_document_003() {
    assert_eq!(volume(1, 150_000, 100_000), 4_500);
    assert_eq!(volume(1, 225_000, 150_000), 6_750);
}

/// "Calibration points": the whole run's bytes.
#[test]
fn whole_run() {
    assert_eq!(String::from_utf8(run(WHOLE_RUN).unwrap()).unwrap(), WHOLE_RUN_REPORT);
}

/// "The sheet and the report", "What is turned away": the longest of both, and a line for every code, block and class.
#[test]
fn longest_sheet_and_report() {
    assert_eq!([MOST_LINES, LONGEST_SHEET, LONGEST_REPORT], [629, 25_160, 4_727]);
    let mut sheet: Vec<u8> =
        all_lines(MOST_BLOCKS).iter().flat_map(|&(code, block, class)| sheet_line(code, block, class, 1, 0)).collect();
    assert_eq!(sheet.len(), LONGEST_SHEET);
    let distinct: std::collections::BTreeSet<_> = all_lines(MOST_BLOCKS).into_iter().collect();
    assert_eq!(distinct.len(), MOST_LINES);
    assert_eq!(run(&sheet).map(|report| report.len()), Ok(LONGEST_REPORT));
    // A line more, and a byte more.
    sheet.extend(sheet_line("GEN", 0, 1, 0, 0));
    assert_eq!(run(&sheet), Err(Refusal::nowhere(1)));
    assert_eq!(run(&sheet[..=LONGEST_SHEET]), Err(Refusal::nowhere(1)));
}

/// #101: the figures that it prints, the largest pair, and pairs of which one is 0.
#[test]
fn survival_and_death() {
    assert_eq!((aggregate(100, 100), mortality_credit(100, 100)), (71, 129));
    assert_eq!(aggregate(LARGEST_AMOUNT, LARGEST_AMOUNT), 70_710_678_118_655);
    assert_eq!(mortality_credit(LARGEST_AMOUNT, LARGEST_AMOUNT), 129_289_321_881_343);
    // 60² + 20² − 1.5 × 60 × 20 is 2,200, between the squares of 46 and 47.
    assert_eq!((aggregate(60, 20), mortality_credit(60, 20)), (47, 33));
    // T is two thirds of S: the aggregate is T and the credit S.
    assert_eq!((aggregate(300, 200), mortality_credit(300, 200)), (200, 300));
    for amount in [0, 1, 2, 3, 1_000, LARGEST_AMOUNT] {
        assert_eq!((mortality_credit(amount, 0), mortality_credit(0, amount)), (0, 0));
    }
    assert_eq!((mortality_credit(1, 1), mortality_credit(1, 2), mortality_credit(2, 1)), (1, 1, 1));
}

/// #101: the aggregate is the least, by its own words, and S and T may be exchanged.
#[test]
fn the_aggregate_is_the_least() {
    for s in 0..60_u64 {
        for t in 0..60 {
            // S² + T² − 1.5 × S × T, doubled.
            let enough = |n: u64| 2 * n * n + 3 * s * t >= 2 * s * s + 2 * t * t;
            let n = aggregate(s, t);
            assert!(enough(n) && (n == 0 || !enough(n - 1)), "{s} and {t}");
            assert_eq!(n, aggregate(t, s));
        }
    }
}

/// Risk 1 of block 1, g, and S and T of a block.
fn with_sums(block: u64, s: u64, t: u64) -> Vec<u8> {
    let lines = [("RSK", 1, 1, 1_000, 129), ("MOR", block, 1, s, t), ("GEN", 0, SCALAR, 10_000, 0)];
    lines.iter().flat_map(|&(code, block, class, one, two)| sheet_line(code, block, class, one, two)).collect()
}

/// #101: the report's figures are those after the credit; a credit above LT(1) is refused.
#[test]
fn the_credit_lowers_risk_1() {
    let figures = |report: &[u8]| -> Vec<u64> {
        let lines = std::str::from_utf8(report).unwrap().lines();
        lines.map(|line| line.split_whitespace().last().unwrap().parse().unwrap()).collect()
    };
    // The credit of 100 and 100 is LT(1): IR(1) becomes 871 and LT(1) 0.
    let report = run(&with_sums(1, 100, 100)).unwrap();
    let [i, d, u, lt, k] = block(&[(0, 871)]);
    assert_eq!(figures(&report), [i, d, u, lt, k, k, 0, k]);
    assert_eq!((u, lt), (871, 0));
    // A cent above.
    assert_eq!(mortality_credit(101, 101), 130);
    assert_eq!(run(&with_sums(1, 101, 101)), Err(Refusal::nowhere(16)));
    // The line makes no block exist, and without RSK 1 LT(1) is 0.
    assert_eq!(run(&with_sums(2, 1, 1)), Err(Refusal::nowhere(16)));
    let report = run(&with_sums(2, 100, 0)).unwrap();
    assert_eq!(report.len(), report_length(1));
    assert_eq!(figures(&report)[2..4], [1_000, 129]);
}

/// #101: demand 3 takes the credit off the report, and one that is a cent off breaks it.
#[test]
fn demand_3_on_the_credit() {
    let sheet = with_sums(1, 100, 99);
    let report = String::from_utf8(run(&sheet).unwrap()).unwrap();
    assert_eq!(demand3(&sheet, report.as_bytes()), Ok(()));
    let with = |u: u64, lt: u64| {
        let lines = [(3, u), (4, lt)].map(|(item, figure)| report_line("BLK", 1, item, figure));
        let mut other = report.clone().into_bytes();
        other[2 * REPORT_LINE_BYTES..4 * REPORT_LINE_BYTES].copy_from_slice(&lines.concat());
        demand3(&sheet, &other)
    };
    let credit = mortality_credit(100, 99);
    assert_eq!(credit, 128);
    assert_eq!(with(1_000 - credit, 129 - credit), Ok(()));
    let why = |answer: Result<(), String>| answer.unwrap_err();
    assert!(why(with(1_000 - credit - 1, 129 - credit - 1)).contains("above the exact one"));
    assert!(why(with(1_000 - credit + 1, 129 - credit + 1)).contains("below the exact one"));
    assert!(why(with(1_000 - credit, 129)).contains("after a credit"));
    assert!(why(with(1_001, 130)).contains("after a credit"));
}

/// #105: "ascend strictly by code, in the order RSK, OTH, MOR, VOL, GEN, CRD, then by block, then by class", as a number;
/// #106: ACQ "stands after VOL in the order of lines".
fn order(code: &str, block: u64, class: u64) -> u64 {
    let code = "RSK OTH MOR VOL ACQ GEN CRD".find(code).unwrap() as u64;
    10_000 * code + 100 * block + class
}

/// A sheet of these lines and a scalar of one, in their order.
fn with_scalar(lines: &[(&str, u64, u64, u64)]) -> Vec<u8> {
    let mut lines = [lines, &[("GEN", 0, SCALAR, 10_000)]].concat();
    lines.sort_by_key(|&(code, block, class, _)| order(code, block, class));
    lines.iter().flat_map(|&(code, block, class, amount)| sheet_line(code, block, class, amount, 0)).collect()
}

/// The three totals of a report.
fn totals(sheet: &[u8]) -> Result<[u64; 3], Refusal> {
    let report = String::from_utf8(run(sheet)?).unwrap();
    let figures: Vec<u64> =
        report.lines().map(|line| line.split_whitespace().last().unwrap().parse().unwrap()).collect();
    assert_eq!(demand3(sheet, report.as_bytes()), Ok(()));
    Ok(figures[figures.len() - 3..].try_into().unwrap())
}

/// #102: the table of codes, and which blocks and classes CRD has.
#[test]
fn lines_of_credits() {
    let g = sheet_line("GEN", 0, SCALAR, 10_000, 0);
    // Before the scalar, in line 1, and behind it, in line 2.
    let before = |line: Vec<u8>| run(&[line, g.clone()].concat()).map(|_| ());
    let behind = |line: Vec<u8>| run(&[g.clone(), line].concat()).map(|_| ());
    for block in 1..=99 {
        let number = if (17..=32).contains(&block) { 17 } else { 5 };
        let refusal = if number == 17 { Refusal::nowhere(17) } else { Refusal::at_line(5, 2) };
        assert_eq!(behind(sheet_line("CRD", block, 1, 0, 0)), Err(refusal), "block {block}");
        // 5 comes before 6, and 6 before 8.
        let number = if number == 17 { 6 } else { 5 };
        for class in [0, 2, 16, 17, 99] {
            assert_eq!(behind(sheet_line("CRD", block, class, 0, 1)), Err(Refusal::at_line(number, 2)));
        }
        for code in ["RSK", "OTH"] {
            let expected = if block > 32 { Err(Refusal::at_line(5, 1)) } else { Ok(()) };
            assert_eq!(before(sheet_line(code, block, 1, 0, 0)), expected, "{code} {block}");
        }
        for code in ["MOR", "VOL", "ACQ"] {
            let expected = if block > 16 { Err(Refusal::at_line(5, 1)) } else { Ok(()) };
            assert_eq!(before(sheet_line(code, block, 1, 0, 0)), expected, "{code} {block}");
        }
    }
    for class in 0..=99 {
        let expected = if (1..=16).contains(&class) { Ok(()) } else { Err(Refusal::at_line(6, 2)) };
        assert_eq!(behind(sheet_line("CRD", 0, class, 0, 0)), expected, "class {class}");
    }
    assert_eq!(behind(sheet_line("CRD", 0, 1, 0, 1)), Err(Refusal::at_line(8, 2)));
    assert_eq!(behind(sheet_line("CRD", 17, 1, 0, 1)), Err(Refusal::at_line(8, 2)));
}

/// #102: a dividend credit up to K is taken off the bracket and not off the sum of K; above it, or for a block that has no
/// RSK or OTH line, it is refused.
#[test]
fn dividend_credits() {
    // Credit of 100 cents alone has K 100.
    let (seventeen, last) = (("OTH", 17, 2, 100), ("OTH", 32, 2, 100));
    assert_eq!(totals(&with_scalar(&[seventeen, last])), Ok([200, 0, 200]));
    assert_eq!(totals(&with_scalar(&[seventeen, last, ("CRD", 32, 1, 30)])), Ok([200, 0, 170]));
    assert_eq!(totals(&with_scalar(&[("CRD", 17, 1, 100), seventeen])), Ok([100, 0, 0]));
    let refused = Err(Refusal::nowhere(17));
    assert_eq!(totals(&with_scalar(&[seventeen, ("CRD", 17, 1, 101)])), refused);
    // Another block's K doesn't help.
    assert_eq!(totals(&with_scalar(&[seventeen, last, ("CRD", 17, 1, 101)])), refused);
    for amount in [0, 1, LARGEST_AMOUNT] {
        assert_eq!(totals(&with_scalar(&[seventeen, ("CRD", 18, 1, amount)])), refused);
    }
    // A line of zeros makes the block exist, of either code.
    for code in ["RSK", "OTH"] {
        assert_eq!(totals(&with_scalar(&[(code, 18, 3, 0), ("CRD", 18, 1, 0)])), Ok([0, 0, 0]));
        assert_eq!(totals(&with_scalar(&[(code, 18, 3, 0), ("CRD", 18, 1, 1)])), refused);
    }
}

/// #102: the credits of adjustable products and the group's together are compared with what the dividend credits leave.
#[test]
fn credits_of_no_block() {
    // K 100, guarantee requirement 500, RO 23.
    let lines = [("OTH", 17, 2, 100), ("GEN", 0, 2, 500), ("CRD", 17, 1, 60)];
    let with = |more: &[(&'static str, u64, u64, u64)]| totals(&with_scalar(&[&lines, more].concat()));
    let refused = Err(Refusal::nowhere(13));
    assert_eq!(with(&[]), Ok([100, 23, 563]));
    assert_eq!(with(&[("CRD", 0, 1, 563)]), Ok([100, 23, 0]));
    assert_eq!(with(&[("CRD", 0, 16, 564)]), refused);
    let many = [("CRD", 0, 2, 200), ("CRD", 0, 7, 200), ("GEN", 0, CREDITS, 100)];
    assert_eq!(with(&many), Ok([100, 23, 63]));
    assert_eq!(with(&[&many[..], &[("CRD", 0, 16, 63)]].concat()), Ok([100, 23, 0]));
    assert_eq!(with(&[&many[..], &[("CRD", 0, 16, 64)]].concat()), refused);
    // 17 comes before 13.
    let above = [("CRD", 0, 1, LARGEST_AMOUNT), ("CRD", 18, 1, 0)];
    assert_eq!(with(&above), Err(Refusal::nowhere(17)));
}

/// A sheet of one territory's class 1, of an acquired prior amount and a scalar of one.
fn with_acquired(current: u64, prior: u64, acquired: u64) -> Vec<u8> {
    let lines = [("VOL", 1, 1, current, prior), ("ACQ", 1, 1, acquired, 0), ("GEN", 0, SCALAR, 10_000, 0)];
    lines.iter().flat_map(|&(code, block, class, one, two)| sheet_line(code, block, class, one, two)).collect()
}

/// #106: document 003's acquisition example, in cents: 10,000 and 5,000 of prior, 22,500 of direct premiums, and a growth
/// charge of 112.5. Typed in, the joined prior gives the same; without it RO is 825.
#[test]
fn acquisition_of_document_003() {
    assert_eq!(totals(&with_acquired(22_500, 10_000, 5_000)), Ok([0, 675, 675]));
    assert_eq!(volume(1, 22_500, 15_000), 675);
    assert_eq!(volume(1, 22_500, 10_000), 825);
    // Times 1,000: 5,625 of volume and 1,125 of growth.
    assert_eq!(totals(&with_acquired(225_000, 100_000, 50_000)), Ok([0, 6_750, 6_750]));
}

/// #106: "added to the prior of that class before the 120 %", in every class and territory alone.
#[test]
fn the_prior_is_joined_before_120_percent() {
    // 120 % of 200 is 240: RO is 6 of volume alone; and of a cent less of prior 0.03 more, rounded up.
    for acquired in 0..=300 {
        for prior in [0, 1, 99, 100, 199, 200] {
            let [_, ro, _] = totals(&with_acquired(240, prior, acquired)).unwrap();
            assert_eq!(ro, volume(1, 240, prior + acquired), "{prior} and {acquired}");
            assert_eq!(ro == 6, prior + acquired >= 200);
        }
    }
    let g = sheet_line("GEN", 0, SCALAR, 10_000, 0);
    for block in 1..=MOST_TERRITORIES as u64 {
        for class in 1..=VOLUME_CLASSES as u64 {
            let ro = |acquired_block: u64, acquired_class: u64| {
                let volume = sheet_line("VOL", block, class, 60_000_000, 25_000_000);
                let acquired = sheet_line("ACQ", acquired_block, acquired_class, 25_000_000, 0);
                totals(&[volume, acquired, g.clone()].concat()).unwrap()[1]
            };
            let alone = volume(class as usize, 60_000_000, 25_000_000);
            assert_eq!(ro(block, class), volume(class as usize, 60_000_000, 50_000_000));
            assert!(ro(block, class) < alone);
            assert_eq!(ro(block % 16 + 1, class), alone);
            assert_eq!(ro(block, class % 8 + 1), alone);
        }
    }
}

/// #106: the joined prior may be two amounts: no refusal, and nothing is cut. The operational call takes no such prior.
#[test]
fn a_joined_prior_above_the_limit() {
    let most = LARGEST_AMOUNT;
    // 250 of 10,000 of the largest amount, rounded up, and no growth.
    for (prior, acquired) in [(most, 1), (1, most), (most, most), (0, most), (most, 0)] {
        assert_eq!(totals(&with_acquired(most, prior, acquired)), Ok([0, 2_500_000_000_000, 2_500_000_000_000]));
        assert_eq!(totals(&with_acquired(0, prior, acquired)), Ok([0, 0, 0]));
    }
    let mut volumes = [0; TERRITORY_NUMBERS];
    (volumes[0], volumes[1]) = (most, most + 1);
    assert_eq!(operational_call(&volumes, &[0; 3]), Err(Refusal::at_position(7, 1)));
}

/// #106: the line's block, class and second amount; it makes no block exist and needs no VOL line.
#[test]
fn lines_of_bought_business() {
    let g = sheet_line("GEN", 0, SCALAR, 10_000, 0);
    let answer =
        |block: u64, class: u64, second: u64| run(&[sheet_line("ACQ", block, class, 7, second), g.clone()].concat());
    for block in 0..=99 {
        for class in 0..=99 {
            // 5 comes before 6, and 6 before 8.
            let number = match (block, class) {
                (0 | 17.., _) => 5,
                (_, 0 | 9..) => 6,
                _ => 8,
            };
            assert_eq!(answer(block, class, 1), Err(Refusal::at_line(number, 1)), "block {block}, class {class}");
            let sound = answer(block, class, 0).map(|report| report.len());
            let expected = if number == 8 { Ok(report_length(0)) } else { Err(Refusal::at_line(number, 1)) };
            assert_eq!(sound, expected, "block {block}, class {class}");
        }
    }
    assert_eq!(run(&sheet_line("ACQ", 1, 1, 7, 0)), Err(Refusal::nowhere(12)));
}

/// #106: the exact buffer is read with the joined prior: the report of the sheet without its ACQ line breaks demand 3, and so
/// does that of a sheet with one, of a sheet that has none.
#[test]
fn demand_3_of_the_joined_prior() {
    let (joined, alone) = (with_acquired(22_500, 10_000, 5_000), with_acquired(22_500, 10_000, 0));
    let [of_joined, of_alone] = [&joined, &alone].map(|sheet| run(sheet).unwrap());
    assert_eq!((demand3(&joined, &of_joined), demand3(&alone, &of_alone)), (Ok(()), Ok(())));
    assert!(demand3(&joined, &of_alone).unwrap_err().contains("the allowance or more above"));
    assert!(demand3(&alone, &of_joined).unwrap_err().contains("below the exact one"));
}

/// #105: of every two lines that there are, the second is refused by 11 where it is the first again, by 19 where it comes
/// before the first, and by neither where it comes after it.
#[test]
fn one_order_of_lines() {
    let lines: Vec<(u64, Vec<u8>)> = all_lines(MOST_BLOCKS)
        .into_iter()
        .map(|(code, block, class)| (order(code, block, class), sheet_line(code, block, class, 1, 0)))
        .collect();
    assert!(lines.is_sorted() && lines.len() == MOST_LINES);
    for (one, first) in &lines {
        for (two, second) in &lines {
            // What concerns the whole sheet is no matter here.
            let refusal = run(&[&first[..], second].concat()).err().filter(|refusal| refusal.place != Place::Nowhere);
            let expected = match two.cmp(one) {
                Ordering::Less => Some(Refusal::at_line(19, 2)),
                Ordering::Equal => Some(Refusal::at_line(11, 2)),
                Ordering::Greater => None,
            };
            assert_eq!(refusal, expected, "{two} after {one}");
        }
    }
}

/// #105: "two sheets of the same figures .. look alike". Of all 720 orders of six lines one is accepted, and the others are
/// refused at the first line that doesn't come after the one before it.
#[test]
fn one_sheet_of_the_same_figures() {
    let lines = [("RSK", 1, 7), ("RSK", 17, 1), ("OTH", 1, 1), ("GEN", 0, SCALAR), ("CRD", 0, 16), ("CRD", 17, 1)];
    let mut accepted = Vec::new();
    for number in 0..720 {
        // The digits of the number, of base 6, 5, 4, 3, 2 and 1, say which of the lines that are left is next.
        let (mut rest, mut left, mut sheet, mut keys) = (number, lines.to_vec(), Vec::new(), Vec::new());
        while !left.is_empty() {
            let (code, block, class) = left.remove(rest % left.len());
            rest /= left.len() + 1;
            sheet.extend(sheet_line(code, block, class, 1, 0));
            keys.push(order(code, block, class));
        }
        match (1..keys.len()).find(|&at| keys[at] < keys[at - 1]) {
            Some(at) => assert_eq!(run(&sheet), Err(Refusal::at_line(19, at + 1)), "order {number}"),
            None => accepted.push(run(&sheet).unwrap()),
        }
    }
    assert_eq!(accepted.len(), 1);
}

/// Three lines, of which the first two are a sheet that is accepted.
fn three_lines() -> Vec<u8> {
    let lines = [("RSK", 1, 1, 100, 40), ("GEN", 0, SCALAR, 10_000, 0), ("CRD", 0, 1, 0, 0)];
    lines.iter().flat_map(|&(code, block, class, one, two)| sheet_line(code, block, class, one, two)).collect()
}

/// #108: "when rule 1 passes and rule 2 applies, the whole lines are tested for rule 3 first. It gives 3 with the first bad whole
/// line, and 2 if all are sound": about a line and about two, sound, and with each line broken.
#[test]
fn length_against_layout() {
    let lengths = [1, 39, 40, 41, 79, 80, 81, 119];
    let answers = |sheet: &[u8]| lengths.map(|length| run(&sheet[..length]).map(|report| report.len()));
    let sheet = three_lines();
    let two = Err(Refusal::nowhere(2));
    let (twelve, accepted) = (Err(Refusal::nowhere(12)), Ok(report_length(1)));
    assert_eq!(answers(&sheet), [two, two, twelve, two, two, accepted, two, two]);
    for column in [4, 5, 6, 7, 24, 25, 39, 40] {
        let broken = |lines: &[usize]| {
            let mut sheet = sheet.clone();
            lines.iter().for_each(|line| sheet[LINE_BYTES * (line - 1) + column - 1] = b'x');
            answers(&sheet)
        };
        let at = |line: usize| Err(Refusal::at_line(3, line));
        let (one, other) = (at(1), at(2));
        assert_eq!(broken(&[1]), [two, two, one, one, one, one, one, one], "column {column}");
        assert_eq!(broken(&[2]), [two, two, twelve, two, two, other, other, other], "column {column}");
        assert_eq!(broken(&[1, 2]), broken(&[1]), "column {column}");
        // The bytes behind the last whole line aren't looked at.
        assert_eq!(broken(&[3]), answers(&sheet), "column {column}");
    }
}

/// #108: every byte in every column of a line: with a byte behind the lines it is 3 just where it is 3 without, and else 2.
#[test]
fn the_same_rule_3() {
    for line in [1, 2] {
        for column in 1..=LINE_BYTES {
            for byte in 0..=255 {
                let mut sheet = three_lines();
                sheet[LINE_BYTES * (line - 1) + column - 1] = byte;
                let (without, with) = (run(&sheet[..2 * LINE_BYTES]), run(&sheet[..2 * LINE_BYTES + 1]));
                let three = Err(Refusal::at_line(3, line));
                let expected = if without == three { three } else { Err(Refusal::nowhere(2)) };
                assert_eq!(with, expected, "line {line}, column {column}, byte {byte}");
            }
        }
    }
}

/// #108: "A sheet saved with carriage returns has 41 bytes a line". Also where 41 bytes a line are a multiple of 40, and rule 2
/// doesn't apply, it is 3 with line 1; above 613 lines it is 1.
#[test]
fn carriage_returns() {
    let saved: Vec<u8> = all_lines(MOST_BLOCKS)
        .into_iter()
        .flat_map(|(code, block, class)| {
            let line = sheet_line(code, block, class, 1, 0);
            [&line[..LINE_BYTES - 1], b"\r\n"].concat()
        })
        .collect();
    for lines in 1..=MOST_LINES {
        let length = 41 * lines;
        let expected = if length > 25_160 { Refusal::nowhere(1) } else { Refusal::at_line(3, 1) };
        assert_eq!(run(&saved[..length]), Err(expected), "{lines} lines");
    }
    assert_eq!([1, 2, 39, 40, 41].map(|lines: usize| (41 * lines) % 40), [1, 2, 39, 0, 1]);
}

/// #108: beside rule 1, which comes before it, and beside rules 4 to 19 and 12, which aren't tested where rule 2 applies: in lines
/// before the broken one, in it, and where none is broken.
#[test]
fn length_and_layout_beside_other_rules() {
    let (sound, mut broken) = (three_lines(), three_lines());
    broken[3] = b'x';
    let long: Vec<u8> = broken.iter().copied().cycle().take(25_161).collect();
    assert_eq!(run(&long), Err(Refusal::nowhere(1)));
    assert_eq!(run(&long[..25_159]), Err(Refusal::at_line(3, 1)));
    assert_eq!(run(&long[..25_160]), Err(Refusal::at_line(3, 1)));
    let (first, scalar) = sound[..2 * LINE_BYTES].split_at(LINE_BYTES);
    let lines = [
        (4, sheet_line("XXX", 1, 1, 0, 0)),
        (5, sheet_line("RSK", 33, 1, 0, 0)),
        (6, sheet_line("RSK", 1, 8, 0, 0)),
        (8, sheet_line("OTH", 1, 1, 0, 1)),
        (9, sheet_line("RSK", 1, 2, 0, 1)),
        (10, sheet_line("GEN", 0, SCALAR, 0, 0)),
        (11, first.to_vec()),
    ];
    for (number, bad) in lines {
        let sheet = [first, &bad, scalar].concat();
        assert_eq!(run(&sheet), Err(Refusal::at_line(number, 2)));
        assert_eq!(run(&[&sheet[..], b"\n"].concat()), Err(Refusal::nowhere(2)), "{number}");
        // The third line is broken too: it comes after the bad one, and where rule 2 applies before it.
        let sheet = [first, &bad, &broken[..LINE_BYTES]].concat();
        assert_eq!(run(&sheet), Err(Refusal::at_line(number, 2)));
        assert_eq!(run(&[&sheet[..], b"\n"].concat()), Err(Refusal::at_line(3, 3)), "{number}");
    }
    // 19, and 12.
    let turned = [scalar, first].concat();
    assert_eq!(run(&turned), Err(Refusal::at_line(19, 2)));
    assert_eq!(run(&[&turned[..], b" "].concat()), Err(Refusal::nowhere(2)));
    assert_eq!(run(first), Err(Refusal::nowhere(12)));
    assert_eq!(run(&[first, b" "].concat()), Err(Refusal::nowhere(2)));
}

/// #104: the figures that it prints, in dollars there.
#[test]
fn fluctuation_factors() {
    let dollars = |amount: u64| 100 * amount;
    assert_eq!(fluctuation_call(2, dollars(100_000_000), 0), Ok(dollars(93_300_000)));
    assert_eq!(fluctuation_call(7, dollars(1_000_000), dollars(400_000_000)), Ok(dollars(886_100)));
}

/// #104: the thresholds in dollars, as listed.
const THRESHOLDS: [u64; FLUCTUATION_ROWS] =
    [42_000_000, 75_000_000, 6_000_000, 3_000_000, 5_000_000, 3_000_000, 300_000_000];

/// The largest requirement of row 7 and the base as its face; the base as the requirement of another.
fn at_base(row: u64, base: u64) -> Result<u64, Refusal> {
    match row {
        7 => fluctuation_call(row, LARGEST_AMOUNT, base),
        _ => fluctuation_call(row, base, 0),
    }
}

/// #104: each row up to its threshold, a cent above it and at the largest amount, where the root of the base in dollars is
/// all but a million: B × (first + second ÷ 1,000,000), and what is left out is less than a cent.
#[test]
fn thresholds_of_the_rows() {
    let above = [4_199_951_999, 7_499_890_000, 599_792_548, 299_924_559, 499_808_955, 299_893_438, 99_997_506_628_680];
    let largest = [
        90_064_800_000_000,
        50_433_000_000_000,
        70_073_400_000_000,
        30_121_200_000_000,
        20_178_800_000_000,
        70_051_900_000_000,
        16_472_200_000_000,
    ];
    for (row, threshold) in (1..).zip(THRESHOLDS) {
        let cents = 100 * threshold;
        for base in [0, 1, cents - 1, cents] {
            let requirement = if row == 7 { LARGEST_AMOUNT } else { base };
            assert_eq!(at_base(row, base), Ok(requirement), "row {row} at {base}");
        }
        assert_eq!(at_base(row, cents + 1), Ok(above[row as usize - 1]), "row {row}");
        assert_eq!(at_base(row, LARGEST_AMOUNT), Ok(largest[row as usize - 1]), "row {row}");
    }
}

/// #104: the requirement is the base of rows 1 to 6, and the face that of critical illness.
#[test]
fn bases_of_the_rows() {
    for (row, threshold) in (1..).zip(THRESHOLDS) {
        let (least, most) = (100 * threshold, LARGEST_AMOUNT);
        if row < 7 {
            for face in [1, least, least + 1, 30_000_000_001, most] {
                assert_eq!(fluctuation_call(row, least, face), Ok(least));
                assert_eq!(fluctuation_call(row, 2 * least, face), fluctuation_call(row, 2 * least, 0));
            }
        } else {
            assert_eq!(fluctuation_call(row, most, least), Ok(most));
            // A requirement of a cent, and one of nothing, which has no rule of its own.
            assert_eq!(fluctuation_call(row, 1, most), Ok(1));
            assert_eq!(fluctuation_call(row, 0, most), Ok(0));
            // 0.15 × 6 + 6 × 14,722 ÷ a little less than 1,000,000 is below a cent, and of 7 above it.
            assert_eq!(fluctuation_call(row, 6, most), Ok(1));
            assert_eq!(fluctuation_call(row, 7, most), Ok(2));
        }
    }
}

/// #107: the steps of both roots, by #109 of radicands in hundredths of the half cent: next to a power of 4, where the radicand is
/// 0 and where the floor is the larger; and the most.
#[test]
fn steps_of_the_roots() {
    assert_eq!(steps(&[]), [0, 0]);
    // Only PC: the radicand of I is 0, and that of D is 20,000², of 29 binary digits.
    assert_eq!(steps(&[(14, 100)]), [0, 15]);
    // Only credit, and only market.
    assert_eq!(steps(&[(15, 100)]), [0, 15]);
    assert_eq!(steps(&[(16, 100)]), [0, 15]);
    // One risk alone: y is 1, 2, 3, 5 and 6, and both radicands are the square of 100 times it. 4^9 is 512².
    assert_eq!(steps(&[(0, 1), (1, 1)]), [7, 7]);
    assert_eq!(steps(&[(0, 1)]), [8, 8]);
    assert_eq!(steps(&[(0, 2), (1, 1)]), [9, 9]);
    assert_eq!(steps(&[(0, 3), (1, 1)]), [9, 9]);
    assert_eq!(steps(&[(0, 3)]), [10, 10]);
    // 100 times y is above 2^53 by 8, and a half cent less: a radicand of 107 binary digits and one of 106.
    assert_eq!(steps(&[(0, 45_035_996_273_705)]), [54, 54]);
    assert_eq!(steps(&[(0, 45_035_996_273_705), (1, 1)]), [53, 53]);
    // Q is 1 + 1 − 0.5, which isn't whole; 10,000 times it is 15,000, above the square of 122. I is 1.23, and so is D.
    assert_eq!(values(&[(0, 1), (1, 1), (2, 1), (3, 1)]), [2, 2, 2, 2, 2, 7, 7]);
    // y is 164 and 40: 10,000 × Q is 252,160,000, of 28 binary digits. The floor, 164, has a square of 29.
    assert_eq!(values(&[(0, 82), (2, 20)])[..2], [164, 164]);
    assert_eq!(steps(&[(0, 82), (2, 20)]), [14, 15]);
    // The largest amounts give the most steps that there are; 58 are allowed.
    let most: Vec<(usize, u64)> = (0..7).map(|risk| (2 * risk, LARGEST_AMOUNT)).collect();
    assert_eq!(steps(&most)[0], 57);
    let others: Vec<(usize, u64)> = (14..BLOCK_NUMBERS).map(|position| (position, LARGEST_AMOUNT)).collect();
    assert_eq!(steps(&[most, others].concat()), [57, 57]);
}

/// #109: "I and D are now worked out in hundredths of the half cent"; "K is taken at this finer D and still rounded up to a cent";
/// "The report and the block call still give I and D in half cents, the least at or above".
#[test]
fn finer_roots() {
    // y is 4 and 6: Q is 40 and I 6.33. With a = 16, D² is at least 256 + 101.28 + 40.0689: D is 19.94, and K's fraction at it
    // 10.78. From an I of 7 half cents the root would be 20.42, D 21 and K 12.
    assert_eq!(block(&[(0, 2), (2, 3), (15, 8)]), [7, 20, 13, 0, 11]);
    // y is 6 and a 18: D is 21.64 and is given as 22, at which K's fraction would be 11.12. At 21.64 it is 10.98.
    assert_eq!(block(&[(0, 3), (15, 9)]), [6, 22, 12, 0, 11]);
    // y is 2 twice: Q is 6 and I 2.45. With a = 2, D is 3.87; from an I of 3 half cents it would be 5. K's fraction is 2.4.
    assert_eq!(block(&[(0, 1), (2, 1), (15, 1)]), [3, 4, 3, 0, 3]);
    // The report has the same figures, and rules 17 and 13 are of the K that is reported.
    let lines = [("RSK", 17, 1, 2), ("RSK", 17, 2, 3), ("OTH", 17, 2, 8)];
    let with = |more: &[(&'static str, u64, u64, u64)]| totals(&with_scalar(&[&lines, more].concat()));
    assert_eq!(with(&[]), Ok([11, 0, 11]));
    assert_eq!(with(&[("CRD", 17, 1, 11)]), Ok([11, 0, 0]));
    assert_eq!(with(&[("CRD", 17, 1, 12)]), Err(Refusal::nowhere(17)));
    assert_eq!(with(&[("GEN", 0, CREDITS, 11)]), Ok([11, 0, 0]));
    assert_eq!(with(&[("GEN", 0, CREDITS, 12)]), Err(Refusal::nowhere(13)));
}

/// #104: the refusals, alone and beside one another.
#[test]
fn refusals_of_the_fluctuation_call() {
    let (over, most, no_row) = (LARGEST_AMOUNT + 1, LARGEST_AMOUNT, Err(Refusal::nowhere(18)));
    for row in [0, 8, 9, 257, (1 << 32) + 1, u64::MAX] {
        for (b, face) in [(0, 0), (most, most), (over, 0), (0, over), (over, over), (u64::MAX, u64::MAX)] {
            assert_eq!(fluctuation_call(row, b, face), no_row, "row {row}");
        }
    }
    for row in 1..=FLUCTUATION_ROWS as u64 {
        assert!(fluctuation_call(row, most, most).is_ok());
        for high in [over, u64::MAX] {
            assert_eq!(fluctuation_call(row, high, most), Err(Refusal::at_position(7, 0)));
            assert_eq!(fluctuation_call(row, most, high), Err(Refusal::at_position(7, 1)));
            assert_eq!(fluctuation_call(row, high, high), Err(Refusal::at_position(7, 0)));
        }
    }
}

/// #104: the stored calls, which say by themselves what is answered; each row, each refusal and each place is among them.
#[test]
fn stored_fluctuation_calls() {
    let cases = fluctuation_cases();
    assert_eq!(cases.len(), 157);
    for &([row, b, face], answer) in &cases {
        assert_eq!(fluctuation_call(row, b, face), answer, "{row} {b} {face}");
        if let Ok(result) = answer {
            assert_eq!(judge_fluctuation(row, b, face, result), Ok(()));
        }
    }
    let distinct: std::collections::BTreeSet<_> = cases.iter().map(|(call, _)| call).collect();
    assert_eq!(distinct.len(), cases.len());
    for row in 1..=FLUCTUATION_ROWS as u64 {
        assert!(cases.iter().filter(|(call, answer)| call[0] == row && answer.is_ok()).count() >= 7);
    }
    for refusal in [Refusal::nowhere(18), Refusal::at_position(7, 0), Refusal::at_position(7, 1)] {
        assert!(cases.iter().filter(|(_, answer)| *answer == Err(refusal)).count() >= 5);
    }
}

/// #104's accuracy rule: a result that is a cent off breaks it.
#[test]
fn accuracy_of_a_fluctuation() {
    for ([row, b, face], answer) in fluctuation_cases() {
        let Ok(result) = answer else { continue };
        assert!(judge_fluctuation(row, b, face, result + 1).is_err(), "{row} {b} {face}");
        if result > 0 {
            let why = judge_fluctuation(row, b, face, result - 1).unwrap_err();
            assert!(why.contains("below the exact one"), "{row} {b} {face}: {why}");
        }
    }
    assert!(judge_fluctuation(8, 0, 0, 0).is_err());
}

/// "What is turned away": the block call's order and places.
#[test]
fn refusals_of_the_block_call() {
    let over = LARGEST_AMOUNT + 1;
    let mut b = [0; BLOCK_NUMBERS];
    (b[13], b[5]) = (1, 1);
    assert_eq!(block_call(&b), Err(Refusal::at_position(8, 13)));
    b[16] = over;
    assert_eq!(block_call(&b), Err(Refusal::at_position(7, 16)));
    b[0] = u64::MAX;
    assert_eq!(block_call(&b), Err(Refusal::at_position(7, 0)));
    let mut b = [0; BLOCK_NUMBERS];
    (b[5], b[9]) = (1, 1);
    assert_eq!(block_call(&b), Err(Refusal::at_position(9, 5)));
    let mut b = [LARGEST_AMOUNT; BLOCK_NUMBERS];
    b[13] = 0;
    assert!(block_call(&b).is_ok());
}

/// "What is turned away": the operational call's order and places.
#[test]
fn refusals_of_the_operational_call() {
    let over = LARGEST_AMOUNT + 1;
    assert_eq!(operational_call(&[], &[0; 3]), Ok(0));
    assert_eq!(operational_call(&[], &[0, over, over]), Err(Refusal::at_position(7, 1)));
    assert_eq!(operational_call(&[0; 16], &[0, 0, over]), Err(Refusal::at_position(7, 18)));
    assert_eq!(operational_call(&[over; 16], &[over; 3]), Err(Refusal::at_position(7, 0)));
    assert_eq!(operational_call(&[over; 15], &[over; 3]), Err(Refusal::nowhere(15)));
    assert_eq!(operational_call(&[over; 272], &[over; 3]), Err(Refusal::nowhere(15)));
    assert_eq!(operational_call(&[0; 257], &[0; 3]), Err(Refusal::nowhere(15)));
    assert!(operational_call(&[LARGEST_AMOUNT; MOST_VOLUMES], &[LARGEST_AMOUNT; 3]).is_ok());
}

/// "Operational risk": a shrinking class isn't netted against a growing one, and the sum is rounded once.
#[test]
fn classes_stand_alone() {
    let mut volumes = [0; 32];
    (volumes[0], volumes[1]) = (15_000, 10_000);
    (volumes[2], volumes[3]) = (0, 90_000);
    (volumes[16], volumes[17]) = (0, 90_000);
    assert_eq!(operational_call(&volumes, &[0; 3]), Ok(450));
    // Eight volumes of a cent without growth: 1,000 ten-thousandths, less than a cent.
    assert_eq!(operational_call(&[1; 16], &[0; 3]), Ok(1));
    assert_eq!(operational_call(&[0; 16], &[100, 100, 100]), Ok(13));
}

/// Demand 3 holds for the whole run, and figures that are a little off break it.
#[test]
fn demand_3_on_the_whole_run() {
    assert_eq!(demand3(WHOLE_RUN, WHOLE_RUN_REPORT.as_bytes()), Ok(()));
    let other = |from: &str, to: &str| demand3(WHOLE_RUN, WHOLE_RUN_REPORT.replacen(from, to, 1).as_bytes());
    let breaks = |from: &str, to: &str, what: &str| assert!(other(from, to).unwrap_err().contains(what), "{to}");
    // g is 1 and n is 1: the allowance is 3.01 cents. The exact buffer is 163,265,782.4988.
    breaks("163265783", "163265782", "the buffer 163265782 is below the exact one");
    assert_eq!(other("163265783", "163265785"), Ok(()));
    breaks("163265783", "163265786", "the buffer 163265786 is the allowance or more above");
    breaks("163265783", "999999999", "above the exact one");
    // The exact K is 151,765,332.4988.
    let k = "BLK  1  5          151765333";
    breaks(k, "BLK  1  5          151765332", "K, 151765332, is below the exact one");
    breaks(k, "BLK  1  5          151765334", "K, 151765334, is the allowance or more above");
    breaks(k, "BLK  1  5          176550001", "K is above U");
    breaks(k, "BLK  1  5          140902718", "2 × K is below LT + D");
    breaks(k, "BLK  1  5          140902719", "K, 140902719, is below the exact one");
    assert!(other("TOT  0  3", "TOT  0  4").is_err());
    let all_but_the_last = &WHOLE_RUN_REPORT.as_bytes()[..report_length(1) - REPORT_LINE_BYTES];
    assert!(demand3(WHOLE_RUN, all_but_the_last).is_err());
}

/// #110: the converting call with so much room, which has other bytes behind what is written and all of them where it is refused.
fn convert(sheet: &[u8], room: usize) -> Result<Vec<u8>, Refusal> {
    let mut converted = vec![b'#'; room];
    let answer = convert_call(sheet, &mut converted);
    let length = answer.unwrap_or(0);
    assert!(converted[length..].iter().all(|&byte| byte == b'#'));
    converted.truncate(length);
    answer.map(|_| converted)
}

/// #110: lines with a first and a second amount, in the order in which they are given.
fn lines(lines: &[(&str, u64, u64, u64, u64)]) -> Vec<u8> {
    lines
        .iter()
        .flat_map(|&(code, block, class, first, second)| sheet_line(code, block, class, first, second))
        .collect()
}

/// #110: "multiplied or divided by 100,000"; "The scalar's line keeps its number"; "A converted sheet converted back is the first
/// one, byte for byte". The example's line 4 has half a thousand.
#[test]
fn both_ways() {
    let cents = convert(IN_THOUSANDS, LONGEST_SHEET).unwrap();
    let expected = lines(&[
        ("RSK", 1, 1, 100_000_000, 70_000_000),
        ("RSK", 1, 2, 300_000, 300_000),
        ("RSK", 1, 3, 5_000_000, 1_000_000),
        ("RSK", 1, 4, 300_000, 100_000),
        ("RSK", 1, 5, 30_000_000, 15_000_000),
        ("RSK", 1, 6, 10_000_000, 4_000_000),
        ("RSK", 1, 7, 1_000_000, 0),
        ("OTH", 1, 1, 2_500_000, 0),
        ("OTH", 1, 2, 20_000_000, 0),
        ("OTH", 1, 3, 7_500_000, 0),
        ("VOL", 1, 1, 15_000_000, 10_000_000),
        ("GEN", 0, 1, 200_000_000, 0),
        ("GEN", 0, 4, 10_000, 0),
    ]);
    assert_eq!(cents, expected);
    assert!(run(&cents).is_ok());
    assert_eq!(convert(&cents, cents.len()), Ok(IN_THOUSANDS.to_vec()));
    // The sheet call takes no small letters.
    assert_eq!(run(IN_THOUSANDS), Err(Refusal::at_line(4, 1)));
    assert_eq!(convert(WHOLE_RUN, LONGEST_SHEET), Err(Refusal::at_line(20, 4)));

    // Every line that there is, at the most that both sorts can have.
    let most = LARGEST_AMOUNT / THOUSAND_DOLLARS;
    let longest = |small: bool| {
        let line = |&(code, block, class): &(&str, u64, u64)| {
            let amount = match (small, code == "GEN" && class == SCALAR) {
                (_, true) => 20_000,
                (true, _) => most,
                (false, _) => most * THOUSAND_DOLLARS,
            };
            let code = if small { code.to_lowercase() } else { code.to_string() };
            sheet_line(&code, block, class, amount, 0)
        };
        all_lines(MOST_BLOCKS).iter().flat_map(line).collect::<Vec<u8>>()
    };
    assert_eq!(convert(&longest(true), LONGEST_SHEET), Ok(longest(false)));
    assert_eq!(convert(&longest(false), LONGEST_SHEET), Ok(longest(true)));
    assert_eq!(convert(&[longest(true), longest(true)[..1].to_vec()].concat(), 0), Err(Refusal::nowhere(1)));
}

/// #110: "rules 12, 13, 16 and 17 aren't tested", in either unit; and an empty sheet has nothing to refuse.
#[test]
fn rules_that_a_conversion_passes_over() {
    for (given, expected) in [
        (("OTH", 1, 1, 100_000, 0), ("oth", 1, 1, 1, 0)),       // 12
        (("GEN", 0, 5, 700_000, 0), ("gen", 0, 5, 7, 0)),       // 12 and 13
        (("MOR", 1, 1, 500_000, 900_000), ("mor", 1, 1, 5, 9)), // 12 and 16
        (("CRD", 17, 1, 200_000, 0), ("crd", 17, 1, 2, 0)),     // 12 and 17
        (("ACQ", 16, 8, 200_000, 0), ("acq", 16, 8, 2, 0)),
        (("VOL", 16, 8, 0, 400_000), ("vol", 16, 8, 0, 4)),
        (("GEN", 0, 4, 20_000, 0), ("gen", 0, 4, 20_000, 0)), // the scalar's
        (("GEN", 0, 4, 1, 0), ("gen", 0, 4, 1, 0)),
    ] {
        let (given, expected) = (lines(&[given]), lines(&[expected]));
        assert_eq!(convert(&given, LINE_BYTES), Ok(expected.clone()));
        assert_eq!(convert(&expected, LINE_BYTES + 1), Ok(given));
    }
    assert_eq!(convert(b"", 0), Ok(Vec::new()));
    assert_eq!(convert(b"", 5), Ok(Vec::new()));
}

/// #110: 20 and 21 "with its line", alone, beside faults of the same line that come before them, beside one of the same sheet that
/// comes before or after, and beside 14, "last".
#[test]
fn refusals_of_the_converting_call() {
    let at = |number, line| Err(Refusal::at_line(number, line));
    let over = LARGEST_AMOUNT / THOUSAND_DOLLARS + 1;
    for (number, rsk, oth, vol, gen, good, wrong) in
        [(20, "RSK", "OTH", "VOL", "GEN", 100_000, 100_001), (21, "rsk", "oth", "vol", "gen", 1, over)]
    {
        let call = |given: &[(&str, u64, u64, u64, u64)]| convert(&lines(given), LONGEST_SHEET);
        let all = [(rsk, 1, 1, good, good), (oth, 1, 1, good, 0), (vol, 1, 1, good, good), (gen, 0, 1, good, 0)];
        let with = |place: usize, line: (&'static str, u64, u64, u64, u64)| {
            let mut all = all;
            all[place] = line;
            call(&all)
        };
        assert!(call(&all).is_ok());
        // Alone: the first amount, the second, both.
        assert_eq!(with(1, (oth, 1, 1, wrong, 0)), at(number, 2));
        assert_eq!(with(2, (vol, 1, 1, good, wrong)), at(number, 3));
        assert_eq!(with(2, (vol, 1, 1, wrong, good)), at(number, 3));
        assert_eq!(with(0, (rsk, 1, 1, wrong, wrong)), at(number, 1));
        // In the same line: 5, 6, 8, 9, 11 and 19 come before it.
        assert_eq!(with(1, (oth, 33, 1, wrong, 0)), at(5, 2));
        assert_eq!(with(1, (oth, 1, 4, wrong, 0)), at(6, 2));
        assert_eq!(with(1, (oth, 1, 1, wrong, 1)), at(8, 2));
        assert_eq!(with(0, (rsk, 1, 1, good, wrong)), at(9, 1));
        assert_eq!(with(1, (rsk, 1, 1, wrong, 0)), at(11, 2));
        assert_eq!(with(2, (rsk, 1, 7, wrong, 0)), at(19, 3));
        // 3 and 4 of the same line.
        let mut broken = lines(&[(oth, 1, 1, wrong, 0)]);
        broken[3] = b'x';
        assert_eq!(convert(&broken, LONGEST_SHEET), at(3, 1));
        assert_eq!(with(1, ("Oth", 1, 1, wrong, 0)), at(4, 2));
        // The scalar's line: 10, and never the unit.
        assert_eq!(with(3, (gen, 0, 4, over, 0)), at(10, 4));
        assert!(with(3, (gen, 0, 4, 12_345, 0)).is_ok());
        // An earlier line's fault is told, and so is this one before a later line's.
        assert_eq!(call(&[(oth, 1, 1, wrong, 0), (oth, 1, 1, 0, 0)]), at(number, 1));
        assert_eq!(call(&[(oth, 1, 1, 0, 0), (oth, 1, 1, 0, 0), (oth, 1, 2, wrong, 0)]), at(11, 2));
        // 14 comes last.
        let (sound, bad) = (lines(&all), lines(&[(oth, 1, 1, wrong, 0)]));
        assert_eq!(convert(&sound, sound.len() - 1), Err(Refusal::nowhere(14)));
        assert_eq!(convert(&sound, 0), Err(Refusal::nowhere(14)));
        assert_eq!(convert(&bad, 0), at(number, 1));
        assert_eq!(convert(&sound, sound.len()).map(|bytes| bytes.len()), Ok(sound.len()));
        // 1, 2 and #108's 3 come first.
        assert_eq!(convert(&[&bad[..], b"x"].concat(), 0), Err(Refusal::nowhere(2)));
        assert_eq!(convert(&[&bad[..], &broken, b"x"].concat(), 0), at(3, 2));
        assert_eq!(convert(&bad.repeat(630), 0), Err(Refusal::nowhere(1)));
    }
    // 999,999,999 thousand dollars are the most that 14 digits of cents hold.
    assert_eq!(
        convert(&lines(&[("vol", 1, 1, over - 1, over - 1)]), 40),
        Ok(lines(&[("VOL", 1, 1, 99_999_999_900_000, 99_999_999_900_000)]))
    );
    assert_eq!(convert(&lines(&[("vol", 1, 1, LARGEST_AMOUNT, 0)]), 40), at(21, 1));
    // In cents any amount has so few thousands, and in thousands any amount is whole.
    assert_eq!(convert(&lines(&[("OTH", 1, 1, LARGEST_AMOUNT, 0)]), 40), at(20, 1));
    assert_eq!(convert(&lines(&[("oth", 1, 1, 1, 0)]), 40), Ok(lines(&[("OTH", 1, 1, 100_000, 0)])));
}

/// #110: "Mixed capital and small codes in one sheet fall under rule 4 at the first line that differs from line 1", in its turn; a
/// code of both is no code.
#[test]
fn letters_of_a_sheet() {
    let call = |given: &[&str]| {
        let all: Vec<_> = (1..).zip(given).map(|(class, code)| (*code, 1, class, 0, 0)).collect();
        convert(&lines(&all), LONGEST_SHEET).map(|_| ())
    };
    let at = |line| Err(Refusal::at_line(4, line));
    assert_eq!(call(&["RSK", "RSK", "RSK"]), Ok(()));
    assert_eq!(call(&["rsk", "rsk", "rsk"]), Ok(()));
    assert_eq!(call(&["RSK", "rsk", "RSK"]), at(2));
    assert_eq!(call(&["rsk", "RSK", "rsk"]), at(2));
    assert_eq!(call(&["RSK", "RSK", "rsk"]), at(3));
    assert_eq!(call(&["rsk", "rsk", "RSK"]), at(3));
    for mixed in ["Rsk", "rSK", "RsK", "rsK", "RSk", "rSk"] {
        assert_eq!(call(&[mixed, mixed]), at(1));
        assert_eq!(call(&["RSK", mixed]), at(2));
        assert_eq!(call(&["rsk", mixed]), at(2));
    }
    for none in ["xyz", "XYZ", "   ", "123", "[\\]", "blk"] {
        assert_eq!(call(&[none]), at(1));
        assert_eq!(call(&["rsk", none]), at(2));
    }
    // Rule 3 of the same line comes before it, and so does a fault of an earlier line; a later line's comes after it.
    let mut differing = lines(&[("rsk", 1, 1, 0, 0), ("RSK", 1, 2, 0, 0)]);
    differing[LINE_BYTES + 3] = b'x';
    assert_eq!(convert(&differing, 80), Err(Refusal::at_line(3, 2)));
    let twice = [("rsk", 1, 1, 0, 0), ("rsk", 1, 1, 0, 0), ("RSK", 1, 2, 0, 0)];
    assert_eq!(convert(&lines(&twice), 120), Err(Refusal::at_line(11, 2)));
    let differing = [("rsk", 1, 1, 0, 0), ("RSK", 33, 9, 0, 0), ("rsk", 1, 1, 0, 0)];
    assert_eq!(convert(&lines(&differing), 0), at(2).map(|_: ()| Vec::new()));
}

/// #110: the stored conversions, with room for any sheet; what is converted converts back. Both units, and every row but 1 and 14
/// that the call has, stand among them.
#[test]
fn stored_conversions() {
    let mut answers = std::collections::BTreeSet::new();
    for (given, answer) in convert_cases() {
        let small = given.first().is_some_and(u8::is_ascii_lowercase);
        answers.insert((small, answer.as_ref().map_or_else(|refusal| refusal.number, |_| 0)));
        assert_eq!(convert(&given, LONGEST_SHEET), answer, "{}", given.escape_ascii());
        if let Ok(converted) = answer {
            assert_eq!(convert(&converted, LONGEST_SHEET), Ok(given));
        }
    }
    let numbers = |of: bool| answers.iter().filter(|(small, _)| *small == of).map(|(_, n)| *n).collect::<Vec<u8>>();
    assert_eq!(numbers(false), [0, 2, 3, 4, 5, 8, 9, 10, 11, 20]);
    assert_eq!(numbers(true), [0, 2, 3, 4, 6, 8, 10, 11, 19, 21]);
}

/// #111: the program's input: zeros but for these positions of the block, and t.
fn movement_input(amounts: &[(usize, u64)], t: u64) -> Vec<u8> {
    let mut numbers = [0; BLOCK_NUMBERS + 1];
    for &(position, amount) in amounts {
        numbers[position] = amount;
    }
    numbers[BLOCK_NUMBERS] = t;
    numbers.iter().flat_map(|number| format!("{number:>14}\n").into_bytes()).collect()
}

/// #111: the movements as they are printed, a REF line as its number, 0 and the place.
fn movements(input: &[u8]) -> Vec<String> {
    let printed = String::from_utf8(print_movements(input)).unwrap();
    printed.lines().map(|line| line.split_whitespace().collect::<Vec<&str>>().join(" ")).collect()
}

/// #111, worked out by hand. One risk alone has K = U, and so moves by t. With IR(1) 100 and IR(2) 10 the floor of I is 200, so D is
/// 200, V 220 and K the least number at or above 1,336,400 / 13,200 = 101.2; with IR(1) 110 alone it is 110.
#[test]
fn one_input_moved() {
    let alone = movements(&movement_input(&[(0, 100)], 10));
    assert_eq!(alone[..2], ["MOV 0 1 10", "MOV 0 2 2"]);
    // Nothing is moved by nothing, and of no block every risk moves by t.
    let seven = |movement: &str| (1..=RISKS).map(|risk| format!("MOV 0 {risk} {movement}")).collect::<Vec<String>>();
    assert_eq!(movements(&movement_input(&[], 0)), seven("0"));
    assert_eq!(movements(&movement_input(&[(0, 5), (1, 5), (8, 70), (15, 3)], 0)), seven("0"));
    assert_eq!(movements(&movement_input(&[], 1)), seven("1"));
    assert_eq!(movements(&movement_input(&[], LARGEST_AMOUNT)), seven("99999999999999"));
    // Nor by PC, credit and market, which are added whole where they stand alone beside nothing.
    assert_eq!(print_movements(&movement_input(&[], 7)).len(), RISKS * REPORT_LINE_BYTES);
}

/// #111: "a minus right before a fall". Morbidity incidence of 2 and lapse-sensitive of 20 have 4Q = 7,104, D = 42.15 half cents, V 44
/// and K the least number at or above 55,822.075 / 2,640 = 21.1, which is 22. With lapse-supported of 1 it is 4Q = 6,800, D = 41.24, V
/// 46 and K the least at or above 57,809.888 / 2,760 = 20.9, which is 21.
#[test]
fn a_fall_has_a_minus() {
    let printed = print_movements(&movement_input(&[(4, 2), (8, 20)], 1));
    assert_eq!(printed[5 * REPORT_LINE_BYTES..6 * REPORT_LINE_BYTES], *b"MOV  0  6                 -1\n");
    assert_eq!(printed[4 * REPORT_LINE_BYTES..5 * REPORT_LINE_BYTES], *b"MOV  0  5                  1\n");
}

/// #111: the example of document 000 with a risk raised, beside the block call on the raised block.
#[test]
fn the_example_moved() {
    let (numbers, t) = (example(), 1_000_000);
    let input: Vec<u8> = numbers.iter().chain([&t]).flat_map(|n| format!("{n:>14}\n").into_bytes()).collect();
    assert_eq!(input, EXAMPLE_MOVEMENT);
    let expected: Vec<String> = (1..=RISKS)
        .map(|risk| {
            let mut raised = numbers;
            raised[2 * (risk - 1)] += t;
            format!("MOV 0 {risk} {}", block_call(&raised).unwrap()[4] - EXAMPLE_FIGURES[4])
        })
        .collect();
    assert_eq!(movements(&input), expected);
    assert_eq!(judge_movements(&input, &print_movements(&input)).map(|moved| moved.movements), Ok(RISKS));
}

/// #111: "as number 22 with its risk, a raise that takes IR(i) above the limit: its REF line stands in that MOV line's place, and the
/// other risks are printed". At the limit it is none.
#[test]
fn a_raise_above_the_limit() {
    let most = LARGEST_AMOUNT;
    let at = |ir: u64, t: u64| movements(&movement_input(&[(4, ir)], t));
    assert_eq!(at(most - 5, 5)[2], "MOV 0 3 5");
    let above = at(most - 5, 6);
    assert_eq!(above.len(), RISKS);
    assert_eq!(above[2], "REF 22 0 3");
    assert!(above.iter().enumerate().all(|(at, line)| at == 2 || line.starts_with(&format!("MOV 0 {} ", at + 1))));
    // Each risk, and all of them.
    for risk in 1..=RISKS {
        let lines = movements(&movement_input(&[(2 * (risk - 1), 1)], most));
        assert_eq!(lines[risk - 1], format!("REF 22 0 {risk}"));
        assert_eq!(lines.iter().filter(|line| line.starts_with("REF")).count(), 1);
    }
    let all: Vec<(usize, u64)> = (0..RISKS).map(|risk| (2 * risk, 1)).collect();
    let lines = movements(&movement_input(&all, most));
    assert_eq!(lines, (1..=RISKS).map(|risk| format!("REF 22 0 {risk}")).collect::<Vec<String>>());
}

/// #111: "another length is refused as 2, a broken line as 3, then what the block call refuses, each by tsav-sheet's REF line alone":
/// each alone, and beside what comes before and after it.
#[test]
fn refusals_of_the_movement_program() {
    let whole = |input: &[u8], line: &str| {
        assert_eq!(movements(input), [line], "{}", input.escape_ascii());
        assert_eq!(print_movements(input).len(), REPORT_LINE_BYTES);
    };
    let sound = movement_input(&[(0, 100), (1, 40)], 5);
    assert_eq!(sound.len(), MOVEMENT_INPUT_BYTES);
    let put = |input: &[u8], at: usize, bytes: &[u8]| {
        let mut input = input.to_vec();
        input[at..at + bytes.len()].copy_from_slice(bytes);
        input
    };
    // 2, beside broken lines and what the block call refuses.
    whole(b"", "REF 2 0 0");
    for length in [1, 15, 255, 269] {
        whole(&sound[..length], "REF 2 0 0");
    }
    whole(&[&sound[..], b"\n"].concat(), "REF 2 0 0");
    whole(&[&sound[..], &sound[..15]].concat(), "REF 2 0 0");
    whole(&put(&sound, 0, b"x")[..269], "REF 2 0 0");
    let saved: Vec<u8> = sound.chunks(15).flat_map(|line| [&line[..14], b"\r\n"].concat()).collect();
    whole(&saved, "REF 2 0 0");
    // 3, at the first broken line: every line, t's too.
    for line in 1..=18 {
        whole(&put(&sound, 15 * (line - 1), b"x"), &format!("REF 3 0 {line}"));
        whole(&put(&sound, 15 * line - 1, b" "), &format!("REF 3 0 {line}"));
        whole(&put(&sound, 15 * (line - 1), b"              "), &format!("REF 3 0 {line}"));
    }
    whole(&put(&put(&sound, 30, b"x"), 15, b"x"), "REF 3 0 2");
    for broken in ["00", "-1", "+1", "1 ", "\t1", ".1", "1x"] {
        whole(&put(&sound, 0, format!("{broken:>14}").as_bytes()), "REF 3 0 1");
    }
    // 3 before 8 and 9; 8 before 9; 9 at its first position.
    let (eight, nine) = (movement_input(&[(12, 9), (13, 1)], 0), movement_input(&[(3, 1), (5, 1)], 0));
    whole(&eight, "REF 8 0 13");
    whole(&nine, "REF 9 0 3");
    whole(&put(&eight, 255, b"x"), "REF 3 0 18");
    whole(&movement_input(&[(3, 1), (13, 1)], 0), "REF 8 0 13");
    // All of these before 22.
    let most = LARGEST_AMOUNT;
    whole(&movement_input(&[(0, most), (12, 9), (13, 1)], most), "REF 8 0 13");
    whole(&movement_input(&[(0, most), (3, 1)], 1), "REF 9 0 3");
    whole(&put(&movement_input(&[(0, most)], 1), 45, b"x"), "REF 3 0 4");
}

/// #112: the shares of zeros but for these positions.
fn shares(amounts: &[(usize, u64)]) -> Result<[u64; PARTS], Refusal> {
    let mut b = [0; BLOCK_NUMBERS];
    for &(position, amount) in amounts {
        b[position] = amount;
    }
    let shares = shares_call(&b);
    if let Ok(shares) = shares {
        assert_eq!(judge_shares(&b, &shares), Ok(()));
    }
    shares
}

/// #112, worked out by hand: a part alone has all of K, and two alike have half each, "equal ones by lower number". Lapse-sensitive and
/// lapse-supported of 100 have K 160, and 100 without the other: margins of 60. Mortality and longevity of 3 have K 4.8, rounded up, and
/// 3 without the other: margins of 2 for 5 cents. Mortality and credit of 100 have K 178 and margins of 78.
#[test]
fn shares_of_the_capital() {
    let parts = |given: &[(usize, u64)]| {
        let mut shares = [0; PARTS];
        given.iter().for_each(|&(part, share)| shares[part - 1] = share);
        Ok(shares)
    };
    assert_eq!(shares(&[(0, 1), (1, 1)]), parts(&[(1, 1)]));
    assert_eq!(shares(&[(14, LARGEST_AMOUNT)]), parts(&[(8, LARGEST_AMOUNT)]));
    assert_eq!(shares(&[(15, 7)]), parts(&[(9, 7)]));
    assert_eq!(shares(&[(16, 7)]), parts(&[(10, 7)]));
    assert_eq!(shares(&[(8, 100), (10, 100)]), parts(&[(5, 80), (6, 80)]));
    assert_eq!(shares(&[(0, 100), (2, 100)]), parts(&[(1, 80), (2, 80)]));
    assert_eq!(shares(&[(0, 3), (2, 3)]), parts(&[(1, 3), (2, 2)]));
    assert_eq!(shares(&[(0, 100), (15, 100)]), parts(&[(1, 89), (9, 89)]));
    // Credit and market add up.
    assert_eq!(shares(&[(15, 5), (16, 5)]), parts(&[(9, 5), (10, 5)]));
    // LT of a risk is taken off with its IR: the part has no margin but what both bring.
    assert_eq!(shares(&[(0, 9), (1, 9), (14, 4)]), parts(&[(1, 9), (8, 4)]));
}

/// #112: the illustration of source document 001, section 2.2.2, has segments of 25, 15, 40 and 5. With the correlations of section 2.2.1
/// they have 67.546, and 51.235, 58.949, 35.532 and 65.096 without one of them; it prints whole numbers of these, and of them the
/// shares 18.6, 9.8, 36.4 and 2.8, which are 27.5, 14.5, 53.9 and 4.1 %. A block that has these figures, in dollars: market 20.91,
/// lapse-sensitive 15.05 with a level and trend part of 6.10, lapse-supported 42.92 with one of 0.82, expenses 4.69.
#[test]
fn illustration_of_document_001() {
    let numbers = [(16, 2091), (8, 1505), (9, 610), (10, 4292), (11, 82), (12, 469)];
    let k = |without: &[usize]| {
        let left: Vec<(usize, u64)> = numbers.into_iter().filter(|(position, _)| !without.contains(position)).collect();
        block(&left)[4]
    };
    let capital = [k(&[]), k(&[16]), k(&[8, 9]), k(&[10, 11]), k(&[12])];
    assert_eq!(capital, [6755, 6755 - 1631, 6755 - 859, 6755 - 3201, 6755 - 245]);
    assert_eq!(capital.map(|k| (k + 50) / 100), [68, 51, 59, 36, 65]);
    assert_eq!(shares(&numbers), Ok([0, 0, 0, 0, 977, 3643, 279, 0, 0, 1856]));
    let parts = [1856, 977, 3643, 279];
    assert_eq!(parts.map(|share| (share + 5) / 10), [186, 98, 364, 28]);
    assert_eq!(parts.map(|share| (2000 * share / 6755 + 1) / 2), [275, 145, 539, 41]);
}

/// #112: a K of 68 by margins of 17, 9, 32 and 3, the whole numbers that the illustration shows. By the formula that is 18.95, 10.03, 35.67
/// and 3.34, and two cents are left over, for 0.95 and 0.67. A block that has them: morbidity termination 23, PC 9, lapse-sensitive 39
/// with a level and trend part of 1, longevity 5 with one of 1.
#[test]
fn shares_of_whole_margins() {
    let numbers = [(6, 23), (14, 9), (8, 39), (9, 1), (2, 5), (3, 1)];
    assert_eq!(block(&numbers)[4], 68);
    assert_eq!(shares(&numbers), Ok([0, 3, 0, 19, 36, 0, 0, 10, 0, 0]));
}

/// #112: the example of document 000.
#[test]
fn shares_of_the_example() {
    assert_eq!(shares_call(&example()), Ok(EXAMPLE_SHARES));
    assert_eq!(EXAMPLE_SHARES.iter().sum::<u64>(), EXAMPLE_FIGURES[4]);
    assert_eq!(judge_shares(&example(), &EXAMPLE_SHARES), Ok(()));
}

/// #112: "as number 23 with no place, a block with a negative margin or with all margins zero, after the block's own tests".
#[test]
fn refusals_of_the_shares_call() {
    let none = Err(Refusal::nowhere(23));
    // No block; five risks of a cent, with K 4, and 4 without any one of them.
    assert_eq!(shares(&[]), none);
    let cents = [(0, 1), (2, 1), (6, 1), (10, 1), (12, 1)];
    assert_eq!(block(&cents)[4], 4);
    assert_eq!(shares(&cents), none);
    // Morbidity incidence of 2 and lapse-sensitive of 20 have K 22, and with lapse-supported of 1 it is 21: a margin of -1.
    assert_eq!((block(&[(4, 2), (8, 20)])[4], block(&[(4, 2), (8, 20), (10, 1)])[4]), (22, 21));
    assert_eq!(shares(&[(4, 2), (8, 20), (10, 1)]), none);
    // 7, 8 and 9 come before it.
    let at = |number: u8, position: usize| Err(Refusal::at_position(number, position));
    assert_eq!(shares(&[(16, LARGEST_AMOUNT + 1)]), at(7, 16));
    assert_eq!(shares(&[(13, 1)]), at(8, 13));
    assert_eq!(shares(&[(3, 1)]), at(9, 3));
    assert_eq!(shares(&[(4, 2), (8, 20), (9, 21), (10, 1)]), at(9, 9));
    assert_eq!(shares(&[(4, 2), (8, 20), (10, 1), (14, u64::MAX)]), at(7, 14));
}

/// #113: the listing of these lines and the scalar, a line for each, its words with one space between.
fn listing(given: &[(&str, u64, u64, u64, u64)]) -> Result<Vec<String>, Refusal> {
    let mut all = given.to_vec();
    all.push(("GEN", 0, 4, 10_000, 0));
    all.sort_by_key(|&(code, block, class, ..)| order(code, block, class));
    let sheet = lines(&all);
    let mut room = vec![b'#'; LONGEST_LISTING];
    let length = check_call(&sheet, &mut room)?;
    assert!(room[length..].iter().all(|&byte| byte == b'#'));
    assert_eq!(judge_check(&sheet, &room[..length]), Ok(()));
    let text = String::from_utf8(room[..length].to_vec()).unwrap();
    Ok(text.lines().map(|line| line.split_whitespace().collect::<Vec<&str>>().join(" ")).collect())
}

/// #113: "VOL class 5 needs GEN 2; MOR needs RSK class 1 of its block; ACQ needs VOL of its block and class; CRD of a block needs an RSK
/// line of it": each with its companion absent, with one of first amount 0, and met.
#[test]
fn what_a_line_needs() {
    type Given<'a> = (&'a str, u64, u64, u64, u64);
    let check = |line: Given, others: &[Given], companion: Given, listed: &str| {
        let with = |more: &[Given]| listing(&[&[line], others, more].concat()).unwrap();
        assert_eq!(with(&[]), [listed], "absent");
        let (code, block, class, _, second) = companion;
        assert_eq!(with(&[(code, block, class, 0, second)]), [listed], "first amount 0");
        assert_eq!(with(&[companion]), [""; 0], "met");
    };
    check(("VOL", 3, 5, 7, 0), &[], ("GEN", 0, 2, 1, 0), "VOL 3 5 GEN 0 2");
    check(("VOL", 3, 5, 0, 7), &[], ("GEN", 0, 2, 1, 0), "VOL 3 5 GEN 0 2");
    check(("MOR", 16, 1, 7, 0), &[], ("RSK", 16, 1, 1, 0), "MOR 16 1 RSK 16 1");
    check(("MOR", 16, 1, 0, 7), &[("RSK", 16, 2, 9, 0)], ("RSK", 16, 1, 1, 0), "MOR 16 1 RSK 16 1");
    // The prior alone is no first amount.
    check(("ACQ", 9, 8, 1, 0), &[("VOL", 9, 7, 4, 4), ("VOL", 8, 8, 4, 4)], ("VOL", 9, 8, 1, 5), "ACQ 9 8 VOL 9 8");
    check(("CRD", 17, 1, 5, 0), &[("OTH", 17, 1, 5, 0)], ("RSK", 17, 7, 1, 0), "CRD 17 1 RSK 17 0");
    check(
        ("CRD", 32, 1, 5, 0),
        &[("OTH", 32, 3, 5, 0), ("RSK", 32, 1, 0, 0)],
        ("RSK", 32, 4, 1, 0),
        "CRD 32 1 RSK 32 0",
    );
}

/// #113: lines that need nothing: "amounts all zero", the other volume classes, the credits of no block, and all other codes.
#[test]
fn what_needs_nothing() {
    let nothing = Ok(Vec::new());
    assert_eq!(listing(&[]), nothing);
    let zeros =
        [("OTH", 17, 1, 0, 0), ("MOR", 1, 1, 0, 0), ("VOL", 1, 5, 0, 0), ("ACQ", 1, 5, 0, 0), ("CRD", 17, 1, 0, 0)];
    assert_eq!(listing(&zeros), nothing);
    let volumes: Vec<(&str, u64, u64, u64, u64)> = [1, 2, 3, 4, 6, 7, 8].map(|class| ("VOL", 1, class, 9, 9)).to_vec();
    assert_eq!(listing(&volumes), nothing);
    assert_eq!(listing(&[("OTH", 1, 2, 100, 0), ("CRD", 0, 1, 5, 0), ("CRD", 0, 16, 5, 0)]), nothing);
    assert_eq!(listing(&[("RSK", 1, 2, 5, 5), ("OTH", 2, 1, 7, 0), ("GEN", 0, 1, 1, 0), ("GEN", 0, 3, 1, 0)]), nothing);
}

/// #113: the listing's bytes, in the sheet's order; of the sample, and the longest there is.
#[test]
fn the_listing() {
    let expected = "MOR  1  1 RSK  1  1\nVOL  1  5 GEN  0  2\nACQ  1  2 VOL  1  2\nCRD 17  1 RSK 17  0\n";
    assert_eq!(print_check(UNMET), expected.as_bytes());
    assert_eq!(print_check(WHOLE_RUN), b"");
    let all: Vec<(&str, u64, u64, u64, u64)> = all_lines(MOST_BLOCKS)
        .into_iter()
        .filter_map(|(code, block, class)| match (code, block, class) {
            // With a prior of the class itself alone, ACQ of class 5 has no companion either.
            ("VOL", _, 5) => Some((code, block, class, 0, 1)),
            ("MOR", ..) | ("OTH", 17.., 1) => Some((code, block, class, 1, 0)),
            ("ACQ", ..) | ("CRD", 17.., _) => Some((code, block, class, 1, 0)),
            ("GEN", _, SCALAR) => Some((code, block, class, 1, 0)),
            _ => None,
        })
        .collect();
    let printed = print_check(&lines(&all));
    assert_eq!((printed.len(), LONGEST_LISTING), (LONGEST_LISTING, 176 * 20));
    let lines: Vec<&[u8]> = printed.chunks(LISTING_LINE_BYTES).collect();
    assert_eq!(lines[0], b"MOR  1  1 RSK  1  1\n");
    assert_eq!(lines[16], b"VOL  1  5 GEN  0  2\n");
    assert_eq!(lines[32], b"ACQ  1  1 VOL  1  1\n");
    assert_eq!(lines[175], b"CRD 32  1 RSK 32  0\n");
}

/// #113: "A refused sheet gets its refusal; 14, last, here means room shorter than the listing".
#[test]
fn refusals_of_the_check_call() {
    let check = |sheet: &[u8], room: usize| {
        let mut listing = vec![b'#'; room];
        let answer = check_call(sheet, &mut listing);
        assert!(listing[answer.unwrap_or(0)..].iter().all(|&byte| byte == b'#'));
        answer
    };
    let none = Err(Refusal::nowhere(14));
    assert_eq!((check(UNMET, 80), check(UNMET, 81)), (Ok(80), Ok(80)));
    assert_eq!((check(UNMET, 79), check(UNMET, 0)), (none, none));
    assert_eq!(check(WHOLE_RUN, 0), Ok(0));
    // Each rule of the sheet comes before 14, with no room at all.
    let need = ("VOL", 1, 5, 1, 1);
    let scalar = ("GEN", 0, 4, 10_000, 0);
    assert_eq!(check(&[0; LONGEST_SHEET + 1], 0), Err(Refusal::nowhere(1)));
    assert_eq!(check(&[&lines(&[need, scalar])[..], b"x"].concat(), 0), Err(Refusal::nowhere(2)));
    assert_eq!(check(&[b' '; 40], 0), Err(Refusal::at_line(3, 1)));
    assert_eq!(check(&lines(&[need]), 0), Err(Refusal::nowhere(12)));
    assert_eq!(check(&lines(&[("MOR", 1, 1, 1, 1), need, scalar]), 0), Err(Refusal::nowhere(16)));
    assert_eq!(check(&lines(&[need, scalar, ("CRD", 17, 1, 0, 0)]), 0), Err(Refusal::nowhere(17)));
    assert_eq!(check(&lines(&[need, scalar, ("GEN", 0, 5, 9, 0)]), 0), Err(Refusal::nowhere(13)));
    assert_eq!(check(&lines(&[need, scalar, need]), 0), Err(Refusal::at_line(11, 3)));
    assert_eq!(check(&lines(&[scalar, need]), 0), Err(Refusal::at_line(19, 2)));
    assert_eq!(print_check(b""), b"REF 12  0                  0\n");
    assert_eq!(print_check(&lines(&[scalar, need])), b"REF 19  0                  2\n");
    // A sheet in thousands of dollars is none.
    assert_eq!(check(IN_THOUSANDS, 0), Err(Refusal::at_line(4, 1)));
}

/// #114: what is printed, its words with one space between.
fn quarter(parts: &[&[u8]]) -> Vec<String> {
    let input = parts.concat();
    let printed = print_quarter(&input);
    assert_eq!(printed.len() % QUARTER_LINE_BYTES, 0);
    if quarter_refusal(&input).is_none() {
        assert!(judge_quarter(&input, &printed).is_ok_and(|judged| judged.decided));
    }
    let text = String::from_utf8(printed).unwrap();
    text.lines().map(|line| line.split_whitespace().collect::<Vec<&str>>().join(" ")).collect()
}

/// #114: "SUM, 0, items 1 to 8".
fn summary(figures: [u64; 8]) -> Vec<String> {
    (1..).zip(figures).map(|(item, figure)| format!("SUM 0 {item} {figure}")).collect()
}

/// A sheet of one volume and a scalar of one: RO of 15,000 and 10,000 is 450, of 12,000 it is 300, and that is the buffer.
fn of_volume(current: u64) -> Vec<u8> {
    lines(&[("VOL", 1, 1, current, 10_000), ("GEN", 0, 4, 10_000, 0)])
}

/// #114, worked out by hand: two sheets, three of which two tie, none, and one that is refused among others.
#[test]
fn the_quarters_sheets() {
    let (more, less, end) = (of_volume(15_000), of_volume(12_000), CLOSING_LINE);
    let expected = [vec!["SHT 1 1 450".to_string(), "SHT 2 1 300".into()], summary([2, 300, 2, 450, 1, 750, 375, 0])];
    assert_eq!(quarter(&[&more, end, &less, end]), expected.concat());
    // 1,500 over 4 is 375; 1,200 over 3 is 400; 1,050 and a remainder over 3; the first of equal ones.
    let four = quarter(&[&more, end, &less, end, &more, end, &less, end]);
    assert_eq!(four[4..], summary([4, 300, 2, 450, 1, 1_500, 375, 0]));
    let three = quarter(&[&less, end, &more, end, &more, end]);
    assert_eq!(three[3..], summary([3, 300, 1, 450, 2, 1_200, 400, 0]));
    // A scalar alone has a buffer of 0 and is accepted: 450 over 2 is 225, and with a third 150.
    let scalar = lines(&[("GEN", 0, 4, 10_000, 0)]);
    assert_eq!(quarter(&[&more, end, &scalar, end])[2..], summary([2, 0, 2, 450, 1, 450, 225, 0]));
    let remainder = quarter(&[&more, end, &scalar, end, &scalar, end, &scalar, end]);
    assert_eq!(remainder[4..], summary([4, 0, 2, 450, 1, 450, 112, 2]));
    // "With none accepted it prints zeros": none at all, and one that is refused.
    assert_eq!(quarter(&[]), summary([0; 8]));
    assert_eq!(quarter(&[end]), [vec!["REF 12 0 0".to_string()], summary([0; 8])].concat());
    // A refused sheet among others counts for the sheets' numbers alone.
    let bad = lines(&[("RSK", 1, 1, 3_000, 3_001)]);
    let expected = [
        vec!["REF 9 0 1".to_string(), "SHT 2 1 450".into(), "REF 12 0 0".into()],
        summary([1, 450, 2, 450, 2, 450, 450, 0]),
    ];
    assert_eq!(quarter(&[&bad, end, &more, end, end]), expected.concat());
}

/// #114: "report lines of 30 bytes, the number (for REF the place) in 11–29"; the sample.
#[test]
fn lines_of_a_quarter() {
    let expected = "\
SHT  1  1           163265783
REF  9  0                   2
SHT  3  1           155102494
SUM  0  1                   2
SUM  0  2           155102494
SUM  0  3                   3
SUM  0  4           163265783
SUM  0  5                   1
SUM  0  6           318368277
SUM  0  7           159184138
SUM  0  8                   1
";
    assert_eq!(print_quarter(EXAMPLE_QUARTER), expected.as_bytes());
}

/// #114: a closing line "counts at the start of the input or right after a line feed"; 38 or 40 minus signs, a carriage return and
/// what stands behind another byte are none, and one without its line feed isn't either.
#[test]
fn closing_lines() {
    let (more, end) = (of_volume(15_000), CLOSING_LINE);
    assert_eq!(end, [vec![b'-'; 39], b"\n".to_vec()].concat());
    let twelve = "REF 12 0 0".to_string();
    assert_eq!(quarter(&[end, &more, end])[..2], [twelve.clone(), "SHT 2 1 450".into()]);
    assert_eq!(quarter(&[end, end, end])[..3], [twelve.clone(), twelve.clone(), twelve]);
    // What is no closing line belongs to the sheet: broken lines, or bytes behind the last whole one.
    for (wrong, answer) in [
        (&[&[b'-'; 38][..], b"\n"].concat(), "REF 2 0 0"),
        (&[&[b'-'; 40][..], b"\n"].concat(), "REF 3 0 3"),
        (&[&[b'-'; 39][..], b"\r\n"].concat(), "REF 3 0 3"),
        (&[&b"x"[..], end].concat(), "REF 3 0 3"),
        (&[&b" "[..], end].concat(), "REF 3 0 3"),
    ] {
        assert_eq!(quarter(&[&more, wrong, &more, end]).len(), 1 + 8, "{}", wrong.escape_ascii());
        assert_eq!(quarter(&[&more, wrong, end])[0], answer, "{}", wrong.escape_ascii());
    }
    // A sheet that doesn't end in a line feed swallows its closing line and the next sheet: 79 + 40 + 80 bytes, of which line 2 is broken.
    let cut = &more[..79];
    assert_eq!(quarter(&[cut, end, &more, end, &more, end])[..2], ["REF 3 0 2".to_string(), "SHT 2 1 450".into()]);
    // A line feed inside a line is enough before one.
    let inside = [&more[..50], b"\n"].concat();
    assert_eq!(quarter(&[&inside, end, &more, end])[..2], ["REF 2 0 0".to_string(), "SHT 2 1 450".into()]);
}

/// #114: "as number 24 with the sheet, an input with more than 60 sheets, and, as number 25 with the sheet, one whose last sheet isn't
/// closed, 24 first; the sheets before it are answered and no summary follows".
#[test]
fn quarters_that_are_cut_short() {
    let (more, end) = (of_volume(15_000), CLOSING_LINE);
    let closed = [&more[..], end].concat();
    let many = |count: usize| closed.repeat(count);
    let answers = |count: usize| (1..=count).map(|at| format!("SHT {at} 1 450")).collect::<Vec<String>>();
    // 60 are answered with their summary; 61, closed or not, and more, by 24 with 61, also where it is a byte.
    assert_eq!(quarter(&[&many(60)]), [answers(60), summary([60, 450, 1, 450, 1, 27_000, 450, 0])].concat());
    let over = [answers(60), vec!["REF 24 0 61".into()]].concat();
    for rest in [&closed[..], &many(3), &more, b"\n", b"-", end, &end[..39]] {
        assert_eq!(quarter(&[&many(60), rest]), over, "{}", rest.len());
    }
    // Not closed: 25 with its number.
    for count in [0, 1, 2, 59] {
        let short = [answers(count), vec![format!("REF 25 0 {}", count + 1)]].concat();
        for rest in [&more[..], b"\n", b"x", &end[..39], &[&more[..79], end].concat()] {
            assert_eq!(quarter(&[&many(count), rest]), short, "{count}");
        }
    }
    // The sheets before it are answered by their refusals too.
    assert_eq!(quarter(&[end, end, b"x"]), ["REF 12 0 0", "REF 12 0 0", "REF 25 0 3"]);
}

/// #114: a sheet of any length is answered, in the middle too; the largest total has 19 digits.
#[test]
fn sheets_of_any_length() {
    let (more, end) = (of_volume(15_000), CLOSING_LINE);
    // A line feed stands before the closing line: 629 lines and none more, a byte more, and many more.
    for (bytes, answer) in [(LONGEST_SHEET, "REF 3 0 1"), (LONGEST_SHEET + 1, "REF 1 0 0"), (400_000, "REF 1 0 0")] {
        let sheet = [vec![b' '; bytes - 1], b"\n".to_vec()].concat();
        let parts = quarter(&[&more, end, &sheet, end, &more, end]);
        assert_eq!(parts[..3], ["SHT 1 1 450".to_string(), answer.into(), "SHT 3 1 450".into()], "{bytes}");
    }
    let largest: Vec<u8> = all_lines(MOST_BLOCKS)
        .into_iter()
        .filter(|&(code, _, class)| !matches!((code, class), ("MOR" | "ACQ" | "CRD", _) | ("GEN", CREDITS)))
        .flat_map(|(code, block, class)| {
            let (first, second) = match (code, class) {
                ("GEN", SCALAR) => (LARGEST_SCALAR, 0),
                ("RSK", 1..EXPENSES) => (LARGEST_AMOUNT, LARGEST_AMOUNT),
                _ => (LARGEST_AMOUNT, 0),
            };
            sheet_line(code, block, class, first, second)
        })
        .collect();
    let sixty = [&largest[..], end].concat().repeat(60);
    let printed = quarter(&[&sixty]);
    assert_eq!(printed[65], "SUM 0 6 3354329999999968800");
    assert_eq!(print_quarter(&sixty).len(), 68 * QUARTER_LINE_BYTES);
}
