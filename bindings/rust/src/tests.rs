use super::*;
use contract::{LINE, NOWHERE, POSITION, RISK, SHEET};
use reference::{
    all_lines, convert_cases, example, fluctuation_cases, report_line, sheet_line, CLOSING_LINE, EXAMPLE_FIGURES,
    EXAMPLE_MOVEMENT, EXAMPLE_QUARTER, EXAMPLE_SHARES, IN_THOUSANDS, UNMET, WHOLE_RUN, WHOLE_RUN_REPORT,
};

const OVER: u64 = LARGEST_AMOUNT + 1;

fn refused<T>(number: u8, place: Place) -> Result<T, Error> {
    Err(Error::Refused(Refusal { number, place }))
}

#[test]
fn the_papers_whole_run() {
    let mut report = [b'#'; LONGEST_REPORT];
    let length = sheet(WHOLE_RUN, &mut report).unwrap();
    assert_eq!(length, report_length(1));
    assert_eq!(&report[..length], WHOLE_RUN_REPORT.as_bytes());
    assert!(report[length..].iter().all(|&byte| byte == b'#'));
}

#[test]
fn the_example_of_document_000() {
    let [i, d, u, lt, k, steps_i, steps_d] = EXAMPLE_FIGURES;
    assert_eq!(block(&example()), Ok(Figures { i, d, u, lt, k, steps_i, steps_d }));
}

/// Zeros; PC alone, whose radicand of I is 0; the largest amounts, which have the most steps.
#[test]
fn the_steps_of_the_roots() {
    let steps = |numbers: &[u64; BLOCK_NUMBERS]| block(numbers).map(|figures| (figures.steps_i, figures.steps_d));
    let mut numbers = [0; BLOCK_NUMBERS];
    assert_eq!(steps(&numbers), Ok((0, 0)));
    numbers[14] = 100;
    assert_eq!(steps(&numbers), Ok((0, 15)));
    let mut numbers = [LARGEST_AMOUNT; BLOCK_NUMBERS];
    (1..14).step_by(2).for_each(|position| numbers[position] = 0);
    assert_eq!(steps(&numbers), Ok((57, 57)));
}

/// D is 19.94 half cents and given as 20, and K is taken before that; in whole half cents D would be 21 and K 12.
#[test]
fn finer_roots() {
    let mut numbers = [0; BLOCK_NUMBERS];
    (numbers[0], numbers[2], numbers[15]) = (2, 3, 8);
    assert_eq!(block(&numbers), Ok(Figures { i: 7, d: 20, u: 13, lt: 0, k: 11, steps_i: 10, steps_d: 11 }));
}

/// The example; two alike, of which the lower number has the odd cent; a block with the capital of document 001's illustration, which
/// prints 18.6, 9.8, 36.4 and 2.8.
#[test]
fn the_shares_call() {
    assert_eq!(shares(&example()), Ok(EXAMPLE_SHARES));
    let of = |amounts: &[(usize, u64)]| {
        let mut numbers = [0; BLOCK_NUMBERS];
        amounts.iter().for_each(|&(position, amount)| numbers[position] = amount);
        shares(&numbers)
    };
    assert_eq!(of(&[(0, 3), (2, 3)]), Ok([3, 2, 0, 0, 0, 0, 0, 0, 0, 0]));
    let illustration = [(16, 2091), (8, 1505), (9, 610), (10, 4292), (11, 82), (12, 469)];
    assert_eq!(of(&illustration), Ok([0, 0, 0, 0, 977, 3643, 279, 0, 0, 1856]));
    assert_eq!(of(&[]), refused(23, Place::Nowhere));
    assert_eq!(of(&[(4, 2), (8, 20), (10, 1)]), refused(23, Place::Nowhere));
    assert_eq!(of(&[(16, OVER)]), refused(7, Place::Position(16)));
    assert_eq!(of(&[(13, 1)]), refused(8, Place::Position(13)));
    assert_eq!(of(&[(3, 1)]), refused(9, Place::Position(3)));
}

#[test]
fn the_operational_call() {
    let mut volumes = [0; 16];
    (volumes[0], volumes[1]) = (15_000, 10_000);
    assert_eq!(operational(&volumes, &[0; 3]), Ok(450));
    assert_eq!(operational(&volumes, &[200_000_000, 0, 0]), Ok(11_500_450));
    assert_eq!(operational(&[], &[0; 3]), Ok(0));
    assert!(operational(&[LARGEST_AMOUNT; 256], &[LARGEST_AMOUNT; 3]).is_ok());
}

#[test]
fn refusals_of_the_block_call() {
    let with = |position: usize, number: u64| {
        let mut numbers = example();
        numbers[position] = number;
        block(&numbers)
    };
    assert_eq!(with(16, OVER), refused(7, Place::Position(16)));
    assert_eq!(with(0, u64::MAX), refused(7, Place::Position(0)));
    assert_eq!(with(13, 1), refused(8, Place::Position(13)));
    assert_eq!(with(3, 300_001), refused(9, Place::Position(3)));
}

#[test]
fn refusals_of_the_operational_call() {
    assert_eq!(operational(&[0; 16], &[0, 0, OVER]), refused(7, Place::Position(18)));
    for length in [1, 15, 17, 257, 272] {
        assert_eq!(operational(&[0; 272][..length], &[0; 3]), refused(15, Place::Nowhere));
    }
}

/// The stored calls, refused ones too, among which are the papers' figures and each row at its threshold and above it.
#[test]
fn the_fluctuation_call() {
    assert_eq!(fluctuation(2, 10_000_000_000, 0), Ok(9_330_000_000));
    assert_eq!(fluctuation(7, 100_000_000, 40_000_000_000), Ok(88_610_000));
    for ([row, requirement, face], answer) in fluctuation_cases() {
        let answer = answer.or_else(|reference::Refusal { number, place }| match place {
            reference::Place::Position(position) => refused(number, Place::Position(position)),
            _ => refused(number, Place::Nowhere),
        });
        assert_eq!(fluctuation(row, requirement, face), answer, "{row} {requirement} {face}");
    }
}

#[test]
fn refusals_of_the_sheet_call() {
    let sheet_of = |bytes: &[u8]| sheet(bytes, &mut [0; LONGEST_REPORT]);
    assert_eq!(sheet_of(b""), refused(12, Place::Nowhere));
    assert_eq!(sheet_of(b"x"), refused(2, Place::Nowhere));
    assert_eq!(sheet_of(&[0; LONGEST_SHEET + 1]), refused(1, Place::Nowhere));
    assert_eq!(sheet_of(&[WHOLE_RUN, &WHOLE_RUN[..SHEET_LINE]].concat()), refused(11, Place::Line(14)));
    // Behind the RSK and OTH lines a MOR line is in order, and behind all lines it isn't.
    let above = b"MOR  2  1              1              1\n";
    let (before, behind) = WHOLE_RUN.split_at(10 * SHEET_LINE);
    assert_eq!(sheet_of(&[before, above, behind].concat()), refused(16, Place::Nowhere));
    assert_eq!(sheet_of(&[WHOLE_RUN, above].concat()), refused(19, Place::Line(14)));
    let no_block = b"CRD 17  1              0              0\n";
    assert_eq!(sheet_of(&[WHOLE_RUN, no_block].concat()), refused(17, Place::Nowhere));
    let mut report = *b"any content";
    assert_eq!(sheet(WHOLE_RUN, &mut report), refused(14, Place::Nowhere));
    assert_eq!(&report, b"any content");
    assert_eq!(sheet(WHOLE_RUN, &mut []), refused(14, Place::Nowhere));
}

/// Carriage returns, with which the papers' whole run is refused by 3 at line 1; a length that isn't a multiple of 40 beside a line
/// that breaks the layout, beside one that stood before, and beside what isn't a whole line.
#[test]
fn length_against_layout() {
    let sheet_of = |bytes: &[u8]| sheet(bytes, &mut [0; LONGEST_REPORT]);
    let saved: Vec<u8> =
        WHOLE_RUN.chunks(SHEET_LINE).flat_map(|line| [&line[..SHEET_LINE - 1], b"\r\n"].concat()).collect();
    assert_eq!(sheet_of(&saved), refused(3, Place::Line(1)));
    let (broken, first) = ([b' '; SHEET_LINE], &WHOLE_RUN[..SHEET_LINE]);
    assert_eq!(sheet_of(&[WHOLE_RUN, &broken, b"x"].concat()), refused(3, Place::Line(14)));
    assert_eq!(sheet_of(&[WHOLE_RUN, first, &broken, b"x"].concat()), refused(3, Place::Line(15)));
    assert_eq!(sheet_of(&[WHOLE_RUN, first, b"x"].concat()), refused(2, Place::Nowhere));
    assert_eq!(sheet_of(&[WHOLE_RUN, &broken[1..]].concat()), refused(2, Place::Nowhere));
}

/// Document 003's acquisition example in cents: RO 675 of a prior of 10,000 and 5,000; two of the largest amounts together.
#[test]
fn bought_business() {
    let ro = |current: u64, prior: u64, acquired: u64| {
        let lines = [("VOL", 1, 1, current, prior), ("ACQ", 1, 1, acquired, 0), ("GEN", 0, 4, 10_000, 0)];
        let bytes: Vec<u8> =
            lines.iter().flat_map(|&(code, block, class, one, two)| sheet_line(code, block, class, one, two)).collect();
        let mut report = [b'#'; LONGEST_REPORT];
        let length = sheet(&bytes, &mut report)?;
        assert_eq!(length, report_length(0));
        Ok::<_, Error>(report[REPORT_LINE..2 * REPORT_LINE].to_vec())
    };
    assert_eq!(ro(22_500, 10_000, 5_000), Ok(report_line("TOT", 0, 2, 675)));
    assert_eq!(ro(22_500, 15_000, 0), Ok(report_line("TOT", 0, 2, 675)));
    assert_eq!(ro(22_500, 10_000, 0), Ok(report_line("TOT", 0, 2, 825)));
    let joined = ro(LARGEST_AMOUNT, LARGEST_AMOUNT, LARGEST_AMOUNT);
    assert_eq!(joined, Ok(report_line("TOT", 0, 2, 2_500_000_000_000)));
    // A sheet of every line there is, the longest; and one line more.
    let lines: Vec<u8> =
        all_lines(MOST_BLOCKS).iter().flat_map(|&(code, block, class)| sheet_line(code, block, class, 1, 0)).collect();
    assert_eq!(lines.len(), LONGEST_SHEET);
    assert_eq!(sheet(&lines, &mut [0; LONGEST_REPORT]), Ok(LONGEST_REPORT));
    let more = [&lines[..], b"GEN  0  4          10000              0\n"].concat();
    assert_eq!(sheet(&more, &mut [0; LONGEST_REPORT]), refused(1, Place::Nowhere));
}

/// A sheet in thousands of dollars, and back; the bytes behind are kept.
#[test]
fn the_convert_call() {
    let mut cents = [b'#'; LONGEST_SHEET];
    let length = IN_THOUSANDS.len();
    assert_eq!(convert(IN_THOUSANDS, &mut cents), Ok(length));
    assert!(cents[length..].iter().all(|&byte| byte == b'#'));
    assert_eq!(cents[..SHEET_LINE], sheet_line("RSK", 1, 1, 100_000_000, 70_000_000));
    assert_eq!(cents[length - SHEET_LINE..length], sheet_line("GEN", 0, 4, 10_000, 0));
    assert_eq!(sheet(&cents[..length], &mut [0; LONGEST_REPORT]), Ok(report_length(1)));
    let mut back = vec![b'#'; length];
    assert_eq!(convert(&cents[..length], &mut back), Ok(length));
    assert_eq!(back, IN_THOUSANDS);
    assert_eq!(convert(b"", &mut []), Ok(0));
}

#[test]
fn refusals_of_the_convert_call() {
    let of = |bytes: &[u8]| convert(bytes, &mut [0; LONGEST_SHEET]);
    assert_eq!(of(b"x"), refused(2, Place::Nowhere));
    assert_eq!(of(&[0; LONGEST_SHEET + 1]), refused(1, Place::Nowhere));
    assert_eq!(of(&[IN_THOUSANDS, b"x"].concat()), refused(2, Place::Nowhere));
    assert_eq!(of(&[IN_THOUSANDS, &[b' '; SHEET_LINE + 1]].concat()), refused(3, Place::Line(14)));
    assert_eq!(of(&[IN_THOUSANDS, &WHOLE_RUN[..SHEET_LINE]].concat()), refused(4, Place::Line(14)));
    assert_eq!(of(&[IN_THOUSANDS, &IN_THOUSANDS[..SHEET_LINE]].concat()), refused(11, Place::Line(14)));
    // The example has half a thousand in line 4. 999,999,999 thousands are the most.
    assert_eq!(of(WHOLE_RUN), refused(20, Place::Line(4)));
    assert_eq!(of(&sheet_line("vol", 1, 1, 999_999_999, 1_000_000_000)), refused(21, Place::Line(1)));
    assert_eq!(of(&sheet_line("vol", 1, 1, 999_999_999, 999_999_999)), Ok(SHEET_LINE));
    // 12 isn't tested.
    assert_eq!(of(&sheet_line("RSK", 1, 1, 100_000, 0)), Ok(SHEET_LINE));
    let mut converted = *b"any content";
    assert_eq!(convert(IN_THOUSANDS, &mut converted), refused(14, Place::Nowhere));
    assert_eq!(&converted, b"any content");
}

/// The stored conversions, refused ones too; what is converted converts back.
#[test]
fn stored_conversions() {
    let of = |bytes: &[u8]| {
        let mut converted = vec![b'#'; LONGEST_SHEET];
        convert(bytes, &mut converted).map(|length| converted[..length].to_vec())
    };
    for (given, answer) in convert_cases() {
        let answer = answer.or_else(|reference::Refusal { number, place }| match place {
            reference::Place::Line(line) => refused(number, Place::Line(line)),
            _ => refused(number, Place::Nowhere),
        });
        assert_eq!(of(&given), answer, "{}", given.escape_ascii());
        if let Ok(converted) = answer {
            assert_eq!(of(&converted), Ok(given));
        }
    }
}

/// A sheet with four needs unmet; one with none; the longest listing.
#[test]
fn the_check_call() {
    let mut listing = [b'#'; LONGEST_LISTING];
    assert_eq!(check(UNMET, &mut listing), Ok(80));
    let expected = b"MOR  1  1 RSK  1  1\nVOL  1  5 GEN  0  2\nACQ  1  2 VOL  1  2\nCRD 17  1 RSK 17  0\n";
    assert_eq!(&listing[..80], expected);
    assert!(listing[80..].iter().all(|&byte| byte == b'#'));
    assert_eq!(check(WHOLE_RUN, &mut []), Ok(0));
    let needs = |&(code, block, class): &(&'static str, u64, u64)| match (code, block, class) {
        ("VOL", _, 5) => sheet_line(code, block, class, 0, 1),
        ("MOR" | "ACQ", ..) | ("OTH", 17.., 1) | ("CRD", 17.., _) | ("GEN", _, 4) => {
            sheet_line(code, block, class, 1, 0)
        }
        _ => Vec::new(),
    };
    let lines: Vec<u8> = all_lines(MOST_BLOCKS).iter().flat_map(needs).collect();
    assert_eq!(check(&lines, &mut listing), Ok(LONGEST_LISTING));
    assert_eq!(check(&lines, &mut listing[1..]), refused(14, Place::Nowhere));
}

#[test]
fn refusals_of_the_check_call() {
    let of = |bytes: &[u8]| check(bytes, &mut []);
    assert_eq!(of(b""), refused(12, Place::Nowhere));
    assert_eq!(of(b"x"), refused(2, Place::Nowhere));
    assert_eq!(of(&[0; LONGEST_SHEET + 1]), refused(1, Place::Nowhere));
    assert_eq!(of(IN_THOUSANDS), refused(4, Place::Line(1)));
    assert_eq!(of(&[UNMET, &UNMET[..SHEET_LINE]].concat()), refused(11, Place::Line(13)));
    assert_eq!(of(&[UNMET, b"MOR  2  1              1              1\n"].concat()), refused(19, Place::Line(13)));
    assert_eq!(of(&[UNMET, b"CRD 18  1              0              0\n"].concat()), refused(17, Place::Nowhere));
    let mut listing = *b"any content";
    assert_eq!(check(UNMET, &mut listing), refused(14, Place::Nowhere));
    assert_eq!(&listing, b"any content");
}

/// The example of the guide, whose lines the reference has; and t above what risk 1 can be raised by, which refuses nothing.
#[test]
fn the_movement_call() {
    let mut movements = [b'#'; MOVEMENTS + 1];
    assert_eq!(movement(EXAMPLE_MOVEMENT, &mut movements), Ok(MOVEMENTS));
    assert_eq!(movements[..MOVEMENTS], reference::print_movements(EXAMPLE_MOVEMENT));
    assert_eq!(movements[MOVEMENTS], b'#');
    let raised = [
        &b"99999999999999\n             0\n             2\n"[..],
        &b"             0\n".repeat(14),
        b"             1\n",
    ]
    .concat();
    assert_eq!(movement(&raised, &mut movements), Ok(MOVEMENTS));
    assert_eq!(&movements[..REPORT_LINE], b"REF 22  0                  1\n");
    assert!(movements[REPORT_LINE..MOVEMENTS].chunks(REPORT_LINE).all(|line| line.starts_with(b"MOV")));
}

#[test]
fn refusals_of_the_movement_call() {
    let of = |bytes: &[u8]| movement(bytes, &mut [0; MOVEMENTS]);
    let with = |line: usize, text: &[u8]| {
        let mut numbers = EXAMPLE_MOVEMENT.to_vec();
        numbers[15 * line - 15..15 * line - 15 + text.len()].copy_from_slice(text);
        of(&numbers)
    };
    assert_eq!(of(b""), refused(2, Place::Nowhere));
    assert_eq!(of(&[EXAMPLE_MOVEMENT, b"\n"].concat()), refused(2, Place::Nowhere));
    assert_eq!(with(1, b"x"), refused(3, Place::Line(1)));
    assert_eq!(with(18, b"             0 "), refused(3, Place::Line(18)));
    assert_eq!(with(14, b"             1"), refused(8, Place::Position(13)));
    assert_eq!(with(2, b"99999999999999"), refused(9, Place::Position(1)));
    let mut movements = *b"any content";
    assert_eq!(movement(EXAMPLE_MOVEMENT, &mut movements), refused(14, Place::Nowhere));
    assert_eq!(&movements, b"any content");
}

/// The example of the guide; no sheet, and empty ones; and what no refusal of the call is: more than 60 sheets, and one that isn't closed.
#[test]
fn the_quarter_call() {
    let of = |sheets: &[u8]| {
        let mut summary = [b'#'; LONGEST_SUMMARY + 1];
        let length = quarter(sheets, &mut summary).unwrap();
        assert!(summary[length..].iter().all(|&byte| byte == b'#'));
        assert_eq!(summary[..length], reference::print_quarter(sheets));
        String::from_utf8(summary[..length].to_vec()).unwrap()
    };
    assert_eq!(of(EXAMPLE_QUARTER).lines().last(), Some("SUM  0  8                   1"));
    assert_eq!(of(b"").len(), 8 * SUMMARY_LINE);
    assert_eq!(of(&CLOSING_LINE.repeat(MOST_SHEETS)).len(), LONGEST_SUMMARY);
    let more = of(&CLOSING_LINE.repeat(MOST_SHEETS + 1));
    assert_eq!((more.len(), more.lines().last()), (61 * SUMMARY_LINE, Some("REF 24  0                  61")));
    let open = of(&[EXAMPLE_QUARTER, WHOLE_RUN].concat());
    assert_eq!(open.lines().last().map(|line| &line[..9]), Some("REF 25  0"));
}

#[test]
fn refusals_of_the_quarter_call() {
    assert_eq!(quarter(b"", &mut []), refused(14, Place::Nowhere));
    let mut summary = *b"any content";
    assert_eq!(quarter(b"x", &mut summary), refused(14, Place::Nowhere));
    assert_eq!(&summary, b"any content");
}

#[test]
fn errors_in_words() {
    let words = |number: u8, place: Place| Error::Refused(Refusal { number, place }).to_string();
    assert_eq!(words(9, Place::Line(2)), "refusal 9 at line 2");
    assert_eq!(words(7, Place::Position(16)), "refusal 7 at position 16");
    assert_eq!(words(12, Place::Nowhere), "refusal 12");

    let words = |breach: Breach| Error::Contract(breach).to_string();
    assert_eq!(
        words(Breach::Version { found: 0 }),
        format!("the library broke its contract: its calls are of version 0, not {VERSION}")
    );
    assert_eq!(
        words(Breach::Refusal { number: 16, place: [3, 5] }),
        "the library broke its contract: refusal 16 at a place 3, 5"
    );
    assert_eq!(
        words(Breach::Length { length: 233, room: 232 }),
        "the library broke its contract: a length of 233 bytes where 232 were lent"
    );
}

/// The numbers that the header defines are the wrapper's, and the library's version is one of them. That the header's are
/// the source's is compared by tests/constants.
#[test]
fn the_headers_numbers() {
    let header = include_str!("../../../include/tsav.h");
    let defined: Vec<(&str, String)> = header
        .lines()
        .filter_map(|line| line.strip_prefix("#define TSAV_")?.split_once(' '))
        .map(|(name, number)| (name, number.trim_start_matches("UINT64_C(").trim_end_matches(')').to_string()))
        .filter(|&(name, _)| name != "RELEASE")
        .collect();
    let ours = [
        ("VERSION", VERSION),
        ("LARGEST_AMOUNT", LARGEST_AMOUNT),
        ("BLOCK_NUMBERS", BLOCK_NUMBERS as u64),
        ("BLOCK_FIGURES", BLOCK_FIGURES as u64),
        ("PARTS", PARTS as u64),
        ("TERRITORY_NUMBERS", TERRITORY_NUMBERS as u64),
        ("MOST_VOLUMES", MOST_VOLUMES as u64),
        ("GENERAL_FIGURES", GENERAL_NUMBERS as u64),
        ("MOST_BLOCKS", MOST_BLOCKS as u64),
        ("SHEET_LINE", SHEET_LINE as u64),
        ("REPORT_LINE", REPORT_LINE as u64),
        ("LONGEST_SHEET", LONGEST_SHEET as u64),
        ("LONGEST_REPORT", LONGEST_REPORT as u64),
        ("LISTING_LINE", LISTING_LINE as u64),
        ("LONGEST_LISTING", LONGEST_LISTING as u64),
        ("MOVEMENT_NUMBERS", MOVEMENT_NUMBERS as u64),
        ("MOVEMENTS", MOVEMENTS as u64),
        ("MOST_SHEETS", MOST_SHEETS as u64),
        ("SUMMARY_LINE", SUMMARY_LINE as u64),
        ("LONGEST_SUMMARY", LONGEST_SUMMARY as u64),
        ("NOWHERE", NOWHERE),
        ("LINE", LINE),
        ("POSITION", POSITION),
        ("RISK", RISK),
        ("SHEET", SHEET),
    ];
    assert_eq!(defined, ours.map(|(name, number)| (name, number.to_string())));
    // SAFETY: nothing is lent.
    assert_eq!(unsafe { library::tsav_version() }, VERSION);
}

// What include/tsav.h says is untouched: place where a call accepts, everything else where it refuses.

const KEPT: u64 = 0x0123_4567_89AB_CDEF;

#[test]
fn untouched_by_the_block_call() {
    let call = |numbers: &[u64; BLOCK_NUMBERS]| {
        let (mut figures, mut place) = ([KEPT; BLOCK_FIGURES], [KEPT; 2]);
        // SAFETY: as in `block`.
        let answer = unsafe { library::tsav_block(numbers, &mut figures, &mut place) };
        (answer, figures, place)
    };
    assert_eq!(call(&example()), (0, EXAMPLE_FIGURES, [KEPT; 2]));
    assert_eq!(call(&[OVER; BLOCK_NUMBERS]), (7, [KEPT; BLOCK_FIGURES], [POSITION, 0]));
}

#[test]
fn untouched_by_the_shares_call() {
    let call = |numbers: &[u64; BLOCK_NUMBERS]| {
        let (mut shares, mut place) = ([KEPT; PARTS], [KEPT; 2]);
        // SAFETY: as in `shares`.
        let answer = unsafe { library::tsav_shares(numbers, &mut shares, &mut place) };
        (answer, shares, place)
    };
    assert_eq!(call(&example()), (0, EXAMPLE_SHARES, [KEPT; 2]));
    assert_eq!(call(&[0; BLOCK_NUMBERS]), (23, [KEPT; PARTS], [NOWHERE, 0]));
    assert_eq!(call(&[OVER; BLOCK_NUMBERS]), (7, [KEPT; PARTS], [POSITION, 0]));
}

#[test]
fn untouched_by_the_operational_call() {
    let call = |volumes: &[u64], general: [u64; GENERAL_NUMBERS]| {
        let (mut figure, mut place) = ([KEPT; 1], [KEPT; 2]);
        // SAFETY: as in `operational`.
        let answer =
            unsafe { library::tsav_operational(volumes.as_ptr(), volumes.len(), &general, &mut figure, &mut place) };
        (answer, figure, place)
    };
    assert_eq!(call(&[], [100, 100, 100]), (0, [13], [KEPT; 2]));
    assert_eq!(call(&[0], [0; 3]), (15, [KEPT], [NOWHERE, 0]));
    assert_eq!(call(&[], [0, 0, OVER]), (7, [KEPT], [POSITION, 2]));
}

#[test]
fn untouched_by_the_fluctuation_call() {
    let call = |row: u64, requirement: u64, face: u64| {
        let (mut figure, mut place) = ([KEPT; 1], [KEPT; 2]);
        // SAFETY: as in `fluctuation`.
        let answer = unsafe { library::tsav_fluctuation(row, requirement, face, &mut figure, &mut place) };
        (answer, figure, place)
    };
    assert_eq!(call(2, 10_000_000_000, LARGEST_AMOUNT), (0, [9_330_000_000], [KEPT; 2]));
    assert_eq!(call(7, 1, 0), (0, [1], [KEPT; 2]));
    assert_eq!(call(0, OVER, OVER), (18, [KEPT], [NOWHERE, 0]));
    assert_eq!(call(7, OVER, OVER), (7, [KEPT], [POSITION, 0]));
    assert_eq!(call(1, 0, OVER), (7, [KEPT], [POSITION, 1]));
}

#[test]
fn untouched_by_the_sheet_call() {
    let call = |sheet: &[u8], report: &mut [u8]| {
        let (mut length, mut place) = ([KEPT; 1], [KEPT; 2]);
        // SAFETY: as in `sheet`.
        let answer = unsafe {
            library::tsav_sheet(sheet.as_ptr(), sheet.len(), report.as_mut_ptr(), report.len(), &mut length, &mut place)
        };
        (answer, length, place)
    };
    let mut report = [b'#'; LONGEST_REPORT];
    assert_eq!(call(b"", &mut report), (12, [KEPT], [NOWHERE, 0]));
    assert_eq!(call(&[b' '; SHEET_LINE], &mut report), (3, [KEPT], [LINE, 1]));
    assert!(report.iter().all(|&byte| byte == b'#'));
    assert_eq!(call(WHOLE_RUN, &mut report), (0, [report_length(1) as u64], [KEPT; 2]));
}

#[test]
fn untouched_by_the_convert_call() {
    let call = |sheet: &[u8], converted: &mut [u8]| {
        let (mut length, mut place) = ([KEPT; 1], [KEPT; 2]);
        let (lent, room) = (converted.as_mut_ptr(), converted.len());
        // SAFETY: as in `convert`.
        let answer = unsafe { library::tsav_convert(sheet.as_ptr(), sheet.len(), lent, room, &mut length, &mut place) };
        (answer, length, place)
    };
    let mut converted = [b'#'; LONGEST_SHEET];
    assert_eq!(call(WHOLE_RUN, &mut converted), (20, [KEPT], [LINE, 4]));
    assert_eq!(call(IN_THOUSANDS, &mut converted[..40]), (14, [KEPT], [NOWHERE, 0]));
    assert_eq!(call(b"", &mut converted), (0, [0], [KEPT; 2]));
    assert!(converted.iter().all(|&byte| byte == b'#'));
    assert_eq!(call(IN_THOUSANDS, &mut converted), (0, [IN_THOUSANDS.len() as u64], [KEPT; 2]));
}

#[test]
fn untouched_by_the_check_call() {
    let call = |sheet: &[u8], listing: &mut [u8]| {
        let (mut length, mut place) = ([KEPT; 1], [KEPT; 2]);
        let (lent, room) = (listing.as_mut_ptr(), listing.len());
        // SAFETY: as in `check`.
        let answer = unsafe { library::tsav_check(sheet.as_ptr(), sheet.len(), lent, room, &mut length, &mut place) };
        (answer, length, place)
    };
    let mut listing = [b'#'; LONGEST_LISTING];
    assert_eq!(call(b"", &mut listing), (12, [KEPT], [NOWHERE, 0]));
    assert_eq!(call(&[b' '; SHEET_LINE], &mut listing), (3, [KEPT], [LINE, 1]));
    assert_eq!(call(UNMET, &mut listing[..79]), (14, [KEPT], [NOWHERE, 0]));
    assert_eq!(call(WHOLE_RUN, &mut listing), (0, [0], [KEPT; 2]));
    assert!(listing.iter().all(|&byte| byte == b'#'));
    assert_eq!(call(UNMET, &mut listing), (0, [80], [KEPT; 2]));
}

#[test]
fn untouched_by_the_movement_call() {
    let call = |numbers: &[u8], movements: &mut [u8]| {
        let (mut length, mut place) = ([KEPT; 1], [KEPT; 2]);
        let (lent, room) = (movements.as_mut_ptr(), movements.len());
        // SAFETY: as in `movement`.
        let answer =
            unsafe { library::tsav_movement(numbers.as_ptr(), numbers.len(), lent, room, &mut length, &mut place) };
        (answer, length, place)
    };
    let mut movements = [b'#'; MOVEMENTS];
    assert_eq!(call(b"", &mut movements), (2, [KEPT], [NOWHERE, 0]));
    assert_eq!(call(&[b' '; MOVEMENT_NUMBERS], &mut movements), (3, [KEPT], [LINE, 1]));
    assert_eq!(call(EXAMPLE_MOVEMENT, &mut movements[1..]), (14, [KEPT], [NOWHERE, 0]));
    assert!(movements.iter().all(|&byte| byte == b'#'));
    assert_eq!(call(EXAMPLE_MOVEMENT, &mut movements), (0, [MOVEMENTS as u64], [KEPT; 2]));
}

#[test]
fn untouched_by_the_quarter_call() {
    let call = |sheets: &[u8], summary: &mut [u8]| {
        let (mut length, mut place) = ([KEPT; 1], [KEPT; 2]);
        let (lent, room) = (summary.as_mut_ptr(), summary.len());
        // SAFETY: as in `quarter`.
        let answer =
            unsafe { library::tsav_quarter(sheets.as_ptr(), sheets.len(), lent, room, &mut length, &mut place) };
        (answer, length, place)
    };
    let mut summary = [b'#'; LONGEST_SUMMARY];
    assert_eq!(call(b"", &mut summary[..239]), (14, [KEPT], [NOWHERE, 0]));
    assert!(summary.iter().all(|&byte| byte == b'#'));
    assert_eq!(call(b"x", &mut summary), (0, [30], [KEPT; 2]));
    assert_eq!(call(b"", &mut summary), (0, [240], [KEPT; 2]));
}
