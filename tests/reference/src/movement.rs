//! #111: by how much the reported K of a block moves when one IR(i) is raised by t cents.

use crate::big::Big;
use crate::block::terms;
use crate::demand3::{cent, exact_k};
use crate::sheet::number;
use crate::*;

/// "18 lines, each an amount in 14 columns and a line feed, the block call's 17 numbers and then t".
const MOVEMENT_LINES: usize = BLOCK_NUMBERS + 1;
const MOVEMENT_LINE_BYTES: usize = 15;
pub const MOVEMENT_INPUT_BYTES: usize = MOVEMENT_LINES * MOVEMENT_LINE_BYTES;

/// The block and t.
type Input = ([u64; BLOCK_NUMBERS], u64);

/// What is answered: of each risk its movement, or 22 "with its risk"; or a refusal of the whole.
pub fn movement_call(input: &[u8]) -> Result<[Result<i64, Refusal>; RISKS], Refusal> {
    let (numbers, t) = read_input(input)?;
    // "then what the block call refuses"
    let k = k_of(&numbers)?;
    let movement = |risk: usize| {
        // "a raise that takes IR(i) above the limit"
        let raised = raised(&numbers, risk, t).ok_or(Refusal::at_risk(22, risk))?;
        Ok(k_of(&raised)? as i64 - k as i64)
    };
    Ok(std::array::from_fn(|at| movement(at + 1)))
}

/// "another length is refused as 2, a broken line as 3". The amounts have 14 columns, so that none is above the limit.
fn read_input(input: &[u8]) -> Result<Input, Refusal> {
    if input.len() != MOVEMENT_INPUT_BYTES {
        return Err(Refusal::nowhere(2));
    }
    let mut amounts = [0; MOVEMENT_LINES];
    for (at, line) in input.chunks(MOVEMENT_LINE_BYTES).enumerate() {
        let (field, end) = line.split_at(MOVEMENT_LINE_BYTES - 1);
        let sound = number(field).filter(|_| end == b"\n");
        amounts[at] = sound.ok_or(Refusal::at_line(3, at + 1))?;
    }
    let [numbers @ .., t] = amounts;
    Ok((numbers, t))
}

/// The reported K.
fn k_of(numbers: &[u64; BLOCK_NUMBERS]) -> Result<u64, Refusal> {
    block_call(numbers).map(|[_, _, _, _, k, ..]| k)
}

/// "if one IR(i) is raised by t cents, all else kept"; none where it is above the limit.
fn raised(numbers: &[u64; BLOCK_NUMBERS], risk: usize, t: u64) -> Option<[u64; BLOCK_NUMBERS]> {
    let mut raised = *numbers;
    raised[2 * (risk - 1)] += t;
    (raised[2 * (risk - 1)] <= LARGEST_AMOUNT).then_some(raised)
}

/// What the program is to print: seven lines, or the REF line of a refusal alone.
pub fn print_movements(input: &[u8]) -> Vec<u8> {
    risk_lines(input).unwrap_or_else(Refusal::line)
}

/// The seven lines in lent room; what refuses the whole refuses the call.
pub fn movement_lines(input: &[u8], movements: &mut [u8]) -> Result<usize, Refusal> {
    into_room(&risk_lines(input)?, movements)
}

fn risk_lines(input: &[u8]) -> Result<Vec<u8>, Refusal> {
    let movements = movement_call(input)?;
    Ok((1..).zip(movements).flat_map(|(risk, movement)| movement_line(risk, movement)).collect())
}

/// "a report line, MOV, 0 and the risk, a minus right before a fall"; or the REF line "in that MOV line's place".
fn movement_line(risk: usize, movement: Result<i64, Refusal>) -> Vec<u8> {
    match movement {
        Ok(movement) => {
            let line = format!("MOV  0 {risk:>2} {movement:>18}\n").into_bytes();
            assert_eq!(line.len(), REPORT_LINE_BYTES);
            line
        }
        Err(refusal) => refusal.line(),
    }
}

/// What was judged of printed movements.
#[derive(Clone, Copy, Debug, Default, PartialEq, Eq)]
pub struct Moved {
    /// Lines with a movement, and those of them where the brackets of the exact K decide.
    pub movements: usize,
    pub decided: usize,
}

/// Of an accepted input and what was printed of it: "the exact K moves by at most t either way", which the brackets of demand 3
/// decide, and "the reported K by less than t + 2".
pub fn judge_movements(input: &[u8], printed: &[u8]) -> Result<Moved, String> {
    let (numbers, t) = read_input(input).map_err(|refusal| format!("refused: {refusal:?}"))?;
    let mut moved = Moved::default();
    for (risk, line) in (1..).zip(printed.chunks(REPORT_LINE_BYTES)) {
        let Some(raised) = raised(&numbers, risk, t) else { continue };
        let text = std::str::from_utf8(line).map_err(|_| format!("risk {risk}: no text"))?;
        let beginning = format!("MOV  0 {risk:>2} ");
        let movement = text.strip_prefix(&beginning).and_then(|rest| rest.trim().parse::<i64>().ok());
        let movement = movement.ok_or(format!("risk {risk} has no movement"))?;
        if movement.unsigned_abs() >= t + 2 {
            return Err(format!("risk {risk}: the reported K moves by {movement}, which isn't less than {t} + 2"));
        }
        moved.movements += 1;
        moved.decided += usize::from(judge_exact(&numbers, &raised, t).map_err(|why| format!("risk {risk}: {why}"))?);
    }
    Ok(moved)
}

/// Whether the brackets of the two exact K decide that they are at most t apart.
fn judge_exact(one: &[u64; BLOCK_NUMBERS], two: &[u64; BLOCK_NUMBERS], t: u64) -> Result<bool, String> {
    if t == 0 {
        return Ok(one == two);
    }
    let bracket = |numbers| exact_k(&terms(numbers)).ok_or("no d fits");
    let ((low, high), (raised_low, raised_high)) = (bracket(one)?, bracket(two)?);
    let t = Big::from(u128::from(t)) * cent();
    if raised_low > high + t || low > raised_high + t {
        return Err("the exact K moves by more than t".into());
    }
    Ok(raised_high <= low + t && high <= raised_low + t)
}
