//! `drawn PROGRAM SEED COUNT FOLDER`: writes COUNT drawn inputs of a program into FOLDER, 0.in, 1.in and so on, and beside each what the
//! program is to print of it, by the independent calculation, 0.out and so on, and the launcher's status, 0.status. The inputs of
//! one seed are always the same.
//!
//! What document 02 promises of an answer is judged on each of them, and the last line says of how many.

use reference::*;
use std::error::Error;
use std::{env, fs, path::Path};

/// What is printed, whether that refuses the whole input, and how many promises were judged of it.
struct Answer {
    printed: Vec<u8>,
    refused: bool,
    judged: usize,
}

/// A drawn input and its answer, or what was promised of it and doesn't hold.
type Drawn = (Vec<u8>, Result<Answer, String>);

fn main() -> Result<(), Box<dyn Error>> {
    let words: Vec<String> = env::args().skip(1).collect();
    let [program, seed, count, folder] = &words[..] else {
        return Err("usage: drawn PROGRAM SEED COUNT FOLDER".into());
    };
    let draw: fn(u64, u64) -> Drawn = match program.as_str() {
        "tsav-movement" => movements,
        "tsav-check" => listings,
        "tsav-quarter" => quarters,
        _ => return Err(format!("no inputs are drawn for {program}").into()),
    };
    let (seed, count): (u64, u64) = (seed.parse()?, count.parse()?);
    let (mut accepted, mut judged) = (0, 0);
    for index in 0..count {
        let (input, answer) = draw(seed, index);
        let answer = answer.map_err(|why| format!("input {index} of seed {seed}: {why}"))?;
        accepted += usize::from(!answer.refused);
        judged += answer.judged;
        let file = |kind: &str| Path::new(folder).join(format!("{index}.{kind}"));
        fs::write(file("in"), input)?;
        fs::write(file("out"), answer.printed)?;
        fs::write(file("status"), format!("{}\n", u8::from(answer.refused)))?;
    }
    println!("{program}: {count} inputs, {accepted} accepted, {judged} judged");
    Ok(())
}

/// #111: each movement is judged.
fn movements(seed: u64, index: u64) -> Drawn {
    let input = generate::movement_input(seed, index);
    let printed = print_movements(&input);
    let answer = match movement_call(&input) {
        Err(_) => Ok(Answer { printed, refused: true, judged: 0 }),
        Ok(_) => {
            judge_movements(&input, &printed).map(|moved| Answer { printed, refused: false, judged: moved.movements })
        }
    };
    (input, answer)
}

/// #113: each listing is judged.
fn listings(seed: u64, index: u64) -> Drawn {
    let (sheet, _) = generate::check_case(seed, index);
    let printed = print_check(&sheet);
    let answer = match check_call(&sheet, &mut [0; LONGEST_LISTING]) {
        Err(_) => Ok(Answer { printed, refused: true, judged: 0 }),
        Ok(_) => judge_check(&sheet, &printed).map(|()| Answer { printed, refused: false, judged: 1 }),
    };
    (sheet, answer)
}

/// #114: each summary is judged.
fn quarters(seed: u64, index: u64) -> Drawn {
    let input = generate::quarter_input(seed, index);
    let printed = print_quarter(&input);
    let answer = match quarter_refusal(&input) {
        Some(_) => Ok(Answer { printed, refused: true, judged: 0 }),
        None => judge_quarter(&input, &printed).map(|_| Answer { printed, refused: false, judged: 1 }),
    };
    (input, answer)
}
