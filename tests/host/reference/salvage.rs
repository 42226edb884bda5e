//! What is kept of a spoiled file of cards, and what is left out.

use std::ops::Range;

use super::cards::{form, judged};

/// A part of a file, with the number of the card that is kept or the answer with which it is left out.
#[derive(Clone, PartialEq, Debug)]
pub struct Part {
    pub range: Range<usize>,
    pub answer: Result<u32, u32>,
}

/// The kept cards, and the names of the parts left out.
#[derive(Clone, PartialEq, Debug, Default)]
pub struct Outputs {
    pub kept: Vec<u8>,
    pub named: Vec<u8>,
}

// The first byte begins a part, and so does each line that begins `card=`.
fn begins(file: &[u8], at: usize) -> bool {
    at == 0 || file[at - 1] == b'\n' && file[at..].starts_with(b"card=")
}

fn part_answer(part: &[u8], last: u32) -> Result<u32, u32> {
    let form = form(part, 0).filter(|form| form.end == part.len()).ok_or(16_u32)?;
    judged(part, last, &form).map_or(Ok(form.card.number), Err)
}

/// The parts in order, each judged behind the last kept card.
pub fn parts(file: &[u8]) -> Vec<Part> {
    let starts: Vec<usize> = (0..file.len()).filter(|at| begins(file, *at)).collect();
    let ends = starts.iter().copied().skip(1).chain([file.len()]);
    let mut last = 0;
    let mut parts = Vec::new();
    for (start, end) in starts.iter().copied().zip(ends) {
        let answer = part_answer(&file[start..end], last);
        last = answer.unwrap_or(last);
        parts.push(Part { range: start..end, answer });
    }
    parts
}

pub fn outputs(file: &[u8]) -> Outputs {
    let mut outputs = Outputs::default();
    for Part { range, answer } in parts(file) {
        match answer {
            Ok(_) => outputs.kept.extend(&file[range]),
            Err(answer) => {
                let name = format!("first={}\nlength={}\nanswer={answer}\n", range.start, range.len());
                outputs.named.extend(name.as_bytes());
            }
        }
    }
    outputs
}

/// Both outputs, or nothing if either is longer than its room: answer 10.
pub fn salvage(file: &[u8], room: usize, other: usize) -> Option<Outputs> {
    Some(outputs(file)).filter(|outputs| outputs.kept.len() <= room && outputs.named.len() <= other)
}
