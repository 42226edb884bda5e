//! Files of cards: four lines a card. Reading them, and what can be saved of a spoiled file.

use super::emit;
use super::operations::read_target;
use crate::header::{CardWords, Cards};

const MODULUS: u32 = 65521;

// Places in the file.
#[derive(Clone, Copy)]
struct Span {
    start: usize,
    end: usize,
}

struct Form {
    number: u32,
    target: Span,
    expr: Span,
    check: u32,
    end: usize,
}

// The value of the line with a key at a place.
fn field(file: &[u8], at: usize, key: &[u8]) -> Option<Span> {
    let rest = file.get(at..)?.strip_prefix(key)?;
    let length = rest.iter().position(|b| *b == b'\n')?;
    let start = at + key.len();
    Some(Span { start, end: start + length })
}

fn form(file: &[u8], at: usize) -> Option<Form> {
    let number = field(file, at, b"card=")?;
    let target = field(file, number.end + 1, b"target=")?;
    let expr = field(file, target.end + 1, b"expr=")?;
    let check = field(file, expr.end + 1, b"check=")?;
    let number = match file[number.start..number.end] {
        [a @ b'1'..=b'9'] => (a - b'0') as u32,
        [a @ b'1'..=b'6', b @ b'0'..=b'9'] => 10 * (a - b'0') as u32 + (b - b'0') as u32,
        _ => return None,
    };
    let digits = &file[check.start..check.end];
    if number > 64 || digits.len() != 5 || !digits.iter().all(u8::is_ascii_digit) {
        return None;
    }
    let sum = digits.iter().fold(0, |n, d| 10 * n + (d - b'0') as u32);
    Some(Form { number, target, expr, check: sum, end: check.end + 1 })
}

// The answer of a card in form that follows a number, 0 if it is good.
fn judged(file: &[u8], last: u32, form: &Form) -> u32 {
    let lines = &file[form.target.start - 7..form.expr.end + 1];
    // a position stays below the modulus as long as the lines do, so that a step fits 32 bits
    let step = |(sum, position): (u32, u32), b: &u8| ((sum + position * *b as u32) % MODULUS, (position + 1) % MODULUS);
    if lines.iter().fold((0, 1), step).0 != form.check {
        return 17;
    }
    if form.number <= last {
        return 18;
    }
    if read_target(&file[form.target.start..form.target.end]).is_none() {
        return 2;
    }
    match emit::compile(&file[form.expr.start..form.expr.end], 0) {
        Ok(_) => 0,
        Err(refusal) => refusal.answer,
    }
}

#[inline(never)]
pub fn read(file: &[u8]) -> Cards {
    let none = Cards { answer: 0, place: 0, count: 0, cards: [CardWords::default(); 64] };
    let refused = |answer, place: usize| Cards { answer, place: place as u32, ..none.clone() };
    let mut found = none.clone();
    let (mut at, mut last) = (0, 0);
    while at < file.len() {
        let Some(form) = form(file, at) else {
            return refused(16, at);
        };
        let answer = judged(file, last, &form);
        if answer != 0 {
            return refused(answer, at);
        }
        found.cards[found.count as usize] = CardWords {
            number: form.number,
            target: form.target.start as u32,
            target_len: (form.target.end - form.target.start) as u32,
            expr: form.expr.start as u32,
            expr_len: (form.expr.end - form.expr.start) as u32,
        };
        found.count += 1;
        last = form.number;
        at = form.end;
    }
    found
}
