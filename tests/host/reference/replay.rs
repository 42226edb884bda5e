//! A night's log replayed with a file of cards: lines that change a cell, set the tick or run a card.

use super::cards::{read, Found, CARDS};
use super::operations::{compile_and_run, CODE_BYTES};
use super::program::{pattern_bits, printed, set_cell};
use super::text::Refusal;

/// A call goes on only while so many bytes are left of those that it is lent.
pub const LINE_ROOM: usize = 64;

/// The byte of the log that is next, the tick, and whether the replay is over.
#[derive(Clone, Copy, Default, PartialEq, Debug)]
pub struct State {
    pub at: usize,
    pub tick: u32,
    pub done: bool,
}

/// What one call prints, into so many bytes, on an old image of the right size.
pub fn call(file: &[u8], log: &[u8], memory: &mut [u8], room: usize, state: &mut State) -> String {
    if state.done || room < LINE_ROOM {
        return String::new();
    }
    let cards = match read(file) {
        Ok(cards) => cards,
        Err(refusal) => {
            state.done = true;
            return refused(refusal);
        }
    };
    if state.at == 0 {
        memory.fill(0);
        state.tick = 0;
    }
    lines(file, &cards, log, memory, room, state)
}

fn lines(file: &[u8], cards: &[Found], log: &[u8], memory: &mut [u8], room: usize, state: &mut State) -> String {
    let mut text = String::new();
    while state.at < log.len() {
        if room - text.len() < LINE_ROOM {
            return text;
        }
        let rest = &log[state.at..];
        let end = rest.iter().position(|b| *b == b'\n');
        match end.and_then(|end| line(file, cards, &rest[..end], memory, &mut state.tick)) {
            None => {
                state.done = true;
                return text + &refused(Refusal { answer: 16, place: state.at });
            }
            Some(told) => text += &told,
        }
        state.at += end.unwrap_or_default() + 1;
    }
    state.done = true;
    text
}

fn refused(refusal: Refusal) -> String {
    format!("answer={}\nplace={}\n", refusal.answer, refusal.place)
}

// What a line prints; nothing for one that is bad.
fn line(file: &[u8], cards: &[Found], line: &[u8], memory: &mut [u8], tick: &mut u32) -> Option<String> {
    let equals = line.iter().position(|b| *b == b'=')?;
    let (key, value) = (&line[..equals], std::str::from_utf8(&line[equals + 1..]).ok()?);
    match key {
        b"tick" => *tick = pattern_bits(value)?,
        b"run" => {
            let number = (1..=CARDS).find(|n| n.to_string() == value)?;
            return Some(run(file, cards, number, memory, *tick));
        }
        // The form that is printed has no small digit.
        _ if value.contains(|c| ('a'..='f').contains(&c)) => return None,
        _ => set_cell(memory, key, value.as_bytes())?,
    }
    Some(String::new())
}

fn run(file: &[u8], cards: &[Found], number: u32, memory: &mut [u8], tick: u32) -> String {
    let Some(card) = cards.iter().find(|card| card.number == number) else { return format!("unknown={number}\n") };
    let (mut code, mut index_code) = (vec![0; CODE_BYTES], vec![0; CODE_BYTES]);
    let (target, expr) = (&file[card.target.clone()], &file[card.expr.clone()]);
    let report = compile_and_run(target, expr, memory, [&mut code, &mut index_code], tick);
    printed(&report, memory)
}
