//! Listings of code and the words of answers: the text is the second implementation's, and no other byte is written.

use crate::library::{self, Code, Lent};
use crate::random::{bad_codes, codes, formulas, Random};
use crate::reference::code::INSTRUCTION_BYTES;
use crate::reference::listing::{Pages, LISTING_BYTES};
use crate::reference::operations::CODE_BYTES;

const SENTINEL: u8 = 0xEE;
/// The answers are 0 to 20; the numbers from here on are none.
const NO_ANSWER: u32 = 21;
const WORDS_BYTES: usize = 47;

/// Lists so many random codes, and tries as many numbers as answers.
pub fn try_listings(number: u64, seed: u64) -> Result<(), String> {
    println!("seed {seed}");
    let pages = Pages::read();
    every_answer(&pages)?;
    let (mut lines, mut answers) = (0, [0u64; 16]);
    for case in 0..number {
        let mut random = Random::new(seed, case);
        let repeat = |error| format!("{error}\nto repeat it: host listings {} {seed}", case + 1);
        let (answer, listed) = one_code(&pages, &mut random).map_err(repeat)?;
        answers[answer as usize] += 1;
        lines += listed;
        any_number(&pages, &mut random).map_err(repeat)?;
    }
    println!("{} codes listed, {lines} lines, 10: {}, 15: {}, {number} numbers as answers, 0 differences", answers[0], answers[10], answers[15]);
    Ok(())
}

// Code of a formula, or any, and how many instructions of it are meant.
fn code(random: &mut Random) -> (Vec<u8>, usize) {
    let code = match random.below(8) {
        0 => codes::border(random),
        1 => codes::two_ways(random),
        2 => bad_codes::one_operator(random),
        3 => bad_codes::one_instruction(random),
        4 => bad_codes::noise(random),
        5 | 6 => codes::accepted(random),
        _ => return compiled(random),
    };
    let code = if random.one_in(8) { bad_codes::damaged(random, &code) } else { code };
    let whole = code.len() / INSTRUCTION_BYTES;
    let meant = *random.pick(&[0, whole.saturating_sub(1), whole + 1, usize::MAX]);
    let instructions = if random.one_in(8) { meant } else { whole };
    (code, instructions)
}

fn compiled(random: &mut Random) -> (Vec<u8>, usize) {
    let mut code = Lent::new(&[SENTINEL; CODE_BYTES], 0);
    let report = library::FULL.compile(&Lent::new(&formulas::formula(random), 0), &mut code);
    (code.content().to_vec(), report.count as usize)
}

// The answer, and how many lines were listed.
fn one_code(pages: &Pages, random: &mut Random) -> Result<(u32, usize), String> {
    let (code, instructions) = code(random);
    let room = if random.one_in(16) { random.below(LISTING_BYTES) } else { LISTING_BYTES + random.below(2) };
    let mut text = Lent::new(&vec![SENTINEL; room], random.below(8));
    let lent = Lent::new(&code, random.below(8));
    let found = library::listing(Code { lent: &lent, instructions }, &mut text);
    let expected = pages.listing(&code, instructions, room);
    let (answer, listed) = (expected.as_ref().err().copied().unwrap_or(0), expected.unwrap_or_default());
    let mut wanted = vec![SENTINEL; room];
    wanted[..listed.len()].copy_from_slice(listed.as_bytes());
    let stand = text.guards_stand() && lent.guards_stand() && lent.content() == code;
    if (found.answer, found.length as usize) != (answer, listed.len()) || text.content() != wanted || !stand {
        let shown = String::from_utf8_lossy(&text.content()[..room.min(listed.len() + 64)]).into_owned();
        return Err(format!("{instructions} instructions of {code:?}\n{found:?}, expected {answer}\n{listed}\n{shown}"));
    }
    Ok((answer, listed.lines().count()))
}

// The words by the library, for a buffer of any size: as many as fit, with sentinels behind them.
fn same_words(pages: &Pages, answer: u32, room: usize) -> Result<(), String> {
    let expected = pages.words(answer).as_bytes();
    let mut text = Lent::new(&vec![SENTINEL; room], room % 8);
    let found = library::words(answer, &mut text);
    let mut wanted: Vec<u8> = expected.iter().copied().take(room).collect();
    wanted.resize(room, SENTINEL);
    let same = found as usize == expected.len() && text.content() == wanted && text.guards_stand();
    same.then_some(()).ok_or_else(|| format!("words of {answer} in {room} bytes: {found}, {}", text.content().escape_ascii()))
}

fn every_answer(pages: &Pages) -> Result<(), String> {
    for answer in 0..NO_ANSWER {
        if pages.words(answer).is_empty() || pages.words(answer).len() > WORDS_BYTES {
            return Err(format!("docs/ANSWERS.md: the words of {answer}"));
        }
    }
    (0..2 * NO_ANSWER).try_for_each(|answer| (0..WORDS_BYTES + 8).try_for_each(|room| same_words(pages, answer, room)))
}

fn any_number(pages: &Pages, random: &mut Random) -> Result<(), String> {
    let answer = if random.one_in(2) { random.below(2 * NO_ANSWER as usize) as u32 } else { random.word() };
    same_words(pages, answer, random.below(WORDS_BYTES + 8))
}
