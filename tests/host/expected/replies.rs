//! crates/formula, crates/vector_cases, crates/cards, crates/cells and crates/format: what the programs reply to stored cases.

use crate::formats;
use crate::reads;
use crate::reference::cards::{form, read};
use crate::reference::operations::compile_and_run;
use crate::reference::program::{output, read_input};
use crate::reference::salvage::outputs;

// The program has no clock.
const TICK: u32 = 0;

pub fn of_one(name: &str) -> Result<String, String> {
    Ok(reply(&stored(name)?))
}

/// The reply of the program `cells` to one case.
pub fn of_cells(name: &str) -> Result<String, String> {
    Ok(reads::output(&read_input(&stored(name)?)))
}

/// The text of one case as it is saved.
pub fn of_format(name: &str) -> Result<String, String> {
    Ok(formats::output(&read_input(&stored(name)?).expr))
}

/// A list of cases, each followed by an empty line, and so each reply.
pub fn of_list(name: &str) -> Result<String, String> {
    Ok(blocks(&stored(name)?).into_iter().map(|case| reply(case) + "\n").collect())
}

/// The reply of the program `cards` to a file: three lines, and two more if it is refused.
pub fn of_cards(name: &str) -> Result<String, String> {
    let file = stored(name)?;
    let refusal = match read(&file) {
        Ok(cards) => return Ok(format!("answer=0\nplace=0\ncards={}\n", cards.len())),
        Err(refusal) => refusal,
    };
    let rest = &file[refusal.place..];
    let end = rest.iter().position(|b| *b == b'\n').unwrap_or(0);
    // A line that has its form is that of a card with any good lines behind it.
    let whole = [&rest[..end], b"\ntarget=\nexpr=\ncheck=00000\n"].concat();
    let number = form(&whole, 0).map_or(String::new(), |form| format!("card={}\n", form.card.number));
    let words = words_of(refusal.answer)?;
    Ok(format!("answer={}\nplace={}\ncards=0\n{number}words={words}\n", refusal.answer, refusal.place))
}

/// The cards that the program `salvage` keeps.
pub fn of_salvage(name: &str) -> Result<Vec<u8>, String> {
    Ok(outputs(&stored(name)?).kept)
}

// An answer in words: those of a file of cards by the request, a formula's own by the header.
fn words_of(answer: u32) -> Result<String, String> {
    const OF_CARDS: [&str; 3] = ["a line out of form or order", "the check differs", "the number is not above the one before"];
    if let 16..=18 = answer {
        return Ok(OF_CARDS[answer as usize - 16].into());
    }
    let header = std::fs::read_to_string("include/formula.h").map_err(|error| format!("include/formula.h: {error}"))?;
    let name = header.lines().find_map(|line| line.trim().trim_end_matches(',').strip_suffix(&format!(" = {answer}")));
    let start = format!("case {}: return \"", name.unwrap_or_default());
    let words = header.lines().find_map(|line| line.trim().strip_prefix(&start)?.strip_suffix("\";"));
    words.map(String::from).ok_or(format!("the header has no words for {answer}"))
}

/// A file under crates/.
pub fn stored(name: &str) -> Result<Vec<u8>, String> {
    std::fs::read(format!("crates/{name}")).map_err(|error| format!("crates/{name}: {error}"))
}

fn reply(case: &[u8]) -> String {
    output(read_input(case), compile_and_run, TICK)
}

// The parts of a file that each end with an empty line, without it.
fn blocks(file: &[u8]) -> Vec<&[u8]> {
    let mut found = Vec::new();
    let (mut start, mut line) = (0, 0);
    for end in (0..file.len()).filter(|i| file[*i] == b'\n') {
        if end == line {
            found.push(&file[start..line]);
            start = end + 1;
        }
        line = end + 1;
    }
    found
}
