//! crates/card_cases: files of cards, good ones and those that break a rule, and cards that are written.

use crate::reference::cards::{check, read, write, Card};
use crate::reference::text::Refusal;

// The tables of crates/card_cases/src/main.rt.
const END: u8 = 30;
const OTHERS: [u8; 5] = [b'\n', b'0', b'=', b'k', 255];
const AGAIN: usize = 8192;
const TEXTS: &[u8] = b"D0R1 + 1\nR2";
const ROOM: usize = 96;
const WRITES: [(&[u32], usize); 25] = [
    (&[9, 0, 2, 2, 6], 64),
    (&[9, 0, 2, 2, 6], 41),
    (&[9, 0, 2, 2, 6], 40),
    (&[9, 0, 2, 2, 6, 1, 1, 1, 1], 64),
    (&[65, 0, 2, 2, 6], 64),
    (&[0, 0, 2, 2, 6], 64),
    (&[u32::MAX, 0, 2, 2, 6], 50),
    (&[u32::MAX, 0, 2, 2, 6], 49),
    (&[9, 7, 2, 2, 6], 64),
    (&[9, 0, 2, 2, 8], 64),
    (&[9, 9, u32::MAX, 2, 6], 64),
    (&[9, u32::MAX, 2, 2, 6], 64),
    (&[9, 0, 2, 11, 1], 64),
    (&[9, 0, 2, 3, 2], 64),
    (&[9, 0, 2], 0),
    (&[9, 0, 2, 2, 6, 10, 9, 2, 2, 2], 79),
    (&[9, 0, 2, 2, 6, 10, 9, 2, 2, 2], 78),
    (&[9, 0, 2, 2, 6, 9, 9, 2, 2, 2], 96),
    (&[9, 0, 2, 2, 6, 10, 9, 2, 5, 1], 96),
    (&[9, 0, 2, 2, 6, 8, 9, 2, 5, 1], 96),
    (&[9, 0, 2, 2, 6, 9, 7, 2, 2, 2], 96),
    (&[9, 0, 2, 2, 6, 9, 9, 2, 7, 2], 96),
    (&[9, 0, 2, 2, 6, 65, 9, 2, 5, 1], 96),
    (&[9, 0, 2, 2, 6, 8, 9, 2, 5, 1], 76),
    (&[0, 0, 2, 5, 1, 9, 7, 2, 2, 6], 96),
];

/// What the program reads, and what it prints.
pub fn files() -> (Vec<u8>, String) {
    let files = all_files();
    let input = files.iter().flat_map(|file| [&file[..], &[END]].concat()).collect();
    let mut printed: String = files.iter().map(|file| one_file(file)).collect();
    let first = &files[0];
    for end in 0..first.len() {
        printed += &format!("cut{}\n", shown(&read(&first[..end])));
    }
    for at in 0..first.len() {
        printed += "byte";
        for other in OTHERS {
            let mut file = first.clone();
            file[at] = other;
            printed += &shown(&read(&file));
        }
        printed += "\n";
    }
    printed += &WRITES.map(|(words, room)| written(words, room)).concat();
    (input, printed)
}

fn answer<T>(result: &Result<T, Refusal>) -> (u32, usize) {
    result.as_ref().err().map_or((0, 0), |refusal| (refusal.answer, refusal.place))
}

fn shown<T>(result: &Result<T, Refusal>) -> String {
    let (answer, place) = answer(result);
    format!(" {answer} {place}")
}

fn shown_written(result: &Result<Vec<u8>, Refusal>) -> String {
    format!("written{} {}\n", shown(result), result.as_ref().map_or(0, Vec::len))
}

// A reading, the cards found, and the same cards written.
fn one_file(file: &[u8]) -> String {
    let found = read(file);
    let cards = found.clone().unwrap_or_default();
    let mut printed = format!("read{} {}\n", shown(&found), cards.len());
    for card in &cards {
        let (target, expr) = (&card.target, &card.expr);
        printed += &format!("card {} {} {} {} {}\n", card.number, target.start, target.len(), expr.start, expr.len());
    }
    let cards: Vec<Card> = cards
        .into_iter()
        .map(|card| Card { number: card.number, target: file[card.target].into(), expr: file[card.expr].into() })
        .collect();
    printed + &shown_written(&write(&cards, AGAIN))
}

// A writing, and the buffer of dots after it.
fn written(words: &[u32], room: usize) -> String {
    let text = |start: u32, length: u32| TEXTS.iter().skip(start as usize).take(length as usize).copied().collect();
    let card = |w: &[u32]| Card { number: w[0], target: text(w[1], w[2]), expr: text(w[3], w[4]) };
    let cards: Vec<Card> = words.chunks_exact(5).map(card).collect();
    let result = write(&cards, room);
    let mut buffer = result.clone().unwrap_or_default();
    buffer.resize(ROOM, b'.');
    shown_written(&result) + &String::from_utf8_lossy(&buffer) + "\n"
}

// The four lines of a card whose check is right, whatever the number and the texts are.
fn lines(number: &str, target: &str, expr: &str) -> String {
    format!("card={number}\ntarget={target}\nexpr={expr}\ncheck={}\n", check(target.as_bytes(), expr.as_bytes()))
}

// The first is small: it is read with every byte replaced.
fn all_files() -> Vec<Vec<u8>> {
    let good = lines("1", "R0", "(D1 + 2) / 4.0");
    let second = lines("2", "D[V10 + 32]", "D0 * 8");
    let last = lines("64", "C3", "D4 > 100");
    let wrong_check = second.replace(&second[second.len() - 6..], "00000\n");
    let mut files = vec![[&good[..], &second].concat(), String::new(), good.clone(), [&good[..], &second, &last].concat()];
    // Each of these as the only card, and between two good ones.
    let bad = [
        wrong_check.clone(),
        second.replace("8\n", "9\n"),
        second.replace("target=D", "target=C"),
        second.replace("card=2\n", "card=1\n"),
        second.replace("card=2\n", "card=0\n"),
        second.replace("card=2\n", "card=02\n"),
        second.replace("card=2\n", "card=65\n"),
        second.replace("card=2\n", "card=264\n"),
        second.replace("card=2\n", "card= 2\n"),
        second.replace("card=2\n", "card=2 \n"),
        second.replace("card=2\n", "card=2\r\n"),
        second.replace("card=2\n", "card=\n"),
        second.replace("card=2\n", "Card=2\n"),
        second.replace("card=2\n", ""),
        second.replace("card=2\n", "card=2\n\n"),
        second.replace("\ncheck=", "\ncheck=0"),
        second.replace("\ncheck=", "\ncheck= "),
        second.replace("\ncheck=", "\n"),
        second.replace("target=", "expr=").replacen("expr=D0", "target=D0", 1),
        second.replace("expr=D0 * 8\n", "expr=D0 * 8\nexpr=D0 * 8\n"),
        second.replace("expr=D0 * 8\n", ""),
        second.replace("D0 * 8\n", "D0 * 8\r\n"),
        second[..second.len() - 1].into(),
        second[..second.len() - 2].to_string() + "\n",
        second.clone() + "\n",
        second.clone() + "end\n",
        second.replace(&second[second.len() - 6..], "65521\n"),
        second.replace(&second[second.len() - 6..], "99999\n"),
        lines("2", "", "1"),
        lines("2", "X0", "1"),
        lines("2", "D[0] ", "1"),
        lines("2", "D0\r", "1"),
        lines("2", "D[1.5 & 1]", "$"),
        lines("2", "D0", ""),
        lines("2", "D0", "1\r"),
        lines("2", "D0", "2147483648"),
        lines("2", "D0", "D256"),
        lines("2", "D0", "1 2"),
        lines("2", "D0", "((((((((("),
        lines("2", "D0", "1.5 & 1"),
        lines("1", "D0", "1.5 & 1"),
        lines("1", "D256", "1").replace("D256", "D257"),
        lines("2", &"D".repeat(1025), "1"),
        lines("2", &"D".repeat(1025), "1").replace("expr=1\n", "expr=2\n"),
        lines("2", "D0", &" ".repeat(1025)),
    ];
    for card in bad.into_iter().chain(together()) {
        files.push(card.clone());
        files.push([&good[..], &card, &last].concat());
    }
    // Two refused cards: the first decides.
    files.push([&good[..], &lines("2", "D0", "$"), &wrong_check].concat());
    files.push([&good[..], &wrong_check, &lines("2", "D0", "$")].concat());
    files.push([&last[..], &good].concat());
    files.push([&good[..], &last, &last].concat());
    files.into_iter().map(String::into_bytes).collect()
}

// Behind the card 1: a number that is not above it, a formula that is refused, a wrong check and a last line without its end, each two of them and more.
fn together() -> Vec<String> {
    let card = |spoilt: u32| {
        let is = |bit: u32| spoilt >> bit & 1 == 1;
        let (number, expr) = (if is(0) { "1" } else { "2" }, if is(1) { "D0 2" } else { "D0 * 2" });
        let whole = lines(number, "D5", expr);
        let checked = if is(2) { whole.replace(&whole[whole.len() - 6..], "00000\n") } else { whole };
        checked[..checked.len() - usize::from(is(3))].to_string()
    };
    (1..16u32).filter(|spoilt| spoilt.count_ones() > 1).map(card).collect()
}
