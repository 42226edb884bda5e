//! Random files of cards, and damage to them.

use super::{cases, formulas, texts, Random};
use crate::reference::cards::Card;

/// Any cards, most of them good and with rising numbers.
pub fn cards(random: &mut Random) -> Vec<Card> {
    let most = *random.pick(&[3, 6, 6, 20, 64, 66]);
    let count = random.below(most + 1);
    let mut number = 0;
    let mut cards = Vec::new();
    for _ in 0..count {
        number += 1 + random.below((64 / count).max(1)) as u32;
        cards.push(card(random, number));
    }
    if random.one_in(6) {
        spoil(random, &mut cards);
    }
    cards
}

fn card(random: &mut Random, number: u32) -> Card {
    let expr = match random.below(40) {
        0 => texts::noise(random),
        1 => texts::long(random),
        _ => short_formula(random),
    };
    let target = if random.one_in(20) { cases::target(random) } else { cases::good_target(random) };
    Card { number, target, expr }
}

fn short_formula(random: &mut Random) -> Vec<u8> {
    loop {
        let text = formulas::formula(random);
        if text.len() < 200 {
            return text;
        }
    }
}

// A card that cannot be written, or is out of order.
fn spoil(random: &mut Random, cards: &mut [Card]) {
    if cards.is_empty() {
        return;
    }
    let at = random.below(cards.len());
    match random.below(4) {
        0 => cards[at].number = *random.pick(&[0, 1, 64, 65, 99, 100, 1_000_000, u32::MAX]),
        1 => cards[at].expr.push(b'\n'),
        2 => cards[at].target.insert(0, b'\n'),
        _ => cards[at].number = cards[random.below(cards.len())].number,
    }
}

/// The file of cards, whatever they are.
pub fn file(cards: &[Card]) -> Vec<u8> {
    cards.iter().flat_map(Card::bytes).collect()
}

// What files are damaged with.
#[rustfmt::skip]
const PIECES: [&[u8]; 14] = [
    b"\n", b"\r\n", b"\r", b"card=", b"card=1\n", b"card=65\n", b"card=07\n", b"target=", b"target=D0\n", b"expr=", b"expr=1\n",
    b"check=", b"check=00000\n", b"\0",
];

/// The file with one to three faults: bytes or lines changed, left out, put in, exchanged, or its end cut off.
pub fn damaged(random: &mut Random, file: &[u8]) -> Vec<u8> {
    let mut file = file.to_vec();
    for _ in 0..1 + random.below(3) {
        match random.below(2) {
            0 => damage_bytes(random, &mut file),
            _ => damage_lines(random, &mut file),
        }
    }
    file
}

fn damage_bytes(random: &mut Random, file: &mut Vec<u8>) {
    let at = random.below(file.len() + 1);
    let piece = *random.pick(&PIECES);
    match random.below(5) {
        0 => drop(file.splice(at..at, piece.iter().copied())),
        1 => file.truncate(at),
        _ if at == file.len() => file.push(random.byte()),
        2 => drop(file.remove(at)),
        3 => file[at] = random.byte(),
        _ => file[at] ^= 1 << random.below(8),
    }
}

fn damage_lines(random: &mut Random, file: &mut Vec<u8>) {
    let mut lines: Vec<Vec<u8>> = file.split_inclusive(|b| *b == b'\n').map(<[u8]>::to_vec).collect();
    if lines.is_empty() {
        return;
    }
    let (at, other) = (random.below(lines.len()), random.below(lines.len()));
    match random.below(5) {
        0 => drop(lines.remove(at)),
        1 => lines.insert(at, lines[other].clone()),
        2 => lines.swap(at, other),
        3 => lines[at] = random.pick(&PIECES).to_vec(),
        // A check of the right form.
        _ => lines[at] = format!("check={:05}\n", random.below(100_000)).into_bytes(),
    }
    *file = lines.concat();
}
