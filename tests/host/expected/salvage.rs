//! crates/salvage_cases: spoiled files of cards, and both outputs of each.

use crate::reference::cards::Card;
use crate::reference::salvage::{outputs, salvage};

// The tables of crates/salvage_cases/src/main.rt.
const END: u8 = 30;
const ROOM: usize = 2048;
const SHOWN: usize = 8;

/// What the program reads, and what it prints.
pub fn files(story: &[u8]) -> (Vec<u8>, Vec<u8>) {
    let files = all_files(story);
    let input = files.iter().flat_map(|file| [&file[..], &[END]].concat()).collect();
    (input, files.iter().flat_map(|file| one_file(file)).collect())
}

// Both outputs as far as they are asked for, in buffers of dots.
fn shown(file: &[u8], rooms: (usize, usize), bytes: Option<usize>) -> Vec<u8> {
    let found = salvage(file, rooms.0, rooms.1);
    let answer = if found.is_some() { 0 } else { 10 };
    let found = found.unwrap_or_default();
    let mut printed = format!("salvage {answer} {} {}\n", found.kept.len(), found.named.len()).into_bytes();
    for mut output in [found.kept, found.named] {
        output.resize(bytes.unwrap_or(output.len()), b'.');
        printed.extend([&output[..], b"\n"].concat());
    }
    printed
}

fn one_file(file: &[u8]) -> Vec<u8> {
    let found = outputs(file);
    let (room, other) = (found.kept.len(), found.named.len());
    let mut printed = shown(file, (ROOM, ROOM), None);
    let rooms =
        [Some((room, other)), room.checked_sub(1).map(|room| (room, other)), other.checked_sub(1).map(|other| (room, other))];
    for rooms in rooms.into_iter().flatten() {
        printed.extend(shown(file, rooms, Some(SHOWN)));
    }
    printed
}

fn card(number: u32, target: &str, expr: &str) -> Vec<u8> {
    Card { number, target: target.into(), expr: expr.into() }.bytes()
}

// The check's last digit is another.
fn spoiled(card: &[u8]) -> Vec<u8> {
    let mut card = card.to_vec();
    let at = card.len() - 2;
    card[at] ^= 1;
    card
}

fn all_files(story: &[u8]) -> Vec<Vec<u8>> {
    let (one, five, nine) = (card(1, "D0", "1"), card(5, "R1", "D0 / 2"), card(9, "C3", "D0 > 1"));
    let mut files = vec![
        story.to_vec(),
        outputs(story).kept,
        Vec::new(),
        b"no card\n".to_vec(),
        [b"before\n", &one[..]].concat(),
        [&one[..], &card(1, "D1", "2"), &five].concat(),
        [&one[..], &spoiled(&nine), &five].concat(),
        [&one[..], &nine, &five].concat(),
        [&one[..], &five, b"\n", &nine].concat(),
        [&one[..], &spoiled(&five), b"stray\n", &nine].concat(),
        [&one[..], &card(2, "X0", "1"), &card(3, "D0", "1 +"), &card(4, "D0", "1.5 & 1"), &five].concat(),
        [&one[..], b"card=4\ntarget=D0\n", &five].concat(),
        [&one[..], b"x card=4\n", &five].concat(),
        [&one[..], &five[..five.len() - 1]].concat(),
        [&one[..], b"\0\r\n", &five].concat(),
    ];
    // Every beginning of a small file.
    let small = [&one[..], &five].concat();
    files.extend((1..small.len()).map(|end| small[..end].to_vec()));
    files
}
