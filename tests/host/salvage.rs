//! Spoiled files of cards by both implementations, and what is promised of the salvage: CARDS.md's story, small ends, and random damage.

use crate::header::Salvaged;
use crate::library::{self, Lent};
use crate::random::{cards as any, Random};
use crate::reference::cards::{read, Card};
use crate::reference::salvage::{outputs, parts, salvage, Outputs};

const SENTINEL: u8 = 0xC3;

/// Compares the fixed cases and so many random files.
pub fn try_salvage(number: u64, seed: u64) -> Result<(), String> {
    println!("seed {seed}");
    story()?;
    small_ends()?;
    let (mut kept, mut named) = (0, 0);
    for case in 0..number {
        let mut random = Random::new(seed, case);
        let repeat = |error| format!("{error}\nto repeat it: host salvage {} {seed}", case + 1);
        let file = random_file(&mut random);
        let found = promised(&file).map_err(repeat)?;
        kept += parts(&found.kept).len();
        named += parts(&file).len() - parts(&found.kept).len();
        spared(&mut random).map_err(repeat)?;
    }
    println!("{number} random files salvaged, {kept} cards kept, {named} parts named, 0 differences");
    Ok(())
}

fn hold(condition: bool, what: &str, file: &[u8]) -> Result<(), String> {
    condition.then_some(()).ok_or_else(|| format!("{what}: {}", file.escape_ascii()))
}

fn resized(bytes: &[u8], room: usize) -> Vec<u8> {
    let mut bytes = bytes.to_vec();
    bytes.resize(room, SENTINEL);
    bytes
}

// Salvages by both into buffers of sentinels.
fn compare(file: &[u8], room: usize, other: usize) -> Result<Option<Outputs>, String> {
    let expected = salvage(file, room, other);
    let lent = Lent::new(file, file.len() % 8);
    let mut kept = Lent::new(&vec![SENTINEL; room], room % 8);
    let mut named = Lent::new(&vec![SENTINEL; other], other % 8);
    let result = library::salvage(&lent, &mut kept, &mut named);
    let words = match &expected {
        Some(outputs) => Salvaged { answer: 0, kept: outputs.kept.len() as u64, named: outputs.named.len() as u64 },
        None => Salvaged { answer: 10, kept: 0, named: 0 },
    };
    let written = expected.clone().unwrap_or_default();
    let guards = lent.guards_stand() && kept.guards_stand() && named.guards_stand() && lent.content() == file;
    let same = kept.content() == resized(&written.kept, room) && named.content() == resized(&written.named, other);
    hold(guards && same && result == words, &format!("rooms {room} and {other}, expected {expected:?}, got {result:?}"), file)?;
    Ok(expected)
}

// Every promise that one file shows, with rooms of the right size, larger, and a byte short.
fn promised(file: &[u8]) -> Result<Outputs, String> {
    let found = outputs(file);
    let (room, other) = (found.kept.len(), found.named.len());
    hold(room <= file.len() && other <= 6 * file.len() + 64, "an output is longer than the header says", file)?;
    compare(file, room + 9, other + 9)?;
    hold(compare(file, room, other)?.is_some(), "what fits is 10", file)?;
    if room > 0 {
        hold(compare(file, room - 1, other)?.is_none(), "a kept output a byte short is not 10", file)?;
    }
    if other > 0 {
        hold(compare(file, room, other - 1)?.is_none(), "a named output a byte short is not 10", file)?;
    }
    let all = parts(file);
    let covered: Vec<u8> = all.iter().flat_map(|part| file[part.range.clone()].to_vec()).collect();
    hold(covered == file, "the parts do not cover the file once", file)?;
    hold(read(&found.kept).is_ok(), "the kept cards are no good file", file)?;
    let again = outputs(&found.kept);
    hold(again.kept == found.kept && again.named.is_empty(), "a second pass leaves something out", file)?;
    hold(read(file).is_err() || found.kept == file && other == 0, "a good file is not kept as it is", file)?;
    Ok(found)
}

fn random_file(random: &mut Random) -> Vec<u8> {
    let mut file = any::file(&any::cards(random));
    for _ in 0..random.below(4) {
        file = any::damaged(random, &file);
    }
    file
}

// Good cards with spoiled ones among them: the good ones are kept, the others named.
fn spared(random: &mut Random) -> Result<(), String> {
    let cards = any::cards(random);
    if read(&any::file(&cards)).is_err() {
        return Ok(());
    }
    let (mut file, mut kept, mut named) = (Vec::new(), Vec::new(), String::new());
    for card in &cards {
        let good = card.bytes();
        let first = file.len();
        if random.one_in(3) {
            let (bytes, answer) = spoiled(random, &good);
            named += &format!("first={first}\nlength={}\nanswer={answer}\n", bytes.len());
            file.extend(bytes);
        } else {
            kept.extend(&good);
            file.extend(good);
        }
    }
    let found = promised(&file)?;
    hold(found.kept == kept && found.named == named.as_bytes(), "a spoiled card costs another", &file)
}

// A check that is wrong, or a stray line.
fn spoiled(random: &mut Random, card: &[u8]) -> (Vec<u8>, u32) {
    let mut bytes = card.to_vec();
    let last = bytes.len() - 2;
    match random.below(3) {
        0 => {
            bytes[last] = if bytes[last] == b'0' { b'1' } else { b'0' };
            (bytes, 17)
        }
        1 => {
            bytes.extend(b"\n");
            (bytes, 16)
        }
        _ => {
            bytes[last] = if bytes[last] == b'0' { b'1' } else { b'0' };
            bytes.extend(b"stray\n");
            (bytes, 16)
        }
    }
}

fn story() -> Result<(), String> {
    let file = std::fs::read("crates/salvage/stdin").map_err(|error| error.to_string())?;
    let wanted = "first=49\nlength=41\nanswer=17\nfirst=90\nlength=41\nanswer=16\nfirst=131\nlength=46\nanswer=18\n";
    hold(promised(&file)?.named == wanted.as_bytes(), "the story is named otherwise", &file)?;
    for end in 0..file.len() {
        promised(&file[..end])?;
    }
    Ok(())
}

fn small_ends() -> Result<(), String> {
    let card = |number| Card { number, target: b"D0".to_vec(), expr: b"1".to_vec() }.bytes();
    let mut higher = card(9);
    let at = higher.len() - 2;
    higher[at] ^= 1;
    for file in [
        Vec::new(),
        b"\n".to_vec(),
        b"card=".to_vec(),
        b"no card\n".to_vec(),
        [&b"before\n"[..], &card(1)].concat(),
        [card(1), card(1)].concat(),
        [higher, card(5)].concat(),
        [card(9), card(5)].concat(),
        [&card(1)[..], b"x card=2\n", &card(2)].concat(),
        [&b"card=1\ntarget=D0\n"[..], &card(2)].concat(),
        [&card(1)[..], b"\0\r"].concat(),
        b"card=\n".repeat(2000),
        b"\ncard=\n".repeat(500),
    ] {
        promised(&file)?;
    }
    Ok(())
}
