//! Files of cards by both implementations: the ends of the rules, every byte of a small file replaced, and random files.

use std::ops::Range;

use crate::header::{CardWords, Cards, Written};
use crate::library::{self, Lent};
use crate::random::{cards as any, Random};
use crate::reference::cards::{check, read, write, Card, Found, CARDS};
use crate::reference::text::Refusal;

const ANSWERS: usize = 19;

/// Compares the fixed cases and so many random files.
pub fn try_cards(number: u64, seed: u64) -> Result<(), String> {
    println!("seed {seed}");
    small_file()?;
    longest_file()?;
    ends_of_writing()?;
    let mut answers = [0; ANSWERS];
    for case in 0..number {
        let mut random = Random::new(seed, case);
        let repeat = |error| format!("{error}\nto repeat it: host cards {} {seed}", case + 1);
        for answer in random_case(&mut random).map_err(repeat)? {
            answers[answer as usize] += 1;
        }
    }
    println!("files read and written by answer, 0 to {}: {answers:?}", ANSWERS - 1);
    println!("{number} random files of cards, 0 differences");
    Ok(())
}

fn card(number: u32, target: &str, expr: &str) -> Card {
    Card { number, target: target.into(), expr: expr.into() }
}

// What the library must report of a reading: on a refusal and behind the last card all words are 0.
fn cards_words(read: &Result<Vec<Found>, Refusal>) -> Cards {
    let mut words = Cards { answer: 0, place: 0, count: 0, cards: [CardWords::default(); 64] };
    match read {
        Err(refusal) => (words.answer, words.place) = (refusal.answer, refusal.place as u32),
        Ok(found) => words.count = found.len() as u32,
    }
    for (card, found) in words.cards.iter_mut().zip(read.iter().flatten()) {
        let span = |range: &Range<usize>| (range.start as u32, range.len() as u32);
        let ((target, target_len), (expr, expr_len)) = (span(&found.target), span(&found.expr));
        *card = CardWords { number: found.number, target, target_len, expr, expr_len };
    }
    words
}

fn written_words(written: &Result<Vec<u8>, Refusal>) -> Written {
    match written {
        Err(refusal) => Written { answer: refusal.answer, place: refusal.place as u32, length: 0 },
        Ok(file) => Written { answer: 0, place: 0, length: file.len() as u32 },
    }
}

// Reads by both, and gives what they found.
fn compare_read(file: &[u8]) -> Result<Result<Vec<Found>, Refusal>, String> {
    let expected = read(file);
    let lent = Lent::new(file, file.len() % 8);
    let result = library::cards_read(&lent);
    let same = lent.content() == file && lent.guards_stand() && result == cards_words(&expected);
    same.then_some(expected.clone()).ok_or_else(|| format!("{}\nexpected {expected:?}\ngot {result:?}", file.escape_ascii()))
}

// The texts and the words of cards; every text lies in a place of its own.
fn lent_words(cards: &[Card]) -> (Vec<u8>, Vec<u32>) {
    let (mut texts, mut words) = (Vec::new(), Vec::new());
    for card in cards {
        words.push(card.number);
        for text in [&card.target, &card.expr] {
            words.extend([texts.len() as u32, text.len() as u32]);
            texts.extend(text);
        }
    }
    (texts, words)
}

// The cards that words mean: bytes beyond the texts are not there, and words behind the last whole five are not looked at.
fn cards_of(texts: &[u8], words: &[u32]) -> Vec<Card> {
    let text = |start: u32, length: u32| texts.iter().skip(start as usize).take(length as usize).copied().collect();
    let card = |w: &[u32]| Card { number: w[0], target: text(w[1], w[2]), expr: text(w[3], w[4]) };
    words.chunks_exact(5).map(card).collect()
}

const SENTINEL: u8 = 0xC3;

// Writes by both into a buffer of sentinels.
fn compare_write(texts: &[u8], words: &[u32], room: usize) -> Result<Result<Vec<u8>, Refusal>, String> {
    let expected = write(&cards_of(texts, words), room);
    let mut out = Lent::new(&vec![SENTINEL; room], room % 8);
    let lent = Lent::new(texts, 3);
    let result = library::cards_write(&lent, words, &mut out);
    let mut bytes = expected.clone().unwrap_or_default();
    bytes.resize(room, SENTINEL);
    let guards = out.guards_stand() && lent.guards_stand() && lent.content() == texts;
    let same = guards && out.content() == bytes && result == written_words(&expected);
    same.then_some(expected.clone()).ok_or_else(|| format!("{words:?} {room}\nexpected {expected:?}\ngot {result:?}"))
}

fn write_cards(cards: &[Card], room: usize) -> Result<Result<Vec<u8>, Refusal>, String> {
    let (texts, words) = lent_words(cards);
    compare_write(&texts, &words, room)
}

fn hold(condition: bool, what: &str) -> Result<(), String> {
    condition.then_some(()).ok_or_else(|| what.into())
}

// Every prefix, and every byte replaced by every other one: in the two lines of a card that is 16 or 17 at that card.
fn small_file() -> Result<(), String> {
    let cards = [card(1, "R0", "(D1 + 2) / 4.0"), card(2, "D[V10 + 32]", "SUMR(D0, 10)")];
    let file = any::file(&cards);
    let found = compare_read(&file)?.map_err(|refusal| format!("the small file is refused: {refusal:?}"))?;
    for end in 0..file.len() {
        drop(compare_read(&file[..end])?);
    }
    let starts = [0, cards[0].bytes().len()];
    let lines = |card: &Found| card.target.start - "target=".len()..card.expr.end + 1;
    for at in 0..file.len() {
        let hit = found.iter().position(|card| lines(card).contains(&at));
        for byte in (0..=255).filter(|byte| *byte != file[at]) {
            let mut damaged = file.clone();
            damaged[at] = byte;
            let read = compare_read(&damaged)?;
            let told = |card: usize| matches!(&read, Err(r) if matches!(r.answer, 16 | 17) && r.place == starts[card]);
            hold(hit.is_none_or(told), &format!("byte {at} replaced by {byte} gives {read:?}"))?;
        }
    }
    Ok(())
}

// The longest cards that there are, and one more.
fn longest_file() -> Result<(), String> {
    const BYTES: usize = 133_239;
    let (target, expr) = (format!("D[{:>1021}]", "V1"), format!("{:>1024}", "1"));
    let mut cards: Vec<Card> = (1..=CARDS).map(|number| card(number, &target, &expr)).collect();
    let file = write_cards(&cards, BYTES)?.map_err(|refusal| format!("the longest file is refused: {refusal:?}"))?;
    hold(file.len() == BYTES, "the longest file has another length")?;
    hold(compare_read(&file)?.is_ok_and(|found| found.len() == CARDS as usize), "the longest file is not read back")?;
    hold(write_cards(&cards, BYTES - 1)? == Err(Refusal { answer: 10, place: 0 }), "a byte short is not 10")?;
    cards.push(card(65, "D0", "1"));
    hold(write_cards(&cards, 2 * BYTES)? == Err(Refusal { answer: 16, place: BYTES }), "card 65 is not 16")?;
    cards[64].number = 64;
    hold(write_cards(&cards, 2 * BYTES)? == Err(Refusal { answer: 18, place: BYTES }), "the second 64 is not 18")
}

fn ends_of_writing() -> Result<(), String> {
    let bad = [card(7, "D0", "1"), card(0, "D\n0", "$"), card(u32::MAX, "", "\n")];
    let size = any::file(&bad).len();
    for room in [0, 1, size - 1, size, size + 1] {
        for cards in [&bad[..], &bad[..1], &[]] {
            drop(write_cards(cards, room)?);
        }
    }
    let texts = b"D0R1 + 1";
    for words in [
        &[1, 0, 2, 4, 4][..],
        &[1, 0, 2, 4, 4, 9, 9, 9, 9],
        &[1, 0, 2, 4, 99],
        &[1, 0, u32::MAX, 4, 4],
        &[1, u32::MAX, u32::MAX, 4, 4],
        &[1, 8, 1, 0, 2],
        &[1, 0, 2, 0, 8, 2, 2, 2, 0, 2],
        &[1, 0, 2, 4],
        &[],
    ] {
        drop(compare_write(texts, words, 500)?);
    }
    hold(check(b"R0", b"(D1 + 2) / 4.0") == "24418", "the check of the documents differs")
}

fn answer_of<T>(result: &Result<T, Refusal>) -> u32 {
    result.as_ref().err().map_or(0, |refusal| refusal.answer)
}

// Cards written and read back, then read as they are, and damaged. Gives the answers.
fn random_case(random: &mut Random) -> Result<[u32; 3], String> {
    let cards = any::cards(random);
    let (texts, mut words) = lent_words(&cards);
    let size = any::file(&cards).len();
    if !words.is_empty() && random.one_in(8) {
        let at = random.below(words.len());
        words[at] = random.integer() as u32;
    }
    let room = (size as i64 + *random.pick(&[0, 0, 0, 1, -1, 40])).max(0) as usize;
    let written = compare_write(&texts, &words, room)?;
    if let Ok(file) = &written {
        let found = compare_read(file)?.map_err(|refusal| format!("a written file is refused: {refusal:?}"))?;
        let back: Vec<Card> = found
            .into_iter()
            .map(|c| Card { number: c.number, target: file[c.target].to_vec(), expr: file[c.expr].to_vec() })
            .collect();
        hold(back == cards_of(&texts, &words), "a written file reads back as other cards")?;
    }
    let file = any::file(&cards);
    let (read, spoiled) = (compare_read(&file)?, compare_read(&any::damaged(random, &file))?);
    Ok([answer_of(&written), answer_of(&read), answer_of(&spoiled)])
}
