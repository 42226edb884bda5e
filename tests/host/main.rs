//! Holds the C library to an implementation that was written apart from it, on random cases. Built by run.sh.
//!
//!   host [CASES [SEED [FIRST]]]   random cases, numbered from FIRST
//!   host literals [NUMBER [SEED]] random real literals
//!   host cards [NUMBER [SEED]]    files of cards
//!   host salvage [NUMBER [SEED]]  spoiled files of cards
//!   host reads [NUMBER [SEED]]    the cells that random formulas, targets and codes read
//!   host images [NUMBER [SEED]]   conversions of images, and every bit
//!   host lists [NUMBER [SEED]]    lists of formulas, and pairs of them in both orders
//!   host replay [NUMBER [SEED]]   nights replayed in calls
//!   host formats [NUMBER [SEED]]  formulas saved, read again and saved again
//!   host listings [NUMBER [SEED]] codes listed, and the words of answers
//!   host profile [CASES [SEED [FIRST]]] random cases and the stored ones in the profile without reals, by both libraries
//!   host examples DOCUMENT...     the examples of the documents

mod cards;
mod compare;
mod conversions;
mod examples;
mod formats;
mod header;
mod library;
mod listings;
mod lists;
mod literals;
mod profiles;
mod random;
mod reads;
mod reference;
mod replay;
mod salvage;
mod stop;

use std::process::exit;
use std::time::{Instant, SystemTime, UNIX_EPOCH};

use examples::Examples;
use random::cases::{class_of, CLASSES};
use random::Random;

const DEFAULT_CASES: u64 = 1_000_000;
const DEFAULT_FILES: u64 = 20_000;
const DEFAULT_FORMULAS: u64 = 100_000;
const DEFAULT_LISTS: u64 = 20_000;
const ANSWERS: usize = 16;

#[derive(Default)]
struct Tally {
    cases: [u64; CLASSES.len()],
    answers: [u64; ANSWERS],
    calls: u64,
}

fn main() {
    let arguments: Vec<String> = std::env::args().skip(1).collect();
    let words: Vec<&str> = arguments.iter().map(String::as_str).collect();
    let result = match words[..] {
        ["examples", ref documents @ ..] => try_examples(documents),
        ["literals", ref numbers @ ..] => random_literals(numbers),
        ["cards", ref numbers @ ..] => random_cards(numbers),
        ["salvage", ref numbers @ ..] => random_salvage(numbers),
        ["reads", ref numbers @ ..] => random_reads(numbers),
        ["images", ref numbers @ ..] => random_images(numbers),
        ["lists", ref numbers @ ..] => random_lists(numbers),
        ["replay", ref numbers @ ..] => random_replay(numbers),
        ["formats", ref numbers @ ..] => random_formats(numbers),
        ["listings", ref numbers @ ..] => random_listings(numbers),
        ["profile", ref numbers @ ..] => random_profile(numbers),
        _ => random_cases(&words),
    };
    if let Err(difference) = result {
        println!("{difference}");
        exit(1);
    }
}

fn argument(words: &[&str], at: usize, default: u64) -> Result<u64, String> {
    match words.get(at) {
        Some(word) => word.parse().map_err(|_| format!("{word} is no number")),
        None => Ok(default),
    }
}

fn clock() -> u64 {
    SystemTime::now().duration_since(UNIX_EPOCH).map_or(1, |d| d.as_millis() as u64)
}

fn random_literals(words: &[&str]) -> Result<(), String> {
    literals::try_literals(argument(words, 0, DEFAULT_CASES)?, argument(words, 1, clock())?)
}

fn random_cards(words: &[&str]) -> Result<(), String> {
    cards::try_cards(argument(words, 0, DEFAULT_FILES)?, argument(words, 1, clock())?)
}

fn random_salvage(words: &[&str]) -> Result<(), String> {
    salvage::try_salvage(argument(words, 0, DEFAULT_FILES)?, argument(words, 1, clock())?)
}

fn random_reads(words: &[&str]) -> Result<(), String> {
    reads::try_reads(argument(words, 0, DEFAULT_FORMULAS)?, argument(words, 1, clock())?)
}

fn random_images(words: &[&str]) -> Result<(), String> {
    conversions::try_images(argument(words, 0, DEFAULT_FILES)?, argument(words, 1, clock())?)
}

fn random_lists(words: &[&str]) -> Result<(), String> {
    lists::try_lists(argument(words, 0, DEFAULT_LISTS)?, argument(words, 1, clock())?)
}

fn random_replay(words: &[&str]) -> Result<(), String> {
    replay::try_replay(argument(words, 0, DEFAULT_FILES)?, argument(words, 1, clock())?)
}

fn random_formats(words: &[&str]) -> Result<(), String> {
    formats::try_formats(argument(words, 0, DEFAULT_FORMULAS)?, argument(words, 1, clock())?)
}

fn random_listings(words: &[&str]) -> Result<(), String> {
    listings::try_listings(argument(words, 0, DEFAULT_FORMULAS)?, argument(words, 1, clock())?)
}

fn random_profile(words: &[&str]) -> Result<(), String> {
    profiles::try_profile(argument(words, 0, DEFAULT_CASES)?, argument(words, 1, clock())?, argument(words, 2, 0)?)
}

fn random_cases(words: &[&str]) -> Result<(), String> {
    let cases = argument(words, 0, DEFAULT_CASES)?;
    let seed = argument(words, 1, clock())?;
    let first = argument(words, 2, 0)?;
    println!("seed {seed}");
    let mut tally = Tally::default();
    let start = Instant::now();
    stop::watch(seed);
    for number in first..first + cases {
        stop::next_case(number);
        random_case(seed, number, &mut tally)?;
    }
    print_tally(&tally);
    println!("{:.1} s", start.elapsed().as_secs_f64());
    println!("{cases} cases, 0 differences");
    Ok(())
}

fn random_case(seed: u64, number: u64, tally: &mut Tally) -> Result<(), String> {
    let mut random = Random::new(seed, number);
    let class = class_of(&mut random);
    for request in (CLASSES[class].make)(&mut random) {
        let report = compare::compare(&request).map_err(|difference| {
            let name = CLASSES[class].name;
            let shown = compare::show(&request);
            format!("case {number}, {name}: {shown}{difference}\nto repeat it: host 1 {seed} {number}")
        })?;
        tally.calls += 1;
        tally.answers[report.answer as usize] += 1;
    }
    tally.cases[class] += 1;
    Ok(())
}

fn print_tally(tally: &Tally) {
    for (class, cases) in CLASSES.iter().zip(tally.cases) {
        println!("{cases:8} {}", class.name);
    }
    println!("{} calls, by answer:", tally.calls);
    for (answer, calls) in tally.answers.iter().enumerate() {
        println!("{calls:8} answer {answer}");
    }
}

fn try_examples(documents: &[&str]) -> Result<(), String> {
    let mut examples = Examples::default();
    for document in documents {
        let text = std::fs::read_to_string(document).map_err(|error| format!("{document}: {error}"))?;
        examples.try_all(&text).map_err(|error| format!("{document}: {error}"))?;
    }
    println!("{} examples, 0 differences", examples.number);
    Ok(())
}
