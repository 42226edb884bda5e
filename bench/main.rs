//! Times the library beside its rival, plain Rust (rival), in one run and on the same inputs, after holding their answers to each
//! other. Built by run.sh.
//!
//!   bench [BATCHES [TEXTS]]     how many batches a row takes the least and the median of, and on how many random texts both must agree
//!   bench names                 the names of the scans
//!   bench scan NAME             does a scan once
//!   bench inputs                the memory and the formulas of the scans

mod agree;
mod codes;
mod data;
mod library;
mod rival;
mod rows;
mod scan;
mod timing;

// What the tests use beside.
#[allow(dead_code)]
#[path = "../tests/host/header.rs"]
mod header;
// The random texts of the tests.
#[allow(dead_code)]
#[path = "../tests/host/random/mod.rs"]
mod random;
#[allow(dead_code)]
#[path = "../tests/host/reference/mod.rs"]
mod reference;

const BATCHES: usize = 400;
const TEXTS: usize = 200_000;
// A scan of the longest formulas takes far longer than one of the corpus, so it has fewer batches.
const LONG: usize = 4;

fn main() {
    let arguments: Vec<String> = std::env::args().skip(1).collect();
    let words: Vec<&str> = arguments.iter().map(String::as_str).collect();
    match words[..] {
        ["names"] => scan::names(),
        ["scan", name] => scan::once(name),
        ["inputs"] => scan::inputs(),
        _ => times(&words),
    }
}

fn times(words: &[&str]) {
    let number = |at: usize, default| words.get(at).map_or(default, |word| word.parse().expect("a number"));
    let (batches, texts) = (number(0, BATCHES), number(1, TEXTS));
    agree::compare(texts);
    rows::corpus(batches);
    rows::texts(batches);
    rows::totals(batches);
    rows::cards(batches);
    rows::cells(batches);
    rows::worst(batches.div_ceil(LONG));
    rows::codes(batches.div_ceil(LONG));
}
