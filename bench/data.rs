//! The formulas that are measured and the memory that they run on, from the text files beside this one.

use crate::reference::cards::Card;
use crate::reference::memory::{cell_name, pack, store, Bank, MEMORY_BYTES};
use crate::reference::value::Value;

pub struct Formula {
    pub target: Vec<u8>,
    pub text: Vec<u8>,
}

/// Formulas that run one after the other.
pub struct Scan {
    pub name: String,
    pub formulas: Vec<Formula>,
}

/// The formulas of a scan.
pub const SCAN: usize = 40;

/// The tick of every measured run: a second before the end of a day.
pub const TICK: u32 = 86_399_000;

const LONGEST: usize = 1024;

fn lines(file: &str) -> impl Iterator<Item = &str> {
    file.lines().filter(|line| !line.starts_with('#'))
}

pub fn memory() -> Vec<u8> {
    let mut memory = vec![0; MEMORY_BYTES];
    for line in lines(include_str!("memory.txt")) {
        let (name, value) = line.split_once('=').expect("cell=value");
        let Some((bank, Some(element))) = cell_name(name.as_bytes()) else { panic!("{name} is no cell") };
        let value = match bank {
            Bank::R => Value::Real(value.parse().expect("a real")),
            _ => Value::Int(value.parse().expect("an integer")),
        };
        store(&mut memory, (bank, element), value).expect("a value that fits");
    }
    pack(&memory)
}

/// The corpus and the worst scans.
pub fn scans() -> Vec<Scan> {
    [corpus()].into_iter().chain(worst()).collect()
}

/// The formulas of a dye works.
pub fn corpus() -> Scan {
    let formula = |line: &str| {
        let (target, text) = line.split_once('=').expect("target=expr");
        Formula { target: target.into(), text: text.into() }
    };
    let formulas: Vec<Formula> = lines(include_str!("corpus.txt")).map(formula).collect();
    assert_eq!(formulas.len(), SCAN);
    Scan { name: "corpus".into(), formulas }
}

/// The corpus as a file of cards.
pub fn cards() -> Vec<u8> {
    let card = |(number, formula): (u32, Formula)| Card { number, target: formula.target, expr: formula.text }.bytes();
    (1..).zip(corpus().formulas).flat_map(card).collect()
}

/// Single formulas of the greatest length, whose jumps are many: one with a bit of everything; one of short numbers.
pub fn texts() -> Vec<Scan> {
    let mixed = "IF(D12 > 5 && X3, MAX(V[7], -N255) * 2, 0x1F) + (R10 / 2.5 - ABS(R11)) ** 2 + (C1 | 6 << 1) - ";
    let one = |name: &str, text: Vec<u8>| {
        let formulas = vec![Formula { target: b"R200".into(), text }];
        Scan { name: name.into(), formulas }
    };
    vec![
        one("a mixed formula", longest("", mixed, "1")),
        one("short numbers", longest("", "1+23*4-", "5")),
    ]
}

/// The cells of each formula of totals.
pub const CELLS: usize = 190;

/// Single formulas that go over many cells, not the dearest ones of R and not the targets.
pub fn totals() -> Vec<Scan> {
    const TEXTS: [&str; 8] = [
        "SUMR(R10, 190)",
        "AVGR(R10, 190)",
        "MAXR(R10, 190)",
        "SUMIFGT(0.5, R10, 190)",
        "SUMR(V0, 190)",
        "AVGR(N0, 190)",
        "MINR(D0, 190)",
        "COUNTIFLE(1000, D0, 190)",
    ];
    let one = |text: &str| {
        let formulas = vec![Formula { target: b"R200".into(), text: text.into() }];
        Scan { name: text.into(), formulas }
    };
    TEXTS.map(one).into()
}

/// Scans of the dearest formulas of the greatest length. Each has the same text forty times, with a target for each.
pub fn worst() -> Vec<Scan> {
    lines(include_str!("worst.txt")).map(worst_scan).collect()
}

fn worst_scan(line: &str) -> Scan {
    let words: Vec<&str> = line.split(' ').collect();
    let [name, first, unit, ref last @ ..] = words[..] else { panic!("name first unit last") };
    let text = longest(first, unit, last.first().unwrap_or(&""));
    let formula = |i| Formula { target: format!("R{}", 200 + i).into(), text: text.clone() };
    Scan { name: name.into(), formulas: (0..SCAN).map(formula).collect() }
}

// The first part, as many units as fit before the last, and spaces.
fn longest(first: &str, unit: &str, last: &str) -> Vec<u8> {
    let units = (LONGEST - first.len() - last.len()) / unit.len();
    format!("{:<LONGEST$}", [first, &unit.repeat(units), last].concat()).into_bytes()
}
