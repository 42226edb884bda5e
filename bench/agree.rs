//! Holds the library and the rival to each other before anything is measured, and not only on what is measured.

use crate::data::{self, Formula};
use crate::library::{self, Report, Target, CODE_BYTES, MEMORY_BYTES};
use crate::random::{formulas, texts, Random};
use crate::rival;

const SEED: u64 = 1;

// Buffers of each kind for the library and for the rival.
struct Sides {
    memories: [Vec<u8>; 2],
    codes: [Vec<u8>; 2],
    index_codes: [Vec<u8>; 2],
}

impl Sides {
    fn new(memory: Vec<u8>) -> Sides {
        let buffers = || [vec![0; CODE_BYTES], vec![0; CODE_BYTES]];
        Sides { memories: [memory.clone(), memory], codes: buffers(), index_codes: buffers() }
    }

    // Both compile and run, then check and run again what was compiled. The instructions are each one's own, but as many.
    fn same(&mut self, Formula { target, text }: &Formula, tick: u32) -> Report {
        let [ours, theirs] = &mut self.memories;
        let [code, other] = &mut self.codes;
        let [index, other_index] = &mut self.index_codes;
        let same = |a: Report, b: Report| assert_eq!(a, b, "{}", String::from_utf8_lossy(text));
        let report = library::compile_and_run(target, text, ours, [code, index], tick);
        same(report, rival::compile_and_run(target, text, theirs, [other, other_index], tick));
        let compiled = library::compile(text, code);
        same(compiled, rival::compile(text, other));
        let indexed = library::compile_target(target, index);
        same(indexed, rival::compile_target(target, other_index));
        if compiled.answer == 0 {
            let (n, k) = (compiled.count as usize, indexed.count as usize);
            same(library::check(code, n), rival::check(other, n));
            let run = library::run(code, n, ours, &Target::compiled(target, index, k), tick);
            same(run, rival::run(other, n, theirs, &Target::compiled(target, other_index, k), tick));
        }
        assert!(ours == theirs, "memory: {}", String::from_utf8_lossy(text));
        report
    }
}

// A text by its number: a formula, a damaged one, words, noise, or one at the borders of the length.
fn text(number: usize) -> Vec<u8> {
    let mut random = Random::new(SEED, number as u64);
    match number % 8 {
        0..=2 => formulas::formula(&mut random),
        3 | 4 => {
            let good = formulas::formula(&mut random);
            texts::damaged(&mut random, &good)
        }
        5 => texts::one_word(&mut random),
        6 => texts::noise(&mut random),
        _ => texts::long(&mut random),
    }
}

fn target(number: usize) -> Vec<u8> {
    let bank = b"CVNDRX"[number % 6] as char;
    let mut random = Random::new(SEED, !(number as u64));
    match number / 6 % 4 {
        0 => [format!("{bank}[").as_bytes(), &formulas::index(&mut random), b"]"].concat(),
        _ => format!("{bank}{}", number / 6 % 70).into(),
    }
}

fn memory(number: usize) -> Vec<u8> {
    let mut memory = vec![0; MEMORY_BYTES];
    Random::new(!SEED, number as u64).fill(&mut memory);
    memory
}

pub fn compare(texts: usize) {
    let mut sides = Sides::new(data::memory());
    for formula in data::scans().iter().chain(&data::texts()).chain(&data::totals()).flat_map(|scan| &scan.formulas) {
        assert_eq!(sides.same(formula, data::TICK).answer, 0, "{}", String::from_utf8_lossy(&formula.text));
    }
    let mut answers = [0; 16];
    for number in 0..texts {
        // A new memory now and then, so that flags and stored values do not pile up.
        if number % 16 == 0 {
            sides = Sides::new(if number % 32 == 0 { data::memory() } else { memory(number) });
        }
        let formula = Formula { target: target(number), text: text(number) };
        let tick = Random::new(SEED, !(number as u64)).tick();
        answers[sides.same(&formula, tick).answer as usize] += 1;
    }
    println!("the same on {texts} texts (answers 0 to 15: {answers:?})");
}
