//! The profile without reals: the library of formula_int.h against the second implementation's profile, and against the full library wherever that gives the
//! same.

use std::fs;

use crate::compare;
use crate::random::cases::{class_of, on_text, Operation, Request, CLASSES};
use crate::random::Random;
use crate::reference::code::INSTRUCTION_BYTES;
use crate::reference::memory::MEMORY_BYTES;
use crate::reference::operations::CODE_BYTES;
use crate::reference::program::read_input;
use crate::stop;

/// So many cases have reals, of which most are refused: one in this number.
const WITH_REALS: usize = 5;
const ANSWERS: usize = 21;

#[derive(Default)]
struct Tally {
    answers: [u64; ANSWERS],
    calls: u64,
    shared: u64,
}

impl Tally {
    fn try_request(&mut self, request: &Request) -> Result<(), String> {
        let (report, shared) = compare::compare_profile(request).map_err(|difference| compare::show(request) + &difference)?;
        self.calls += 1;
        self.shared += u64::from(shared);
        self.answers[report.answer as usize] += 1;
        if report.kind != 0 {
            return Err(compare::show(request) + "the value is no integer");
        }
        Ok(())
    }

    fn try_all(&mut self, requests: Vec<Request>) -> Result<(), String> {
        requests.iter().try_for_each(|request| self.try_request(request))
    }

    fn print(&self, cases: &str) {
        let answers = self.answers.iter().enumerate().filter(|(_, calls)| **calls > 0);
        let by_answer: Vec<String> = answers.map(|(answer, calls)| format!("{calls} of {answer}")).collect();
        println!("the profile: {cases}: {} calls, {} of them as the full library; answers: {}", self.calls, self.shared, by_answer.join(", "));
    }
}

// A request whose target and memory say little.
fn plain() -> Request {
    Request {
        operation: Operation::Compile,
        target: b"D0".to_vec(),
        expr: Vec::new(),
        memory: vec![1; MEMORY_BYTES],
        code: vec![195; CODE_BYTES],
        instructions: 0,
        index_code: vec![195; CODE_BYTES],
        index_instructions: 0,
        value: (0, 7),
        tick: 5,
        alignment: 0,
    }
}

fn stored(name: &str) -> Result<Vec<u8>, String> {
    fs::read(format!("crates/{name}/stdin")).map_err(|error| format!("crates/{name}/stdin: {error}"))
}

fn stored_texts() -> Result<Vec<Request>, String> {
    let texts = stored("text_cases")?;
    Ok(texts.split(|b| *b == b'\n').flat_map(|expr| on_text(Request { expr: expr.to_vec(), ..plain() })).collect())
}

// Cases that end with an empty line each.
fn stored_vectors() -> Result<Vec<Request>, String> {
    let text = String::from_utf8_lossy(&stored("vector_cases")?).into_owned();
    let requests = text.split("\n\n").flat_map(|case| {
        let input = read_input(case.as_bytes());
        on_text(Request { memory: input.memory, target: input.target, expr: input.expr, ..plain() })
    });
    Ok(requests.collect())
}

// A name, a number of instructions, and bytes in hexadecimal.
fn stored_codes() -> Result<Vec<Request>, String> {
    let text = String::from_utf8_lossy(&stored("code_cases")?).into_owned();
    let requests = text.lines().flat_map(|line| {
        let parts: Vec<&str> = line.split(' ').collect();
        let digits = parts[2].as_bytes().chunks(2);
        let code: Vec<u8> = digits.map(|pair| u8::from_str_radix(&String::from_utf8_lossy(pair), 16).expect("two digits")).collect();
        let instructions = parts[1].parse().expect("a number");
        let base = Request { index_code: code[..code.len().min(INSTRUCTION_BYTES)].to_vec(), index_instructions: 1, code, instructions, ..plain() };
        [Operation::Check, Operation::Evaluate, Operation::Run].map(|operation| Request { operation, ..base.clone() })
    });
    Ok(requests.collect())
}

pub fn try_profile(cases: u64, seed: u64, first: u64) -> Result<(), String> {
    for (name, requests) in [("stored texts", stored_texts()?), ("stored vectors", stored_vectors()?), ("stored codes", stored_codes()?)] {
        let mut tally = Tally::default();
        tally.try_all(requests)?;
        tally.print(name);
    }
    println!("seed {seed}");
    let mut tally = Tally::default();
    stop::watch(seed);
    for number in first..first + cases {
        stop::next_case(number);
        let mut random = Random::new(seed, number);
        random.reals = random.one_in(WITH_REALS);
        let class = class_of(&mut random);
        let requests = (CLASSES[class].make)(&mut random);
        tally.try_all(requests).map_err(|error| {
            format!("case {number}, {}: {error}\nto repeat it: host profile 1 {seed} {number}", CLASSES[class].name)
        })?;
    }
    tally.print(&format!("{cases} random cases, 0 differences"));
    Ok(())
}
