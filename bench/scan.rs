//! What is measured, for tools that count: one scan, once, function by function; and the inputs, for a program in C.

use crate::codes;
use crate::data::{self, Formula};
use crate::library::{self, Target, CODE_BYTES};

/// The scans by name: those of texts, and those of code made by hand.
pub fn names() {
    for scan in data::scans() {
        println!("{}", scan.name);
    }
    for code in codes::all() {
        println!("{}", code.name);
    }
}

/// Compiles, checks and runs a scan. What is made by hand is not compiled.
pub fn once(name: &str) {
    if let Some(made) = codes::all().into_iter().find(|code| code.name == name) {
        let targets = codes::targets();
        let counts = vec![made.ours.len() / 8; targets.len()];
        let codes = vec![made.ours; targets.len()];
        check_scan(&codes, &counts);
        return run_scan(&targets, &codes, &counts, &mut data::memory());
    }
    let scan = data::scans().into_iter().find(|scan| scan.name == name).expect("a scan of that name");
    let mut codes = vec![vec![0; CODE_BYTES]; scan.formulas.len()];
    let mut counts = vec![0; scan.formulas.len()];
    compile_scan(&scan.formulas, &mut codes, &mut counts);
    check_scan(&codes, &counts);
    run_scan(&scan.formulas, &codes, &counts, &mut data::memory());
}

// Counting starts and ends with a call of one of these three, by its name.

#[no_mangle]
#[inline(never)]
fn compile_scan(formulas: &[Formula], codes: &mut [Vec<u8>], counts: &mut [usize]) {
    for ((formula, code), count) in formulas.iter().zip(codes).zip(counts) {
        let report = library::compile(&formula.text, code);
        assert!(report.answer == 0);
        *count = report.count as usize;
    }
}

#[no_mangle]
#[inline(never)]
fn check_scan(codes: &[Vec<u8>], counts: &[usize]) {
    for (code, count) in codes.iter().zip(counts) {
        assert!(library::check(code, *count).answer == 0);
    }
}

#[no_mangle]
#[inline(never)]
fn run_scan(formulas: &[Formula], codes: &[Vec<u8>], counts: &[usize], memory: &mut [u8]) {
    for ((formula, code), count) in formulas.iter().zip(codes).zip(counts) {
        assert!(library::run(code, *count, memory, &Target::cell(&formula.target), data::TICK).answer == 0);
    }
}

/// The memory in hexadecimal digits, then name, target and text of each formula. Those of a worst scan are all the same.
pub fn inputs() {
    let memory: String = data::memory().iter().map(|byte| format!("{byte:02X}")).collect();
    println!("{memory}");
    for scan in data::scans() {
        let mut formulas = scan.formulas;
        formulas.dedup_by(|a, b| a.text == b.text);
        for formula in formulas {
            let (target, text) = (String::from_utf8_lossy(&formula.target), String::from_utf8_lossy(&formula.text));
            println!("{} {target} {text}", scan.name);
        }
    }
}
