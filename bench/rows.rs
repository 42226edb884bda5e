//! The rows of the table. A run through the library is check, run and store, and so is the rival's; run and store is that less
//! the check.

use std::hint::black_box;

use crate::codes::{self, Made};
use crate::data::{self, Formula, Scan, CELLS, TICK};
use crate::library::{self, Target, CODE_BYTES, MEMORY_BYTES};
use crate::rival;
use crate::timing::{each, header, in_turn, measured, row, Times};

// The code that each side compiled, in buffers of its own size, as a controller would keep it.
struct Ready<'a> {
    target: Target<'a>,
    ours: Vec<u8>,
    theirs: Vec<u8>,
    instructions: usize,
}

fn ready(formula: &Formula) -> Ready<'_> {
    let (mut ours, mut theirs) = (vec![0; CODE_BYTES], vec![0; CODE_BYTES]);
    let instructions = library::compile(&formula.text, &mut ours).count as usize;
    rival::compile(&formula.text, &mut theirs);
    for code in [&mut ours, &mut theirs] {
        code.truncate(8 * instructions);
        code.shrink_to_fit();
    }
    Ready { target: Target::cell(&formula.target), ours, theirs, instructions }
}

/// A scan, measured so often.
struct Measured<'a> {
    scan: &'a Scan,
    ready: Vec<Ready<'a>>,
    batches: usize,
    calls: usize,
}

impl<'a> Measured<'a> {
    /// Code made by hand, for each target of a scan.
    fn made(code: &Made, scan: &'a Scan, batches: usize) -> Measured<'a> {
        let ready = |formula: &'a Formula| Ready {
            target: Target::cell(&formula.target),
            ours: code.ours.clone(),
            theirs: code.theirs.clone(),
            instructions: code.ours.len() / 8,
        };
        Measured { scan, ready: scan.formulas.iter().map(ready).collect(), batches, calls: 1 }
    }
}

impl Measured<'_> {
    fn new(scan: &Scan, batches: usize, calls: usize) -> Measured<'_> {
        Measured { scan, ready: scan.formulas.iter().map(ready).collect(), batches, calls }
    }

    fn bytes(&self) -> f64 {
        self.scan.formulas.iter().map(|f| f.text.len()).sum::<usize>() as f64
    }

    fn instructions(&self) -> f64 {
        self.ready.iter().map(|r| r.instructions).sum::<usize>() as f64
    }

    fn formulas(&self) -> f64 {
        self.ready.len() as f64
    }

    fn compile(&self) -> Times {
        let (mut code, mut other) = (vec![0; CODE_BYTES], vec![0; CODE_BYTES]);
        let ours = &mut || each(&self.scan.formulas, |f| library::compile(&f.text, &mut code));
        let theirs = &mut || each(&self.scan.formulas, |f| rival::compile(&f.text, &mut other));
        measured(self.batches, self.calls, [ours, theirs])
    }

    fn check(&self) -> Times {
        let ours = &mut || each(&self.ready, |r| library::check(&r.ours, r.instructions));
        let theirs = &mut || each(&self.ready, |r| rival::check(&r.theirs, r.instructions));
        measured(self.batches, self.calls, [ours, theirs])
    }

    // Each side has a memory of its own; they run equally often, so both are the same in the end.
    fn run(&self) -> Times {
        let (mut memory, mut other) = (data::memory(), data::memory());
        let ours = &mut || each(&self.ready, |r| library::run(&r.ours, r.instructions, &mut memory, &r.target, TICK));
        let theirs = &mut || each(&self.ready, |r| rival::run(&r.theirs, r.instructions, &mut other, &r.target, TICK));
        let times = measured(self.batches, self.calls, [ours, theirs]);
        hold_to_each_other(&memory, &other);
        times
    }

    // All of it in turn: compile, check, run (with the check), compile and run.
    fn whole(&self) -> [Times; 4] {
        let formulas = &self.scan.formulas;
        let [mut a, mut b, mut c, mut d, mut e, mut f] = [(); 6].map(|()| vec![0; CODE_BYTES]);
        let [mut memory, mut other, mut again, mut other_again] = [(); 4].map(|()| data::memory());
        let times = in_turn(
            self.batches,
            self.calls,
            [
                [
                    &mut || each(formulas, |f| library::compile(&f.text, &mut a)),
                    &mut || each(formulas, |f| rival::compile(&f.text, &mut b)),
                ],
                [
                    &mut || each(&self.ready, |r| library::check(&r.ours, r.instructions)),
                    &mut || each(&self.ready, |r| rival::check(&r.theirs, r.instructions)),
                ],
                [
                    &mut || each(&self.ready, |r| library::run(&r.ours, r.instructions, &mut memory, &r.target, TICK)),
                    &mut || each(&self.ready, |r| rival::run(&r.theirs, r.instructions, &mut other, &r.target, TICK)),
                ],
                [
                    &mut || each(formulas, |x| library::compile_and_run(&x.target, &x.text, &mut again, [&mut c, &mut d], TICK)),
                    &mut || each(formulas, |x| rival::compile_and_run(&x.target, &x.text, &mut other_again, [&mut e, &mut f], TICK)),
                ],
            ],
        );
        hold_to_each_other(&memory, &other);
        hold_to_each_other(&again, &other_again);
        times
    }
}

// The flags are the last bytes of the memory.
const FLAGS: usize = 4;

fn hold_to_each_other(ours: &[u8], theirs: &[u8]) {
    assert!(ours == theirs, "the memories differ after the runs");
    assert_eq!(ours[MEMORY_BYTES - FLAGS..], [0; FLAGS], "a measured formula was at fault");
}

pub fn corpus(batches: usize) {
    let scan = data::corpus();
    let m = Measured::new(&scan, batches, 1);
    println!("\ncorpus: {} formulas, {} bytes, {} instructions", m.formulas(), m.bytes(), m.instructions());
    header("nanoseconds");
    let [compile, check, run, all] = m.whole();
    row("compile, corpus", "a byte", m.bytes(), compile);
    row("check, corpus", "an instruction", m.instructions(), check);
    row("run and store, corpus", "a formula", m.formulas(), run.less(check));
    row("check, run and store, corpus", "a formula", m.formulas(), run);
    row("compile, run and store, corpus", "a formula", m.formulas(), all);
}

/// Single long formulas.
pub fn texts(batches: usize) {
    const CALLS: usize = 100;
    for scan in &data::texts() {
        let m = Measured::new(scan, batches, CALLS);
        let (check, run) = (m.check(), m.run());
        row(&format!("compile, {}", scan.name), "a byte", m.bytes(), m.compile());
        row("  check", "an instruction", m.instructions(), check);
        row("  run and store", "an instruction", m.instructions(), run.less(check));
    }
}

/// Totals, by the cells that they visit.
pub fn totals(batches: usize) {
    const CALLS: usize = 100;
    for scan in &data::totals() {
        let m = Measured::new(scan, batches, CALLS);
        row(&format!("run and store, {}", scan.name), "a cell", CELLS as f64, m.run().less(m.check()));
    }
}

/// The corpus as a file of cards.
pub fn cards(batches: usize) {
    let file = data::cards();
    assert!(library::cards_read(&file) == rival::cards_read(&file), "the cards that both read differ");
    let ours = &mut || drop(black_box(library::cards_read(black_box(&file))));
    let theirs = &mut || drop(black_box(rival::cards_read(black_box(&file))));
    row("read a file of cards, corpus", "a byte", file.len() as f64, measured(batches, 4, [ours, theirs]));
}

/// The cells read by all code of the corpus in a row: the listing, which is all that there is of no code, and what each instruction adds.
pub fn cells(batches: usize) {
    let scan = data::corpus();
    let m = Measured::new(&scan, batches, 1);
    let ours: Vec<u8> = m.ready.iter().flat_map(|r| r.ours.clone()).collect();
    let theirs: Vec<u8> = m.ready.iter().flat_map(|r| r.theirs.clone()).collect();
    let n = m.instructions() as usize;
    let (mut list, mut other) = ([0; 1152], [0; 1152]);
    assert!(library::cells(&ours, n, &mut list) == rival::cells(&theirs, n, &mut other) && list == other, "the lists differ");
    let mut time = |n: usize| {
        let ours = &mut || {
            black_box(library::cells(black_box(&ours), n, &mut list));
        };
        let theirs = &mut || {
            black_box(rival::cells(black_box(&theirs), n, &mut other));
        };
        measured(batches, 20, [ours, theirs])
    };
    let (listing, whole) = (time(0), time(n));
    row("cells read, no code", "a list", 1.0, listing);
    row("  corpus in a row", "an instruction", n as f64, whole.less(listing));
}

/// Forty formulas of 1,024 bytes each, of each kind that is dear in its way.
pub fn worst(batches: usize) {
    const MICROSECONDS: f64 = 1000.0;
    header("microseconds a scan of forty 1,024-byte formulas");
    for scan in &data::worst() {
        let m = Measured::new(scan, batches, 2);
        row(&format!("compile, {}", scan.name), "a scan", MICROSECONDS, m.compile());
        let (check, run) = (m.check(), m.run());
        row("  check", "a scan", MICROSECONDS, check);
        row("  check, run and store", "a scan", MICROSECONDS, run);
    }
}

/// Forty times the same code of 2,048 instructions, made by hand.
pub fn codes(batches: usize) {
    header("nanoseconds, code made by hand");
    for code in &codes::all() {
        let scan = Scan { name: code.name.into(), formulas: codes::targets() };
        let m = Measured::made(code, &scan, batches);
        assert_eq!(library::check(&code.ours, code.ours.len() / 8).answer, 0, "{}", code.name);
        let (check, run) = (m.check(), m.run());
        row(&format!("check, {}", code.name), "an instruction", m.instructions(), check);
        row("  run and store", "an instruction", m.instructions(), run.less(check));
    }
}
