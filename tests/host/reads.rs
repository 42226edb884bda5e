//! The lists of cells: they are those of the second implementation, and what is not listed does not matter.

use crate::library::{self, Code, Lent};
use crate::random::{bad_codes, cases::good_target, codes, formulas, images, Random};
use crate::reference::code::{encode, Instruction, INSTRUCTION_BYTES};
use crate::reference::memory::{lent, offset, unpack, BANKS, FLAGS, MEMORY_BYTES};
use crate::reference::operations::{Report, CODE_BYTES};
use crate::reference::reads::{cell, name, of_code, of_target, of_tree, Cells, CELLS};
use crate::reference::target::target_of;

const SENTINEL: u16 = 0xABCD;

/// Compares the fixed cases, and so many random formulas with targets, codes and sums.
pub fn try_reads(number: u64, seed: u64) -> Result<(), String> {
    println!("seed {seed}");
    every_cell()?;
    beyond_the_buffer()?;
    let (mut formulas, mut cells) = (0, 0);
    for case in 0..number {
        let mut random = Random::new(seed, case);
        let repeat = |error| format!("{error}\nto repeat it: host reads {} {seed}", case + 1);
        any_code(&mut random).map_err(repeat)?;
        few_cells(&mut random).map_err(repeat)?;
        if let Some(listed) = formula(&mut random).map_err(repeat)? {
            formulas += 1;
            cells += listed;
        }
    }
    println!("{formulas} formulas with {cells} cells, {number} codes, {number} sums, 0 differences");
    Ok(())
}

// The list by the library, for so many places with sentinels behind them: as many as fit of those that are expected.
fn same_list(code: (&[u8], usize), index: (&[u8], usize), expected: &Cells, places: usize) -> Result<(), String> {
    let (lent, lent_index) = (Lent::new(code.0, code.0.len() % 8), Lent::new(index.0, 3));
    let mut list = vec![SENTINEL; CELLS + 8];
    let first = Code { lent: &lent, instructions: code.1 };
    let second = Code { lent: &lent_index, instructions: index.1 };
    let found = library::cells(first, second, &mut list[..places]);
    let mut wanted: Vec<u16> = expected.iter().copied().take(places).collect();
    wanted.resize(CELLS + 8, SENTINEL);
    let same = found as usize == expected.len() && list == wanted && lent.guards_stand() && lent_index.guards_stand();
    same.then_some(()).ok_or_else(|| {
        let names: Vec<String> = expected.iter().map(|n| name(*n)).collect();
        format!("of {} instructions, {places} places: {found} cells, expected {names:?}", code.1)
    })
}

// Six indexes read every cell: lists of 0, 1, all but one and all places.
fn every_cell() -> Result<(), String> {
    let code: Vec<u8> = BANKS.iter().flat_map(|bank| encode(Instruction::LoadIndexed(*bank))).collect();
    let all: Cells = (0..CELLS as u16).collect();
    for places in [0, 1, CELLS - 1, CELLS, CELLS + 8] {
        same_list((&code, BANKS.len()), (&[], 0), &all, places)?;
        same_list((&[], 0), (&code, BANKS.len()), &all, places)?;
    }
    Ok(())
}

// Instructions that are not there, however many are meant, and bytes that are no instruction.
fn beyond_the_buffer() -> Result<(), String> {
    let code: Vec<u8> = BANKS.iter().flat_map(|bank| encode(Instruction::Load(*bank, 5))).collect();
    for instructions in [0, 1, 5, 6, 7, 2048, 1 << 61, usize::MAX] {
        for bytes in [code.len(), code.len() - 1, 7, 0] {
            let mut cells = Cells::new();
            of_code(&code[..bytes], instructions, &mut cells);
            same_list((&code[..bytes], instructions), (&[], usize::MAX), &cells, CELLS)?;
        }
    }
    same_list((&[0xFF; 80], 10), (&[0; 80], 10), &Cells::new(), CELLS)
}

fn any_code(random: &mut Random) -> Result<(), String> {
    let mut make = || match random.below(4) {
        0 => codes::accepted(random),
        1 => codes::border(random),
        2 => bad_codes::one_instruction(random),
        _ => bad_codes::noise(random),
    };
    let (code, index) = (make(), make());
    let meant = |code: &[u8], random: &mut Random| (code.len() / INSTRUCTION_BYTES + 2).saturating_sub(random.below(4));
    let (n, k) = (meant(&code, random), meant(&index, random));
    let mut cells = Cells::new();
    of_code(&code, n, &mut cells);
    of_code(&index, k, &mut cells);
    let places = *random.pick(&[0, 1, cells.len().saturating_sub(1), cells.len(), CELLS - 1, CELLS]);
    same_list((&code, n), (&index, k), &cells, places)
}

fn put_cell(memory: &mut [u8], random: &mut Random, number: u16) {
    let (bank, element) = cell(number);
    let at = offset(bank, element);
    let end = if element + 1 < bank.cells() { offset(bank, element + 1) } else { at + (at - offset(bank, element - 1)) };
    random.fill(&mut memory[at..end]);
}

// The memory with every cell that is not listed, and every flag, at random.
fn scrambled(memory: &[u8], cells: &Cells, random: &mut Random) -> Vec<u8> {
    let mut other = memory.to_vec();
    for number in (0..CELLS as u16).filter(|number| !cells.contains(number)) {
        put_cell(&mut other, random, number);
    }
    random.fill(&mut other[FLAGS..MEMORY_BYTES]);
    other
}

// Its list is that of its tree, and of its code; answers on two memories that agree on it are the same. How many cells it has, if it is
// accepted.
fn formula(random: &mut Random) -> Result<Option<usize>, String> {
    let (target, expr, tick) = (good_target(random), formulas::formula(random), random.tick());
    let Some((code, index, cells)) = listed(&target, &expr)? else { return Ok(None) };
    let memory = images::memory(random);
    let other = scrambled(&memory, &cells, random);
    let runs = [&memory, &other].map(|memory| ran(&target, &expr, memory, tick));
    let shown = || format!("target={} expr={}", target.escape_ascii(), expr.escape_ascii());
    if runs[0].0 != runs[1].0 {
        return Err(format!("{}\n{:?}\n{:?}", shown(), runs[0].0, runs[1].0));
    }
    let evaluated = [&memory, &other].map(|memory| {
        library::FULL.evaluate(Code { lent: &Lent::new(&code.0, 0), instructions: code.1 }, &Lent::new(&lent(memory), 0), tick)
    });
    if evaluated[0] != evaluated[1] {
        return Err(format!("{}\nevaluated {:?}\n{:?}", shown(), evaluated[0], evaluated[1]));
    }
    differ_no_more([&memory, &other], [&runs[0].1, &runs[1].1], runs[0].0).map_err(|e| format!("{}\n{e}", shown()))?;
    same_list((&code.0, code.1), (&index.0, index.1), &cells, CELLS).map_err(|e| format!("{}\n{e}", shown()))?;
    Ok(Some(cells.len()))
}

type Coded = (Vec<u8>, usize);

// The code of a formula and of its target's index by the library, and the cells of the trees; nothing if either is refused.
fn listed(target: &[u8], expr: &[u8]) -> Result<Option<(Coded, Coded, Cells)>, String> {
    let (mut code, mut index) = (Lent::new(&[0; CODE_BYTES], 0), Lent::new(&[0; CODE_BYTES], 0));
    let first = library::FULL.compile(&Lent::new(expr, 0), &mut code);
    let second = library::FULL.compile_target(&Lent::new(target, 0), &mut index);
    if first.answer != 0 || second.answer != 0 {
        return Ok(None);
    }
    let mut cells = Cells::new();
    of_tree(&crate::reference::operations::read_text(expr).map_err(|r| format!("{r:?}"))?, &mut cells);
    of_target(&target_of(target).ok_or("a target that only the library takes")?, &mut cells);
    let coded = |lent: &Lent, n: u32| (lent.content().to_vec(), n as usize);
    Ok(Some((coded(&code, first.count), coded(&index, second.count), cells)))
}

fn ran(target: &[u8], expr: &[u8], memory: &[u8], tick: u32) -> (Report, Vec<u8>) {
    let (mut code, mut index) = (Lent::new(&[0; CODE_BYTES], 0), Lent::new(&[0; CODE_BYTES], 0));
    let mut memory = Lent::new(&lent(memory), 0);
    let report = library::FULL.compile_and_run(&Lent::new(target, 0), &Lent::new(expr, 0), &mut memory, [&mut code, &mut index], tick);
    (report, unpack(memory.content()))
}

// A byte that was the same in both memories is so afterwards, and the cell that the answer names holds the same.
fn differ_no_more(before: [&[u8]; 2], after: [&[u8]; 2], report: Report) -> Result<(), String> {
    for at in 0..MEMORY_BYTES {
        if before[0][at] == before[1][at] && after[0][at] != after[1][at] {
            return Err(format!("byte {at} differs afterwards"));
        }
    }
    let at = offset(BANKS[report.bank as usize], report.element as usize);
    let same = report.answer != 0 || after[0][at] == after[1][at];
    same.then_some(()).ok_or("the cell stored to differs".into())
}

// A sum of a few cells: each listed cell, changed alone, changes the value, so that a list of everything would be noticed.
fn few_cells(random: &mut Random) -> Result<(), String> {
    let mut cells = Cells::new();
    while cells.len() < 1 + random.below(5) {
        // the reals are left out: a small one can vanish beside a large one
        cells.insert(random.below(896) as u16);
    }
    let expr = cells.iter().map(|n| name(*n)).collect::<Vec<String>>().join(" + ");
    let Some((code, _, listed)) = listed(b"D0", expr.as_bytes())? else { return Err(format!("{expr} is refused")) };
    if listed != cells {
        return Err(format!("{expr} lists {listed:?}"));
    }
    let value = |memory: &[u8]| {
        library::FULL.evaluate(Code { lent: &Lent::new(&code.0, 0), instructions: code.1 }, &Lent::new(&lent(memory), 0), 0)
    };
    let memory = vec![0; MEMORY_BYTES];
    for number in &cells {
        let (bank, element) = cell(*number);
        let mut other = memory.clone();
        other[offset(bank, element)] = 1;
        if value(&memory).bits == value(&other).bits {
            return Err(format!("{expr} does not read {}", name(*number)));
        }
    }
    Ok(())
}
