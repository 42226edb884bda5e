//! Lists of formulas by both implementations: the ends of the rules, random lists, whole and cut in two, and pairs in both orders.

use crate::library::{self, Lent};
use crate::random::cases::{good_target, target};
use crate::random::{formulas, images, texts, Random};
use crate::reference::memory::{lent, offset, Bank, BANKS, MEMORY_BYTES};
use crate::reference::operations::{run_list, Answers, Report, CODE_BYTES, LISTED};

type Formula = (Vec<u8>, Vec<u8>);

/// Compares the fixed lists, and so many random lists and pairs.
pub fn try_lists(number: u64, seed: u64) -> Result<(), String> {
    println!("seed {seed}");
    ends_of_tables()?;
    let mut pairs = Pairs::default();
    for case in 0..number {
        let mut random = Random::new(seed, case);
        let repeat = |error| format!("{error}\nto repeat it: host lists {} {seed}", case + 1);
        random_list(&mut random).map_err(repeat)?;
        random_pair(&mut random, &mut pairs).map_err(repeat)?;
    }
    let Pairs { independent, other, differ } = pairs;
    println!("pairs: {independent} independent, none of them differs; {other} not, of which {differ} differ");
    println!("{number} random lists and pairs, 0 differences");
    Ok(())
}

// ---- lists

/// What a list is run on.
#[derive(Clone)]
struct State {
    memory: Vec<u8>,
    code: Vec<u8>,
    index_code: Vec<u8>,
}

// The words and the texts of some formulas.
fn table(list: &[Formula]) -> (Vec<u32>, Vec<u8>) {
    let (mut words, mut texts) = (Vec::new(), Vec::new());
    for text in list.iter().flat_map(|(target, expr)| [target, expr]) {
        words.extend([texts.len() as u32, text.len() as u32]);
        texts.extend(text);
    }
    (words, texts)
}

// Runs by both, and gives the answers and what they leave.
fn compare(words: &[u32], texts: &[u8], state: &State, tick: u32) -> Result<(Answers, State), String> {
    let mut after = state.clone();
    let expected = run_list(words, texts, &mut after.memory, [&mut after.code, &mut after.index_code], tick);
    let lend = |bytes: &[u8]| Lent::new(bytes, bytes.len() % 8);
    let (texts, mut memory) = (lend(texts), lend(&lent(&state.memory)));
    let (mut code, mut index_code) = (lend(&state.code), lend(&state.index_code));
    let result = library::run_list(words, &texts, &mut memory, [&mut code, &mut index_code], tick);
    let guards = [&texts, &memory, &code, &index_code].iter().all(|lent| lent.guards_stand());
    let bytes = memory.content() == lent(&after.memory) && code.content() == after.code && index_code.content() == after.index_code;
    let same = guards && bytes && result == expected;
    let difference = || format!("{words:?}\nexpected {expected:?}\ngot {result:?}, bytes {bytes}, guards {guards}");
    same.then_some((result.clone(), after)).ok_or_else(difference)
}

fn hold(condition: bool, what: &str) -> Result<(), String> {
    condition.then_some(()).ok_or_else(|| what.into())
}

const SENTINEL: u8 = 0xC3;

fn fresh(memory: usize, code: usize, index_code: usize) -> State {
    State { memory: vec![0; memory], code: vec![SENTINEL; code], index_code: vec![SENTINEL; index_code] }
}

fn formula(target: &str, expr: &str) -> Formula {
    (target.into(), expr.into())
}

// As many formulas as there may be and one more, words behind the last whole four, places and lengths beyond the texts, bad sizes.
fn ends_of_tables() -> Result<(), String> {
    let good = fresh(MEMORY_BYTES, CODE_BYTES, CODE_BYTES);
    let count = formula("D0", "D0 + 1");
    for number in [0, 1, LISTED - 1, LISTED, LISTED + 1, 2 * LISTED] {
        let (mut words, texts) = table(&vec![count.clone(); number]);
        for _ in 0..5 {
            let (answers, after) = compare(&words, &texts, &good, 0)?;
            let run = if words.len() < 4 * (LISTED + 1) { number } else { 0 };
            hold(after.memory[offset(Bank::D, 0)] as usize == run, "D0 has not counted the formulas")?;
            hold((answers.answer == 20) == (words.len() >= 4 * (LISTED + 1)), "20 is for lists over forty")?;
            words.push(0);
        }
    }
    let texts = b"D01 + 1D[V0]";
    const FAR: u32 = u32::MAX;
    for words in [[0, 2, 2, 5], [0, 2, 2, FAR], [FAR; 4], [0, 2, FAR, 1], [0, 2, 12, 1], [7, FAR, 2, 5], [7, 5, 11, 0]] {
        drop(compare(&words, texts, &good, 7)?);
    }
    let (words, texts) = table(&[count.clone(), formula("D[D0]", "1 / V0"), formula("D1", "D0 +"), formula("X0", "1"), count]);
    for (memory, code, index_code) in [(0, -1, 0), (0, 0, -1), (-1, 0, 0), (1, -9, -9), (-9, 0, 0)] {
        let sized = |size: usize, change: isize| size.saturating_add_signed(change);
        let state = fresh(sized(MEMORY_BYTES, memory), sized(CODE_BYTES, code), sized(CODE_BYTES, index_code));
        drop(compare(&words, &texts, &state, 0)?);
    }
    drop(compare(&words, &texts, &good, 0)?);
    Ok(())
}

fn any_formula(random: &mut Random) -> Formula {
    let expr = match random.below(8) {
        0 => texts::noise(random),
        _ => formulas::formula(random),
    };
    (target(random), expr)
}

fn any_or_simple(random: &mut Random) -> Formula {
    if random.one_in(3) {
        any_formula(random)
    } else {
        simple(random)
    }
}

fn any_state(random: &mut Random) -> State {
    let mut state = State { memory: images::memory(random), ..fresh(0, CODE_BYTES, CODE_BYTES) };
    if random.one_in(20) {
        state.memory.truncate(MEMORY_BYTES - 1);
    }
    state
}

// A list, whole and cut in two: the same memory, buffers and answers.
fn random_list(random: &mut Random) -> Result<(), String> {
    let most = *random.pick(&[6, 6, 6, LISTED + 3]);
    let length = random.below(most);
    let list: Vec<Formula> = (0..length).map(|_| any_or_simple(random)).collect();
    let (state, tick) = (any_state(random), random.tick());
    let (words, texts) = table(&list);
    let (whole, after) = compare(&words, &texts, &state, tick)?;
    if whole.answer != 0 {
        return Ok(());
    }
    let (one, other) = words.split_at(4 * random.below(length + 1));
    let (first, between) = compare(one, &texts, &state, tick)?;
    let (second, end) = compare(other, &texts, &between, tick)?;
    let mut answers = [&first.answers[..one.len() / 4], &second.answers[..other.len() / 4]].concat();
    answers.resize(LISTED, 0);
    hold(answers[..] == whole.answers, "two lists give other answers than the two joined")?;
    let same = end.memory == after.memory && end.code == after.code && end.index_code == after.index_code;
    hold(same, "two lists leave other bytes than the two joined")
}

// ---- pairs

#[derive(Default)]
struct Pairs {
    independent: u64,
    other: u64,
    differ: u64,
}

const CELLS: usize = 1152;

/// Which cells a formula reads and writes, by number.
struct Sets {
    reads: [bool; CELLS],
    writes: [bool; CELLS],
}

// By the library's own list, for the code that it compiles; nothing for a refused formula.
fn sets((target, expr): &Formula) -> Sets {
    let mut sets = Sets { reads: [false; CELLS], writes: [false; CELLS] };
    let lend = |bytes: &[u8]| Lent::new(bytes, 0);
    let (mut code, mut index) = (lend(&[0; CODE_BYTES]), lend(&[0; CODE_BYTES]));
    let (compiled, found) = (library::FULL.compile(&lend(expr), &mut code), library::FULL.compile_target(&lend(target), &mut index));
    if compiled.answer != 0 || found.answer != 0 {
        return sets;
    }
    let given = |lent, report: Report| library::Code { lent, instructions: report.count as usize };
    let mut list = [0; CELLS];
    let number = library::cells(given(&code, compiled), given(&index, found), &mut list);
    for cell in &list[..number as usize] {
        sets.reads[*cell as usize] = true;
    }
    let bank = BANKS[found.bank as usize];
    let first: usize = BANKS.iter().take_while(|b| **b != bank).map(|b| b.cells()).sum();
    let (from, written) = if found.count > 0 { (0, bank.cells()) } else { (found.element as usize, 1) };
    sets.writes[first + from..][..written].fill(true);
    sets
}

fn share(one: &[bool; CELLS], other: &[bool; CELLS]) -> bool {
    one.iter().zip(other).any(|(a, b)| *a && *b)
}

fn independent(one: &Formula, other: &Formula) -> bool {
    let (p, q) = (sets(one), sets(other));
    !share(&p.writes, &q.writes) && !share(&p.reads, &q.writes) && !share(&q.reads, &p.writes)
}

// Formulas over few cells, so that many pairs share one.
#[rustfmt::skip]
fn simple(random: &mut Random) -> Formula {
    const TARGETS: [&str; 14] = ["D0", "D1", "D5", "C0", "C1", "C7", "V0", "V1", "N3", "R0", "D[V0]", "D[D1]", "C[V0 % 8]", "R[N3]"];
    const EXPRS: [&str; 16] = [
        "1", "5", "D0 + 1", "D1", "D5 * D0", "C0", "C1 || C7", "V0 + 1", "1 / V1", "D[V0]", "SUMR(D0, 6)", "R0 / 2.0", "D[N3]",
        "COUNTIFEQ(0, C0, 8)", "2147483647 + D0", "IF(C0, D1, R0)",
    ];
    let expr = random.pick(&EXPRS).as_bytes().to_vec();
    let target = if random.one_in(8) { good_target(random) } else { random.pick(&TARGETS).as_bytes().to_vec() };
    (target, expr)
}

// Runs two formulas one after the other: their reports, and the memory.
fn in_turn(formulas: [&Formula; 2], state: &State, tick: u32) -> ([Report; 2], Vec<u8>) {
    let lend = |bytes: &[u8]| Lent::new(bytes, 0);
    let (mut memory, mut code, mut index_code) = (lend(&lent(&state.memory)), lend(&state.code), lend(&state.index_code));
    let reports = formulas.map(|(target, expr)| {
        library::FULL.compile_and_run(&lend(target), &lend(expr), &mut memory, [&mut code, &mut index_code], tick)
    });
    (reports, memory.content().to_vec())
}

// Two formulas in both orders: the same memory and the same two reports, if they are independent.
fn random_pair(random: &mut Random, pairs: &mut Pairs) -> Result<(), String> {
    let (e, f) = (any_or_simple(random), any_or_simple(random));
    let (state, tick) = (any_state(random), random.tick());
    let ([e_first, f_second], one) = in_turn([&e, &f], &state, tick);
    let ([f_first, e_second], other) = in_turn([&f, &e], &state, tick);
    let same = e_first == e_second && f_first == f_second && one == other;
    if !independent(&e, &f) {
        pairs.other += 1;
        pairs.differ += u64::from(!same);
        return Ok(());
    }
    pairs.independent += 1;
    let shown = |(target, expr): &Formula| format!("{} := {}", target.escape_ascii(), expr.escape_ascii());
    hold(same, &format!("two independent formulas differ by their order:\n{}\n{}", shown(&e), shown(&f)))
}
