//! crates/list_cases: lists of formulas, in both orders where two change places, and tables and sizes at the ends of the rules.

use crate::reference::memory::{lent, MEMORY_BYTES};
use crate::reference::operations::{run_list, CODE_BYTES};

// The tables of crates/list_cases/src/main.rt.
const SENTINEL: u8 = 195;
const TICK: u32 = 7;
const MOST_WORDS: usize = 168;
const CUTS: [usize; 6] = [159, 160, 161, 163, 164, 165];
const TEXTS: &[u8] = b"D0V0 + 1D[7]";
const FAR: u32 = u32::MAX;
const TABLES: [&[u32]; 11] = [
    &[0, 2, 2, 6],
    &[8, 4, 2, 2],
    &[8, FAR, 2, 6],
    &[0, 2, 11, FAR],
    &[0, 2, 12, 1],
    &[12, 1, 2, 6],
    &[FAR, FAR, FAR, FAR],
    &[0, 2, FAR, 1, 0, 2, 2, 6],
    &[0, 2, 2, 6, 0, 2, 2],
    &[0, 2, 2],
    &[0, 2, 2, 6, 8, 4, 2, 2],
];
const SIZES: [[usize; 3]; 4] = [
    [MEMORY_BYTES - 1, CODE_BYTES, CODE_BYTES],
    [MEMORY_BYTES + 1, CODE_BYTES, CODE_BYTES],
    [MEMORY_BYTES, CODE_BYTES - 1, CODE_BYTES],
    [MEMORY_BYTES, CODE_BYTES, CODE_BYTES - 1],
];

// Target and expression in turn. The last lists are pairs: independent ones, and for each part of independence one that breaks just it.
const LISTS: [&str; 38] = [
    "D0;1;",
    "D0;D0 + 1;D0;D0 * 5;D1;D0 - 2;",
    "D0;1 / V0;D1;7;D2;D0 + D1;",
    "D0;5;D0;1 / V0;D1;D0;",
    "D0;5;D1;D0 + 1;D2;2147483647 + D0;",
    "D0;1 +;D1;7;",
    "D0;5;D1;(D0;D2;D0;",
    "D0;5;D1;D0;D2;V256;",
    "X0;1;D0;2;",
    ";1;D0;2;",
    "D0;;D1;1;",
    "D0;5",
    "D0;5;D1;",
    "D[300];1;D0;2;",
    "V0;300;D[V0];1;D0;V0;",
    "D[-1];1 / V0;D0;3;",
    "D0;3000.0 ** 3;R0;3000.0 ** 3;D1;R0;",
    "D0;TICKms();D1;SINCE(D0 - 3);",
    "D[D0];4;D[D0];6;D[D4];D0;",
    "D0;5;D[D0];SUMR(D0, 6);D5;D5 + 1;",
    "C0;1;C7;1;C[3];C0 && C7;",
    "C7;1;C0;1;C[3];C0 && C7;",
    "C0;1;C7;1;C0;0;",
    "D1;9;D2;1 / V9;D3;2147483647 + D1;",
    "D1;9;D3;2147483647 + D1;D2;1 / V9;",
    "D0;D0 + 3;D1;D1 - 4;",
    "D1;D1 - 4;D0;D0 + 3;",
    "D0;1;D0;2;",
    "D0;2;D0;1;",
    "D0;D1;D1;5;",
    "D1;5;D0;D1;",
    "V0;5;D[V0];1;V0;7;",
    "V0;5;V0;7;D[V0];1;",
    "V0;5;D[V0];1;D5;2;",
    "V0;5;D5;2;D[V0];1;",
    "V0;9;D[V0];1;D5;2;",
    "V0;9;D5;2;D[V0];1;",
    "V0;5;N[V0];1;D5;2;",
];

/// What the program reads, and what it prints.
pub fn files() -> (Vec<u8>, String) {
    let again = "D0;D0 + 1;";
    let mut lines = vec![again.repeat(42), again.repeat(41), again.repeat(40), String::new()];
    lines.extend(LISTS.map(String::from));
    let mut printed: String = lines.iter().map(|line| run_line(line.as_bytes(), MOST_WORDS)).collect();
    printed += &CUTS.map(|most| run_line(lines[0].as_bytes(), most)).concat();
    let good = [MEMORY_BYTES, CODE_BYTES, CODE_BYTES];
    printed += &TABLES.map(|words| run(words, TEXTS, good)).concat();
    printed += &SIZES.map(|sizes| run(&[0, 2, 2, 6, 8, 4, 2, 2], TEXTS, sizes)).concat();
    (lines.iter().flat_map(|line| format!("{line}\n").into_bytes()).collect(), printed)
}

// The pieces of a line: each ends at a `;`, the last at the line's end if something stands there.
fn run_line(line: &[u8], most: usize) -> String {
    let (mut words, mut at) = (Vec::new(), 0);
    while at < line.len() {
        let length = line[at..].iter().take_while(|b| **b != b';').count();
        words.extend([at as u32, length as u32]);
        at += length + 1;
    }
    words.truncate(MOST_WORDS.min(most));
    run(&words, line, [MEMORY_BYTES, CODE_BYTES, CODE_BYTES])
}

fn run(words: &[u32], texts: &[u8], [memory, code, index_code]: [usize; 3]) -> String {
    let mut memory = vec![0; memory];
    let [mut code, mut index_code] = [code, index_code].map(|size| vec![SENTINEL; size]);
    let result = run_list(words, texts, &mut memory, [&mut code, &mut index_code], TICK);
    let answers = result.answers.map(|answer| format!(" {answer}")).concat();
    let sums = [&lent(&memory), &code, &index_code].map(|bytes| format!(" {}", sum(bytes))).concat();
    format!("{}{answers}{sums}\n", result.answer)
}

fn sum(bytes: &[u8]) -> u64 {
    bytes.iter().fold(0, |sum, b| (sum * 31 + u64::from(*b)) % 65521)
}
