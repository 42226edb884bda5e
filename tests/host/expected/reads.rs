//! crates/read_cases: targets and expressions, and the cells that each pair reads, or its refusal.

use crate::reference::memory::{Bank, BANKS};
use crate::reference::operations::read_text;
use crate::reference::program::Input;
use crate::reference::reads::{name, of_target, of_tree, Cells};
use crate::reference::target::target_of;

// Each operator and function on cells of its own.
#[rustfmt::skip]
const FORMS: [&str; 50] = [
    "D1 + D2", "D1 - D2", "D1 * D2", "D1 / D2", "D1 % D2", "D1 ** D2", "D1 << D2", "D1 >> D2", "D1 >>> D2", "D1 < D2",
    "D1 > D2", "D1 <= D2", "D1 >= D2", "D1 == D2", "D1 != D2", "D1 & D2", "D1 ^ D2", "D1 | D2", "D1 && D2", "D1 || D2",
    "-D3", "~D3", "!D3", "ABS(N4)", "TOREAL(V5)", "TOINT(R6)", "TRUNC(R6)", "ROUND(R6)", "FRAC(R6)", "MAX(C7, V8)",
    "MIN(X9, N10)", "IF(X0, D1, R2)", "TICKms()", "SINCE(D11)", "SUMR(V3, 2)", "AVGR(N3, 2)", "MAXR(D3, 2)", "MINR(R3, 2)",
    "COUNTIFEQ(D0, V3, 2)", "COUNTIFNE(D0, V3, 2)", "COUNTIFGE(D0, V3, 2)", "COUNTIFGT(D0, V3, 2)", "COUNTIFLE(D0, V3, 2)",
    "COUNTIFLT(D0, V3, 2)", "SUMIFEQ(D0, R3, 2)", "SUMIFNE(D0, R3, 2)", "SUMIFGE(D0, R3, 2)", "SUMIFGT(D0, R3, 2)",
    "SUMIFLE(D0, R3, 2)", "SUMIFLT(D0, R3, 2)",
];

// What may not run counts, a cell once; an index reads its whole bank, a range its cells and no other.
const READS: [&str; 15] = [
    "7",
    "1.5 + 0x10",
    "0 && C1",
    "1 || C1",
    "IF(0, C1, C2)",
    "IF(C[X1], 2, 3)",
    "C[C[C[X5]]]",
    "X[D1 + D2] + X3",
    "D5 + D5 * D5 - D5 / D5 % D5 ** D5 & D5 | D5 ^ D5",
    "SUMR(D10, 3) + SUMR(D11, 3) + D20 + D9",
    "COUNTIFLT(SUMR(X60, 4), C62, 2)",
    "R0 + D0 + N0 + V0 + C0 + X0",
    "SINCE(D[SINCE(X1)]) + TICKms()",
    "(((((((X[(D1)])))))))",
    "  D12  ",
];

// The cell or the bank stored to is written, not read; the index of a target is read.
const TARGETS: [(&str, &str); 12] = [
    ("D5", "D6"),
    ("D5", "D5"),
    ("D[7]", "V1"),
    ("D[D0]", "V1"),
    ("C[C[X1]]", "1"),
    ("V[IF(X0, N1, N2)]", "SUMR(N1, 2)"),
    ("R[ R1 ]", "R1"),
    ("N[SUMR(V0, 3)]", "V[1]"),
    ("C0", "C0 + 1"),
    ("D[TICKms()]", "TICKms()"),
    ("D[V0 + 1]", "V0"),
    ("V[300]", "1 / 0"),
];

// 2 comes before the text's own.
const REFUSALS: [(&str, &str); 16] = [
    ("", "D1"),
    ("", ""),
    ("X1", "$"),
    ("D256", "D1 +"),
    ("D[", "D1"),
    ("D[]", "D1"),
    ("D[1.5 & 2]", "D1"),
    ("E1", "1 2"),
    ("D0", ""),
    ("D0", "D1 + $"),
    ("D0", "2147483648"),
    ("D0", "D1 + D256"),
    ("D0", "D1 + "),
    ("D0", "(((((((((D1)))))))))"),
    ("D0", "D1 & R1"),
    ("D0", "SUMR(D250, 7) + D1"),
];

// Both ends of a bank: as cells, as ranges of one cell and of all, and by an index.
fn ends(bank: Bank) -> Vec<String> {
    let (letter, cells) = (char::from(bank.letter()), bank.cells());
    let last = cells - 1;
    vec![
        format!("{letter}0 + {letter}{last}"),
        format!("SUMR({letter}0, 1)"),
        format!("SUMR({letter}{last}, 1)"),
        format!("COUNTIFGT(1, {letter}0, {cells})"),
        format!("SUMR({letter}1, {last})"),
        format!("{letter}[0]"),
    ]
}

/// What the program `cells` prints for one case.
pub fn output(input: &Input) -> String {
    let Some(target) = target_of(&input.target) else { return "answer=2\nplace=0\n".into() };
    let tree = match read_text(&input.expr) {
        Ok(tree) => tree,
        Err(refusal) => return format!("answer={}\nplace={}\n", refusal.answer, refusal.place),
    };
    let mut cells = Cells::new();
    of_tree(&tree, &mut cells);
    of_target(&target, &mut cells);
    cells.iter().map(|n| name(*n) + "\n").collect()
}

/// Targets and expressions.
pub fn cases() -> Vec<(String, String)> {
    let texts: Vec<String> = FORMS.iter().chain(&READS).map(|text| text.to_string()).chain(BANKS.into_iter().flat_map(ends)).collect();
    let plain = texts.iter().map(|text| ("D0", text.as_str()));
    plain.chain(TARGETS).chain(REFUSALS).map(|(target, expr)| (target.to_string(), expr.to_string())).collect()
}

/// What the program reads, and what it prints.
pub fn files() -> (String, String) {
    let (mut lines, mut printed) = (String::new(), String::new());
    for (target, expr) in cases() {
        lines += &format!("{target}|{expr}\n");
        printed += &output(&Input { memory: Vec::new(), target: target.into(), expr: expr.into() });
        printed += "\n";
    }
    (lines, printed)
}
