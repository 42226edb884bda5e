//! crates/listing_cases: targets and expressions, and the listing of each pair's code, or its refusal in words.

use crate::reads::cases;
use crate::reference::compile::compile;
use crate::reference::listing::{letter, Pages};
use crate::reference::operations::read_text;
use crate::reference::target::{target_of, Target};
use crate::reference::tree::Tree;

// Jumps over jumps, both ends of what is pushed, every class in one formula, and an index that jumps.
const MORE: [(&str, &str); 12] = [
    ("D0", "0 && 1"),
    ("D0", "X1 || C2 && !N3"),
    ("R0", "IF(X0, IF(X1, 1, 2), IF(X2, 3.5, 4))"),
    ("D0", "IF(X0, 1.5, 2) + IF(X1, 1, 2.5)"),
    ("D0", "2147483647 + 0x80000000 + 0xFFFFFFFF + 0"),
    ("R0", "0.0 + -0.0 + 1E-20 + 9.99999999E20 + 16777217.0"),
    ("R0", "-D0 + ~D1 + !D2 + ABS(D3) + TOREAL(D4) + TOINT(R5) + TRUNC(R6) + ROUND(R7) + FRAC(R8)"),
    ("D0", "SUMR(X0, 64) + COUNTIFLT(R0, R0, 256) + MAX(1, MIN(2, 3)) ** 2"),
    ("D[V10 + 32]", "IF(X3, SUMR(D0, 10), -1.5)"),
    ("C[X[X1] && C[C1]]", "TICKms() - SINCE(V255)"),
    ("N[ROUND(R255)]", "(((((((N[N255] << 1) >> 2) >>> 3) & 4) ^ 5) | 6) != 7)"),
    ("V[IF(1, 2, 3)]", "R[D[N[V[C[X[0]]]]]]"),
];

fn refusal(pages: &Pages, answer: u32, place: usize) -> String {
    format!("answer={answer}\nplace={place}\nwords={}\n", pages.words(answer))
}

fn listing(pages: &Pages, tree: &Tree) -> String {
    let mut code = Vec::new();
    compile(tree, &mut code);
    pages.lines(code)
}

// What the program `listing` prints for one case.
fn output(pages: &Pages, target: &str, expr: &str) -> String {
    let Some(target) = target_of(target.as_bytes()) else { return refusal(pages, 2, 0) };
    let tree = match read_text(expr.as_bytes()) {
        Ok(tree) => tree,
        Err(refused) => return refusal(pages, refused.answer, refused.place),
    };
    let index = match &target {
        Target::Cell(..) => String::new(),
        Target::Indexed(bank, index) => format!("index={}\n{}", letter(*bank), listing(pages, index)),
    };
    listing(pages, &tree) + &index
}

/// What the program reads, and what it prints.
pub fn files() -> (String, String) {
    let pages = Pages::read();
    let (mut lines, mut printed) = (String::new(), String::new());
    let more = MORE.iter().map(|(target, expr)| (target.to_string(), expr.to_string()));
    for (target, expr) in cases().into_iter().chain(more) {
        lines += &format!("{target}|{expr}\n");
        printed += &output(&pages, &target, &expr);
        printed += "\n";
    }
    (lines, printed)
}
