//! crates/format_cases: expressions, and each as it is saved or its refusal.

use crate::reference::format::format;

const OPERATORS: [&str; 20] =
    ["**", "*", "/", "%", "+", "-", "<<", ">>", ">>>", "<", ">", "<=", ">=", "==", "!=", "&", "^", "|", "&&", "||"];

const UNARY: [&str; 3] = ["-", "~", "!"];

const PRIMARIES: [&str; 8] = ["7", "D1", "D[1]", "(7)", "(1+2)", "ABS(1)", "TICKms( )", "SUMR(D0,2)"];

#[rustfmt::skip]
const TEXTS: [&str; 58] = [
    "1+2*3", "(1+2)*3", "1-2-3", "1-(2-3)", "2**3**2", "2**(3**2)", "-2**2", "-(2**2)", "-(-1)", "--1", "5 - -3", "!(D0==1)", "1<2<3", "1 + (2 * 3)",
    "((((((((1))))))))", "((((((((1+2))))))))*3", "ABS (1)", "D [ 0 ]", "\tD\t[\t0\t]\t", "D[D[D[1+2*3]]]", "D[(1)]", "D[(1+2)]", "MAX((1),(2+3))", "IF( (1) , (2) , (3) )",
    "0x0A", "0XfF", "0xfF", "007", "1.50", "1E+5", "1E-5", "1.50E+05", "TOINT(1.5)", "TRUNC(1.5)", "SUMR(D0,010)", "SUMR(D0,0x2)", "SUMIFGE(D1+2,V0,010)", "COUNTIFEQ((R0),R1,3)",
    "SINCE( D0-1 )", "TICKms ( )", "SINCE(TICKms())", "-TICKms()", "~(D0)", "!(D[1])", "-((1))", "!-~1", "1-(-2)", "(1)-(2)", "1 ** -2", "ROUND((R0*2))",
    "1||1&&1|1^1&1==1<1<<1+1*1**1", "1**1*1+1<<1<1==1&1^1|1&&1||1", "", " ", "1+", "1+$", "1.5&2", "(((((((((1)))))))))",
];

// Levels 8 and 9 reached by `(`, by `[` and by calls.
fn deep() -> Vec<String> {
    let mut all = Vec::new();
    for n in 6..=8 {
        all.push(format!("{}1+1*1{}", "D[".repeat(n), "]".repeat(n)));
        all.push(format!("{}1+1*1{}", "ABS(".repeat(n), ")".repeat(n)));
        all.push(format!("{}1{}", "1-(".repeat(n), ")".repeat(n)));
        all.push(format!("{}1+1*1+1<<1{}", "-(1-".repeat(n), ")".repeat(n)));
    }
    all
}

// Texts of 1,022 to 1,026 bytes when they are saved, and longer and deeper ones.
fn long() -> Vec<String> {
    let mut all: Vec<String> = (0..5).map(|n| "1+".repeat(253) + &"7".repeat(9) + "+0" + &"0".repeat(n)).collect();
    for n in [254, 255, 256, 257] {
        all.push("1+".repeat(n) + "1");
    }
    all.push("1*2+".repeat(120) + "1");
    all.push("1*2+".repeat(200) + "1");
    all.push("-".repeat(1023) + "1");
    all.push("1||1&&1|1^1&1==1<1<<1+1*1**1+".repeat(30) + "1");
    all
}

fn pairs() -> Vec<String> {
    let mut all = Vec::new();
    for a in OPERATORS {
        for b in OPERATORS {
            all.push(format!("1{a}1{b}1"));
            all.push(format!("(1{a}1){b}1"));
            all.push(format!("1{a}(1{b}1)"));
        }
        all.extend(UNARY.map(|u| format!("{u}(1{a}1)")));
        all.extend(UNARY.map(|u| format!("{u}1{a}{u}1")));
    }
    for u in UNARY {
        for v in UNARY {
            all.extend(PRIMARIES.map(|p| format!("{u}{v}{p}")));
        }
        all.extend(PRIMARIES.map(|p| format!("{u} ( {p} )")));
    }
    all
}

/// What the program `format` prints for one case.
pub fn output(expr: &[u8]) -> String {
    match format(expr, 1024) {
        Ok(text) => format!("answer=0\nplace=0\nexpr={text}\n"),
        Err(refusal) => format!("answer={}\nplace={}\n", refusal.answer, refusal.place),
    }
}

/// What the program reads, and what it prints.
pub fn files() -> (String, String) {
    let texts = TEXTS.iter().map(|text| text.to_string()).chain(deep()).chain(long()).chain(pairs());
    let (mut lines, mut printed) = (String::new(), String::new());
    for text in texts {
        printed += &(output(text.as_bytes()) + "\n");
        lines += &(text + "\n");
    }
    (lines, printed)
}
