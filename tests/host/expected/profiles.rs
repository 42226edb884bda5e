//! crates/profile_cases: texts, targets and codes with and without reals, and what the operations of the profile without reals make of them. The answer that
//! the request gives each stands beside it, and must be what the second implementation gives.

use super::shown;
use crate::reference::code::Instruction::{self, *};
use crate::reference::code::{encode, INSTRUCTION_BYTES};
use crate::reference::memory::{lent, unpack, Bank, MEMORY_BYTES, PACKED_BYTES};
use crate::reference::operations::{Code, Report, CODE_BYTES, TEXT_BYTES};
use crate::reference::operators::{Binary, Unary as Prefix};
use crate::reference::profile;
use crate::reference::totals::{Matching, Range, Total as Of, MATCHINGS, TESTS, TOTALS};
use crate::reference::value::Value;

// Of crates/profile_cases/src/main.rt.
const SENTINEL: u8 = 195;
const TICK_OF_RUNS: u32 = 0x8000_0005;
const ROOM: usize = 65536;
const STORED: [(u32, u32); 4] = [(0, 0x8000_0001), (1, 0x3F80_0000), (1, 0x7F80_0000), (77, 0)];

const REAL_TOKENS: [&str; 11] = ["R0", "R255", "R", "1.5", "0.0", "1E5", "12E-3", "0E0", "TOREAL", "FRAC", "AVGR"];

// Each is 19 at the token, or what is said, with its place, whatever the token.
fn token_texts() -> Vec<(u32, usize, String)> {
    let with = |token: &str| {
        let long = format!("{token:>width$}", width = TEXT_BYTES);
        vec![
            (19, 0, token.to_string()),
            (19, 4, format!("1 + {token}")),
            (19, 6, format!("1 + ) {token} (")),
            (19, 9, format!("((((((((({token}")),
            (19, 0, format!("{token} + 1.5 + R7")),
            (19, 5, format!("D0 - {token} D0")),
            (19, TEXT_BYTES - token.len(), long.clone()),
            (3, 0, long + " "),
            (4, 0, format!("$ {token}")),
            (4, token.len() + 1, format!("{token} $")),
            (5, 0, format!("2147483648 + {token}")),
            (6, token.len() + 1, format!("{token} D256")),
        ]
    };
    REAL_TOKENS.iter().flat_map(|token| with(token)).collect()
}

#[rustfmt::skip]
const TEXTS: [(u32, usize, &str); 45] = [
    (19, 0, "R[0]"), (19, 0, "TOREAL(1)"), (19, 0, "FRAC(1)"), (19, 0, "AVGR(D0, 2)"), (19, 2, "D[R0]"), (19, 2, "D[1.0]"),
    (19, 13, "COUNTIFGT(0, R0, 3)"), (19, 5, "SUMR(R0, 0)"), (19, 5, "MAXR(R0, 1)"), (19, 11, "SUMIFLE(1, R250, 7)"), (19, 0, "1.5 & 1"),
    (19, 9, "SUMR(D0, 2.0)"), (19, 11, "SUMR(D0,0)+R0"), (19, 6, "0 && (R0 + 1)"), (19, 9, "IF(1, 2, 3.0)"), (19, 6, "SINCE(R0)"), (19, 6, "TRUNC(2.5)"),
    (6, 0, "R256"), (6, 0, "R00"), (4, 0, "1.x + R0"), (5, 0, "1.2345678901 + R0"), (3, 0, ""), (6, 8, "SUMR(D0,0)"), (6, 0, "TOREALS"), (7, 3, "1 +"),
    (8, 8, "(((((((((1"), (7, 0, ")"),
    (0, 0, "TRUNC(7)"), (0, 0, "TOINT(-7)"), (0, 0, "ROUND(N1)"), (0, 0, "TICKms()"), (0, 0, "SINCE(5)"), (0, 0, "COUNTIFGT(5, X0, 64)"),
    (0, 0, "SUMR(V0, 9) + MAXR(N7, 3) - MINR(D5, 2) % 9"), (0, 0, "SUMIFLT(0, N0, 256)"), (0, 0, "D[V0 % 256] / 3 ** 2"), (0, 0, "IF(X0, -1, ~2) << 3"),
    (0, 0, "0 && 1/0"), (0, 0, "MAX(D1, 0x80000000) >>> 1 | 1"), (0, 0, "!D0 || D0 <= D1 != 5"), (11, 0, "1 / 0"),
    (12, 0, "2147483647 + 1"), (13, 0, "1 << 32"),
    (14, 0, "D[256]"), (14, 0, "V[-1]"),
];

#[rustfmt::skip]
const TARGETS: [(u32, &str); 30] = [
    (2, "R0"), (2, "R255"), (2, "R[0]"), (2, "R[V0]"), (2, "R[R0]"), (2, "D[R0]"), (2, "D[1.0]"), (2, "D[1E1]"), (2, "D[TOREAL(1)]"), (2, "D[FRAC(1)]"),
    (2, "D[AVGR(D0, 1)]"), (2, "D[SUMR(R0, 1)]"), (2, "D[COUNTIFGT(0, R0, 1)]"), (2, "D[R[0]]"), (2, "D[IF(1, 2, 3.0)]"),
    (2, "V[0 && R0]"), (2, "D[TRUNC(1.5)]"),
    (2, "R"), (2, "D"), (2, "X0"), (2, "R256"), (2, "D256"), (0, "D0"), (0, "V3"), (0, "N[2]"), (0, "C[X0]"), (0, "D[TRUNC(1)]"), (0, "V[ SUMR(X0, 9) ]"),
    (14, "D[300]"), (11, "D[1 / 0]"),
];

fn int(i: i32) -> Instruction {
    Push(Value::Int(i))
}

fn real(r: f32) -> Instruction {
    Push(Value::Real(r))
}

fn range(bank: Bank) -> Range {
    Range { bank, first: 250, count: 3 }
}

// An instruction that is never reached.
fn unreached(instruction: Instruction) -> Vec<Instruction> {
    vec![int(3), Jump(1), instruction]
}

// Run's answer for a target and the code of its index.
fn run_targets() -> Vec<(u32, &'static str, Vec<Instruction>)> {
    let good = vec![int(3)];
    vec![
        (2, "R", good.clone()),
        (2, "R", vec![real(1.0)]),
        (2, "R0", good.clone()),
        (2, "R256", good.clone()),
        (2, "X", good.clone()),
        (0, "D", good.clone()),
        (0, "V", vec![Tick, int(4), Binary(Binary::Remainder), Unary(Prefix::Abs)]),
        (0, "D0", vec![real(1.0)]),
        (0, "D", unreached(real(1.0))),
        (15, "D", vec![real(1.0)]),
        (15, "D", vec![Load(Bank::R, 0)]),
        (15, "D", unreached(Load(Bank::R, 0))),
        (15, "D", vec![int(1), Unary(Prefix::ToReal), Unary(Prefix::Trunc)]),
        (15, "D", Vec::new()),
        (14, "C", vec![int(64)]),
        (11, "N", vec![int(1), int(0), Binary(Binary::Divide)]),
    ]
}

// The check's answer for each code.
fn codes() -> Vec<(u32, Vec<Instruction>)> {
    let taken = |mut code: Vec<Instruction>| {
        code.push(Unary(Prefix::Trunc));
        (15, code)
    };
    let mut all = vec![
        (0, vec![int(7)]),
        (0, vec![int(7), Unary(Prefix::Trunc), Unary(Prefix::Round)]),
        (0, vec![Load(Bank::D, 1), Load(Bank::V, 2), Binary(Binary::Xor)]),
        (0, vec![int(1), int(0), Binary(Binary::Remainder)]),
        (0, vec![Tick, Since]),
        (0, vec![int(5), LoadIndexed(Bank::N)]),
        (0, unreached(real(1.5))),
        (0, unreached(Unary(Prefix::ToReal))),
        (0, unreached(Total(Of::Average, range(Bank::D)))),
        (15, unreached(Load(Bank::R, 0))),
        (15, unreached(LoadIndexed(Bank::R))),
        taken(vec![real(1.5)]),
        taken(vec![Load(Bank::R, 0)]),
        taken(vec![int(0), LoadIndexed(Bank::R)]),
        taken(vec![int(1), Unary(Prefix::ToReal)]),
        taken(vec![int(1), Unary(Prefix::Frac)]),
        taken(vec![Total(Of::Average, range(Bank::D))]),
        (15, vec![real(1.5)]),
        (15, vec![real(1.0), real(2.0), Binary(Binary::Less)]),
        (15, vec![int(1), real(2.0), JumpIf(true, 0)]),
        (15, vec![real(2.0), LoadIndexed(Bank::D)]),
        (15, vec![real(2.0), Match(Matching::Count, Binary::Less, range(Bank::D))]),
        (15, Vec::new()),
        (15, vec![int(1), int(2)]),
    ];
    for bank in [Bank::D, Bank::R] {
        let answer = if bank == Bank::R { 15 } else { 0 };
        for op in TOTALS {
            let total = Total(op, range(bank));
            all.push((answer, unreached(total)));
            all.push((if op == Of::Average { 15 } else { answer }, vec![total, Unary(Prefix::Trunc)]));
        }
        for (op, test) in MATCHINGS.into_iter().flat_map(|op| TESTS.map(|test| (op, test))) {
            let matching = Match(op, test, range(bank));
            all.push((answer, unreached(matching)));
            all.push((answer, vec![int(9), matching, Unary(Prefix::Trunc)]));
        }
    }
    all
}

fn bytes_of(code: &[Instruction]) -> Vec<u8> {
    code.iter().flat_map(|instruction| encode(*instruction)).collect()
}

fn hex(code: &[u8]) -> String {
    code.iter().map(|byte| format!("{byte:02X}")).collect()
}

fn sum(bytes: &[u8]) -> u64 {
    bytes.iter().fold(0, |sum, byte| (sum * 31 + u64::from(*byte)) % 65521)
}

fn line(report: Report, memory: &[u8], code: &[u8], index_code: &[u8]) -> String {
    let Report { answer, place, kind, bits, count, bank, element } = report;
    let value = shown(Value::of_bits(kind, bits));
    let [a, b, c] = [&lent(memory), code, index_code].map(sum);
    format!("{answer} {place} {value} {count} {bank} {element} {a} {b} {c}\n")
}

// The memory whose packed bytes count up.
fn memory() -> Vec<u8> {
    let packed: Vec<u8> = (0..PACKED_BYTES).map(|i| (i % 251) as u8).collect();
    unpack(&packed)
}

fn given(code: &[u8]) -> Code<'_> {
    Code { bytes: code, instructions: code.len() / INSTRUCTION_BYTES }
}

#[derive(Default)]
struct Files {
    input: String,
    printed: String,
}

impl Files {
    fn print(&mut self, report: Report, memory: &[u8], code: &[u8], index_code: &[u8]) -> (u32, usize) {
        self.printed += &line(report, memory, code, index_code);
        (report.answer, report.place as usize)
    }

    fn compile_and_run(&mut self, target: &str, expr: &str) -> (u32, usize) {
        let (mut memory, mut code, mut index) = (memory(), vec![SENTINEL; CODE_BYTES], vec![SENTINEL; CODE_BYTES]);
        let codes = [&mut code[..], &mut index[..]];
        let report = profile::compile_and_run(target.as_bytes(), expr.as_bytes(), &mut memory, codes, TICK_OF_RUNS);
        self.print(report, &memory, &code, &index)
    }

    fn text(&mut self, expr: &str) -> (u32, usize) {
        self.input += &format!("={expr}\n");
        let mut code = vec![SENTINEL; CODE_BYTES];
        let report = profile::compile(expr.as_bytes(), &mut code);
        self.print(report, &[], &code, &[]);
        self.compile_and_run("D0", expr)
    }

    fn target(&mut self, target: &str) -> u32 {
        self.input += &format!("@{target}\n");
        let mut index = vec![SENTINEL; CODE_BYTES];
        let report = profile::compile_target(target.as_bytes(), &mut index);
        self.print(report, &[], &[], &index);
        self.compile_and_run(target, "7").0
    }

    fn run(&mut self, code: &[u8], target: &str, index_code: &[u8]) -> u32 {
        let mut memory = memory();
        let report = profile::run(given(code), &mut memory, target.as_bytes(), given(index_code), TICK_OF_RUNS);
        self.print(report, &memory, code, index_code).0
    }

    fn run_target(&mut self, target: &str, index_code: &[u8]) -> u32 {
        self.input += &format!(">{target} {}\n", hex(index_code));
        let answer = self.run(&bytes_of(&[int(7)]), target, index_code);
        for (kind, bits) in STORED {
            let mut memory = memory();
            let value = Value::of_bits(kind, bits);
            let report = profile::store_value(value, &mut memory, target.as_bytes(), given(index_code), TICK_OF_RUNS);
            self.print(report, &memory, &[], index_code);
        }
        answer
    }

    fn code(&mut self, code: &[u8]) -> u32 {
        self.input += &format!("#{}\n", hex(code));
        let report = profile::check(code, code.len() / INSTRUCTION_BYTES);
        let (answer, _) = self.print(report, &[], code, &[]);
        let memory = memory();
        let report = profile::evaluate(given(code), &memory, TICK_OF_RUNS);
        self.print(report, &memory, code, &[]);
        self.run(code, "D0", &[]);
        answer
    }

    // 1 and 10 come before 2 and 19.
    fn sizes(&mut self) {
        let (counting, zeros) = (&memory()[..], vec![0; MEMORY_BYTES]);
        let (mut small, mut large) = (vec![SENTINEL; CODE_BYTES - 1], vec![SENTINEL; CODE_BYTES]);
        let mut short = lent(counting);
        short.pop();
        let report = profile::store_value(Value::Real(1.0), &mut short, b"R0", given(&[]), TICK_OF_RUNS);
        self.print(report, &short, &[], &[]);
        let report = profile::compile(b"R0", &mut small);
        self.print(report, &[], &small, &[]);
        let report = profile::compile_target(b"R0", &mut small);
        self.print(report, &[], &[], &small);
        for mut memory in [short, zeros] {
            let report = profile::compile_and_run(b"R0", b"R0", &mut memory, [&mut large, &mut small], TICK_OF_RUNS);
            self.print(report, &memory, &large, &small);
        }
    }
}

/// What the program reads, and what it prints.
pub fn files() -> Result<(String, String), String> {
    let mut files = Files::default();
    let hold = |stated: (u32, usize), worked_out: (u32, usize), case: &str| match stated == worked_out {
        true => Ok(()),
        false => Err(format!("stated {stated:?}, worked out {worked_out:?}: {case}")),
    };
    let fixed = TEXTS.iter().map(|(answer, place, text)| (*answer, *place, text.to_string()));
    for (answer, place, text) in token_texts().into_iter().chain(fixed) {
        hold((answer, place), files.text(&text), &text)?;
    }
    for (answer, target) in TARGETS {
        hold((answer, 0), (files.target(target), 0), target)?;
    }
    for (answer, target, index) in run_targets() {
        hold((answer, 0), (files.run_target(target, &bytes_of(&index)), 0), target)?;
    }
    for (answer, code) in codes() {
        hold((answer, 0), (files.code(&bytes_of(&code)), 0), &format!("{code:?}"))?;
    }
    files.sizes();
    assert!(files.input.len() < ROOM);
    Ok((files.input, files.printed))
}
