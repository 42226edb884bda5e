//! Random formulas that follow the grammar.

use super::Random;
use crate::reference::memory::{Bank, BANKS};
use crate::reference::value::Kind;

const TEXT_LIMIT: usize = 1024;

// Tightest first.
const LEVELS: [&[&str]; 11] = [
    &["**"],
    &["*", "/", "%"],
    &["+", "-"],
    &["<<", ">>", ">>>"],
    &["<", ">", "<=", ">="],
    &["==", "!="],
    &["&"],
    &["^"],
    &["|"],
    &["&&"],
    &["||"],
];
const LOOSEST_REAL: usize = 2;
const TESTS: [&str; 6] = ["EQ", "NE", "GE", "GT", "LE", "LT"];

#[derive(Clone, Copy)]
enum Shape {
    Any,
    /// The left operand takes all: long chains.
    Chain,
    /// The right operand takes all: deep brackets, many values held.
    Deep,
}

struct Writer<'a> {
    random: &'a mut Random,
    text: Vec<u8>,
    /// How many brackets may still be opened.
    brackets: usize,
    shape: Shape,
    /// 0 none, 1 one space around operators, 2 any blanks.
    blanks: usize,
    /// Kinds are not looked after, so that answer 9 comes up.
    careless: bool,
}

/// A formula of the grammar with at most 1,024 bytes. Few have operands of the wrong kind or a ninth bracket open.
pub fn formula(random: &mut Random) -> Vec<u8> {
    let most = match random.below(20) {
        0..=9 => 6,
        10..=16 => 25,
        17..=18 => 90,
        _ => 400,
    };
    let mut operands = 1 + random.below(most);
    let shape = *random.pick(&[Shape::Any, Shape::Any, Shape::Chain, Shape::Deep]);
    let blanks = random.below(3);
    let careless = random.one_in(12);
    let brackets = if random.one_in(20) { 9 } else { 8 };
    loop {
        let mut writer = Writer { random, text: Vec::new(), brackets, shape, blanks, careless };
        let kind = writer.either();
        writer.expression(kind, LEVELS.len(), operands);
        let text = writer.text;
        if text.len() <= TEXT_LIMIT {
            return text;
        }
        operands = operands / 2 + 1;
    }
}

/// A short formula for an index; many give the number of a cell.
pub fn index(random: &mut Random) -> Vec<u8> {
    let most = *random.pick(&[1, 1, 2, 6]);
    let mut operands = 1 + random.below(most);
    if operands == 1 && random.one_in(2) {
        let integers = ["0", "63", "64", "255", "256", "V0", "X1 ", " D2", "V1 + 2", "-1", "D0"];
        let text = if random.reals && random.one_in(6) { random.pick(&["1.9", "-0.0"]) } else { random.pick(&integers) };
        return text.as_bytes().to_vec();
    }
    let brackets = if random.one_in(20) { 8 } else { 7 };
    loop {
        let mut writer = Writer { random, text: Vec::new(), brackets, shape: Shape::Any, blanks: 2, careless: false };
        let kind = writer.either();
        writer.expression(kind, LEVELS.len(), operands);
        let text = writer.text;
        if text.len() <= TEXT_LIMIT {
            return text;
        }
        operands -= 1;
    }
}

impl Writer<'_> {
    fn either(&mut self) -> Kind {
        self.random.kind()
    }

    fn blank(&mut self) {
        match self.blanks {
            1 => self.text.push(b' '),
            2 => {
                for _ in 0..self.random.below(3) {
                    let blank = *self.random.pick(b" \t");
                    self.text.push(blank);
                }
            }
            _ => {}
        }
    }

    fn write(&mut self, symbol: &str) {
        self.text.extend(symbol.as_bytes());
    }

    // An expression with operators from fewer than the given number of levels and about as many operands as given.
    fn expression(&mut self, kind: Kind, levels: usize, operands: usize) {
        let kind = if self.careless && self.random.one_in(4) { self.either() } else { kind };
        let levels = if kind == Kind::Real { levels.min(LOOSEST_REAL + 1) } else { levels };
        if operands <= 1 || levels == 0 || self.random.one_in(8) {
            return self.unary(kind, operands);
        }
        let level = match self.shape {
            // One level after the other, so that as many values as possible wait.
            Shape::Deep => levels - 1 - self.random.below(2).min(levels - 1),
            _ => self.random.below(levels),
        };
        let right = match self.shape {
            Shape::Any => 1 + self.random.below(operands - 1),
            Shape::Chain => 1 + self.random.below(2).min(operands - 2),
            Shape::Deep => operands - 1,
        };
        let (left_kind, right_kind) = self.operand_kinds(level, kind);
        self.expression(left_kind, level + 1, operands - right);
        self.blank();
        let operator = self.random.pick(LEVELS[level]);
        self.write(operator);
        self.blank();
        // Most exponents and shift counts are small: the others only give 13.
        if (level == 0 || level == 3) && right < 10 && !self.random.one_in(5) {
            let count = self.random.below(if level == 0 { 5 } else { 33 });
            return self.write(&count.to_string());
        }
        self.expression(right_kind, level, right);
    }

    // Kinds of the operands with which an operator of the level gives the kind.
    fn operand_kinds(&mut self, level: usize, kind: Kind) -> (Kind, Kind) {
        match level {
            0 => (kind, Kind::Int),
            1 | 2 => self.at_least_one(kind),
            4 | 5 | 9 | 10 => (self.either(), self.either()),
            _ => (Kind::Int, Kind::Int),
        }
    }

    fn at_least_one(&mut self, kind: Kind) -> (Kind, Kind) {
        match kind {
            Kind::Int => (Kind::Int, Kind::Int),
            Kind::Real if self.random.one_in(2) => (Kind::Real, self.either()),
            Kind::Real => (self.either(), Kind::Real),
        }
    }

    fn unary(&mut self, kind: Kind, operands: usize) {
        let mut kind = kind;
        let operators = match self.random.below(60) {
            0 => self.random.below(60),
            1..=20 => 1 + self.random.below(2),
            _ => 0,
        };
        for _ in 0..operators {
            match (kind, self.random.below(3)) {
                (Kind::Int, 0) => self.write("~"),
                (Kind::Int, 1) => {
                    self.write("!");
                    kind = self.either();
                }
                _ => self.write("-"),
            }
            self.blank();
        }
        self.primary(kind, operands);
    }

    fn primary(&mut self, kind: Kind, operands: usize) {
        if self.brackets == 0 || (operands <= 1 && !self.random.one_in(6)) {
            return self.leaf(kind);
        }
        self.brackets -= 1;
        match self.random.below(5) {
            0 | 1 => {
                self.write("(");
                self.inside(kind, operands);
                self.write(")");
            }
            2 => self.indexed(kind, operands),
            _ => self.call(kind, operands),
        }
        self.brackets += 1;
    }

    fn inside(&mut self, kind: Kind, operands: usize) {
        self.blank();
        self.expression(kind, LEVELS.len(), operands);
        self.blank();
    }

    fn indexed(&mut self, kind: Kind, operands: usize) {
        let bank = if kind == Kind::Real { b'R' } else { *self.random.pick(b"XCVND") };
        self.text.push(bank);
        self.write("[");
        // Most of the simple ones lie within their bank.
        if operands <= 1 && self.random.one_in(2) {
            let index = self.random.below(70);
            self.write(&index.to_string());
        } else {
            let index = self.either();
            self.inside(index, operands);
        }
        self.write("]");
    }

    fn call(&mut self, kind: Kind, operands: usize) {
        let any = self.either();
        match self.random.below(6) {
            0 => self.arguments("ABS", &[kind], operands),
            1 if kind == Kind::Real => {
                let name = *self.random.pick(&["TOREAL", "FRAC"]);
                self.arguments(name, &[any], operands);
            }
            1 => {
                let name = *self.random.pick(&["TOINT", "TRUNC", "ROUND"]);
                self.arguments(name, &[any], operands);
            }
            2 => {
                let name = *self.random.pick(&["MAX", "MIN"]);
                let (first, second) = self.at_least_one(kind);
                self.arguments(name, &[first, second], operands);
            }
            3 if kind == Kind::Int => match self.random.one_in(3) {
                true => self.arguments("TICKms", &[], operands),
                false => self.arguments("SINCE", &[Kind::Int], operands),
            },
            4 => self.range_call(kind, operands),
            _ => {
                let (first, second) = self.at_least_one(kind);
                self.arguments("IF", &[any, first, second], operands);
            }
        }
    }

    fn arguments(&mut self, name: &str, kinds: &[Kind], operands: usize) {
        self.write(name);
        self.blank();
        self.write("(");
        for (number, kind) in kinds.iter().enumerate() {
            if number > 0 {
                self.write(",");
            }
            self.inside(*kind, operands / kinds.len());
        }
        self.write(")");
    }

    fn range_call(&mut self, kind: Kind, operands: usize) {
        let bank = self.random.bank();
        let counts = kind == Kind::Int && self.random.one_in(3);
        let name = match (kind, bank.kind()) {
            (Kind::Real, Kind::Int) => "AVGR".to_string(),
            (Kind::Int, Kind::Real) => format!("COUNTIF{}", self.random.pick(&TESTS)),
            _ if counts => format!("COUNTIF{}", self.random.pick(&TESTS)),
            _ if self.random.one_in(2) => self.random.pick(&["SUMR", "MAXR", "MINR"]).to_string(),
            _ => format!("SUMIF{}", self.random.pick(&TESTS)),
        };
        self.write(&name);
        self.blank();
        self.write("(");
        if name.contains("IF") {
            let any = self.either();
            self.inside(any, operands);
            self.write(",");
        }
        self.range(bank);
        self.write(")");
    }

    // A first cell and a count, few of them past the bank or below 1.
    fn range(&mut self, bank: Bank) {
        let first = [0, 1, self.random.below(bank.cells()), bank.cells() - 1][self.random.below(4)];
        let left = bank.cells() - first;
        let count = match self.random.below(12) {
            0 => left,
            1 if self.careless => *self.random.pick(&[0, left + 1, 257, 0xFFFF_FFFF]),
            _ => 1 + self.random.below(left.min(12)),
        };
        self.blank();
        self.write(&format!("{}{first}", bank.letter() as char));
        self.blank();
        self.write(",");
        self.blank();
        let text = match self.random.below(8) {
            0 => format!("0x{count:X}"),
            1 => format!("00{}", count.min(999)),
            _ => count.min(999).to_string(),
        };
        self.write(&text);
        self.blank();
    }

    fn leaf(&mut self, kind: Kind) {
        match (kind, self.random.one_in(2)) {
            (_, true) => self.cell(kind),
            (Kind::Int, _) => self.integer(),
            (Kind::Real, _) => self.real(),
        }
    }

    fn cell(&mut self, kind: Kind) {
        let bank = if kind == Kind::Real { BANKS[5] } else { BANKS[self.random.below(5)] };
        let element = if self.random.one_in(4) { self.random.below(bank.cells()) } else { self.random.below(10) };
        self.text.push(bank.letter());
        self.write(&element.to_string());
    }

    fn integer(&mut self) {
        let i = self.random.integer();
        let text = match self.random.below(8) {
            0 => format!("0x{i:x}"),
            1 => format!("0x{i:08X}"),
            2 => format!("000{}", i.unsigned_abs() % 1000),
            3 => format!("{}", i.unsigned_abs().min(i32::MAX as u32)),
            _ => format!("{}", self.random.below(20)),
        };
        self.write(&text);
    }

    /// One to nine digits with a dot, an exponent or both.
    fn real(&mut self) {
        let digits = 2 + self.random.below(8);
        let text: Vec<u8> = (0..digits).map(|_| b'0' + self.random.below(10) as u8).collect();
        let dot = 1 + self.random.below(digits - 1);
        let whole = self.random.below(4) == 0;
        self.text.extend(&text[..dot]);
        if !whole {
            self.text.push(b'.');
            self.text.extend(&text[dot..]);
        }
        if whole || self.random.below(4) == 0 {
            let sign = ["", "+", "-"][self.random.below(3)];
            let size = self.random.below(21);
            self.write(&format!("E{sign}{size}"));
        }
    }
}
