//! The tree of a formula: its kind, answers 9 and the late 6, and its value worked out on the tree itself.

use super::memory::{read, read_indexed, Bank};
use super::operators::{binary, binary_kind, since, since_kind, unary, unary_kind, Binary, Unary};
use super::text::Refusal;
use super::totals::{matching, matching_kind, total, total_kind, Matching, Range, Total};
use super::value::{Fault, Kind, Value};

#[derive(Debug)]
pub enum Tree {
    Literal(Value),
    Cell(Bank, usize),
    Indexed(Bank, Box<Tree>),
    /// An operator and its place in the text.
    Unary(Unary, usize, Box<Tree>),
    Binary(Binary, usize, Box<Tree>, Box<Tree>),
    /// `&&` (false) or `||` (true): the truth of the left side that decides.
    Decide(bool, Box<Tree>, Box<Tree>),
    If(Box<Tree>, Box<Tree>, Box<Tree>),
    Tick,
    /// SINCE and its place in the text.
    Since(usize, Box<Tree>),
    Total(Total, Span),
    Matching(Matching, Binary, Box<Tree>, Span),
}

/// A first cell and a count as typed, with the place of its numeral.
#[derive(Clone, Copy, Debug)]
pub struct Span {
    pub bank: Bank,
    pub first: usize,
    pub count: i32,
    pub place: usize,
}

impl Span {
    fn good(self) -> Option<Range> {
        Range::new(self.bank, self.first, i64::from(self.count))
    }

    /// The range of an accepted formula.
    pub fn range(self) -> Range {
        self.good().expect("a bad range is refused")
    }
}

/// The tree's kind. `wrong` becomes the refusal with the smallest place: 9 at an operator with an operand of the wrong kind, or 6
/// at the count of a bad range.
pub fn kind(tree: &Tree, wrong: &mut Option<Refusal>) -> Kind {
    match tree {
        Tree::Literal(v) => v.kind(),
        Tree::Cell(bank, _) => bank.kind(),
        Tree::Indexed(bank, index) => {
            kind(index, wrong);
            bank.kind()
        }
        Tree::Unary(op, place, t) => {
            let operand = kind(t, wrong);
            judge(unary_kind(*op, operand), *place, wrong)
        }
        Tree::Binary(op, place, t, u) => {
            let (left, right) = (kind(t, wrong), kind(u, wrong));
            judge(binary_kind(*op, left, right), *place, wrong)
        }
        Tree::Decide(_, t, u) => {
            kind(t, wrong);
            kind(u, wrong);
            Kind::Int
        }
        Tree::If(c, t, u) => {
            kind(c, wrong);
            kind(t, wrong).wider(kind(u, wrong))
        }
        Tree::Tick => Kind::Int,
        Tree::Since(place, t) => {
            let operand = kind(t, wrong);
            judge(since_kind(operand), *place, wrong)
        }
        Tree::Total(op, span) => {
            judge_span(*span, wrong);
            total_kind(*op, span.bank)
        }
        Tree::Matching(op, _, t, span) => {
            kind(t, wrong);
            judge_span(*span, wrong);
            matching_kind(*op, span.bank)
        }
    }
}

fn judge((kind, taken): (Kind, bool), place: usize, wrong: &mut Option<Refusal>) -> Kind {
    if !taken {
        note(Refusal { answer: 9, place }, wrong);
    }
    kind
}

fn judge_span(span: Span, wrong: &mut Option<Refusal>) {
    if span.good().is_none() {
        note(Refusal { answer: 6, place: span.place }, wrong);
    }
}

fn note(refusal: Refusal, wrong: &mut Option<Refusal>) {
    if wrong.is_none_or(|smallest| refusal.place < smallest.place) {
        *wrong = Some(refusal);
    }
}

/// The value of the whole tree, or the first fault met in working it out.
pub fn worth(tree: &Tree, memory: &[u8], tick: u32) -> Result<Value, Fault> {
    match tree {
        Tree::Literal(v) => Ok(*v),
        Tree::Cell(bank, element) => read(memory, *bank, *element),
        Tree::Indexed(bank, index) => read_indexed(memory, *bank, worth(index, memory, tick)?),
        Tree::Unary(op, _, t) => unary(*op, worth(t, memory, tick)?),
        Tree::Binary(op, _, t, u) => {
            let left = worth(t, memory, tick)?;
            binary(*op, left, worth(u, memory, tick)?)
        }
        Tree::Decide(decides, t, u) => {
            let left = worth(t, memory, tick)?.truth();
            let truth = if left == *decides { left } else { worth(u, memory, tick)?.truth() };
            Ok(Value::Int(i32::from(truth)))
        }
        Tree::If(c, t, u) => {
            let chosen = if worth(c, memory, tick)?.truth() { t } else { u };
            Ok(worth(chosen, memory, tick)?.promoted(kind(tree, &mut None)))
        }
        Tree::Tick => Ok(Value::Int(tick as i32)),
        Tree::Since(_, t) => Ok(since(tick, worth(t, memory, tick)?)),
        Tree::Total(op, span) => total(*op, span.range(), memory).0,
        Tree::Matching(op, test, t, span) => matching(*op, *test, worth(t, memory, tick)?, span.range(), memory).0,
    }
}
