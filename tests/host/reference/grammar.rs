//! Tokens to a tree: answers 7 and 8, then 9 and the late 6.
//!
//! A shift-reduce parser with two stacks: finished trees, and what waits for a tree. It stops at the first token that
//! no formula has there (7), or at an opener that a formula could have there but that is the ninth open one (8). So
//! the smaller place wins, and 7 on a tie.

use super::memory::Bank;
use super::operators::{Binary, Unary};
use super::text::{tokens, Function, Refusal, Token};
use super::tree::{kind, Span, Tree};
use super::value::Value;

const OPEN_LIMIT: usize = 8;

#[derive(Clone, Copy)]
enum Joint {
    Value(Binary),
    Decide(bool),
}

// Tightest first. All of them group to the left.
const GROUPS: [&[(&str, Joint)]; 11] = [
    &[("**", Joint::Value(Binary::Power))],
    &[("*", Joint::Value(Binary::Times)), ("/", Joint::Value(Binary::Divide)), ("%", Joint::Value(Binary::Remainder))],
    &[("+", Joint::Value(Binary::Plus)), ("-", Joint::Value(Binary::Minus))],
    &[
        ("<<", Joint::Value(Binary::ShiftLeft)),
        (">>", Joint::Value(Binary::ShiftRight)),
        (">>>", Joint::Value(Binary::ShiftRightZero)),
    ],
    &[
        ("<", Joint::Value(Binary::Less)),
        (">", Joint::Value(Binary::Greater)),
        ("<=", Joint::Value(Binary::LessEqual)),
        (">=", Joint::Value(Binary::GreaterEqual)),
    ],
    &[("==", Joint::Value(Binary::Equal)), ("!=", Joint::Value(Binary::NotEqual))],
    &[("&", Joint::Value(Binary::And))],
    &[("^", Joint::Value(Binary::Xor))],
    &[("|", Joint::Value(Binary::Or))],
    &[("&&", Joint::Decide(false))],
    &[("||", Joint::Decide(true))],
];

// Looser than every group: an opener waits until its closer comes.
const LOOSEST: usize = GROUPS.len();

#[derive(Clone, Copy)]
enum Opener {
    Group,
    Index(Bank),
    /// The function, its place, and how many arguments are finished.
    Call(Function, usize, usize),
}

enum Waiting {
    Unary(Unary, usize),
    Binary(Joint, usize, usize),
    Open(Opener),
}

enum Expect {
    Operand,
    /// After a bank letter or a function name.
    Opener(Opener),
    Operator,
    Part(Part),
}

/// What must come next in a call where no expression can stand.
#[derive(Clone, Copy)]
enum Part {
    First,
    Comma(Bank, usize),
    Count(Bank, usize),
    Closer,
}

struct Parser {
    trees: Vec<Tree>,
    waiting: Vec<Waiting>,
    open: usize,
    expect: Expect,
    /// Of the call that is about to be closed.
    span: Option<Span>,
}

/// The tree of a text of 1 to 1,024 bytes, or its refusal, 4 to 9.
pub fn parse(text: &[u8]) -> Result<Tree, Refusal> {
    parse_within(text, 0)
}

/// The same with so many brackets open before the text.
pub fn parse_within(text: &[u8], open: usize) -> Result<Tree, Refusal> {
    let mut parser = Parser { trees: Vec::new(), waiting: Vec::new(), open, expect: Expect::Operand, span: None };
    for token in tokens(text)? {
        parser.take(token.token, token.place).map_err(|answer| Refusal { answer, place: token.place })?;
    }
    let tree = parser.finish().ok_or(Refusal { answer: 7, place: text.len() })?;
    let mut wrong = None;
    kind(&tree, &mut wrong);
    wrong.map_or(Ok(tree), Err)
}

// How many expressions a call has.
fn arguments(function: Function) -> usize {
    match function {
        Function::Tick | Function::Total(_) => 0,
        Function::One(_) | Function::Since | Function::Matching(..) => 1,
        Function::Two(_) => 2,
        Function::If => 3,
    }
}

// Whether a first cell and a count end the call.
fn ranged(function: Function) -> bool {
    matches!(function, Function::Total(_) | Function::Matching(..))
}

fn joint(symbol: &str) -> Option<(Joint, usize)> {
    GROUPS
        .iter()
        .enumerate()
        .find_map(|(level, group)| group.iter().find(|(s, _)| *s == symbol).map(|(_, joint)| (*joint, level)))
}

fn prefix(symbol: &str) -> Option<Unary> {
    match symbol {
        "-" => Some(Unary::Negate),
        "~" => Some(Unary::Invert),
        "!" => Some(Unary::Not),
        _ => None,
    }
}

impl Parser {
    fn take(&mut self, token: Token, place: usize) -> Result<(), u32> {
        match (&self.expect, token) {
            (Expect::Operand, token) => self.operand(token, place),
            (Expect::Opener(opener), Token::Symbol(symbol)) => match (opener, symbol) {
                (Opener::Index(_), "[") | (Opener::Call(..), "(") => self.open(*opener),
                _ => Err(7),
            },
            (Expect::Operator, Token::Symbol(symbol)) => self.operator(symbol, place),
            (Expect::Part(part), token) => self.part(*part, token, place),
            _ => Err(7),
        }
    }

    fn part(&mut self, part: Part, token: Token, place: usize) -> Result<(), u32> {
        let next = match (part, token) {
            (Part::First, Token::Cell(bank, first)) => Part::Comma(bank, first),
            (Part::Comma(bank, first), Token::Symbol(",")) => Part::Count(bank, first),
            (Part::Count(bank, first), Token::Literal(Value::Int(count))) => {
                self.span = Some(Span { bank, first, count, place });
                Part::Closer
            }
            (Part::Closer, Token::Symbol(")")) => return self.operator(")", place),
            _ => return Err(7),
        };
        self.expect = Expect::Part(next);
        Ok(())
    }

    fn operand(&mut self, token: Token, place: usize) -> Result<(), u32> {
        match token {
            Token::Literal(v) => self.operand_done(Tree::Literal(v)),
            Token::Cell(bank, element) => self.operand_done(Tree::Cell(bank, element)),
            Token::Bank(bank) => self.expect = Expect::Opener(Opener::Index(bank)),
            Token::Function(f) => self.expect = Expect::Opener(Opener::Call(f, place, 0)),
            Token::Symbol("(") => return self.open(Opener::Group),
            Token::Symbol(symbol) => self.waiting.push(Waiting::Unary(prefix(symbol).ok_or(7u32)?, place)),
        }
        Ok(())
    }

    fn operand_done(&mut self, tree: Tree) {
        self.trees.push(tree);
        self.expect = Expect::Operator;
    }

    fn open(&mut self, opener: Opener) -> Result<(), u32> {
        if self.open == OPEN_LIMIT {
            return Err(8);
        }
        self.open += 1;
        self.waiting.push(Waiting::Open(opener));
        self.expect = match opener {
            Opener::Call(f, ..) if ranged(f) && arguments(f) == 0 => Expect::Part(Part::First),
            Opener::Call(f, ..) if arguments(f) == 0 => Expect::Part(Part::Closer),
            _ => Expect::Operand,
        };
        Ok(())
    }

    fn operator(&mut self, symbol: &str, place: usize) -> Result<(), u32> {
        if let Some((joint, level)) = joint(symbol) {
            self.reduce(level);
            self.waiting.push(Waiting::Binary(joint, level, place));
            self.expect = Expect::Operand;
            return Ok(());
        }
        self.reduce(LOOSEST);
        let opener = match self.waiting.last() {
            Some(Waiting::Open(opener)) => *opener,
            _ => return Err(7),
        };
        match (symbol, opener) {
            (")", Opener::Group) => self.close(),
            ("]", Opener::Index(bank)) => {
                self.close();
                let index = self.pop();
                self.operand_done(Tree::Indexed(bank, index));
            }
            (")", Opener::Call(f, place, done)) if self.all_there(f, done) => {
                self.close();
                self.call(f, place);
            }
            (",", Opener::Call(f, _, 0)) if ranged(f) => self.expect = Expect::Part(Part::First),
            (",", Opener::Call(f, place, done)) if done + 1 < arguments(f) => {
                self.waiting.pop();
                self.waiting.push(Waiting::Open(Opener::Call(f, place, done + 1)));
                self.expect = Expect::Operand;
            }
            _ => return Err(7),
        }
        Ok(())
    }

    fn close(&mut self) {
        self.waiting.pop();
        self.open -= 1;
    }

    // Whether a call may be closed after so many finished arguments and the one that has just ended, if it has any.
    fn all_there(&self, f: Function, done: usize) -> bool {
        match arguments(f) {
            _ if ranged(f) => self.span.is_some(),
            0 => true,
            arguments => done + 1 == arguments,
        }
    }

    fn call(&mut self, f: Function, place: usize) {
        let mut trees = self.trees.split_off(self.trees.len() - arguments(f)).into_iter().map(Box::new);
        let mut next = || trees.next().expect("every argument left a tree");
        let mut span = || self.span.take().expect("a range has been read");
        let tree = match f {
            Function::One(op) => Tree::Unary(op, place, next()),
            Function::Two(op) => Tree::Binary(op, place, next(), next()),
            Function::If => Tree::If(next(), next(), next()),
            Function::Tick => Tree::Tick,
            Function::Since => Tree::Since(place, next()),
            Function::Total(op) => Tree::Total(op, span()),
            Function::Matching(op, test) => Tree::Matching(op, test, next(), span()),
        };
        self.operand_done(tree);
    }

    fn pop(&mut self) -> Box<Tree> {
        Box::new(self.trees.pop().expect("every finished operand left a tree"))
    }

    // Builds the trees of what waits and binds at least as tightly as the level: equal levels group to the left.
    fn reduce(&mut self, level: usize) {
        loop {
            match self.waiting.last() {
                Some(Waiting::Unary(op, place)) => {
                    let (op, place) = (*op, *place);
                    let operand = self.pop();
                    self.trees.push(Tree::Unary(op, place, operand));
                }
                Some(Waiting::Binary(joint, waits, place)) if *waits <= level => {
                    let (joint, place) = (*joint, *place);
                    self.join(joint, place);
                }
                _ => return,
            }
            self.waiting.pop();
        }
    }

    fn join(&mut self, joint: Joint, place: usize) {
        let right = self.pop();
        let left = self.pop();
        self.trees.push(match joint {
            Joint::Value(op) => Tree::Binary(op, place, left, right),
            Joint::Decide(decides) => Tree::Decide(decides, left, right),
        });
    }

    // The whole text must be one finished operand with nothing open.
    fn finish(mut self) -> Option<Tree> {
        if !matches!(self.expect, Expect::Operator) {
            return None;
        }
        self.reduce(LOOSEST);
        if self.waiting.is_empty() {
            self.trees.pop()
        } else {
            None
        }
    }
}
