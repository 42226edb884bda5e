//! A reader of formulas: one pass over the text with one token ahead, which writes the code as it reads. After a refusal by the
//! grammar it goes on to read tokens, since a bad one anywhere comes first.

use super::emit::Code;
use super::op;
use super::tokens::{kind_of, Function, Read, Refusal, Scanner, Token};
use super::totals::{match_kind, total_kind, Range};
use super::values::joined;
use super::values::Kind::{self, Int, Real};

struct Reader<'a> {
    ahead: Scanner<'a>,
    code: &'a mut Code,
    // the first operator with an operand of a wrong kind, or the count of a bad range
    wrong: Option<Refusal>,
}

const LOOSEST: u8 = 11;
const MOST_OPEN: u8 = 8;

impl Reader<'_> {
    fn refused<T>(&self, answer: u32) -> Read<T> {
        Err(Refusal { answer, place: self.ahead.place })
    }

    fn advance(&mut self) -> Read<()> {
        self.ahead.advance()
    }

    fn wrong(&mut self, answer: u32, place: usize) {
        if self.wrong.is_none_or(|first| place < first.place) {
            self.wrong = Some(Refusal { answer, place });
        }
    }

    fn wrong_at(&mut self, place: usize) {
        self.wrong(9, place);
    }

    fn expression(&mut self, open: u8, loosest: u8) -> Read<Kind> {
        let mut left = self.operand(open)?;
        while let Token::Infix(operator, group) = self.ahead.token {
            if group > loosest {
                break;
            }
            let place = self.ahead.place;
            let gap = if operator >= op::LOGICAL_AND { self.code.gap() } else { 0 };
            self.advance()?;
            let right = self.expression(open, group - 1)?;
            if operator >= op::LOGICAL_AND {
                self.code.decide(operator == op::LOGICAL_OR, gap, left, right);
            } else {
                self.code.binary(operator, left, right);
            }
            left = self.infix(operator, place, left, right);
        }
        Ok(left)
    }

    // The kind of an infix operator; notes operands of a wrong kind.
    #[inline]
    fn infix(&mut self, operator: u8, place: usize, left: Kind, right: Kind) -> Kind {
        let (good, kind) = match operator {
            op::POWER => (right == Int, left),
            op::TIMES..=op::MINUS => (true, joined(left, right)),
            op::SHIFT_LEFT..=op::SHIFT_RIGHT_ZERO | op::AND..=op::OR => (left == Int && right == Int, Int),
            _ => (true, Int),
        };
        if !good {
            self.wrong_at(place);
        }
        kind
    }

    fn operand(&mut self, open: u8) -> Read<Kind> {
        let start = self.ahead.place;
        // of the operators before the primary, the innermost that makes an integer
        let mut integer = false;
        let mut invert = None;
        loop {
            match self.ahead.token {
                Token::Infix(op::MINUS, _) => {}
                Token::Invert => {
                    integer = true;
                    invert = Some(self.ahead.place);
                }
                Token::Not => {
                    integer = true;
                    invert = None;
                }
                _ => break,
            }
            self.advance()?;
        }
        let signs = &self.ahead.text[start..self.ahead.place];
        let kind = self.primary(open)?;
        self.prefixes(signs, kind);
        if let (Real, Some(place)) = (kind, invert) {
            self.wrong_at(place);
        }
        Ok(if integer { Int } else { kind })
    }

    // The operators before a primary of a kind, the innermost first. They are single bytes, so the text itself is the list of them.
    #[inline]
    fn prefixes(&mut self, signs: &[u8], mut kind: Kind) {
        for sign in signs.iter().rev() {
            let operator = match sign {
                b'-' => op::NEGATE,
                b'~' => op::INVERT,
                b'!' => op::NOT,
                _ => continue,
            };
            self.code.unary(operator, kind);
            if operator != op::NEGATE {
                kind = Int;
            }
        }
    }

    fn primary(&mut self, open: u8) -> Read<Kind> {
        match self.ahead.token {
            Token::Number(kind, bits) => {
                self.code.number(kind, bits);
                self.advance()?;
                Ok(kind)
            }
            Token::Cell(bank, element) => {
                self.code.cell(bank, element);
                self.advance()?;
                Ok(kind_of(bank))
            }
            Token::Bank(bank) => self.index(open, bank),
            Token::Name(function) => self.call(open, function),
            Token::Open => {
                let kind = self.bracket(open)?;
                self.close()?;
                Ok(kind)
            }
            _ => self.refused(7),
        }
    }

    fn index(&mut self, open: u8, bank: u8) -> Read<Kind> {
        self.advance()?;
        if !matches!(self.ahead.token, Token::OpenIndex) {
            return self.refused(7);
        }
        let index = self.bracket(open)?;
        if !matches!(self.ahead.token, Token::CloseIndex) {
            return self.refused(7);
        }
        self.code.indexed(bank, index);
        self.advance()?;
        Ok(kind_of(bank))
    }

    fn call(&mut self, open: u8, function: Function) -> Read<Kind> {
        let place = self.ahead.place;
        self.advance()?;
        if !matches!(self.ahead.token, Token::Open) {
            return self.refused(7);
        }
        match function {
            Function::Tick => return self.clock(open),
            Function::Total(operator) => return self.total(open, operator),
            _ => {}
        }
        let first = self.bracket(open)?;
        let kind = match function {
            Function::One(operator) => {
                self.code.unary(operator, first);
                match operator {
                    op::ABS => first,
                    op::TO_REAL | op::FRAC => Real,
                    _ => Int,
                }
            }
            Function::Two(operator) => {
                let second = self.argument(open)?;
                self.code.binary(operator, first, second);
                joined(first, second)
            }
            Function::If => {
                let (condition, gap) = (first, self.code.gap());
                let first = self.argument(open)?;
                let gap = self.code.branch(gap, condition);
                let second = self.argument(open)?;
                self.code.choose(gap, first, second);
                joined(first, second)
            }
            Function::Match(operator) => {
                self.comma()?;
                let range = self.range()?;
                self.code.matching(operator, first, range);
                match_kind(operator, range.bank)
            }
            // the other two have no argument
            Function::Since | Function::Tick | Function::Total(_) => {
                self.code.elapsed();
                if first == Real {
                    self.wrong_at(place);
                }
                Int
            }
        };
        self.close()?;
        Ok(kind)
    }

    // The opener ahead and its closer, with nothing between them.
    fn clock(&mut self, open: u8) -> Read<Kind> {
        self.opener(open)?;
        self.close()?;
        self.code.tick();
        Ok(Int)
    }

    fn total(&mut self, open: u8, operator: u8) -> Read<Kind> {
        self.opener(open)?;
        let range = self.range()?;
        self.code.total(operator, range);
        self.close()?;
        Ok(total_kind(operator, range.bank))
    }

    // The first cell ahead, a comma and the count. A bad range is noted, and its first cell stands for it.
    fn range(&mut self) -> Read<Range> {
        let Token::Cell(bank, first) = self.ahead.token else {
            return self.refused(7);
        };
        self.advance()?;
        self.comma()?;
        let Token::Number(Int, count) = self.ahead.token else {
            return self.refused(7);
        };
        let range = Range::new(bank, first as u32, count);
        if range.is_none() {
            self.wrong(6, self.ahead.place);
        }
        self.advance()?;
        Ok(range.unwrap_or(Range::one(bank)))
    }

    fn comma(&mut self) -> Read<()> {
        if !matches!(self.ahead.token, Token::Comma) {
            return self.refused(7);
        }
        self.advance()
    }

    fn opener(&mut self, open: u8) -> Read<()> {
        if open == MOST_OPEN {
            return self.refused(8);
        }
        self.advance()
    }

    // The opener ahead and the expression after it.
    fn bracket(&mut self, open: u8) -> Read<Kind> {
        self.opener(open)?;
        self.expression(open + 1, LOOSEST)
    }

    fn argument(&mut self, open: u8) -> Read<Kind> {
        self.comma()?;
        self.expression(open + 1, LOOSEST)
    }

    fn close(&mut self) -> Read<()> {
        if !matches!(self.ahead.token, Token::Close) {
            return self.refused(7);
        }
        self.advance()
    }

    fn formula(&mut self, open: u8) -> Read<()> {
        self.advance()?;
        self.expression(open, LOOSEST)?;
        if !matches!(self.ahead.token, Token::End) {
            return self.refused(7);
        }
        Ok(())
    }

    // The first token that is wrong, from the one ahead on.
    fn rest(&mut self) -> Read<()> {
        while !matches!(self.ahead.token, Token::End) {
            self.advance()?;
        }
        Ok(())
    }
}

/// Writes the code of a formula behind so many open brackets, or says why the text is none; then a part of it is written.
pub fn read(text: &[u8], open: u8, code: &mut Code) -> Result<(), Refusal> {
    if text.is_empty() || text.len() > 1024 {
        return Err(Refusal { answer: 3, place: 0 });
    }
    let mut reader = Reader { ahead: Scanner::new(text), code, wrong: None };
    match reader.formula(open) {
        Ok(()) => reader.wrong.map_or(Ok(()), Err),
        Err(refusal) if refusal.answer < 7 => Err(refusal),
        Err(refusal) => reader.rest().and(Err(refusal)),
    }
}
