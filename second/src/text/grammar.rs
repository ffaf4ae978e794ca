//! The grammar of a formula: each level of the document is one function; the first token that cannot follow stops it.

use super::name::{find, Name};
use super::token::{first, Token};
use super::{refuse, Refusal};

/// A formula as written; since and until have become hidden signals.
#[derive(Clone, Debug, PartialEq, Eq)]
pub enum Formula {
    Signal(usize),
    /// A hidden signal, by its number among all the sheet's hidden signals.
    Hidden(usize),
    Not(Box<Formula>),
    And(Box<Formula>, Box<Formula>),
    Or(Box<Formula>, Box<Formula>),
    Implies(Box<Formula>, Box<Formula>),
    Iff(Box<Formula>, Box<Formula>),
    /// `@`: at every offset from the first number to the second.
    Always(Box<Formula>, i64, i64),
    /// `?`: at one of the offsets at least.
    Once(Box<Formula>, i64, i64),
}

impl Formula {
    /// Its parts, left before right; a hidden signal has none.
    pub fn parts(&self) -> Vec<&Formula> {
        match self {
            Formula::Signal(_) | Formula::Hidden(_) => vec![],
            Formula::Not(part) | Formula::Always(part, ..) | Formula::Once(part, ..) => {
                vec![part]
            }
            Formula::And(left, right)
            | Formula::Or(left, right)
            | Formula::Implies(left, right)
            | Formula::Iff(left, right) => vec![left, right],
        }
    }
}

/// The written since or until behind a hidden signal: its arguments, and the tick it looks at (-1 or 1).
#[derive(Clone, Debug, PartialEq, Eq)]
pub struct Hidden {
    pub a: Formula,
    pub b: Formula,
    pub look: i64,
}

/// How many of `(` and `!` may be open at one place.
const MOST_OPEN: usize = 32;
/// Ends of intervals go from minus this to this.
const FARTHEST_END: i64 = 63;

/// Reads one rule that starts at byte `place` of the sheet; its hidden signals go to the end of `hidden`.
pub fn read(
    rule: &[u8],
    place: usize,
    names: &[Name],
    hidden: &mut Vec<Hidden>,
) -> Result<Formula, Refusal> {
    let mut reader = Reader {
        rule,
        place,
        names,
        hidden,
        at: 0,
        open: 0,
    };
    let formula = reader.formula()?;
    if reader.token() == Token::Stop {
        Ok(formula)
    } else {
        reader.cannot_follow()
    }
}

struct Reader<'a> {
    rule: &'a [u8],
    place: usize,
    names: &'a [Name],
    hidden: &'a mut Vec<Hidden>,
    /// The next byte of the rule.
    at: usize,
    /// How many `(` and `!` are open.
    open: usize,
}

impl<'a> Reader<'a> {
    fn token(&self) -> Token<'a> {
        first(&self.rule[self.at..]).0
    }

    fn step(&mut self) {
        self.at += first(&self.rule[self.at..]).1;
    }

    fn cannot_follow<T>(&self) -> Result<T, Refusal> {
        refuse(5, self.place + self.at)
    }

    /// Takes the token if it is the next one.
    fn took(&mut self, token: Token) -> bool {
        let here = self.token() == token;
        if here {
            self.step();
        }
        here
    }

    fn take(&mut self, token: Token) -> Result<(), Refusal> {
        if self.took(token) {
            Ok(())
        } else {
            self.cannot_follow()
        }
    }

    fn formula(&mut self) -> Result<Formula, Refusal> {
        let left = self.implication()?;
        if !self.took(Token::Iff) {
            return Ok(left);
        }
        let right = self.implication()?;
        Ok(Formula::Iff(left.into(), right.into()))
    }

    fn implication(&mut self) -> Result<Formula, Refusal> {
        let left = self.or_part()?;
        if !self.took(Token::Implies) {
            return Ok(left);
        }
        let right = self.or_part()?;
        Ok(Formula::Implies(left.into(), right.into()))
    }

    fn or_part(&mut self) -> Result<Formula, Refusal> {
        let mut left = self.and_part()?;
        while self.took(Token::Sign(b'|')) {
            let right = self.and_part()?;
            left = Formula::Or(left.into(), right.into());
        }
        Ok(left)
    }

    fn and_part(&mut self) -> Result<Formula, Refusal> {
        let mut left = self.timed_part()?;
        while self.took(Token::Sign(b'&')) {
            let right = self.timed_part()?;
            left = Formula::And(left.into(), right.into());
        }
        Ok(left)
    }

    fn timed_part(&mut self) -> Result<Formula, Refusal> {
        let mut part = self.plain_part()?;
        loop {
            if self.took(Token::Sign(b'@')) {
                let (low, high) = self.interval()?;
                part = Formula::Always(part.into(), low, high);
            } else if self.took(Token::Sign(b'?')) {
                let (low, high) = self.interval()?;
                part = Formula::Once(part.into(), low, high);
            } else {
                return Ok(part);
            }
        }
    }

    fn plain_part(&mut self) -> Result<Formula, Refusal> {
        match self.token() {
            Token::Name(name) => self.name(name),
            Token::Sign(b'!') => {
                self.open(b'!')?;
                let part = self.plain_part()?;
                self.open -= 1;
                Ok(Formula::Not(part.into()))
            }
            Token::Sign(b'(') => {
                self.open(b'(')?;
                let inside = self.formula()?;
                self.close()?;
                Ok(inside)
            }
            Token::Since => self.hidden_signal(-1),
            Token::Until => self.hidden_signal(1),
            _ => self.cannot_follow(),
        }
    }

    fn name(&mut self, name: &[u8]) -> Result<Formula, Refusal> {
        match find(name, self.names) {
            Some(number) => {
                self.step();
                Ok(Formula::Signal(number))
            }
            None => refuse(6, self.place + self.at),
        }
    }

    /// Takes `!` or `(` and counts it as open.
    fn open(&mut self, sign: u8) -> Result<(), Refusal> {
        let place = self.place + self.at;
        self.take(Token::Sign(sign))?;
        self.open += 1;
        if self.open > MOST_OPEN {
            return refuse(8, place);
        }
        Ok(())
    }

    fn close(&mut self) -> Result<(), Refusal> {
        self.take(Token::Sign(b')'))?;
        self.open -= 1;
        Ok(())
    }

    /// A since or until; it gets its number before those inside it.
    fn hidden_signal(&mut self, look: i64) -> Result<Formula, Refusal> {
        self.step();
        let number = self.hidden.len();
        let not_yet = Formula::Hidden(number);
        self.hidden.push(Hidden {
            a: not_yet.clone(),
            b: not_yet,
            look,
        });
        self.open(b'(')?;
        let a = self.formula()?;
        self.take(Token::Sign(b','))?;
        let b = self.formula()?;
        self.close()?;
        self.hidden[number] = Hidden { a, b, look };
        Ok(Formula::Hidden(number))
    }

    /// A whole interval; answers the first and last whole number inside it.
    fn interval(&mut self) -> Result<(i64, i64), Refusal> {
        let place = self.place + self.at;
        let left_out_below = self.bracket(b'(', b'[')?;
        let low = self.end()?;
        self.take(Token::Sign(b','))?;
        let high = self.end()?;
        let left_out_above = self.bracket(b')', b']')?;
        let allowed = -FARTHEST_END..=FARTHEST_END;
        let (from, to) = (low + left_out_below, high - left_out_above);
        if !allowed.contains(&low) || !allowed.contains(&high) || from > to {
            return refuse(7, place);
        }
        Ok((from, to))
    }

    /// Takes a bracket; 1 if it is the round one, which leaves its end out.
    fn bracket(&mut self, round: u8, square: u8) -> Result<i64, Refusal> {
        if self.took(Token::Sign(round)) {
            return Ok(1);
        }
        self.take(Token::Sign(square))?;
        Ok(0)
    }

    fn end(&mut self) -> Result<i64, Refusal> {
        match self.token() {
            Token::End(value) => {
                self.step();
                Ok(value)
            }
            _ => self.cannot_follow(),
        }
    }
}
