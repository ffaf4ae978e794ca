//! Rules: from the text to nodes, children before parents.
use crate::names::Names;
use crate::text::{refuse, word_end, Refusal};

#[derive(Clone, Copy, PartialEq)]
pub enum Sign {
    And,
    Or,
    Implies,
    Iff,
}

#[derive(Clone, Copy)]
pub enum Node {
    /// A declared or hidden signal's row.
    Signal(usize),
    Not(usize),
    Pair(Sign, usize, usize),
    /// True is `@`; the child; the first and the last offset.
    Time(bool, usize, i32, i32),
}

pub struct Parser<'a> {
    /// The sheet up to the rule's LF.
    pub text: &'a [u8],
    pub at: usize,
    pub names: &'a Names<'a>,
    pub nodes: Vec<Node>,
    /// The defining rules of the hidden signals, in the order written.
    pub definings: Vec<usize>,
}

impl<'a> Parser<'a> {
    fn byte(&self) -> u8 {
        *self.text.get(self.at).unwrap_or(&b'\n')
    }

    fn put(&mut self, node: Node) -> usize {
        self.nodes.push(node);
        self.nodes.len() - 1
    }

    /// Steps over the sign if it stands here.
    fn take(&mut self, sign: &[u8]) -> bool {
        let here = self.text[self.at..].starts_with(sign);
        if here {
            self.at += sign.len();
        }
        here
    }

    fn expect(&mut self, byte: u8) -> Result<(), Refusal> {
        if self.byte() != byte {
            return refuse(5, self.at);
        }
        self.at += 1;
        Ok(())
    }

    /// A whole rule.
    pub fn rule(&mut self) -> Result<usize, Refusal> {
        let top = self.formula(32)?;
        if self.at < self.text.len() {
            return refuse(5, self.at);
        }
        Ok(top)
    }

    fn formula(&mut self, depth: usize) -> Result<usize, Refusal> {
        let left = self.implication(depth)?;
        if !self.take(b"<=>") {
            return Ok(left);
        }
        let right = self.implication(depth)?;
        Ok(self.put(Node::Pair(Sign::Iff, left, right)))
    }

    fn implication(&mut self, depth: usize) -> Result<usize, Refusal> {
        let left = self.or_part(depth)?;
        if !self.take(b"=>") {
            return Ok(left);
        }
        let right = self.or_part(depth)?;
        Ok(self.put(Node::Pair(Sign::Implies, left, right)))
    }

    fn or_part(&mut self, depth: usize) -> Result<usize, Refusal> {
        let mut left = self.and_part(depth)?;
        while self.take(b"|") {
            let right = self.and_part(depth)?;
            left = self.put(Node::Pair(Sign::Or, left, right));
        }
        Ok(left)
    }

    fn and_part(&mut self, depth: usize) -> Result<usize, Refusal> {
        let mut left = self.timed(depth)?;
        while self.take(b"&") {
            let right = self.timed(depth)?;
            left = self.put(Node::Pair(Sign::And, left, right));
        }
        Ok(left)
    }

    fn timed(&mut self, depth: usize) -> Result<usize, Refusal> {
        let mut child = self.plain(depth)?;
        loop {
            let always = match self.byte() {
                b'@' => true,
                b'?' => false,
                _ => return Ok(child),
            };
            self.at += 1;
            let (first, last) = self.interval()?;
            child = self.put(Node::Time(always, child, first, last));
        }
    }

    fn plain(&mut self, depth: usize) -> Result<usize, Refusal> {
        match self.byte() {
            b'a'..=b'z' => self.word(depth),
            b'!' => {
                self.open(depth)?;
                let child = self.plain(depth - 1)?;
                Ok(self.put(Node::Not(child)))
            }
            b'(' => {
                self.open(depth)?;
                let inner = self.formula(depth - 1)?;
                self.expect(b')')?;
                Ok(inner)
            }
            _ => refuse(5, self.at),
        }
    }

    /// Steps over a `(` or `!`, if one more may be open.
    fn open(&mut self, depth: usize) -> Result<(), Refusal> {
        if depth == 0 {
            return refuse(8, self.at);
        }
        self.at += 1;
        Ok(())
    }

    fn word(&mut self, depth: usize) -> Result<usize, Refusal> {
        let start = self.at;
        let end = word_end(self.text, start);
        let word = &self.text[start..end];
        if word == b"since" || word == b"until" {
            self.at = end;
            return self.keep(word == b"since", depth);
        }
        match self.names.get(word) {
            Some(&row) => {
                self.at = end;
                Ok(self.put(Node::Signal(row)))
            }
            None => refuse(6, start),
        }
    }

    /// What follows since or until: its node is the hidden signal, and its defining rule is put too.
    fn keep(&mut self, since: bool, depth: usize) -> Result<usize, Refusal> {
        if self.byte() != b'(' {
            return refuse(5, self.at);
        }
        self.open(depth)?;
        let number = self.definings.len();
        let hidden = self.put(Node::Signal(self.names.len() + number));
        self.definings.push(hidden);
        let left = self.formula(depth - 1)?;
        self.expect(b',')?;
        let right = self.formula(depth - 1)?;
        self.expect(b')')?;
        let step = if since { -1 } else { 1 };
        let kept = self.put(Node::Pair(Sign::And, right, hidden));
        let either = self.put(Node::Pair(Sign::Or, left, kept));
        let before = self.put(Node::Time(true, either, step, step));
        self.definings[number] = self.put(Node::Pair(Sign::Iff, hidden, before));
        Ok(hidden)
    }

    /// The first and the last whole number of an interval.
    fn interval(&mut self) -> Result<(i32, i32), Refusal> {
        let start = self.at;
        let open = self.byte();
        if open != b'[' && open != b'(' {
            return refuse(5, start);
        }
        self.at += 1;
        let lo = self.end()?;
        self.expect(b',')?;
        let hi = self.end()?;
        let close = self.byte();
        if close != b']' && close != b')' {
            return refuse(5, self.at);
        }
        self.at += 1;
        let first = lo + i32::from(open == b'(');
        let last = hi - i32::from(close == b')');
        if lo.abs() > 63 || hi.abs() > 63 || last < first {
            return refuse(7, start);
        }
        Ok((first, last))
    }

    /// An interval's end: `0`, or an optional `-` and one to four digits, the first not 0.
    fn end(&mut self) -> Result<i32, Refusal> {
        let start = self.at;
        if self.byte() == b'0' {
            self.at += 1;
            return Ok(0);
        }
        let minus = self.byte() == b'-';
        if minus {
            self.at += 1;
        }
        if !matches!(self.byte(), b'1'..=b'9') {
            return refuse(5, start);
        }
        let mut value = 0;
        let mut digits = 0;
        while digits < 4 && self.byte().is_ascii_digit() {
            value = 10 * value + i32::from(self.byte() - b'0');
            self.at += 1;
            digits += 1;
        }
        Ok(if minus { -value } else { value })
    }
}
