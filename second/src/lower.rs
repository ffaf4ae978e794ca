//! Lowering, row by row: declared signals, hidden signals, then the nodes of each rule and of its defining rules.

use crate::text::grammar::{Formula, Hidden};
use crate::text::sheet::Sheet;
use crate::text::{refuse, Refusal};

/// What a row is; children are given by their row.
#[derive(Clone, Copy, Debug, PartialEq, Eq)]
pub enum Node {
    Signal,
    Not(usize),
    And(usize, usize),
    Or(usize, usize),
    /// The child at this offset.
    Look(usize, i64),
}

/// A lowered sheet: its rows, and the rows that are true at every tick.
#[derive(Debug)]
pub struct Rows {
    pub nodes: Vec<Node>,
    pub tops: Vec<usize>,
}

const MOST_HIDDEN: usize = 32;
pub const MOST_ROWS: usize = 1024;

pub fn lower(sheet: &Sheet) -> Result<Rows, Refusal> {
    if sheet.hidden.len() > MOST_HIDDEN {
        return refuse(9, 0);
    }
    let declared = sheet.names.len();
    let nodes = vec![Node::Signal; declared + sheet.hidden.len()];
    let mut lowering = Lowering { declared, nodes };
    let mut tops = vec![];
    for rule in &sheet.rules {
        tops.push(lowering.formula(&rule.formula, true)?);
        for number in rule.hidden.clone() {
            let defining = defining_rule(number, &sheet.hidden[number]);
            tops.push(lowering.formula(&defining, true)?);
        }
    }
    let nodes = lowering.nodes;
    Ok(Rows { nodes, tops })
}

/// x `<=>` (A `|` (B `&` x)) `@[look,look]`
fn defining_rule(number: usize, hidden: &Hidden) -> Formula {
    let x = Formula::Hidden(number);
    let Hidden { a, b, look } = hidden.clone();
    let held = Formula::And(b.into(), x.clone().into());
    let either = Formula::Or(a.into(), held.into());
    Formula::Iff(x.into(), Formula::Always(either.into(), look, look).into())
}

struct Lowering {
    declared: usize,
    nodes: Vec<Node>,
}

impl Lowering {
    fn add(&mut self, node: Node) -> Result<usize, Refusal> {
        if self.nodes.len() == MOST_ROWS {
            return refuse(9, 0);
        }
        self.nodes.push(node);
        Ok(self.nodes.len() - 1)
    }

    /// Lowers the formula, or with sense false its opposite; answers its row.
    fn formula(&mut self, formula: &Formula, sense: bool) -> Result<usize, Refusal> {
        match formula {
            Formula::Signal(number) => self.literal(*number, sense),
            Formula::Hidden(number) => self.literal(self.declared + number, sense),
            Formula::Not(part) => self.formula(part, !sense),
            Formula::And(left, right) => self.pair(left, sense, right, sense, sense),
            Formula::Or(left, right) => self.pair(left, sense, right, sense, !sense),
            Formula::Implies(left, right) => self.pair(left, !sense, right, sense, !sense),
            Formula::Iff(left, right) => self.iff(left, right, sense),
            Formula::Always(part, low, high) => self.timed(part, *low, *high, sense, sense),
            Formula::Once(part, low, high) => self.timed(part, *low, *high, sense, !sense),
        }
    }

    fn literal(&mut self, row: usize, sense: bool) -> Result<usize, Refusal> {
        if sense {
            Ok(row)
        } else {
            self.add(Node::Not(row))
        }
    }

    fn join(&mut self, left: usize, right: usize, by_and: bool) -> Result<usize, Refusal> {
        let node = if by_and {
            Node::And(left, right)
        } else {
            Node::Or(left, right)
        };
        self.add(node)
    }

    /// Left, then right, each in its own sense, then their parent.
    fn pair(
        &mut self,
        left: &Formula,
        left_sense: bool,
        right: &Formula,
        right_sense: bool,
        by_and: bool,
    ) -> Result<usize, Refusal> {
        let left = self.formula(left, left_sense)?;
        let right = self.formula(right, right_sense)?;
        self.join(left, right, by_and)
    }

    /// True: ((not A) or B) and ((not B) or A). False: (A and not B) or (B and not A).
    fn iff(&mut self, a: &Formula, b: &Formula, sense: bool) -> Result<usize, Refusal> {
        let left = self.pair(a, !sense, b, sense, !sense)?;
        let right = self.pair(b, !sense, a, sense, !sense)?;
        self.join(left, right, sense)
    }

    /// The child once, all its looks from the smallest offset up, then the joins from the left.
    fn timed(
        &mut self,
        part: &Formula,
        low: i64,
        high: i64,
        sense: bool,
        by_and: bool,
    ) -> Result<usize, Refusal> {
        let child = self.formula(part, sense)?;
        let mut looks = vec![];
        for offset in low..=high {
            looks.push(self.add(Node::Look(child, offset))?);
        }
        let mut joined = looks[0];
        for look in &looks[1..] {
            joined = self.join(joined, *look, by_and)?;
        }
        Ok(joined)
    }
}
