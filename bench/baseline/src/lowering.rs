//! From a sheet's formulas to rows.
use crate::formula::{Node, Sign};
use crate::sheet::Sheet;
use crate::text::{refuse, Refusal};

#[derive(Clone, Copy)]
pub enum Row {
    Signal,
    Not(usize),
    And(usize, usize),
    Or(usize, usize),
    Look(usize, i32),
}

pub struct Program {
    pub rows: Vec<Row>,
    pub tops: Vec<usize>,
}

struct Lowering<'a> {
    nodes: &'a [Node],
    rows: Vec<Row>,
}

impl Lowering<'_> {
    fn push(&mut self, row: Row) -> Result<usize, Refusal> {
        if self.rows.len() == 1024 {
            return refuse(9, 0);
        }
        self.rows.push(row);
        Ok(self.rows.len() - 1)
    }

    fn gate(&mut self, and: bool, a: usize, b: usize) -> Result<usize, Refusal> {
        self.push(if and { Row::And(a, b) } else { Row::Or(a, b) })
    }

    /// The top row of a formula in a sense.
    fn lower(&mut self, node: usize, sense: bool) -> Result<usize, Refusal> {
        match self.nodes[node] {
            Node::Signal(row) if sense => Ok(row),
            Node::Signal(row) => self.push(Row::Not(row)),
            Node::Not(x) => self.lower(x, !sense),
            Node::Pair(Sign::And, x, y) => self.join(x, sense, y, sense, sense),
            Node::Pair(Sign::Or, x, y) => self.join(x, sense, y, sense, !sense),
            Node::Pair(Sign::Implies, x, y) => self.join(x, !sense, y, sense, !sense),
            Node::Pair(Sign::Iff, x, y) => {
                let a = self.join(x, !sense, y, sense, !sense)?;
                let b = self.join(y, !sense, x, sense, !sense)?;
                self.gate(sense, a, b)
            }
            Node::Time(always, x, first, last) => self.timed(x, sense, always == sense, first, last),
        }
    }

    fn join(&mut self, x: usize, x_sense: bool, y: usize, y_sense: bool, and: bool) -> Result<usize, Refusal> {
        let a = self.lower(x, x_sense)?;
        let b = self.lower(y, y_sense)?;
        self.gate(and, a, b)
    }

    fn timed(&mut self, x: usize, sense: bool, and: bool, first: i32, last: i32) -> Result<usize, Refusal> {
        let child = self.lower(x, sense)?;
        let looks = self.rows.len();
        for offset in first..=last {
            self.push(Row::Look(child, offset))?;
        }
        let mut top = looks;
        for look in looks + 1..self.rows.len() {
            top = self.gate(and, top, look)?;
        }
        Ok(top)
    }
}

pub fn lower(sheet: &Sheet) -> Result<Program, Refusal> {
    if sheet.definings.len() > 32 {
        return refuse(9, 0);
    }
    let signals = sheet.names.len() + sheet.definings.len();
    let mut lowering = Lowering {
        nodes: &sheet.nodes,
        rows: vec![Row::Signal; signals],
    };
    let mut tops = Vec::with_capacity(sheet.rules.len() + sheet.definings.len());
    let mut done = 0;
    for &(top, hidden) in &sheet.rules {
        tops.push(lowering.lower(top, true)?);
        for &defining in &sheet.definings[done..hidden] {
            tops.push(lowering.lower(defining, true)?);
        }
        done = hidden;
    }
    Ok(Program { rows: lowering.rows, tops })
}
