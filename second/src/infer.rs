//! Inference: marks as plain booleans for each (row, tick, value), closed mark by mark under the document's rules.

use crate::lower::{Node, Rows};

/// Which marks are there.
#[derive(Clone, Debug, PartialEq, Eq)]
pub struct Marks {
    window: usize,
    /// For each row and tick in turn, whether it is marked false and whether it is marked true.
    cells: Vec<[bool; 2]>,
}

impl Marks {
    pub fn none(rows: usize, window: usize) -> Self {
        let cells = vec![[false; 2]; rows * window];
        Marks { window, cells }
    }

    pub fn has(&self, row: usize, tick: usize, value: bool) -> bool {
        self.cells[row * self.window + tick][usize::from(value)]
    }

    pub fn set(&mut self, row: usize, tick: usize, value: bool) {
        self.cells[row * self.window + tick][usize::from(value)] = true;
    }

    /// Every mark that is there, as row, tick and value.
    pub fn all(&self) -> impl Iterator<Item = (usize, usize, bool)> + '_ {
        let cells = self.cells.iter().enumerate();
        let marked = cells.filter(|(_, cell)| **cell != [false; 2]);
        marked.flat_map(|(place, cell)| {
            let (row, tick) = (place / self.window, place % self.window);
            let values = [false, true].into_iter();
            let marked = values.filter(|&value| cell[usize::from(value)]);
            marked.map(move |value| (row, tick, value))
        })
    }

    /// Whether some row has both marks at one tick.
    pub fn clash(&self) -> bool {
        self.cells.contains(&[true, true])
    }

    /// What ask answers for each tick of the row: 0 unsettled, 1 true, 2 false; 3 everywhere if any row clashes.
    pub fn values(&self, row: usize) -> Vec<u64> {
        if self.clash() {
            return vec![3; self.window];
        }
        let cells = &self.cells[row * self.window..(row + 1) * self.window];
        let value = |&[marked_false, marked_true]: &[bool; 2]| {
            u64::from(marked_true) + 2 * u64::from(marked_false)
        };
        cells.iter().map(value).collect()
    }

    /// How many marks the first rows have.
    pub fn count(&self, rows: usize) -> u64 {
        let cells = &self.cells[..rows * self.window];
        cells.iter().flatten().filter(|&&marked| marked).count() as u64
    }
}

/// The least closed marks that hold `start` and every top at every tick.
pub fn close(rows: &Rows, start: &Marks) -> Marks {
    let mut closing = Closing::new(rows, start.window);
    for (row, tick, value) in start.all() {
        closing.mark(row, tick, value);
    }
    for &top in &rows.tops {
        for tick in 0..start.window {
            closing.mark(top, tick, true);
        }
    }
    while let Some((row, tick)) = closing.next() {
        closing.apply(row, tick);
    }
    closing.marks
}

struct Closing<'a> {
    rows: &'a Rows,
    marks: Marks,
    /// For each row the nodes that have it as a child, each with the offset at which it looks at the child.
    parents: Vec<Vec<(usize, i64)>>,
    /// The nodes and ticks at which a rule may have something new to give, each once.
    waiting: Vec<(usize, usize)>,
    /// For each row and tick in turn, whether it waits.
    waits: Vec<bool>,
}

impl<'a> Closing<'a> {
    fn new(rows: &'a Rows, window: usize) -> Self {
        let mut parents = vec![vec![]; rows.nodes.len()];
        for (row, node) in rows.nodes.iter().enumerate() {
            match *node {
                Node::Signal => {}
                Node::Not(child) => parents[child].push((row, 0)),
                Node::Look(child, offset) => parents[child].push((row, offset)),
                Node::And(left, right) | Node::Or(left, right) => {
                    parents[left].push((row, 0));
                    parents[right].push((row, 0));
                }
            }
        }
        let marks = Marks::none(rows.nodes.len(), window);
        Closing {
            rows,
            marks,
            parents,
            waiting: vec![],
            waits: vec![false; rows.nodes.len() * window],
        }
    }

    /// Sets a mark; if it is new, its node and the nodes above it have to be looked at.
    fn mark(&mut self, row: usize, tick: usize, value: bool) {
        if self.marks.has(row, tick, value) {
            return;
        }
        self.marks.set(row, tick, value);
        self.wait(row, tick);
        for place in 0..self.parents[row].len() {
            let (parent, offset) = self.parents[row][place];
            if let Some(there) = within(tick, -offset, self.marks.window) {
                self.wait(parent, there);
            }
        }
    }

    fn wait(&mut self, row: usize, tick: usize) {
        let waits = &mut self.waits[row * self.marks.window + tick];
        if !*waits {
            *waits = true;
            self.waiting.push((row, tick));
        }
    }

    /// Takes one of those that wait.
    fn next(&mut self) -> Option<(usize, usize)> {
        let (row, tick) = self.waiting.pop()?;
        self.waits[row * self.marks.window + tick] = false;
        Some((row, tick))
    }

    /// Every rule of this node at this tick.
    fn apply(&mut self, row: usize, tick: usize) {
        match self.rows.nodes[row] {
            Node::Signal => {}
            Node::Not(child) => {
                self.give(row, tick, child, tick, true);
                self.give(child, tick, row, tick, true);
            }
            Node::Look(child, offset) => {
                if let Some(there) = within(tick, offset, self.marks.window) {
                    self.give(row, tick, child, there, false);
                    self.give(child, there, row, tick, false);
                }
            }
            Node::And(left, right) => self.gate(row, left, right, tick, true),
            Node::Or(left, right) => self.gate(row, left, right, tick, false),
        }
    }

    /// The marks of one cell go to another, turned or as they are.
    fn give(&mut self, from: usize, at: usize, to: usize, there: usize, turned: bool) {
        for value in [false, true] {
            if self.marks.has(from, at, value) {
                self.mark(to, there, value != turned);
            }
        }
    }

    /// And with `whole` true; or, with true and false traded, with `whole` false.
    fn gate(&mut self, row: usize, left: usize, right: usize, tick: usize, whole: bool) {
        if self.marks.has(row, tick, whole) {
            self.mark(left, tick, whole);
            self.mark(right, tick, whole);
        }
        if self.marks.has(left, tick, whole) && self.marks.has(right, tick, whole) {
            self.mark(row, tick, whole);
        }
        for (child, other) in [(left, right), (right, left)] {
            if self.marks.has(child, tick, !whole) {
                self.mark(row, tick, !whole);
            }
            if self.marks.has(row, tick, !whole) && self.marks.has(child, tick, whole) {
                self.mark(other, tick, !whole);
            }
        }
    }
}

/// The tick at this offset, if it is in the window.
pub fn within(tick: usize, offset: i64, window: usize) -> Option<usize> {
    let there = tick as i64 + offset;
    (0..window as i64)
        .contains(&there)
        .then_some(there as usize)
}
