//! The inference rules, swept over the rows until nothing changes.
use crate::lowering::Row;
use crate::table::Ticks;
use std::cell::Cell;

/// A row's true marks and its false marks.
type Marks<'a> = (&'a [Cell<u64>], &'a [Cell<u64>]);

/// The table's words are cells, since both children of a gate may be one row. ONE says that a row has one word for each value: the compiler makes a
/// copy of the sweeps for that, without their inner loops.
struct Table<'a, const ONE: bool> {
    words: &'a [Cell<u64>],
    ticks: Ticks,
}

impl<const ONE: bool> Table<'_, ONE> {
    fn row_words(&self) -> usize {
        if ONE {
            1
        } else {
            self.ticks.words
        }
    }

    /// A row's marks, true and false traded if asked for.
    fn marks(&self, row: usize, trade: bool) -> Marks<'_> {
        let n = self.row_words();
        let (yes, no) = self.words[2 * n * row..][..2 * n].split_at(n);
        if trade {
            (no, yes)
        } else {
            (yes, no)
        }
    }

    /// An And's rules; an Or's with true and false traded.
    fn gate(&self, row: usize, a: usize, b: usize, trade: bool) -> bool {
        let (rt, rf) = self.marks(row, trade);
        let (at, af) = self.marks(a, trade);
        let (bt, bf) = self.marks(b, trade);
        let mut changed = false;
        for w in 0..self.row_words() {
            let old = [rt[w].get(), rf[w].get(), at[w].get(), af[w].get(), bt[w].get(), bf[w].get()];
            let new = and_word(old);
            // Word by word: of whole arrays it would be a call of the C library.
            if new.iter().zip(&old).any(|(new, old)| new != old) {
                for (word, marks) in [&rt[w], &rf[w], &at[w], &af[w], &bt[w], &bf[w]].into_iter().zip(new) {
                    word.set(marks);
                }
                changed = true;
            }
        }
        changed
    }

    fn not(&self, row: usize, x: usize) -> bool {
        let (yes, no) = self.marks(row, false);
        let (x_no, x_yes) = self.marks(x, true);
        same(yes, x_no) | same(no, x_yes)
    }

    /// The row at a tick and its child `offset` ticks later give each other, where both ticks are in the window.
    fn look(&self, row: usize, child: usize, offset: i32) -> bool {
        let (early, late) = if offset >= 0 { (row, child) } else { (child, row) };
        let (early_yes, early_no) = self.marks(early, false);
        let (late_yes, late_no) = self.marks(late, false);
        let k = offset.unsigned_abs();
        self.look_words(early_yes, late_yes, k) | self.look_words(early_no, late_no, k)
    }

    /// The early words at a tick and the late ones `k` ticks later give each other.
    fn look_words(&self, early: &[Cell<u64>], late: &[Cell<u64>], k: u32) -> bool {
        let n = self.row_words();
        let mut changed = false;
        let mut carried = 0;
        for w in 0..n {
            let (e, l) = (early[w].get(), late[w].get());
            let (next, inside) = if w + 1 < n {
                (late[w + 1].get(), u64::MAX)
            } else {
                (0, self.ticks.last)
            };
            // Shifts by 64 - k in two parts, since k may be 0.
            let e_new = e | l >> k | next << 1 << (63 - k);
            let l_new = l | (e << k | carried) & inside;
            carried = e >> 1 >> (63 - k);
            changed |= e_new != e || l_new != l;
            early[w].set(e_new);
            late[w].set(l_new);
        }
        changed
    }

    fn step(&self, row: usize, kind: Row) -> bool {
        match kind {
            Row::Signal => false,
            Row::Not(x) => self.not(row, x),
            Row::And(a, b) => self.gate(row, a, b, false),
            Row::Or(a, b) => self.gate(row, a, b, true),
            Row::Look(child, offset) => self.look(row, child, offset),
        }
    }

    fn sweep(&self, rows: &[Row]) {
        loop {
            let mut changed = false;
            for row in 0..rows.len() {
                changed |= self.step(row, rows[row]);
            }
            if !changed {
                return;
            }
            changed = false;
            for row in (0..rows.len()).rev() {
                changed |= self.step(row, rows[row]);
            }
            if !changed {
                return;
            }
        }
    }
}

/// An And's rules at one word of the row, of its first child and of its second: each the true marks, then the false ones.
fn and_word([mut rt, mut rf, mut at, mut af, mut bt, mut bf]: [u64; 6]) -> [u64; 6] {
    at |= rt;
    bt |= rt;
    rt |= at & bt;
    rf |= af | bf;
    af |= rf & bt;
    bf |= rf & at;
    [rt, rf, at, af, bt, bf]
}

/// Words that give each other their marks.
fn same(a: &[Cell<u64>], b: &[Cell<u64>]) -> bool {
    let mut changed = false;
    for (a, b) in a.iter().zip(b) {
        let both = a.get() | b.get();
        changed |= a.get() != both || b.get() != both;
        a.set(both);
        b.set(both);
    }
    changed
}

pub fn close(rows: &[Row], ticks: Ticks, table: &mut [u64]) {
    let words = Cell::from_mut(table).as_slice_of_cells();
    if ticks.words == 1 {
        Table::<true> { words, ticks }.sweep(rows)
    } else {
        Table::<false> { words, ticks }.sweep(rows)
    }
}
