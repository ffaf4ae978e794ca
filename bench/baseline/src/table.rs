//! How the ticks of a window lie in the words of a table: for each row those of its true marks, then as many for its false marks, tick 0 first.

#[derive(Clone, Copy)]
pub struct Ticks {
    /// A row's words for one value.
    pub words: usize,
    /// The ticks of the last of them that are in the window.
    pub last: u64,
}

impl Ticks {
    pub fn of(window: usize) -> Ticks {
        Ticks {
            words: (window + 63) / 64,
            last: u64::MAX >> (63 - (window - 1) % 64),
        }
    }

    /// The first of a row's words for true marks (0) or false marks (1).
    pub fn block(self, row: usize, value: usize) -> usize {
        (2 * row + value) * self.words
    }
}

pub fn count_marks(words: &[u64]) -> usize {
    words.iter().map(|w| w.count_ones() as usize).sum()
}

/// Marks the ticks from the first to the last in a row's words for one value.
pub fn mark(words: &mut [u64], first: usize, last: usize) {
    let (from, to) = (u64::MAX << (first % 64), u64::MAX >> (63 - last % 64));
    let (q, r) = (first / 64, last / 64);
    if q == r {
        words[q] |= from & to;
    } else {
        words[q] |= from;
        words[q + 1..r].fill(u64::MAX);
        words[r] |= to;
    }
}
