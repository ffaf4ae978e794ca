//! The table of words: its length, and the marks that its words hold. Each row has a block of words for its true marks and one for its false marks.

use crate::infer::Marks;
use crate::text::{refuse, Refusal};

/// Ticks in one word.
pub const WORD: usize = 64;

/// The fewest words that cover the window: a block has so many.
pub fn block_words(window: usize) -> usize {
    (window + WORD - 1) / WORD
}

/// How many words the table has.
pub fn length(rows: usize, window: usize) -> usize {
    2 * rows * block_words(window)
}

/// The place of the word that has the mark, and the mark as that word's bit.
pub fn word_of(row: usize, tick: usize, value: bool, window: usize) -> (usize, u64) {
    let block = 2 * row + usize::from(!value);
    let place = block * block_words(window) + tick / WORD;
    (place, 1 << (tick % WORD))
}

/// The marks that the table holds, if it has its length and no mark outside the window.
pub fn marks_of(table: &[u64], rows: usize, window: usize) -> Result<Marks, Refusal> {
    if table.len() != length(rows, window) {
        return refuse(15, 0);
    }
    let mut marks = Marks::none(rows, window);
    for (number, block) in table.chunks(block_words(window)).enumerate() {
        let (row, value) = (number / 2, number % 2 == 0);
        for tick in ticks_of(block) {
            if tick >= window {
                return refuse(16, 0);
            }
            marks.set(row, tick, value);
        }
    }
    Ok(marks)
}

/// The ticks whose bits are set in a block, tick 0 first.
fn ticks_of(block: &[u64]) -> impl Iterator<Item = usize> + '_ {
    let words = block.iter().enumerate().filter(|(_, word)| **word != 0);
    words.flat_map(|(place, word)| {
        let ticks = (0..WORD).filter(move |tick| word >> tick & 1 == 1);
        ticks.map(move |tick| place * WORD + tick)
    })
}

/// Writes every word of the table anew.
pub fn write(marks: &Marks, window: usize, table: &mut [u64]) {
    table.fill(0);
    for (row, tick, value) in marks.all() {
        let (place, mark) = word_of(row, tick, value, window);
        table[place] |= mark;
    }
}
