//! Lent tables: empty, with marks of their own, with a mark outside the window, and of a wrong length.

use super::random::Random;
use super::{windows, Shape};
use crate::table::{block_words, length, word_of, WORD};

/// Most often empty; else with marks of its own, with a mark outside the window, or of a wrong length.
pub fn table(random: &mut Random, shape: &Shape) -> Vec<u64> {
    let Shape { rows, window, .. } = *shape;
    let mut table = vec![0; length(rows, window)];
    match random.weighted(&[60, 12, 8, 2, 2, 6, 6]) {
        0 => {}
        1 => some_marks(random, &mut table, rows, window),
        2 => some_marks(random, &mut table, shape.names.len(), window),
        3 => every_word(&mut table, window, |inside| random.next() & inside),
        4 => every_word(&mut table, window, |inside| inside),
        5 => {
            some_marks(random, &mut table, rows, window);
            mark_outside(random, &mut table, rows, window);
        }
        _ => resize(random, &mut table, rows),
    }
    table
}

/// Marks in the first rows.
fn some_marks(random: &mut Random, table: &mut [u64], rows: usize, window: usize) {
    for _ in 0..1 + random.below(6) {
        let (row, tick) = (random.below(rows), windows::tick(random, window));
        let (place, mark) = word_of(row, tick, random.chance(50), window);
        table[place] |= mark;
    }
}

/// Fills each word from all the ticks that it has in the window.
fn every_word(table: &mut [u64], window: usize, mut word_of: impl FnMut(u64) -> u64) {
    for block in table.chunks_mut(block_words(window)) {
        for (place, word) in block.iter_mut().enumerate() {
            let ticks = WORD.min(window - place * WORD);
            *word = word_of(u64::MAX >> (WORD - ticks));
        }
    }
}

/// A mark past the window in the last word of a block, where the window does not fill that word.
pub fn mark_outside(random: &mut Random, table: &mut [u64], rows: usize, window: usize) {
    let first = window % WORD;
    if first == 0 {
        return;
    }
    let (any_row, any_tick) = (random.below(rows), first + random.below(WORD - first));
    let row = random.pick(&[0, rows - 1, any_row]);
    let (place, _) = word_of(row, window - 1, random.chance(50), window);
    table[place] |= 1 << random.pick(&[first, any_tick, WORD - 1]);
}

/// A wrong length; now and then with marks as well.
pub fn resize(random: &mut Random, table: &mut Vec<u64>, rows: usize) {
    let length = wrong_length(random, table.len(), rows);
    table.resize(length, 0);
    if length > 0 && random.chance(30) {
        table[random.below(length)] = random.next();
    }
}

/// Another length than this, also the one of a window of one word, of a word less or of a word more.
pub fn wrong_length(random: &mut Random, words: usize, rows: usize) -> usize {
    let near = [words - 2, words - 1, words + 1, words + 2];
    let far = [0, 1, words / 2, 2 * words, 2048];
    let of_other_windows = [2 * rows, words - 2 * rows, words + 2 * rows];
    match random.weighted(&[40, 30, 30]) {
        0 => random.pick(&near),
        1 => random.pick(&far),
        _ => random.pick(&of_other_windows),
    }
}
