//! Windows of several words, at the borders of words and at the limit, and ticks next to such borders.

use super::draft::Draft;
use super::random::Random;
use crate::operations::read;
use crate::table::{block_words, WORD};
use crate::text::sheet::LONGEST_WINDOW;

/// Windows at the borders of words.
const AT_BORDERS: [usize; 9] = [63, 64, 65, 127, 128, 129, 191, 192, 193];
/// A closing takes time for every cell: most sheets have at most so many.
const MOST_CELLS: usize = 100_000;

/// A window of several words, most often; now and then of as many as are allowed.
pub fn longer(random: &mut Random) -> usize {
    let longest = LONGEST_WINDOW as usize;
    match random.weighted(&[42, 42, 5, 11]) {
        0 => random.pick(&AT_BORDERS),
        1 => random.between(65, 300) as usize,
        2 => random.between(301, 4_094) as usize,
        _ => random.pick(&[longest - 1, longest]),
    }
}

/// Shortens the window of a sheet with too many cells; one in fifty stays as it is.
pub fn shorten(random: &mut Random, draft: &mut Draft) {
    let rows = match draft.window.parse::<usize>() {
        Ok(window) if window > WORD => read(&draft.text()),
        _ => return,
    };
    if let Ok((sheet, rows)) = rows {
        let most = MOST_CELLS / rows.nodes.len();
        if sheet.window > most && !random.chance(2) {
            draft.window = most.to_string();
        }
    }
}

/// A tick of the window; every other one lies next to a border of two words or to the window's end.
pub fn tick(random: &mut Random, window: usize) -> usize {
    if random.chance(50) {
        return random.below(window);
    }
    let border = window.min(WORD * (1 + random.below(block_words(window))));
    let near = border as i64 + random.between(-2, 1);
    near.clamp(0, window as i64 - 1) as usize
}
