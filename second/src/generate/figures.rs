//! Calls of figures: no texts, a few, 64 and more, of either form, whole and with faults; and work tables, lists and lengths that do not fit.

use super::random::Random;
use super::{readings, tables, Shape};
use crate::figures::MOST_RUNS;
use crate::table::length;

/// Texts joined in one slice, their lengths as they are told, and how many words and records are lent.
pub struct Figures {
    pub texts: Vec<u8>,
    pub lengths: Vec<u64>,
    pub words: usize,
    pub records: usize,
}

/// A run takes time for every cell: those of most calls have at most so many in all.
const MOST_CELLS: usize = 100_000;

pub fn any(random: &mut Random, shape: &Shape) -> Figures {
    let texts = texts(random, shape);
    let mut call = Figures {
        texts: texts.concat(),
        lengths: texts.iter().map(|text| text.len() as u64).collect(),
        words: length(shape.rows, shape.window),
        records: shape.names.len(),
    };
    match random.weighted(&[70, 6, 6, 10, 8]) {
        0 => {}
        1 => call.wrong_words(random, shape),
        2 => call.wrong_records(random, shape),
        3 => call.wrong_lengths(random),
        _ => call.several_wrong(random, shape),
    }
    call
}

/// The texts: all whole, with one or two that have a fault or are near their longest, or with two that are parted at another place.
fn texts(random: &mut Random, shape: &Shape) -> Vec<Vec<u8>> {
    let runs = runs(random, shape);
    let text = |_| readings::whole(random, shape.window, &shape.names);
    let mut texts: Vec<Vec<u8>> = (0..runs).map(text).collect();
    match random.weighted(&[38, 32, 16, 6, 8]) {
        _ if texts.is_empty() => {}
        0 => {}
        1 => put(random, &mut texts, shape, readings::wrong),
        2 => {
            put(random, &mut texts, shape, readings::wrong);
            let other: [Kind; 3] = [readings::wrong, readings::longest, readings::longest];
            let other = random.pick(&other);
            put(random, &mut texts, shape, other);
        }
        3 => put(random, &mut texts, shape, readings::longest),
        _ => part_elsewhere(random, &mut texts),
    }
    texts
}

/// How many texts: none, one, a few, many, as many as are allowed, or one more. Of large sheets there are most often few.
fn runs(random: &mut Random, shape: &Shape) -> usize {
    let (few, many) = (2 + random.below(4), 6 + random.below(58));
    let runs = random.pick(&[0, 1, 1, few, few, few, few, few, few, few, many, MOST_RUNS]);
    let most = (MOST_CELLS / (shape.rows * shape.window)).max(2);
    match random.weighted(&[96, 1, 3]) {
        0 => runs.min(most),
        1 => runs,
        _ => MOST_RUNS + 1,
    }
}

/// A kind of texts, for a window and names.
type Kind = fn(&mut Random, usize, &[String]) -> Vec<u8>;

/// Puts a text of this kind in the place of one of the texts.
fn put(random: &mut Random, texts: &mut [Vec<u8>], shape: &Shape, kind: Kind) {
    let place = random.below(texts.len());
    texts[place] = kind(random, shape.window, &shape.names);
}

/// Two neighbours parted at another line or byte than where the second starts.
fn part_elsewhere(random: &mut Random, texts: &mut [Vec<u8>]) {
    if texts.len() < 2 {
        return;
    }
    let first = random.below(texts.len() - 1);
    let mut both = texts[first..first + 2].concat();
    let lines = both.split_inclusive(|&byte| byte == b'\n');
    let lengths: Vec<usize> = lines.map(<[u8]>::len).collect();
    let lines = random.below(lengths.len() + 1);
    let place = if random.chance(60) {
        lengths[..lines].iter().sum()
    } else {
        random.below(both.len() + 1)
    };
    texts[first + 1] = both.split_off(place);
    texts[first] = both;
}

impl Figures {
    fn wrong_words(&mut self, random: &mut Random, shape: &Shape) {
        self.words = tables::wrong_length(random, self.words, shape.rows);
    }

    fn wrong_records(&mut self, random: &mut Random, shape: &Shape) {
        let right = self.records;
        let others = [0, 64, 65, 2 * right, shape.rows, self.lengths.len()];
        let other = random.pick(&others);
        self.records = random.pick(&[right - 1, right + 1, other]);
    }

    /// Each may be wrong, and a text too: the first that is tells the refusal.
    fn several_wrong(&mut self, random: &mut Random, shape: &Shape) {
        if random.chance(50) {
            self.wrong_words(random, shape);
        }
        if random.chance(60) {
            self.wrong_records(random, shape);
        }
        if random.chance(70) {
            self.wrong_lengths(random);
        }
    }

    /// A sum that is not the slice's length, or more lengths than are allowed.
    fn wrong_lengths(&mut self, random: &mut Random) {
        match random.weighted(&[20, 25, 25, 15, 15]) {
            0 => self.one_off(random),
            1 => self.wrapped(random),
            2 => self.too_many(random),
            3 => self.far_off(random),
            _ => self.missing(random),
        }
    }

    /// The place of a length; there are at least so many from now on.
    fn some_length(&mut self, random: &mut Random, least: usize) -> usize {
        let count = self.lengths.len().max(least);
        self.lengths.resize(count, 0);
        random.below(count)
    }

    fn one_off(&mut self, random: &mut Random) {
        let place = self.some_length(random, 1);
        let length = self.lengths[place];
        let less = length.saturating_sub(1);
        self.lengths[place] = random.pick(&[length + 1, less]);
    }

    /// One length gets below 0, where it wraps, and another so much longer: the sum is right but for 2 to the 64.
    fn wrapped(&mut self, random: &mut Random) {
        let one = self.some_length(random, 2);
        let count = self.lengths.len();
        let other = (one + 1 + random.below(count - 1)) % count;
        let short = self.lengths[one];
        let more = random.pick(&[short + 1, short + 5, 1 << 32, (1 << 63) - 1, 1 << 63]);
        self.lengths[one] = short.wrapping_sub(more);
        self.lengths[other] += more;
    }

    /// Over 64 lengths that add up: some are parted, or there are empty texts.
    fn too_many(&mut self, random: &mut Random) {
        let count = random.pick(&[65, 65, 65, 66, 80, 128, 256, 320]);
        let parted = random.chance(50);
        self.some_length(random, 1);
        while self.lengths.len() < count {
            let place = random.below(self.lengths.len());
            let length = self.lengths[place];
            let part = if parted { length / 2 } else { 0 };
            self.lengths[place] = length - part;
            self.lengths.insert(place + random.below(2), part);
        }
    }

    /// A length that no slice has; to a reader that keeps only the lower bits some would be right.
    fn far_off(&mut self, random: &mut Random) {
        let place = self.some_length(random, 1);
        let length = self.lengths[place];
        let more = random.pick(&[1 << 16, 1 << 32, 1 << 63, u64::MAX - length]);
        self.lengths[place] = length + more;
    }

    /// No last length, no lengths at all, or no last byte.
    fn missing(&mut self, random: &mut Random) {
        match random.below(4) {
            0 => {
                self.lengths.pop();
            }
            1 => {
                self.texts.pop();
            }
            _ => self.lengths.clear(),
        }
    }
}
