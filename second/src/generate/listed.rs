//! Cases for the listing programs: a sheet, its readings and, for one of the programs, captions. Most are as in other cases; the rest have tables
//! of the most words that are listed, and of more.

use super::damage::damage;
use super::draft::Draft;
use super::limits::rules_of_rows;
use super::names::names;
use super::random::Random;
use super::{caption_text, readings, shape, sheet};
use crate::listing::MOST_WORDS;
use crate::lower::MOST_ROWS;
use crate::table::WORD;

/// The texts of a case; captions are for the program that takes some.
pub struct Texts {
    pub sheet: Vec<u8>,
    pub readings: Vec<u8>,
    pub captions: Option<Vec<u8>>,
}

impl Texts {
    /// The files that they are in.
    pub fn files(&self) -> Vec<(&'static str, &[u8])> {
        let captions = self.captions.as_deref();
        let captions = captions.map(|text| ("captions.txt", text));
        let others = [("sheet.txt", &self.sheet), ("readings.txt", &self.readings)];
        let others = others.into_iter().map(|(name, text)| (name, &text[..]));
        others.chain(captions).collect()
    }
}

/// A case for the program without captions.
pub fn plain(seed: u64, number: u64) -> Texts {
    texts(&mut Random::new(seed, number), number, |_, _| None)
}

/// A case for the program with captions; most are accepted.
pub fn captioned(seed: u64, number: u64) -> Texts {
    let mut random = Random::new(seed, number);
    texts(&mut random, number, |random, names| {
        Some(match random.weighted(&[46, 6, 48]) {
            0 => caption_text::whole(random, names),
            1 => vec![],
            _ => caption_text::captions(random, names),
        })
    })
}

/// Of four cases one has a table of exactly the most words, and one a larger table.
fn texts(
    random: &mut Random,
    number: u64,
    captions: fn(&mut Random, &[String]) -> Option<Vec<u8>>,
) -> Texts {
    let sheet = match number % 4 {
        0 => largest(random).text(),
        1 => too_large(random),
        _ => sheet::sheet(random),
    };
    let shape = shape(&sheet);
    let readings = readings::readings(random, shape.window, &shape.names);
    let captions = captions(random, &shape.names);
    Texts {
        sheet,
        readings,
        captions,
    }
}

fn largest(random: &mut Random) -> Draft {
    let words = random.pick(&[4, 8, 16, 32, 64, 64, 64]);
    of_size(random, MOST_WORDS / 2 / words, words)
}

/// One row over the most words, or any number; now and then damaged, so that another refusal comes first.
fn too_large(random: &mut Random) -> Vec<u8> {
    let words = random.pick(&[5, 8, 16, 32, 63, 64, 64, 64]);
    let least = MOST_WORDS / 2 / words + 1;
    let rows = if random.chance(80) {
        least
    } else {
        random.between(least as i64, MOST_ROWS as i64 + 1) as usize
    };
    let mut text = of_size(random, rows, words).text();
    if random.chance(5) {
        damage(random, &mut text);
    }
    text
}

/// A sheet of so many rows whose window takes so many words; every other one has as many signals as it can.
fn of_size(random: &mut Random, rows: usize, words: usize) -> Draft {
    let most = rows.min(64);
    let least = if random.chance(50) { most } else { 1 };
    let names = names(random, least, most);
    let rules = rules_of_rows(random, &names, rows);
    let missing = random.below(WORD);
    let window = words * WORD - random.pick(&[0, 1, WORD - 1, missing]);
    Draft::new(window, names, rules)
}
