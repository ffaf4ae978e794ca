//! What captions meet in the listing program that takes some: their refusals and what would be refused later, and the kinds that are shown.

use crate::captions::{parts, read_captions, Source};
use crate::generate::listed::Texts;
use crate::listing::MOST_WORDS;
use crate::operations::read;
use crate::seen_calls::{holding, Thing};
use crate::table::length;
use crate::tally::Tally;
use crate::text::name::in_order;
use crate::text::readings;
use crate::text::sheet::Sheet;

/// The things, each with how often it has to be met.
const THINGS: [(&str, u64); 11] = [
    ("the sheet's refusal, also a first line not of its form", 1),
    ("24", 15),
    ("12", 5),
    ("24 or 12, also a table that is too large", 5),
    ("24 or 12, also readings that are refused", 3),
    ("29, with captions", 15),
    ("a refusal of readings, with captions", 5),
    ("no captions: 0", 5),
    ("captions of some names: 0", 10),
    ("captions of all of several names: 0", 10),
    ("captions in another order than the names: 0", 20),
];

/// None yet; where so often is the least, this is enough.
pub fn tally(enough: impl Fn(u64) -> u64) -> Tally {
    let things = THINGS.iter();
    let things = things.map(|&(thing, least)| (thing.to_string(), enough(least)));
    Tally::new("listings in which captions met", things)
}

/// What the captions of a case met whose listing gives this answer.
pub fn met(texts: &Texts, answer: &str) -> Vec<String> {
    let captions = texts.captions.as_deref().unwrap_or_default();
    let things = match read(&texts.sheet) {
        Err(_) => of_refused_sheet(captions),
        Ok((sheet, rows)) => {
            let words = length(rows.nodes.len(), sheet.window);
            match read_captions(captions, &sheet.names) {
                Err(refusal) => of_refused(&sheet, texts, refusal.number, words > MOST_WORDS),
                Ok(_) => of_accepted(&sheet, texts, captions, answer),
            }
        }
    };
    holding(&things)
}

fn of_refused_sheet(captions: &[u8]) -> Vec<Thing> {
    // Where no name is declared, the first line is refused for its form or for its name.
    let form = matches!(read_captions(captions, &[]), Err(refusal) if refusal.number == 24);
    vec![(
        "the sheet's refusal, also a first line not of its form",
        form,
    )]
}

/// What refused captions met.
fn of_refused(sheet: &Sheet, texts: &Texts, number: u64, too_large: bool) -> Vec<Thing> {
    let readings = readings::read(&texts.readings, sheet.window, &sheet.names);
    vec![
        ("24", number == 24),
        ("12", number == 12),
        ("24 or 12, also a table that is too large", too_large),
        (
            "24 or 12, also readings that are refused",
            readings.is_err(),
        ),
    ]
}

/// What accepted captions met.
fn of_accepted(sheet: &Sheet, texts: &Texts, captions: &[u8], answer: &str) -> Vec<Thing> {
    let parts = parts(sheet, captions).unwrap_or_default();
    let count = parts
        .iter()
        .filter(|part| part.of == Source::Captions)
        .count();
    let in_order = in_order(&sheet.names).into_iter();
    let shown = in_order.map(|signal| parts[signal].shown(&texts.sheet, captions));
    let shown: Vec<&[u8]> = shown.collect();
    let listed = answer == "0";
    vec![
        ("29, with captions", answer == "29" && count > 0),
        (
            "a refusal of readings, with captions",
            answer != "29" && !listed && count > 0,
        ),
        ("no captions: 0", listed && count == 0),
        (
            "captions of some names: 0",
            listed && count > 0 && count < parts.len(),
        ),
        (
            "captions of all of several names: 0",
            listed && count > 1 && count == parts.len(),
        ),
        (
            "captions in another order than the names: 0",
            listed && count > 0 && shown.windows(2).any(|pair| pair[1] < pair[0]),
        ),
    ]
}
