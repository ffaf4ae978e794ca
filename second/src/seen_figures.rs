//! What calls of figures meet: the refusals, in which text and before which others, and the kinds of runs that are accepted.

use crate::figures::{cut, Record, MOST_RUNS, NEVER};
use crate::generate::figures::Figures;
use crate::library::Outcome;
use crate::operations::read;
use crate::seen_calls::{of_sheet, SHEETS};
use crate::tally::Tally;
use crate::text::readings::{self, Form};
use crate::text::sheet::Sheet;
use crate::text::LONGEST_TEXT;
use std::collections::BTreeSet;

/// The refusals of a text, which may be the first or a later one.
const OF_TEXTS: [u64; 6] = [10, 11, 12, 13, 14, 21];
/// The other refusals, with what would be refused later in the same call, and what is accepted.
const OTHERS: [&str; 26] = [
    "15",
    "15, also 18",
    "18",
    "18, also 19",
    "19",
    "19, over 64 lengths that add up",
    "19, a sum one too small",
    "19, a sum one too large",
    "19, a sum too large by 2 to the 64",
    "19, no lengths for some bytes",
    "19, also a first text that is refused",
    "11 where a text ends and the next one goes on",
    "10 to 21, also a later text that is refused",
    "11 to 21, also 10 for a later text",
    "no run: 0",
    "one run: 0",
    "64 runs: 0",
    "a run with a clash beside one without: 0",
    "no run without a clash: 0",
    "a record with no settled tick: 0",
    "a first tick above 63: 0",
    "texts of both forms: 0",
    "an empty text beside another: 0",
    "over 32,768 bytes in all: 0",
    "records in another order than the sheet's: 0",
    "records in another order than the bytes': 0",
];

/// In how many cases each thing was met.
pub struct Seen(Tally);

/// What one case met.
#[derive(Default)]
pub struct Met(BTreeSet<String>);

impl Seen {
    /// None yet; each thing has to be met so often.
    pub fn none(least: u64) -> Self {
        let of_sheets = SHEETS.iter().map(|thing| thing.to_string());
        let of_first = OF_TEXTS.iter().map(|&number| of_text(number, 0));
        let of_later = OF_TEXTS.iter().map(|&number| of_text(number, 1));
        let others = OTHERS.iter().map(|thing| thing.to_string());
        let things = of_sheets.chain(of_first).chain(of_later).chain(others);
        let things = things.map(|thing| (thing, least));
        Seen(Tally::new("cases in which a call of figures met", things))
    }

    pub fn count(&mut self, case: Met) {
        case.0.iter().for_each(|thing| self.0.met_thing(thing));
    }

    /// Prints the counts; answers how many things were met too seldom.
    pub fn print(&self) -> u64 {
        self.0.print()
    }
}

impl Met {
    /// Takes in a call, what it answered and the records after it.
    pub fn figured(&mut self, sheet: &[u8], call: &Figures, outcome: &Outcome, records: &[Record]) {
        let number = outcome.answer;
        let sheet = match read(sheet) {
            Ok((sheet, _)) => sheet,
            Err(_) => {
                self.0.insert(of_sheet(number).to_string());
                return;
            }
        };
        match number {
            0 => self.others(&accepted(&sheet, call, records)),
            15 | 18 | 19 => self.others(&misfit(number, &sheet, call)),
            _ => self.refused_text(outcome, &sheet, call),
        }
    }

    /// Takes in those of the things for which it holds.
    fn others(&mut self, things: &[(&str, bool)]) {
        let met = things.iter().filter(|(_, met)| *met);
        self.0.extend(met.map(|(thing, _)| thing.to_string()));
    }

    fn refused_text(&mut self, outcome: &Outcome, sheet: &Sheet, call: &Figures) {
        let texts = cut(&call.texts, &call.lengths).unwrap_or_default();
        let refused = |text: &[u8]| readings::read(text, sheet.window, &sheet.names).is_err();
        let which = texts.iter().position(|(_, text)| refused(text));
        let which = which.expect("a text that is refused");
        let (number, place) = (outcome.answer, outcome.outputs[0] as usize);
        let (start, text) = texts[which];
        let (at_end, later) = (place == start + text.len(), &texts[which + 1..]);
        self.0.insert(of_text(number, which));
        self.others(&[
            (
                "11 where a text ends and the next one goes on",
                number == 11 && at_end && place < call.texts.len(),
            ),
            (
                "10 to 21, also a later text that is refused",
                later.iter().any(|(_, text)| refused(text)),
            ),
            (
                "11 to 21, also 10 for a later text",
                number != 10 && later.iter().any(|(_, text)| text.len() > LONGEST_TEXT),
            ),
        ]);
    }
}

/// The refusal of the text at this place of the list.
fn of_text(number: u64, place: usize) -> String {
    let which = if place == 0 { "the first" } else { "a later" };
    format!("{which} text: {number}")
}

/// What is met where the work table, the list or the lengths do not fit.
fn misfit(number: u64, sheet: &Sheet, call: &Figures) -> Vec<(&'static str, bool)> {
    let Figures { texts, lengths, .. } = call;
    let sum: u128 = lengths.iter().map(|&length| u128::from(length)).sum();
    let (bytes, many) = (texts.len() as u128, lengths.len() > MOST_RUNS);
    let few = number == 19 && !many;
    let first = lengths
        .first()
        .and_then(|&length| texts.get(..length as usize));
    let read = first.map(|text| readings::read(text, sheet.window, &sheet.names));
    vec![
        ("15", number == 15),
        (
            "15, also 18",
            number == 15 && call.records != sheet.names.len(),
        ),
        ("18", number == 18),
        ("18, also 19", number == 18 && cut(texts, lengths).is_err()),
        ("19", number == 19),
        (
            "19, over 64 lengths that add up",
            number == 19 && many && sum == bytes,
        ),
        ("19, a sum one too small", few && sum + 1 == bytes),
        ("19, a sum one too large", few && sum == bytes + 1),
        (
            "19, a sum too large by 2 to the 64",
            few && sum == bytes + (1 << 64),
        ),
        ("19, no lengths for some bytes", few && lengths.is_empty()),
        (
            "19, also a first text that is refused",
            number == 19 && matches!(read, Some(Err(_))),
        ),
    ]
}

/// What is met where all is accepted.
fn accepted(sheet: &Sheet, call: &Figures, records: &[Record]) -> Vec<(&'static str, bool)> {
    let runs = call.lengths.len();
    let (clashed, all) = (records[0].clashed, (sheet.window * runs) as u64);
    let some = |what: fn(&Record) -> bool| records.iter().any(what);
    let forms = forms(call);
    let signals: Vec<u64> = records.iter().map(|record| record.signal).collect();
    let name = |&signal: &u64| sheet.names[signal as usize].to_string();
    let names: Vec<String> = signals.iter().map(name).collect();
    vec![
        ("no run: 0", runs == 0),
        ("one run: 0", runs == 1),
        ("64 runs: 0", runs == MOST_RUNS),
        (
            "a run with a clash beside one without: 0",
            clashed > 0 && clashed < all,
        ),
        ("no run without a clash: 0", runs > 0 && clashed == all),
        (
            "a record with no settled tick: 0",
            clashed < all && some(|record| record.first == NEVER),
        ),
        (
            "a first tick above 63: 0",
            some(|record| record.first > 63 && record.first < NEVER),
        ),
        ("texts of both forms: 0", forms.len() == 2),
        (
            "an empty text beside another: 0",
            !forms.is_empty() && call.lengths.contains(&0),
        ),
        (
            "over 32,768 bytes in all: 0",
            call.texts.len() > LONGEST_TEXT,
        ),
        (
            "records in another order than the sheet's: 0",
            falls(&signals),
        ),
        ("records in another order than the bytes': 0", falls(&names)),
    ]
}

/// The forms of the texts that are not empty, each once.
fn forms(call: &Figures) -> Vec<Form> {
    let texts = cut(&call.texts, &call.lengths).unwrap_or_default();
    let has = |form: &Form| {
        let mut texts = texts.iter().filter(|(_, text)| !text.is_empty());
        texts.any(|(_, text)| Form::of(text) == *form)
    };
    let forms = [Form::Readings, Form::Spans].into_iter();
    forms.filter(has).collect()
}

/// Whether something in the list is smaller than what stands before it.
fn falls<T: Ord>(list: &[T]) -> bool {
    list.windows(2).any(|pair| pair[1] < pair[0])
}
