//! What the cases of the listing programs meet: the numbers answered, the table's limit, the signals' order, the forms of readings, and captions.

use crate::generate::listed::Texts;
use crate::listing::MOST_WORDS;
use crate::operations::read;
use crate::seen_captioned;
use crate::table::length;
use crate::tally::Tally;
use crate::text::name::{in_order, Name};
use crate::text::readings::Form;

/// From so many cases on, what stands at the limit of the table must have been met, other orders than the sheet's, and what captions meet.
const ENOUGH_CASES: u64 = 300;
/// The answers of the listing programs: 0 and their refusals.
const NUMBERS: [u64; 18] = [0, 1, 2, 3, 4, 5, 6, 7, 8, 9, 10, 11, 12, 13, 14, 21, 24, 29];
/// The words of a row that has the longest window.
const LARGEST_ROW: usize = 128;
/// A listing of more bytes is counted as a long one; the longest has about 264,000.
const LONG: usize = 200_000;

/// In how many cases each thing was met.
pub struct Met {
    numbers: Tally,
    limits: Tally,
    orders: Tally,
    forms: Tally,
    captions: Option<Tally>,
}

impl Met {
    /// None yet, of so many cases without captions.
    pub fn none(cases: u64) -> Self {
        Met::of(|least| enough(cases, least))
    }

    /// The same with captions. Some of them are refused, so half is enough of what comes after.
    pub fn none_captioned(cases: u64) -> Self {
        Met {
            captions: Some(seen_captioned::tally(|least| enough(cases, least))),
            ..Met::of(|least| enough(cases, least / 2))
        }
    }

    fn of(enough: impl Fn(u64) -> u64) -> Self {
        let of_number = |number: u64| if number == 29 { enough(50) } else { 0 };
        let numbers = NUMBERS
            .iter()
            .map(|&number| (number.to_string(), of_number(number)));
        let thing = |&(name, least): &(&str, u64)| (name.to_string(), enough(least));
        let limits = [
            ("tables of 8,192 words that are listed", 25),
            ("tables of 8,193 to 8,320 words", 25),
            ("listings of over 200,000 bytes", 5),
        ];
        let orders = [("the sheet's", 60), ("that of their bytes", 25)];
        let forms = [("single readings", 40), ("spans", 40)];
        Met {
            numbers: Tally::new("listings in which each number was answered", numbers),
            limits: Tally::new("listings at the limit", limits.iter().map(thing)),
            orders: Tally::new(
                "listings in which the names have another order than",
                orders.iter().map(thing),
            ),
            forms: Tally::new("listings of", forms.iter().map(thing)),
            captions: None,
        }
    }

    /// Takes in a case and its listing.
    pub fn count(&mut self, texts: &Texts, listing: &str) {
        let answer = listing
            .lines()
            .next()
            .and_then(|line| line.strip_prefix("answer="));
        let answer = answer.expect("an answer of the listing program");
        self.numbers.met_thing(answer);
        let sheet = read(&texts.sheet);
        let (words, names) = sheet.map_or((0, vec![]), |(sheet, rows)| {
            (length(rows.nodes.len(), sheet.window), sheet.names)
        });
        self.limits.met_if(&[
            words == MOST_WORDS && answer == "0",
            words > MOST_WORDS && words <= MOST_WORDS + LARGEST_ROW,
            listing.len() > LONG,
        ]);
        if answer == "0" {
            self.count_orders(&names);
            let of = |form: Form| !texts.readings.is_empty() && Form::of(&texts.readings) == form;
            self.forms.met_if(&[of(Form::Readings), of(Form::Spans)]);
        }
        if let Some(captions) = &mut self.captions {
            let things = seen_captioned::met(texts, answer);
            things.iter().for_each(|thing| captions.met_thing(thing));
        }
    }

    fn count_orders(&mut self, names: &[Name]) {
        let written: Vec<String> = names.iter().map(Name::to_string).collect();
        let listed = in_order(names).into_iter();
        let listed: Vec<String> = listed.map(|place| written[place].clone()).collect();
        let mut by_bytes = listed.clone();
        by_bytes.sort();
        self.orders.met_if(&[listed != written, listed != by_bytes]);
    }

    /// Prints the counts; answers how many things were met too seldom.
    pub fn print(&self) -> u64 {
        let all = [&self.numbers, &self.limits, &self.orders, &self.forms];
        let all = all.into_iter().chain(&self.captions);
        all.map(Tally::print).sum()
    }
}

/// How often a thing has to be met in so many cases: at least so often, if there are enough of them.
fn enough(cases: u64, least: u64) -> u64 {
    if cases < ENOUGH_CASES {
        0
    } else {
        least
    }
}
