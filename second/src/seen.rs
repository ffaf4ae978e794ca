//! What the cases of a comparison meet, each thing in enough of them: numbers answered, kinds of windows, names refused for their end number,
//! and what texts of readings, calls of figures, calls that print a rule, dumps and captions meet.

use crate::figures::Record;
use crate::generate::captions::Caption;
use crate::generate::dumps::{ReadDump, WriteDump};
use crate::generate::figures::Figures;
use crate::generate::moves::Move;
use crate::generate::print::Print;
use crate::generate::Call;
use crate::library::Outcome;
use crate::seen_captions;
use crate::seen_dumps;
use crate::seen_figures;
use crate::seen_print;
use crate::seen_readings;
use crate::table::block_words;
use crate::tally::Tally;
use crate::text::name::{self, goes_on, NoName};
use crate::text::readings::Form;
use crate::text::sheet;
use std::collections::BTreeSet;
use std::ops::RangeInclusive;

/// From so many cases on, each thing must have been seen in so many of them.
const ENOUGH_CASES: u64 = 20_000;
const ENOUGH_SEEN: u64 = 50;

/// The numbers that a call may answer: 0 and the refusals.
const NUMBERS: [u64; 25] = [
    0, 1, 2, 3, 4, 5, 6, 7, 8, 9, 10, 11, 12, 13, 14, 15, 16, 17, 18, 19, 20, 21, 22, 23, 24,
];
/// Kinds of windows, by the words that cover them.
const WINDOWS: [(&str, RangeInclusive<usize>); 4] = [
    ("1", 1..=1),
    ("2", 2..=2),
    ("3 to 63", 3..=63),
    ("64", 64..=64),
];
/// Refusals of a name, and what is wrong with its end number.
const MISNUMBERED: [(&str, u64, NoName); 6] = [
    ("4, leading zero", 4, NoName::LeadingZero),
    ("4, over 9,999", 4, NoName::TooLarge),
    ("6, leading zero", 6, NoName::LeadingZero),
    ("6, over 9,999", 6, NoName::TooLarge),
    ("12, leading zero", 12, NoName::LeadingZero),
    ("12, over 9,999", 12, NoName::TooLarge),
];

/// In how many cases each thing was met.
pub struct Seen {
    numbers: Tally,
    windows: Tally,
    misnumbered: Tally,
    readings: seen_readings::Seen,
    figures: seen_figures::Seen,
    prints: Tally,
    dumps: seen_dumps::Seen,
    captions: Tally,
}

/// What one case met: places in the lists above, and things that have their lists elsewhere.
#[derive(Default)]
pub struct Met {
    numbers: BTreeSet<usize>,
    windows: BTreeSet<usize>,
    misnumbered: BTreeSet<usize>,
    readings: seen_readings::Met,
    figures: seen_figures::Met,
    prints: BTreeSet<String>,
    dumps: seen_dumps::Met,
    captions: BTreeSet<String>,
}

impl Seen {
    /// None yet, of so many cases.
    pub fn none(cases: u64) -> Self {
        let least = if cases < ENOUGH_CASES { 0 } else { ENOUGH_SEEN };
        let numbers = NUMBERS.iter().map(|number| (number.to_string(), least));
        let windows = WINDOWS.iter().map(|(words, _)| (words.to_string(), least));
        let misnumbered = MISNUMBERED
            .iter()
            .map(|(what, ..)| (what.to_string(), least));
        Seen {
            numbers: Tally::new(
                "cases in which each number was answered (0 is acceptance)",
                numbers,
            ),
            windows: Tally::new(
                "cases in which an add was accepted, by the words that cover the window",
                windows,
            ),
            misnumbered: Tally::new(
                "cases in which a name was refused for its end number",
                misnumbered,
            ),
            readings: seen_readings::Seen::none(least),
            figures: seen_figures::Seen::none(least),
            prints: seen_print::tally(least),
            dumps: seen_dumps::Seen::none(least),
            captions: seen_captions::tally(least),
        }
    }

    pub fn count(&mut self, case: Met) {
        for (tally, places) in [
            (&mut self.numbers, case.numbers),
            (&mut self.windows, case.windows),
            (&mut self.misnumbered, case.misnumbered),
        ] {
            places.into_iter().for_each(|place| tally.met(place));
        }
        self.readings.count(case.readings);
        self.figures.count(case.figures);
        self.dumps.count(case.dumps);
        for (tally, things) in [
            (&mut self.prints, case.prints),
            (&mut self.captions, case.captions),
        ] {
            things.iter().for_each(|thing| tally.met_thing(thing));
        }
    }

    /// Prints the counts; answers how many things were met too seldom.
    pub fn print(&self) -> u64 {
        self.numbers.print()
            + self.windows.print()
            + self.misnumbered.print()
            + self.readings.print()
            + self.figures.print()
            + self.prints.print()
            + self.dumps.print()
            + self.captions.print()
    }
}

impl Met {
    /// Takes in a call and what it answered.
    pub fn call(&mut self, sheet: &[u8], call: &Call, outcome: &Outcome) {
        let number = outcome.answer;
        self.number(number);
        if let Call::Add { readings, parts } = call {
            self.readings.added(readings, parts, outcome);
        }
        if number == 0 && matches!(call, Call::Add { .. }) {
            let words = sheet::read(sheet).map_or(0, |sheet| block_words(sheet.window));
            let kind = WINDOWS.iter().position(|(_, kind)| kind.contains(&words));
            self.windows.extend(kind);
        }
        let fault = no_name(sheet, call, outcome);
        let same = |&(_, of, what): &(&str, u64, NoName)| of == number && Some(what) == fault;
        self.misnumbered.extend(MISNUMBERED.iter().position(same));
    }

    /// Takes in a move and what it answered.
    pub fn moved(&mut self, sheet: &[u8], call: &Move, outcome: &Outcome) {
        self.number(outcome.answer);
        self.readings.moved(sheet, call, outcome);
    }

    pub fn moved_back(&mut self, to: Form) {
        self.readings.moved_back(to);
    }

    /// Takes in a call of figures, what it answered and the records after it.
    pub fn figured(&mut self, sheet: &[u8], call: &Figures, outcome: &Outcome, records: &[Record]) {
        self.number(outcome.answer);
        self.figures.figured(sheet, call, outcome, records);
    }

    /// Takes in a call that prints a rule, and what it answered.
    pub fn printed(&mut self, call: &Print, outcome: &Outcome) {
        self.number(outcome.answer);
        self.prints.extend(seen_print::met(call, outcome));
    }

    /// Takes in a call that writes a dump, and what it answered.
    pub fn dump_written(&mut self, sheet: &[u8], call: &WriteDump, outcome: &Outcome) {
        self.number(outcome.answer);
        self.dumps.written(sheet, call, outcome);
    }

    /// Takes in a call that reads a dump, and what it answered.
    pub fn dump_read(&mut self, sheet: &[u8], call: &ReadDump, outcome: &Outcome) {
        self.number(outcome.answer);
        self.dumps.read(sheet, call, outcome);
    }

    /// Takes in a call that asks for a caption, and what it answered.
    pub fn captioned(&mut self, sheet: &[u8], call: &Caption, outcome: &Outcome) {
        self.number(outcome.answer);
        self.captions
            .extend(seen_captions::met(sheet, call, outcome));
    }

    fn number(&mut self, number: u64) {
        let place = NUMBERS.iter().position(|&known| known == number);
        self.numbers.insert(place.expect("a number of the list"));
    }
}

/// Why the bytes are no name at which a name was refused. In a rule they end before the first that cannot go on a name, else with their line.
fn no_name(sheet: &[u8], call: &Call, outcome: &Outcome) -> Option<NoName> {
    let text = match (outcome.answer, call) {
        (4 | 6, _) => sheet,
        (12, Call::Add { readings, .. }) => readings,
        _ => return None,
    };
    let ends = |byte: &u8| match outcome.answer {
        6 => !goes_on(*byte),
        _ => *byte == b'\n',
    };
    let place = *outcome.outputs.last()? as usize;
    let bytes = text[place..].split(ends).next()?;
    name::read(bytes).err()
}
