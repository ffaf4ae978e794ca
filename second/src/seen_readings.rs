//! What texts of readings meet in add and in the moves: their forms, the refusals and where they fall, and the room of buffers.

use crate::generate::moves::Move;
use crate::library::Outcome;
use crate::moves::moved;
use crate::operations::read;
use crate::seen_calls::{of_room, of_sheet, ROOMS, SHEETS};
use crate::tally::Tally;
use crate::text::readings::Form;
use crate::text::LONGEST_TEXT;
use std::collections::BTreeSet;

/// What a text meets, in any of the operations.
const TEXTS: [&str; 18] = [
    "an empty text: 0",
    "neither key: 11",
    "readings: 0",
    "readings: 10",
    "readings: 11",
    "readings: 11, a span's line",
    "readings: 12",
    "readings: 13",
    "readings: 14",
    "spans: 0",
    "spans: 10",
    "spans: 11",
    "spans: 11, a reading's line",
    "spans: 12",
    "spans: 13 at from",
    "spans: 13 at to",
    "spans: 14",
    "spans: 21",
];
const ADDS: [&str; 4] = [
    "readings, cut: 0",
    "spans, cut: 0",
    "whole or cut, in the other form: 0",
    "both forms on one table: 0",
];
/// What a move meets besides, with its sheet and its room.
const MOVES: [&str; 2] = ["no room, and an empty text: 0", "there and back: 0"];

/// In how many cases each thing was met, by operation.
pub struct Seen {
    add: Tally,
    to_spans: Tally,
    to_readings: Tally,
}

/// What one case met.
#[derive(Default)]
pub struct Met {
    add: BTreeSet<&'static str>,
    to_spans: BTreeSet<&'static str>,
    to_readings: BTreeSet<&'static str>,
}

impl Seen {
    /// None yet; each thing has to be met so often.
    pub fn none(least: u64) -> Self {
        let tally = |title, own: &[&str]| {
            let things = TEXTS.iter().chain(own);
            Tally::new(title, things.map(|thing| (thing.to_string(), least)))
        };
        let moves = [&SHEETS[..], &ROOMS, &MOVES].concat();
        Seen {
            add: tally("cases in which a text of readings met in an add", &ADDS),
            to_spans: tally("cases in which one met in a move to spans", &moves),
            to_readings: tally(
                "cases in which one met in a move to single readings",
                &moves,
            ),
        }
    }

    pub fn count(&mut self, mut case: Met) {
        if case.add.contains("readings: 0") && case.add.contains("spans: 0") {
            case.add.insert("both forms on one table: 0");
        }
        for (tally, things) in [
            (&mut self.add, case.add),
            (&mut self.to_spans, case.to_spans),
            (&mut self.to_readings, case.to_readings),
        ] {
            things.into_iter().for_each(|thing| tally.met_thing(thing));
        }
    }

    /// Prints the counts; answers how many things were met too seldom.
    pub fn print(&self) -> u64 {
        self.add.print() + self.to_spans.print() + self.to_readings.print()
    }
}

impl Met {
    pub fn added(&mut self, text: &[u8], parts: &[Vec<u8>], outcome: &Outcome) {
        self.add.extend(of_text(text, outcome));
        if outcome.answer != 0 || parts.is_empty() {
            return;
        }
        let form = Form::of(text);
        let parts: Vec<_> = parts.iter().filter(|part| !part.is_empty()).collect();
        if parts.len() > 1 {
            self.add.insert(match form {
                Form::Readings => "readings, cut: 0",
                Form::Spans => "spans, cut: 0",
            });
        }
        if parts.iter().any(|part| Form::of(part) != form) {
            self.add.insert("whole or cut, in the other form: 0");
        }
    }

    pub fn moved(&mut self, sheet: &[u8], call: &Move, outcome: &Outcome) {
        let text = of_text(&call.readings, outcome);
        let own = match outcome.answer {
            number @ 1..=9 => vec![of_sheet(number)],
            0 if (outcome.outputs[0], call.room) == (0, 0) => vec!["no room, and an empty text: 0"],
            0 => of_room(outcome.outputs[0] as usize, call.room, LONGEST_TEXT),
            20 => of_room(length(sheet, call), call.room, LONGEST_TEXT),
            _ => vec![],
        };
        self.of(call.to).extend(text.into_iter().chain(own));
    }

    /// A text written by the move came back from the other form.
    pub fn moved_back(&mut self, to: Form) {
        self.of(to).insert("there and back: 0");
    }

    fn of(&mut self, to: Form) -> &mut BTreeSet<&'static str> {
        match to {
            Form::Readings => &mut self.to_readings,
            Form::Spans => &mut self.to_spans,
        }
    }
}

/// What a text met, by its form; none if something else than the text was refused.
fn of_text(text: &[u8], outcome: &Outcome) -> Option<&'static str> {
    let place = *outcome.outputs.last()? as usize;
    let after = |key: &[u8]| text[..place].ends_with(key);
    let at = |key: &[u8]| text[place..].starts_with(key);
    let thing = match (Form::of(text), outcome.answer) {
        (_, 0) if text.is_empty() => "an empty text: 0",
        (_, 11) if !at_either_key(text) => "neither key: 11",
        (Form::Readings, 0) => "readings: 0",
        (Form::Readings, 10) => "readings: 10",
        (Form::Readings, 11) if at(b"from=") || at(b"to=") => "readings: 11, a span's line",
        (Form::Readings, 11) => "readings: 11",
        (Form::Readings, 12) => "readings: 12",
        (Form::Readings, 13) => "readings: 13",
        (Form::Readings, 14) => "readings: 14",
        (Form::Spans, 0) => "spans: 0",
        (Form::Spans, 10) => "spans: 10",
        (Form::Spans, 11) if at(b"at=") => "spans: 11, a reading's line",
        (Form::Spans, 11) => "spans: 11",
        (Form::Spans, 12) => "spans: 12",
        (Form::Spans, 13) if after(b"\nto=") => "spans: 13 at to",
        (Form::Spans, 13) => "spans: 13 at from",
        (Form::Spans, 14) => "spans: 14",
        (Form::Spans, 21) => "spans: 21",
        _ => return None,
    };
    Some(thing)
}

fn at_either_key(text: &[u8]) -> bool {
    text.starts_with(b"at=") || text.starts_with(b"from=")
}

/// How many bytes an accepted text has once it is moved.
fn length(sheet: &[u8], call: &Move) -> usize {
    let text = read(sheet)
        .and_then(|(sheet, _)| moved(call.to, &call.readings, sheet.window, &sheet.names));
    text.map_or(0, |text| text.len())
}
