//! The moves: readings of either form written as spans or as single readings, by signal, then value with 0 first, then tick.

use crate::operations::read;
use crate::text::name::Name;
use crate::text::readings::{self, Form};
use crate::text::{write, Refusal, LONGEST_TEXT};
use std::collections::BTreeMap;

/// Writes the readings in this form to the buffer's first bytes; answers how many these are.
pub fn move_to(form: Form, sheet: &[u8], readings: &[u8], out: &mut [u8]) -> Result<u64, Refusal> {
    let (sheet, _) = read(sheet)?;
    let text = moved(form, readings, sheet.window, &sheet.names)?;
    write(&text, LONGEST_TEXT, out)
}

/// The readings in this form, however long that is.
pub fn moved(
    form: Form,
    readings: &[u8],
    window: usize,
    names: &[Name],
) -> Result<String, Refusal> {
    let mut text = String::new();
    for ((signal, value), read) in rows(readings, window, names)? {
        let spans = match form {
            Form::Readings => single(&read),
            Form::Spans => runs(&read),
        };
        for ticks in spans {
            text += &form.lines(ticks, &names[signal], u8::from(value));
        }
    }
    Ok(text)
}

/// Signals and values that were read, in their order; of each, whether it was read at tick 0, 1 and so on.
type Rows = BTreeMap<(usize, bool), Vec<bool>>;

fn rows(readings: &[u8], window: usize, names: &[Name]) -> Result<Rows, Refusal> {
    let mut rows = Rows::new();
    for span in readings::read(readings, window, names)? {
        let row = rows.entry((span.signal, span.value));
        row.or_insert_with(|| vec![false; window])[span.ticks()].fill(true);
    }
    Ok(rows)
}

/// Each tick of a row as a first and last one.
fn single(row: &[bool]) -> Vec<(usize, usize)> {
    let ticks = (0..row.len()).filter(|&tick| row[tick]);
    ticks.map(|tick| (tick, tick)).collect()
}

/// The longest spans of a row: a tick goes on the one that ended just before it.
fn runs(row: &[bool]) -> Vec<(usize, usize)> {
    let mut runs: Vec<(usize, usize)> = vec![];
    for (tick, _) in single(row) {
        match runs.last_mut() {
            Some((_, last)) if *last + 1 == tick => *last = tick,
            _ => runs.push((tick, tick)),
        }
    }
    runs
}
