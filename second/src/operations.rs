//! The three operations over a table of words: check, add and ask.

use crate::infer::{close, Marks};
use crate::lower::{lower, Rows};
use crate::table::{marks_of, write};
use crate::text::readings::{self, Span};
use crate::text::sheet::{self, Sheet};
use crate::text::{refuse, Refusal};

/// What add answers when it accepts.
#[derive(Clone, Copy, Debug, PartialEq, Eq)]
pub struct Added {
    pub new_facts: u64,
    pub clash: u64,
}

/// The row count.
pub fn check(sheet: &[u8]) -> Result<u64, Refusal> {
    let (_, rows) = read(sheet)?;
    Ok(rows.nodes.len() as u64)
}

/// Closes the table together with the readings.
pub fn add(sheet: &[u8], readings: &[u8], table: &mut [u64]) -> Result<Added, Refusal> {
    let (sheet, rows) = read(sheet)?;
    let before = marks_of(table, rows.nodes.len(), sheet.window)?;
    let spans = readings::read(readings, sheet.window, &sheet.names)?;
    let after = closed(&rows, &before, &spans);
    write(&after, sheet.window, table);
    let signals = sheet.names.len();
    let new_facts = after.count(signals) - before.count(signals);
    let clash = u64::from(after.clash());
    Ok(Added { new_facts, clash })
}

/// 0 unsettled, 1 true, 2 false, 3 contradiction.
pub fn ask(sheet: &[u8], table: &[u64], signal: u64, tick: u64) -> Result<u64, Refusal> {
    let (sheet, rows) = read(sheet)?;
    let marks = marks_of(table, rows.nodes.len(), sheet.window)?;
    if signal >= sheet.names.len() as u64 || tick >= sheet.window as u64 {
        return refuse(17, 0);
    }
    Ok(marks.values(signal as usize)[tick as usize])
}

/// The closed marks that the rows, the marks before and the readings lead to.
pub fn closed(rows: &Rows, before: &Marks, spans: &[Span]) -> Marks {
    let mut start = before.clone();
    for span in spans {
        for tick in span.ticks() {
            start.set(span.signal, tick, span.value);
        }
    }
    close(rows, &start)
}

/// The sheet as read, and its rows.
pub fn read(sheet: &[u8]) -> Result<(Sheet, Rows), Refusal> {
    let sheet = sheet::read(sheet)?;
    let rows = lower(&sheet)?;
    Ok((sheet, rows))
}
