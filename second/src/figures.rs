//! Figures over runs: each text of readings is closed by itself from an empty table. Of each signal they tell at how many ticks it was true,
//! false and unsettled, how many were in runs that clash, and the earliest tick settled.

use crate::infer::Marks;
use crate::operations::{closed, read};
use crate::table::{length, write};
use crate::text::name::in_order;
use crate::text::{readings, refuse, Refusal};

/// The figures of one signal; the fields stand as in the header.
#[repr(C)]
#[derive(Clone, Copy, Debug, PartialEq, Eq)]
pub struct Record {
    /// The signal's number in sheet order.
    pub signal: u64,
    /// The ticks of runs without a clash at which it was true, false and unsettled.
    pub held: u64,
    pub failed: u64,
    pub unsettled: u64,
    /// The ticks of runs that clash.
    pub clashed: u64,
    /// The earliest tick settled in any run without a clash, or NEVER.
    pub first: u64,
}

/// What stands for the earliest tick where none is settled.
pub const NEVER: u64 = u64::MAX;
/// The most texts that are run.
pub const MOST_RUNS: usize = 64;

/// Runs the texts that lie joined in one slice. Fills the records in the order of names, and the work table with the last run's closed one.
pub fn figures(
    sheet: &[u8],
    texts: &[u8],
    lengths: &[u64],
    work: &mut [u64],
    records: &mut [Record],
) -> Result<(), Refusal> {
    let (sheet, rows) = read(sheet)?;
    if work.len() != length(rows.nodes.len(), sheet.window) {
        return refuse(15, 0);
    }
    if records.len() != sheet.names.len() {
        return refuse(18, 0);
    }
    let mut runs = vec![];
    for (place, text) in cut(texts, lengths)? {
        let spans = readings::read(text, sheet.window, &sheet.names);
        runs.push(spans.map_err(|refusal| refusal.after(place))?);
    }
    for (record, signal) in records.iter_mut().zip(in_order(&sheet.names)) {
        *record = Record::none(signal);
    }
    let empty = Marks::none(rows.nodes.len(), sheet.window);
    let mut last = empty.clone();
    for spans in &runs {
        last = closed(&rows, &empty, spans);
        let clash = last.clash();
        for record in records.iter_mut() {
            record.count(&last, clash, sheet.window);
        }
    }
    write(&last, sheet.window, work);
    Ok(())
}

/// The texts, each with the place of its first byte, if there are not too many lengths and they add up to the slice's.
pub fn cut<'a>(texts: &'a [u8], lengths: &[u64]) -> Result<Vec<(usize, &'a [u8])>, Refusal> {
    let sum: u128 = lengths.iter().map(|&length| u128::from(length)).sum();
    if lengths.len() > MOST_RUNS || sum != texts.len() as u128 {
        return refuse(19, 0);
    }
    let mut place = 0;
    let mut cut = vec![];
    for &length in lengths {
        let end = place + length as usize;
        cut.push((place, &texts[place..end]));
        place = end;
    }
    Ok(cut)
}

impl Record {
    /// The figures of a signal over no runs.
    fn none(signal: usize) -> Self {
        Record {
            signal: signal as u64,
            held: 0,
            failed: 0,
            unsettled: 0,
            clashed: 0,
            first: NEVER,
        }
    }

    /// Counts a run: all its ticks as clashed where any row clashes, else each by its own mark.
    fn count(&mut self, marks: &Marks, clash: bool, window: usize) {
        if clash {
            self.clashed += window as u64;
            return;
        }
        for tick in 0..window {
            let has = |value| marks.has(self.signal as usize, tick, value);
            let (held, failed) = (has(true), has(false));
            self.held += u64::from(held);
            self.failed += u64::from(failed);
            self.unsettled += u64::from(!held && !failed);
            if held || failed {
                self.first = self.first.min(tick as u64);
            }
        }
    }
}
