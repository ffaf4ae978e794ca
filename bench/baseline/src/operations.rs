//! check and add, each given the sheet's text; take is the part of an add before the table is closed.
use crate::closing::close;
use crate::lowering::{lower, Program};
use crate::readings;
use crate::sheet;
use crate::table::{count_marks, mark, Ticks};
use crate::text::{refuse, Refusal};

/// The sheet's rows, the ticks of its window, how many signals it has, and the facts of the table before the readings.
pub struct Taken {
    pub program: Program,
    pub ticks: Ticks,
    pub signals: usize,
    pub before: usize,
}

pub struct Added {
    pub new: usize,
    pub clash: bool,
}

/// The sheet's row count.
pub fn check(text: &[u8]) -> Result<usize, Refusal> {
    let sheet = sheet::read(text)?;
    Ok(lower(&sheet)?.rows.len())
}

/// An empty table for the sheet.
pub fn empty_table(text: &[u8]) -> Result<Vec<u64>, Refusal> {
    let sheet = sheet::read(text)?;
    let rows = lower(&sheet)?.rows.len();
    Ok(vec![0; Ticks::of(sheet.window).block(rows, 0)])
}

fn facts(table: &[u64], ticks: Ticks, signals: usize) -> usize {
    count_marks(&table[..ticks.block(signals, 0)])
}

/// Takes the readings into the table.
pub fn take(text: &[u8], readings: &[u8], table: &mut [u64]) -> Result<Taken, Refusal> {
    let sheet = sheet::read(text)?;
    let program = lower(&sheet)?;
    let ticks = Ticks::of(sheet.window);
    if table.len() != ticks.block(program.rows.len(), 0) {
        return refuse(15, 0);
    }
    let outside = |block: &[u64]| block[ticks.words - 1] & !ticks.last != 0;
    if table.chunks_exact(ticks.words).any(outside) {
        return refuse(16, 0);
    }
    let spans = readings::read(readings, &sheet.numbers, sheet.window)?;
    let signals = sheet.names.len();
    let before = facts(table, ticks, signals);
    for span in spans {
        let block = ticks.block(span.signal, usize::from(!span.value));
        mark(&mut table[block..block + ticks.words], span.first, span.last);
    }
    Ok(Taken {
        program,
        ticks,
        signals,
        before,
    })
}

fn clashes((yes, no): (&[u64], &[u64])) -> bool {
    yes.iter().zip(no).any(|(y, n)| y & n != 0)
}

/// Takes the readings into the table and closes it.
pub fn add(text: &[u8], readings: &[u8], table: &mut [u64]) -> Result<Added, Refusal> {
    let taken = take(text, readings, table)?;
    let ticks = taken.ticks;
    for &top in &taken.program.tops {
        let (last, others) = table[ticks.block(top, 0)..ticks.block(top, 1)].split_last_mut().unwrap();
        others.fill(u64::MAX);
        *last = ticks.last;
    }
    close(&taken.program.rows, ticks, table);
    let new = facts(table, ticks, taken.signals) - taken.before;
    let clash = table.chunks_exact(2 * ticks.words).any(|row| clashes(row.split_at(ticks.words)));
    Ok(Added { new, clash })
}
