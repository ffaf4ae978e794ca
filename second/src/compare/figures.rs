//! Figures on both sides: answer, place, every record and every word of the work table must be the same.

use super::{expected, shown};
use crate::figures::{figures, Record};
use crate::generate::figures::Figures;
use crate::library::{self, Outcome};
use crate::seen::Met;
use std::ops::Range;

/// Words and records before and after the lent ones that no call may change.
const GUARD: usize = 2;

pub fn compare(sheet: &[u8], call: &Figures, met: &mut Met) -> Result<(), String> {
    let Figures { texts, lengths, .. } = call;
    let ours = figured(call, |work, records| {
        expected(figures(sheet, texts, lengths, work, records).map(|()| []))
    });
    let theirs = figured(call, |work, records| {
        library::figures(sheet, texts, lengths, work, records)
    });
    if ours != theirs {
        return Err(pasteable(sheet, call, &ours, &theirs));
    }
    let records = &ours.records[inner(call.records)];
    met.figured(sheet, call, &ours.outcome, records);
    Ok(())
}

/// What a call answered, and the lent work table and records after it, with their guards.
#[derive(PartialEq, Eq)]
struct Figured {
    outcome: Outcome,
    work: Vec<u64>,
    records: Vec<Record>,
}

/// Makes the call in this way, with a work table and records that hold odd values.
fn figured(call: &Figures, make: impl Fn(&mut [u64], &mut [Record]) -> Outcome) -> Figured {
    let mut work = lent(call.words, odd);
    let mut records = lent(call.records, odd_record);
    let outcome = make(
        &mut work[inner(call.words)],
        &mut records[inner(call.records)],
    );
    Figured {
        outcome,
        work,
        records,
    }
}

/// So many things between guards.
fn lent<T>(count: usize, thing: fn(usize) -> T) -> Vec<T> {
    (0..GUARD + count + GUARD).map(thing).collect()
}

/// Where the things lie that are lent.
fn inner(count: usize) -> Range<usize> {
    GUARD..GUARD + count
}

/// A word with marks at many ticks; its neighbours differ.
fn odd(place: usize) -> u64 {
    0xD6E8_FEB8_6659_FD93_u64.wrapping_mul(2 * place as u64 + 1)
}

fn odd_record(place: usize) -> Record {
    let field = |number: usize| odd(6 * place + number);
    Record {
        signal: field(0),
        held: field(1),
        failed: field(2),
        unsettled: field(3),
        clashed: field(4),
        first: field(5),
    }
}

/// The call and its texts as Rust source, then what each side answered and where the lent things differ first.
fn pasteable(sheet: &[u8], call: &Figures, ours: &Figured, theirs: &Figured) -> String {
    let Figures {
        texts,
        lengths,
        words,
        records,
    } = call;
    let mut text = format!("let sheet = b\"{}\";\n", sheet.escape_ascii());
    text += &format!("let texts = b\"{}\";\n", texts.escape_ascii());
    text += &format!("let (work, records) = (&mut [1; {words}], &mut [record; {records}]);\n");
    text += &format!("figures(sheet, texts, &{lengths:?}, work, records);\n");
    for (side, figured) in [("second", ours), ("library", theirs)] {
        text += &format!("// {side}: {}\n", shown(&figured.outcome));
    }
    text += &difference("work", &ours.work, &theirs.work);
    text += &difference("records", &ours.records, &theirs.records);
    text
}

/// Where two lists differ first, as a line; nothing if they are the same.
fn difference<T: PartialEq + std::fmt::Debug>(name: &str, ours: &[T], theirs: &[T]) -> String {
    let place = (0..ours.len()).find(|&place| ours[place] != theirs[place]);
    place.map_or(String::new(), |place| {
        let (one, two) = (&ours[place], &theirs[place]);
        let place = place as i64 - GUARD as i64;
        format!("// {name}[{place}] after: second {one:x?}, library {two:x?}\n")
    })
}
