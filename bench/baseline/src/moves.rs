//! The moves between single readings and spans, each in two ways: by spans that are sorted and joined, and by a set of single readings.
use crate::lowering::lower;
use crate::readings::{self, Span};
use crate::sheet::{self, Sheet};
use crate::text::{refuse, Refusal};
use std::collections::BTreeSet;

/// The most bytes of a text.
const MOST: usize = 32768;

/// The form that a text is written in.
#[derive(Clone, Copy)]
pub enum Form {
    Spans,
    Singles,
}

fn push_number(out: &mut Vec<u8>, n: usize) {
    let mut digits = [0; 20];
    let mut from = digits.len();
    let mut rest = n;
    loop {
        from -= 1;
        digits[from] = b'0' + (rest % 10) as u8;
        rest /= 10;
        if rest == 0 {
            break;
        }
    }
    out.extend_from_slice(&digits[from..]);
}

fn push_line(out: &mut Vec<u8>, key: &[u8], number: usize) {
    out.extend_from_slice(key);
    push_number(out, number);
    out.push(b'\n');
}

/// The lines of a signal and a value.
fn push_value(out: &mut Vec<u8>, names: &[&[u8]], signal: usize, value: bool) {
    out.extend_from_slice(b"signal=");
    out.extend_from_slice(names[signal]);
    out.extend_from_slice(if value { b"\nvalue=1\n" } else { b"\nvalue=0\n" });
}

/// The texts of entries one after the other, if they come to no more bytes than a text may have.
fn written<T>(entries: impl Iterator<Item = T>, mut push: impl FnMut(&mut Vec<u8>, T)) -> Result<Vec<u8>, Refusal> {
    let mut out = Vec::with_capacity(MOST + 64);
    for entry in entries {
        push(&mut out, entry);
        if out.len() > MOST {
            return refuse(20, 0);
        }
    }
    Ok(out)
}

fn written_spans(names: &[&[u8]], spans: impl Iterator<Item = Span>) -> Result<Vec<u8>, Refusal> {
    written(spans, |out, span| {
        push_line(out, b"from=", span.first);
        push_line(out, b"to=", span.last);
        push_value(out, names, span.signal, span.value);
    })
}

fn written_singles(names: &[&[u8]], singles: impl Iterator<Item = (usize, bool, usize)>) -> Result<Vec<u8>, Refusal> {
    written(singles, |out, (signal, value, tick)| {
        push_line(out, b"at=", tick);
        push_value(out, names, signal, value);
    })
}

fn singles(span: Span) -> impl Iterator<Item = (usize, bool, usize)> {
    (span.first..=span.last).map(move |tick| (span.signal, span.value, tick))
}

/// Spans in order, joined where they overlap or touch.
fn joined(spans: impl Iterator<Item = Span>) -> Vec<Span> {
    let mut runs: Vec<Span> = Vec::new();
    for span in spans {
        match runs.last_mut() {
            Some(run) if (run.signal, run.value) == (span.signal, span.value) && span.first <= run.last + 1 => {
                run.last = run.last.max(span.last);
            }
            _ => runs.push(span),
        }
    }
    runs
}

/// The sheet, which can be lowered, and the entries of the readings.
fn opened<'a>(text: &'a [u8], readings: &[u8]) -> Result<(Sheet<'a>, Vec<Span>), Refusal> {
    let sheet = sheet::read(text)?;
    lower(&sheet)?;
    let entries = readings::read(readings, &sheet.numbers, sheet.window)?;
    Ok((sheet, entries))
}

/// The move by sorting.
pub fn by_sort(text: &[u8], readings: &[u8], form: Form) -> Result<Vec<u8>, Refusal> {
    let (sheet, mut entries) = opened(text, readings)?;
    entries.sort_unstable();
    let runs = joined(entries.into_iter());
    match form {
        Form::Spans => written_spans(&sheet.names, runs.into_iter()),
        Form::Singles => written_singles(&sheet.names, runs.into_iter().flat_map(singles)),
    }
}

/// The move by a set of single readings.
pub fn by_set(text: &[u8], readings: &[u8], form: Form) -> Result<Vec<u8>, Refusal> {
    let (sheet, entries) = opened(text, readings)?;
    let set: BTreeSet<(usize, bool, usize)> = entries.into_iter().flat_map(singles).collect();
    match form {
        Form::Spans => {
            let ticks = set.into_iter().map(|(signal, value, tick)| Span {
                signal,
                value,
                first: tick,
                last: tick,
            });
            written_spans(&sheet.names, joined(ticks).into_iter())
        }
        Form::Singles => written_singles(&sheet.names, set.into_iter()),
    }
}
