//! A readings text, of single readings or of spans.
use crate::names::Names;
use crate::text::{is_name, line, number_line, refuse, Refusal};

/// A signal's value at every tick from the first to the last. Spans are in order of signal, value and ticks.
#[derive(Clone, Copy, PartialEq, Eq, PartialOrd, Ord)]
pub struct Span {
    pub signal: usize,
    pub value: bool,
    pub first: usize,
    pub last: usize,
}

/// The line `to=` of a span from the tick `first` on: its last tick, and the place after the line.
fn to_line(text: &[u8], at: usize, window: usize, first: usize) -> Result<(usize, usize), Refusal> {
    let (last, next) = number_line(text, at, b"to=", (0, window - 1), 11, 13)?;
    if last < first {
        return refuse(21, at + 3);
    }
    Ok((last, next))
}

/// The entries of a text, in its order: a single reading is a span of one tick.
pub fn read(text: &[u8], names: &Names, window: usize) -> Result<Vec<Span>, Refusal> {
    if text.len() > 32768 {
        return refuse(10, 0);
    }
    let spans = text.starts_with(b"from=");
    let key: &[u8] = if spans { b"from=" } else { b"at=" };
    let mut entries = Vec::new();
    let mut at = 0;
    while at < text.len() {
        let (first, next) = number_line(text, at, key, (0, window - 1), 11, 13)?;
        let (last, next) = if spans {
            to_line(text, next, window, first)?
        } else {
            (first, next)
        };
        let (name, start, next) = line(text, next, b"signal=", 11)?;
        if !is_name(name) {
            return refuse(12, start);
        }
        let signal = match names.get(name) {
            Some(&signal) => signal,
            None => return refuse(12, start),
        };
        let (value, next) = number_line(text, next, b"value=", (0, 1), 11, 14)?;
        entries.push(Span {
            signal,
            value: value == 1,
            first,
            last,
        });
        at = next;
    }
    Ok(entries)
}
