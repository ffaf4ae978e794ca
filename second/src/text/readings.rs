//! The readings, taken line by line: three lines a reading, or four a span of ticks. The text's first key tells which.

use super::lines::Lines;
use super::name::{find, Name};
use super::{refuse, Refusal, LONGEST_TEXT};
use std::fmt::Display;
use std::ops::RangeInclusive;

/// The two forms of a text.
#[derive(Clone, Copy, Debug, PartialEq, Eq)]
pub enum Form {
    Readings,
    Spans,
}

impl Form {
    /// The form that the text's first key tells. An empty text has both.
    pub fn of(text: &[u8]) -> Form {
        if text.starts_with(b"from=") {
            Form::Spans
        } else {
            Form::Readings
        }
    }

    pub fn other(self) -> Form {
        match self {
            Form::Readings => Form::Spans,
            Form::Spans => Form::Readings,
        }
    }

    /// The lines of a reading, which has the first tick alone, or of a span.
    pub fn lines<T: Display>(
        self,
        (first, last): (T, T),
        name: impl Display,
        value: impl Display,
    ) -> String {
        match self {
            Form::Readings => format!("at={first}\nsignal={name}\nvalue={value}\n"),
            Form::Spans => format!("from={first}\nto={last}\nsignal={name}\nvalue={value}\n"),
        }
    }
}

/// The signal has the value at every tick from the first to the last. A reading is a span of one tick.
#[derive(Clone, Copy, Debug, PartialEq, Eq)]
pub struct Span {
    pub first: usize,
    pub last: usize,
    pub signal: usize,
    pub value: bool,
}

impl Span {
    pub fn ticks(&self) -> RangeInclusive<usize> {
        self.first..=self.last
    }
}

pub fn read(text: &[u8], window: usize, names: &[Name]) -> Result<Vec<Span>, Refusal> {
    if text.len() > LONGEST_TEXT {
        return refuse(10, 0);
    }
    let form = Form::of(text);
    let mut lines = Lines::new(text, 11);
    let mut spans = vec![];
    while !lines.at_end() {
        spans.push(one(&mut lines, form, window, names)?);
    }
    Ok(spans)
}

fn one(lines: &mut Lines, form: Form, window: usize, names: &[Name]) -> Result<Span, Refusal> {
    let (first, last) = match form {
        Form::Readings => one_tick(lines, window)?,
        Form::Spans => two_ticks(lines, window)?,
    };
    let name = lines.line("signal=")?;
    let signal = match find(name.bytes, names) {
        Some(signal) => signal,
        None => return refuse(12, name.place),
    };
    let (value, place) = lines.number("value=")?;
    if value > 1 {
        return refuse(14, place);
    }
    let value = value == 1;
    Ok(Span {
        first,
        last,
        signal,
        value,
    })
}

fn one_tick(lines: &mut Lines, window: usize) -> Result<(usize, usize), Refusal> {
    let (at, _) = tick(lines, "at=", window)?;
    Ok((at, at))
}

fn two_ticks(lines: &mut Lines, window: usize) -> Result<(usize, usize), Refusal> {
    let (first, _) = tick(lines, "from=", window)?;
    let (last, place) = tick(lines, "to=", window)?;
    if last < first {
        return refuse(21, place);
    }
    Ok((first, last))
}

/// A line with a tick of the window; answers the tick and the value's place.
fn tick(lines: &mut Lines, key: &str, window: usize) -> Result<(usize, usize), Refusal> {
    let (tick, place) = lines.number(key)?;
    if tick >= window as u64 {
        return refuse(13, place);
    }
    Ok((tick as usize, place))
}
