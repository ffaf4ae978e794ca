//! Captions: a house's own words for its signals, read from a text of their own, and the part of either text that is shown for a signal.

use crate::operations::read;
use crate::text::lines::{Lines, Value};
use crate::text::name::{find, Name};
use crate::text::sheet::Sheet;
use crate::text::{refuse, Refusal};
use std::ops::Range;

/// The longest caption, in bytes.
pub const LONGEST_CAPTION: usize = 40;

/// The refusal of a line that is not of its form, or whose name an earlier line has.
const NO_LINE: u64 = 24;

/// The text that a part is of.
#[derive(Clone, Copy, Debug, PartialEq, Eq)]
pub enum Source {
    Sheet,
    Captions,
}

/// A part of one of the two texts.
#[derive(Clone, Debug, PartialEq, Eq)]
pub struct Part {
    pub of: Source,
    pub bytes: Range<usize>,
}

impl Part {
    /// The bytes that are shown, of these two texts.
    pub fn shown<'a>(&self, sheet: &'a [u8], captions: &'a [u8]) -> &'a [u8] {
        let text = match self.of {
            Source::Sheet => sheet,
            Source::Captions => captions,
        };
        &text[self.bytes.clone()]
    }
}

/// The part that is shown for the signal of this number.
pub fn caption(sheet: &[u8], captions: &[u8], signal: u64) -> Result<Part, Refusal> {
    let (sheet, _) = read(sheet)?;
    let parts = parts(&sheet, captions)?;
    if signal >= parts.len() as u64 {
        return refuse(17, 0);
    }
    Ok(parts[signal as usize].clone())
}

/// The part that is shown for each signal: its caption if it has one, else its name in the sheet.
pub fn parts(sheet: &Sheet, captions: &[u8]) -> Result<Vec<Part>, Refusal> {
    let captions = read_captions(captions, &sheet.names)?;
    let part = |(caption, name): (Option<Range<usize>>, &Range<usize>)| match caption {
        Some(bytes) => Part {
            of: Source::Captions,
            bytes,
        },
        None => Part {
            of: Source::Sheet,
            bytes: name.clone(),
        },
    };
    let both = captions.into_iter().zip(&sheet.name_places);
    Ok(both.map(part).collect())
}

/// Where the caption of each name stands, if it has one, read line by line.
pub fn read_captions(text: &[u8], names: &[Name]) -> Result<Vec<Option<Range<usize>>>, Refusal> {
    let mut lines = Lines::new(text, NO_LINE);
    let mut captions = vec![None; names.len()];
    while !lines.at_end() {
        let line = lines.line("")?;
        let (signal, caption) = read_line(&line, names)?;
        if captions[signal].is_some() {
            return refuse(NO_LINE, line.place);
        }
        captions[signal] = Some(caption);
    }
    Ok(captions)
}

/// The signal that the line names, and where its caption stands.
fn read_line(line: &Value, names: &[Name]) -> Result<(usize, Range<usize>), Refusal> {
    let (name, caption) = match halves(line.bytes) {
        Some(halves) if is_caption(halves.1) => halves,
        _ => return refuse(NO_LINE, line.place),
    };
    let start = line.place + name.len() + 1;
    match find(name, names) {
        Some(signal) => Ok((signal, start..start + caption.len())),
        None => refuse(12, line.place),
    }
}

/// What stands before the line's first `=`, and what after it.
pub fn halves(line: &[u8]) -> Option<(&[u8], &[u8])> {
    let equals = line.iter().position(|&byte| byte == b'=')?;
    Some((&line[..equals], &line[equals + 1..]))
}

/// Whether these are from 1 to 40 bytes, each a printable one of ASCII.
fn is_caption(bytes: &[u8]) -> bool {
    (1..=LONGEST_CAPTION).contains(&bytes.len()) && bytes.iter().all(|&byte| is_printable(byte))
}

pub fn is_printable(byte: u8) -> bool {
    (32..=126).contains(&byte)
}
