//! A refusal told with the line that it is in.

use crate::moves::is_of_spans;
use crate::name::{end_number_fault, is_name_byte, is_reserved, is_spelled};
use crate::{Refusal, Text, LONGEST_CAPTION, LONGEST_RULE};
use std::{fmt, str};

/// The most bytes of a line that are shown on each side of the place.
const SIDE: usize = 60;

/// What was wrong with a call, and where: its text is the sentence, the line and a caret under the byte.
///
/// ```
/// use mikhakun::{add, Table};
///
/// let sheet = b"window=10\nsignals=1\nsignal=clear2\nrules=0\n";
/// let readings = b"at=9\nsignal=clear2\nvalue=1\nat=10\nsignal=clear2\nvalue=1\n";
/// let mut table = Table::for_sheet(sheet)?;
/// let explanation = add(sheet, readings, &mut table).unwrap_err().explain(sheet, readings);
/// assert_eq!((explanation.line(), explanation.column()), (Some(4), Some(4)));
/// assert_eq!(
///     explanation.to_string(),
///     "readings, line 4, column 4: the tick is outside the window (refusal 13)\n\
///      \x20   at=10\n\
///      \x20      ^"
/// );
/// # Ok::<(), mikhakun::Refusal>(())
/// ```
#[derive(Clone, Debug, PartialEq, Eq)]
pub struct Explanation<'a> {
    refusal: Refusal,
    /// Of several readings texts the one that is refused, counted from 0.
    which: Option<usize>,
    spot: Option<Spot<'a>>,
}

/// A byte of a text, and the line that it is in.
#[derive(Clone, Debug, PartialEq, Eq)]
struct Spot<'a> {
    text: Text,
    /// Counted from 1.
    line: usize,
    /// The line's bytes, without its LF.
    bytes: &'a [u8],
    /// The byte's place in the line, counted from 0; the line's length is its LF, or the text's end.
    at: usize,
    /// Whether the text ends before this byte, and no line begins here.
    past_the_text: bool,
    /// Whether the line has its LF.
    has_lf: bool,
    /// Whether the text, if it is readings, is one of spans: its first key tells.
    of_spans: bool,
}

impl<'a> Spot<'a> {
    fn new(text: Text, bytes: &'a [u8], place: usize) -> Self {
        let place = place.min(bytes.len());
        let start = bytes[..place].iter().rposition(|&b| b == b'\n').map_or(0, |lf| lf + 1);
        let end = bytes[place..].iter().position(|&b| b == b'\n').map_or(bytes.len(), |n| place + n);
        Spot {
            text,
            line: 1 + bytes[..start].iter().filter(|&&b| b == b'\n').count(),
            bytes: &bytes[start..end],
            at: place - start,
            past_the_text: start == bytes.len(),
            has_lf: end < bytes.len(),
            of_spans: is_of_spans(bytes),
        }
    }

    /// The line from the place on.
    fn rest(&self) -> &'a [u8] {
        &self.bytes[self.at..]
    }

    /// The line, each byte as one sign, cut to what stands near the place, and how many signs stand before the place.
    fn shown(&self) -> (String, usize) {
        let from = self.at.saturating_sub(SIDE);
        let to = self.bytes.len().min(self.at + SIDE);
        let before = if from > 0 { "..." } else { "" };
        let after = if to < self.bytes.len() { "..." } else { "" };
        let signs: String = self.bytes[from..to].iter().map(|b| if is_printable(b) { *b as char } else { '\u{b7}' }).collect();
        (format!("{before}{signs}{after}"), before.len() + self.at - from)
    }
}

impl<'a> Explanation<'a> {
    pub(crate) fn new(refusal: Refusal, text: Option<(Text, &'a [u8])>) -> Self {
        Explanation { refusal, which: None, spot: text.map(|(text, bytes)| Spot::new(text, bytes, refusal.place())) }
    }

    /// The same of one of several readings texts, counted from 0.
    pub(crate) fn of_text(self, which: usize) -> Self {
        Explanation { which: Some(which), ..self }
    }

    /// The refusal that is explained. Of one of several readings texts it is the text's own, with the place counted there.
    pub fn refusal(&self) -> Refusal {
        self.refusal
    }

    /// The line of the place, counted from 1; none where the refusal has no place in a text.
    pub fn line(&self) -> Option<usize> {
        self.spot.as_ref().map(|spot| spot.line)
    }

    /// The place's byte in its line, counted from 1.
    pub fn column(&self) -> Option<usize> {
        self.spot.as_ref().map(|spot| spot.at + 1)
    }

    /// What is wrong, in a sentence about this place.
    pub fn sentence(&self) -> &'static str {
        match &self.spot {
            Some(spot) => sentence_at(self.refusal, spot),
            None => self.refusal.sentence(),
        }
    }

    /// The name that the sentence is about, where the number at its end is wrong: the place is the name's first byte.
    ///
    /// ```
    /// let sheet = b"window=10\nsignals=1\nsignal=aisle02\nrules=0\n";
    /// let explanation = mikhakun::check(sheet).unwrap_err().explain(sheet, b"");
    /// assert_eq!(explanation.name(), Some("aisle02"));
    /// assert_eq!(explanation.sentence(), "a number at the end of a name has no leading zero");
    /// assert_eq!(
    ///     explanation.to_string(),
    ///     "sheet, line 3, column 8: aisle02: a number at the end of a name has no leading zero (refusal 4)\n\
    ///      \x20   signal=aisle02\n\
    ///      \x20          ^"
    /// );
    /// ```
    pub fn name(&self) -> Option<&'a str> {
        let (name, _) = end_number_fault_at(self.refusal, self.spot.as_ref()?)?;
        Some(name)
    }
}

/// The name at the spot and what is wrong with the number at its end, if the refusal is of a name and that is what is wrong with it.
fn end_number_fault_at<'a>(refusal: Refusal, spot: &Spot<'a>) -> Option<(&'a str, &'static str)> {
    let rest = spot.rest();
    let name = match refusal.number() {
        // In a dump the name's line goes on after it.
        12 if spot.text == Text::Dump => rest.strip_suffix(b" $end").unwrap_or(rest),
        12 if spot.text == Text::Captions => name_and_caption(rest)?.0,
        4 | 12 => rest,
        6 => &rest[..rest.iter().take_while(|byte| is_name_byte(byte)).count()],
        _ => return None,
    };
    if !is_spelled(name) {
        return None;
    }
    Some((str::from_utf8(name).ok()?, end_number_fault(name)?))
}

/// The part of a number's sentence that holds at the spot.
fn sentence_at(refusal: Refusal, spot: &Spot<'_>) -> &'static str {
    if let Some((_, fault)) = end_number_fault_at(refusal, spot) {
        return fault;
    }
    match refusal.number() {
        2 | 11 | 22 if spot.past_the_text => "a line is missing here",
        2 => "this line is not of its form, out of order or without LF, or it follows the last line",
        11 if is_of_the_other_form(spot) && spot.of_spans => "this is a line of single readings, in a text of spans",
        11 if is_of_the_other_form(spot) => "this is a line of spans, in a text of single readings",
        11 => "this line is not of its form or without LF",
        22 if is_sign(spot.bytes) => "this sign is of no signal, out of sheet order, given twice, without LF, or in another line's place",
        22 if spot.bytes.starts_with(b"#") => {
            "this time does not rise, is no number of one to five digits, is without LF, or stands in another line's place"
        }
        22 => "this line is not the one that a dump has here, or it is without LF",
        3 if spot.bytes.starts_with(b"window=") => "the window is 1 to 4,096 ticks",
        3 if spot.bytes.starts_with(b"signals=") => "a sheet has 1 to 64 signals",
        3 if spot.bytes.starts_with(b"rules=") => "a sheet has 0 to 64 rules",
        4 if !is_spelled(spot.rest()) => "a name is a lower-case letter and then lower-case letters or digits, 1 to 16 in all",
        4 if is_reserved(spot.rest()) => "since and until are reserved",
        4 => "the name is given twice",
        5 if is_rule_of_wrong_length(spot) => "a rule has 1 to 256 bytes",
        5 if spot.at == spot.bytes.len() => "the rule stops short here",
        5 => "the formula cannot go on with this",
        24 => caption_fault(spot),
        _ => refusal.sentence(),
    }
}

/// Has the spot's line a key that only the other form has? The first line has no other form: its key tells that of the text.
fn is_of_the_other_form(spot: &Spot<'_>) -> bool {
    let keys: &[&[u8]] = if spot.of_spans { &[b"at="] } else { &[b"from=", b"to="] };
    spot.line > 1 && keys.iter().any(|key| spot.bytes.starts_with(key))
}

/// Has the line the form of a signal's sign in a dump?
fn is_sign(line: &[u8]) -> bool {
    matches!(line, [b'0' | b'1' | b'x' | b'z', _])
}

/// What is wrong with a caption's line. One of the right form is refused for its name.
fn caption_fault(spot: &Spot<'_>) -> &'static str {
    match name_and_caption(spot.bytes) {
        None => "a caption's line is a name, the sign = and the caption",
        Some((_, caption)) if !caption.iter().all(is_printable) => "a caption has printable ASCII bytes only, 32 to 126",
        Some((_, caption)) if !(1..=LONGEST_CAPTION).contains(&caption.len()) => "a caption has 1 to 40 bytes",
        Some(_) if !spot.has_lf => "this line is without LF",
        Some(_) => "an earlier line has this name",
    }
}

/// What stands before the first `=` of a caption's line, and what after it.
fn name_and_caption(line: &[u8]) -> Option<(&[u8], &[u8])> {
    let equals = line.iter().position(|&byte| byte == b'=')?;
    Some((&line[..equals], &line[equals + 1..]))
}

/// May the byte stand in a caption, and be shown as it is?
fn is_printable(byte: &u8) -> bool {
    matches!(byte, b' '..=b'~')
}

/// Is the spot the first byte of a rule that has no byte, or over 256?
fn is_rule_of_wrong_length(spot: &Spot<'_>) -> bool {
    spot.at == b"rule=".len() && !(1..=LONGEST_RULE).contains(&(spot.bytes.len() - spot.at))
}

impl fmt::Display for Explanation<'_> {
    fn fmt(&self, f: &mut fmt::Formatter<'_>) -> fmt::Result {
        let (sentence, number) = (self.sentence(), self.refusal.number());
        if let Some(which) = self.which {
            write!(f, "text {}: ", which + 1)?;
        }
        if let Some(spot) = &self.spot {
            write!(f, "{}, line {}, column {}: ", spot.text, spot.line, spot.at + 1)?;
        }
        if let Some(name) = self.name() {
            write!(f, "{name}: ")?;
        }
        write!(f, "{sentence} (refusal {number})")?;
        if let Some((line, before)) = self.spot.as_ref().map(Spot::shown) {
            write!(f, "\n    {line}\n    {:before$}^", "")?;
        }
        Ok(())
    }
}

impl std::error::Error for Explanation<'_> {}

#[cfg(test)]
mod tests {
    use super::*;

    fn spot(text: &[u8], place: usize) -> (usize, usize, &[u8], bool) {
        let spot = Spot::new(Text::Sheet, text, place);
        (spot.line, spot.at, spot.bytes, spot.past_the_text)
    }

    #[test]
    fn a_place_is_in_the_line_that_its_lf_ends() {
        assert_eq!(spot(b"ab\ncd\n", 0), (1, 0, &b"ab"[..], false));
        assert_eq!(spot(b"ab\ncd\n", 2), (1, 2, &b"ab"[..], false));
        assert_eq!(spot(b"ab\ncd\n", 4), (2, 1, &b"cd"[..], false));
        assert_eq!(spot(b"ab\n\n", 3), (2, 0, &b""[..], false));
    }

    #[test]
    fn a_place_past_the_last_line_is_in_an_empty_one() {
        assert_eq!(spot(b"", 0), (1, 0, &b""[..], true));
        assert_eq!(spot(b"ab\n", 3), (2, 0, &b""[..], true));
        assert_eq!(spot(b"ab\n", 9), (2, 0, &b""[..], true));
        assert_eq!(spot(b"ab", 2), (1, 2, &b"ab"[..], false));
    }

    #[test]
    fn a_long_line_is_cut_on_both_sides() {
        let line = [b'a'; 200];
        let (shown, before) = Spot::new(Text::Sheet, &line, 100).shown();
        assert_eq!(shown, format!("...{}...", "a".repeat(2 * SIDE)));
        assert_eq!(before, 3 + SIDE);
    }
}
