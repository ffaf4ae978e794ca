//! A refusal: its number and place.

use crate::moves::is_of_spans;
use crate::Explanation;
use std::fmt;

/// Why a call was refused: a number, 1 to 23, of caption 1 to 24, and a place counted in bytes from 0.
#[derive(Clone, Copy, Debug, PartialEq, Eq, Hash)]
pub struct Refusal {
    number: u64,
    place: usize,
    /// The text that the place is in, of a number that is otherwise of readings or of no call.
    not_in_readings: Option<Text>,
}

/// One of the texts that are lent: a refusal's place is in it, or what is shown of a signal is a part of it.
#[derive(Clone, Copy, Debug, PartialEq, Eq, Hash)]
pub enum Text {
    /// The sheet.
    Sheet,
    /// The readings.
    Readings,
    /// The dump.
    Dump,
    /// The captions.
    Captions,
}

impl Refusal {
    pub(crate) fn new(number: u64, place: usize) -> Self {
        Refusal { number, place, not_in_readings: None }
    }

    /// The same of a call that reads another text than readings: its 12, 13 and 24 are placed there.
    pub(crate) fn placed_in(self, text: Text) -> Self {
        Refusal { not_in_readings: matches!(self.number, 12 | 13 | 24).then_some(text), ..self }
    }

    /// Its number, 1 to 23, of caption 1 to 24.
    pub fn number(&self) -> u64 {
        self.number
    }

    /// Its place: a byte of [`Refusal::text`], and 0 where it names none. [`figures`](crate::figures) counts that of 10 to 14 and 21 in the texts joined.
    pub fn place(&self) -> usize {
        self.place
    }

    /// The text that the place is in; none where the refusal is of a whole text, of the table, of what was asked, of the buffer, of the list of records
    /// or of the lengths.
    pub fn text(&self) -> Option<Text> {
        match self.number {
            2..=8 => Some(Text::Sheet),
            11..=14 | 21 => self.not_in_readings.or(Some(Text::Readings)),
            22 => Some(Text::Dump),
            24 => self.not_in_readings,
            _ => None,
        }
    }

    /// What is wrong, in a sentence that holds for each refusal of this number.
    ///
    /// ```
    /// let refusal = mikhakun::check(b"window=0\n").unwrap_err();
    /// assert_eq!(refusal.sentence(), "window, signals or rules is outside its range");
    /// ```
    pub fn sentence(&self) -> &'static str {
        match self.number {
            1 => "the sheet has over 32,768 bytes",
            2 => "a sheet line is missing, not of its form, out of order or without LF, or bytes follow the last line",
            3 => "window, signals or rules is outside its range",
            4 => "the signal's name is not of its form, reserved or given twice",
            5 => "the rule's length is outside 1 to 256, or its formula does not fit",
            6 => "the name is not declared",
            7 => "the interval has an end outside -63 to 63, or no whole number inside",
            8 => "a 33rd ( or ! is open here",
            9 => "the sheet has over 32 hidden signals or over 1,024 rows",
            10 => "the readings have over 32,768 bytes",
            11 => "a readings line is missing, not of its form, of the other form or without LF",
            12 => "no signal of the sheet has this name",
            13 => "the tick is outside the window",
            14 => "the value is a number other than 0 or 1",
            15 => "the table's length is not that of the sheet's rows and window",
            16 => "the table has a mark at a tick outside the window",
            17 => "the signal, the tick or the rule asked for is outside its range",
            18 => "the list of records is not as long as the sheet has signals",
            19 => "there are over 64 texts, or the sum of their lengths is not that of the joined texts",
            20 => "what is to be written is longer than the buffer, or moved readings over 32,768 bytes, or a rule over 256",
            21 => "the span's to= is below its from=",
            22 => "a dump line is missing, not one that may stand there, or without LF",
            23 => "the table clashes: a row is both true and false at one tick",
            24 if self.not_in_readings == Some(Text::Captions) => "a caption's line is not of its form or without LF, or an earlier one has its name",
            _ => "there is no refusal of this number",
        }
    }

    /// What is wrong, and the line and the byte where it is, in the texts that the refused call was given.
    ///
    /// For a refusal of check, ask, print_rule or write_dump the readings are empty; for one of read_dump the dump stands in their place, for one of caption the
    /// captions. For one of figures see [`Refusal::explain_among`].
    ///
    /// ```
    /// let sheet = b"window=2\nsignals=1\nsignal=a\nrules=1\nrule=a@[0,64]\n";
    /// let refusal = mikhakun::check(sheet).unwrap_err();
    /// println!("{}", refusal.explain(sheet, b""));
    /// ```
    pub fn explain<'a>(&self, sheet: &'a [u8], readings: &'a [u8]) -> Explanation<'a> {
        Explanation::new(*self, self.text().map(|text| (text, if text == Text::Sheet { sheet } else { readings })))
    }

    /// Of a refusal of [`figures`](crate::figures): the text that is refused, counted from 0, and its own refusal, as [`add`](crate::add) gives it for
    /// that text alone. None where no text is to blame: 1 to 9, 15, 18 and 19.
    ///
    /// ```
    /// use mikhakun::{add, figures, Table};
    ///
    /// let sheet = b"window=2\nsignals=1\nsignal=a\nrules=0\n";
    /// let texts: [&[u8]; 3] = [b"at=1\nsignal=a\nvalue=1\n", b"", b"at=2\nsignal=a\nvalue=1\n"];
    /// let refusal = figures(sheet, &texts).unwrap_err();
    /// assert_eq!((refusal.number(), refusal.place()), (13, 25));
    /// let (which, own) = refusal.among(&texts).unwrap();
    /// assert_eq!((which, own.number(), own.place()), (2, 13, 3));
    /// assert_eq!(add(sheet, texts[which], &mut Table::for_sheet(sheet)?), Err(own));
    /// # Ok::<(), mikhakun::Refusal>(())
    /// ```
    pub fn among(&self, texts: &[&[u8]]) -> Option<(usize, Refusal)> {
        if !matches!(self.number, 10..=14 | 21) || self.not_in_readings.is_some() {
            return None;
        }
        let mut start = 0;
        for (which, text) in texts.iter().enumerate() {
            let end = start + text.len();
            if self.place < end || self.place == end && lacks_a_line(text) {
                return Some((which, Refusal::new(self.number, self.place - start)));
            }
            start = end;
        }
        None
    }

    /// [`Refusal::explain`] for a refusal of [`figures`](crate::figures): if a text is refused it is named first, counted from 1, and line and column are
    /// those in it.
    ///
    /// ```
    /// let sheet = b"window=2\nsignals=1\nsignal=a\nrules=0\n";
    /// let texts: [&[u8]; 2] = [b"at=1\nsignal=a\nvalue=1\n", b"at=2\nsignal=a\nvalue=1\n"];
    /// let refusal = mikhakun::figures(sheet, &texts).unwrap_err();
    /// assert_eq!(
    ///     refusal.explain_among(sheet, &texts).to_string(),
    ///     "text 2: readings, line 1, column 4: the tick is outside the window (refusal 13)\n\
    ///      \x20   at=2\n\
    ///      \x20      ^"
    /// );
    /// ```
    pub fn explain_among<'a>(&self, sheet: &'a [u8], texts: &[&'a [u8]]) -> Explanation<'a> {
        match self.among(texts) {
            Some((which, own)) => own.explain(sheet, texts[which]).of_text(which),
            None => self.explain(sheet, b""),
        }
    }
}

/// Does a readings text end before the last line of an entry? An accepted one does not: so a place that is its end is then the next text's start.
fn lacks_a_line(readings: &[u8]) -> bool {
    let lines = readings.iter().filter(|&&byte| byte == b'\n').count();
    lines % if is_of_spans(readings) { 4 } else { 3 } != 0
}

impl fmt::Display for Refusal {
    fn fmt(&self, f: &mut fmt::Formatter<'_>) -> fmt::Result {
        match self.text() {
            Some(text) => write!(f, "{text}, byte {}: {} (refusal {})", self.place, self.sentence(), self.number),
            None => write!(f, "{} (refusal {})", self.sentence(), self.number),
        }
    }
}

impl std::error::Error for Refusal {}

impl fmt::Display for Text {
    fn fmt(&self, f: &mut fmt::Formatter<'_>) -> fmt::Result {
        f.write_str(match self {
            Text::Sheet => "sheet",
            Text::Readings => "readings",
            Text::Dump => "dump",
            Text::Captions => "captions",
        })
    }
}

#[cfg(test)]
mod tests {
    use super::*;

    #[test]
    fn each_number_has_its_own_sentence() {
        let none = Refusal::new(0, 0).sentence();
        let sentences: std::collections::HashSet<_> = (0..=23).map(|n| Refusal::new(n, 0).sentence()).collect();
        assert_eq!(sentences.len(), 24);
        for number in [24, 29, u64::MAX] {
            assert_eq!(Refusal::new(number, 0).sentence(), none);
        }
    }
}
