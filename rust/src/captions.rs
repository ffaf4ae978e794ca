//! Captions by house: what is shown of a signal, a part of one of two texts.

use crate::{answer, ffi, Refusal, Text};
use std::{fmt, str};

/// The most bytes of a caption.
pub const LONGEST_CAPTION: usize = 40;

/// What is shown of a signal: its caption, a part of the captions, or its name, a part of the sheet. It is never empty, and nothing is copied.
#[derive(Clone, Copy, Debug, PartialEq, Eq, Hash)]
pub struct Caption<'a> {
    /// The part itself, 1 to [`LONGEST_CAPTION`] bytes of printable ASCII.
    pub shown: &'a str,
    /// The text that it is a part of: [`Text::Captions`] or [`Text::Sheet`].
    pub text: Text,
    /// Its first byte there, counted from 0.
    pub start: usize,
}

impl fmt::Display for Caption<'_> {
    fn fmt(&self, f: &mut fmt::Formatter<'_>) -> fmt::Result {
        f.pad(self.shown)
    }
}

/// What is shown of a signal where a house has its own words for some: the caption where the signal's name has a line in the captions, else the name itself.
/// Signals are numbered from 0 in sheet order.
///
/// The captions are lines `name=caption` in any order, at most one for each declared name. A caption has 1 to [`LONGEST_CAPTION`] printable ASCII bytes, which may
/// be `=` too. An empty text has no lines.
///
/// Refusals 1 to 9, then line by line, each at the line's first byte, 24 for a line of another form, 12 for what stands before the first `=` and is no declared
/// name, and 24 for a name that an earlier line has, last 17 for a number that is not below the number of signals, in this order. [`Refusal::explain`] takes the
/// captions where it takes the readings of other calls. The whole text is read, whichever signal is asked for: so one call tells whether it is accepted.
///
/// ```
/// use mikhakun::{caption, Text};
///
/// let sheet = b"window=10\nsignals=3\nsignal=clear2\nsignal=go10\nsignal=open10\nrules=0\n";
/// let captions = b"open10=Maps\ngo10=Drive M10 = on\n";
/// let go10 = caption(sheet, captions, 1)?;
/// assert_eq!((go10.shown, go10.text, go10.start), ("Drive M10 = on", Text::Captions, 17));
/// let clear2 = caption(sheet, captions, 0)?;
/// assert_eq!((clear2.shown, clear2.text, clear2.start), ("clear2", Text::Sheet, 27));
///
/// let all: Vec<String> = (0..).map_while(|signal| caption(sheet, captions, signal).ok()).map(|caption| caption.to_string()).collect();
/// assert_eq!(all, ["clear2", "Drive M10 = on", "Maps"]);
///
/// let refusal = caption(sheet, b"open10=Maps\nopen10=Charts\n", 0).unwrap_err();
/// assert_eq!(
///     refusal.explain(sheet, b"open10=Maps\nopen10=Charts\n").to_string(),
///     "captions, line 2, column 1: an earlier line has this name (refusal 24)\n\
///      \x20   open10=Charts\n\
///      \x20   ^"
/// );
/// # Ok::<(), mikhakun::Refusal>(())
/// ```
pub fn caption<'a>(sheet: &'a [u8], captions: &'a [u8], signal: usize) -> Result<Caption<'a>, Refusal> {
    let (mut in_captions, mut start, mut length, mut place) = (0, 0, 0, 0);
    // SAFETY: each pointer and length are a slice's, and the results are locals of this call.
    let number = unsafe {
        ffi::mikhakun_caption(
            sheet.as_ptr(),
            sheet.len(),
            captions.as_ptr(),
            captions.len(),
            signal as u64,
            &mut in_captions,
            &mut start,
            &mut length,
            &mut place,
        )
    };
    let part = || {
        let (text, bytes) = if in_captions == 1 { (Text::Captions, captions) } else { (Text::Sheet, sheet) };
        let (start, length) = (start as usize, length as usize);
        Caption { shown: str::from_utf8(&bytes[start..start + length]).expect("captions and names are ASCII"), text, start }
    };
    answer(number, place, part).map_err(|refusal| refusal.placed_in(Text::Captions))
}
