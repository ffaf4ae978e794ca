//! The moves between the two forms of a readings text.

use crate::{answer, ffi, written, Refusal};

/// The most bytes that a sheet or a readings text has, and so the most that a move writes.
pub const LONGEST_TEXT: usize = 32_768;

/// The readings as spans: equal, overlapping and touching ones merged, by signal number, then value with 0 first, then first tick.
///
/// The text may be of either form. No text of spans for these readings has fewer. Refusals 1 to 9, 10, then 11 to 14 and 21 line by line, last 20 for
/// what is over [`LONGEST_TEXT`] bytes, in this order.
///
/// ```
/// let sheet = b"window=10\nsignals=1\nsignal=shut\nrules=0\n";
/// let readings = b"at=4\nsignal=shut\nvalue=1\nat=3\nsignal=shut\nvalue=1\nat=8\nsignal=shut\nvalue=0\n";
/// let spans = mikhakun::to_spans(sheet, readings)?;
/// assert_eq!(spans, b"from=8\nto=8\nsignal=shut\nvalue=0\nfrom=3\nto=4\nsignal=shut\nvalue=1\n");
/// assert_eq!(mikhakun::to_spans(sheet, &spans)?, spans);
/// # Ok::<(), mikhakun::Refusal>(())
/// ```
pub fn to_spans(sheet: &[u8], readings: &[u8]) -> Result<Vec<u8>, Refusal> {
    written(LONGEST_TEXT, |buffer| to_spans_into(sheet, readings, buffer))
}

/// The readings one by one, each once, by signal number, then value with 0 first, then tick. For the rest as [`to_spans`].
///
/// ```
/// let sheet = b"window=10\nsignals=1\nsignal=shut\nrules=0\n";
/// let readings = mikhakun::to_readings(sheet, b"from=3\nto=4\nsignal=shut\nvalue=1\n")?;
/// assert_eq!(readings, b"at=3\nsignal=shut\nvalue=1\nat=4\nsignal=shut\nvalue=1\n");
///
/// let night = b"window=4096\nsignals=1\nsignal=shut\nrules=0\n";
/// let long = mikhakun::to_readings(night, b"from=0\nto=4095\nsignal=shut\nvalue=1\n");
/// assert_eq!(long.unwrap_err().number(), 20);
/// # Ok::<(), mikhakun::Refusal>(())
/// ```
pub fn to_readings(sheet: &[u8], readings: &[u8]) -> Result<Vec<u8>, Refusal> {
    written(LONGEST_TEXT, |buffer| to_readings_into(sheet, readings, buffer))
}

/// [`to_spans`] into a lent buffer, from its first byte on: the text's length. The bytes after the text stay, and at a refusal all do.
///
/// It is also refused by 20 where the buffer is shorter than the text; one of [`LONGEST_TEXT`] bytes never is.
///
/// ```
/// use mikhakun::{to_spans_into, LONGEST_TEXT};
///
/// let sheet = b"window=10\nsignals=1\nsignal=shut\nrules=0\n";
/// let readings = b"at=3\nsignal=shut\nvalue=1\nat=4\nsignal=shut\nvalue=1\n";
/// let mut buffer = [0; LONGEST_TEXT];
/// let length = to_spans_into(sheet, readings, &mut buffer)?;
/// assert_eq!(&buffer[..length], b"from=3\nto=4\nsignal=shut\nvalue=1\n");
/// assert_eq!(to_spans_into(sheet, readings, &mut buffer[..length - 1]).unwrap_err().number(), 20);
/// # Ok::<(), mikhakun::Refusal>(())
/// ```
pub fn to_spans_into(sheet: &[u8], readings: &[u8], buffer: &mut [u8]) -> Result<usize, Refusal> {
    move_into(ffi::mikhakun_to_spans, sheet, readings, buffer)
}

/// [`to_readings`] into a lent buffer, as [`to_spans_into`].
///
/// ```
/// let sheet = b"window=10\nsignals=1\nsignal=shut\nrules=0\n";
/// let mut buffer = [b'.'; 26];
/// assert_eq!(mikhakun::to_readings_into(sheet, b"from=3\nto=3\nsignal=shut\nvalue=1\n", &mut buffer), Ok(25));
/// assert_eq!(&buffer, b"at=3\nsignal=shut\nvalue=1\n.");
/// ```
pub fn to_readings_into(sheet: &[u8], readings: &[u8], buffer: &mut [u8]) -> Result<usize, Refusal> {
    move_into(ffi::mikhakun_to_readings, sheet, readings, buffer)
}

/// Is a readings text one of spans? Its first key tells; an empty text counts as one of single readings.
pub(crate) fn is_of_spans(readings: &[u8]) -> bool {
    readings.starts_with(b"from=")
}

/// Makes a move into the buffer: the text's length.
fn move_into(to_form: ffi::Move, sheet: &[u8], readings: &[u8], buffer: &mut [u8]) -> Result<usize, Refusal> {
    let (mut length, mut place) = (0, 0);
    // SAFETY: each pointer and length are a slice's, that of the buffer is borrowed for writing, and the results are locals of this call.
    let number = unsafe {
        to_form(sheet.as_ptr(), sheet.len(), readings.as_ptr(), readings.len(), buffer.as_mut_ptr(), buffer.len(), &mut length, &mut place)
    };
    answer(number, place, || length as usize)
}
