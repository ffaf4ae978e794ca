//! Lines with a key, numbers and names.

pub struct Refusal {
    pub number: usize,
    pub place: usize,
}

pub fn refuse<T>(number: usize, place: usize) -> Result<T, Refusal> {
    Err(Refusal { number, place })
}

pub fn is_name_byte(b: u8) -> bool {
    b.is_ascii_lowercase() || b.is_ascii_digit()
}

/// The place after the word at `at`.
pub fn word_end(text: &[u8], at: usize) -> usize {
    text[at..].iter().position(|&b| !is_name_byte(b)).map_or(text.len(), |n| at + n)
}

/// The value and its place on the line at `at` with this key, and the place after the line.
pub fn line<'a>(text: &'a [u8], at: usize, key: &[u8], form: usize) -> Result<(&'a [u8], usize, usize), Refusal> {
    if text[at..].starts_with(key) {
        let start = at + key.len();
        if let Some(n) = text[start..].iter().position(|&b| b == b'\n') {
            return Ok((&text[start..start + n], start, start + n + 1));
        }
    }
    refuse(form, at)
}

/// One to five digits with no leading zero.
fn number(value: &[u8]) -> Option<usize> {
    match value {
        [b'0'] => Some(0),
        [b'1'..=b'9', ..] if value.len() <= 5 && value.iter().all(u8::is_ascii_digit) => {
            Some(value.iter().fold(0, |n, &b| 10 * n + usize::from(b - b'0')))
        }
        _ => None,
    }
}

/// The number on the line at `at`, from `lo` to `hi`, and the place after the line.
pub fn number_line(
    text: &[u8],
    at: usize,
    key: &[u8],
    (lo, hi): (usize, usize),
    form: usize,
    content: usize,
) -> Result<(usize, usize), Refusal> {
    let (value, start, next) = line(text, at, key, form)?;
    match number(value) {
        None => refuse(form, at),
        Some(n) if n < lo || hi < n => refuse(content, start),
        Some(n) => Ok((n, next)),
    }
}

/// A name in two: the bytes before the digits at its end, and these.
fn name_parts(name: &[u8]) -> (&[u8], &[u8]) {
    name.split_at(name.iter().rposition(|b| !b.is_ascii_digit()).map_or(0, |last| last + 1))
}

/// By what names are listed: the bytes before the number at the end, then none before a number, then the number.
pub fn name_key(name: &[u8]) -> (&[u8], Option<usize>) {
    let (stem, digits) = name_parts(name);
    (stem, number(digits))
}

/// Digits at a name's end: none, or a number up to 9,999 with no leading zero.
fn ends_well(name: &[u8]) -> bool {
    let (_, digits) = name_parts(name);
    digits.is_empty() || matches!(number(digits), Some(0..=9999))
}

/// A letter, then letters or digits, 1 to 16 in all, no reserved word, and digits at the end are an end number.
pub fn is_name(value: &[u8]) -> bool {
    matches!(value, [b'a'..=b'z', rest @ ..] if rest.len() < 16 && rest.iter().all(|&b| is_name_byte(b)))
        && value != b"since"
        && value != b"until"
        && ends_well(value)
}
