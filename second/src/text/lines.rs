//! The lines of a text: a cursor takes one `key=value` line after another; the writing rule of numbers.

use super::{refuse, Refusal};

/// A cursor over the lines; `form` is the refusal number of a line that is missing or not of its form.
pub struct Lines<'a> {
    text: &'a [u8],
    next: usize,
    form: u64,
}

/// What stands after a line's `=`, and the place of its first byte.
pub struct Value<'a> {
    pub bytes: &'a [u8],
    pub place: usize,
}

impl<'a> Lines<'a> {
    pub fn new(text: &'a [u8], form: u64) -> Self {
        let next = 0;
        Lines { text, next, form }
    }

    pub fn at_end(&self) -> bool {
        self.next == self.text.len()
    }

    /// Takes the line that starts with `key` (its `=` is part of it) and ends in LF.
    pub fn line(&mut self, key: &str) -> Result<Value<'a>, Refusal> {
        let rest = &self.text[self.next..];
        let ended = rest
            .iter()
            .position(|&byte| byte == b'\n')
            .map(|length| &rest[..length]);
        match ended.and_then(|line| line.strip_prefix(key.as_bytes())) {
            Some(bytes) => {
                let place = self.next + key.len();
                self.next = place + bytes.len() + 1;
                Ok(Value { bytes, place })
            }
            None => refuse(self.form, self.next),
        }
    }

    /// Takes a line whose value must be written as a number; answers the number and the value's place.
    pub fn number(&mut self, key: &str) -> Result<(u64, usize), Refusal> {
        let start = self.next;
        let value = self.line(key)?;
        match number(value.bytes) {
            Some(number) => Ok((number, value.place)),
            None => refuse(self.form, start),
        }
    }

    /// No byte may follow.
    pub fn end(&self) -> Result<(), Refusal> {
        if self.at_end() {
            Ok(())
        } else {
            refuse(self.form, self.next)
        }
    }
}

/// One to five digits without a leading zero, or `0`.
pub fn number(bytes: &[u8]) -> Option<u64> {
    let leading_zero = bytes.len() > 1 && bytes[0] == b'0';
    if bytes.is_empty() || bytes.len() > 5 || leading_zero {
        return None;
    }
    let mut sum = 0;
    for byte in bytes {
        if !byte.is_ascii_digit() {
            return None;
        }
        sum = sum * 10 + u64::from(byte - b'0');
    }
    Some(sum)
}
