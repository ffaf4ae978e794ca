//! The tokens of a formula, each the longest that fits.

use super::name::goes_on;

#[derive(Clone, Copy, Debug, PartialEq, Eq)]
pub enum Token<'a> {
    Name(&'a [u8]),
    Since,
    Until,
    /// A whole end of an interval.
    End(i64),
    Iff,
    Implies,
    /// One of the signs of a single byte.
    Sign(u8),
    /// The rule has stopped.
    Stop,
    /// A byte that starts no token.
    Stray,
}

/// The token at the start of `rest`, and its length in bytes.
pub fn first(rest: &[u8]) -> (Token<'_>, usize) {
    let byte = match rest.first() {
        Some(&byte) => byte,
        None => return (Token::Stop, 0),
    };
    match byte {
        b'a'..=b'z' => word(rest),
        b'0'..=b'9' | b'-' => end(rest),
        b'<' if rest.starts_with(b"<=>") => (Token::Iff, 3),
        b'=' if rest.starts_with(b"=>") => (Token::Implies, 2),
        b'|' | b'&' | b'@' | b'?' | b'!' | b'(' | b')' | b'[' | b']' | b',' => {
            (Token::Sign(byte), 1)
        }
        _ => (Token::Stray, 1),
    }
}

/// A name of any length, or one of the two words.
fn word(rest: &[u8]) -> (Token<'_>, usize) {
    let length = rest.iter().take_while(|&&byte| goes_on(byte)).count();
    let token = match &rest[..length] {
        b"since" => Token::Since,
        b"until" => Token::Until,
        name => Token::Name(name),
    };
    (token, length)
}

/// `0`, or an optional `-` and one to four digits of which the first is not 0.
fn end(rest: &[u8]) -> (Token<'_>, usize) {
    let minus = usize::from(rest[0] == b'-');
    let digits: Vec<i64> = rest[minus..]
        .iter()
        .take(4)
        .take_while(|byte| byte.is_ascii_digit())
        .map(|byte| i64::from(byte - b'0'))
        .collect();
    match digits.first() {
        None => (Token::Stray, 1),
        Some(0) if minus == 1 => (Token::Stray, 1),
        Some(0) => (Token::End(0), 1),
        Some(_) => {
            let size = digits.iter().fold(0, |sum, digit| sum * 10 + digit);
            let value = if minus == 1 { -size } else { size };
            (Token::End(value), minus + digits.len())
        }
    }
}
