//! Names: the reader of a name, which also answers the number at its end, and the order in which names are listed.

use super::lines::number;
use std::fmt;

/// A name as read. The order of names is the order of these fields, one after the other.
#[derive(Clone, Debug, PartialEq, Eq, PartialOrd, Ord)]
pub struct Name {
    /// The bytes before the number at the end; all of them if there is none. They are compared byte by byte, a prefix first.
    pub before: Vec<u8>,
    pub end: End,
}

/// The number at the end of a name, or that there is none, which comes before every number.
#[derive(Clone, Copy, Debug, PartialEq, Eq, PartialOrd, Ord)]
pub enum End {
    NoNumber,
    Number(u64),
}

/// Why bytes are no name.
#[derive(Clone, Copy, Debug, PartialEq, Eq)]
pub enum NoName {
    /// Not letters and digits as a name has them, too long, or a reserved word.
    Form,
    /// The end number has a leading zero and is not `0` alone.
    LeadingZero,
    /// The end number is over its largest value.
    TooLarge,
}

/// The longest name, in bytes.
pub const LONGEST_NAME: usize = 16;
const LARGEST_END_NUMBER: u64 = 9_999;

/// Reads a name. Its end number is all the digits at its end, 0 alone or without a leading zero, and at most 9,999.
pub fn read(bytes: &[u8]) -> Result<Name, NoName> {
    if !is_formed(bytes) {
        return Err(NoName::Form);
    }
    let backwards = bytes.iter().rev();
    let digits = backwards.take_while(|byte| byte.is_ascii_digit()).count();
    let (before, digits) = bytes.split_at(bytes.len() - digits);
    let (before, end) = (before.to_vec(), end(digits)?);
    Ok(Name { before, end })
}

/// A lower-case letter, then lower-case letters or digits, 16 at most; not a reserved word.
fn is_formed(bytes: &[u8]) -> bool {
    matches!(bytes, [b'a'..=b'z', ..])
        && bytes.iter().all(|&byte| goes_on(byte))
        && bytes.len() <= LONGEST_NAME
        && bytes != b"since"
        && bytes != b"until"
}

/// What the digits at the end of a name say.
fn end(digits: &[u8]) -> Result<End, NoName> {
    match (digits, number(digits)) {
        ([], _) => Ok(End::NoNumber),
        ([b'0', _, ..], _) => Err(NoName::LeadingZero),
        (_, Some(number)) if number <= LARGEST_END_NUMBER => Ok(End::Number(number)),
        _ => Err(NoName::TooLarge),
    }
}

/// Whether a name can go on with this byte.
pub fn goes_on(byte: u8) -> bool {
    byte.is_ascii_lowercase() || byte.is_ascii_digit()
}

/// The place of the name that the bytes are, if they are one of these.
pub fn find(bytes: &[u8], names: &[Name]) -> Option<usize> {
    let name = read(bytes).ok()?;
    names.iter().position(|declared| *declared == name)
}

/// The places of names in their order.
pub fn in_order(names: &[Name]) -> Vec<usize> {
    let mut places: Vec<usize> = (0..names.len()).collect();
    places.sort_by_key(|&place| &names[place]);
    places
}

/// The bytes that were read: no other writing gives the same number.
impl fmt::Display for Name {
    fn fmt(&self, to: &mut fmt::Formatter) -> fmt::Result {
        to.write_str(&String::from_utf8_lossy(&self.before))?;
        match self.end {
            End::NoNumber => Ok(()),
            End::Number(number) => write!(to, "{number}"),
        }
    }
}
