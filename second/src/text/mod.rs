//! The texts: lines, names, tokens and grammar of formulas, sheets, readings, and the refusal that any of them may give.

pub mod grammar;
pub mod lines;
pub mod name;
pub mod readings;
pub mod sheet;
pub mod token;

/// A refusal: its number and its place.
#[derive(Clone, Copy, Debug, PartialEq, Eq)]
pub struct Refusal {
    pub number: u64,
    pub place: u64,
}

impl Refusal {
    /// The same in a longer text, where so many bytes come before.
    pub fn after(self, bytes: usize) -> Self {
        let place = self.place + bytes as u64;
        Refusal { place, ..self }
    }
}

/// Stops with the refusal of this number at this place.
pub fn refuse<T>(number: u64, place: usize) -> Result<T, Refusal> {
    let place = place as u64;
    Err(Refusal { number, place })
}

/// Writes a text to the buffer's first bytes, if it has at most so many and fits; answers how many these are.
pub fn write(text: &str, most: usize, out: &mut [u8]) -> Result<u64, Refusal> {
    if text.len() > most || text.len() > out.len() {
        return refuse(20, 0);
    }
    out[..text.len()].copy_from_slice(text.as_bytes());
    Ok(text.len() as u64)
}

/// The longest sheet and the longest readings, in bytes.
pub const LONGEST_TEXT: usize = 32_768;
