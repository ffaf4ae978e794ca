//! A text that a call writes: what the call answered, and every byte of the lent buffer after it.

use super::shown;
use crate::library::Outcome;

/// Bytes before and after the lent buffer that no call may change.
const GUARD: usize = 16;

/// What a call answered (its outputs are length and place), and the lent buffer after it, with its guards.
#[derive(PartialEq, Eq)]
pub struct Written {
    pub outcome: Outcome,
    buffer: Vec<u8>,
}

impl Written {
    /// Makes the call in this way, with a buffer of so many bytes. No text has its bytes, and its neighbours differ.
    pub fn by(room: usize, make: impl Fn(&mut [u8]) -> Outcome) -> Self {
        let byte = |place: usize| 0x80 | (place * 37 % 128) as u8;
        let mut buffer: Vec<u8> = (0..GUARD + room + GUARD).map(byte).collect();
        let outcome = make(&mut buffer[GUARD..GUARD + room]);
        Written { outcome, buffer }
    }

    /// The text written, if the call was accepted and the length can be one.
    pub fn text(&self) -> Option<&[u8]> {
        let length = self.outcome.outputs[0] as usize;
        let accepted = self.outcome.answer == 0;
        let end = GUARD.checked_add(length).filter(|_| accepted)?;
        self.buffer.get(GUARD..end)
    }
}

/// What each side answered, and where the buffers differ first.
pub fn sides(ours: &Written, theirs: &Written) -> String {
    let mut text = String::new();
    for (side, written) in [("second", ours), ("library", theirs)] {
        text += &format!("// {side}: {}\n", shown(&written.outcome));
    }
    let mut bytes = ours.buffer.iter().zip(&theirs.buffer);
    if let Some(place) = bytes.position(|(one, two)| one != two) {
        let (one, two) = (ours.buffer[place], theirs.buffer[place]);
        let place = place as i64 - GUARD as i64;
        text += &format!("// out[{place}] after: second {one:#x}, library {two:#x}\n");
    }
    text
}
