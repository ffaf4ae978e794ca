//! The room of buffers: to spare, to the byte, and too small.

use super::random::Random;

/// The room for a text of which at most so many bytes are written: enough, to the byte, one byte too few, far too few, or none at all.
/// Where a call is refused and there is no text, any.
pub fn room(random: &mut Random, text: Option<String>, most: usize) -> usize {
    let length = match text {
        Some(text) => text.len(),
        None => return random.pick(&[0, 1, 100, most]),
    };
    let (spare, part) = (random.below(40), random.below(length / 2 + 1));
    match random.weighted(&[35, 25, 15, 10, 5, 10]) {
        0 => length + spare,
        1 => length,
        2 => length.saturating_sub(1),
        3 => part,
        4 => 0,
        _ => most.max(length) + spare,
    }
}
