//! Calls that ask for a caption, by numbers of signals up to the last one's and past it.

use super::caption_text;
use super::numbers::number;
use super::random::Random;
use super::Shape;
use crate::captions::read_captions;

/// A text of captions, and the number of the signal to be shown.
pub struct Caption {
    pub captions: Vec<u8>,
    pub signal: u64,
}

pub fn any(random: &mut Random, shape: &Shape) -> Caption {
    let captions = caption_text::captions(random, &shape.names);
    let signal = match without_caption(random, shape, &captions) {
        Some(signal) if random.chance(30) => signal,
        _ => number(random, shape.accepted.then_some(shape.names.len())),
    };
    Caption { captions, signal }
}

/// The number of a signal that has no line in accepted captions, if there is one.
fn without_caption(random: &mut Random, shape: &Shape, captions: &[u8]) -> Option<u64> {
    let captions = read_captions(captions, &shape.declared).ok()?;
    let without = |signal: &usize| captions[*signal].is_none();
    let without: Vec<usize> = (0..captions.len()).filter(without).collect();
    (!without.is_empty()).then(|| random.pick(&without) as u64)
}
