//! The readings of an add in parts: cut between its readings or spans, some parts moved to the other form.

use super::random::Random;
use super::Shape;
use crate::moves::moved;
use crate::text::readings::Form;
use crate::text::LONGEST_TEXT;

/// Up to four parts with the same readings, or none; of a text that is refused they mean nothing.
pub fn parts(random: &mut Random, text: &[u8], shape: &Shape) -> Vec<Vec<u8>> {
    if text.is_empty() || text.len() > LONGEST_TEXT || !random.chance(25) {
        return vec![];
    }
    let form = Form::of(text);
    let lines: Vec<&[u8]> = text.split_inclusive(|&byte| byte == b'\n').collect();
    let entries: Vec<Vec<u8>> = match form {
        Form::Readings => lines.chunks(3).map(<[&[u8]]>::concat).collect(),
        Form::Spans => lines.chunks(4).map(<[&[u8]]>::concat).collect(),
    };
    let mut cuts: Vec<usize> = (0..random.below(4))
        .map(|_| random.below(entries.len() + 1))
        .collect();
    cuts.extend([0, entries.len()]);
    cuts.sort_unstable();
    let parts = cuts.windows(2).map(|cut| entries[cut[0]..cut[1]].concat());
    let either = |part: Vec<u8>| {
        if random.chance(40) {
            in_other_form(&part, form.other(), shape).unwrap_or(part)
        } else {
            part
        }
    };
    parts.map(either).collect()
}

/// The part in this form, if it is accepted and stays short enough.
fn in_other_form(part: &[u8], form: Form, shape: &Shape) -> Option<Vec<u8>> {
    let text = moved(form, part, shape.window, &shape.declared).ok()?;
    (text.len() <= LONGEST_TEXT).then(|| text.into_bytes())
}
