//! Captions on both sides: answer, text, first byte, length and place must be the same.

use super::{expected, shown};
use crate::captions::{caption, Part, Source};
use crate::generate::captions::Caption;
use crate::library::{self, Outcome};
use crate::seen::Met;

pub fn compare(sheet: &[u8], call: &Caption, met: &mut Met) -> Result<(), String> {
    let Caption { captions, signal } = call;
    let part = caption(sheet, captions, *signal);
    let ours = expected(part.map(outputs));
    let theirs = library::caption(sheet, captions, *signal);
    if ours != theirs {
        return Err(pasteable(sheet, call, &ours, &theirs));
    }
    met.captioned(sheet, call, &ours);
    Ok(())
}

/// Whether the part is in the captions, its first byte and its length.
fn outputs(part: Part) -> [u64; 3] {
    let in_captions = u64::from(part.of == Source::Captions);
    [
        in_captions,
        part.bytes.start as u64,
        part.bytes.len() as u64,
    ]
}

/// The call and its texts as Rust source, then what each side answered.
fn pasteable(sheet: &[u8], call: &Caption, ours: &Outcome, theirs: &Outcome) -> String {
    let Caption { captions, signal } = call;
    let mut text = format!("let sheet = b\"{}\";\n", sheet.escape_ascii());
    text += &format!("let captions = b\"{}\";\n", captions.escape_ascii());
    text += &format!("caption(sheet, captions, {signal});\n");
    for (side, outcome) in [("second", ours), ("library", theirs)] {
        text += &format!("// {side}: {}\n", shown(outcome));
    }
    text
}
