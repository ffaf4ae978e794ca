//! A move on both sides: answer, length, place and every byte of the lent buffer must be the same, and the library's text must come back
//! from moves there and back.

use super::expected;
use super::written::{sides, Written};
use crate::generate::moves::Move;
use crate::library;
use crate::moves::move_to;
use crate::seen::Met;
use crate::text::readings::Form;
use crate::text::LONGEST_TEXT;

pub fn compare(sheet: &[u8], call: &Move, met: &mut Met) -> Result<(), String> {
    let Move { to, readings, room } = call;
    let ours = our_move(*to, sheet, readings, *room);
    let theirs = their_move(*to, sheet, readings, *room);
    if ours != theirs {
        return Err(pasteable(sheet, call, &ours, &theirs));
    }
    met.moved(sheet, call, &ours.outcome);
    if let Some(text) = theirs.text() {
        let back = back(*to, sheet, readings, text);
        if back.map_err(|what| pasteable(sheet, call, &ours, &theirs) + what)? {
            met.moved_back(*to);
        }
    }
    Ok(())
}

fn our_move(to: Form, sheet: &[u8], readings: &[u8], room: usize) -> Written {
    Written::by(room, |out| {
        expected(move_to(to, sheet, readings, out).map(|length| [length]))
    })
}

fn their_move(to: Form, sheet: &[u8], readings: &[u8], room: usize) -> Written {
    Written::by(room, |out| library::move_to(to, sheet, readings, out))
}

/// Moves a written text on: to its own form, which changes nothing; to the other form, which gives what the readings themselves give there;
/// and from there back again, which gives the text. Answers whether there was a way back, or what is wrong.
fn back(to: Form, sheet: &[u8], readings: &[u8], text: &[u8]) -> Result<bool, &'static str> {
    let again = their_move(to, sheet, text, text.len());
    if again.text() != Some(text) {
        return Err("// the same move changes the text that it wrote\n");
    }
    let other = their_move(to.other(), sheet, text, LONGEST_TEXT);
    if other != our_move(to.other(), sheet, readings, LONGEST_TEXT) {
        return Err("// moved on, the text gives other readings\n");
    }
    match other.text() {
        None => Ok(false),
        Some(other) if their_move(to, sheet, other, text.len()).text() == Some(text) => Ok(true),
        Some(_) => Err("// moved there and back, the text is another\n"),
    }
}

/// The call and its texts as Rust source, then what both sides gave.
fn pasteable(sheet: &[u8], call: &Move, ours: &Written, theirs: &Written) -> String {
    let Move { to, readings, room } = call;
    let function = match to {
        Form::Readings => "to_readings",
        Form::Spans => "to_spans",
    };
    let mut text = format!("let sheet = b\"{}\";\n", sheet.escape_ascii());
    text += &format!("let readings = b\"{}\";\n", readings.escape_ascii());
    text += &format!("{function}(sheet, readings, &mut [0; {room}]);\n");
    text + &sides(ours, theirs)
}
