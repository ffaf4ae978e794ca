//! An add in parts: adds of the parts, one after another, must lead where the one add of the whole text led.

use super::shown;
use crate::library::{self, Outcome};

/// Adds the parts to the table as it was before the one add, whose outcome and table are given. A refused text has no parts to be added.
pub fn compare(
    sheet: &[u8],
    parts: &[Vec<u8>],
    before: &[u64],
    (whole, after): (&Outcome, &[u64]),
) -> Result<(), String> {
    if whole.answer != 0 || parts.is_empty() {
        return Ok(());
    }
    let mut table = before.to_vec();
    let add = |part: &Vec<u8>| library::add(sheet, part, &mut table);
    let outcomes: Vec<Outcome> = parts.iter().map(add).collect();
    let accepted = outcomes.iter().all(|outcome| outcome.answer == 0);
    let new_facts: u64 = outcomes
        .iter()
        .map(|outcome| outcome.outputs[0])
        .fold(0, u64::wrapping_add);
    let clash = outcomes.last().map(|outcome| outcome.outputs[1]);
    if accepted
        && table == after
        && new_facts == whole.outputs[0]
        && clash == Some(whole.outputs[1])
    {
        return Ok(());
    }
    let mut text = "// in parts the library gives another sum, clash or table:\n".to_string();
    for (part, outcome) in parts.iter().zip(&outcomes) {
        text += &format!("add(sheet, b\"{}\", &mut table);\n", part.escape_ascii());
        text += &format!("// {}\n", shown(outcome));
    }
    Err(text)
}
