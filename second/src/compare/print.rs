//! A rule printed on both sides: answer, length, place and every byte of the lent buffer must be the same. The text in the rule's place must
//! say the same and must be printed as it stands; its intervals are in square brackets, and it needs each pair of its parentheses.

use super::expected;
use super::written::{sides, Written};
use crate::generate::print::Print;
use crate::library;
use crate::print::print_rule;
use crate::rewriting::{brackets, pairs, without, Rewriting};
use crate::seen::Met;

pub fn compare(call: &Print, met: &mut Met) -> Result<(), String> {
    let Print { sheet, rule, room } = call;
    let ours = our_print(sheet, *rule, *room);
    let theirs = their_print(sheet, *rule, *room);
    if ours != theirs {
        return Err(pasteable(call, &ours, &theirs));
    }
    if let Some(text) = theirs.text() {
        let back = back(sheet, *rule, text);
        back.map_err(|what| pasteable(call, &ours, &theirs) + what)?;
    }
    met.printed(call, &ours.outcome);
    Ok(())
}

fn our_print(sheet: &[u8], rule: u64, room: usize) -> Written {
    Written::by(room, |out| {
        expected(print_rule(sheet, rule, out).map(|length| [length]))
    })
}

fn their_print(sheet: &[u8], rule: u64, room: usize) -> Written {
    Written::by(room, |out| library::print_rule(sheet, rule, out))
}

/// Reads and prints the text in the place of the rule that it was printed from. Answers what is wrong.
fn back(sheet: &[u8], rule: u64, text: &[u8]) -> Result<(), &'static str> {
    let rewriting = Rewriting::of(sheet, rule).expect("an accepted sheet");
    if !rewriting.says_the_same(text) {
        return Err("// read again, the text gives another formula or none\n");
    }
    let again = rewriting.sheet_with(text);
    for print in [our_print, their_print] {
        if print(&again, rule, text.len()).text() != Some(text) {
            return Err("// printed again, the text is another\n");
        }
    }
    let round = |&brackets: &_| brackets != ('[', ']');
    if brackets(text).iter().any(round) {
        return Err("// an interval is not in square brackets\n");
    }
    let needless = |&pair: &_| rewriting.says_the_same(&without(text, pair));
    if pairs(text).iter().any(needless) {
        return Err("// without a pair of its parentheses, the text gives the same formula\n");
    }
    Ok(())
}

/// The call and its sheet as Rust source, then what both sides gave.
fn pasteable(call: &Print, ours: &Written, theirs: &Written) -> String {
    let Print { sheet, rule, room } = call;
    let mut text = format!("let sheet = b\"{}\";\n", sheet.escape_ascii());
    text += &format!("print_rule(sheet, {rule}, &mut [0; {room}]);\n");
    text + &sides(ours, theirs)
}
