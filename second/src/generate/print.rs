//! Calls that print a rule: of the case's sheet and of one whose rules are clumsy, by numbers up to the last rule's and past it.

use super::clumsy;
use super::numbers::number;
use super::random::Random;
use super::room::room;
use crate::operations::read;
use crate::print::printed;
use crate::text::sheet::LONGEST_RULE;

/// The number of a rule to be printed to a buffer of so many bytes, and its sheet.
pub struct Print {
    pub sheet: Vec<u8>,
    pub rule: u64,
    pub room: usize,
}

/// At most one call for the case's sheet, then one or two for a sheet of their own.
pub fn calls(random: &mut Random, sheet: &[u8]) -> Vec<Print> {
    let clumsy = clumsy::sheet(random);
    let mut sheets = vec![sheet; random.below(2)];
    sheets.resize(sheets.len() + 1 + random.below(2), &clumsy);
    let call = |sheet: &[u8]| {
        let rules = read(sheet).ok().map(|(sheet, _)| sheet.rules.len());
        let rule = number(random, rules);
        let room = room(random, printed(sheet, rule).ok(), LONGEST_RULE);
        let sheet = sheet.to_vec();
        Print { sheet, rule, room }
    };
    sheets.into_iter().map(call).collect()
}
