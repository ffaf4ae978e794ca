//! A rule in other words: the sheet with another text in the rule's place, and whether that says the same; and the parentheses and brackets
//! in a rule's text.

use crate::text::grammar::{Formula, Hidden};
use crate::text::name::goes_on;
use crate::text::sheet::{read, Sheet};
use crate::text::Refusal;

/// A rule in the text of its sheet.
pub struct Rewriting<'a> {
    sheet: &'a [u8],
    /// The sheet as read.
    pub read: Sheet,
    /// The rule's number.
    pub rule: usize,
}

impl<'a> Rewriting<'a> {
    /// The rule of this number, which the sheet must have.
    pub fn of(sheet: &'a [u8], rule: u64) -> Result<Self, Refusal> {
        let (read, rule) = (read(sheet)?, rule as usize);
        Ok(Rewriting { sheet, read, rule })
    }

    /// The rule's text as it was written.
    pub fn text(&self) -> &'a [u8] {
        &self.sheet[self.read.rules[self.rule].text.clone()]
    }

    /// The sheet with this text in the rule's place.
    pub fn sheet_with(&self, text: &[u8]) -> Vec<u8> {
        let place = &self.read.rules[self.rule].text;
        [&self.sheet[..place.start], text, &self.sheet[place.end..]].concat()
    }

    /// Whether every rule says the same with this text in the rule's place.
    pub fn says_the_same(&self, text: &[u8]) -> bool {
        let same = |other: &Sheet| formulas(other) == formulas(&self.read);
        matches!(read(&self.sheet_with(text)), Ok(other) if same(&other))
    }
}

/// What the rules of a sheet say, however they are written.
fn formulas(sheet: &Sheet) -> (Vec<&Formula>, &[Hidden]) {
    let rules = sheet.rules.iter().map(|rule| &rule.formula);
    (rules.collect(), &sheet.hidden)
}

/// The places of a `(` and its `)`.
pub type Pair = (usize, usize);

/// The parentheses in the text of an accepted rule; those of since and until and the round brackets of intervals are none.
pub fn pairs(rule: &[u8]) -> Vec<Pair> {
    let (mut open, mut pairs) = (vec![], vec![]);
    let mut in_interval = false;
    for (place, byte) in rule.iter().enumerate() {
        match byte {
            b'@' | b'?' => in_interval = true,
            b']' | b')' if in_interval => in_interval = false,
            b'(' if !in_interval => open.push(place),
            b')' => pairs.extend(open.pop().map(|opening| (opening, place))),
            _ => {}
        }
    }
    let of_call = |opening: usize| opening > 0 && goes_on(rule[opening - 1]);
    pairs.retain(|&(opening, _)| !of_call(opening));
    pairs
}

/// The opening and the closing bracket of each interval in the text of an accepted rule.
pub fn brackets(rule: &[u8]) -> Vec<(char, char)> {
    let intervals = rule.split(|byte| b"@?".contains(byte)).skip(1);
    let brackets = intervals.filter_map(|rest| {
        let closing = rest.iter().find(|byte| b")]".contains(byte))?;
        Some((char::from(rest[0]), char::from(*closing)))
    });
    brackets.collect()
}

/// The text without this pair.
pub fn without(rule: &[u8], (opening, closing): Pair) -> Vec<u8> {
    let inside = &rule[opening + 1..closing];
    [&rule[..opening], inside, &rule[closing + 1..]].concat()
}
