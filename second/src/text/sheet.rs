//! The sheet: its lines in their fixed order, read from the first to the last.

use super::grammar::{self, Formula, Hidden};
use super::lines::Lines;
use super::name::{self, Name};
use super::{refuse, Refusal, LONGEST_TEXT};
use std::ops::{Range, RangeInclusive};

/// A sheet as read.
pub struct Sheet {
    pub window: usize,
    pub names: Vec<Name>,
    /// Where each name stands in the sheet.
    pub name_places: Vec<Range<usize>>,
    pub rules: Vec<Rule>,
    /// All hidden signals in the order written.
    pub hidden: Vec<Hidden>,
}

/// A rule, the numbers of the hidden signals written in it, and where its text stands in the sheet.
pub struct Rule {
    pub formula: Formula,
    pub hidden: Range<usize>,
    pub text: Range<usize>,
}

/// The most ticks, signals and rules.
pub const LONGEST_WINDOW: u64 = 4_096;
pub const MOST_SIGNALS: u64 = 64;
pub const MOST_RULES: u64 = 64;
/// The longest rule, in bytes.
pub const LONGEST_RULE: usize = 256;

pub fn read(text: &[u8]) -> Result<Sheet, Refusal> {
    if text.len() > LONGEST_TEXT {
        return refuse(1, 0);
    }
    let mut lines = Lines::new(text, 2);
    let window = amount(&mut lines, "window=", 1..=LONGEST_WINDOW)?;
    let signals = amount(&mut lines, "signals=", 1..=MOST_SIGNALS)?;
    let mut sheet = Sheet {
        window,
        names: vec![],
        name_places: vec![],
        rules: vec![],
        hidden: vec![],
    };
    for _ in 0..signals {
        read_name(&mut lines, &mut sheet)?;
    }
    let rules = amount(&mut lines, "rules=", 0..=MOST_RULES)?;
    for _ in 0..rules {
        read_rule(&mut lines, &mut sheet)?;
    }
    lines.end()?;
    Ok(sheet)
}

/// A line with a number in this range.
fn amount(lines: &mut Lines, key: &str, range: RangeInclusive<u64>) -> Result<usize, Refusal> {
    let (number, place) = lines.number(key)?;
    if !range.contains(&number) {
        return refuse(3, place);
    }
    Ok(number as usize)
}

fn read_name(lines: &mut Lines, sheet: &mut Sheet) -> Result<(), Refusal> {
    let value = lines.line("signal=")?;
    match name::read(value.bytes) {
        Ok(name) if !sheet.names.contains(&name) => {
            sheet.names.push(name);
            let end = value.place + value.bytes.len();
            sheet.name_places.push(value.place..end);
            Ok(())
        }
        _ => refuse(4, value.place),
    }
}

fn read_rule(lines: &mut Lines, sheet: &mut Sheet) -> Result<(), Refusal> {
    let value = lines.line("rule=")?;
    if value.bytes.is_empty() || value.bytes.len() > LONGEST_RULE {
        return refuse(5, value.place);
    }
    let first = sheet.hidden.len();
    let formula = grammar::read(value.bytes, value.place, &sheet.names, &mut sheet.hidden)?;
    let hidden = first..sheet.hidden.len();
    let text = value.place..value.place + value.bytes.len();
    let rule = Rule {
        formula,
        hidden,
        text,
    };
    sheet.rules.push(rule);
    Ok(())
}
