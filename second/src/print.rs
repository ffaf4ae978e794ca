//! A rule printed back: its formula as it was read, with parentheses only where the grammar needs them and intervals in square brackets.

use crate::operations::read;
use crate::text::grammar::{Formula, Hidden};
use crate::text::name::Name;
use crate::text::sheet::LONGEST_RULE;
use crate::text::{refuse, write, Refusal};

/// Writes the rule of this number, from 0, to the buffer's first bytes; answers how many these are.
pub fn print_rule(sheet: &[u8], rule: u64, out: &mut [u8]) -> Result<u64, Refusal> {
    write(&printed(sheet, rule)?, LONGEST_RULE, out)
}

/// The rule's text, however long that is.
pub fn printed(sheet: &[u8], rule: u64) -> Result<String, Refusal> {
    let (sheet, _) = read(sheet)?;
    if rule >= sheet.rules.len() as u64 {
        return refuse(17, 0);
    }
    let formula = &sheet.rules[rule as usize].formula;
    let (names, hidden) = (&sheet.names, &sheet.hidden);
    Ok(Printer { names, hidden }.part(formula, Level::Formula))
}

/// The parts of the grammar, the loosest first: each may also stand where one before it is asked for.
#[derive(Clone, Copy, PartialEq, Eq, PartialOrd, Ord)]
enum Level {
    Formula,
    Implication,
    Or,
    And,
    Timed,
    Plain,
}

struct Printer<'a> {
    names: &'a [Name],
    hidden: &'a [Hidden],
}

impl Printer<'_> {
    /// The formula where a part of this level is asked for: in parentheses, which make it a plain part, if it is none.
    fn part(&self, formula: &Formula, asked: Level) -> String {
        let (level, text) = self.bare(formula);
        if level < asked {
            format!("({text})")
        } else {
            text
        }
    }

    /// The formula without parentheses around it, and the part of the grammar that it then is.
    fn bare(&self, formula: &Formula) -> (Level, String) {
        use Level::{And, Implication, Or, Plain, Timed};
        match formula {
            Formula::Signal(number) => (Plain, self.names[*number].to_string()),
            Formula::Hidden(number) => (Plain, self.call(&self.hidden[*number])),
            Formula::Not(part) => (Plain, format!("!{}", self.part(part, Plain))),
            Formula::Always(part, low, high) => (Timed, self.timed(part, '@', *low, *high)),
            Formula::Once(part, low, high) => (Timed, self.timed(part, '?', *low, *high)),
            // These two group from the left, so the same sign may stand on the left alone.
            Formula::And(left, right) => (And, self.pair(left, And, "&", right, Timed)),
            Formula::Or(left, right) => (Or, self.pair(left, Or, "|", right, And)),
            Formula::Implies(left, right) => (Implication, self.pair(left, Or, "=>", right, Or)),
            Formula::Iff(left, right) => {
                let text = self.pair(left, Implication, "<=>", right, Implication);
                (Level::Formula, text)
            }
        }
    }

    /// The since or until as it was written.
    fn call(&self, hidden: &Hidden) -> String {
        let word = if hidden.look < 0 { "since" } else { "until" };
        let arguments = self.pair(&hidden.a, Level::Formula, ",", &hidden.b, Level::Formula);
        format!("{word}({arguments})")
    }

    fn timed(&self, part: &Formula, sign: char, low: i64, high: i64) -> String {
        let part = self.part(part, Level::Timed);
        format!("{part}{sign}[{low},{high}]")
    }

    /// Two parts, each of the level asked for on its side, and what joins them.
    fn pair(
        &self,
        left: &Formula,
        left_asked: Level,
        sign: &str,
        right: &Formula,
        right_asked: Level,
    ) -> String {
        self.part(left, left_asked) + sign + &self.part(right, right_asked)
    }
}
