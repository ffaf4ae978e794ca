//! Sheets whose looks reach over the borders of words, tick by tick and up to 63 ticks at once, back and ahead.

use super::draft::Draft;
use super::formula::{self, Style};
use super::names::names;
use super::random::Random;
use super::windows;

/// Few rules, so that the window may be of any length.
pub fn borders(random: &mut Random) -> Draft {
    let style = Style::plain(names(random, 1, 4));
    let rules = (0..1 + random.below(4)).map(|_| rule(random, &style));
    let rules = rules.collect();
    Draft::new(windows::longer(random), style.names, rules)
}

fn rule(random: &mut Random, style: &Style) -> String {
    let (from, to) = (style.name(random), style.name(random));
    let first = offset(random);
    let last = (first + random.pick(&[0, 0, 0, 1, 2])).min(63);
    let interval = formula::written(random, first, last);
    let sign = random.pick(&["=>", "=>", "=>!", "<=>", "|"]);
    let word = random.pick(&["since", "until"]);
    match random.below(7) {
        0 => format!("{to}<=>{word}({from},{})", style.name(random)),
        1 => format!("{from}{sign}{word}({to},{from}@{interval})"),
        2 => format!("{from}?{interval}{sign}{to}"),
        3 => format!("{from}=>{from}@{interval}"),
        _ => format!("{from}{sign}{to}@{interval}"),
    }
}

/// As near and as far as a look reaches, and between.
fn offset(random: &mut Random) -> i64 {
    let any = random.between(-63, 63);
    random.pick(&[-63, -62, -1, 1, 62, 63, any, any])
}
