//! Sheets of clumsy rules: parentheses that are needed and that are not, round brackets, since and until in one another, and all of this as
//! deep as a rule may be, or so long that its printed text is about as long as it may be.

use super::draft::Draft;
use super::formula::{self, Style};
use super::limit_formula;
use super::names::names;
use super::random::Random;
use super::sheet::{damaged, wrong_value};
use super::windows;

/// A name that leaves room for deep and long rules; no other names that are drawn here have this letter.
const SHORT: &str = "q";

/// A sheet of a few such rules, or of none; one in five may have a fault.
pub fn sheet(random: &mut Random) -> Vec<u8> {
    let hidden = random.pick(&[0, 10, 40]);
    let mut names = names(random, 1, 4);
    names.push(SHORT.to_string());
    let style = Style {
        hidden,
        clumsy: true,
        ..Style::plain(names)
    };
    let count = random.pick(&[0, 1, 1, 2, 2, 3, 3, 4]);
    let rules = (0..count).map(|_| rule(random, &style)).collect();
    let longer = windows::longer(random);
    let window = random.pick(&[1, 10, 64, longer]);
    let mut draft = Draft::new(window, style.names, rules);
    if random.chance(80) {
        return draft.text();
    }
    wrong_value(random, &mut draft);
    damaged(random, draft.text())
}

fn rule(random: &mut Random, style: &Style) -> String {
    let (few, more) = (2 + random.below(3), 5 + random.below(12));
    let open = random.pick(&[20, 31, 32, 32, 32, 32, 33]);
    let length = random.pick(&[255, 256, 256, 256, 257, 257, 257, 258, 260]);
    match random.weighted(&[42, 20, 12, 8, 4, 14]) {
        0 => formula::formula(random, style, few),
        1 => formula::formula(random, style, more),
        2 => timings(random, style),
        3 => limit_formula::nested(random, SHORT, open),
        4 => limit_formula::opened(random, style, open),
        _ => limit_formula::printed_in(random, SHORT, length),
    }
}

/// A name at intervals whose ends are where a number gets a digit or a sign more, or at the limits.
fn timings(random: &mut Random, style: &Style) -> String {
    let mut text = random.pick(&["", "!"]).to_string() + &style.name(random);
    for _ in 0..1 + random.below(4) {
        let low = random.pick(&[-63, -62, -11, -10, -9, -2, -1, 0, 1, 8, 9, 10, 62, 63]);
        let high = (low + random.pick(&[0, 0, 1, 2, 9, 10])).min(63);
        text += random.pick(&["@", "?"]);
        text += &formula::written(random, low, high);
    }
    text
}
