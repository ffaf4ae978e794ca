//! Texts of sheets: of several sizes and kinds, whole and with faults.

use super::damage::damage;
use super::draft::{random_rules, Draft};
use super::formula::{self, Style};
use super::names::names;
use super::random::Random;
use super::{borders, faults, limit_formula, limits, windows};

/// A random sheet; about half are without a fault.
pub fn sheet(random: &mut Random) -> Vec<u8> {
    let mut draft = match random.weighted(&[30, 22, 8, 10, 5, 4, 4, 5, 3, 4, 12]) {
        0 => small(random),
        1 => middle(random),
        2 => large(random),
        3 => chain(random),
        4 => equivalences(random),
        5 => limits::rows_near_limit(random),
        6 => limits::hidden_near_limit(random),
        7 => limits::open_near_limit(random),
        8 => limits::rule_length(random),
        9 => limits::intervals(random),
        _ => borders::borders(random),
    };
    if random.chance(8) {
        draft.window = windows::longer(random).to_string();
    }
    wrong_value(random, &mut draft);
    windows::shorten(random, &mut draft);
    damaged(random, draft.text())
}

/// Now and then a fault in one of the values.
pub fn wrong_value(random: &mut Random, draft: &mut Draft) {
    match random.weighted(&[66, 5, 5, 3]) {
        0 => {}
        1 => faults::wrong_number(random, draft),
        2 => faults::wrong_name(random, draft),
        _ => faults::undeclared(random, draft),
    }
}

/// The text, now and then damaged or made about as long as it may be.
pub fn damaged(random: &mut Random, mut text: Vec<u8>) -> Vec<u8> {
    match random.weighted(&[74, 22, 4]) {
        0 => {}
        1 => damage(random, &mut text),
        _ => text = limits::length_near_limit(random, text),
    }
    text
}

/// A draft of random rules.
fn random_draft(
    random: &mut Random,
    window: usize,
    signals: usize,
    rules: usize,
    size: usize,
) -> Draft {
    let hidden = random.pick(&[0, 0, 6, 25]);
    let style = Style {
        hidden,
        ..Style::plain(names(random, signals, signals))
    };
    let rules = random_rules(random, &style, rules, size);
    Draft::new(window, style.names, rules)
}

fn small(random: &mut Random) -> Draft {
    let (window, signals) = (1 + random.below(8), 1 + random.below(4));
    let rules = random.below(5);
    random_draft(random, window, signals, rules, 5)
}

fn middle(random: &mut Random) -> Draft {
    let (window, signals) = (3 + random.below(20), 2 + random.below(7));
    let rules = 1 + random.below(8);
    random_draft(random, window, signals, rules, 9)
}

fn large(random: &mut Random) -> Draft {
    let window = random.pick(&[64, 64, 63, 40]);
    let signals = random.pick(&[64, 30, 10]);
    let (rules, size) = random.pick(&[(64, 3), (30, 5), (12, 10), (3, 30)]);
    random_draft(random, window, signals, rules, size)
}

/// Rules that carry values from tick to tick over a long window.
fn chain(random: &mut Random) -> Draft {
    let style = Style {
        hidden: 10,
        ..Style::plain(names(random, 2, 9))
    };
    let mut rules = vec![];
    for _ in 0..1 + random.below(10) {
        let (from, to) = (style.name(random), style.name(random));
        let offset = random.between(-4, 4);
        let last = offset + random.between(0, 1);
        let interval = formula::written(random, offset, last);
        let sign = random.pick(&["=>", "=>", "=>!", "<=>", "|", "<=>!"]);
        let word = random.pick(&["since", "until"]);
        rules.push(match random.below(4) {
            0 => format!("{to}<=>{word}({from},{})", style.name(random)),
            1 => format!("{from}?{interval}{sign}{to}"),
            _ => format!("{from}{sign}{to}@{interval}"),
        });
    }
    Draft::new(20 + random.below(45), style.names, rules)
}

fn equivalences(random: &mut Random) -> Draft {
    let style = Style::plain(names(random, 1, 4));
    let mut rules = vec![];
    for _ in 0..1 + random.below(3) {
        let depth = random.pick(&[2, 4, 6, 7, 8, 9, 20]);
        let text = limit_formula::nested_iff(random, &style, depth);
        rules.push(if text.len() > 256 {
            style.name(random)
        } else {
            text
        });
    }
    Draft::new(1 + random.below(12), style.names, rules)
}
