//! Faults in a sheet's values: numbers, names, and names in rules.

use super::draft::Draft;
use super::names::misnumbered;
use super::random::Random;

/// A number out of its range, against its writing rule, or not the one of the lines that follow.
pub fn wrong_number(random: &mut Random, draft: &mut Draft) {
    let odd = [
        "0", "1", "2", "63", "64", "65", "66", "100", "99999", "65536", "100000", "00", "01",
        "064", "", "-1", "-0", "+1", " 1", "1 ", "a", "6a", "1.0", "\u{663}",
    ];
    let windows = [
        "0", "64", "65", "4095", "4096", "4097", "5000", "04096", "40960", "99999",
    ];
    let value = random.pick(&odd).to_string();
    match random.below(4) {
        0 => draft.window = value,
        1 => draft.window = random.pick(&windows).to_string(),
        2 => draft.signals = value,
        _ => draft.rules_count = value,
    }
}

/// A name not of its form, with a wrong end number, reserved, over its length, or given twice.
pub fn wrong_name(random: &mut Random, draft: &mut Draft) {
    let odd = [
        "",
        "A",
        "aB",
        "1a",
        "a_b",
        "a b",
        "since",
        "until",
        "abcdefghijklmnopq",
        "abcdefghijklmnop",
        " a",
        "a ",
        "-",
        "sincE",
        "aa\r",
        "a(",
        "0",
        "caf\u{e9}",
        "since1",
        "untilx",
    ];
    let place = random.below(draft.names.len());
    let other = draft.names[random.below(draft.names.len())].clone();
    draft.names[place] = match random.weighted(&[20, 40, 40]) {
        0 => other,
        1 => misnumbered(random, &other),
        _ => random.pick(&odd).to_string(),
    };
}

/// A name in a rule that is not declared, or one that only starts like a declared one, or is one but for its end number.
pub fn undeclared(random: &mut Random, draft: &mut Draft) {
    if draft.rules.is_empty() {
        return;
    }
    let odd = [
        "zz",
        "q0",
        "abcdefghijklmnopqrst",
        "sinc",
        "since",
        "until",
        "since0",
        "untilx",
        "a0",
        "aa",
    ];
    let place = random.below(draft.rules.len());
    let rule = &mut draft.rules[place];
    let from = draft.names[random.below(draft.names.len())].clone();
    let word = if random.chance(50) {
        misnumbered(random, &from)
    } else {
        random.pick(&odd).to_string()
    };
    match random.below(4) {
        0 => *rule = format!("{rule}&{word}"),
        1 => *rule = format!("{word}&{rule}"),
        2 => *rule = format!("{word}{rule}"),
        _ => *rule = rule.replacen(&from, &word, 1),
    }
}
