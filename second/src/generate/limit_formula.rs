//! Texts of formulas that stand at a limit: open signs, `<=>` in `<=>`, since and until, length as written and as printed.

use super::draft::Draft;
use super::formula::Style;
use super::random::Random;
use crate::print::printed;

/// What cannot stand, or not go on, where as many signs as allowed are open; x is a name.
const WRONG_INSIDE: [&str; 11] = [
    "since",
    "until)",
    "since!",
    "until@[0,0]",
    "(",
    "!",
    "x(",
    "x!",
    "x@(64,0",
    "x@(-1,1)(",
    ")",
];

/// A formula in which `count` of `(` and `!` are open at one place; now and then it goes on wrongly there.
pub fn opened(random: &mut Random, style: &Style, count: usize) -> String {
    let name = style.name(random);
    let inside = if random.chance(25) {
        random.pick(&WRONG_INSIDE)
    } else {
        "x"
    };
    let inside = inside.replace('x', &name);
    let plain = random.chance(50);
    let (mut before, mut after) = (String::new(), String::new());
    for _ in 0..count {
        let kind = if plain {
            0
        } else {
            random.weighted(&[50, 30, 4, 2, 2])
        };
        let (opening, closing) = match kind {
            0 => ("(".to_string(), ")".to_string()),
            1 => ("!".to_string(), String::new()),
            2 => (format!("({name}|"), ")".to_string()),
            3 => ("since(".to_string(), format!(",{name})")),
            _ => (format!("until({name},"), ")".to_string()),
        };
        before += &opening;
        after = closing + &after;
    }
    before + &inside + &after
}

/// A formula in which `count` of `(` and `!` are open at one place, and in which every pair of parentheses is needed: around a `=>` in another.
pub fn nested(random: &mut Random, name: &str, count: usize) -> String {
    let mut text = "x=>x".to_string();
    let mut left = count;
    while left > 0 {
        let kind = random.weighted(&[40, 40, 4, 4, 3, 3, 6]);
        text = match kind {
            0 => format!("({text})=>x"),
            1 => format!("x=>({text})"),
            2 => format!("({text})@[0,0]=>x"),
            3 => format!("x=>x&({text})"),
            4 => format!("({text})|x=>x"),
            5 => format!("x=>until({text},x)"),
            _ if left > 1 => format!("!({text})=>x"),
            _ => continue,
        };
        left -= if kind == 6 { 2 } else { 1 };
    }
    text.replace('x', name)
}

/// Many of `(` and `!` one after another, but few open at one place.
pub fn reopened(random: &mut Random, style: &Style) -> String {
    let parts = ["(x)", "!x", "!(x)", "(!x)", "!!x"];
    let count = 34 + random.below(8);
    let parts: Vec<&str> = (0..count).map(|_| random.pick(&parts)).collect();
    parts
        .join(random.pick(&["&", "|"]))
        .replace('x', &style.name(random))
}

/// `<=>` inside `<=>`, so many levels deep.
pub fn nested_iff(random: &mut Random, style: &Style, depth: usize) -> String {
    let mut text = style.name(random);
    for _ in 0..depth {
        let name = style.name(random);
        let not = random.pick(&["", "", "!"]);
        text = match random.below(3) {
            0 => format!("{name}<=>{not}({text})"),
            1 => format!("{not}({text})<=>{name}"),
            _ => format!("({name}<=>{not}({text}))"),
        };
    }
    text
}

/// A formula with exactly `count` since or until.
pub fn with_hidden(random: &mut Random, style: &Style, count: usize) -> String {
    if count == 0 {
        return style.name(random);
    }
    let word = random.pick(&["since", "until"]);
    let inside = if random.chance(50) {
        random.below(count)
    } else {
        0
    };
    let left = random.below(inside + 1);
    let a = with_hidden(random, style, left);
    let b = with_hidden(random, style, inside - left);
    let one = format!("{word}({a},{b})");
    if inside + 1 == count {
        return one;
    }
    let sign = random.pick(&["&", "|"]);
    one + sign + &with_hidden(random, style, count - 1 - inside)
}

/// A formula of exactly `length` bytes, from 1 up; the name has one letter.
pub fn of_length(random: &mut Random, name: &str, length: usize) -> String {
    let mut text = match length % 2 {
        0 => format!("!{name}"),
        _ => name.to_string(),
    };
    while text.len() < length {
        text += random.pick(&["&", "|"]);
        text += name;
    }
    text
}

/// Intervals that are printed in one byte more than they are written.
const GROWING: [&str; 8] = [
    "(9,11)", "(9,11]", "(9,12)", "[-1,0)", "(-2,0)", "[-3,0)", "[-10,-9)", "(-12,-9)",
];

/// A formula that is printed in exactly `length` bytes. Its intervals make it shorter as written, and now and then needless parentheses longer;
/// the name has one letter.
pub fn printed_in(random: &mut Random, name: &str, length: usize) -> String {
    let mut text = String::new();
    for _ in 0..1 + random.below(15) {
        let (not, sign) = (random.pick(&["", "", "!"]), random.pick(&["@", "?"]));
        let part = format!("{not}{name}{sign}{}", random.pick(&GROWING));
        text += &match random.below(10) {
            0 => format!("({part})"),
            1 => format!("!({part})"),
            _ => part,
        };
        text += random.pick(&["&", "|"]);
    }
    let sheet = Draft::new(1, vec![name.to_string()], vec![text.clone() + name]).text();
    let so_far = printed(&sheet, 0).map_or(0, |text| text.len());
    text + &of_length(random, name, (length + 1).saturating_sub(so_far))
}
