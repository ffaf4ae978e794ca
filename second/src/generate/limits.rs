//! Sheets at each limit and just over it.

use super::draft::{random_rules, Draft};
use super::formula::{self, Style};
use super::limit_formula;
use super::names::names;
use super::random::Random;

/// Rules that make from 1,020 to 1,028 rows in all.
pub fn rows_near_limit(random: &mut Random) -> Draft {
    let names = names(random, 1, 20);
    let rows = random.pick(&[1020, 1023, 1024, 1024, 1025, 1025, 1026, 1028]);
    let rules = rules_of_rows(random, &names, rows);
    Draft::new(1 + random.below(64), names, rules)
}

/// Rules that make so many rows in all, those of the names among them.
pub fn rules_of_rows(random: &mut Random, names: &[String], rows: usize) -> Vec<String> {
    let mut left = rows - names.len();
    let mut rules = vec![];
    while left > 0 {
        let name = &names[random.below(names.len())];
        let sign = random.pick(&["@", "?"]);
        let widest = (left.min(253) as i64 - 1) / 2;
        if left == 1 || widest < 1 || rules.len() > 40 {
            rules.push(format!("!{name}"));
            left -= 1;
            continue;
        }
        let more = if random.chance(70) {
            widest
        } else {
            random.between(1, widest)
        };
        let low = random.between(-63, 63 - more);
        rules.push(format!(
            "{name}{sign}{}",
            formula::written(random, low, low + more)
        ));
        left -= 2 * more as usize + 1;
    }
    rules.truncate(64);
    rules
}

/// From 31 to 34 since or until in all.
pub fn hidden_near_limit(random: &mut Random) -> Draft {
    let style = Style::plain(names(random, 1, 4));
    let mut left = random.pick(&[31, 32, 32, 33, 33, 34]);
    let mut rules = vec![];
    while left > 0 {
        let count = left.min(1 + random.below(13));
        rules.push(limit_formula::with_hidden(random, &style, count));
        left -= count;
    }
    Draft::new(1 + random.below(20), style.names, rules)
}

pub fn open_near_limit(random: &mut Random) -> Draft {
    let style = Style::plain(names(random, 1, 3));
    let count = random.pick(&[31, 32, 32, 33, 33, 40]);
    let text = match random.below(6) {
        0 => limit_formula::reopened(random, &style),
        _ => limit_formula::opened(random, &style, count),
    };
    let mut rules = random_rules(random, &style, 2, 3);
    rules.insert(random.below(3), text);
    Draft::new(1 + random.below(10), style.names, rules)
}

/// Rules of 0, 1, 255, 256, 257 and more bytes.
pub fn rule_length(random: &mut Random) -> Draft {
    let names = vec!["a".to_string(), "b".to_string()];
    let length = random.pick(&[0, 1, 254, 255, 256, 256, 257, 257, 258, 400]);
    let text = match random.below(5) {
        _ if length == 0 => String::new(),
        0 => "(".repeat(length),
        1 => "a".repeat(length),
        _ if length == 1 => "b".to_string(),
        _ => limit_formula::of_length(random, "a", length),
    };
    let mut rules = vec!["a=>b@[1,1]".to_string()];
    rules.insert(random.below(2), text);
    Draft::new(1 + random.below(10), names, rules)
}

pub fn intervals(random: &mut Random) -> Draft {
    let style = Style {
        hidden: 5,
        wild: true,
        ..Style::plain(names(random, 1, 3))
    };
    let mut rules = vec![];
    for _ in 0..1 + random.below(2) {
        let name = style.name(random);
        let interval = formula::wild_interval(random);
        let sign = random.pick(&["@", "?"]);
        rules.push(format!("{name}{sign}{interval}"));
    }
    if random.chance(30) {
        rules.extend(random_rules(random, &style, 1, 4));
    }
    Draft::new(random.pick(&[1, 10, 64]), style.names, rules)
}

/// The text made exactly 32,768 or 32,769 bytes long, or near that.
pub fn length_near_limit(random: &mut Random, mut text: Vec<u8>) -> Vec<u8> {
    let length = random.pick(&[32_767, 32_768, 32_768, 32_769, 32_769, 50_000]);
    let missing = length - text.len().min(length);
    let filling = vec![random.pick(b"a\n0("); missing];
    let place = if random.chance(60) {
        text.len()
    } else {
        random.below(text.len() + 1)
    };
    text.splice(place..place, filling);
    text
}
