//! What calls that print a rule meet: the refusals, the kinds of rules, and the parentheses that are kept or taken out.

use crate::generate::print::Print;
use crate::library::Outcome;
use crate::print::printed;
use crate::rewriting::{brackets, pairs, without, Pair, Rewriting};
use crate::seen_calls::{holding, of_room, of_sheet, ROOMS, SHEETS};
use crate::tally::Tally;
use crate::text::grammar::Formula;
use crate::text::sheet::{self, Sheet, LONGEST_RULE, MOST_RULES};

/// The sides of signs on which parentheses stand: the sign before them, or the one after them. Of two signs beside one pair, what stands
/// here first binds it.
const SIDES: [(&str, &str, &str); 11] = [
    ("after !", "!", ""),
    ("before @", "", "@"),
    ("before ?", "", "?"),
    ("after &", "&", ""),
    ("before &", "", "&"),
    ("after |", "|", ""),
    ("before |", "", "|"),
    ("after =>", "=>", ""),
    ("before =>", "", "=>"),
    ("after <=>", "<=>", ""),
    ("before <=>", "", "<=>"),
];
/// Where they stand beside no sign, around a whole rule, an argument or what is in parentheses, they are never needed.
const WHOLE: &str = "around a whole formula";

/// The refusal of a rule's number, the kinds of rules that are printed, and how they are written.
const OTHERS: [&str; 22] = [
    "1 to 8, also a number that no rule can have",
    "9, also a number that no rule can have",
    "17, no rules",
    "17, the number of rules",
    "17, a larger number",
    "17, the number of a rule in the last 32 bits",
    "17, also no room",
    "over the most bytes, and no room for them: 20",
    "the only rule: 0",
    "the first of several rules: 0",
    "the last of several rules: 0",
    "a window over 64: 0",
    "no byte changed: 0",
    "fewer bytes than written: 0",
    "more bytes than written: 0",
    "32 open as written: 0",
    "32 open as printed: 0",
    "since or until in an argument: 0",
    "an interval in (): 0",
    "an interval in (]: 0",
    "an interval in [): 0",
    "an interval in []: 0",
];

/// None yet; each thing has to be met so often.
pub fn tally(least: u64) -> Tally {
    let sides = || SIDES.iter().map(|(side, ..)| *side);
    let kept_sides = sides().map(kept);
    let taken_out_sides = sides().chain([WHOLE]).map(taken_out);
    let fixed = [&SHEETS[..], &ROOMS, &OTHERS].concat();
    let things = fixed.iter().map(|thing| thing.to_string());
    let things = things.chain(kept_sides).chain(taken_out_sides);
    let title = "cases in which a call that prints a rule met";
    Tally::new(title, things.map(|thing| (thing, least)))
}

/// What a call met that was answered like this.
pub fn met(call: &Print, outcome: &Outcome) -> Vec<String> {
    let Print { sheet, rule, room } = call;
    if let number @ 1..=9 = outcome.answer {
        return refused_sheet(number, *rule);
    }
    let text = match printed(sheet, *rule) {
        Ok(text) => text.into_bytes(),
        Err(_) => return no_such_rule(call),
    };
    let (length, most) = (text.len(), LONGEST_RULE);
    let mut things = holding(&[(
        "over the most bytes, and no room for them: 20",
        length > most && length > *room,
    )]);
    let rooms = of_room(length, *room, most);
    things.extend(rooms.into_iter().map(str::to_string));
    if outcome.answer == 0 {
        let rewriting = Rewriting::of(sheet, *rule).expect("an accepted sheet");
        things.extend(of_rule(&rewriting, &text));
        things.extend(of_intervals(rewriting.text()));
        things.extend(of_parentheses(&rewriting, &text));
    }
    things
}

fn refused_sheet(number: u64, rule: u64) -> Vec<String> {
    let too_large = rule >= MOST_RULES;
    holding(&[
        (of_sheet(number), true),
        (
            "1 to 8, also a number that no rule can have",
            too_large && number < 9,
        ),
        (
            "9, also a number that no rule can have",
            too_large && number == 9,
        ),
    ])
}

fn no_such_rule(call: &Print) -> Vec<String> {
    let rules = sheet::read(&call.sheet).map_or(0, |sheet| sheet.rules.len() as u64);
    let last_bits = call.rule & u64::from(u32::MAX);
    holding(&[
        ("17, no rules", rules == 0),
        ("17, the number of rules", rules > 0 && call.rule == rules),
        ("17, a larger number", call.rule > rules),
        (
            "17, the number of a rule in the last 32 bits",
            last_bits < rules,
        ),
        ("17, also no room", call.room == 0),
    ])
}

/// What is met by the rule's place in its sheet, its length and its depth.
fn of_rule(rewriting: &Rewriting, text: &[u8]) -> Vec<String> {
    let (sheet, rule) = (&rewriting.read, rewriting.rule);
    let (rules, written) = (sheet.rules.len(), rewriting.text());
    holding(&[
        ("the only rule: 0", rules == 1),
        ("the first of several rules: 0", rules > 1 && rule == 0),
        (
            "the last of several rules: 0",
            rules > 1 && rule + 1 == rules,
        ),
        ("a window over 64: 0", sheet.window > 64),
        ("no byte changed: 0", text == written),
        ("fewer bytes than written: 0", text.len() < written.len()),
        ("more bytes than written: 0", text.len() > written.len()),
        ("32 open as written: 0", is_deepest(rewriting, written)),
        ("32 open as printed: 0", is_deepest(rewriting, text)),
        (
            "since or until in an argument: 0",
            is_nested(sheet, rewriting.rule),
        ),
    ])
}

/// Whether as many signs are open in the text as may be: in parentheses it has one too many.
fn is_deepest(rewriting: &Rewriting, text: &[u8]) -> bool {
    let deeper = rewriting.sheet_with(&[b"(", text, b")"].concat());
    matches!(sheet::read(&deeper), Err(refusal) if refusal.number == 8)
}

/// Whether the rule has a since or until in an argument of another.
fn is_nested(sheet: &Sheet, rule: usize) -> bool {
    let mut hidden = sheet.hidden[sheet.rules[rule].hidden.clone()].iter();
    hidden.any(|hidden| has_hidden(&hidden.a) || has_hidden(&hidden.b))
}

fn has_hidden(formula: &Formula) -> bool {
    matches!(formula, Formula::Hidden(_)) || formula.parts().into_iter().any(has_hidden)
}

/// The brackets of a rule's intervals, as they are written.
fn of_intervals(rule: &[u8]) -> Vec<String> {
    let thing = |(opening, closing)| format!("an interval in {opening}{closing}: 0");
    brackets(rule).into_iter().map(thing).collect()
}

/// The sides on which the printed text has parentheses, and on which the rule as written has some that it does not need.
fn of_parentheses(rewriting: &Rewriting, text: &[u8]) -> Vec<String> {
    let written = rewriting.text();
    let needless = |pair: &Pair| rewriting.says_the_same(&without(written, *pair));
    let has = pairs(text).into_iter().map(|pair| kept(side(text, pair)));
    let had = pairs(written).into_iter().filter(needless);
    let had = had.map(|pair| taken_out(side(written, pair)));
    has.chain(had).collect()
}

fn kept(side: &str) -> String {
    format!("parentheses kept {side}: 0")
}

fn taken_out(side: &str) -> String {
    format!("parentheses taken out {side}: 0")
}

/// The side of a sign on which a pair of parentheses stands.
fn side(text: &[u8], (opening, closing): Pair) -> &'static str {
    let (before, after) = (&text[..opening], &text[closing + 1..]);
    let stands = |(_, left, right): &&(&str, &str, &str)| {
        let after_it = !left.is_empty() && before.ends_with(left.as_bytes());
        // What ends in `<=>` also ends in `=>`.
        let other = *left == "=>" && before.ends_with(b"<=>");
        let before_it = !right.is_empty() && after.starts_with(right.as_bytes());
        after_it && !other || before_it
    };
    SIDES.iter().find(stands).map_or(WHOLE, |(side, ..)| side)
}
