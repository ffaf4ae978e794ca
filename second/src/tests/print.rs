//! Rules printed back, worked out by hand, and on generated rules by taking out parentheses one pair after another.

use super::{sheet, shown, written};
use crate::generate::print::{calls, Print};
use crate::generate::random::Random;
use crate::operations::check;
use crate::print::{print_rule, printed};
use crate::rewriting::{pairs, without, Rewriting};
use crate::text::grammar::Formula;
use crate::text::sheet::{read, Sheet};
use std::collections::BTreeMap;

/// The rule of this number, with room for every text.
fn print_in(sheet: &str, rule: u64) -> Result<String, (u64, u64)> {
    written(300, |out| print_rule(sheet.as_bytes(), rule, out))
}

/// A rule over these signals, printed.
fn print(rule: &str) -> String {
    let sheet = sheet(4, "a b c aisle10", &[rule]);
    print_in(&sheet, 0).expect("an accepted rule")
}

/// What is written, and what is printed.
const NEEDLESS: [(&str, &str); 28] = [
    ("(a)", "a"),
    ("(((aisle10)))", "aisle10"),
    ("!(a)", "!a"),
    ("(!a)", "!a"),
    ("!(!(!a))", "!!!a"),
    ("(!a)@[0,1]", "!a@[0,1]"),
    ("(a@[0,1])", "a@[0,1]"),
    ("(a@[0,1])?[2,3]", "a@[0,1]?[2,3]"),
    ("!(!a)?[0,1]", "!!a?[0,1]"),
    ("(a)&(b)", "a&b"),
    ("(a&b)&c", "a&b&c"),
    ("((a&b)&c)&a", "a&b&c&a"),
    ("a&(b@[0,1])", "a&b@[0,1]"),
    ("(a|b)|c", "a|b|c"),
    ("a|(b&c)", "a|b&c"),
    ("(a&b)|c", "a&b|c"),
    ("(a|b)=>c", "a|b=>c"),
    ("a=>(b|c)", "a=>b|c"),
    ("(a=>b)", "a=>b"),
    ("(a=>b)<=>c", "a=>b<=>c"),
    ("a<=>(b=>c)", "a<=>b=>c"),
    ("((a|b))&c", "(a|b)&c"),
    ("(!((a|b)))", "!(a|b)"),
    ("since((a),(b<=>c))", "since(a,b<=>c)"),
    ("(until((a=>b),c))", "until(a=>b,c)"),
    ("!(since(a,b))", "!since(a,b)"),
    ("(since(a,b))@[1,1]", "since(a,b)@[1,1]"),
    ("((a)|(b))&((since(((a)),(!(b)))))", "(a|b)&since(a,!b)"),
];

#[test]
fn needless_parentheses_are_taken_out() {
    for (rule, text) in NEEDLESS {
        assert_eq!(print(rule), text, "{rule}");
    }
}

#[test]
fn what_is_needed_stays() {
    let rules = [
        "a",
        "aisle10",
        "!(a@[0,1])",
        "!(a&b)",
        "!(!(a|b)@[0,0])",
        "(a&b)@[0,1]",
        "(a<=>b)?[-1,1]",
        "a&(b&c)",
        "a&(b&(c&a))",
        "a|(b|c)",
        "(a|b)&c",
        "a&(b|c)",
        "(a=>b)=>c",
        "a=>(b=>c)",
        "(a<=>b)<=>c",
        "a<=>(b<=>c)",
        "(a<=>b)=>c",
        "(a=>b)|c&(a<=>b)",
        "since(until(a,b),since(b,c)@[0,1]=>a)&(a|b)",
        "until(a<=>b,a=>b)",
    ];
    for rule in rules {
        assert_eq!(print(rule), rule);
    }
}

#[test]
fn intervals_in_square_brackets() {
    let intervals = [
        ("[0,3]", "[0,3]"),
        ("(0,3)", "[1,2]"),
        ("(0,3]", "[1,3]"),
        ("[0,3)", "[0,2]"),
        ("(0,2)", "[1,1]"),
        ("(-1,1)", "[0,0]"),
        ("(-2,0)", "[-1,-1]"),
        ("[-1,0)", "[-1,-1]"),
        ("(-1,0]", "[0,0]"),
        ("(9,11)", "[10,10]"),
        ("[9,11)", "[9,10]"),
        ("(8,10)", "[9,9]"),
        ("(-11,-9)", "[-10,-10]"),
        ("(-10,-9]", "[-9,-9]"),
        ("[-63,63]", "[-63,63]"),
        ("(-63,63)", "[-62,62]"),
        ("(62,63]", "[63,63]"),
        ("[-63,-62)", "[-63,-63]"),
    ];
    for (interval, squared) in intervals {
        for (rule, text) in [
            (format!("a@{interval}"), format!("a@{squared}")),
            (format!("!(b?{interval})&c"), format!("!(b?{squared})&c")),
        ] {
            assert_eq!(print(&rule), text);
        }
    }
}

/// Parts, the loosest last.
const PARTS: [&str; 10] = [
    "a",
    "!a",
    "since(a,b)",
    "until(a,b)",
    "a@[1,2]",
    "a?[1,2]",
    "a&b",
    "a|b",
    "a=>b",
    "a<=>b",
];

/// Where a part stands, and how many of the loosest parts need parentheses there.
const PLACES: [(&str, usize); 16] = [
    ("_", 0),
    ("!_", 6),
    ("_@[0,1]", 4),
    ("_?[0,1]", 4),
    ("_&c", 3),
    ("c&_", 4),
    ("_|c", 2),
    ("c|_", 3),
    ("_=>c", 2),
    ("c=>_", 2),
    ("_<=>c", 1),
    ("c<=>_", 1),
    ("since(_,c)", 0),
    ("since(c,_)", 0),
    ("until(_,c)", 0),
    ("until(c,_)", 0),
];

#[test]
fn every_part_in_every_place() {
    for (place, needing) in PLACES {
        for (number, part) in PARTS.iter().enumerate() {
            let bare = place.replace('_', part);
            let with = place.replace('_', &format!("({part})"));
            let doubled = place.replace('_', &format!("(({part}))"));
            let needs = number + needing >= PARTS.len();
            let text = if needs { with.clone() } else { bare };
            assert_eq!((print(&with), print(&doubled)), (text.clone(), text));
        }
    }
}

/// The rule without those pairs of parentheses, one after another, without which it says the same.
fn reduced(sheet: &[u8], rule: u64) -> Vec<u8> {
    let rewriting = Rewriting::of(sheet, rule).expect("an accepted sheet");
    let mut text = rewriting.text().to_vec();
    loop {
        let fewer = pairs(&text).into_iter().map(|pair| without(&text, pair));
        let same = fewer
            .into_iter()
            .find(|fewer| rewriting.says_the_same(fewer));
        match same {
            Some(fewer) => text = fewer,
            None => return text,
        }
    }
}

#[test]
fn every_part_two_places_deep() {
    for (outer, _) in PLACES {
        for (inner, _) in PLACES {
            for part in PARTS {
                let inner = inner.replace('_', &format!("({part})"));
                let rule = outer.replace('_', &format!("({inner})"));
                let sheet = sheet(1, "a b c", &["a", &rule]);
                let text = String::from_utf8_lossy(&reduced(sheet.as_bytes(), 1)).to_string();
                assert_eq!(print_in(&sheet, 1), Ok(text), "{rule}");
            }
        }
    }
}

#[test]
fn rules_by_number() {
    let rules = ["(a)", "since(b,(a))", "until((a),b)", "(b)"];
    let sheet = sheet(64, "a b", &rules);
    let texts = ["a", "since(b,a)", "until(a,b)", "b"];
    for (rule, text) in texts.iter().enumerate() {
        assert_eq!(print_in(&sheet, rule as u64), Ok(text.to_string()));
    }
    for rule in [4, 5, 64, 1 << 8, 1 << 32, 1 << 63, u64::MAX] {
        assert_eq!(print_in(&sheet, rule), Err((17, 0)), "{rule}");
    }
    let none = super::sheet(64, "a b", &[]);
    assert_eq!(print_in(&none, 0), Err((17, 0)));
    assert_eq!(print_in(&none, u64::MAX), Err((17, 0)));
}

#[test]
fn as_deep_as_allowed() {
    let open = |count: usize| "(".repeat(count) + "a" + &")".repeat(count);
    assert_eq!(print(&open(32)), "a");
    assert_eq!(print(&("!".repeat(31) + &open(1))), "!".repeat(31) + "a");
    let needed = "a&(".repeat(32) + "b|c" + &")".repeat(32);
    assert_eq!(print(&needed), needed);
    let needed = "(".repeat(32) + "a=>b" + &")=>c".repeat(32);
    assert_eq!(print(&needed), needed);
}

#[test]
fn room_for_the_text() {
    let sheet = sheet(4, "a b", &["(a)&((b))"]);
    for room in [0, 1, 2, 3, 4, 9, 300] {
        let text = written(room, |out| print_rule(sheet.as_bytes(), 0, out));
        if room < 3 {
            assert_eq!(text, Err((20, 0)), "{room}");
        } else {
            assert_eq!(text, Ok("a&b".to_string()), "{room}");
        }
    }
}

#[test]
fn the_longest_texts() {
    // Each interval makes the text a byte longer; the rest is of the length that is missing.
    let rule = |intervals: usize, rest: usize| {
        let rest =
            if rest % 2 == 0 { "!a" } else { "a" }.to_string() + &"&a".repeat((rest - 1) / 2);
        "a@(9,11)&".repeat(intervals) + &rest
    };
    for (intervals, rest, as_written, as_printed) in [
        (0, 256, 256, 256),
        (1, 245, 254, 255),
        (1, 246, 255, 256),
        (1, 247, 256, 257),
        (2, 236, 254, 256),
        (3, 227, 254, 257),
        (25, 31, 256, 281),
    ] {
        let rule = rule(intervals, rest);
        let sheet = sheet(4, "a", &[&rule]);
        let text = printed(sheet.as_bytes(), 0).unwrap_or_default();
        assert_eq!((rule.len(), text.len()), (as_written, as_printed));
        let wanted = if as_printed > 256 {
            Err((20, 0))
        } else {
            Ok(text)
        };
        assert_eq!(print_in(&sheet, 0), wanted);
    }
}

#[test]
fn the_sheets_own_refusals() {
    let good = sheet(4, "a", &["a"]);
    let open = "(".repeat(33);
    let sheets = [
        "x".repeat(32_769),
        good.clone() + "x",
        sheet(4_097, "a", &["a"]),
        sheet(4, "a a", &["a"]),
        sheet(4, "a", &["a", "a&"]),
        sheet(4, "a", &["a", "a&b"]),
        sheet(4, "a", &["a", "a@(0,1)"]),
        sheet(4, "a", &["a", &open]),
        sheet(4, "a", &["since(a,a)"; 33]),
    ];
    for (number, sheet) in (1..).zip(&sheets) {
        let refusal = shown(check(sheet.as_bytes())).expect("a refused sheet");
        assert_eq!(refusal.0, number);
        for rule in [0, 1, u64::MAX] {
            assert_eq!(print_in(sheet, rule), Err(refusal), "{number}");
        }
    }
}

#[test]
fn the_order_of_refusals() {
    let refusal = |sheet: &str, rule| shown(print_rule(sheet.as_bytes(), rule, &mut []));
    assert_eq!(refusal("", 9), Some((2, 0)));
    assert_eq!(
        refusal(&sheet(4, "a", &["since(a,a)"; 33]), 33),
        Some((9, 0))
    );
    let long = "a@(9,11)&".repeat(28) + "a";
    let sheet = sheet(4, "a", &["a", &long]);
    assert_eq!(refusal(&sheet, 2), Some((17, 0)));
    assert_eq!(refusal(&sheet, 1), Some((20, 0)));
    assert_eq!(refusal(&sheet, 0), Some((20, 0)));
}

/// The accepted calls for the sheets of clumsy rules in the first cases.
fn accepted(cases: u64) -> Vec<Print> {
    let calls = (0..cases).flat_map(|number| calls(&mut Random::new(7, number), b""));
    let accepted = |call: &Print| printed(&call.sheet, call.rule).is_ok();
    calls.filter(accepted).collect()
}

#[test]
fn generated_rules_lose_their_needless_parentheses() {
    let calls = accepted(1_500);
    for Print { sheet, rule, .. } in &calls {
        let text = printed(sheet, *rule).unwrap_or_default().into_bytes();
        let rewriting = Rewriting::of(sheet, *rule).expect("an accepted sheet");
        let with_text = rewriting.sheet_with(&text);
        if text.len() > 256 {
            assert_eq!(shown(read(&with_text)).map(|(number, _)| number), Some(5));
            continue;
        }
        assert!(rewriting.says_the_same(&text));
        assert_eq!(reduced(&with_text, *rule), text);
        let as_written = reduced(sheet, *rule);
        assert_eq!(pairs(&as_written).len(), pairs(&text).len());
        let again = printed(&with_text, *rule).map(String::into_bytes);
        assert_eq!(again, Ok(text));
    }
    assert!(calls.len() > 1_000, "{}", calls.len());
}

/// What a formula is, by its sign or word.
fn kind(formula: &Formula, sheet: &Sheet) -> &'static str {
    match formula {
        Formula::Signal(_) => "name",
        Formula::Hidden(number) if sheet.hidden[*number].look < 0 => "since",
        Formula::Hidden(_) => "until",
        Formula::Not(_) => "!",
        Formula::Always(..) => "@",
        Formula::Once(..) => "?",
        Formula::And(..) => "&",
        Formula::Or(..) => "|",
        Formula::Implies(..) => "=>",
        Formula::Iff(..) => "<=>",
    }
}

/// Counts each part of a formula by what it is, what it stands in and on which side.
fn count(
    formula: &Formula,
    sheet: &Sheet,
    met: &mut BTreeMap<(&'static str, usize, &'static str), usize>,
) {
    let parts = match formula {
        Formula::Hidden(number) => {
            let hidden = &sheet.hidden[*number];
            vec![&hidden.a, &hidden.b]
        }
        _ => formula.parts(),
    };
    for (side, part) in parts.into_iter().enumerate() {
        let place = (kind(formula, sheet), side, kind(part, sheet));
        *met.entry(place).or_default() += 1;
        count(part, sheet, met);
    }
}

#[test]
fn every_part_is_met_in_every_place() {
    let mut met = BTreeMap::new();
    for Print { sheet, rule, .. } in accepted(3_000) {
        let sheet = read(&sheet).unwrap_or_else(|_| panic!("a refused sheet"));
        count(&sheet.rules[rule as usize].formula, &sheet, &mut met);
    }
    // Ten kinds of parts on both sides of six kinds of pairs, and in three kinds of other parts.
    assert_eq!(met.len(), 10 * (2 * 6 + 3));
    let rarest = met.iter().min_by_key(|(_, count)| **count);
    assert!(met.values().all(|&count| count > 5), "{rarest:?}");
}
