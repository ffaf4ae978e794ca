//! The generator: the same seed gives the same cases, and each limit is met from both sides.

use crate::generate::{case, Call, Case};
use crate::lower::lower;
use crate::operations::{add, check, read};
use crate::table::marks_of;
use crate::text::name::{End, Name};
use crate::text::readings::Form;
use crate::text::{sheet, LONGEST_TEXT};

#[test]
fn cases_are_reproducible() {
    for number in 0..50 {
        let (one, two) = (case(9, number), case(9, number));
        assert_eq!(
            (one.sheet, one.table, one.calls.len()),
            (two.sheet, two.table, two.calls.len())
        );
    }
    assert_ne!(case(1, 0).sheet, case(2, 0).sheet);
}

/// How often something was met in the first cases of a seed.
fn met(what: impl Fn(&Case) -> bool) -> usize {
    (0..4_000).filter(|&number| what(&case(5, number))).count()
}

#[test]
fn row_limit_is_met() {
    assert!(met(|case| check(&case.sheet) == Ok(1024)) > 5);
    let over = |case: &Case| matches!(check(&case.sheet), Err(refusal) if refusal.number == 9);
    assert!(met(over) > 20);
}

#[test]
fn hidden_limit_is_met() {
    let hidden = |case: &Case| sheet::read(&case.sheet).map_or(0, |sheet| sheet.hidden.len());
    let accepted = |case: &Case| sheet::read(&case.sheet).is_ok_and(|sheet| lower(&sheet).is_ok());
    assert!(met(|case| hidden(case) == 32 && accepted(case)) > 5);
    assert!(met(|case| hidden(case) == 33) > 5);
}

#[test]
fn windows_are_met() {
    let window = |case: &Case| sheet::read(&case.sheet).map_or(0, |sheet| sheet.window);
    for wanted in [1, 63, 64, 65, 127, 128, 129, 192, 4_095, 4_096] {
        assert!(met(|case| window(case) == wanted) > 5, "{wanted}");
    }
    assert!(met(|case| (65..=300).contains(&window(case))) > 200);
    assert!(met(|case| (301..=4_094).contains(&window(case))) > 10);
}

/// The names of an accepted sheet.
fn names(case: &Case) -> Vec<Name> {
    read(&case.sheet).map_or(vec![], |(sheet, _)| sheet.names)
}

#[test]
fn end_numbers_are_met() {
    let sheets: Vec<Vec<Name>> = (0..4_000).map(|number| names(&case(5, number))).collect();
    let met = |what: &dyn Fn(&[Name]) -> bool| sheets.iter().filter(|names| what(names)).count();
    let at_borders = [0, 1, 9, 10, 99, 100, 999, 1_000, 9_999].map(End::Number);
    for end in [&[End::NoNumber][..], &at_borders].concat() {
        let has_end = |names: &[Name]| names.iter().any(|name| name.end == end);
        assert!(met(&has_end) > 50, "{end:?}");
    }
    let longest = |names: &[Name]| names.iter().any(|name| name.to_string().len() == 16);
    assert!(met(&longest) > 50);
    // Names of which three or more differ in the end number alone.
    let same_before = |names: &[Name], one: &Name| {
        let same = names.iter().filter(|name| name.before == one.before);
        same.count() >= 3
    };
    assert!(met(&|names| names.iter().any(|one| same_before(names, one))) > 500);
}

#[test]
fn marks_outside_long_windows_are_met() {
    let refused = |case: &Case, number: u64, window: fn(usize) -> bool| {
        let Ok((sheet, rows)) = read(&case.sheet) else {
            return false;
        };
        let refusal = marks_of(&case.table, rows.nodes.len(), sheet.window).err();
        window(sheet.window) && refusal.map(|refusal| refusal.number) == Some(number)
    };
    for number in [15, 16] {
        assert!(met(|case| refused(case, number, |window| window <= 64)) > 20);
        assert!(met(|case| refused(case, number, |window| window > 64)) > 10);
    }
}

/// Whether an accepted sheet has a rule of which this holds.
fn some_rule(case: &Case, what: impl Fn(&[u8]) -> bool) -> bool {
    let lines = case.sheet.split(|&byte| byte == b'\n');
    let mut rules = lines.filter_map(|line| line.strip_prefix(b"rule="));
    check(&case.sheet).is_ok() && rules.any(what)
}

#[test]
fn rule_limits_are_met() {
    assert!(met(|case| some_rule(case, |rule| rule.len() == 256)) > 5);
    let open = |rule: &[u8]| rule.starts_with(&[b'('; 32]);
    assert!(met(|case| some_rule(case, open)) > 5);
    let wide = |rule: &[u8]| rule.windows(8).any(|part| part == b"[-63,63]");
    assert!(met(|case| some_rule(case, wide)) > 5);
}

#[test]
fn text_lengths_are_met() {
    for length in [LONGEST_TEXT, LONGEST_TEXT + 1] {
        assert!(met(|case| case.sheet.len() == length) > 5);
    }
    let longest = |case: &Case, form: Form| {
        case.calls.iter().any(|call| match call {
            Call::Add { readings, .. } if readings.len() == LONGEST_TEXT => {
                let added = add(&case.sheet, readings, &mut case.table.clone());
                Form::of(readings) == form && added.is_ok()
            }
            _ => false,
        })
    };
    for form in [Form::Readings, Form::Spans] {
        assert!(met(|case| longest(case, form)) > 3, "{form:?}");
    }
}
