//! The lowering, row by row, on formulas small enough to lower by hand.

use super::sheet;
use crate::lower::Node::{And, Look, Not, Or, Signal};
use crate::lower::{lower, Node, Rows};
use crate::text::sheet::read;

fn rows(names: &str, rules: &[&str]) -> Rows {
    let Ok(sheet) = read(sheet(4, names, rules).as_bytes()) else {
        panic!("the sheet is refused");
    };
    lower(&sheet).expect("few rows")
}

/// The nodes after the signals.
fn nodes(names: &str, rule: &str) -> Vec<Node> {
    rows(names, &[rule])
        .nodes
        .into_iter()
        .skip_while(|node| *node == Signal)
        .collect()
}

#[test]
fn and_or_not_group_from_the_left() {
    assert_eq!(nodes("a b c", "a|b|c"), [Or(0, 1), Or(3, 2)]);
    assert_eq!(nodes("a b c", "a|b&c"), [And(1, 2), Or(0, 3)]);
    assert_eq!(nodes("a b", "!(a&!b)"), [Not(0), Or(2, 1)]);
    assert_eq!(nodes("a", "!!a"), []);
    assert_eq!(nodes("a b", "!(a=>b)"), [Not(1), And(0, 2)]);
}

#[test]
fn equivalence_in_both_senses() {
    let wanted = [Not(0), Or(2, 1), Not(1), Or(4, 0), And(3, 5)];
    assert_eq!(nodes("a b", "a<=>b"), wanted);
    let wanted = [Not(1), And(0, 2), Not(0), And(1, 4), Or(3, 5)];
    assert_eq!(nodes("a b", "!(a<=>b)"), wanted);
}

#[test]
fn looks_come_before_joins() {
    let wanted = [Look(0, -1), Look(0, 0), Look(0, 1), And(1, 2), And(4, 3)];
    assert_eq!(nodes("a", "a@[-1,1]"), wanted);
    let wanted = [Not(0), Look(1, 1), Look(1, 2), And(2, 3)];
    assert_eq!(nodes("a", "!(a?(0,2])"), wanted);
    assert_eq!(
        nodes("a", "!a?(0,2]"),
        [Not(0), Look(1, 1), Look(1, 2), Or(2, 3)]
    );
    assert_eq!(nodes("a", "a@[1,1]?[-2,-2]"), [Look(0, 1), Look(1, -2)]);
}

#[test]
fn a_defining_rule_follows_its_rule() {
    let lowered = rows("a b", &["!since(a,b)", "a"]);
    // Rows: 0 a, 1 b, 2 x, 3 not x (the rule), then x <=> (a | (b & x))@[-1,-1].
    let truly = [Not(2), And(1, 2), Or(0, 5), Look(6, -1), Or(4, 7)];
    let falsely = [
        Not(0),
        Not(1),
        Not(2),
        Or(10, 11),
        And(9, 12),
        Look(13, -1),
        Or(14, 2),
        And(8, 15),
    ];
    let wanted = [&[Signal, Signal, Signal, Not(2)], &truly[..], &falsely].concat();
    assert_eq!(lowered.nodes, wanted);
    assert_eq!(lowered.tops, [3, 16, 0]);
}

#[test]
fn hidden_signals_outer_before_inner() {
    let lowered = rows("a b", &["since(until(a,b),a)", "until(b,a)"]);
    assert_eq!(&lowered.nodes[..5], [Signal; 5]);
    // A defining rule adds 13 rows; the first four are not x, B & x, A or that, and the look.
    let defined = |first: usize| &lowered.nodes[first..first + 4];
    assert_eq!(defined(5), [Not(2), And(0, 2), Or(3, 6), Look(7, -1)]);
    assert_eq!(defined(18), [Not(3), And(1, 3), Or(0, 19), Look(20, 1)]);
    assert_eq!(defined(31), [Not(4), And(0, 4), Or(1, 32), Look(33, 1)]);
    assert_eq!((lowered.tops[0], lowered.tops[3]), (2, 4));
}
