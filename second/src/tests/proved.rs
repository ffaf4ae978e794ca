//! The document's proved cases P1 to P10.

use super::{readings, sheet};
use crate::listing::listing;

/// The listing after `answer=` and `rows=`, with each signal's two lines in one.
fn settled(sheet: &str, readings: &str) -> String {
    let text = listing(sheet.as_bytes(), readings.as_bytes());
    let lines: Vec<&str> = text.lines().collect();
    assert_eq!(lines[0], "answer=0");
    let rest = lines[2..].join(" ");
    rest.replace("signal=", "").replace("marks=", "")
}

#[test]
fn p1_in_both_orders() {
    let rules = ["clear2@[-3,0]=>go10", "go10=>open10@[2,2]"];
    let read = readings(&[
        (3, "clear2", 1),
        (4, "clear2", 1),
        (5, "clear2", 1),
        (6, "clear2", 1),
    ]);
    let wanted =
        "answer=0\nrows=15\nfacts=6\nclash=0\nsignal=clear2\nmarks=???1111???\nsignal=go10\n\
                  marks=??????1???\nsignal=open10\nmarks=????????1?\n";
    for rules in [[rules[0], rules[1]], [rules[1], rules[0]]] {
        let text = sheet(10, "clear2 go10 open10", &rules);
        assert_eq!(listing(text.as_bytes(), read.as_bytes()), wanted);
    }
}

#[test]
fn p2_not_binds_before_at() {
    assert_eq!(
        settled(&sheet(2, "a", &["!a@[0,1]"]), ""),
        "facts=2 clash=0 a 00"
    );
}

#[test]
fn p3_not_of_a_timed_part() {
    let read = readings(&[(0, "a", 1)]);
    assert_eq!(
        settled(&sheet(2, "a", &["!(a@[0,1])"]), &read),
        "facts=2 clash=0 a 10"
    );
}

#[test]
fn p4_outside_the_window_is_not_false() {
    let read = readings(&[(1, "a", 0)]);
    assert_eq!(
        settled(&sheet(2, "a", &["a?[0,1]"]), &read),
        "facts=2 clash=0 a 10"
    );
}

#[test]
fn p5_truth_goes_forward() {
    let read = readings(&[(0, "a", 1)]);
    assert_eq!(
        settled(&sheet(3, "a", &["a=>a@[1,1]"]), &read),
        "facts=3 clash=0 a 111"
    );
}

#[test]
fn p6_falseness_goes_back() {
    let read = readings(&[(2, "a", 0)]);
    assert_eq!(
        settled(&sheet(3, "a", &["a=>a@[1,1]"]), &read),
        "facts=3 clash=0 a 000"
    );
}

#[test]
fn p7_no_search_through_cases() {
    assert_eq!(
        settled(&sheet(1, "a b", &["a|b", "a|!b"]), ""),
        "facts=0 clash=0 a ? b ?"
    );
}

#[test]
fn p8_no_history_and_no_clash() {
    let rules = ["a|b", "a|!b", "!a|b", "!a|!b"];
    assert_eq!(
        settled(&sheet(1, "a b", &rules), ""),
        "facts=0 clash=0 a ? b ?"
    );
}

#[test]
fn p9_a_clash_counts_two() {
    let read = readings(&[(0, "a", 1), (0, "a", 0)]);
    assert_eq!(settled(&sheet(1, "a", &[]), &read), "facts=2 clash=1 a x");
}

#[test]
fn p10_since() {
    let all = [
        (1, "a", 1),
        (2, "a", 0),
        (3, "a", 0),
        (2, "b", 1),
        (3, "b", 0),
    ];
    let listed = settled(&sheet(4, "a b c", &["c<=>since(a,b)"]), &readings(&all));
    assert_eq!(listed, "facts=7 clash=0 a ?100 b ??10 c ??11");
}
