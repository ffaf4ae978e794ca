//! The listing of long windows, and the refusal of tables that are too large to be listed.

use super::{readings, sheet};
use crate::listing::listing;

const REFUSED: &str = "answer=29\nplace=0\n";

/// Names of 64 signals, parted by spaces.
fn all_names() -> String {
    let names: Vec<String> = (0..64).map(|number| format!("s{number}")).collect();
    names.join(" ")
}

fn listed(window: usize, rules: &[&str], readings: &str) -> String {
    listing(
        sheet(window, &all_names(), rules).as_bytes(),
        readings.as_bytes(),
    )
}

#[test]
fn the_largest_table_is_listed() {
    // 64 rows of 64 words for each value are 8,192 words.
    let text = listed(4_096, &["s0"], &readings(&[(4_095, "s63", 0)]));
    assert!(text.starts_with("answer=0\nrows=64\nfacts=4097\nclash=0\nsignal=s0\n"));
    let marks: Vec<&str> = text
        .lines()
        .filter_map(|line| line.strip_prefix("marks="))
        .collect();
    assert_eq!((marks.len(), marks[0]), (64, &*"1".repeat(4_096)));
    assert_eq!(marks[63], "?".repeat(4_095) + "0");
    assert!(text.len() > 263_000);
    let clash = listed(4_096, &[], &readings(&[(4_000, "s9", 0), (4_000, "s9", 1)]));
    assert!(clash.contains(&format!(
        "facts=2\nclash=1\nsignal=s0\nmarks={}\n",
        "x".repeat(4_096)
    )));
}

#[test]
fn a_larger_table_is_refused() {
    for (window, rules, wanted) in [
        (4_033, 1, REFUSED),
        (4_032, 1, "answer=0\nrows=65\n"),
        (4_032, 2, REFUSED),
        (2_048, 64, "answer=0\nrows=128\n"),
        (2_049, 64, REFUSED),
    ] {
        let text = listed(window, &vec!["!s0"; rules], "");
        assert!(
            text.starts_with(wanted),
            "{window} {rules}: {}",
            &text[..40.min(text.len())]
        );
    }
}

#[test]
fn the_order_of_29() {
    assert_eq!(listed(4_096, &["!s0"], "x"), REFUSED);
    assert_eq!(listed(4_096, &["!s0"], &"x".repeat(40_000)), REFUSED);
    assert_eq!(listed(4_096, &["s0"], "x"), "answer=11\nplace=0\n");
    assert_eq!(
        listed(4_096, &["since(s0,s0)"; 33], ""),
        "answer=9\nplace=0\n"
    );
    assert_eq!(listed(4_097, &["!s0"], ""), "answer=3\nplace=7\n");
    assert!(listed(4_096, &["!s0", "s0)"], "").starts_with("answer=5\n"));
}
