//! Readings as spans: what is read, what is refused and where, and that add takes either form.

use super::{readings, sheet, shown, spans};
use crate::operations::{add, Added};
use crate::table::length;

/// The refusal of a text to a sheet of window 12 and signals a and b.
fn read(text: &str) -> Option<(u64, u64)> {
    let mut table = [0; 4];
    let sheet = sheet(12, "a b", &[]);
    let refusal = shown(add(sheet.as_bytes(), text.as_bytes(), &mut table));
    assert!(refusal.is_none() || table == [0; 4]);
    refusal
}

#[test]
fn lines_of_a_span() {
    let cases = [
        ("from=0", (11, 0)),
        ("from=\n", (11, 0)),
        ("from=00\n", (11, 0)),
        ("from=100000\n", (11, 0)),
        ("from=12\n", (13, 5)),
        ("from=12", (11, 0)),
        ("from=99999\nx", (13, 5)),
        ("from=0\n", (11, 7)),
        ("from=0\nto=0", (11, 7)),
        ("from=0\nto=\n", (11, 7)),
        ("from=5\nto=04\n", (11, 7)),
        ("from=0\nto=12\n", (13, 10)),
        ("from=5\nto=4\n", (21, 10)),
        ("from=5\nto=4", (11, 7)),
        ("from=11\nto=0\nsignal=c\n", (21, 11)),
        ("from=11\nto=10\nx", (21, 11)),
        ("from=5\nto=5\n", (11, 12)),
        ("from=5\nto=5\nvalue=1\n", (11, 12)),
        ("from=5\nto=5\nsignal=c\n", (12, 19)),
        ("from=5\nto=5\nsignal=\n", (12, 19)),
        ("from=5\nto=5\nsignal=a", (11, 12)),
        ("from=5\nto=5\nsignal=a\n", (11, 21)),
        ("from=5\nto=5\nsignal=a\nvalue=2\n", (14, 27)),
        ("from=5\nto=5\nsignal=a\nvalue=01\n", (11, 21)),
        ("from=5\nto=5\nsignal=a\nvalue=1", (11, 21)),
        ("from=5\nto=5\nsignal=a\nvalue=1\n\n", (11, 29)),
        ("from=5\nto=5\nsignal=a\nvalue=1\nfrom=5\n", (11, 36)),
        ("from=5\nto=5\nsignal=a\nvalue=1\nfrom=5\nto=3\n", (21, 39)),
        ("from=12\nto=3\nsignal=c\nvalue=7\n", (13, 5)),
        ("from=5\nto=13\nsignal=c\nvalue=7\n", (13, 10)),
    ];
    for (text, refusal) in cases {
        assert_eq!(read(text), Some(refusal), "{text:?}");
    }
}

#[test]
fn the_first_key_tells_the_form() {
    let (span, reading) = (spans(&[(5, 5, "a", 1)]), readings(&[(5, "a", 1)]));
    assert_eq!(read(""), None);
    assert_eq!(read(&span), None);
    assert_eq!(read(&reading), None);
    assert_eq!(read(&(span.clone() + &reading)), Some((11, 29)));
    assert_eq!(read(&(reading.clone() + &span)), Some((11, 22)));
    assert_eq!(read("from=5\nat=5\n"), Some((11, 7)));
    assert_eq!(read("at=5\nto=5\n"), Some((11, 5)));
    for first in [
        "to=5\n",
        "signal=a\n",
        "from",
        "From=5\n",
        " from=5\n",
        "\n",
        "a",
    ] {
        assert_eq!(
            read(&(first.to_string() + &span)),
            Some((11, 0)),
            "{first:?}"
        );
    }
}

#[test]
fn lengths_of_span_texts() {
    // 1,129 spans of 29 bytes, 27 of them with a byte more.
    let one = spans(&[(0, 0, "a", 1)]);
    let text = one.repeat(1_129 - 27) + &spans(&[(0, 10, "a", 1)]).repeat(27);
    assert_eq!((text.len(), read(&text)), (32_768, None));
    assert_eq!(read(&(text + "x")), Some((10, 0)));
    assert_eq!(read(&"from=".repeat(6_553)), Some((11, 0)));
    assert_eq!(read(&"from=".repeat(6_554)), Some((10, 0)));
}

#[test]
fn add_takes_every_tick_of_a_span() {
    for window in [1, 2, 63, 64, 65, 128, 200, 4_096] {
        let sheet = sheet(window, "a b", &["a=>b@[1,1]"]);
        for (first, last) in [
            (0, window - 1),
            (0, 0),
            (window - 1, window - 1),
            (window / 2, window - 1),
        ] {
            let single: Vec<_> = (first..=last).map(|tick| (tick, "a", 1)).collect();
            let marks = |text: &str| {
                let mut table = vec![0; length(5, window)];
                (add(sheet.as_bytes(), text.as_bytes(), &mut table), table)
            };
            let spanned = marks(&spans(&[(first, last, "a", 1)]));
            // The longest are over the limit of a text as single readings.
            if single.len() < 1_000 {
                assert_eq!(
                    spanned,
                    marks(&readings(&single)),
                    "{first} to {last} of {window}"
                );
            }
            let b = (last + 1).min(window - 1) - first;
            let wanted = Added {
                new_facts: (last + 1 - first + b) as u64,
                clash: 0,
            };
            assert_eq!(spanned.0, Ok(wanted), "{first} to {last} of {window}");
        }
    }
}

#[test]
fn both_forms_on_one_table() {
    let sheet = sheet(70, "a", &[]);
    let whole = spans(&[(3, 66, "a", 1), (60, 69, "a", 0)]);
    let mut one = [0; 4];
    let added = add(sheet.as_bytes(), whole.as_bytes(), &mut one);
    assert_eq!(
        added.map(|added| (added.new_facts, added.clash)),
        Ok((74, 1))
    );
    let mut two = [0; 4];
    let mut facts = 0;
    for part in [
        spans(&[(3, 65, "a", 1)]),
        readings(&[(66, "a", 1), (60, "a", 0), (3, "a", 1)]),
        spans(&[(60, 69, "a", 0)]),
    ] {
        let added = add(sheet.as_bytes(), part.as_bytes(), &mut two);
        facts += added.map_or(0, |added| added.new_facts);
    }
    assert_eq!((two, facts), (one, 74));
}
