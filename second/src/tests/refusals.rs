//! The document's table of refusals: number, place and order.

use super::{readings, sheet, shown};
use crate::operations::{add, ask, check};

fn checked(sheet: &str) -> Option<(u64, u64)> {
    shown(check(sheet.as_bytes()))
}

/// The refusal of one rule over the signals a and b, its place counted from the rule's first byte.
fn rule(rule: &str) -> Option<(u64, i64)> {
    let text = sheet(4, "a b", &[rule]);
    let start = text.len() - rule.len() - 1;
    checked(&text).map(|(number, place)| (number, place as i64 - start as i64))
}

/// The refusal of readings to a sheet of window 4 and signals a and b.
fn read(readings: &str) -> Option<(u64, u64)> {
    let mut table = [0; 4];
    let refusal = shown(add(
        sheet(4, "a b", &[]).as_bytes(),
        readings.as_bytes(),
        &mut table,
    ));
    assert!(refusal.is_none() || table == [0; 4]);
    refusal
}

#[test]
fn sheet_length() {
    let text = sheet(4, "a", &[]);
    let padded = |length: usize| text.clone() + &"x".repeat(length - text.len());
    assert_eq!(checked(&padded(32_769)), Some((1, 0)));
    assert_eq!(checked(&padded(32_768)), Some((2, text.len() as u64)));
}

#[test]
fn sheet_lines() {
    let text = sheet(4, "a b", &["a", "b"]);
    assert_eq!(checked(&text), None);
    assert_eq!(checked(""), Some((2, 0)));
    assert_eq!(checked("window=4"), Some((2, 0)));
    assert_eq!(checked("window=4\n"), Some((2, 9)));
    assert_eq!(checked("window=4\nsignal=a\n"), Some((2, 9)));
    assert_eq!(checked("window=4\r\n"), Some((2, 0)));
    for number in ["", "00", "01", "123456", "-1", "a", "1 "] {
        assert_eq!(
            checked(&text.replace("=4", &format!("={number}"))),
            Some((2, 0)),
            "{number}"
        );
    }
    let length = text.len() as u64;
    assert_eq!(checked(&text[..text.len() - 1]), Some((2, length - 7)));
    assert_eq!(checked(&text[..text.len() - 7]), Some((2, length - 7)));
    assert_eq!(checked(&(text.clone() + "\n")), Some((2, length)));
    assert_eq!(
        checked(&text.replace("signals=2", "signals=1")),
        Some((2, 28))
    );
    assert_eq!(
        checked(&text.replace("signals=2", "signals=3")),
        Some((2, 37))
    );
}

#[test]
fn ranges() {
    let text = sheet(4, "a", &[]);
    for (window, refusal) in [
        ("0", Some((3, 7))),
        ("4097", Some((3, 7))),
        ("5000", Some((3, 7))),
        ("99999", Some((3, 7))),
        ("04096", Some((2, 0))),
        ("1", None),
        ("64", None),
        ("65", None),
        ("4096", None),
    ] {
        assert_eq!(
            checked(&text.replace("=4", &format!("={window}"))),
            refusal,
            "{window}"
        );
    }
    assert_eq!(
        checked(&text.replace("signals=1", "signals=0")),
        Some((3, 17))
    );
    assert_eq!(
        checked(&text.replace("signals=1", "signals=65")),
        Some((3, 17))
    );
    assert_eq!(checked(&text.replace("rules=0", "rules=65")), Some((3, 34)));
    assert_eq!(checked(&sheet(4, "a", &["a"; 64])), None);
}

#[test]
fn names() {
    for name in ["A", "1a", "a_", "since", "until", "abcdefghijklmnopq"] {
        assert_eq!(checked(&sheet(4, name, &[])), Some((4, 26)), "{name}");
    }
    assert_eq!(
        checked("window=4\nsignals=1\nsignal=\nrules=0\n"),
        Some((4, 26))
    );
    assert_eq!(checked("window=4\nsignals=1\nsignal="), Some((2, 19)));
    assert_eq!(checked(&sheet(4, "a a", &[])), Some((4, 35)));
    assert_eq!(checked(&sheet(4, "abcdefghijklmnop since1", &[])), None);
}

#[test]
fn rule_length() {
    assert_eq!(rule(""), Some((5, 0)));
    assert_eq!(rule(&("!a".to_string() + &"&a".repeat(127))), None);
    assert_eq!(rule(&("a".to_string() + &"&a".repeat(128))), Some((5, 0)));
    assert_eq!(rule(&"a".repeat(257)), Some((5, 0)));
    assert_eq!(rule(&"a".repeat(256)), Some((6, 0)));
}

/// Rules that stop short.
const SHORT: [&str; 12] = [
    "a&",
    "!",
    "(a",
    "since",
    "since(",
    "since(a",
    "since(a,",
    "since(a,b",
    "a@",
    "a@[0,1",
    "a@[",
    "a=>",
];

/// Rules that do not fit, and the first byte of the token that cannot follow.
const UNFIT: [(&str, i64); 32] = [
    ("a=>b=>a", 4),
    ("a<=>b<=>a", 5),
    ("a b", 1),
    ("a)", 1),
    ("a=b", 1),
    ("a<b", 1),
    ("a<=b", 1),
    ("a(b)", 1),
    ("since=>a", 5),
    ("since(a)", 7),
    ("since(a,b,a)", 9),
    ("(a,b)", 2),
    ("a@0", 2),
    ("a@[-0,1]", 3),
    ("a@[00,1]", 4),
    ("a@[12345,1]", 7),
    ("a@[-,1]", 3),
    ("a@[a,1]", 3),
    ("1", 0),
    ("A", 0),
    ("a\r", 1),
    ("a@[0,1]b", 7),
    ("&a", 0),
    ("a!b", 1),
    ("a[0,1]", 1),
    ("since@[0,0]", 5),
    ("a@[--1,1]", 3),
    ("a@[0,1}", 6),
    ("a@[64,x]", 6),
    ("a@[64,0", 7),
    ("!&", 1),
    ("a\u{e9}", 1),
];

#[test]
fn formulas_that_do_not_fit() {
    for text in SHORT {
        assert_eq!(rule(text), Some((5, text.len() as i64)), "{text}");
    }
    for (text, place) in UNFIT {
        assert_eq!(rule(text), Some((5, place)), "{text}");
    }
}

#[test]
fn formulas_that_fit() {
    let fit = [
        "a=>b<=>b=>a",
        "a@[0,0]?(-1,1)@[1,1]",
        "(a<=>b)<=>a",
        "since(a<=>b,a=>b)",
        "!since(a,b)",
    ];
    for text in fit {
        assert_eq!(rule(text), None, "{text}");
    }
}

#[test]
fn names_not_declared() {
    let cases = [
        ("c", 0),
        ("a&ab", 2),
        ("sinc(a,b)", 0),
        ("since1(a,b)", 0),
        ("c)", 0),
        ("!(b|zz)&", 4),
    ];
    for (text, place) in cases {
        assert_eq!(rule(text), Some((6, place)), "{text}");
    }
}

#[test]
fn interval_limits() {
    for interval in [
        "[-63,63]", "(-1,1)", "(-63,63)", "[63,63]", "(62,63]", "[0,0]",
    ] {
        assert_eq!(rule(&format!("a@{interval}")), None, "{interval}");
        assert_eq!(rule(&format!("b?{interval}")), None, "{interval}");
    }
    for interval in [
        "(0,1)",
        "[0,64]",
        "[-64,0]",
        "(-64,64)",
        "(63,63]",
        "[1,0]",
        "[9999,-9999]",
        "(0,0)",
    ] {
        assert_eq!(rule(&format!("a@{interval}")), Some((7, 2)), "{interval}");
        assert_eq!(rule(&format!("!b?{interval}]")), Some((7, 3)), "{interval}");
    }
}

#[test]
fn open_signs() {
    let opened =
        |sign: &str, count: usize, close: &str| sign.repeat(count) + "a" + &close.repeat(count);
    assert_eq!(rule(&opened("(", 32, ")")), None);
    assert_eq!(rule(&opened("(", 33, ")")), Some((8, 32)));
    assert_eq!(rule(&opened("!", 32, "")), None);
    assert_eq!(rule(&opened("!", 33, "")), Some((8, 32)));
    assert_eq!(
        rule(&("(".repeat(31) + "since(a,b)" + &")".repeat(31))),
        None
    );
    assert_eq!(rule(&("!".repeat(32) + "since(a,b)")), Some((8, 37)));
    assert_eq!(rule(&("!".repeat(32) + "since)")), Some((5, 37)));
    assert_eq!(rule(&("(".repeat(32) + "a(")), Some((5, 33)));
    assert_eq!(rule(&("!".repeat(32) + "a@(-1,1)")), None);
    assert_eq!(rule(&("!".repeat(32) + "a&" + &"!".repeat(32) + "a")), None);
    assert_eq!(rule(&"(".repeat(33)), Some((8, 32)));
}

#[test]
fn rows_and_hidden_signals() {
    // 253 rows each; with the 2 signals 1,014 rows, and then 10 or 11 more.
    let wide = ["a@[-63,63]"; 4];
    let with = |more: usize| checked(&sheet(4, "a b", &[&wide[..], &vec!["!a"; more]].concat()));
    assert_eq!(with(10), None);
    assert_eq!(with(11), Some((9, 0)));
    assert_eq!(checked(&sheet(4, "a", &["since(a,a)"; 32])), None);
    assert_eq!(checked(&sheet(4, "a", &["since(a,a)"; 33])), Some((9, 0)));
    let late = sheet(4, "a", &["since(a,a)"; 33]) + "x";
    assert_eq!(checked(&late), Some((2, late.len() as u64 - 1)));
    let deep = "a<=>(".repeat(20) + "a" + &")".repeat(20);
    assert_eq!(checked(&sheet(4, "a", &[&deep])), Some((9, 0)));
}

#[test]
fn readings_texts() {
    let one = readings(&[(3, "a", 1)]);
    assert_eq!(read(""), None);
    assert_eq!(read(&one.repeat(32_768 / one.len())), None);
    assert_eq!(read(&"x".repeat(32_768)), Some((11, 0)));
    assert_eq!(read(&"x".repeat(32_769)), Some((10, 0)));
    let cases = [
        ("at=0", (11, 0)),
        ("at=0\n", (11, 5)),
        ("at=00\n", (11, 0)),
        ("at=\n", (11, 0)),
        ("\n", (11, 0)),
        ("signal=a\n", (11, 0)),
        ("at=4\n", (13, 3)),
        ("at=99999\nx", (13, 3)),
        ("at=100000\n", (11, 0)),
        ("at=0\nsignal=c\n", (12, 12)),
        ("at=0\nsignal=\n", (12, 12)),
        ("at=0\nsignal=A b\n", (12, 12)),
        ("at=0\nsignal=a", (11, 5)),
        ("at=0\nsignal=a\n", (11, 14)),
        ("at=0\nsignal=a\nvalue=2\n", (14, 20)),
        ("at=0\nsignal=a\nvalue=01\n", (11, 14)),
        ("at=0\nsignal=a\nvalue=99999\n", (14, 20)),
        ("at=0\nsignal=a\nvalue=\n", (11, 14)),
        ("at=0\nsignal=a\nvalue=1", (11, 14)),
        ("at=0\nsignal=a\nvalue=1\nat", (11, 22)),
        ("at=9\nsignal=c\nvalue=7\n", (13, 3)),
    ];
    for (text, refusal) in cases {
        assert_eq!(read(text), Some(refusal), "{text:?}");
    }
}

#[test]
fn tables_and_asks() {
    let text = sheet(4, "a b", &["!a"]);
    let text = text.as_bytes();
    let asked = |table: &[u64], signal, tick| shown(ask(text, table, signal, tick));
    assert_eq!(asked(&[0; 6], 1, 3), None);
    assert_eq!(asked(&[0; 5], 9, 9), Some((15, 0)));
    assert_eq!(asked(&[16; 7], 0, 0), Some((15, 0)));
    assert_eq!(asked(&[0, 0, 0, 0, 0, 16], 9, 0), Some((16, 0)));
    assert_eq!(asked(&[15; 6], 2, 0), Some((17, 0)));
    assert_eq!(asked(&[15; 6], 0, 4), Some((17, 0)));
    assert_eq!(asked(&[0; 6], u64::MAX, u64::MAX), Some((17, 0)));
    let added = |table: &mut [u64]| shown(add(text, &[b'x'; 40_000], table));
    assert_eq!(added(&mut [0; 4]), Some((15, 0)));
    assert_eq!(added(&mut [1 << 63; 6]), Some((16, 0)));
    assert_eq!(added(&mut [0; 6]), Some((10, 0)));
    assert_eq!(shown(add(b"", b"", &mut [])), Some((2, 0)));
}

#[test]
fn asks_read_the_table_as_lent() {
    let text = sheet(4, "a b", &["!a"]);
    let asked = |table: &[u64], tick| ask(text.as_bytes(), table, 0, tick);
    assert_eq!(asked(&[0; 6], 0), Ok(0));
    assert_eq!(asked(&[2, 4, 0, 0, 0, 0], 1), Ok(1));
    assert_eq!(asked(&[2, 4, 0, 0, 0, 0], 2), Ok(2));
    assert_eq!(asked(&[2, 4, 0, 0, 8, 8], 0), Ok(3));
    let mut table = [0; 6];
    let added = add(text.as_bytes(), b"", &mut table).map(|added| (added.new_facts, added.clash));
    assert_eq!((added, table), (Ok((4, 0)), [0, 15, 0, 0, 15, 0]));
}
