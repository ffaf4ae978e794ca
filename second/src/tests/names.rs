//! Names: the number at their end, what is refused of it, and the order in which they are listed.

use super::{readings, sheet, shown};
use crate::listing::listing;
use crate::operations::{add, ask, check};
use crate::text::name::{read, End, NoName};

/// Names, the bytes before their end number, and that number.
const NAMES: [(&str, &str, End); 22] = [
    ("a", "a", End::NoNumber),
    ("a0", "a", End::Number(0)),
    ("a1", "a", End::Number(1)),
    ("a10", "a", End::Number(10)),
    ("a100", "a", End::Number(100)),
    ("a1000", "a", End::Number(1_000)),
    ("a9999", "a", End::Number(9_999)),
    ("a1b", "a1b", End::NoNumber),
    ("a02b", "a02b", End::NoNumber),
    ("a02b3", "a02b", End::Number(3)),
    ("a0b0", "a0b", End::Number(0)),
    ("a10000b", "a10000b", End::NoNumber),
    ("x1y2", "x1y", End::Number(2)),
    ("x01y2", "x01y", End::Number(2)),
    ("aisle", "aisle", End::NoNumber),
    ("aisle2", "aisle", End::Number(2)),
    ("since0", "since", End::Number(0)),
    ("until9", "until", End::Number(9)),
    ("sinceuntil", "sinceuntil", End::NoNumber),
    ("abcdefghijklmnop", "abcdefghijklmnop", End::NoNumber),
    ("abcdefghijkl9999", "abcdefghijkl", End::Number(9_999)),
    ("a0000000000000b7", "a0000000000000b", End::Number(7)),
];

/// Bytes that are a name but for the number at their end.
const MISNUMBERED: [(&str, NoName); 14] = [
    ("a00", NoName::LeadingZero),
    ("a01", NoName::LeadingZero),
    ("a010", NoName::LeadingZero),
    ("a000", NoName::LeadingZero),
    ("aisle02", NoName::LeadingZero),
    ("x1y02", NoName::LeadingZero),
    ("since00", NoName::LeadingZero),
    ("a00000000000000", NoName::LeadingZero),
    ("a10000", NoName::TooLarge),
    ("a10002", NoName::TooLarge),
    ("a65538", NoName::TooLarge),
    ("a99999", NoName::TooLarge),
    ("a100000", NoName::TooLarge),
    ("a999999999999999", NoName::TooLarge),
];

#[test]
fn the_reader_answers_the_end_number() {
    for (text, before, end) in NAMES {
        let name = read(text.as_bytes()).expect(text);
        assert_eq!((&name.before[..], name.end), (before.as_bytes(), end));
        assert_eq!(name.to_string(), text);
    }
}

#[test]
fn what_is_no_name() {
    for (text, why) in MISNUMBERED {
        assert_eq!(read(text.as_bytes()), Err(why), "{text}");
    }
    let ill_formed = ["", "2", "02", "A", "2a", "a 2", "a-2", "a2 ", "a\u{663}"];
    let too_long = ["abcdefghijklm9999", "abcdefghijklmno01"];
    for text in [&ill_formed[..], &too_long, &["since", "until"]].concat() {
        assert_eq!(read(text.as_bytes()), Err(NoName::Form), "{text}");
    }
}

#[test]
fn end_numbers_in_sheets_and_readings() {
    for (name, ..) in NAMES {
        let text = sheet(1, name, &[name]);
        let added = add(
            text.as_bytes(),
            readings(&[(0, name, 1)]).as_bytes(),
            &mut [0; 2],
        );
        assert_eq!(shown(added), None, "{name}");
    }
    for (name, _) in MISNUMBERED {
        let refused = shown(check(sheet(4, name, &[]).as_bytes()));
        assert_eq!(refused, Some((4, 26)), "{name}");
        let refused = shown(check(
            sheet(4, "a2 a1", &[&format!("a2&{name}")]).as_bytes(),
        ));
        assert_eq!(refused, Some((6, 55)), "{name}");
        let text = sheet(4, "a2", &[]);
        let added = add(
            text.as_bytes(),
            readings(&[(0, name, 1)]).as_bytes(),
            &mut [0; 2],
        );
        assert_eq!(shown(added), Some((12, 12)), "{name}");
    }
}

#[test]
fn end_numbers_in_the_order_of_refusals() {
    let refused = |text: &str| shown(check(text.as_bytes()));
    assert_eq!(refused("window=4\nsignals=1\nsignal=a02"), Some((2, 19)));
    assert_eq!(refused("window=4\nsignals=2\nsignal=a02\n"), Some((4, 26)));
    assert_eq!(refused(&sheet(4, "a2 a02 a10000", &["("])), Some((4, 36)));
    assert_eq!(refused(&sheet(4, "a2", &["a02)"])), Some((6, 42)));
    assert_eq!(refused(&sheet(4, "a2", &["a2)&a02"])), Some((5, 44)));
    let text = sheet(4, "a2", &[]);
    let refused = |read: &str| shown(add(text.as_bytes(), read.as_bytes(), &mut [0; 2]));
    assert_eq!(refused("at=4\nsignal=a02\n"), Some((13, 3)));
    assert_eq!(refused("at=0\nsignal=a02"), Some((11, 5)));
    assert_eq!(refused("at=0\nsignal=a02\nvalue=2\n"), Some((12, 12)));
}

/// Names in the order in which they are listed.
const IN_ORDER: [&str; 24] = [
    "a", "a0", "a2", "a9", "a10", "a99", "a100", "a9999", "a02b", "a1b", "a1b0", "a1b11", "a1ba",
    "aa", "aisle", "aisle2", "aisle10", "aisle1b", "aislea", "b", "x2", "x1y2", "x1y10", "x1ya1",
];

#[test]
fn the_order_of_names() {
    let names = IN_ORDER.map(|text| read(text.as_bytes()).expect(text));
    for (place, one) in names.iter().enumerate() {
        for (other_place, other) in names.iter().enumerate() {
            assert_eq!(one.cmp(other), place.cmp(&other_place), "{one} and {other}");
        }
    }
}

/// The listing's lines `signal=` and `marks=`, a pair in one word.
fn pairs(sheet: &str, readings: &str) -> String {
    let text = listing(sheet.as_bytes(), readings.as_bytes());
    let (_, pairs) = text.split_once("\nsignal=").expect("a signal");
    pairs
        .trim_end()
        .replace("\nmarks=", ":")
        .replace("\nsignal=", " ")
}

#[test]
fn marks_go_with_their_signals() {
    let names = "aisle10 b aisle2 aisle1b aisle";
    let text = sheet(2, names, &["aisle10=>!aisle2", "aisle2|aisle1b"]);
    let read = readings(&[(1, "aisle10", 1), (0, "b", 0)]);
    let wanted = "aisle:?? aisle2:?0 aisle10:?1 aisle1b:?1 b:0?";
    assert_eq!(pairs(&text, &read), wanted);
    // Rows keep the sheet's numbers.
    let mut table = vec![0; 2 * check(text.as_bytes()).expect("accepted") as usize];
    assert_eq!(
        shown(add(text.as_bytes(), read.as_bytes(), &mut table)),
        None
    );
    assert_eq!(table[..10], [2, 0, 0, 1, 0, 2, 2, 0, 0, 0]);
    for (signal, value) in [1, 0, 2, 1, 0].into_iter().enumerate() {
        let asked = ask(text.as_bytes(), &table, signal as u64, 1);
        assert_eq!(asked, Ok(value), "{signal}");
    }
}

#[test]
fn listings_are_in_order_from_any_sheet_order() {
    let wanted = IN_ORDER.map(|name| format!("{name}:?")).join(" ");
    for turned in 0..IN_ORDER.len() {
        let mut names = IN_ORDER;
        names.rotate_left(turned);
        assert_eq!(pairs(&sheet(1, &names.join(" "), &[]), ""), wanted);
        names.reverse();
        assert_eq!(pairs(&sheet(1, &names.join(" "), &[]), ""), wanted);
    }
}
