//! The moves between single readings and spans: what each writes, the room that it needs, and the way there and back.

mod common {
    pub mod numbers;
}

use common::numbers::numbers_from;
use mikhakun::{add, to_readings, to_readings_into, to_spans, to_spans_into, Refusal, Table, LONGEST_TEXT};

type Move = fn(&[u8], &[u8]) -> Result<Vec<u8>, Refusal>;
type MoveInto = fn(&[u8], &[u8], &mut [u8]) -> Result<usize, Refusal>;
const MOVES: [(Move, MoveInto); 2] = [(to_spans, to_spans_into), (to_readings, to_readings_into)];

/// A sheet without rules whose signals are z and a, in this order.
fn sheet(window: usize) -> Vec<u8> {
    format!("window={window}\nsignals=2\nsignal=z\nsignal=a\nrules=0\n").into_bytes()
}

/// A signal's value at every tick from the first to the last.
type Span<'a> = (usize, usize, &'a str, u8);

fn spans(of: &[Span]) -> Vec<u8> {
    let text = |(first, last, name, value): &Span| format!("from={first}\nto={last}\nsignal={name}\nvalue={value}\n");
    of.iter().map(text).collect::<String>().into_bytes()
}

/// Their readings one by one, as they come.
fn singles(of: &[Span]) -> Vec<u8> {
    let text = |&(first, last, name, value): &Span| -> String {
        (first..=last).map(|tick| format!("at={tick}\nsignal={name}\nvalue={value}\n")).collect()
    };
    of.iter().map(text).collect::<String>().into_bytes()
}

/// What a text says: the table of a sheet without rules.
fn said(sheet: &[u8], text: &[u8]) -> Table {
    let mut table = Table::for_sheet(sheet).unwrap();
    add(sheet, text, &mut table).unwrap();
    table
}

/// Readings, and what they are as spans.
const CASES: &[(&[Span], &[Span])] = &[
    (&[], &[]),
    (&[(5, 5, "a", 1)], &[(5, 5, "a", 1)]),
    (&[(0, 99, "a", 0)], &[(0, 99, "a", 0)]),
    // Equal, inside one another, overlapping, touching; and one tick apart.
    (&[(3, 7, "a", 1), (3, 7, "a", 1)], &[(3, 7, "a", 1)]),
    (&[(3, 9, "a", 1), (5, 6, "a", 1)], &[(3, 9, "a", 1)]),
    (&[(3, 7, "a", 1), (5, 9, "a", 1)], &[(3, 9, "a", 1)]),
    (&[(8, 9, "a", 1), (3, 7, "a", 1)], &[(3, 9, "a", 1)]),
    (&[(9, 9, "a", 1), (3, 7, "a", 1)], &[(3, 7, "a", 1), (9, 9, "a", 1)]),
    (&[(9, 9, "a", 1), (3, 7, "a", 1), (8, 8, "a", 1)], &[(3, 9, "a", 1)]),
    (&[(63, 63, "a", 1), (64, 64, "a", 1)], &[(63, 64, "a", 1)]),
    // Another value or another signal is another span.
    (&[(3, 7, "a", 1), (5, 9, "a", 0)], &[(5, 9, "a", 0), (3, 7, "a", 1)]),
    (&[(3, 7, "a", 1), (8, 9, "z", 1)], &[(8, 9, "z", 1), (3, 7, "a", 1)]),
    // By the signal's number in the sheet, the value, then the first tick as a number.
    (
        &[(10, 11, "a", 1), (2, 2, "a", 1), (3, 3, "a", 0), (50, 50, "z", 1), (60, 60, "z", 0)],
        &[(60, 60, "z", 0), (50, 50, "z", 1), (3, 3, "a", 0), (2, 2, "a", 1), (10, 11, "a", 1)],
    ),
];

#[test]
fn each_case_is_moved_to_both_forms_from_both_forms() {
    let sheet = sheet(100);
    for (given, merged) in CASES {
        for text in [spans(given), singles(given), spans(merged), singles(merged)] {
            assert_eq!(to_spans(&sheet, &text), Ok(spans(merged)), "{given:?}");
            assert_eq!(to_readings(&sheet, &text), Ok(singles(merged)), "{given:?}");
        }
    }
}

#[test]
fn a_moved_text_says_the_same_readings() {
    let sheet = sheet(100);
    for (given, merged) in CASES {
        let wanted = said(&sheet, &singles(given));
        for text in [spans(given), spans(merged), singles(merged)] {
            assert_eq!(said(&sheet, &text), wanted, "{given:?}");
        }
    }
}

#[test]
fn a_buffer_keeps_what_is_not_written() {
    let sheet = sheet(100);
    for (given, _) in CASES {
        for (to_form, into) in MOVES {
            let text = to_form(&sheet, &spans(given)).unwrap();
            for room in [text.len(), text.len() + 1, text.len() + 100, LONGEST_TEXT, LONGEST_TEXT + 100] {
                let mut buffer = vec![b'.'; room];
                assert_eq!(into(&sheet, &spans(given), &mut buffer), Ok(text.len()));
                assert_eq!(buffer, [text.clone(), vec![b'.'; room - text.len()]].concat());
            }
        }
    }
}

#[test]
fn a_byte_too_little_is_refused_and_nothing_is_written() {
    let sheet = sheet(100);
    for (given, _) in &CASES[1..] {
        for (to_form, into) in MOVES {
            let length = to_form(&sheet, &spans(given)).unwrap().len();
            for room in [0, 1, length / 2, length - 1] {
                let mut buffer = vec![b'.'; room];
                let refusal = into(&sheet, &spans(given), &mut buffer).unwrap_err();
                assert_eq!((refusal.number(), refusal.place()), (20, 0));
                assert_eq!(buffer, vec![b'.'; room]);
            }
        }
    }
    assert_eq!(MOVES.map(|(_, into)| into(&sheet, b"", &mut [])), [Ok(0), Ok(0)]);
}

#[test]
fn a_text_may_be_written_up_to_the_longest() {
    let sheet = sheet(4_096);
    let no_room = |text: Result<Vec<u8>, Refusal>| text.map(|text| text.len()).map_err(|refusal| (refusal.number(), refusal.place()));
    // 857 ticks of three digits and 488 of four; then one of three less and one of four more.
    assert_eq!(no_room(to_readings(&sheet, &spans(&[(143, 1_487, "a", 1)]))), Ok(LONGEST_TEXT));
    assert_eq!(no_room(to_readings(&sheet, &spans(&[(144, 1_488, "a", 1)]))), Err((20, 0)));
    assert_eq!(no_room(to_readings(&sheet, &spans(&[(0, 4_095, "a", 1)]))), Err((20, 0)));
    // Ticks with one between: 276 spans of 33 bytes and 676 of 35; then 293 and 660.
    let apart = |first: usize, last| -> Vec<Span> { (first..=last).step_by(2).map(|tick| (tick, tick, "a", 1)).collect() };
    assert_eq!(no_room(to_spans(&sheet, &singles(&apart(448, 2_350)))), Ok(LONGEST_TEXT));
    assert_eq!(no_room(to_spans(&sheet, &singles(&apart(414, 2_318)))), Err((20, 0)));
    // More room does not help.
    let mut buffer = vec![b'.'; 2 * LONGEST_TEXT];
    let refusal = to_readings_into(&sheet, &spans(&[(144, 1_488, "a", 1)]), &mut buffer).unwrap_err();
    assert_eq!((refusal.number(), buffer), (20, vec![b'.'; 2 * LONGEST_TEXT]));
}

/// Spans of no order, from a row of numbers that begins with this one.
fn spans_of_no_order(number: u64, window: usize) -> Vec<Span<'static>> {
    let mut below = numbers_from(number);
    let count = below(30);
    (0..count)
        .map(|_| {
            let (first, more) = (below(window), below(8));
            (first, (first + more).min(window - 1), if below(2) == 0 { "z" } else { "a" }, below(2) as u8)
        })
        .collect()
}

#[test]
fn there_and_back_nothing_changes() {
    for window in [1, 2, 63, 64, 65, 128, 200, 4_096] {
        let sheet = sheet(window);
        for number in 0..50 {
            let given = spans_of_no_order(number, window);
            let merged = to_spans(&sheet, &spans(&given)).unwrap();
            let one_by_one = to_readings(&sheet, &merged).unwrap();
            assert_eq!(to_spans(&sheet, &one_by_one), Ok(merged.clone()), "{given:?}");
            assert_eq!(to_readings(&sheet, &singles(&given)), Ok(one_by_one.clone()), "{given:?}");
            assert_eq!(to_readings(&sheet, &one_by_one), Ok(one_by_one.clone()), "{given:?}");
            assert_eq!(to_spans(&sheet, &merged), Ok(merged.clone()), "{given:?}");
            assert_eq!(said(&sheet, &merged), said(&sheet, &singles(&given)), "{given:?}");
            assert_eq!(said(&sheet, &one_by_one), said(&sheet, &spans(&given)), "{given:?}");
        }
    }
}

#[test]
fn the_order_of_refusals() {
    let refusal =
        |sheet: &[u8], readings: &[u8]| MOVES.map(|(_, into)| into(sheet, readings, &mut []).map_err(|r| (r.number(), r.place())));
    let (good, long) = (sheet(4), vec![b'x'; LONGEST_TEXT + 1]);
    assert_eq!(refusal(&[b'x'; LONGEST_TEXT + 1], &long), [Err((1, 0)); 2]);
    assert_eq!(refusal(b"", &long), [Err((2, 0)); 2]);
    assert_eq!(refusal(&sheet(4_097), &long), [Err((3, 7)); 2]);
    assert_eq!(refusal(&good, &long), [Err((10, 0)); 2]);
    // A line's form before its tick, the tick's window before 21, 21 before the next line's name; room comes last.
    assert_eq!(refusal(&good, b"from=04\nto=0\nsignal=b\nvalue=2\n"), [Err((11, 0)); 2]);
    assert_eq!(refusal(&good, b"from=4\nto=x\nsignal=b\nvalue=2\n"), [Err((13, 5)); 2]);
    assert_eq!(refusal(&good, b"from=3\nto=4\nsignal=b\nvalue=2\n"), [Err((13, 10)); 2]);
    assert_eq!(refusal(&good, b"from=3\nto=2\nsignal=b\nvalue=2\n"), [Err((21, 10)); 2]);
    assert_eq!(refusal(&good, b"from=3\nto=3\nsignal=b\nvalue=2\n"), [Err((12, 19)); 2]);
    assert_eq!(refusal(&good, b"from=3\nto=3\nsignal=a\nvalue=2\n"), [Err((14, 27)); 2]);
    assert_eq!(refusal(&good, b"from=3\nto=3\nsignal=a\nvalue=1\n"), [Err((20, 0)); 2]);
    assert_eq!(refusal(&good, b"from=0\nto=3\nsignal=a\nvalue=1\nat=0\n"), [Err((11, 29)); 2]);
}
