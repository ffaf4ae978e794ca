//! The moves between the two forms, worked out by hand, and on generated texts by sets of readings.

use super::{readings as single, sheet, shown, spans, written};
use crate::generate::case;
use crate::moves::move_to;
use crate::operations::read;
use crate::text::readings::{self, Form, Span};
use std::collections::BTreeSet;

/// The move of a text for a window of 100 and signals z and a, in this order, with room for everything.
fn moved(to: Form, text: &str) -> String {
    moved_in(to, &sheet(100, "z a", &[]), text).expect("an accepted text")
}

fn moved_in(to: Form, sheet: &str, text: &str) -> Result<String, (u64, u64)> {
    written(40_000, |out| {
        move_to(to, sheet.as_bytes(), text.as_bytes(), out)
    })
}

/// First and last ticks of spans.
type Ticks<'a> = &'a [(usize, usize)];

/// Spans of one signal and value.
fn of_a(ticks: Ticks) -> String {
    let all: Vec<_> = ticks
        .iter()
        .map(|&(first, last)| (first, last, "a", 1))
        .collect();
    spans(&all)
}

#[test]
fn spans_are_merged() {
    let cases: [(Ticks, Ticks); 13] = [
        (&[], &[]),
        (&[(5, 5)], &[(5, 5)]),
        (&[(3, 7), (3, 7)], &[(3, 7)]),
        (&[(3, 7), (5, 9)], &[(3, 9)]),
        (&[(5, 9), (3, 7)], &[(3, 9)]),
        (&[(3, 9), (5, 6)], &[(3, 9)]),
        (&[(3, 7), (8, 9)], &[(3, 9)]),
        (&[(8, 9), (3, 7)], &[(3, 9)]),
        (&[(3, 7), (9, 9)], &[(3, 7), (9, 9)]),
        (&[(9, 9), (3, 7)], &[(3, 7), (9, 9)]),
        (&[(9, 9), (3, 7), (8, 8)], &[(3, 9)]),
        (&[(0, 99), (50, 50)], &[(0, 99)]),
        (
            &[(99, 99), (10, 20), (0, 0), (2, 9)],
            &[(0, 0), (2, 20), (99, 99)],
        ),
    ];
    for (before, after) in cases {
        assert_eq!(moved(Form::Spans, &of_a(before)), of_a(after), "{before:?}");
    }
}

#[test]
fn single_readings_become_spans() {
    let read = [
        (7, "a", 1),
        (5, "a", 1),
        (6, "a", 1),
        (5, "a", 1),
        (9, "a", 1),
        (8, "a", 0),
    ];
    let wanted = [(8, 8, "a", 0), (5, 7, "a", 1), (9, 9, "a", 1)];
    assert_eq!(moved(Form::Spans, &single(&read)), spans(&wanted));
}

#[test]
fn spans_become_single_readings() {
    let read = [(8, 11, "a", 1), (9, 12, "a", 1), (8, 8, "a", 0)];
    let wanted = [
        (8, "a", 0),
        (8, "a", 1),
        (9, "a", 1),
        (10, "a", 1),
        (11, "a", 1),
        (12, "a", 1),
    ];
    assert_eq!(moved(Form::Readings, &spans(&read)), single(&wanted));
    assert_eq!(moved(Form::Readings, &single(&wanted)), single(&wanted));
}

#[test]
fn by_signal_then_value_then_tick() {
    // The signals' order is the sheet's: z before a. The ticks' order is that of numbers.
    let read = [
        (9, 10, "a", 1),
        (2, 2, "a", 1),
        (3, 3, "a", 0),
        (50, 50, "z", 1),
        (60, 60, "z", 0),
    ];
    let sorted = [
        (60, 60, "z", 0),
        (50, 50, "z", 1),
        (3, 3, "a", 0),
        (2, 2, "a", 1),
        (9, 10, "a", 1),
    ];
    assert_eq!(moved(Form::Spans, &spans(&read)), spans(&sorted));
    let one_by_one = [
        (60, "z", 0),
        (50, "z", 1),
        (3, "a", 0),
        (2, "a", 1),
        (9, "a", 1),
        (10, "a", 1),
    ];
    assert_eq!(moved(Form::Readings, &spans(&read)), single(&one_by_one));
}

#[test]
fn an_empty_text_is_both() {
    for to in [Form::Readings, Form::Spans] {
        assert_eq!(moved(to, ""), "");
        let sheet = sheet(4, "a", &[]);
        assert_eq!(move_to(to, sheet.as_bytes(), b"", &mut []), Ok(0));
    }
}

#[test]
fn room_for_the_text() {
    let sheet = sheet(4, "a", &[]);
    for (to, text, length) in [
        (Form::Spans, spans(&[(0, 3, "a", 1)]), 29),
        (Form::Spans, single(&[(0, "a", 1)]), 29),
        (Form::Readings, spans(&[(0, 3, "a", 1)]), 88),
        (Form::Readings, single(&[(0, "a", 1)]), 22),
    ] {
        for room in [0, 1, length / 2, length - 1, length, length + 1, 2 * length] {
            let mut out = vec![b'.'; room];
            let answer = move_to(to, sheet.as_bytes(), text.as_bytes(), &mut out);
            if room < length {
                assert_eq!((shown(answer), out), (Some((20, 0)), vec![b'.'; room]));
                continue;
            }
            assert_eq!(answer, Ok(length as u64));
            assert!(out[..length].ends_with(b"value=1\n"));
            assert_eq!(out[length..], vec![b'.'; room - length]);
        }
    }
}

#[test]
fn the_longest_texts() {
    let sheet = sheet(4_096, "a", &[]);
    // 857 ticks of three digits and 488 of four; then one three-digit tick less and one of four more.
    let written = |first, last| moved_in(Form::Readings, &sheet, &of_a(&[(first, last)]));
    assert_eq!(written(143, 1_487).map(|text| text.len()), Ok(32_768));
    assert_eq!(written(144, 1_488), Err((20, 0)));
    assert_eq!(written(0, 4_095), Err((20, 0)));
    // Even ticks: 276 spans of 33 bytes and 676 of 35; then 293 of 33 and 660 of 35.
    let even = |first: usize, last| {
        let ticks: Vec<_> = (first..=last)
            .step_by(2)
            .map(|tick| (tick, "a", 1))
            .collect();
        moved_in(Form::Spans, &sheet, &single(&ticks))
    };
    assert_eq!(even(448, 2_350).map(|text| text.len()), Ok(32_768));
    assert_eq!(even(414, 2_318), Err((20, 0)));
}

#[test]
fn the_order_of_refusals() {
    let good = sheet(4, "a", &[]);
    let (long, wrong) = ("x".repeat(32_769), "from=4\n");
    for to in [Form::Readings, Form::Spans] {
        let refusal = |sheet: &str, text: &str| {
            shown(move_to(to, sheet.as_bytes(), text.as_bytes(), &mut []))
        };
        assert_eq!(refusal("", &long), Some((2, 0)));
        assert_eq!(refusal(&sheet(4_097, "a", &[]), &long), Some((3, 7)));
        let many = ["since(a,a)"; 33];
        assert_eq!(refusal(&sheet(4, "a", &many), &long), Some((9, 0)));
        assert_eq!(refusal(&good, &long), Some((10, 0)));
        assert_eq!(refusal(&good, wrong), Some((13, 5)));
        let last_line = spans(&[(0, 0, "a", 1), (2, 1, "a", 1)]);
        assert_eq!(refusal(&good, &last_line), Some((21, 39)));
        assert_eq!(refusal(&good, &spans(&[(0, 0, "a", 1)])), Some((20, 0)));
    }
}

/// The readings of an accepted text, by what stands behind the `=` of its lines.
fn set(text: &str) -> BTreeSet<(String, String, usize)> {
    let values: Vec<&str> = text
        .lines()
        .filter_map(|line| line.split('=').nth(1))
        .collect();
    let lines = if text.starts_with("from=") { 4 } else { 3 };
    let mut set = BTreeSet::new();
    for entry in values.chunks(lines) {
        let tick = |place: usize| entry[place].parse::<usize>().expect("a tick");
        for tick in tick(0)..=tick(lines - 3) {
            set.insert((
                entry[lines - 2].to_string(),
                entry[lines - 1].to_string(),
                tick,
            ));
        }
    }
    set
}

#[test]
fn generated_texts_keep_their_readings() {
    let mut moves = 0;
    for number in 0..3_000 {
        let case = case(7, number);
        let sheet = String::from_utf8_lossy(&case.sheet).to_string();
        for call in &case.moves {
            let text = String::from_utf8_lossy(&call.readings).to_string();
            let Ok(written) = moved_in(call.to, &sheet, &text) else {
                continue;
            };
            assert_eq!(set(&written), set(&text), "case {number}");
            assert_eq!(moved_in(call.to, &sheet, &written), Ok(written.clone()));
            let Ok(other) = moved_in(call.to.other(), &sheet, &written) else {
                continue;
            };
            assert_eq!(moved_in(call.to, &sheet, &other), Ok(written));
            moves += 1;
        }
    }
    assert!(moves > 500, "{moves}");
}

/// The accepted texts of spans in the moves of the first cases: the window and the spans, in their order.
fn accepted() -> Vec<(usize, Vec<Span>)> {
    let mut texts = vec![];
    for number in 0..4_000 {
        let case = case(5, number);
        let Ok((sheet, _)) = read(&case.sheet) else {
            continue;
        };
        for call in &case.moves {
            let spans = readings::read(&call.readings, sheet.window, &sheet.names);
            match (Form::of(&call.readings), spans) {
                (Form::Spans, Ok(spans)) => texts.push((sheet.window, spans)),
                _ => continue,
            }
        }
    }
    texts
}

#[test]
fn spans_beside_one_another_are_met() {
    let texts = accepted();
    let met = |what: &dyn Fn(usize, &[Span]) -> bool| {
        let texts = texts.iter().filter(|(window, spans)| what(*window, spans));
        texts.count()
    };
    let pairs = |what: fn(&Span, &Span) -> bool| {
        let same = |one: &Span, two: &Span| (one.signal, one.value) == (two.signal, two.value);
        let pair = |pair: &[Span]| same(&pair[0], &pair[1]) && what(&pair[0], &pair[1]);
        met(&|_, spans| spans.windows(2).any(pair))
    };
    let counts = [
        pairs(|one, two| one == two),
        pairs(|one, two| one.first < two.first && two.first <= one.last && one.last < two.last),
        pairs(|one, two| two.first < one.first && one.first <= two.last && two.last < one.last),
        pairs(|one, two| one.last + 1 == two.first),
        pairs(|one, two| two.last + 1 == one.first),
        pairs(|one, two| one.last + 2 == two.first),
        pairs(|one, two| two.last + 2 == one.first),
        met(&|_, spans| spans.iter().any(|span| span.first == span.last)),
        met(&|window, spans| spans.iter().any(|span| span.ticks() == (0..=window - 1))),
    ];
    assert!(counts.iter().all(|&count| count > 20), "{counts:?}");
    for windows in [
        1..=1,
        2..=62,
        63..=63,
        64..=64,
        65..=65,
        66..=300,
        301..=4_096,
    ] {
        let count = met(&|window, _| windows.contains(&window));
        assert!(count > 2, "{windows:?}: {count}");
    }
}
