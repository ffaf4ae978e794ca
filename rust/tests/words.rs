//! Windows of several words: marks that go over the borders of words, the table's layout and length, and the widest window.

use mikhakun::{add, ask, check, to_readings, to_spans, Refusal, Table, Value};

const WINDOWS: [usize; 10] = [1, 63, 64, 65, 127, 128, 129, 192, 4_095, 4_096];
const A: usize = 0;
const B: usize = 1;

/// The rows of a sheet below: a, b, !a, the look, and the whole rule.
const ROWS: usize = 5;

/// The sheet of the rule that carries a true mark of a over to b, `offset` ticks later, and a false one of b back to a.
fn sheet(window: usize, offset: i64) -> Vec<u8> {
    format!("window={window}\nsignals=2\nsignal=a\nsignal=b\nrules=1\nrule=a=>b@[{offset},{offset}]\n").into_bytes()
}

fn readings(ticks: &[usize], name: &str, value: u8) -> Vec<u8> {
    ticks.iter().flat_map(|tick| format!("at={tick}\nsignal={name}\nvalue={value}\n").into_bytes()).collect()
}

fn span(first: usize, last: usize, name: &str, value: u8) -> Vec<u8> {
    format!("from={first}\nto={last}\nsignal={name}\nvalue={value}\n").into_bytes()
}

fn row_words(window: usize) -> usize {
    (window + 63) / 64
}

/// The ticks that the table's words hold of a row and a value.
fn ticks_in(table: &Table, window: usize, row: usize, value: bool) -> Vec<usize> {
    let start = (2 * row + usize::from(!value)) * row_words(window);
    (0..window).filter(|tick| table.words()[start + tick / 64] >> (tick % 64) & 1 == 1).collect()
}

/// The first two and the last two ticks of each word.
fn near_borders(window: usize) -> Vec<usize> {
    (0..window).filter(|tick| matches!(tick % 64, 0 | 1 | 62 | 63)).collect()
}

/// The ticks so much later that are in the window.
fn moved(ticks: &[usize], offset: i64, window: usize) -> Vec<usize> {
    let later = ticks.iter().map(|&tick| tick as i64 + offset);
    later.filter(|tick| (0..window as i64).contains(tick)).map(|tick| tick as usize).collect()
}

/// The marks of a and b after an add to an empty table: a true, a false, b true, b false.
fn marks_after(sheet: &[u8], window: usize, readings: &[u8]) -> [Vec<usize>; 4] {
    let mut table = Table::for_sheet(sheet).unwrap();
    let added = add(sheet, readings, &mut table).unwrap();
    let marks = [(A, true), (A, false), (B, true), (B, false)].map(|(row, value)| ticks_in(&table, window, row, value));
    assert_eq!((added.new_facts, added.clash), (marks.iter().map(Vec::len).sum(), false));
    marks
}

/// Add and ask both refuse the table by this number, and it keeps every word.
fn refused(number: u64, sheet: &[u8], words: Vec<u64>) {
    let mut table = Table::from(words.clone());
    let placeless = |refusal: Refusal| (refusal.number(), refusal.place());
    assert_eq!(add(sheet, b"", &mut table).map_err(placeless), Err((number, 0)));
    assert_eq!(ask(sheet, &table, A, 0).map_err(placeless), Err((number, 0)));
    assert_eq!(table.words(), words);
}

#[test]
fn a_look_crosses_every_border_both_ways() {
    for window in WINDOWS {
        let ticks = near_borders(window);
        for offset in [-63, -62, -33, -2, -1, 1, 2, 33, 62, 63] {
            let sheet = sheet(window, offset);
            let forward = marks_after(&sheet, window, &readings(&ticks, "a", 1));
            assert_eq!(forward, [ticks.clone(), vec![], moved(&ticks, offset, window), vec![]], "{window} {offset}");
            let back = marks_after(&sheet, window, &readings(&ticks, "b", 0));
            assert_eq!(back, [vec![], moved(&ticks, -offset, window), vec![], ticks.clone()], "{window} {offset}");
        }
    }
}

#[test]
fn a_mark_is_carried_through_the_whole_window() {
    for window in WINDOWS {
        let sheet = format!("window={window}\nsignals=1\nsignal=a\nrules=1\nrule=a=>a@[1,1]\n").into_bytes();
        for (first, value) in [(0, 1), (window - 1, 0)] {
            let mut table = Table::for_sheet(&sheet).unwrap();
            assert_eq!(add(&sheet, &readings(&[first], "a", value), &mut table).unwrap().new_facts, window);
            assert_eq!(ticks_in(&table, window, A, value == 1).len(), window);
        }
    }
}

/// Spans whose ends are near borders: short ones, the longest, and those that end at one.
fn spans_near_borders(window: usize) -> Vec<(usize, usize)> {
    let near = near_borders(window);
    let within = |first: usize| near.iter().filter(move |&&last| first <= last && last <= first + 130).map(move |&last| (first, last));
    near.iter().flat_map(|&first| within(first)).chain([(0, window - 1)]).collect()
}

#[test]
fn a_span_is_each_of_its_ticks_over_every_border() {
    for window in WINDOWS.into_iter().filter(|&window| window < 200) {
        for (first, last) in spans_near_borders(window) {
            let ticks: Vec<usize> = (first..=last).collect();
            for (offset, name, value) in [(1, "a", 1), (-63, "b", 0)] {
                let sheet = sheet(window, offset);
                let (span, single) = (span(first, last, name, value), readings(&ticks, name, value));
                assert_eq!(marks_after(&sheet, window, &span), marks_after(&sheet, window, &single), "{window} {first} {last}");
                assert_eq!(to_readings(&sheet, &span), Ok(single.clone()), "{window} {first} {last}");
                assert_eq!(to_spans(&sheet, &single), Ok(span), "{window} {first} {last}");
            }
        }
    }
}

#[test]
fn a_span_over_the_widest_window() {
    let widest = sheet(4_096, 1);
    let [true_a, _, true_b, _] = marks_after(&widest, 4_096, &span(0, 4_095, "a", 1));
    assert_eq!((true_a, true_b), ((0..4_096).collect(), (1..4_096).collect()));
    assert_eq!(to_spans(&widest, &span(0, 4_095, "a", 1)), Ok(span(0, 4_095, "a", 1)));
    assert_eq!(to_readings(&widest, &span(0, 4_095, "a", 1)).map_err(|refusal| refusal.number()), Err(20));
    let past = to_spans(&widest, &span(0, 4_096, "a", 1)).unwrap_err();
    assert_eq!((past.number(), past.place()), (13, 10));
}

#[test]
fn ask_tells_what_the_words_hold() {
    for window in WINDOWS {
        let (sheet, ticks) = (sheet(window, 1), near_borders(window));
        let mut table = Table::for_sheet(&sheet).unwrap();
        add(&sheet, &readings(&ticks, "b", 0), &mut table).unwrap();
        for tick in (0..window).filter(|tick| *tick < 200 || tick + 200 > window) {
            let value = if ticks.contains(&tick) { Value::False } else { Value::Unsettled };
            assert_eq!(ask(&sheet, &table, B, tick), Ok(value), "{window} {tick}");
        }
        assert_eq!(ask(&sheet, &table, B, window).unwrap_err().number(), 17, "{window}");
    }
}

#[test]
fn a_table_has_the_fewest_words_that_cover_the_window() {
    for window in WINDOWS {
        let (sheet, words) = (sheet(window, 1), 2 * ROWS * row_words(window));
        assert_eq!(check(&sheet), Ok(ROWS));
        assert_eq!(Table::for_sheet(&sheet).unwrap().into_words(), vec![0; words]);
        assert_eq!(Table::empty(ROWS, window).into_words(), vec![0; words]);
        for length in [0, 2 * ROWS, words - 1, words + 1, 2 * words].into_iter().filter(|&length| length != words) {
            refused(15, &sheet, vec![0; length]);
        }
    }
}

#[test]
fn a_mark_past_the_window_is_refused_in_every_row() {
    for window in WINDOWS {
        let (sheet, n) = (sheet(window, 1), row_words(window));
        for last in (0..2 * ROWS).map(|block| block * n + n - 1) {
            let mut words = vec![0; 2 * ROWS * n];
            words[last] = 1 << ((window - 1) % 64);
            assert_eq!(ask(&sheet, &Table::from(words.clone()), A, 0).map(|_| ()), Ok(()), "{window} {last}");
            if window % 64 != 0 {
                words[last] = 1 << (window % 64);
                refused(16, &sheet, words);
            }
        }
    }
}

#[test]
fn the_widest_window_and_the_last_tick() {
    let widest = sheet(4_096, 1);
    let mut table = Table::for_sheet(&widest).unwrap();
    assert_eq!(add(&widest, &readings(&[4_095], "a", 1), &mut table).unwrap().new_facts, 1);
    let past = add(&widest, &readings(&[4_096], "a", 1), &mut table).unwrap_err();
    assert_eq!((past.number(), past.place()), (13, 3));
    for window in [0, 4_097, 4_160, 65_536, 99_999] {
        let refusal = check(&sheet(window, 1)).unwrap_err();
        assert_eq!((refusal.number(), refusal.place()), (3, 7), "{window}");
    }
}
