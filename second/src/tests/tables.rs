//! Tables of several words: their layout, and what is refused of them.

use super::{readings, sheet, shown};
use crate::operations::{add, ask, Added};
use crate::table::{block_words, length};

/// Windows around the borders of words, and the words that cover each.
const WINDOWS: [(usize, usize); 11] = [
    (1, 1),
    (63, 1),
    (64, 1),
    (65, 2),
    (127, 2),
    (128, 2),
    (129, 3),
    (192, 3),
    (193, 4),
    (4_095, 64),
    (4_096, 64),
];

#[test]
fn words_that_cover_a_window() {
    for (window, words) in WINDOWS {
        assert_eq!(block_words(window), words, "{window}");
        assert_eq!(length(1_024, window), 2_048 * words, "{window}");
    }
}

#[test]
fn true_marks_stand_before_false_marks() {
    let text = sheet(130, "a b", &[]);
    let read = readings(&[
        (0, "a", 1),
        (63, "a", 1),
        (64, "a", 1),
        (129, "a", 1),
        (65, "a", 0),
        (128, "b", 0),
    ]);
    let mut table = [0; 12];
    let added = add(text.as_bytes(), read.as_bytes(), &mut table);
    let wanted = Added {
        new_facts: 6,
        clash: 0,
    };
    assert_eq!(added, Ok(wanted));
    let a = [1 | 1 << 63, 1, 1 << 1, 0, 1 << 1, 0];
    let b = [0, 0, 0, 0, 0, 1];
    assert_eq!(table, [a, b].concat()[..]);
    for (signal, tick, value) in [(0, 64, 1), (0, 65, 2), (0, 66, 0), (1, 128, 2), (1, 64, 0)] {
        let asked = ask(text.as_bytes(), &table, signal, tick);
        assert_eq!(asked, Ok(value), "{signal} at {tick}");
    }
}

#[test]
fn lengths_of_tables() {
    for (window, words) in WINDOWS {
        let text = sheet(window, "a b", &["!a"]);
        let asked = |words: usize| shown(ask(text.as_bytes(), &vec![0; words], 0, 0));
        assert_eq!(asked(6 * words), None, "{window}");
        for wrong in [
            0,
            6 * words - 1,
            6 * words + 1,
            6 * words - 6,
            6 * words + 6,
        ] {
            assert_eq!(asked(wrong), Some((15, 0)), "{wrong} words, {window} ticks");
        }
    }
}

#[test]
fn marks_past_the_window() {
    for (window, words) in WINDOWS {
        let text = sheet(window, "a b", &["!a"]);
        for block in 0..6 {
            let last = block * words + words - 1;
            for bit in 0..64 {
                let mut table = vec![0; 6 * words];
                table[last] = 1 << bit;
                let outside = 64 * (words - 1) + bit >= window;
                let wanted = outside.then_some((16, 0));
                let case = format!("bit {bit} of word {last}, {window} ticks");
                assert_eq!(shown(ask(text.as_bytes(), &table, 0, 0)), wanted, "{case}");
            }
        }
    }
}

#[test]
fn ticks_at_the_window_end() {
    for (window, words) in WINDOWS {
        let text = sheet(window, "a", &[]);
        let added = |tick: usize| {
            let read = readings(&[(tick, "a", 1)]);
            shown(add(
                text.as_bytes(),
                read.as_bytes(),
                &mut vec![0; 2 * words],
            ))
        };
        let asked = |tick: usize| shown(ask(text.as_bytes(), &vec![0; 2 * words], 0, tick as u64));
        assert_eq!((added(window - 1), asked(window - 1)), (None, None));
        for tick in [window, window + 1] {
            let wanted = (Some((13, 3)), Some((17, 0)));
            assert_eq!((added(tick), asked(tick)), wanted, "{tick} of {window}");
        }
    }
}

#[test]
fn a_clash_in_any_word_is_a_contradiction() {
    let text = sheet(130, "a b", &[]);
    let mut table = [0; 12];
    table[8] = 2;
    table[11] = 2;
    assert_eq!(ask(text.as_bytes(), &table, 0, 0), Ok(3));
    table[11] = 1;
    assert_eq!(ask(text.as_bytes(), &table, 0, 0), Ok(0));
}
