//! Looks over the borders of words, worked out by hand.

use super::{readings, sheet};
use crate::listing::listing;

/// The signs of each signal.
fn signs(sheet: &str, readings: &str) -> Vec<String> {
    let text = listing(sheet.as_bytes(), readings.as_bytes());
    assert!(text.starts_with("answer=0\n"), "{text}");
    let marks = text.lines().filter_map(|line| line.strip_prefix("marks="));
    marks.map(str::to_string).collect()
}

/// A row of `?` but for the sign at these ticks; those outside the window are left out.
fn only(window: usize, sign: u8, ticks: impl Iterator<Item = i64>) -> String {
    let mut signs = vec![b'?'; window];
    for tick in ticks.filter(|tick| (0..window as i64).contains(tick)) {
        signs[tick as usize] = sign;
    }
    String::from_utf8(signs).expect("signs")
}

/// Windows with borders inside, and those that just have none.
const WINDOWS: [usize; 9] = [63, 64, 65, 127, 128, 129, 192, 4_095, 4_096];

#[test]
fn one_look_at_every_border() {
    for window in WINDOWS {
        for border in (0..=window).step_by(64).chain([window]) {
            for offset in [-63, -62, -1, 1, 62, 63] {
                one_look(window, border as i64, offset);
                one_look(window, border as i64 - 1, offset);
            }
        }
    }
}

/// From a true at the tick to b true, and from b false to a false.
fn one_look(window: usize, tick: i64, offset: i64) {
    if !(0..window as i64).contains(&tick) {
        return;
    }
    let text = sheet(window, "a b", &[&format!("a=>b@[{offset},{offset}]")]);
    let at = |tick: i64, sign: u8| only(window, sign, [tick].into_iter());
    let onward = signs(&text, &readings(&[(tick as usize, "a", 1)]));
    assert_eq!(onward, [at(tick, b'1'), at(tick + offset, b'1')], "{text}");
    let back = signs(&text, &readings(&[(tick as usize, "b", 0)]));
    assert_eq!(back, [at(tick - offset, b'0'), at(tick, b'0')], "{text}");
}

#[test]
fn an_interval_over_two_borders() {
    // Of 127 ticks around 128, from 65 to 191, in a window of four words.
    let text = sheet(256, "a b", &["a=>b@[-63,63]"]);
    let listed = signs(&text, &readings(&[(128, "a", 1)]));
    let wanted = [
        only(256, b'1', [128].into_iter()),
        only(256, b'1', 65..=191),
    ];
    assert_eq!(listed, wanted);
    // All of them false but the last: a is true somewhere, so there.
    let text = sheet(256, "a b", &["b=>a?[-63,63]"]);
    let mut read: Vec<_> = (65..191).map(|tick| (tick, "a", 0)).collect();
    read.push((128, "b", 1));
    let listed = signs(&text, &readings(&read));
    assert_eq!(&listed[0][65..191], "0".repeat(126));
    assert_eq!(&listed[0][190..193], "01?");
}

#[test]
fn truth_and_falseness_go_through_the_longest_window() {
    for (rule, first, last) in [("a=>a@[1,1]", 0, 4_095), ("a=>a@[-1,-1]", 4_095, 0)] {
        let text = sheet(4_096, "a", &[rule]);
        let onward = signs(&text, &readings(&[(first, "a", 1)]));
        assert_eq!(onward, ["1".repeat(4_096)]);
        let back = signs(&text, &readings(&[(last, "a", 0)]));
        assert_eq!(back, ["0".repeat(4_096)]);
    }
    // In steps of 63 ticks: from 10 to 10 + 64 * 63, which is 4,042.
    let text = sheet(4_096, "a", &["a=>a@[63,63]"]);
    let listed = signs(&text, &readings(&[(10, "a", 1)]));
    assert_eq!(listed, [only(4_096, b'1', (10..4_096).step_by(63))]);
}

#[test]
fn since_and_until_over_a_border() {
    let held: Vec<_> = (61..=140).map(|tick| (tick, "b", 1)).collect();
    // since: a at 60 gives c at 61; with b from 61 on, c goes on up to the tick after the last b.
    let text = sheet(150, "a b c", &["c<=>since(a,b)"]);
    let listed = signs(&text, &readings(&[&[(60, "a", 1)], &held[..]].concat()));
    assert_eq!(listed[2], only(150, b'1', 61..=141));
    // until: a at 141 gives c at 140, and b down to 61 gives c down to 60.
    let text = sheet(150, "a b c", &["c<=>until(a,b)"]);
    let listed = signs(&text, &readings(&[&[(141, "a", 1)], &held[..]].concat()));
    assert_eq!(listed[2], only(150, b'1', 60..=140));
}
