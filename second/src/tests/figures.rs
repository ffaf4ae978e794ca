//! Figures over runs, worked out by hand, and on generated calls by the signs of listings.

use super::{readings, sheet, shown, spans};
use crate::figures::{cut, figures, Record, MOST_RUNS, NEVER};
use crate::generate::case;
use crate::listing::{listing, MOST_WORDS};
use crate::operations::read;
use crate::table::length;

/// Signal, then the ticks held, failed, unsettled and clashed, then the first one settled.
type Row = [u64; 6];

/// The records and the work table after a call, or the refusal.
type Answer = Result<(Vec<Row>, Vec<u64>), (u64, u64)>;

/// What records and words hold before a call: no call writes it.
const ODD: u64 = 0x0DD0_0DD0_0DD0_0DD0;

/// A call with so many words and records; a refusal leaves them as they were.
fn called(sheet: &str, texts: &str, lengths: &[u64], (words, count): (usize, usize)) -> Answer {
    let odd = Record {
        signal: ODD,
        held: ODD,
        failed: ODD,
        unsettled: ODD,
        clashed: ODD,
        first: ODD,
    };
    let (mut work, mut records) = (vec![ODD; words], vec![odd; count]);
    let (sheet, texts) = (sheet.as_bytes(), texts.as_bytes());
    let answer = figures(sheet, texts, lengths, &mut work, &mut records);
    if let Some(refusal) = shown(answer) {
        assert_eq!((work, records), (vec![ODD; words], vec![odd; count]));
        return Err(refusal);
    }
    let row = |of: &Record| {
        [
            of.signal,
            of.held,
            of.failed,
            of.unsettled,
            of.clashed,
            of.first,
        ]
    };
    Ok((records.iter().map(row).collect(), work))
}

/// The words and records that a sheet asks for.
fn room(sheet: &str) -> (usize, usize) {
    read(sheet.as_bytes()).map_or((0, 0), |(sheet, rows)| {
        (length(rows.nodes.len(), sheet.window), sheet.names.len())
    })
}

fn lengths(texts: &[&str]) -> Vec<u64> {
    texts.iter().map(|text| text.len() as u64).collect()
}

/// A call in which everything lent fits.
fn ran(sheet: &str, texts: &[&str]) -> Answer {
    called(sheet, &texts.concat(), &lengths(texts), room(sheet))
}

/// The records of such a call.
fn records(sheet: &str, texts: &[&str]) -> Vec<Row> {
    ran(sheet, texts).expect("an accepted call").0
}

#[test]
fn the_columns_of_the_first_proved_case() {
    let rules = ["clear2@[-3,0]=>go10", "go10=>open10@[2,2]"];
    let sheet = sheet(10, "clear2 go10 open10", &rules);
    let read = readings(&[3, 4, 5, 6].map(|tick| (tick, "clear2", 1)));
    let one = [[0, 4, 0, 6, 0, 3], [1, 1, 0, 9, 0, 6], [2, 1, 0, 9, 0, 8]];
    assert_eq!(records(&sheet, &[&read]), one);
    // A second run has clear2 false at 0 and nothing else.
    let other = readings(&[(0, "clear2", 0)]);
    let both = [
        [0, 4, 1, 15, 0, 0],
        [1, 1, 0, 19, 0, 6],
        [2, 1, 0, 19, 0, 8],
    ];
    assert_eq!(records(&sheet, &[&read, &other]), both);
    assert_eq!(records(&sheet, &[&other, &read]), both);
}

#[test]
fn a_run_that_clashes() {
    let sheet = sheet(4, "a b", &[]);
    let clash = readings(&[(0, "a", 1), (0, "a", 0), (1, "b", 1)]);
    let plain = readings(&[(2, "b", 0)]);
    // Its own first ticks, 0 and 1, do not count.
    let both = vec![[0, 0, 0, 4, 4, NEVER], [1, 0, 1, 3, 4, 2]];
    let table = [1, 1, 2, 0];
    assert_eq!(
        ran(&sheet, &[&plain, &clash]),
        Ok((both.clone(), table.to_vec()))
    );
    assert_eq!(ran(&sheet, &[&clash, &plain]), Ok((both, vec![0, 0, 0, 4])));
    let only = vec![[0, 0, 0, 0, 4, NEVER], [1, 0, 0, 0, 4, NEVER]];
    assert_eq!(ran(&sheet, &[&clash]), Ok((only, table.to_vec())));
    // The parts of a clash in two runs are none.
    let parts = [
        readings(&[(0, "a", 1)]),
        readings(&[(0, "a", 0), (1, "b", 1)]),
    ];
    let apart = [[0, 1, 1, 6, 0, 0], [1, 1, 0, 7, 0, 1]];
    assert_eq!(records(&sheet, &[&parts[0], &parts[1]]), apart);
}

#[test]
fn the_four_columns_are_window_times_runs() {
    let sheet = sheet(70, "a b", &["a=>b@[1,1]"]);
    let texts = [
        spans(&[(0, 69, "a", 1)]),
        readings(&[(0, "a", 1), (1, "b", 0)]),
        String::new(),
        readings(&[(69, "b", 0)]),
    ];
    // b is true from 1 on; then the second run clashes; then nothing; then b is false at 69 and a at 68.
    let texts: Vec<&str> = texts.iter().map(String::as_str).collect();
    let wanted = [[0, 70, 1, 139, 70, 0], [1, 69, 1, 140, 70, 1]];
    assert_eq!(records(&sheet, &texts), wanted);
    for row in wanted {
        assert_eq!(row[1..5].iter().sum::<u64>(), 70 * 4);
    }
}

#[test]
fn the_earliest_tick_of_any_run() {
    let sheet = sheet(130, "a b c d", &[]);
    let texts = [
        readings(&[(129, "a", 1), (100, "b", 0), (63, "c", 1)]),
        readings(&[(64, "a", 0), (128, "b", 0), (65, "c", 0)]),
    ];
    for texts in [[&texts[0], &texts[1]], [&texts[1], &texts[0]]] {
        let rows = records(&sheet, &[texts[0], texts[1]]);
        let firsts: Vec<u64> = rows.iter().map(|row| row[5]).collect();
        assert_eq!(firsts, [64, 100, 63, NEVER]);
    }
}

#[test]
fn each_run_starts_from_an_empty_table() {
    let sheet = sheet(2, "a b", &["a"]);
    let texts = [spans(&[(0, 1, "b", 1)]), readings(&[(1, "b", 0)])];
    let rows = vec![[0, 6, 0, 0, 0, 0], [1, 2, 1, 3, 0, 0]];
    let (one, two) = (texts[0].as_str(), texts[1].as_str());
    // The last run's table: a at both ticks, by its rule, and what was read of b.
    for (texts, table) in [
        ([one, "", two], [3, 0, 0, 2]),
        ([two, "", one], [3, 0, 3, 0]),
        ([one, two, ""], [3, 0, 0, 0]),
    ] {
        assert_eq!(ran(&sheet, &texts), Ok((rows.clone(), table.to_vec())));
    }
}

#[test]
fn no_runs() {
    // The table is cleared, not closed: a is true at both ticks only where something is run.
    let sheet = sheet(2, "b a", &["a"]);
    let none = vec![[1, 0, 0, 0, 0, NEVER], [0, 0, 0, 0, 0, NEVER]];
    assert_eq!(ran(&sheet, &[]), Ok((none, vec![0; 4])));
    let one = vec![[1, 2, 0, 0, 0, 0], [0, 0, 0, 2, 0, NEVER]];
    assert_eq!(ran(&sheet, &[""]), Ok((one, vec![0, 0, 3, 0])));
}

#[test]
fn sixty_four_runs_and_no_more() {
    let sheet = sheet(3, "a", &[]);
    let read = readings(&[(1, "a", 0)]);
    let texts = vec![read.as_str(); MOST_RUNS];
    assert_eq!(records(&sheet, &texts), [[0, 0, 64, 128, 0, 1]]);
    assert_eq!(records(&sheet, &[""; 64]), [[0, 0, 0, 192, 0, NEVER]]);
    assert_eq!(ran(&sheet, &vec![read.as_str(); 65]), Err((19, 0)));
    assert_eq!(ran(&sheet, &[""; 65]), Err((19, 0)));
    let padded = [&texts[..63], &["", ""]].concat();
    assert_eq!(ran(&sheet, &padded), Err((19, 0)));
}

#[test]
fn records_are_in_the_order_of_names() {
    let names = "aisle10 b aisle aisle2 a9z aisle0 b10 aisle1b";
    let sheet = sheet(1, names, &[]);
    let signals: Vec<u64> = records(&sheet, &[""]).iter().map(|row| row[0]).collect();
    // a9z, aisle, aisle0, aisle2, aisle10, aisle1b, b, b10.
    assert_eq!(signals, [4, 2, 5, 3, 0, 7, 1, 6]);
    let read = readings(&[(0, "aisle2", 1), (0, "b", 0)]);
    let settled: Vec<Row> = records(&sheet, &[&read])
        .into_iter()
        .filter(|row| row[5] == 0)
        .collect();
    assert_eq!(settled, [[3, 1, 0, 0, 0, 0], [1, 0, 1, 0, 0, 0]]);
}

#[test]
fn each_text_has_its_own_form() {
    let sheet = sheet(4, "a", &[]);
    let (span, reading) = (spans(&[(1, 2, "a", 1)]), readings(&[(3, "a", 0)]));
    let wanted = [[0, 2, 1, 5, 0, 1]];
    assert_eq!(records(&sheet, &[&span, &reading]), wanted);
    assert_eq!(records(&sheet, &[&reading, &span]), wanted);
    assert_eq!(ran(&sheet, &["", &(span + &reading)]), Err((11, 29)));
}

/// A text that is accepted, of 22 bytes.
fn good() -> String {
    readings(&[(0, "a", 1)])
}

#[test]
fn places_in_the_joined_slice() {
    let (sheet, good) = (sheet(4, "a b", &[]), good());
    let long = "x".repeat(32_769);
    for (text, number, place) in [
        (&*long, 10, 0),
        ("x", 11, 0),
        ("at=0\n", 11, 5),
        ("at=0\nsignal=a\n", 11, 14),
        ("at=0\nsignal=a\nvalue=1", 11, 14),
        ("at=0\nsignal=c\n", 12, 12),
        ("at=4\n", 13, 3),
        ("at=0\nsignal=b\nvalue=2\n", 14, 20),
        ("from=2\nto=1\n", 21, 10),
        ("from=2\nto=4\n", 13, 10),
    ] {
        assert_eq!(ran(&sheet, &[text]), Err((number, place)));
        assert_eq!(ran(&sheet, &[text, &good]), Err((number, place)));
        assert_eq!(ran(&sheet, &["", text, ""]), Err((number, place)));
        let later = Err((number, place + 22));
        assert_eq!(ran(&sheet, &[&good, text]), later);
        assert_eq!(ran(&sheet, &[&good, "", text, &good]), later);
        let last = Err((number, place + 63 * 22));
        let many = [vec![good.as_str(); 63], vec![text]].concat();
        assert_eq!(ran(&sheet, &many), last);
    }
}

#[test]
fn a_text_ends_at_its_own_end() {
    let (sheet, whole) = (sheet(4, "a b", &[]), good() + &good());
    // Only at the end of a reading can the two be parted.
    for length in 0..=whole.len() {
        let (one, two) = whole.split_at(length);
        let refusal = ran(&sheet, &[one, two]).err();
        let place = match length % 22 {
            0 => None,
            1..=4 => Some(0),
            5..=13 => Some(5),
            _ => Some(14),
        };
        let wanted = place.map(|place| (11, (length / 22 * 22 + place) as u64));
        assert_eq!(refusal, wanted, "{length}");
    }
}

#[test]
fn the_longest_texts() {
    let (sheet, good) = (sheet(4_096, "a", &[]), good());
    // 1,489 readings of 22 bytes, 10 of them with a byte more.
    let longest = good.repeat(1_479) + &readings(&[(10, "a", 1); 10]);
    assert_eq!(longest.len(), 32_768);
    let three = [[0, 6, 0, 3 * 4_096 - 6, 0, 0]];
    assert_eq!(records(&sheet, &[&longest, &longest, &longest]), three);
    let over = longest.clone() + "x";
    assert_eq!(ran(&sheet, &[&over, &longest]), Err((10, 0)));
    assert_eq!(ran(&sheet, &[&longest, &over]), Err((10, 32_768)));
    assert_eq!(ran(&sheet, &[&longest, &longest, "x"]), Err((11, 65_536)));
}

#[test]
fn lengths_that_do_not_add_up() {
    let (sheet, good) = (sheet(4, "a", &[]), good());
    let refusal = |texts: &str, lengths: &[u64]| called(&sheet, texts, lengths, (2, 1)).err();
    for right in [&[22][..], &[0, 22], &[22, 0, 0]] {
        assert_eq!(refusal(&good, right), None, "{right:?}");
    }
    // Some of these are right but for 2 to the 64, or for twice as much.
    let (far, half) = (u64::MAX - 4, 1 << 63);
    for wrong in [
        &[][..],
        &[21],
        &[23],
        &[22, 1],
        &[0, 21],
        &[11, 10],
        &[far, 27],
        &[27, far],
        &[22, far, 5],
        &[22, half, half],
        &[u64::MAX, u64::MAX, 24],
        &[u64::MAX, 23],
        &[22 + (1 << 32)],
        &[22 + half],
        &[u64::MAX; 64],
    ] {
        assert_eq!(refusal(&good, wrong), Some((19, 0)), "{wrong:?}");
    }
    assert_eq!(refusal("", &[half, half]), Some((19, 0)));
    assert_eq!(refusal("", &[1]), Some((19, 0)));
    assert_eq!(refusal("", &[0]), None);
}

#[test]
fn the_order_of_refusals() {
    let good_sheet = sheet(4, "a b", &[]);
    let refusal = |sheet: &str, lengths: &[u64], room| called(sheet, "x", lengths, room).err();
    // Of each call all that is told later is wrong too.
    let hidden = ["since(a,a)"; 33];
    for (sheet, refused) in [
        ("x".repeat(32_769), (1, 0)),
        (String::new(), (2, 0)),
        (sheet(4_097, "a b", &[]), (3, 7)),
        (sheet(4, "a b", &hidden), (9, 0)),
    ] {
        assert_eq!(refusal(&sheet, &[7], (5, 3)), Some(refused));
    }
    for words in [0, 2, 3, 5, 8] {
        assert_eq!(refusal(&good_sheet, &[7], (words, 3)), Some((15, 0)));
    }
    for count in [0, 1, 3, 64] {
        assert_eq!(refusal(&good_sheet, &[7], (4, count)), Some((18, 0)));
    }
    assert_eq!(refusal(&good_sheet, &[7], (4, 2)), Some((19, 0)));
    assert_eq!(refusal(&good_sheet, &[1], (4, 2)), Some((11, 0)));
    assert_eq!(
        refusal(&sheet(4, "a b", &["!a"]), &[1], (6, 2)),
        Some((11, 0))
    );
}

#[test]
fn texts_are_checked_in_turn() {
    let (sheet, good) = (sheet(4, "a b", &[]), good());
    let (long, wrong) = ("x".repeat(32_769), "at=0\nsignal=a\nvalue=2\n");
    assert_eq!(ran(&sheet, &[&good, wrong, &long]), Err((14, 42)));
    assert_eq!(ran(&sheet, &[&good, &long, wrong]), Err((10, 22)));
    assert_eq!(ran(&sheet, &[wrong, "at=9\n"]), Err((14, 20)));
    // A text is refused although a run before it clashes.
    let clash = readings(&[(0, "a", 1), (0, "a", 0)]);
    assert_eq!(ran(&sheet, &[&clash, wrong]), Err((14, 64)));
}

/// The names and signs of an accepted listing, in its order.
fn listed(sheet: &str, text: &[u8]) -> Vec<(String, String)> {
    let lines = listing(sheet.as_bytes(), text);
    let of = |key: &str| {
        let values = lines.lines().filter_map(|line| line.strip_prefix(key));
        values.map(str::to_string).collect::<Vec<String>>()
    };
    of("signal=").into_iter().zip(of("marks=")).collect()
}

#[test]
fn generated_calls_count_the_signs_of_listings() {
    let mut calls = 0;
    for number in 0..3_000 {
        let case = case(7, number);
        let Ok(sheet) = String::from_utf8(case.sheet) else {
            continue;
        };
        for call in case.figures {
            let room = (call.words, call.records);
            let texts = String::from_utf8_lossy(&call.texts).to_string();
            let rows = match called(&sheet, &texts, &call.lengths, room) {
                Ok((rows, _)) if call.words <= MOST_WORDS => rows,
                _ => continue,
            };
            let texts = cut(texts.as_bytes(), &call.lengths).unwrap_or_default();
            let listings = texts.iter().map(|(_, text)| listed(&sheet, text));
            let listings: Vec<_> = listings.collect();
            for (place, row) in rows.iter().enumerate() {
                let signs: Vec<&str> = listings.iter().map(|listing| &*listing[place].1).collect();
                assert_eq!(row[1..], counted(&signs), "case {number}");
            }
            calls += 1;
        }
    }
    assert!(calls > 300, "{calls}");
}

/// How many of each sign there are in all, and the earliest tick with 1 or 0.
fn counted(signs: &[&str]) -> [u64; 5] {
    let all = signs.concat();
    let count = |sign: char| all.matches(sign).count() as u64;
    let firsts = signs.iter().filter_map(|signs| signs.find(['1', '0']));
    let first = firsts.min().map_or(NEVER, |tick| tick as u64);
    [count('1'), count('0'), count('?'), count('x'), first]
}
