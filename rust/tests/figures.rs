//! The figures of several readings texts: what comes of each signal, the records' order, the work table, the limits, and each refusal with its place.

mod common {
    pub mod numbers;
    pub mod sheet;
}

use common::numbers::numbers_from;
use common::sheet::sheet;
use mikhakun::{add, ask, check, figures, figures_into, Record, Refusal, Table, Value};

/// A signal's value at every tick from the first to the last.
type Span<'a> = (usize, usize, &'a str, u8);

fn spans(of: &[Span]) -> Vec<u8> {
    let text = |(first, last, name, value): &Span| format!("from={first}\nto={last}\nsignal={name}\nvalue={value}\n");
    of.iter().map(text).collect::<String>().into_bytes()
}

fn singles(of: &[Span]) -> Vec<u8> {
    let text = |&(first, last, name, value): &Span| -> String {
        (first..=last).map(|tick| format!("at={tick}\nsignal={name}\nvalue={value}\n")).collect()
    };
    of.iter().map(text).collect::<String>().into_bytes()
}

fn slices(texts: &[Vec<u8>]) -> Vec<&[u8]> {
    texts.iter().map(Vec::as_slice).collect()
}

fn lengths(texts: &[&[u8]]) -> Vec<u64> {
    texts.iter().map(|text| text.len() as u64).collect()
}

/// What comes of a signal: its name; at how many ticks it is true, false, unsettled, and of a run that clashes; the first settled tick.
type Figures<'a> = (&'a str, [usize; 4], Option<usize>);

/// A case: what it shows, the sheet, the texts, and what comes of them, in the order of the records.
struct Case {
    name: &'static str,
    window: usize,
    signals: &'static [&'static str],
    rules: &'static [&'static str],
    texts: &'static [&'static [Span<'static>]],
    figures: &'static [Figures<'static>],
}

const AISLES: &[&str] = &["clear2", "go10", "open10"];
const OPENS: &[&str] = &["clear2@[-3,0]=>go10", "go10=>open10@[2,2]"];

#[rustfmt::skip]
const CASES: &[Case] = &[
    Case { name: "no text", window: 10, signals: &["a"], rules: &[], texts: &[], figures: &[("a", [0, 0, 0, 0], None)] },
    Case { name: "no text, though the rule settles", window: 2, signals: &["a"], rules: &["!a@[0,1]"], texts: &[], figures: &[("a", [0, 0, 0, 0], None)] },
    Case { name: "an empty text", window: 10, signals: &["a"], rules: &[], texts: &[&[]], figures: &[("a", [0, 0, 10, 0], None)] },
    Case { name: "an empty text, and a rule that settles", window: 2, signals: &["a"], rules: &["!a@[0,1]"], texts: &[&[]], figures: &[("a", [0, 2, 0, 0], Some(0))] },
    Case { name: "true at a tick", window: 10, signals: &["a"], rules: &[], texts: &[&[(3, 3, "a", 1)]], figures: &[("a", [1, 0, 9, 0], Some(3))] },
    Case { name: "false at the last tick", window: 10, signals: &["a"], rules: &[], texts: &[&[(9, 9, "a", 0)]], figures: &[("a", [0, 1, 9, 0], Some(9))] },
    Case { name: "the same text three times", window: 10, signals: &["a"], rules: &[], texts: &[&[(3, 5, "a", 1)], &[(3, 5, "a", 1)], &[(3, 5, "a", 1)]], figures: &[("a", [9, 0, 21, 0], Some(3))] },
    Case { name: "a run knows nothing of another", window: 10, signals: &["a"], rules: &["a=>a@[1,1]"],
           texts: &[&[(8, 8, "a", 1)], &[], &[(0, 0, "a", 0)]], figures: &[("a", [2, 1, 27, 0], Some(0))] },
    Case { name: "true in one run and false in the other is no clash", window: 10, signals: &["a"], rules: &[],
           texts: &[&[(4, 5, "a", 1)], &[(4, 5, "a", 0)]], figures: &[("a", [2, 2, 16, 0], Some(4))] },
    Case { name: "the earliest tick, in whichever run, of either value", window: 10, signals: &["a", "b"], rules: &[],
           texts: &[&[(7, 8, "a", 1), (2, 2, "b", 0)], &[(5, 5, "a", 0), (6, 6, "b", 1)]], figures: &[("a", [2, 1, 17, 0], Some(5)), ("b", [1, 1, 18, 0], Some(2))] },
    Case { name: "a clash counts the window of every signal", window: 10, signals: &["a", "b"], rules: &[],
           texts: &[&[(3, 3, "a", 1), (3, 3, "a", 0), (1, 2, "b", 1)]], figures: &[("a", [0, 0, 0, 10], None), ("b", [0, 0, 0, 10], None)] },
    Case { name: "a clash takes nothing from the other runs", window: 10, signals: &["a", "b"], rules: &["a=>b"],
           texts: &[&[(6, 6, "a", 1)], &[(0, 3, "a", 1), (3, 3, "b", 0)], &[(5, 5, "b", 0)]],
           figures: &[("a", [1, 1, 18, 10], Some(5)), ("b", [1, 1, 18, 10], Some(5))] },
    Case { name: "every run clashes", window: 3, signals: &["a"], rules: &["a&!a"], texts: &[&[], &[(0, 0, "a", 1)]], figures: &[("a", [0, 0, 0, 6], None)] },
    Case { name: "what follows counts as what is read", window: 10, signals: AISLES, rules: OPENS, texts: &[&[(3, 6, "clear2", 1)], &[(0, 9, "clear2", 1)]],
           figures: &[("clear2", [14, 0, 6, 0], Some(0)), ("go10", [8, 0, 12, 0], Some(3)), ("open10", [6, 0, 14, 0], Some(5))] },
    Case { name: "by name, a number at its end as a number", window: 4, signals: &["b", "a10", "a2x", "a2", "a", "a0"], rules: &[],
           texts: &[&[(0, 0, "b", 1), (1, 1, "a10", 1), (2, 2, "a2x", 1), (3, 3, "a2", 1), (0, 1, "a", 0), (2, 3, "a0", 0)]],
           figures: &[("a", [0, 2, 2, 0], Some(0)), ("a0", [0, 2, 2, 0], Some(2)), ("a2", [1, 0, 3, 0], Some(3)), ("a10", [1, 0, 3, 0], Some(1)),
                      ("a2x", [1, 0, 3, 0], Some(2)), ("b", [1, 0, 3, 0], Some(0))] },
    Case { name: "over the border of words", window: 65, signals: &["a", "b"], rules: &["a=>b@[1,1]"], texts: &[&[(60, 63, "a", 1)], &[(64, 64, "b", 0)]],
           figures: &[("a", [4, 1, 125, 0], Some(60)), ("b", [4, 1, 125, 0], Some(61))] },
    Case { name: "the widest window", window: 4_096, signals: &["a"], rules: &["a=>a@[1,1]"], texts: &[&[(4_095, 4_095, "a", 0)], &[(4_000, 4_000, "a", 1)]],
           figures: &[("a", [96, 4_096, 4_000, 0], Some(0))] },
];

impl Case {
    fn sheet(&self) -> Vec<u8> {
        sheet(self.window, self.signals, self.rules)
    }

    /// The texts as spans, one by one, and in turns.
    fn texts(&self) -> [Vec<Vec<u8>>; 3] {
        let in_turns = |(at, text): (usize, &&[Span])| if at % 2 == 0 { spans(text) } else { singles(text) };
        [
            self.texts.iter().map(|text| spans(text)).collect(),
            self.texts.iter().map(|text| singles(text)).collect(),
            self.texts.iter().enumerate().map(in_turns).collect(),
        ]
    }

    fn records(&self) -> Vec<Record> {
        let number = |name: &str| self.signals.iter().position(|signal| *signal == name).unwrap();
        let record = |&(name, [held, failed, unsettled, clashed], first): &Figures| Record {
            signal: number(name),
            held,
            failed,
            unsettled,
            clashed,
            first,
        };
        self.figures.iter().map(record).collect()
    }
}

/// The table after one text is added to an empty one.
fn closed(sheet: &[u8], text: &[u8]) -> Table {
    let mut table = Table::for_sheet(sheet).unwrap();
    add(sheet, text, &mut table).unwrap();
    table
}

/// Adds up what ask tells of a signal, cell by cell, after each text is added to an empty table.
fn counted(sheet: &[u8], window: usize, signal: usize, texts: &[&[u8]]) -> Record {
    let mut record = Record { signal, ..Record::default() };
    for table in texts.iter().map(|text| closed(sheet, text)) {
        for tick in 0..window {
            let value = ask(sheet, &table, signal, tick).unwrap();
            *match value {
                Value::True => &mut record.held,
                Value::False => &mut record.failed,
                Value::Unsettled => &mut record.unsettled,
                Value::Contradiction => &mut record.clashed,
            } += 1;
            if matches!(value, Value::True | Value::False) {
                record.first = Some(record.first.map_or(tick, |first| first.min(tick)));
            }
        }
    }
    record
}

/// The signals by the bytes before the number at the name's end, no number first, then by the number.
fn in_order(signals: &[&str]) -> Vec<usize> {
    let key = |signal: &usize| {
        let stem = signals[*signal].trim_end_matches(|byte: char| byte.is_ascii_digit());
        (stem, signals[*signal][stem.len()..].parse::<usize>().ok())
    };
    let mut numbers: Vec<usize> = (0..signals.len()).collect();
    numbers.sort_by_key(key);
    numbers
}

/// The figures are those counted by add and ask, in order, and the four counts add up; answers them.
fn told(window: usize, signals: &[&str], rules: &[&str], texts: &[&[u8]]) -> Vec<Record> {
    let sheet = sheet(window, signals, rules);
    let records = figures(&sheet, texts).unwrap();
    let wanted: Vec<Record> = in_order(signals).into_iter().map(|signal| counted(&sheet, window, signal, texts)).collect();
    assert_eq!(records, wanted);
    for record in &records {
        assert_eq!(record.held + record.failed + record.unsettled + record.clashed, window * texts.len());
    }
    records
}

#[test]
fn each_case_has_its_figures() {
    for case in CASES {
        for texts in case.texts() {
            assert_eq!(figures(&case.sheet(), &slices(&texts)), Ok(case.records()), "{}", case.name);
        }
    }
}

#[test]
fn each_case_is_what_add_and_ask_tell() {
    for case in CASES {
        for texts in case.texts() {
            assert_eq!(told(case.window, case.signals, case.rules, &slices(&texts)), case.records(), "{}", case.name);
            for text in slices(&texts) {
                told(case.window, case.signals, case.rules, &[text]);
            }
        }
    }
}

/// A text of up to five spans, in either form.
fn text_of_no_order(below: &mut impl FnMut(usize) -> usize, window: usize, signals: &[&'static str]) -> Vec<u8> {
    let count = below(6);
    let mut span = |_| {
        let (first, more) = (below(window), below(8));
        (first, (first + more).min(window - 1), signals[below(signals.len())], below(2) as u8)
    };
    let of: Vec<Span> = (0..count).map(&mut span).collect();
    if below(2) == 0 {
        spans(&of)
    } else {
        singles(&of)
    }
}

#[test]
fn texts_of_no_order_are_what_add_and_ask_tell() {
    let signals = ["z9", "b", "z10", "a1b"];
    let rules = ["b=>z9@[1,2]", "z9<=>!z10", "a1b=>since(b,z10)", "b|a1b?[-1,1]"];
    let (mut with_a_clash, mut settled) = (0, 0);
    for number in 0..60 {
        let mut below = numbers_from(number);
        let window = [1, 2, 24, 63, 64, 65, 130][below(7)];
        let texts: Vec<Vec<u8>> = (0..below(6)).map(|_| text_of_no_order(&mut below, window, &signals)).collect();
        let records = told(window, &signals, &rules, &slices(&texts));
        with_a_clash += usize::from(records[0].clashed > 0);
        settled += usize::from(records[0].first.is_some());
        let turned: Vec<&[u8]> = texts.iter().rev().map(Vec::as_slice).collect();
        assert_eq!(figures(&sheet(window, &signals, &rules), &turned), Ok(records), "{number}");
    }
    assert!((10..50).contains(&with_a_clash) && settled > 20, "{with_a_clash} with a clash, {settled} settled");
}

/// A work table full of marks, past the window too.
fn full_of_marks(sheet: &[u8]) -> Table {
    Table::from(vec![u64::MAX; Table::for_sheet(sheet).unwrap().words().len()])
}

#[test]
fn the_work_table_ends_as_the_last_run_closes_it() {
    for case in CASES {
        let sheet = case.sheet();
        for texts in case.texts() {
            let texts = slices(&texts);
            let (mut work, mut records) = (full_of_marks(&sheet), vec![Record::default(); case.signals.len()]);
            assert_eq!(figures_into(&sheet, &texts.concat(), &lengths(&texts), &mut work, &mut records), Ok(()), "{}", case.name);
            let last = texts.last().map_or_else(|| Table::for_sheet(&sheet).unwrap(), |text| closed(&sheet, text));
            assert_eq!((work, records), (last, case.records()), "{}", case.name);
        }
    }
}

/// A sheet of two signals, for what is refused.
fn small() -> Vec<u8> {
    sheet(4, &["a", "b"], &["a=>b"])
}

const NONSENSE: Record = Record { signal: 777, held: 777, failed: 777, unsettled: 777, clashed: 777, first: Some(777) };

/// The number and the place of a refusal: no word of the work table changes, and no record.
fn refused(sheet: &[u8], texts: &[u8], lengths: &[u64], words: usize, count: usize) -> (u64, usize) {
    let (mut work, mut records) = (Table::from(vec![u64::MAX; words]), vec![NONSENSE; count]);
    let refusal = figures_into(sheet, texts, lengths, &mut work, &mut records).unwrap_err();
    assert_eq!((work.words(), &records[..]), (&vec![u64::MAX; words][..], &vec![NONSENSE; count][..]));
    (refusal.number(), refusal.place())
}

/// The first text that add refuses by itself, and how.
fn first_refused(sheet: &[u8], texts: &[&[u8]]) -> Option<(usize, Refusal)> {
    let alone = |text: &&[u8]| add(sheet, text, &mut Table::for_sheet(sheet).unwrap()).err();
    texts.iter().enumerate().find_map(|(which, text)| Some((which, alone(text)?)))
}

/// The texts are refused by this number: the text that add refuses first, at the place there that add tells and here in the texts joined.
fn text_case(texts: &[&str], number: u64, which: usize, own: usize, joined: usize) {
    let (sheet, texts) = (small(), texts.iter().map(|text| text.as_bytes()).collect::<Vec<_>>());
    let refusal = figures(&sheet, &texts).unwrap_err();
    assert_eq!((refusal.number(), refusal.place()), (number, joined), "{texts:?}");
    let (found, alone) = refusal.among(&texts).unwrap();
    assert_eq!((found, alone.number(), alone.place()), (which, number, own), "{texts:?}");
    assert_eq!(first_refused(&sheet, &texts), Some((found, alone)), "{texts:?}");
    let words = Table::for_sheet(&sheet).unwrap().words().len();
    assert_eq!(refused(&sheet, &texts.concat(), &lengths(&texts), words, 2), (number, joined), "{texts:?}");
}

/// 22 bytes in three lines.
const SINGLE: &str = "at=1\nsignal=a\nvalue=1\n";
/// 29 bytes in four lines.
const SPAN: &str = "from=1\nto=2\nsignal=a\nvalue=1\n";

#[test]
fn a_text_is_refused_where_it_stands() {
    let long = "x".repeat(32_769);
    text_case(&[&long], 10, 0, 0, 0);
    text_case(&[SINGLE, "", &long, SPAN], 10, 2, 0, 22);
    text_case(&["x"], 11, 0, 0, 0);
    text_case(&[SINGLE, SPAN, "x"], 11, 2, 0, 51);
    text_case(&[SPAN, "", "at=1\nsignal=a\nvalue=1"], 11, 2, 14, 43);
    text_case(&[SPAN, "at=1\nsignal=c\n", SPAN], 12, 1, 12, 41);
    text_case(&[SINGLE, "at=4\n"], 13, 1, 3, 25);
    text_case(&["", SINGLE, "from=3\nto=4\n"], 13, 2, 10, 32);
    text_case(&[SPAN, "at=1\nsignal=b\nvalue=2\n"], 14, 1, 20, 49);
    text_case(&[SINGLE, "from=3\nto=2\n"], 21, 1, 10, 32);
}

#[test]
fn a_line_is_missing_at_the_text_s_own_end() {
    text_case(&["at=1\n"], 11, 0, 5, 5);
    text_case(&["at=1\n", SINGLE], 11, 0, 5, 5);
    text_case(&["at=1\n", "", SPAN], 11, 0, 5, 5);
    text_case(&["from=1\nto=2\nsignal=a\n", SINGLE], 11, 0, 21, 21);
    text_case(&[SPAN, "", "at=1\nsignal=a\n"], 11, 2, 14, 43);
    // An entry is not continued in the next text.
    text_case(&["at=1\n", "signal=a\nvalue=1\n"], 11, 0, 5, 5);
    // The same place after whole entries is the next text's first line.
    text_case(&[SINGLE, "signal=a\nvalue=1\n"], 11, 1, 0, 22);
    text_case(&[SPAN, "", "", "value=1\n"], 11, 3, 0, 29);
    text_case(&[&SPAN.repeat(3), "to=1\n"], 11, 1, 0, 87);
}

#[test]
fn each_text_has_a_form_of_its_own() {
    let sheet = small();
    assert!(figures(&sheet, &[SINGLE.as_bytes(), SPAN.as_bytes(), b"", SINGLE.as_bytes()]).is_ok());
    text_case(&[SPAN, &format!("{SINGLE}{SPAN}")], 11, 1, 22, 51);
    text_case(&[SINGLE, &format!("{SPAN}{SINGLE}")], 11, 1, 29, 51);
}

#[test]
fn an_entry_in_each_place_is_refused_as_add_refuses_it() {
    let broken = ["x", "at=1\n", "at=01\n", "at=4\n", "at=1\nsignal=c\n", "at=1\nsignal=a\nvalue=2\n", "from=1\nto=0\n", "from=1\n"];
    for text in broken {
        let alone = add(&small(), text.as_bytes(), &mut Table::for_sheet(&small()).unwrap()).unwrap_err();
        for which in 0..64 {
            let mut texts = vec![SPAN; 64];
            texts[which] = text;
            text_case(&texts, alone.number(), which, alone.place(), 29 * which + alone.place());
        }
    }
}

#[test]
fn the_order_of_refusals() {
    let (good, long) = (small(), vec![b'x'; 32_769]);
    let words = Table::for_sheet(&good).unwrap().words().len();
    let too_large = sheet(1, &["a"], &["a@[-63,63]@[-63,63]@[-63,63]@[-63,63]@[-63,63]"]);
    let late = b"at=4\n".as_slice();
    // All is wrong; then the sheet, the work table, the list of records and the lengths are put right one by one.
    assert_eq!(refused(&long, &long, &[1; 65], 1, 0), (1, 0));
    assert_eq!(refused(b"", &long, &[1; 65], 1, 0), (2, 0));
    assert_eq!(refused(b"window=4097\n", &long, &[1; 65], 1, 0), (3, 7));
    assert_eq!(refused(b"window=1\nsignals=1\nsignal=a01\n", &long, &[1; 65], 1, 0), (4, 26));
    assert_eq!(refused(&sheet(1, &["a"], &["&"]), &long, &[1; 65], 1, 0), (5, 41));
    assert_eq!(refused(&sheet(1, &["a"], &["b"]), &long, &[1; 65], 1, 0), (6, 41));
    assert_eq!(refused(&sheet(1, &["a"], &["a@[1,0]"]), &long, &[1; 65], 1, 0), (7, 43));
    assert_eq!(refused(&sheet(1, &["a"], &["!".repeat(33).as_str()]), &long, &[1; 65], 1, 0), (8, 73));
    assert_eq!(refused(&too_large, &long, &[1; 65], 1, 0), (9, 0));
    assert_eq!(refused(&good, &long, &[1; 65], 1, 0), (15, 0));
    assert_eq!(refused(&good, &long, &[1; 65], words, 0), (18, 0));
    assert_eq!(refused(&good, &long, &[1; 65], words, 2), (19, 0));
    assert_eq!(refused(&good, &long, &[32_768], words, 2), (19, 0));
    assert_eq!(refused(&good, &long, &[32_769], words, 2), (10, 0));
    // The texts' own come in turn, whatever their numbers.
    assert_eq!(refused(&good, &[late, &long].concat(), &[5, 32_769], words, 2), (13, 3));
    assert_eq!(refused(&good, &[&long, late].concat(), &[32_769, 5], words, 2), (10, 0));
    assert_eq!(refused(&good, &[SINGLE.as_bytes(), &long, late].concat(), &[22, 32_769, 5], words, 2), (10, 22));
    assert_eq!(refused(&good, &[late, b"x"].concat(), &[5, 1], words, 2), (13, 3));
    assert_eq!(refused(&good, &[b"x", late].concat(), &[1, 5], words, 2), (11, 0));
}

#[test]
fn a_table_or_a_list_of_another_length() {
    let sheet = small();
    let words = 2 * check(&sheet).unwrap();
    for length in [0, 1, words - 1, words + 1, 2 * words] {
        assert_eq!(refused(&sheet, b"", &[], length, 2), (15, 0), "{length}");
    }
    for count in [0, 1, 3, 63, 64, 65, 66, 1_000] {
        assert_eq!(refused(&sheet, b"", &[], words, count), (18, 0), "{count}");
    }
}

#[test]
fn up_to_64_texts() {
    let (sheet, text) = (small(), SINGLE.as_bytes());
    for runs in [1, 2, 63, 64] {
        let records = figures(&sheet, &vec![text; runs]).unwrap();
        let record = |signal| Record { signal, held: runs, failed: 0, unsettled: 3 * runs, clashed: 0, first: Some(1) };
        assert_eq!(records, [record(0), record(1)]);
    }
    for runs in [65, 66, 128, 1_000] {
        for text in [text, b"", b"x"] {
            let refusal = figures(&sheet, &vec![text; runs]).unwrap_err();
            assert_eq!((refusal.number(), refusal.place(), refusal.among(&vec![text; runs])), (19, 0, None), "{runs}");
        }
    }
}

#[test]
fn a_text_may_be_as_long_as_any_other() {
    let sheet = sheet(4_096, &["a"], &[]);
    // 857 ticks of three digits and 488 of four: 32,768 bytes.
    let longest = singles(&[(143, 1_487, "a", 1)]);
    assert_eq!(longest.len(), 32_768);
    let records = figures(&sheet, &[longest.as_slice(); 64]).unwrap();
    assert_eq!(records, [Record { signal: 0, held: 64 * 1_345, failed: 0, unsettled: 64 * 2_751, clashed: 0, first: Some(143) }]);
    let longer = [longest.as_slice(), b"x"].concat();
    let refusal = figures(&sheet, &[&longest, &longest, &longer, &longest]).unwrap_err();
    assert_eq!((refusal.number(), refusal.place()), (10, 65_536));
    let (which, own) = refusal.among(&[&longest, &longest, &longer, &longest]).unwrap();
    assert_eq!((which, own.number(), own.place()), (2, 10, 0));
}

#[test]
fn the_most_of_everything() {
    let names: Vec<String> = (0..64).rev().map(|number| format!("a{number}")).collect();
    let sheet = sheet(4_096, &names.iter().map(String::as_str).collect::<Vec<_>>(), &[]);
    let records = figures(&sheet, &[b"from=0\nto=4095\nsignal=a63\nvalue=0\n".as_slice(); 64]).unwrap();
    for (number, record) in records.iter().enumerate() {
        let failed = if number == 63 { 64 * 4_096 } else { 0 };
        let first = (number == 63).then_some(0);
        assert_eq!(*record, Record { signal: 63 - number, held: 0, failed, unsettled: 64 * 4_096 - failed, clashed: 0, first });
    }
}

#[test]
fn the_sum_of_lengths_does_not_wrap() {
    let (sheet, text) = (small(), SINGLE.as_bytes());
    let words = Table::for_sheet(&sheet).unwrap().words().len();
    // Each sum would be 0, or 22, if it were cut to 64 bits.
    let to_0: [&[u64]; 5] = [&[u64::MAX, 1], &[1, u64::MAX], &[1 << 63, 1 << 63], &[1 << 58; 64], &[0, u64::MAX, 0, u64::MAX, 2]];
    let to_22: [&[u64]; 5] = [&[u64::MAX, 23], &[23, u64::MAX], &[1 << 63, (1 << 63) + 22], &[22, u64::MAX, 1], &[22, 0, 1 << 63, 1 << 63]];
    for lengths in to_0 {
        assert_eq!(refused(&sheet, b"", lengths, words, 2), (19, 0), "{lengths:?}");
    }
    for lengths in to_22 {
        assert_eq!(refused(&sheet, text, lengths, words, 2), (19, 0), "{lengths:?}");
    }
}

#[test]
fn the_sum_of_lengths_is_that_of_the_texts() {
    let (sheet, texts) = (small(), [SINGLE, SPAN].concat().into_bytes());
    let words = Table::for_sheet(&sheet).unwrap().words().len();
    let sums: [&[u64]; 7] = [&[], &[0], &[22], &[22, 28], &[22, 30], &[22, 29, 1], &[u64::MAX]];
    for lengths in sums {
        assert_eq!(refused(&sheet, &texts, lengths, words, 2), (19, 0), "{lengths:?}");
    }
    for lengths in [&[0u64, 1][..], &[22], &[u64::MAX]] {
        assert_eq!(refused(&sheet, b"", lengths, words, 2), (19, 0), "{lengths:?}");
    }
    let mut records = [NONSENSE; 2];
    for lengths in [&[22u64, 29][..], &[0, 22, 0, 29, 0]] {
        assert_eq!(figures_into(&sheet, &texts, lengths, &mut full_of_marks(&sheet), &mut records), Ok(()), "{lengths:?}");
        assert_eq!(records.map(|record| record.held), [3, 3]);
    }
    assert_eq!(figures_into(&sheet, b"", &[0; 64], &mut full_of_marks(&sheet), &mut records), Ok(()));
    assert_eq!(records.map(|record| (record.unsettled, record.first)), [(256, None), (256, None)]);
}

/// What the refusal of these texts says in words.
fn explained(sheet: &[u8], texts: &[&str]) -> String {
    let texts: Vec<&[u8]> = texts.iter().map(|text| text.as_bytes()).collect();
    figures(sheet, &texts).unwrap_err().explain_among(sheet, &texts).to_string()
}

#[test]
fn a_refusal_names_the_text() {
    let good = small();
    assert_eq!(
        explained(&good, &[SINGLE, SPAN, "at=1\nsignal=c\n"]),
        "text 3: readings, line 2, column 8: no signal of the sheet has this name (refusal 12)\n    signal=c\n           ^"
    );
    assert_eq!(
        explained(&good, &["at=1\nsignal=a\n", SPAN]),
        "text 1: readings, line 3, column 1: a line is missing here (refusal 11)\n    \n    ^"
    );
    assert_eq!(
        explained(&good, &[SINGLE, &format!("{SPAN}{SINGLE}")]),
        "text 2: readings, line 5, column 1: this is a line of single readings, in a text of spans (refusal 11)\n    at=1\n    ^"
    );
    assert_eq!(explained(&good, &[SINGLE, &"x".repeat(32_769)]), "text 2: the readings have over 32,768 bytes (refusal 10)");
    assert_eq!(
        explained(b"window=0\n", &[SINGLE]),
        "sheet, line 1, column 8: the window is 1 to 4,096 ticks (refusal 3)\n    window=0\n           ^"
    );
    assert_eq!(
        explained(&good, &[""; 65]),
        "there are over 64 texts, or the sum of their lengths is not that of the joined texts (refusal 19)"
    );
}

#[test]
fn a_refusal_of_the_list_in_words() {
    let sheet = small();
    let refusal = figures_into(&sheet, b"", &[], &mut Table::for_sheet(&sheet).unwrap(), &mut []).unwrap_err();
    assert_eq!((refusal.text(), refusal.among(&[])), (None, None));
    assert_eq!(refusal.to_string(), "the list of records is not as long as the sheet has signals (refusal 18)");
    assert_eq!(refusal.explain_among(&sheet, &[]).to_string(), refusal.to_string());
}
