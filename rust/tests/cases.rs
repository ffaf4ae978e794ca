//! P1 to P10, and signals that a listing has in another order: what follows from each sheet and its readings, one sign a tick as in the listing.

mod common {
    pub mod sheet;
}

use common::sheet::sheet;
use mikhakun::{add, ask, check, to_readings, to_spans, Added, Table};

/// A case: what it is called, the window, the signals, the rules, the readings as tick, signal and value, and what follows.
struct Case {
    name: &'static str,
    window: usize,
    signals: &'static [&'static str],
    rules: &'static [&'static str],
    readings: &'static [(usize, &'static str, u8)],
    marks: &'static [&'static str],
    new_facts: usize,
    clash: bool,
}

const CLEAR: &[(usize, &str, u8)] = &[(3, "clear2", 1), (4, "clear2", 1), (5, "clear2", 1), (6, "clear2", 1)];
const AISLES: &[&str] = &["clear2", "go10", "open10"];
const OPENED: &[&str] = &["???1111???", "??????1???", "????????1?"];

#[rustfmt::skip]
const CASES: &[Case] = &[
    Case { name: "P1", window: 10, signals: AISLES, rules: &["clear2@[-3,0]=>go10", "go10=>open10@[2,2]"], readings: CLEAR, marks: OPENED, new_facts: 6, clash: false },
    Case { name: "P1 in the other order", window: 10, signals: AISLES, rules: &["go10=>open10@[2,2]", "clear2@[-3,0]=>go10"], readings: CLEAR, marks: OPENED, new_facts: 6, clash: false },
    Case { name: "P2", window: 2, signals: &["a"], rules: &["!a@[0,1]"], readings: &[], marks: &["00"], new_facts: 2, clash: false },
    Case { name: "P3", window: 2, signals: &["a"], rules: &["!(a@[0,1])"], readings: &[(0, "a", 1)], marks: &["10"], new_facts: 2, clash: false },
    Case { name: "P4", window: 2, signals: &["a"], rules: &["a?[0,1]"], readings: &[(1, "a", 0)], marks: &["10"], new_facts: 2, clash: false },
    Case { name: "P5", window: 3, signals: &["a"], rules: &["a=>a@[1,1]"], readings: &[(0, "a", 1)], marks: &["111"], new_facts: 3, clash: false },
    Case { name: "P6", window: 3, signals: &["a"], rules: &["a=>a@[1,1]"], readings: &[(2, "a", 0)], marks: &["000"], new_facts: 3, clash: false },
    Case { name: "P7", window: 1, signals: &["a", "b"], rules: &["a|b", "a|!b"], readings: &[], marks: &["?", "?"], new_facts: 0, clash: false },
    Case { name: "P8", window: 1, signals: &["a", "b"], rules: &["a|b", "a|!b", "!a|b", "!a|!b"], readings: &[], marks: &["?", "?"], new_facts: 0, clash: false },
    Case { name: "P9", window: 1, signals: &["a"], rules: &[], readings: &[(0, "a", 1), (0, "a", 0)], marks: &["x"], new_facts: 2, clash: true },
    Case { name: "P10", window: 4, signals: &["a", "b", "c"], rules: &["c<=>since(a,b)"],
           readings: &[(1, "a", 1), (2, "a", 0), (3, "a", 0), (2, "b", 1), (3, "b", 0)], marks: &["?100", "??10", "??11"], new_facts: 7, clash: false },
    Case { name: "numbers in sheet order, whatever the names", window: 3, signals: &["aisle10", "aisle2", "aisle"], rules: &["aisle10=>aisle2@[1,1]"],
           readings: &[(0, "aisle10", 1), (0, "aisle", 0)], marks: &["1??", "?1?", "0??"], new_facts: 3, clash: false },
];

impl Case {
    fn sheet(&self) -> Vec<u8> {
        sheet(self.window, self.signals, self.rules)
    }

    fn texts(&self) -> Vec<Vec<u8>> {
        let text = |(tick, name, value): &(usize, &str, u8)| format!("at={tick}\nsignal={name}\nvalue={value}\n").into_bytes();
        self.readings.iter().map(text).collect()
    }

    fn marks_in(&self, sheet: &[u8], table: &Table) -> Vec<String> {
        let sign = |signal, tick| ask(sheet, table, signal, tick).unwrap().sign();
        (0..self.signals.len()).map(|signal| (0..self.window).map(|tick| sign(signal, tick)).collect()).collect()
    }
}

#[test]
fn each_case_has_its_marks() {
    for case in CASES {
        let sheet = case.sheet();
        let mut table = Table::for_sheet(&sheet).unwrap();
        let added = add(&sheet, &case.texts().concat(), &mut table).unwrap();
        assert_eq!(added, Added { new_facts: case.new_facts, clash: case.clash }, "{}", case.name);
        assert_eq!(case.marks_in(&sheet, &table), case.marks, "{}", case.name);
    }
}

#[test]
fn readings_one_by_one_in_any_order_give_the_same_table() {
    for case in CASES {
        let sheet = case.sheet();
        let mut whole = Table::for_sheet(&sheet).unwrap();
        let facts = add(&sheet, &case.texts().concat(), &mut whole).unwrap().new_facts;
        let mut cut = Table::for_sheet(&sheet).unwrap();
        let mut sum = add(&sheet, b"", &mut cut).unwrap().new_facts;
        for text in case.texts().iter().rev() {
            sum += add(&sheet, text, &mut cut).unwrap().new_facts;
        }
        assert_eq!(cut, whole, "{}", case.name);
        assert_eq!(sum, facts, "{}", case.name);
    }
}

#[test]
fn readings_moved_to_either_form_give_the_same_table() {
    for case in CASES {
        let (sheet, readings) = (case.sheet(), case.texts().concat());
        let closed = |text: &[u8]| {
            let mut table = Table::for_sheet(&sheet).unwrap();
            (add(&sheet, text, &mut table).unwrap(), table)
        };
        for text in [to_spans(&sheet, &readings).unwrap(), to_readings(&sheet, &readings).unwrap()] {
            assert_eq!(closed(&text), closed(&readings), "{}", case.name);
        }
    }
}

#[test]
fn an_empty_table_has_two_words_a_row() {
    for case in CASES {
        let sheet = case.sheet();
        let rows = check(&sheet).unwrap();
        assert_eq!(Table::for_sheet(&sheet).unwrap().into_words(), vec![0; 2 * rows], "{}", case.name);
    }
}
