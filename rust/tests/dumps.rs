//! Value change dumps: what is written of a table, what is read of a dump, the way there and back, the room, the limits, and the order of refusals.

mod common {
    pub mod numbers;
    pub mod sheet;
}

use common::numbers::numbers_from;
use common::sheet::sheet;
use mikhakun::{add, ask, check, read_dump, read_dump_into, write_dump, write_dump_into, Refusal, Table, Value};
use mikhakun::{LONGEST_DUMP, LONGEST_DUMP_READINGS, LONGEST_TEXT};

const NAMES: &[&str] = &["clear2", "go10", "open10"];
const RULES: &[&str] = &["clear2@[-3,0]=>go10", "go10=>open10@[2,2]"];

/// The lines before `#0`, with this timescale.
fn head(timescale: &str, names: &[&str]) -> String {
    let var = |(number, name): (usize, &&str)| format!("$var wire 1 {} {name} $end\n", char::from(33 + number as u8));
    let vars: String = names.iter().enumerate().map(var).collect();
    format!("$timescale {timescale} $end\n$scope module sheet $end\n{vars}$upscope $end\n$enddefinitions $end\n")
}

/// A reading's tick, name and value.
type Reading<'a> = (usize, &'a str, u8);

fn readings(of: &[Reading]) -> String {
    of.iter().map(|(tick, name, value)| format!("at={tick}\nsignal={name}\nvalue={value}\n")).collect()
}

/// The table of a sheet with these readings added.
fn closed(sheet: &[u8], readings: &str) -> Table {
    let mut table = Table::for_sheet(sheet).unwrap();
    add(sheet, readings.as_bytes(), &mut table).unwrap();
    table
}

fn dump_of(sheet: &[u8], table: &Table) -> String {
    String::from_utf8(write_dump(sheet, table).unwrap()).unwrap()
}

fn readings_of(sheet: &[u8], dump: &str) -> String {
    String::from_utf8(read_dump(sheet, dump.as_bytes()).unwrap()).unwrap()
}

fn refused<T: std::fmt::Debug>(answer: Result<T, Refusal>) -> (u64, usize) {
    let refusal = answer.unwrap_err();
    (refusal.number(), refusal.place())
}

/// What ask tells of each cell, as readings by tick, then signal.
fn settled(sheet: &[u8], names: &[&str], window: usize, table: &Table) -> String {
    let cells = (0..window).flat_map(|tick| (0..names.len()).map(move |signal| (tick, signal)));
    let reading = |(tick, signal)| match ask(sheet, table, signal, tick).unwrap() {
        Value::True => readings(&[(tick, names[signal], 1)]),
        Value::False => readings(&[(tick, names[signal], 0)]),
        _ => String::new(),
    };
    cells.map(reading).collect()
}

#[test]
fn the_shipped_example() {
    let sheet = sheet(10, NAMES, RULES);
    let clear: Vec<_> = (3..=6).map(|tick| (tick, "clear2", 1)).collect();
    let table = closed(&sheet, &readings(&clear));
    let wanted = head("1 s", NAMES) + "#0\nx!\nx\"\nx#\n#3\n1!\n#6\n1\"\n#7\nx!\nx\"\n#8\n1#\n#9\nx#\n";
    assert_eq!(dump_of(&sheet, &table), wanted);
    assert_eq!(readings_of(&sheet, &wanted), readings(&clear) + &readings(&[(6, "go10", 1), (8, "open10", 1)]));
}

#[test]
fn a_table_without_marks() {
    for window in [1, 2, 64, 65, 4_096] {
        let sheet = sheet(window, NAMES, &[]);
        let wanted = head("1 s", NAMES) + "#0\nx!\nx\"\nx#\n";
        assert_eq!(dump_of(&sheet, &Table::for_sheet(&sheet).unwrap()), wanted, "{window}");
        assert_eq!(readings_of(&sheet, &wanted), "", "{window}");
        assert_eq!(read_dump_into(&sheet, wanted.as_bytes(), &mut []), Ok(0), "{window}");
    }
}

#[test]
fn what_a_reader_takes_besides_what_is_written() {
    let sheet = sheet(6, &["a", "b"], &[]);
    let cases: &[(&str, &[Reading])] = &[
        // A sign holds until the next, or to the window's end.
        ("x!\nx\"\n#4\n1!\n0\"\n", &[(4, "a", 1), (4, "b", 0), (5, "a", 1), (5, "b", 0)]),
        ("1!\n0\"\n#1\n0!\nx\"\n#2\nx!\n", &[(0, "a", 1), (0, "b", 0), (1, "a", 0)]),
        // z as x.
        ("0!\nz\"\n#1\nz!\n#5\n1\"\n", &[(0, "a", 0), (5, "b", 1)]),
        // Signs said again, and times without a sign, also the last.
        ("1!\nx\"\n#1\n1!\nx\"\n#2\n#3\nz!\nz\"\n#5\n", &[(0, "a", 1), (1, "a", 1), (2, "a", 1)]),
    ];
    for (signs, wanted) in cases {
        for scale in ["1", "10", "100"] {
            for unit in ["s", "ms", "us", "ns", "ps", "fs"] {
                let dump = head(&format!("{scale} {unit}"), &["a", "b"]) + "#0\n" + signs;
                assert_eq!(readings_of(&sheet, &dump), readings(wanted), "{dump}");
            }
        }
    }
}

/// A table without rules whose marks hold for a while, from a row of numbers that begins with this one: what it holds is not closed.
fn table_of_no_order(number: u64, rows: usize, window: usize) -> Table {
    let mut below = numbers_from(number);
    let (row_words, pace) = ((window + 63) / 64, [1, 3, 40][below(3)]);
    let mut words = vec![0; 2 * rows * row_words];
    for row in 0..rows {
        let mut sign = below(3);
        for tick in 0..window {
            if below(pace) == 0 {
                sign = below(3);
            }
            if sign < 2 {
                words[(2 * row + sign) * row_words + tick / 64] |= 1 << (tick % 64);
            }
        }
    }
    Table::from(words)
}

#[test]
fn there_and_back() {
    let mut signs = 0;
    for window in [1, 2, 63, 64, 65, 128, 200, 4_096] {
        let sheet = sheet(window, NAMES, RULES);
        let rows = check(&sheet).unwrap();
        for number in 0..if window > 200 { 2 } else { 30 } {
            let table = table_of_no_order(number, rows, window);
            let dump = dump_of(&sheet, &table);
            let read = readings_of(&sheet, &dump);
            assert_eq!(read, settled(&sheet, NAMES, window, &table), "{window} {number}");
            // Another sheet has no rules: its table of the readings alone, added in parts, gives the same dump.
            let plain = self::sheet(window, NAMES, &[]);
            assert_eq!(dump_of(&plain, &in_parts(&plain, &read)), dump, "{window} {number}");
            signs += read.matches("at=").count();
        }
    }
    assert!(signs > 20_000, "{signs}");
}

/// The table of readings that may be longer than an add takes: cut between readings.
fn in_parts(sheet: &[u8], readings: &str) -> Table {
    let mut table = Table::for_sheet(sheet).unwrap();
    let lines: Vec<&str> = readings.split_inclusive('\n').collect();
    for part in lines.chunks(3 * 500) {
        let text = part.concat();
        assert!(text.len() <= LONGEST_TEXT);
        add(sheet, text.as_bytes(), &mut table).unwrap();
    }
    table
}

/// A sheet of 64 signals whose names have 16 bytes, over the widest window.
fn largest() -> Vec<u8> {
    let names: Vec<String> = (0..64).map(|number| format!("abcdefghijkl{}", 1_000 + number)).collect();
    sheet(4_096, &names.iter().map(String::as_str).collect::<Vec<_>>(), &[])
}

#[test]
fn the_longest_texts() {
    let sheet = largest();
    // Every tick has another sign than the one before: true at even ticks, false at odd ones.
    let words = (0..2 * 64 * 64).map(|word| if word / 64 % 2 == 0 { 0x5555_5555_5555_5555 } else { 0xAAAA_AAAA_AAAA_AAAA });
    let table = Table::from(words.collect::<Vec<u64>>());
    let dump = write_dump(&sheet, &table).unwrap();
    assert_eq!(dump.len(), LONGEST_DUMP);
    let read = read_dump(&sheet, &dump).unwrap();
    assert_eq!(read.len(), LONGEST_DUMP_READINGS);
    assert!(read.ends_with(b"at=4095\nsignal=abcdefghijkl1063\nvalue=0\n"));
    let mut buffer = vec![b'.'; LONGEST_DUMP];
    assert_eq!(refused(write_dump_into(&sheet, &table, &mut buffer[1..])), (20, 0));
    assert!(buffer.iter().all(|&byte| byte == b'.'));
    assert_eq!(write_dump_into(&sheet, &table, &mut buffer), Ok(LONGEST_DUMP));
    assert_eq!(buffer, dump);
    let mut buffer = vec![b'.'; LONGEST_DUMP_READINGS];
    assert_eq!(refused(read_dump_into(&sheet, &dump, &mut buffer[1..])), (20, 0));
    assert!(buffer.iter().all(|&byte| byte == b'.'));
    assert_eq!(read_dump_into(&sheet, &dump, &mut buffer), Ok(LONGEST_DUMP_READINGS));
    assert_eq!(buffer, read);
}

#[test]
fn texts_about_as_long_as_the_first_buffer() {
    // A name of 5 bytes and ticks of three digits: a reading has 28 bytes, and each readings text of these fits or not by a reading.
    let (name, window) = ("shut1", 4_096);
    let sheet = sheet(window, &[name], &[]);
    for ticks in [1_100, 1_150, 1_151, 1_152, 1_153, 1_154, 1_155, 1_200, 4_096] {
        let dump = head("1 s", &[name]) + "#0\n1!\n" + &if ticks < window { format!("#{ticks}\nx!\n") } else { String::new() };
        let wanted: Vec<_> = (0..ticks).map(|tick| (tick, name, 1)).collect();
        assert_eq!(readings_of(&sheet, &dump), readings(&wanted), "{ticks}");
    }
}

#[test]
fn a_long_dump_of_few_readings() {
    // Signs said again make a dump longer than any that is written.
    let sheet = sheet(4_096, &["a"], &[]);
    let again: String = (1..4_096).map(|tick| format!("#{tick}\nz!\n")).collect();
    let dump = head("100 fs", &["a"]) + "#0\n1!\n" + &again;
    assert!(dump.len() > LONGEST_TEXT);
    assert_eq!(readings_of(&sheet, &dump), readings(&[(0, "a", 1)]));
}

#[test]
fn a_buffer_keeps_what_is_not_written() {
    let sheet = sheet(10, NAMES, RULES);
    let table = closed(&sheet, &readings(&[(4, "clear2", 0), (5, "go10", 1)]));
    let dump = write_dump(&sheet, &table).unwrap();
    let read = read_dump(&sheet, &dump).unwrap();
    type Into<'a> = Box<dyn Fn(&mut [u8]) -> Result<usize, Refusal> + 'a>;
    let calls: [(&[u8], Into); 2] = [
        (&dump, Box::new(|buffer| write_dump_into(&sheet, &table, buffer))),
        (&read, Box::new(|buffer| read_dump_into(&sheet, &dump, buffer))),
    ];
    for (text, into) in &calls {
        for room in [text.len(), text.len() + 1, text.len() + 100] {
            let mut buffer = vec![b'.'; room];
            assert_eq!(into(&mut buffer), Ok(text.len()));
            assert_eq!(buffer, [text.to_vec(), vec![b'.'; room - text.len()]].concat());
        }
        for room in [0, 1, text.len() / 2, text.len() - 1] {
            let mut buffer = vec![b'.'; room];
            assert_eq!(refused(into(&mut buffer)), (20, 0));
            assert_eq!(buffer, vec![b'.'; room]);
        }
    }
}

#[test]
fn a_clash_in_any_row() {
    for window in [10, 64, 65, 200] {
        let sheet = sheet(window, NAMES, &["clear2=>since(go10,open10)"]);
        let (rows, n) = (check(&sheet).unwrap(), (window + 63) / 64);
        for row in 0..rows {
            for tick in [0, window / 2, window - 1] {
                let mut words = vec![0; 2 * rows * n];
                let (held, failed) = (2 * row * n + tick / 64, (2 * row + 1) * n + tick / 64);
                words[held] = 1 << (tick % 64);
                assert!(write_dump(&sheet, &Table::from(words.clone())).is_ok());
                words[failed] = 1 << (tick % 64);
                assert_eq!(refused(write_dump(&sheet, &Table::from(words))), (23, 0), "{window} {row} {tick}");
            }
        }
    }
}

#[test]
fn the_order_of_refusals() {
    let good = sheet(10, NAMES, RULES);
    let too_large = sheet(10, NAMES, &["go10@[-63,63]@[-63,63]@[-63,63]@[-63,63]@[-63,63]"]);
    let rows = check(&good).unwrap();
    let write = |sheet: &[u8], words: Vec<u64>| refused(write_dump_into(sheet, &Table::from(words), &mut []));
    // All is wrong; then what is refused first is put right, one by one.
    let wrong = vec![u64::MAX; 2 * rows - 1];
    assert_eq!(write(&[b'x'; LONGEST_TEXT + 1], wrong.clone()), (1, 0));
    assert_eq!(write(b"", wrong.clone()), (2, 0));
    assert_eq!(write(b"window=4097\n", wrong.clone()), (3, 7));
    assert_eq!(write(&too_large, wrong.clone()), (9, 0));
    assert_eq!(write(&good, wrong), (15, 0));
    assert_eq!(write(&good, vec![u64::MAX; 2 * rows]), (16, 0));
    assert_eq!(write(&good, vec![0x3FF; 2 * rows]), (23, 0));
    assert_eq!(write(&good, vec![0; 2 * rows]), (20, 0));
    let read = |sheet: &[u8], dump: &str| refused(read_dump_into(sheet, dump.as_bytes(), &mut []));
    let whole = head("1 s", NAMES) + "#0\n1!\nx\"\nx#\n#9\n";
    assert_eq!(read(&[b'x'; LONGEST_TEXT + 1], ""), (1, 0));
    assert_eq!(read(b"", ""), (2, 0));
    assert_eq!(read(&too_large, ""), (9, 0));
    assert_eq!(read(&good, ""), (22, 0));
    // In one line: the form before the name. Of several lines the first that is wrong.
    assert_eq!(read(&good, &whole.replace("! clear2 $end", "! clear3")), (22, 45));
    assert_eq!(read(&good, &whole.replace("clear2", "clear3").replace("#9", "#10")), (12, 59));
    assert_eq!(read(&good, &whole.replace("#9", "#10\n#1")), (13, 169));
    assert_eq!(read(&good, &whole.replace("#9", "#9\n#9")), (22, 171));
    assert_eq!(read(&good, &whole), (20, 0));
}
