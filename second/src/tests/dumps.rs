//! Dumps, worked out by hand: what is written of a table, what is read of a dump, and each refusal with its place.

use super::{readings as single, sheet, shown, written};
use crate::dumps::{dump, read_dump, write_dump};
use crate::operations::{add, check};
use crate::table::{length, word_of};

/// The empty table of an accepted sheet.
fn empty(sheet: &str, window: usize) -> Vec<u64> {
    let rows = check(sheet.as_bytes()).expect("an accepted sheet");
    vec![0; length(rows as usize, window)]
}

/// A mark in a table of this window: row, tick and value.
fn mark(table: &mut [u64], window: usize, (row, tick, value): (usize, usize, bool)) {
    let (place, bit) = word_of(row, tick, value, window);
    table[place] |= bit;
}

fn written_in(sheet: &str, table: &[u64]) -> Result<String, (u64, u64)> {
    written(20_000, |out| write_dump(sheet.as_bytes(), table, out))
}

fn read_in(sheet: &str, dump: &str) -> Result<String, (u64, u64)> {
    written(20_000, |out| {
        read_dump(sheet.as_bytes(), dump.as_bytes(), out)
    })
}

/// The lines up to `#0`, of signals a, b and so on as they are named.
fn head(names: &str) -> String {
    let mut text = "$timescale 1 s $end\n$scope module sheet $end\n".to_string();
    for (number, name) in names.split_whitespace().enumerate() {
        let id = char::from(b"!\"#$%&"[number]);
        text += &format!("$var wire 1 {id} {name} $end\n");
    }
    text + "$upscope $end\n$enddefinitions $end\n#0\n"
}

#[test]
fn the_first_worked_case() {
    let rules = ["clear2@[-3,0]=>go10", "go10=>open10@[2,2]"];
    let sheet = sheet(10, "clear2 go10 open10", &rules);
    let mut table = empty(&sheet, 10);
    let clear: Vec<_> = (3..=6).map(|tick| (tick, "clear2", 1)).collect();
    add(sheet.as_bytes(), single(&clear).as_bytes(), &mut table).expect("accepted readings");
    let wanted =
        head("clear2 go10 open10") + "x!\nx\"\nx#\n#3\n1!\n#6\n1\"\n#7\nx!\nx\"\n#8\n1#\n#9\nx#\n";
    assert_eq!(written_in(&sheet, &table), Ok(wanted.clone()));
    let settled = [&clear[..], &[(6, "go10", 1), (8, "open10", 1)]].concat();
    assert_eq!(read_in(&sheet, &wanted), Ok(single(&settled)));
}

#[test]
fn signs_that_change() {
    let sheet = sheet(4, "a b", &[]);
    let mut table = empty(&sheet, 4);
    let all = head("a b") + "x!\nx\"\n";
    assert_eq!(written_in(&sheet, &table), Ok(all));
    for mark_of in [
        (0, 0, false),
        (0, 1, true),
        (0, 3, true),
        (1, 1, false),
        (1, 2, false),
    ] {
        mark(&mut table, 4, mark_of);
    }
    let wanted = head("a b") + "0!\nx\"\n#1\n1!\n0\"\n#2\nx!\n#3\n1!\nx\"\n";
    assert_eq!(written_in(&sheet, &table), Ok(wanted));
}

#[test]
fn a_window_of_one_tick_has_no_later_time() {
    let sheet = sheet(1, "a", &["a"]);
    let mut table = empty(&sheet, 1);
    add(sheet.as_bytes(), b"", &mut table).expect("no readings");
    assert_eq!(written_in(&sheet, &table), Ok(head("a") + "1!\n"));
}

#[test]
fn ticks_in_later_words() {
    let sheet = sheet(4_096, "a", &[]);
    let mut table = empty(&sheet, 4_096);
    for tick in [63, 64, 4_095] {
        mark(&mut table, 4_096, (0, tick, true));
    }
    let wanted = head("a") + "x!\n#63\n1!\n#65\nx!\n#4095\n1!\n";
    assert_eq!(written_in(&sheet, &table), Ok(wanted.clone()));
    let read = single(&[(63, "a", 1), (64, "a", 1), (4_095, "a", 1)]);
    assert_eq!(read_in(&sheet, &wanted), Ok(read));
}

#[test]
fn the_last_id() {
    let names: Vec<String> = (0..64).map(|number| format!("a{number}")).collect();
    let sheet = sheet(1, &names.join(" "), &[]);
    let text = written_in(&sheet, &empty(&sheet, 1)).expect("a dump");
    assert!(text.contains("$var wire 1 ! a0 $end\n"));
    assert!(text.contains("$var wire 1 ` a63 $end\n"));
    assert!(text.ends_with("x_\nx`\n"));
    assert_eq!(read_in(&sheet, &text), Ok(String::new()));
}

#[test]
fn what_a_reader_takes_besides() {
    let sheet = sheet(6, "a b", &[]);
    let read = |text: &str| read_in(&sheet, &(head("a b") + text));
    let wanted = |values: &[(usize, &str, usize)]| Ok(single(values));
    // Signs hold to the window's end.
    assert_eq!(
        read("x!\nx\"\n#4\n1!\n0\"\n"),
        wanted(&[(4, "a", 1), (4, "b", 0), (5, "a", 1), (5, "b", 0)])
    );
    // z is x, said again or not; a time may have no sign.
    assert_eq!(
        read("0!\nz\"\n#1\nz!\nz\"\n#2\n#3\nx!\n#5\n1\"\n"),
        wanted(&[(0, "a", 0), (5, "b", 1)])
    );
    assert_eq!(
        read("1!\nx\"\n#1\n1!\n#2\nx!\n#5\n"),
        wanted(&[(0, "a", 1), (1, "a", 1)])
    );
    // No reading at all.
    assert_eq!(read("x!\nz\"\n"), wanted(&[]));
}

#[test]
fn every_timescale() {
    let sheet = sheet(2, "a", &[]);
    let plain = head("a") + "x!\n#1\n0!\n";
    for scale in ["1", "10", "100"] {
        for unit in ["s", "ms", "us", "ns", "ps", "fs"] {
            let text = plain.replacen("1 s", &format!("{scale} {unit}"), 1);
            assert_eq!(read_in(&sheet, &text), Ok(single(&[(1, "a", 0)])), "{text}");
        }
    }
    for other in [
        "2 s", "0 s", "1000 s", "1 S", "1 min", "1s", "1  s", "01 s", "",
    ] {
        let text = plain.replacen("1 s", other, 1);
        assert_eq!(read_in(&sheet, &text), Err((22, 0)), "{other}");
    }
}

/// A whole dump for the refusals below, of window 12 and signals a and b.
const WHOLE: [&str; 13] = [
    "$timescale 1 s $end\n",
    "$scope module sheet $end\n",
    "$var wire 1 ! a $end\n",
    "$var wire 1 \" b $end\n",
    "$upscope $end\n",
    "$enddefinitions $end\n",
    "#0\n",
    "0!\n",
    "1\"\n",
    "#1\n",
    "1!\n",
    "0\"\n",
    "#11\n",
];

/// What reading the dump gives with other bytes in the place of this line, at what place in that line.
fn refused_with(line: usize, other: &str) -> Option<(u64, i64)> {
    let start: usize = WHOLE[..line].iter().map(|line| line.len()).sum();
    let text = WHOLE[..line].concat() + other + &WHOLE[line + 1..].concat();
    let refusal = read_in(&sheet(12, "a b", &[]), &text).err();
    refusal.map(|(number, place)| (number, place as i64 - start as i64))
}

#[test]
fn every_line_missing_or_twice() {
    let sheet = sheet(12, "a b", &[]);
    assert!(read_in(&sheet, &WHOLE.concat()).is_ok());
    for line in 0..WHOLE.len() {
        let text = WHOLE[..line].concat();
        let end = text.len() as u64;
        // Cut before this line: after the first signs a dump may end.
        let wanted = (line < 9).then_some((22, end));
        assert_eq!(read_in(&sheet, &text).err(), wanted, "{line}");
        // The line without its LF, and nothing after it.
        let torn = WHOLE[line].trim_end();
        let text = text + torn;
        assert_eq!(read_in(&sheet, &text), Err((22, end)), "{line}");
        // Without the line, and with it twice.
        let dropped = match line {
            // Times and signs after the first ones may be left out; those of tick 1 then stand at tick 0, out of order.
            9 => Some((22, 0)),
            10..=12 => None,
            _ => Some((22, 0)),
        };
        assert_eq!(refused_with(line, ""), dropped, "{line}");
        let twice = WHOLE[line].repeat(2);
        let wanted = Some((22, WHOLE[line].len() as i64));
        assert_eq!(refused_with(line, &twice), wanted, "{line}");
    }
}

#[test]
fn names_that_are_not_declared() {
    for (name, line) in [("a", 2), ("b", 3)] {
        let key = &WHOLE[line][..14];
        for other in [
            "", "c", "A", " ", "a b", "a02", "a10000", "since", "$end", "a $end",
        ] {
            let text = format!("{key}{other} $end\n");
            assert_eq!(refused_with(line, &text), Some((12, 14)), "{text}");
        }
        // A declared one in another's place; and the form of a line comes before the name.
        let other = if name == "a" { "b" } else { "a" };
        assert_eq!(
            refused_with(line, &format!("{key}{other} $end\n")),
            Some((22, 0))
        );
        for end in ["", "$end", " $end ", " $en", " $END", " $end\r"] {
            let text = format!("{key}c{end}\n");
            assert_eq!(refused_with(line, &text), Some((22, 0)), "{text}");
        }
        for after_key in ["", "$end", "x$end"] {
            let text = format!("{key}{after_key}\n");
            assert_eq!(refused_with(line, &text), Some((22, 0)), "{text}");
        }
        for key in [
            "$var wire 1 # ",
            "$var reg 1 ! ",
            "$var wire 2 ! ",
            "$var wire 1  ",
            "$var wire 1 !",
        ] {
            let text = format!("{key}c $end\n");
            assert_eq!(refused_with(line, &text), Some((22, 0)), "{text}");
        }
    }
}

#[test]
fn times() {
    for time in ["#12", "#13", "#100", "#4096", "#99999"] {
        assert_eq!(
            refused_with(12, &format!("{time}\n")),
            Some((13, 1)),
            "{time}"
        );
    }
    for time in [
        "#0", "#1", "#", "#01", "#011", "#00", "#100000", "#000002", "# 2", "#2 ", "#-2", "#+2",
        "#a", "##2", "#2\r", "2", "",
    ] {
        assert_eq!(
            refused_with(12, &format!("{time}\n")),
            Some((22, 0)),
            "{time}"
        );
    }
    for time in ["#2", "#9", "#10", "#11"] {
        assert_eq!(refused_with(12, &format!("{time}\n")), None, "{time}");
    }
    // Before the first sign of every signal no time may stand, not even one outside the window.
    assert_eq!(refused_with(8, "#12\n"), Some((22, 0)));
}

#[test]
fn signs() {
    for (line, others) in [
        (
            7,
            ["1\"", "0#", "2!", "X!", "0 !", "0", "!", "0!!", "", "b0 !"],
        ),
        (
            8,
            [
                "1!", "1#", "-\"", "Z\"", "1 \"", "1", "\"", "1\"\"", "", "b1 \"",
            ],
        ),
        (
            10,
            ["1#", "1 ", "u!", "Z!", "1 !", "1", "!", "1!!", "", "b1 !"],
        ),
        (
            11,
            [
                "0!", "0#", "3\"", "X\"", "0 \"", "0", "\"", "0\"\"", "", "$end",
            ],
        ),
    ] {
        for other in others {
            assert_eq!(
                refused_with(line, &format!("{other}\n")),
                Some((22, 0)),
                "{line} {other}"
            );
        }
    }
    // Out of order: the second of two is refused.
    assert_eq!(refused_with(10, "1\"\n1!\n"), Some((22, 3)));
}

#[test]
fn tables_that_are_refused() {
    let sheet = sheet(10, "a b", &["a=>b@[1,1]", "since(a,b)"]);
    let whole = empty(&sheet, 10);
    let rows = whole.len() / 2;
    for words in [0, 1, whole.len() - 1, whole.len() + 1] {
        assert_eq!(written_in(&sheet, &vec![u64::MAX; words]), Err((15, 0)));
    }
    for row in 0..rows {
        for value in [false, true] {
            let mut table = whole.clone();
            mark(&mut table, 10, (row, 9, value));
            assert!(written_in(&sheet, &table).is_ok());
            mark(&mut table, 10, (row, 9, !value));
            assert_eq!(written_in(&sheet, &table), Err((23, 0)), "{row}");
            // A mark outside the window comes before a clash, a clash before the room.
            assert_eq!(
                shown(write_dump(sheet.as_bytes(), &table, &mut [])),
                Some((23, 0))
            );
            table[2 * row + usize::from(value)] |= 1 << 10;
            assert_eq!(written_in(&sheet, &table), Err((16, 0)), "{row}");
        }
    }
    // Two marks in one row at different ticks are no clash.
    let mut table = whole;
    mark(&mut table, 10, (0, 1, true));
    mark(&mut table, 10, (0, 2, false));
    assert!(written_in(&sheet, &table).is_ok());
}

#[test]
fn room_for_the_text() {
    let sheet = sheet(4, "a", &[]);
    let mut table = empty(&sheet, 4);
    mark(&mut table, 4, (0, 2, true));
    let text = dump(sheet.as_bytes(), &table).expect("a dump");
    let readings = single(&[(2, "a", 1)]);
    for room in [
        0,
        1,
        text.len() / 2,
        text.len() - 1,
        text.len(),
        text.len() + 1,
        1_000,
    ] {
        let written = written(room, |out| write_dump(sheet.as_bytes(), &table, out));
        let wanted = if room < text.len() {
            Err((20, 0))
        } else {
            Ok(text.clone())
        };
        assert_eq!(written, wanted, "{room}");
    }
    for room in [0, 1, readings.len() - 1, readings.len(), readings.len() + 1] {
        let written = written(room, |out| {
            read_dump(sheet.as_bytes(), text.as_bytes(), out)
        });
        let wanted = if room < readings.len() {
            Err((20, 0))
        } else {
            Ok(readings.clone())
        };
        assert_eq!(written, wanted, "{room}");
    }
    // Nothing to be written needs no room.
    let nothing = head("a") + "x!\n";
    assert_eq!(
        read_dump(sheet.as_bytes(), nothing.as_bytes(), &mut []),
        Ok(0)
    );
}

#[test]
fn the_order_of_refusals() {
    let good = sheet(12, "a b", &[]);
    let many = ["since(a,a)"; 33];
    for (text, refusal) in [
        (String::new(), (2, 0)),
        (sheet(4_097, "a b", &[]), (3, 7)),
        (sheet(12, "a b", &many), (9, 0)),
    ] {
        assert_eq!(
            shown(write_dump(text.as_bytes(), &[1; 3], &mut [])),
            Some(refusal)
        );
        assert_eq!(
            shown(read_dump(text.as_bytes(), b"x", &mut [])),
            Some(refusal)
        );
    }
    let read = |text: &str| shown(read_dump(good.as_bytes(), text.as_bytes(), &mut []));
    assert_eq!(read(""), Some((22, 0)));
    // An unknown name, then a time outside the window; the first line that is wrong tells the refusal.
    let wrong = WHOLE
        .concat()
        .replace(" b $end", " c $end")
        .replace("#11", "#12");
    assert_eq!(read(&wrong), Some((12, 80)));
    assert_eq!(read(&WHOLE.concat().replace("#11", "#12")), Some((13, 141)));
    assert_eq!(read(&WHOLE.concat()), Some((20, 0)));
}
