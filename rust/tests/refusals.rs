//! Each refusal number, with its place and what its explanation says.

use mikhakun::{add, ask, caption, check, figures, figures_into, print_rule, print_rule_into, Refusal, Table, Text};
use mikhakun::{read_dump, read_dump_into, to_readings, to_readings_into, to_spans, to_spans_into, write_dump, write_dump_into};

const SHEET: &[u8] = b"window=10\nsignals=2\nsignal=clear2\nsignal=go10\nrules=1\nrule=clear2@[-3,0]=>go10\n";

/// The head of a sheet of one signal and one rule, up to the rule's text.
const HEAD: &str = "window=4\nsignals=1\nsignal=a\nrules=1\nrule=";

fn refused_sheet(sheet: &[u8]) -> Refusal {
    let refusal = check(sheet).unwrap_err();
    let mut table = Table::empty(0, 0);
    assert_eq!(add(sheet, b"", &mut table), Err(refusal));
    assert_eq!(ask(sheet, &table, 0, 0), Err(refusal));
    assert_eq!(figures(sheet, &[b"x".as_slice(); 65]), Err(refusal));
    assert_eq!(figures_into(sheet, b"x", &[], &mut table, &mut []), Err(refusal));
    refused_moves(sheet, &[b'x'; 32_769], refusal);
    for rule in [0, usize::MAX] {
        assert_eq!(print_rule(sheet, rule), Err(refusal));
        assert_eq!(print_rule_into(sheet, rule, &mut []), Err(refusal));
    }
    assert_eq!(write_dump(sheet, &Table::from(vec![u64::MAX; 3])), Err(refusal));
    assert_eq!(write_dump_into(sheet, &table, &mut []), Err(refusal));
    assert_eq!(read_dump(sheet, b"x"), Err(refusal));
    assert_eq!(read_dump_into(sheet, b"x", &mut []), Err(refusal));
    for signal in [0, usize::MAX] {
        assert_eq!(caption(sheet, b"x", signal), Err(refusal));
    }
    refusal
}

/// Both moves are refused so, before they look for room, and the buffer keeps every byte.
fn refused_moves(sheet: &[u8], readings: &[u8], refusal: Refusal) {
    assert_eq!(to_spans(sheet, readings), Err(refusal));
    assert_eq!(to_readings(sheet, readings), Err(refusal));
    for room in [0, 50] {
        let mut buffer = vec![b'.'; room];
        assert_eq!(to_spans_into(sheet, readings, &mut buffer), Err(refusal));
        assert_eq!(to_readings_into(sheet, readings, &mut buffer), Err(refusal));
        assert_eq!(buffer, vec![b'.'; room]);
    }
}

/// The sheet is refused by this number at this place, and the explanation is this.
fn sheet_case(number: u64, sheet: &str, place: usize, explanation: &str) {
    let refusal = refused_sheet(sheet.as_bytes());
    assert_eq!((refusal.number(), refusal.place()), (number, place), "{sheet}");
    assert_eq!(refusal.explain(sheet.as_bytes(), b"").to_string(), explanation, "{sheet}");
}

/// The same of a sheet of one rule, at a byte of the rule.
fn rule_case(number: u64, rule: &str, at: usize, sentence: &str) {
    let caret = format!("    {:1$}^", "", "rule=".len() + at);
    let explanation = format!("sheet, line 5, column {}: {sentence} (refusal {number})\n    rule={rule}\n{caret}", at + 6);
    sheet_case(number, &format!("{HEAD}{rule}\n"), HEAD.len() + at, &explanation);
}

/// The same of a sheet of one signal, by 4 at its name.
fn name_case(name: &str, sentence: &str) {
    let explanation = format!("sheet, line 3, column 8: {sentence} (refusal 4)\n    signal={name}\n           ^");
    sheet_case(4, &format!("window=1\nsignals=1\nsignal={name}\n"), 26, &explanation);
}

/// The readings are refused by this number at this place, in add, in the moves and in figures, the explanation is this, and the table keeps every word.
fn readings_case(number: u64, readings: &str, place: usize, explanation: &str) {
    let mut table = Table::for_sheet(SHEET).unwrap();
    add(SHEET, b"at=1\nsignal=go10\nvalue=0\n", &mut table).unwrap();
    let before = table.clone();
    let refusal = add(SHEET, readings.as_bytes(), &mut table).unwrap_err();
    assert_eq!((refusal.number(), refusal.place()), (number, place), "{readings}");
    assert_eq!(refusal.explain(SHEET, readings.as_bytes()).to_string(), explanation, "{readings}");
    assert_eq!(table, before, "{readings}");
    assert_eq!(figures(SHEET, &[readings.as_bytes(), b"x"]), Err(refusal), "{readings}");
    refused_moves(SHEET, readings.as_bytes(), refusal);
}

/// The same of the readings' line that this text ends with, at a byte of it.
fn line_case(number: u64, readings: &str, at: usize, sentence: &str) {
    let ended = readings.strip_suffix('\n').unwrap_or(readings);
    let start = ended.rfind('\n').map_or(0, |lf| lf + 1);
    let (line, count) = (&ended[start..], ended.matches('\n').count() + 1);
    let caret = format!("    {:at$}^", "");
    let explanation = format!("readings, line {count}, column {}: {sentence} (refusal {number})\n    {line}\n{caret}", at + 1);
    readings_case(number, readings, start + at, &explanation);
}

/// The refusal is this one, which has no place in a text.
fn placeless(refusal: Refusal, number: u64, sentence: &str) {
    assert_eq!((refusal.number(), refusal.place(), refusal.text()), (number, 0, None));
    assert_eq!(refusal.to_string(), format!("{sentence} (refusal {number})"));
    let explanation = refusal.explain(SHEET, b"");
    assert_eq!((explanation.to_string(), explanation.line(), explanation.column()), (refusal.to_string(), None, None));
}

#[test]
fn a_sheet_over_its_length() {
    placeless(refused_sheet(&[b'a'; 32_769]), 1, "the sheet has over 32,768 bytes");
}

#[test]
fn a_sheet_line() {
    let form = "this line is not of its form, out of order or without LF, or it follows the last line";
    sheet_case(2, "", 0, "sheet, line 1, column 1: a line is missing here (refusal 2)\n    \n    ^");
    sheet_case(2, "window=4\n", 9, "sheet, line 2, column 1: a line is missing here (refusal 2)\n    \n    ^");
    sheet_case(2, "window=04\n", 0, &format!("sheet, line 1, column 1: {form} (refusal 2)\n    window=04\n    ^"));
    sheet_case(2, "window=4\nsignal=a\n", 9, &format!("sheet, line 2, column 1: {form} (refusal 2)\n    signal=a\n    ^"));
    let more = format!("{HEAD}a\n\n");
    sheet_case(2, &more, more.len() - 1, &format!("sheet, line 6, column 1: {form} (refusal 2)\n    \n    ^"));
}

#[test]
fn a_number_outside_its_range() {
    sheet_case(3, "window=4097\n", 7, "sheet, line 1, column 8: the window is 1 to 4,096 ticks (refusal 3)\n    window=4097\n           ^");
    sheet_case(
        3,
        "window=1\nsignals=0\n",
        17,
        "sheet, line 2, column 9: a sheet has 1 to 64 signals (refusal 3)\n    signals=0\n            ^",
    );
    sheet_case(
        3,
        "window=1\nsignals=1\nsignal=a\nrules=65\n",
        34,
        "sheet, line 4, column 7: a sheet has 0 to 64 rules (refusal 3)\n    rules=65\n          ^",
    );
}

#[test]
fn a_signal_name() {
    let form = "a name is a lower-case letter and then lower-case letters or digits, 1 to 16 in all";
    let zero = "a number at the end of a name has no leading zero";
    let large = "a number at the end of a name is at most 9,999";
    for name in ["", "A", "2a", "a_02", "a2345678901234567"] {
        name_case(name, form);
    }
    for name in ["since", "until"] {
        name_case(name, "since and until are reserved");
    }
    for name in ["a00", "aisle02", "x1y02", "a010000", "a000000000000000"] {
        name_case(name, &format!("{name}: {zero}"));
    }
    for name in ["aisle10000", "a99999", "a234567890123456"] {
        name_case(name, &format!("{name}: {large}"));
    }
    let twice = "sheet, line 4, column 8: the name is given twice (refusal 4)\n    signal=a\n           ^";
    sheet_case(4, "window=1\nsignals=2\nsignal=a\nsignal=a\n", 35, twice);
}

#[test]
fn a_name_with_a_right_end_number() {
    for name in ["a", "a0", "a9", "a10", "a9999", "x1y2", "a02b", "a0b0", "a1234567890b9999"] {
        assert_eq!(check(format!("window=1\nsignals=1\nsignal={name}\nrules=1\nrule={name}\n").as_bytes()), Ok(1), "{name}");
    }
}

#[test]
fn a_rule() {
    rule_case(5, "", 0, "a rule has 1 to 256 bytes");
    rule_case(5, "a&", 2, "the rule stops short here");
    rule_case(5, "a=>a=>a", 4, "the formula cannot go on with this");
    rule_case(5, "&a", 0, "the formula cannot go on with this");
    rule_case(6, "a&b", 2, "the name is not declared");
    rule_case(6, "a&a2|a", 2, "the name is not declared");
    rule_case(6, "a&a02|a", 2, "a02: a number at the end of a name has no leading zero");
    rule_case(6, "a=>a10000@[0,1]", 3, "a10000: a number at the end of a name is at most 9,999");
    rule_case(6, "a2345678901234567", 0, "the name is not declared");
    rule_case(7, "a@[0,64]", 2, "the interval has an end outside -63 to 63, or no whole number inside");
    rule_case(7, "a?(0,1)", 2, "the interval has an end outside -63 to 63, or no whole number inside");
    rule_case(8, &format!("{}a", "!".repeat(33)), 32, "a 33rd ( or ! is open here");
}

#[test]
fn a_long_rule_is_shown_in_part() {
    let rule = "!".repeat(300);
    let refusal = refused_sheet(format!("{HEAD}{rule}\n").as_bytes());
    assert_eq!((refusal.number(), refusal.place()), (5, HEAD.len()));
    let text = format!("{HEAD}{rule}\n");
    let said = refusal.explain(text.as_bytes(), b"").to_string();
    assert_eq!(said, format!("sheet, line 5, column 6: a rule has 1 to 256 bytes (refusal 5)\n    rule={}...\n         ^", "!".repeat(60)));
}

#[test]
fn a_sheet_over_its_size() {
    let rule = "a@[-63,63]@[-63,63]@[-63,63]@[-63,63]@[-63,63]";
    placeless(refused_sheet(format!("{HEAD}{rule}\n").as_bytes()), 9, "the sheet has over 32 hidden signals or over 1,024 rows");
}

#[test]
fn readings_over_their_length() {
    let mut table = Table::for_sheet(SHEET).unwrap();
    let refusal = add(SHEET, &[b'a'; 32_769], &mut table).unwrap_err();
    placeless(refusal, 10, "the readings have over 32,768 bytes");
    refused_moves(SHEET, &[b'a'; 32_769], refusal);
}

#[test]
fn a_readings_line() {
    let form = "this line is not of its form or without LF";
    readings_case(11, "x", 0, &format!("readings, line 1, column 1: {form} (refusal 11)\n    x\n    ^"));
    readings_case(11, "at=1\nsignal=go10\n", 17, "readings, line 3, column 1: a line is missing here (refusal 11)\n    \n    ^");
    readings_case(11, "at=1\nsignal=go10\nvalue=1", 17, &format!("readings, line 3, column 1: {form} (refusal 11)\n    value=1\n    ^"));
    readings_case(
        12,
        "at=1\nsignal=go2\nvalue=1\n",
        12,
        "readings, line 2, column 8: no signal of the sheet has this name (refusal 12)\n    signal=go2\n           ^",
    );
    readings_case(
        12,
        "at=1\nsignal=go010\nvalue=1\n",
        12,
        "readings, line 2, column 8: go010: a number at the end of a name has no leading zero (refusal 12)\n    signal=go010\n           ^",
    );
    readings_case(
        12,
        "at=1\nsignal=go010 \nvalue=1\n",
        12,
        "readings, line 2, column 8: no signal of the sheet has this name (refusal 12)\n    signal=go010 \n           ^",
    );
    readings_case(
        13,
        "at=10\nsignal=go10\nvalue=1\n",
        3,
        "readings, line 1, column 4: the tick is outside the window (refusal 13)\n    at=10\n       ^",
    );
    readings_case(
        14,
        "at=1\nsignal=go10\nvalue=2\n",
        23,
        "readings, line 3, column 7: the value is a number other than 0 or 1 (refusal 14)\n    value=2\n          ^",
    );
}

#[test]
fn a_line_of_spans() {
    let form = "this line is not of its form or without LF";
    let span = "from=1\nto=2\nsignal=go10\nvalue=0\n";
    let missing = "a line is missing here (refusal 11)\n    \n    ^";
    readings_case(11, "from=1\n", 7, &format!("readings, line 2, column 1: {missing}"));
    readings_case(11, "from=1\nto=2\n", 12, &format!("readings, line 3, column 1: {missing}"));
    readings_case(11, "from=1\nto=2\nsignal=go10\n", 24, &format!("readings, line 4, column 1: {missing}"));
    for text in
        ["from=", "from=01\n", "from=-1\n", "to=1\n", "from=1\nto=2", "from=1\nto=02\n", "from=1\nfrom=1\n", "from=1\nsignal=go10\n"]
    {
        line_case(11, text, 0, form);
    }
    for text in ["to=2\n", "value=1\n", "from=1"] {
        line_case(11, &format!("{span}{text}"), 0, form);
    }
    line_case(12, &format!("{span}from=1\nto=2\nsignal=go2\n"), 7, "no signal of the sheet has this name");
    line_case(13, "from=10\n", 5, "the tick is outside the window");
    line_case(13, "from=1\nto=10\n", 3, "the tick is outside the window");
    line_case(14, "from=1\nto=2\nsignal=go10\nvalue=2\n", 6, "the value is a number other than 0 or 1");
}

#[test]
fn a_line_of_the_other_form() {
    let (single, span) = ("at=1\nsignal=go10\nvalue=0\n", "from=1\nto=2\nsignal=go10\nvalue=0\n");
    let in_single = "this is a line of spans, in a text of single readings";
    let in_spans = "this is a line of single readings, in a text of spans";
    line_case(11, &format!("{single}from=1\n"), 0, in_single);
    line_case(11, &format!("{single}at=1\nto=2\n"), 0, in_single);
    line_case(11, "at=1\nto=2\n", 0, in_single);
    line_case(11, &format!("{span}at=1\n"), 0, in_spans);
    line_case(11, "from=1\nat=2\n", 0, in_spans);
}

#[test]
fn a_last_tick_below_the_first() {
    let below = "the span's to= is below its from=";
    for text in ["from=1\nto=0\n", "from=9\nto=8\n", "from=1\nto=2\nsignal=go10\nvalue=0\nfrom=3\nto=2\n"] {
        line_case(21, text, 3, below);
    }
    let refusal = to_spans(SHEET, b"from=1\nto=0\nsignal=go2\n").unwrap_err();
    assert_eq!(refusal.to_string(), format!("readings, byte 10: {below} (refusal 21)"));
}

#[test]
fn no_room() {
    let sentence = "what is to be written is longer than the buffer, or moved readings over 32,768 bytes, or a rule over 256";
    placeless(to_spans_into(SHEET, b"at=1\nsignal=go10\nvalue=0\n", &mut [0; 31]).unwrap_err(), 20, sentence);
    placeless(to_readings_into(SHEET, b"at=1\nsignal=go10\nvalue=0\n", &mut [0; 24]).unwrap_err(), 20, sentence);
    placeless(print_rule_into(SHEET, 0, &mut [0; 18]).unwrap_err(), 20, sentence);
    let long = format!("{HEAD}a{}\n", "@(9,11)".repeat(32));
    placeless(print_rule(long.as_bytes(), 0).unwrap_err(), 20, sentence);
    placeless(write_dump_into(SHEET, &Table::for_sheet(SHEET).unwrap(), &mut [0; 100]).unwrap_err(), 20, sentence);
    placeless(read_dump_into(SHEET, DUMP.concat().as_bytes(), &mut [0; 24]).unwrap_err(), 20, sentence);
}

/// A dump for the sheet above, line by line.
const DUMP: [&str; 11] = [
    "$timescale 1 s $end\n",
    "$scope module sheet $end\n",
    "$var wire 1 ! clear2 $end\n",
    "$var wire 1 \" go10 $end\n",
    "$upscope $end\n",
    "$enddefinitions $end\n",
    "#0\n",
    "x!\n",
    "x\"\n",
    "#9\n",
    "1!\n",
];

/// The dump with these bytes in the place of a line, counted from 1, is refused by this number at a byte of that line; so it is explained.
fn dump_case(number: u64, line: usize, other: &str, at: usize, sentence: &str) {
    let (before, after) = (DUMP[..line - 1].concat(), DUMP[line..].concat());
    let dump = format!("{before}{other}{after}");
    let refusal = read_dump(SHEET, dump.as_bytes()).unwrap_err();
    assert_eq!((refusal.number(), refusal.place(), refusal.text()), (number, before.len() + at, Some(Text::Dump)), "{dump}");
    assert_eq!(read_dump_into(SHEET, dump.as_bytes(), &mut []), Err(refusal), "{dump}");
    let (shown, caret) = (dump[before.len()..].split('\n').next().unwrap(), format!("    {:at$}^", ""));
    let wanted = format!("dump, line {line}, column {}: {sentence} (refusal {number})\n    {shown}\n{caret}", at + 1);
    assert_eq!(refusal.explain(SHEET, dump.as_bytes()).to_string(), wanted);
    assert_eq!(refusal.among(&[dump.as_bytes()]), None);
}

#[test]
fn a_dump_line() {
    let other = "this line is not the one that a dump has here, or it is without LF";
    let time = "this time does not rise, is no number of one to five digits, is without LF, or stands in another line's place";
    let sign = "this sign is of no signal, out of sheet order, given twice, without LF, or in another line's place";
    assert!(read_dump(SHEET, DUMP.concat().as_bytes()).is_ok());
    for (line, wrong) in
        [(1, "$timescale 2 s $end\n"), (2, "$scope module top $end\n"), (5, "$end\n"), (6, "\n"), (8, "2!\n"), (11, "$dumpvars\n")]
    {
        dump_case(22, line, wrong, 0, other);
    }
    dump_case(22, 3, "$var wire 1 \" go10 $end\n", 0, other);
    dump_case(22, 3, "$var wire 1 ! go10 $end\n", 0, other);
    dump_case(22, 3, "$var wire 1 ! clear2\n", 0, other);
    for wrong in ["#0\n", "#09\n", "#100000\n", "#\n"] {
        dump_case(22, 10, wrong, 0, time);
    }
    dump_case(22, 8, "#1\n", 0, time);
    for wrong in ["1#\n", "z~\n"] {
        dump_case(22, 11, wrong, 0, sign);
    }
    dump_case(22, 9, "x!\n", 0, sign);
    let missing = DUMP[..8].concat();
    let refusal = read_dump(SHEET, missing.as_bytes()).unwrap_err();
    assert_eq!(refusal.place(), missing.len());
    let told = refusal.explain(SHEET, missing.as_bytes()).to_string();
    assert_eq!(told, "dump, line 9, column 1: a line is missing here (refusal 22)\n    \n    ^");
    assert_eq!(refusal.to_string(), "dump, byte 136: a dump line is missing, not one that may stand there, or without LF (refusal 22)");
}

#[test]
fn a_name_or_a_tick_in_a_dump() {
    dump_case(12, 3, "$var wire 1 ! clear3 $end\n", 14, "no signal of the sheet has this name");
    dump_case(12, 3, "$var wire 1 !  $end\n", 14, "no signal of the sheet has this name");
    dump_case(12, 4, "$var wire 1 \" go010 $end\n", 14, "go010: a number at the end of a name has no leading zero");
    dump_case(12, 4, "$var wire 1 \" go10000 $end\n", 14, "go10000: a number at the end of a name is at most 9,999");
    for time in ["#10\n", "#11\n", "#99999\n"] {
        dump_case(13, 10, time, 1, "the tick is outside the window");
    }
    let late = DUMP.concat().replace("#9", "#10");
    let refusal = read_dump(SHEET, late.as_bytes()).unwrap_err();
    assert_eq!(refusal.to_string(), "dump, byte 140: the tick is outside the window (refusal 13)");
}

/// The captions, all but the last line of which is accepted, are refused by this number at that line; so it is explained.
fn caption_case(number: u64, captions: &str, sentence: &str) {
    let ended = captions.strip_suffix('\n').unwrap_or(captions);
    let start = ended.rfind('\n').map_or(0, |lf| lf + 1);
    let (line, count) = (&ended[start..], ended[..start].matches('\n').count() + 1);
    assert!(caption(SHEET, &captions.as_bytes()[..start], 0).is_ok(), "{captions}");
    let refusal = caption(SHEET, captions.as_bytes(), 0).unwrap_err();
    assert_eq!((refusal.number(), refusal.place(), refusal.text()), (number, start, Some(Text::Captions)), "{captions}");
    let shown: String = line.bytes().map(|byte| if (32..=126).contains(&byte) { char::from(byte) } else { '\u{b7}' }).collect();
    let wanted = format!("captions, line {count}, column 1: {sentence} (refusal {number})\n    {shown}\n    ^");
    assert_eq!(refusal.explain(SHEET, captions.as_bytes()).to_string(), wanted);
    assert_eq!(refusal.among(&[captions.as_bytes()]), None);
}

#[test]
fn a_caption_line() {
    let form = "a caption's line is a name, the sign = and the caption";
    let length = "a caption has 1 to 40 bytes";
    let byte = "a caption has printable ASCII bytes only, 32 to 126";
    let first = "go10=Maps\n";
    for line in ["\n", "clear2\n", "clear2", "clear2: North\n", "\r\n"] {
        caption_case(24, &format!("{first}{line}"), form);
    }
    for line in ["clear2=\n", "clear2=", "=\n", &format!("clear2={}\n", "x".repeat(41)), &format!("go10={}", "x".repeat(41))] {
        caption_case(24, &format!("{first}{line}"), length);
    }
    // A byte that can't be shown is told before the length: a sign of a longer writing takes several.
    for line in [
        "clear2=North\r\n",
        "clear2=\tNorth\n",
        "clear2=\u{7f}\n",
        "clear2=Nord\u{2013}S\u{fc}d",
        &format!("clear2={}\n", "\u{fc}".repeat(21)),
    ] {
        caption_case(24, &format!("{first}{line}"), byte);
    }
    for line in ["clear2=North", "go10=Maps", "aisle2=South", "=South"] {
        caption_case(24, &format!("{first}{line}"), "this line is without LF");
    }
    for line in ["go10=Maps\n", "clear2=North\ngo10=Charts\n"] {
        caption_case(24, &format!("{first}{line}"), "an earlier line has this name");
    }
    let refusal = caption(SHEET, b"go10=Maps\nclear2\n", 0).unwrap_err();
    let sentence = "a caption's line is not of its form or without LF, or an earlier one has its name";
    assert_eq!(refusal.to_string(), format!("captions, byte 10: {sentence} (refusal 24)"));
}

#[test]
fn a_name_in_captions() {
    let none = "no signal of the sheet has this name";
    for line in ["=North\n", "clear=North\n", "Clear2=North\n", "clear02 =North\n", "clear2\u{e9}=North\n", "since=North\n"] {
        caption_case(12, line, none);
        caption_case(12, &format!("go10=Maps\n{line}"), none);
    }
    // The name ends at the first =, whatever the caption holds.
    caption_case(12, "clear02=North\n", "clear02: a number at the end of a name has no leading zero");
    caption_case(12, "go10=Maps\ngo010=M10 = on\n", "go010: a number at the end of a name has no leading zero");
    caption_case(12, "go10000=Maps\n", "go10000: a number at the end of a name is at most 9,999");
    let refusal = caption(SHEET, b"go10=Maps\nclear=North\n", 0).unwrap_err();
    assert_eq!(refusal.to_string(), format!("captions, byte 10: {none} (refusal 12)"));
}

#[test]
fn a_table_that_clashes() {
    let mut table = Table::for_sheet(SHEET).unwrap();
    add(SHEET, b"at=1\nsignal=go10\nvalue=0\nat=1\nsignal=go10\nvalue=1\n", &mut table).unwrap();
    let clash = "the table clashes: a row is both true and false at one tick";
    placeless(write_dump(SHEET, &table).unwrap_err(), 23, clash);
    placeless(write_dump_into(SHEET, &table, &mut []).unwrap_err(), 23, clash);
}

#[test]
fn a_table() {
    let rows = check(SHEET).unwrap();
    let mut short = Table::from(vec![0; 2 * rows - 1]);
    let length = "the table's length is not that of the sheet's rows and window";
    placeless(add(SHEET, b"", &mut short).unwrap_err(), 15, length);
    placeless(ask(SHEET, &short, 0, 0).unwrap_err(), 15, length);
    placeless(write_dump(SHEET, &short).unwrap_err(), 15, length);
    let mut words = vec![0; 2 * rows];
    words[3] = 1 << 10;
    let mut outside = Table::from(words);
    let mark = "the table has a mark at a tick outside the window";
    placeless(add(SHEET, b"", &mut outside).unwrap_err(), 16, mark);
    placeless(ask(SHEET, &outside, 0, 0).unwrap_err(), 16, mark);
    placeless(write_dump(SHEET, &outside).unwrap_err(), 16, mark);
}

#[test]
fn a_question() {
    let table = Table::for_sheet(SHEET).unwrap();
    let sentence = "the signal, the tick or the rule asked for is outside its range";
    for (signal, tick) in [(2, 0), (0, 10), (usize::MAX, 0), (0, usize::MAX)] {
        placeless(ask(SHEET, &table, signal, tick).unwrap_err(), 17, sentence);
    }
    for rule in [1, usize::MAX] {
        placeless(print_rule(SHEET, rule).unwrap_err(), 17, sentence);
    }
    for signal in [2, usize::MAX] {
        placeless(caption(SHEET, b"go10=Maps\n", signal).unwrap_err(), 17, sentence);
    }
}

#[test]
fn a_byte_that_cannot_be_shown_is_one_sign() {
    let sheet = b"window=1\nsignals=1\nsignal=\xff\tb\n";
    let refusal = refused_sheet(sheet);
    assert_eq!((refusal.number(), refusal.place()), (4, 26));
    assert!(refusal.explain(sheet, b"").to_string().ends_with("\n    signal=\u{b7}\u{b7}b\n           ^"));
    assert_eq!(refusal.to_string(), "sheet, byte 26: the signal's name is not of its form, reserved or given twice (refusal 4)");
}
