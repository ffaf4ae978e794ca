//! What calls that write and read dumps meet: the refusals and what would be refused later, the lines that they are about, and the kinds of
//! tables and dumps that are accepted.

use crate::dumps::{dump, id, readings, signs_in, signs_of, var_key, Sign, SCALES, UNITS};
use crate::generate::dumps::{ReadDump, WriteDump};
use crate::library::Outcome;
use crate::operations::read;
use crate::seen_calls::{holding, of_room, of_sheet, Thing, ROOMS, SHEETS};
use crate::table::{block_words, marks_of};
use crate::tally::Tally;
use crate::text::lines::number;
use crate::text::name::{self, NoName};
use crate::text::sheet::Sheet;
use crate::text::LONGEST_TEXT;
use std::collections::BTreeSet;

/// The kinds of room, but for those of texts over the most bytes: a dump and its readings may have any length.
const FREE_ROOMS: usize = 5;
/// No text has so many bytes.
const NO_LIMIT: usize = usize::MAX / 2;

const WRITES: [&str; 20] = [
    "15",
    "15, also no room",
    "16",
    "16, also a clash",
    "23, a signal's row",
    "23, only another row",
    "23, also no room",
    "one tick: 0",
    "64 ticks: 0",
    "65 ticks or more: 0",
    "4,096 ticks: 0",
    "64 signals: 0",
    "no sign changes: 0",
    "a sign changes at every tick: 0",
    "a sign changes at the last tick: 0",
    "0 becomes 1, or 1 becomes 0: 0",
    "a value becomes unsettled: 0",
    "marks in other rows too: 0",
    "over 32,768 bytes: 0",
    "there and back: 0",
];

const READS: [&str; 40] = [
    "22, a line is missing",
    "22, a last line without LF",
    "22, the timescale",
    "22, the scope",
    "22, a signal's line",
    "22, a declared name in another's place",
    "22, $upscope",
    "22, $enddefinitions",
    "22, #0",
    "22, a sign at #0",
    "22, a time that does not rise",
    "22, a time of six digits or more",
    "22, a time with a leading zero",
    "22, another line of a time",
    "22, a sign twice",
    "22, a sign out of order",
    "22, a sign of no signal",
    "22, another line after the first signs",
    "22, also no room",
    "12, no byte in the name's place",
    "12, leading zero",
    "12, over 9,999",
    "12, another name",
    "12, also no room",
    "13, the tick after the last",
    "13, a later tick",
    "z: 0",
    "a sign said again: 0",
    "a time without a sign: 0",
    "a last time without a sign: 0",
    "no later time: 0",
    "the last tick: 0",
    "one tick: 0",
    "64 ticks: 0",
    "65 ticks or more: 0",
    "4,096 ticks: 0",
    "64 signals: 0",
    "no reading and no room: 0",
    "over 32,768 bytes of readings: 0",
    "there and back: 0",
];

/// In how many cases each thing was met.
pub struct Seen {
    written: Tally,
    read: Tally,
}

/// What one case met.
#[derive(Default)]
pub struct Met {
    written: BTreeSet<String>,
    read: BTreeSet<String>,
}

impl Seen {
    /// None yet; each thing has to be met so often.
    pub fn none(least: u64) -> Self {
        let tally = |title, own: &[&str], more: Vec<String>| {
            let fixed = [&SHEETS[..], &ROOMS[..FREE_ROOMS], own].concat();
            let fixed = fixed.iter().map(|thing| thing.to_string());
            let things = fixed.chain(more);
            Tally::new(title, things.map(|thing| (thing, least)))
        };
        let timescales = SCALES.iter().chain(&UNITS).map(|part| in_timescale(part));
        Seen {
            written: tally(
                "cases in which a call that writes a dump met",
                &WRITES,
                vec![],
            ),
            read: tally(
                "cases in which a call that reads a dump met",
                &READS,
                timescales.collect(),
            ),
        }
    }

    pub fn count(&mut self, case: Met) {
        for (tally, things) in [
            (&mut self.written, case.written),
            (&mut self.read, case.read),
        ] {
            things.iter().for_each(|thing| tally.met_thing(thing));
        }
    }

    /// Prints the counts; answers how many things were met too seldom.
    pub fn print(&self) -> u64 {
        self.written.print() + self.read.print()
    }
}

impl Met {
    pub fn written(&mut self, sheet: &[u8], call: &WriteDump, outcome: &Outcome) {
        let things = match read(sheet) {
            Ok((read, rows)) => {
                let text = dump(sheet, &call.table).map(|text| text.len());
                of_table(&read, rows.nodes.len(), call, outcome.answer, text.ok())
            }
            Err(_) => vec![(of_sheet(outcome.answer), true)],
        };
        self.written.extend(holding(&things));
    }

    pub fn read(&mut self, sheet: &[u8], call: &ReadDump, outcome: &Outcome) {
        let (number, place) = (outcome.answer, outcome.outputs[1] as usize);
        let things = match (read(sheet), number) {
            (Err(_), _) => vec![(of_sheet(number), true)],
            (Ok((sheet, _)), 12 | 13 | 22) => of_line(&sheet, call, number, place),
            (Ok((read, _)), _) => {
                let length = readings(sheet, &call.dump).map_or(0, |text| text.len());
                let mut things = of_free_room(length, call.room);
                if number == 0 {
                    things.extend(of_dump(&read, call, length));
                    self.read.extend(of_timescale(&call.dump));
                }
                things
            }
        };
        self.read.extend(holding(&things));
    }
}

fn of_free_room(length: usize, room: usize) -> Vec<Thing> {
    let things = of_room(length, room, NO_LIMIT);
    things.into_iter().map(|thing| (thing, true)).collect()
}

/// What a table of an accepted sheet met; its dump has this length, if there is one.
fn of_table(
    sheet: &Sheet,
    rows: usize,
    call: &WriteDump,
    number: u64,
    length: Option<usize>,
) -> Vec<Thing> {
    let no_room = call.room == 0;
    let block = block_words(sheet.window);
    let clashes = |row: &[u64]| (0..block).any(|word| row[word] & row[block + word] != 0);
    let clashes = |rows: &[u64]| rows.chunks_exact(2 * block).any(clashes);
    let (of_signals, of_others) = match number {
        15 => (&[][..], &[][..]),
        _ => call.table.split_at(2 * block * sheet.names.len()),
    };
    let mut things = vec![
        ("15", number == 15),
        ("15, also no room", number == 15 && no_room),
        ("16", number == 16),
        ("16, also a clash", number == 16 && clashes(&call.table)),
        ("23, a signal's row", number == 23 && clashes(of_signals)),
        ("23, only another row", number == 23 && !clashes(of_signals)),
        ("23, also no room", number == 23 && no_room),
    ];
    let length = match length {
        Some(length) => length,
        None => return things,
    };
    things.extend(of_free_room(length, call.room));
    if number != 0 {
        return things;
    }
    let marks = marks_of(&call.table, rows, sheet.window).expect("an accepted table");
    let signs = signs_in(&marks, sheet.names.len(), sheet.window);
    let changes = |what: fn(Sign, Sign) -> bool| {
        let mut pairs = signs.windows(2);
        pairs.any(|pair| {
            pair[0]
                .iter()
                .zip(&pair[1])
                .any(|(one, two)| what(*one, *two))
        })
    };
    let moving = signs.windows(2).filter(|pair| pair[0] != pair[1]).count();
    things.extend(of_size(sheet));
    things.extend([
        ("no sign changes: 0", moving == 0),
        (
            "a sign changes at every tick: 0",
            sheet.window > 2 && moving + 1 == sheet.window,
        ),
        (
            "a sign changes at the last tick: 0",
            matches!(&signs[..], [.., one, two] if one != two),
        ),
        (
            "0 becomes 1, or 1 becomes 0: 0",
            changes(|one, two| one.is_some() && two.is_some() && one != two),
        ),
        (
            "a value becomes unsettled: 0",
            changes(|one, two| one.is_some() && two.is_none()),
        ),
        (
            "marks in other rows too: 0",
            of_others.iter().any(|word| *word != 0),
        ),
        ("over 32,768 bytes: 0", length > LONGEST_TEXT),
        ("there and back: 0", true),
    ]);
    things
}

/// What an accepted call meets by its sheet's size.
fn of_size(sheet: &Sheet) -> Vec<Thing> {
    let (window, signals) = (sheet.window, sheet.names.len());
    vec![
        ("one tick: 0", window == 1),
        ("64 ticks: 0", window == 64),
        ("65 ticks or more: 0", window > 64),
        ("4,096 ticks: 0", window == 4_096),
        ("64 signals: 0", signals == 64),
    ]
}

/// What a refused dump met: the refusal and the line that it is about.
fn of_line(sheet: &Sheet, call: &ReadDump, number: u64, place: usize) -> Vec<Thing> {
    let (dump, no_room) = (&call.dump[..], call.room == 0);
    let rest = dump[place..].split(|&byte| byte == b'\n').next();
    let line = rest.unwrap_or_default();
    match number {
        12 => vec![(of_name(line), true), ("12, also no room", no_room)],
        13 => {
            let next = line == sheet.window.to_string().as_bytes();
            vec![
                ("13, the tick after the last", next),
                ("13, a later tick", !next),
            ]
        }
        _ => vec![
            (of_form(sheet, dump, place, line), true),
            ("22, also no room", no_room),
        ],
    }
}

/// What stands where a declared name has to.
fn of_name(rest: &[u8]) -> &'static str {
    let name = rest.strip_suffix(b" $end").unwrap_or(rest);
    match name::read(name) {
        _ if name.is_empty() => "12, no byte in the name's place",
        Err(NoName::LeadingZero) => "12, leading zero",
        Err(NoName::TooLarge) => "12, over 9,999",
        _ => "12, another name",
    }
}

/// The line at this place, which is not the one that has to stand there.
fn of_form(sheet: &Sheet, dump: &[u8], place: usize, line: &[u8]) -> &'static str {
    let signals = sheet.names.len();
    let before = dump[..place].iter().filter(|&&byte| byte == b'\n').count();
    if place == dump.len() {
        return "22, a line is missing";
    }
    if place + line.len() == dump.len() {
        return "22, a last line without LF";
    }
    match before {
        0 => "22, the timescale",
        1 => "22, the scope",
        _ if before < 2 + signals => {
            let rest = line.strip_prefix(var_key(before - 2).as_bytes());
            match rest.and_then(|rest| rest.strip_suffix(b" $end")) {
                Some(_) => "22, a declared name in another's place",
                None => "22, a signal's line",
            }
        }
        _ if before == 2 + signals => "22, $upscope",
        _ if before == 3 + signals => "22, $enddefinitions",
        _ if before == 4 + signals => "22, #0",
        _ if before < 5 + 2 * signals => "22, a sign at #0",
        _ => of_later_form(signals, &dump[..place], line),
    }
}

/// The same after the first signs.
fn of_later_form(signals: usize, before: &[u8], line: &[u8]) -> &'static str {
    match *line {
        [b'#', ref time @ ..] => match (number(time), time) {
            (Some(_), _) => "22, a time that does not rise",
            (None, [b'0', ..]) if time.len() > 1 => "22, a time with a leading zero",
            (None, _) if time.len() > 5 && time.iter().all(u8::is_ascii_digit) => {
                "22, a time of six digits or more"
            }
            _ => "22, another line of a time",
        },
        [b'0' | b'1' | b'x' | b'z', signal] => {
            let known = (0..signals).any(|number| id(number) == char::from(signal));
            if !known {
                "22, a sign of no signal"
            } else if before.ends_with(&[signal, b'\n']) {
                "22, a sign twice"
            } else {
                "22, a sign out of order"
            }
        }
        _ => "22, another line after the first signs",
    }
}

/// What an accepted dump met, whose readings have this length.
fn of_dump(sheet: &Sheet, call: &ReadDump, length: usize) -> Vec<Thing> {
    let lines: Vec<&[u8]> = call.dump.split(|&byte| byte == b'\n').collect();
    // The last one is what follows the last LF: nothing.
    let lines = &lines[5 + sheet.names.len()..lines.len() - 1];
    let time = |line: &&[u8]| line.starts_with(b"#");
    let plain = signs_of(&call.dump, sheet.window, &sheet.names);
    let plain = plain.map(|signs| changes(&signs)).unwrap_or_default();
    let said = lines.iter().filter(|line| !time(line)).count();
    let last_tick = format!("#{}", sheet.window - 1);
    let mut things = of_size(sheet);
    things.extend([
        ("z: 0", lines.iter().any(|line| line[0] == b'z')),
        ("a sign said again: 0", said > plain),
        (
            "a time without a sign: 0",
            lines
                .windows(2)
                .any(|pair| time(&pair[0]) && time(&pair[1])),
        ),
        (
            "a last time without a sign: 0",
            matches!(lines.last(), Some(line) if time(line)),
        ),
        ("no later time: 0", !lines.iter().any(time)),
        ("the last tick: 0", lines.contains(&last_tick.as_bytes())),
        ("no reading and no room: 0", (length, call.room) == (0, 0)),
        ("over 32,768 bytes of readings: 0", length > LONGEST_TEXT),
        ("there and back: 0", true),
    ]);
    things
}

/// How many signs have to be said: all at tick 0, and later those that change.
fn changes(signs: &[Vec<Sign>]) -> usize {
    let later = signs
        .windows(2)
        .flat_map(|pair| pair[0].iter().zip(&pair[1]));
    signs[0].len() + later.filter(|(one, two)| one != two).count()
}

/// The number and the unit of an accepted timescale.
fn of_timescale(dump: &[u8]) -> Vec<String> {
    let line = dump.split(|&byte| byte == b'\n').next().unwrap_or_default();
    let words = line.split(|&byte| byte == b' ').skip(1).take(2);
    words
        .map(|word| in_timescale(&String::from_utf8_lossy(word)))
        .collect()
}

fn in_timescale(part: &str) -> String {
    format!("{part} in the timescale: 0")
}
