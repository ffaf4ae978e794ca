//! Value change dumps: a table written as one, and one read back to single readings.

use crate::infer::Marks;
use crate::operations::read;
use crate::table::{length, marks_of, write as write_table};
use crate::text::lines::{number, Lines, Value};
use crate::text::name::{find, Name};
use crate::text::readings::Form;
use crate::text::{refuse, write, Refusal};
use std::ops::Range;

/// A signal's value at a tick; none where it is unsettled.
pub type Sign = Option<bool>;

/// The signs of each tick, from 0; at each tick those of the signals in sheet order.
pub type Signs = Vec<Vec<Sign>>;

/// The numbers and units of a timescale. The first of each is written, any is read.
pub const SCALES: [&str; 3] = ["1", "10", "100"];

pub const UNITS: [&str; 6] = ["s", "ms", "us", "ns", "ps", "fs"];

/// The lines that are the same in every dump.
const SCOPE: &str = "$scope module sheet $end";
const UPSCOPE: &str = "$upscope $end";
const END_OF_DEFINITIONS: &str = "$enddefinitions $end";
const FIRST_TIME: &str = "#0";

/// What stands after the name in a signal's line.
const AFTER_NAME: &str = " $end";

/// The refusal of a line that is missing or not one of a dump's.
const NO_LINE: u64 = 22;

/// Writes the table's dump to the buffer's first bytes; answers how many these are.
pub fn write_dump(sheet: &[u8], table: &[u64], out: &mut [u8]) -> Result<u64, Refusal> {
    write(&dump(sheet, table)?, usize::MAX, out)
}

/// Writes the readings that a dump says to the buffer's first bytes; answers how many these are.
pub fn read_dump(sheet: &[u8], dump: &[u8], out: &mut [u8]) -> Result<u64, Refusal> {
    write(&readings(sheet, dump)?, usize::MAX, out)
}

/// The table's dump, however long that is.
pub fn dump(sheet: &[u8], table: &[u64]) -> Result<String, Refusal> {
    let (sheet, rows) = read(sheet)?;
    let marks = marks_of(table, rows.nodes.len(), sheet.window)?;
    if marks.clash() {
        return refuse(23, 0);
    }
    let signs = signs_in(&marks, sheet.names.len(), sheet.window);
    Ok(dump_text(&sheet.names, &signs))
}

/// The readings that a dump says, however many.
pub fn readings(sheet: &[u8], dump: &[u8]) -> Result<String, Refusal> {
    let (sheet, _) = read(sheet)?;
    let signs = signs_of(dump, sheet.window, &sheet.names)?;
    Ok(readings_text(&sheet.names, &signs))
}

/// What the marks say of the first rows, which are those of the signals.
pub fn signs_in(marks: &Marks, signals: usize, window: usize) -> Signs {
    let sign = |signal, tick| {
        let mut values = [true, false].into_iter();
        values.find(|&value| marks.has(signal, tick, value))
    };
    let at = |tick| (0..signals).map(|signal| sign(signal, tick)).collect();
    (0..window).map(at).collect()
}

/// The table of so many rows that has these signs and no other mark.
pub fn table_of(signs: &[Vec<Sign>], rows: usize) -> Vec<u64> {
    let window = signs.len();
    let mut marks = Marks::none(rows, window);
    for (tick, signal, value) in settled(signs) {
        marks.set(signal, tick, value);
    }
    let mut table = vec![0; length(rows, window)];
    write_table(&marks, window, &mut table);
    table
}

/// Each 0 and 1 as tick, signal and value, by tick, then signal.
fn settled(signs: &[Vec<Sign>]) -> impl Iterator<Item = (usize, usize, bool)> + '_ {
    signs.iter().enumerate().flat_map(|(tick, now)| {
        let now = now.iter().enumerate();
        now.filter_map(move |(signal, sign)| Some((tick, signal, (*sign)?)))
    })
}

/// The first lines, all signs at tick 0, and at each later tick those that change.
pub fn dump_text(names: &[Name], signs: &[Vec<Sign>]) -> String {
    let mut text = head_text(names);
    for (tick, now) in signs.iter().enumerate() {
        let is_said = |signal: &usize| tick == 0 || signs[tick - 1][*signal] != now[*signal];
        let said = (0..names.len()).filter(is_said);
        let lines = said.map(|signal| format!("{}{}\n", letter(now[signal]), id(signal)));
        let lines: String = lines.collect();
        if !lines.is_empty() {
            text += &format!("#{tick}\n{lines}");
        }
    }
    text
}

/// The lines before the first time.
fn head_text(names: &[Name]) -> String {
    let timescale = timescale(SCALES[0], UNITS[0]);
    let mut text = format!("{timescale}\n{SCOPE}\n");
    for (signal, name) in names.iter().enumerate() {
        text += &format!("{}{name}{AFTER_NAME}\n", var_key(signal));
    }
    text + &format!("{UPSCOPE}\n{END_OF_DEFINITIONS}\n")
}

/// A reading for each 0 and 1, by tick, then signal.
pub fn readings_text(names: &[Name], signs: &[Vec<Sign>]) -> String {
    let reading = |(tick, signal, value): (usize, usize, bool)| {
        Form::Readings.lines((tick, tick), &names[signal], u8::from(value))
    };
    settled(signs).map(reading).collect()
}

/// The signs that a dump says, line by line: each holds until the signal's next or the window's end.
pub fn signs_of(dump: &[u8], window: usize, names: &[Name]) -> Result<Signs, Refusal> {
    let mut lines = Lines::new(dump, NO_LINE);
    read_head(&mut lines, names)?;
    let mut now = read_first_signs(&mut lines, names.len())?;
    // The signs of the ticks before `time`; those of its signals from `next` on may still be said.
    let mut signs = vec![];
    let (mut time, mut next) = (0, names.len());
    while !lines.at_end() {
        let line = lines.line("")?;
        if line.bytes.starts_with(b"#") {
            time = later_time(&line, time, window)?;
            next = 0;
            signs.resize(time, now.clone());
        } else {
            let (signal, sign) = read_sign(&line, next..names.len())?;
            now[signal] = sign;
            next = signal + 1;
        }
    }
    signs.resize(window, now);
    Ok(signs)
}

/// The lines before the first time.
fn read_head(lines: &mut Lines, names: &[Name]) -> Result<(), Refusal> {
    let of_scale = |scale| UNITS.map(|unit| timescale(scale, unit));
    one_of(lines, &SCALES.map(of_scale).concat())?;
    one_of(lines, &[SCOPE])?;
    for signal in 0..names.len() {
        read_var(lines, signal, names)?;
    }
    one_of(lines, &[UPSCOPE])?;
    one_of(lines, &[END_OF_DEFINITIONS])
}

/// A line that is one of these.
fn one_of<T: AsRef<[u8]>>(lines: &mut Lines, wanted: &[T]) -> Result<(), Refusal> {
    let line = lines.line("")?;
    if wanted.iter().any(|wanted| wanted.as_ref() == line.bytes) {
        Ok(())
    } else {
        refuse(NO_LINE, line.place)
    }
}

/// The line of the signal, with its own name.
fn read_var(lines: &mut Lines, signal: usize, names: &[Name]) -> Result<(), Refusal> {
    let key = var_key(signal);
    let rest = lines.line(&key)?;
    let start = rest.place - key.len();
    match rest.bytes.strip_suffix(AFTER_NAME.as_bytes()) {
        None => refuse(NO_LINE, start),
        Some(name) => match find(name, names) {
            Some(found) if found == signal => Ok(()),
            Some(_) => refuse(NO_LINE, start),
            None => refuse(12, rest.place),
        },
    }
}

/// The first time and, after it, a sign of every signal.
fn read_first_signs(lines: &mut Lines, signals: usize) -> Result<Vec<Sign>, Refusal> {
    one_of(lines, &[FIRST_TIME])?;
    let mut signs = vec![];
    for signal in 0..signals {
        let (_, sign) = read_sign(&lines.line("")?, signal..signal + 1)?;
        signs.push(sign);
    }
    Ok(signs)
}

/// The time that the line says, which comes after `time` and is in the window.
fn later_time(line: &Value, time: usize, window: usize) -> Result<usize, Refusal> {
    match number(&line.bytes[1..]) {
        Some(later) if later >= window as u64 => refuse(13, line.place + 1),
        Some(later) if later > time as u64 => Ok(later as usize),
        _ => refuse(NO_LINE, line.place),
    }
}

/// The sign that the line says of one of these signals.
fn read_sign(line: &Value, mut signals: Range<usize>) -> Result<(usize, Sign), Refusal> {
    let said = match line.bytes {
        [letter, byte] => (
            signals.find(|&signal| id(signal) == char::from(*byte)),
            *letter,
        ),
        _ => (None, b' '),
    };
    match said {
        (Some(signal), b'0') => Ok((signal, Some(false))),
        (Some(signal), b'1') => Ok((signal, Some(true))),
        (Some(signal), b'x' | b'z') => Ok((signal, None)),
        _ => refuse(NO_LINE, line.place),
    }
}

/// The line of a timescale, without its LF.
pub fn timescale(scale: &str, unit: &str) -> String {
    format!("$timescale {scale} {unit} $end")
}

/// What stands before the name in a signal's line.
pub fn var_key(signal: usize) -> String {
    format!("$var wire 1 {} ", id(signal))
}

/// The sign that stands for a signal.
pub fn id(signal: usize) -> char {
    char::from(33 + signal as u8)
}

/// How a sign is written.
pub fn letter(sign: Sign) -> char {
    match sign {
        Some(false) => '0',
        Some(true) => '1',
        None => 'x',
    }
}
