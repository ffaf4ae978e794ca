//! The rule reader in plain Rust, for comparison. In a folder with sheet.txt and readings.txt:
//! `baseline` prints the listing; `baseline N [read|check|take|add]` does one operation N times, prints what the last one answered, and then how many
//! marks stand in the table. So does `baseline N [spans|singles]`, a move by sorting, and `baseline N [setspans|setsingles]`, by a set of single readings;
//! they print the text that was written too.
mod closing;
mod formula;
mod lowering;
mod moves;
mod names;
mod operations;
mod readings;
mod sheet;
mod table;
mod text;

use moves::{by_set, by_sort, Form};
use operations::{add, check, empty_table, take, Added};
use table::{count_marks, Ticks};
use text::{name_key, refuse, Refusal};

/// Hides a value from the compiler, as std::hint::black_box does in younger versions of Rust than Debian's.
fn black_box<T>(mut value: T) -> T {
    // SAFETY: the assembly has no instruction; it says only that the value may be read and written there.
    unsafe { std::arch::asm!("/* {0} */", in(reg) &mut value, options(nostack, preserves_flags)) };
    value
}

/// One sign a tick, or `x` at each if there is a clash.
fn marks(table: &[u64], signal: usize, window: usize, clash: bool) -> String {
    let ticks = Ticks::of(window);
    let (yes, no) = table[ticks.block(signal, 0)..ticks.block(signal + 1, 0)].split_at(ticks.words);
    (0..window)
        .map(|t| match (yes[t / 64] >> (t % 64) & 1, no[t / 64] >> (t % 64) & 1) {
            _ if clash => 'x',
            (1, _) => '1',
            (_, 1) => '0',
            _ => '?',
        })
        .collect()
}

fn listing(text: &[u8], readings: &[u8]) -> Result<String, Refusal> {
    let rows = check(text)?;
    let mut table = empty_table(text)?;
    if table.len() > 8192 {
        return refuse(29, 0);
    }
    let added = add(text, readings, &mut table)?;
    let sheet = sheet::read(text)?;
    let mut out = format!("answer=0\nrows={rows}\nfacts={}\nclash={}\n", added.new, added.clash as u8);
    let mut order: Vec<usize> = (0..sheet.names.len()).collect();
    order.sort_by_key(|&i| name_key(sheet.names[i]));
    for i in order {
        let name = String::from_utf8_lossy(sheet.names[i]);
        out += &format!("signal={name}\nmarks={}\n", marks(&table, i, sheet.window, added.clash));
    }
    Ok(out)
}

/// What an operation answers.
enum Answer {
    Rules(usize),
    Rows(usize),
    Before(usize),
    Added(Added),
    Written(Vec<u8>),
}

impl Answer {
    fn text(&self) -> String {
        match self {
            Answer::Rules(n) => format!("rules={n}\n"),
            Answer::Rows(n) => format!("rows={n}\n"),
            Answer::Before(n) => format!("before={n}\n"),
            Answer::Added(a) => format!("facts={}\nclash={}\n", a.new, a.clash as u8),
            Answer::Written(text) => format!("length={}\n", text.len()),
        }
    }

    /// The text that was written.
    fn written(&self) -> &[u8] {
        match self {
            Answer::Written(text) => text,
            _ => b"",
        }
    }
}

fn emptied(table: &mut [u64]) -> &mut [u64] {
    table.fill(0);
    table
}

/// One operation on the two texts, with the table emptied first where it takes readings.
fn once(operation: &str, text: &[u8], readings: &[u8], table: &mut [u64]) -> Result<Answer, Refusal> {
    Ok(match operation {
        "read" => Answer::Rules(black_box(sheet::read(text)?).rules.len()),
        "check" => Answer::Rows(check(text)?),
        "take" => Answer::Before(black_box(take(text, readings, emptied(table))?).before),
        "spans" => Answer::Written(by_sort(text, readings, Form::Spans)?),
        "singles" => Answer::Written(by_sort(text, readings, Form::Singles)?),
        "setspans" => Answer::Written(by_set(text, readings, Form::Spans)?),
        "setsingles" => Answer::Written(by_set(text, readings, Form::Singles)?),
        _ => Answer::Added(add(text, readings, emptied(table))?),
    })
}

/// One operation as often as asked: what the last one answered, how many marks stand in the table then, and the text that was written.
fn runs(text: &[u8], readings: &[u8], times: usize, operation: &str) -> String {
    let mut table = empty_table(text).unwrap_or_default();
    let mut last = check(text).map(Answer::Rows);
    for _ in 0..times {
        last = black_box(once(operation, black_box(text), black_box(readings), black_box(&mut table)));
    }
    let said = match &last {
        Ok(answer) => answer.text(),
        Err(r) => format!("--- refused {} at {}\n", r.number, r.place),
    };
    let written = last.as_ref().map_or(&b""[..], Answer::written);
    format!("{said}marks={}\n{}", count_marks(&table), String::from_utf8_lossy(written))
}

fn main() {
    let text = std::fs::read("sheet.txt").unwrap_or_default();
    let readings = std::fs::read("readings.txt").unwrap_or_default();
    let args: Vec<String> = std::env::args().collect();
    let answer = match args.get(1) {
        None => listing(&text, &readings),
        Some(times) => Ok(runs(&text, &readings, times.parse().unwrap_or(0), args.get(2).map_or("add", |a| a))),
    };
    match answer {
        Ok(answer) => print!("{answer}"),
        Err(r) => print!("answer={}\nplace={}\n", r.number, r.place),
    }
}
