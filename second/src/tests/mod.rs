//! Unit tests: the proved cases, the refusal table, names, the lowering, the closing, tables of several words, spans, the moves, figures,
//! printed rules, dumps, captions and the generator; and how they write texts.

mod borders;
mod captioned;
mod captions;
mod closing;
mod dumps;
mod figures;
mod generator;
mod listed;
mod lowering;
mod moves;
mod names;
mod print;
mod proved;
mod refusals;
mod spans;
mod tables;

use crate::text::Refusal;

/// A refusal's number and place, or none.
fn shown<T>(result: Result<T, Refusal>) -> Option<(u64, u64)> {
    result.err().map(|refusal| (refusal.number, refusal.place))
}

/// The text that a call writes to a buffer of so many bytes, or its refusal. The other bytes stay as they were.
fn written(
    room: usize,
    call: impl Fn(&mut [u8]) -> Result<u64, Refusal>,
) -> Result<String, (u64, u64)> {
    let mut out = vec![b'.'; room];
    let answer = call(&mut out);
    let (text, rest) = out.split_at(answer.unwrap_or(0) as usize);
    assert!(rest.iter().all(|&byte| byte == b'.'));
    match shown(answer) {
        Some(refusal) => Err(refusal),
        None => Ok(String::from_utf8_lossy(text).to_string()),
    }
}

/// A sheet of this window, these names (parted by spaces) and these rules.
fn sheet(window: usize, names: &str, rules: &[&str]) -> String {
    let names: Vec<&str> = names.split_whitespace().collect();
    let mut text = format!("window={window}\nsignals={}\n", names.len());
    for name in &names {
        text += &format!("signal={name}\n");
    }
    text += &format!("rules={}\n", rules.len());
    for rule in rules {
        text += &format!("rule={rule}\n");
    }
    text
}

/// Readings of tick, name and value.
fn readings(all: &[(usize, &str, usize)]) -> String {
    let one = |(tick, name, value): &(usize, &str, usize)| {
        format!("at={tick}\nsignal={name}\nvalue={value}\n")
    };
    all.iter().map(one).collect()
}

/// Spans of first and last tick, name and value.
fn spans(all: &[(usize, usize, &str, usize)]) -> String {
    let one = |(first, last, name, value): &(usize, usize, &str, usize)| {
        format!("from={first}\nto={last}\nsignal={name}\nvalue={value}\n")
    };
    all.iter().map(one).collect()
}
