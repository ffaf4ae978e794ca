//! figures FOLDER TEXT..: runs readings texts of a folder against its sheet.txt and prints a line for each signal, under a heading.
//!
//! What can't be read or is refused is told in words on standard error, and the status is 2.

mod common;

use common::{print_or_tell, read};
use mikhakun::{figures, Record, Refusal};
use std::env;
use std::path::Path;
use std::process::ExitCode;

/// A line of the table, the heading among them.
type Line = [String; 6];

const HEADING: [&str; 6] = ["signal", "true", "false", "unsettled", "clashing", "first"];

fn main() -> ExitCode {
    let words: Vec<String> = env::args().skip(1).collect();
    print_or_tell(match words.split_first() {
        Some((folder, names)) => printed(Path::new(folder), names),
        None => Err("usage: figures FOLDER TEXT..".to_string()),
    })
}

/// The table of the named texts, or why there is none.
fn printed(folder: &Path, names: &[String]) -> Result<String, String> {
    let sheet = read(folder, "sheet.txt")?;
    let texts: Vec<Vec<u8>> = names.iter().map(|name| read(folder, name)).collect::<Result<_, _>>()?;
    let texts: Vec<&[u8]> = texts.iter().map(Vec::as_slice).collect();
    let records = figures(&sheet, &texts).map_err(|refusal| told(refusal, &sheet, names, &texts))?;
    Ok(table(&signals_of(&sheet), &records))
}

/// A refusal in words, with the name of the text that it is in.
fn told(refusal: Refusal, sheet: &[u8], names: &[String], texts: &[&[u8]]) -> String {
    match refusal.among(texts) {
        Some((which, own)) => format!("{}: {}", names[which], own.explain(sheet, texts[which])),
        None => refusal.explain(sheet, b"").to_string(),
    }
}

/// The names that an accepted sheet declares.
fn signals_of(sheet: &[u8]) -> Vec<String> {
    String::from_utf8_lossy(sheet).lines().filter_map(|line| line.strip_prefix("signal=")).map(str::to_string).collect()
}

/// The records under the heading: names to the left of their column, numbers to the right.
fn table(signals: &[String], records: &[Record]) -> String {
    let mut lines = vec![HEADING.map(str::to_string)];
    lines.extend(records.iter().map(|record| line(&signals[record.signal], record)));
    let widths: Vec<usize> = (0..HEADING.len()).map(|column| lines.iter().map(|line| line[column].len()).max().unwrap_or(0)).collect();
    lines.iter().map(|line| aligned(line, &widths)).collect()
}

fn line(name: &str, record: &Record) -> Line {
    let counts = [record.held, record.failed, record.unsettled, record.clashed].map(|count| count.to_string());
    let [held, failed, unsettled, clashed] = counts;
    let first = record.first.map_or("-".to_string(), |tick| tick.to_string());
    [name.to_string(), held, failed, unsettled, clashed, first]
}

fn aligned(line: &Line, widths: &[usize]) -> String {
    let numbers: String = line.iter().zip(widths).skip(1).map(|(number, &width)| format!("  {number:>width$}")).collect();
    format!("{:<1$}{numbers}\n", line[0], widths[0])
}
