//! The library's tables, for other programs to judge: one line of JSON for each accepted add, of folders and of generated cases. The judges
//! read single readings, so a text of spans is told as these.

use crate::generate::{case, Call, Case};
use crate::library;
use crate::moves::moved;
use crate::operations::read;
use crate::table::length;
use crate::text::readings::Form;
use std::path::Path;
use std::process::ExitCode;

/// The judges' time goes with rows times window. Generated cases with more of it than 1,024 rows of 64 ticks are left out, so
/// windows of thousands of ticks come with few rows only.
const MOST_CELLS: usize = 1_024 * 64;

/// The folders' cases, then the first `count` generated ones that the library accepts.
pub fn run(count: u64, seed: u64, folders: &[&str]) -> ExitCode {
    if !library::LINKED {
        eprintln!("second: built without the library, so there is nothing to export");
        return ExitCode::from(2);
    }
    for name in folders {
        if let Some(line) = line(name, &of_folder(Path::new(name))) {
            println!("{line}");
        }
    }
    let generated = (0..).filter_map(|number| {
        let case = case(seed, number);
        let (rows, window) = size(&case.sheet);
        if rows * window > MOST_CELLS {
            return None;
        }
        line(&format!("case {number} of seed {seed}"), &case)
    });
    for line in generated.take(count as usize) {
        println!("{line}");
    }
    ExitCode::SUCCESS
}

/// How many rows the sheet has, and how many ticks its window; of a refused sheet none.
fn size(sheet: &[u8]) -> (usize, usize) {
    read(sheet).map_or((0, 0), |(sheet, rows)| (rows.nodes.len(), sheet.window))
}

/// The sheet and readings of a folder, added to an empty table.
fn of_folder(folder: &Path) -> Case {
    let file = |name: &str| std::fs::read(folder.join(name)).unwrap_or_default();
    let sheet = file("sheet.txt");
    let (rows, window) = size(&sheet);
    let readings = file("readings.txt");
    Case {
        sheet,
        table: vec![0; length(rows, window)],
        calls: vec![Call::Add {
            readings,
            parts: vec![],
        }],
        moves: vec![],
        figures: vec![],
        prints: vec![],
        dumps_written: vec![],
        dumps_read: vec![],
        captions: vec![],
    }
}

/// The first add of the case, if the library accepts it: the texts, the table before and after, and the clash.
fn line(name: &str, case: &Case) -> Option<String> {
    let readings = case.calls.iter().find_map(|call| match call {
        Call::Add { readings, .. } => Some(readings),
        _ => None,
    })?;
    let mut table = case.table.clone();
    let added = library::add(&case.sheet, readings, &mut table);
    if added.answer != 0 {
        return None;
    }
    let told = single(&case.sheet, readings)?;
    let (sheet, readings, clash) = (quoted(&case.sheet), quoted(&told), added.outputs[1]);
    let (held, table) = (&case.table, &table);
    Some(format!(
        r#"{{"name":"{name}","sheet":{sheet},"readings":{readings},"held":{held:?},"table":{table:?},"clash":{clash}}}"#
    ))
}

/// The readings one by one, however many; single readings stay as they are.
fn single(sheet: &[u8], readings: &[u8]) -> Option<Vec<u8>> {
    if Form::of(readings) == Form::Readings {
        return Some(readings.to_vec());
    }
    let (sheet, _) = read(sheet).ok()?;
    let text = moved(Form::Readings, readings, sheet.window, &sheet.names).ok()?;
    Some(text.into_bytes())
}

/// An accepted text as a JSON string: of the bytes that JSON escapes it has LF alone.
fn quoted(text: &[u8]) -> String {
    format!("\"{}\"", String::from_utf8_lossy(text).replace('\n', "\\n"))
}
