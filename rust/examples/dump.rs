//! dump FOLDER: adds the folder's readings.txt to an empty table of its sheet.txt and prints the closed table as a value change dump.
//!
//! What can't be read or is refused, as a table that clashes is, is told in words on standard error, and the status is 2.

mod common;

use common::{print_or_tell, read};
use mikhakun::{add, write_dump, Refusal, Table};
use std::env;
use std::path::Path;
use std::process::ExitCode;

fn main() -> ExitCode {
    let words: Vec<String> = env::args().skip(1).collect();
    print_or_tell(match &words[..] {
        [folder] => printed(Path::new(folder)),
        _ => Err("usage: dump FOLDER".to_string()),
    })
}

/// The dump of the folder's sheet and readings, or why there is none.
fn printed(folder: &Path) -> Result<String, String> {
    let (sheet, readings) = (read(folder, "sheet.txt")?, read(folder, "readings.txt")?);
    let dump = dump(&sheet, &readings).map_err(|refusal| refusal.explain(&sheet, &readings).to_string())?;
    Ok(String::from_utf8_lossy(&dump).to_string())
}

fn dump(sheet: &[u8], readings: &[u8]) -> Result<Vec<u8>, Refusal> {
    let mut table = Table::for_sheet(sheet)?;
    add(sheet, readings, &mut table)?;
    write_dump(sheet, &table)
}
