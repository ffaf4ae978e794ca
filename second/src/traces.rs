//! The library's dumps for other programs, a folder each; and what these programs make of them, read by the library.

use crate::dumps::{readings_text, signs_in};
use crate::generate::case;
use crate::library;
use crate::operations::read;
use crate::table::marks_of;
use crate::tally::ended;
use std::ffi::OsStr;
use std::fs;
use std::io;
use std::path::{Path, PathBuf};
use std::process::ExitCode;

/// The longest dump that is given away: other programs take their time.
const LONGEST_DUMP: usize = 200_000;

/// Writes so many dumps: each folder has the sheet, the dump, and in readings.txt the settled values, which are made here and not by the library.
pub fn write(count: u64, seed: u64, folder: &Path) -> ExitCode {
    if !library::LINKED {
        eprintln!("second: built without the library, so there are no dumps");
        return ExitCode::from(2);
    }
    let dumps = (0..).flat_map(|number| dumps_of(seed, number));
    for (number, (sheet, dump, readings)) in dumps.take(count as usize).enumerate() {
        let folder = folder.join(format!("{number:05}"));
        let files = [
            ("sheet.txt", &sheet),
            ("dump.vcd", &dump),
            ("readings.txt", &readings),
        ];
        let written = fs::create_dir_all(&folder).and_then(|()| {
            let mut files = files.iter();
            files.try_for_each(|(name, text)| fs::write(folder.join(name), text))
        });
        if let Err(error) = written {
            eprintln!("second: {}: {error}", folder.display());
            return ExitCode::from(2);
        }
    }
    ExitCode::SUCCESS
}

/// A sheet, the dump of a table, and its settled values as readings.
type Dump = (Vec<u8>, Vec<u8>, Vec<u8>);

/// The dumps that the library writes in a generated case.
fn dumps_of(seed: u64, number: u64) -> Vec<Dump> {
    let case = case(seed, number);
    let mut dumps = vec![];
    for call in &case.dumps_written {
        let mut out = vec![0; LONGEST_DUMP];
        let outcome = library::write_dump(&case.sheet, &call.table, &mut out);
        if outcome.answer == 0 {
            out.truncate(outcome.outputs[0] as usize);
            let readings = settled(&case.sheet, &call.table);
            dumps.push((case.sheet.clone(), out, readings));
        }
    }
    dumps
}

/// The settled values of an accepted table.
fn settled(sheet: &[u8], table: &[u64]) -> Vec<u8> {
    let (sheet, rows) = read(sheet).expect("an accepted sheet");
    let marks = marks_of(table, rows.nodes.len(), sheet.window).expect("an accepted table");
    let signs = signs_in(&marks, sheet.names.len(), sheet.window);
    readings_text(&sheet.names, &signs).into_bytes()
}

/// Has the library read every dump of the folders, which must give the readings there.
pub fn reread(folder: &Path) -> ExitCode {
    match files_of(folder) {
        Ok(files) => {
            let wrong: Vec<&PathBuf> = files.iter().filter(|file| !says_the_same(file)).collect();
            for file in &wrong {
                println!("{}: other readings, or none", file.display());
            }
            ended(files.len() as u64, wrong.len() as u64, 0)
        }
        Err(error) => {
            eprintln!("second: {}: {error}", folder.display());
            ExitCode::from(2)
        }
    }
}

/// The dumps in the folder's folders, by name.
fn files_of(folder: &Path) -> io::Result<Vec<PathBuf>> {
    let mut files = vec![];
    for folder in fs::read_dir(folder)? {
        for file in fs::read_dir(folder?.path())? {
            files.push(file?.path());
        }
    }
    files.retain(|file| file.extension() == Some(OsStr::new("vcd")));
    files.sort();
    Ok(files)
}

fn says_the_same(file: &Path) -> bool {
    let other = |name: &str| fs::read(file.with_file_name(name)).unwrap_or_default();
    let (sheet, wanted) = (other("sheet.txt"), other("readings.txt"));
    let dump = fs::read(file).unwrap_or_default();
    let mut out = vec![0; wanted.len()];
    let outcome = library::read_dump(&sheet, &dump, &mut out);
    (outcome.answer, outcome.outputs[0] as usize) == (0, wanted.len()) && out == wanted
}
