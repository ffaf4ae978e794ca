//! undump FOLDER DUMP: reads a value change dump of a folder and prints the readings that it says, for the signals of the folder's sheet.txt.
//!
//! What can't be read or is refused is told in words on standard error, and the status is 2.

mod common;

use common::{print_or_tell, read};
use mikhakun::read_dump;
use std::env;
use std::path::Path;
use std::process::ExitCode;

fn main() -> ExitCode {
    let words: Vec<String> = env::args().skip(1).collect();
    print_or_tell(match &words[..] {
        [folder, name] => printed(Path::new(folder), name),
        _ => Err("usage: undump FOLDER DUMP".to_string()),
    })
}

/// The readings that the named dump says, or why there are none.
fn printed(folder: &Path, name: &str) -> Result<String, String> {
    let (sheet, dump) = (read(folder, "sheet.txt")?, read(folder, name)?);
    let readings = read_dump(&sheet, &dump).map_err(|refusal| refusal.explain(&sheet, &dump).to_string())?;
    Ok(String::from_utf8_lossy(&readings).to_string())
}
