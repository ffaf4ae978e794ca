//! What the example programs share: they read files of a folder, and print a text or say why there is none.

use std::fs;
use std::path::Path;
use std::process::ExitCode;

/// A file of the folder, or why it can't be read.
pub fn read(folder: &Path, name: &str) -> Result<Vec<u8>, String> {
    let file = folder.join(name);
    fs::read(&file).map_err(|error| format!("{}: {error}", file.display()))
}

/// Prints the text. Why there is none is told on standard error, and the status is 2.
pub fn print_or_tell(text: Result<String, String>) -> ExitCode {
    match text {
        Ok(text) => {
            print!("{text}");
            ExitCode::SUCCESS
        }
        Err(why) => {
            eprintln!("{why}");
            ExitCode::from(2)
        }
    }
}
