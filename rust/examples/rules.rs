//! rules FOLDER: prints each rule of the folder's sheet.txt as it was read, one a line.
//!
//! A rule whose text has over 256 bytes gets a line that says so. What can't be read or is refused is told in words on standard error, and the status is 2.

mod common;

use common::{print_or_tell, read};
use mikhakun::{check, print_rule};
use std::env;
use std::path::Path;
use std::process::ExitCode;

/// The refusal of a text that is too long for a rule.
const NO_ROOM: u64 = 20;

const TOO_LONG: &str = "over 256 bytes, with its intervals in square brackets";

fn main() -> ExitCode {
    let words: Vec<String> = env::args().skip(1).collect();
    print_or_tell(match &words[..] {
        [folder] => printed(Path::new(folder)),
        _ => Err("usage: rules FOLDER".to_string()),
    })
}

/// The rules of the folder's sheet, a line each, or why there are none.
fn printed(folder: &Path) -> Result<String, String> {
    let sheet = read(folder, "sheet.txt")?;
    check(&sheet).map_err(|refusal| refusal.explain(&sheet, b"").to_string())?;
    Ok((0..).map_while(|rule| line(&sheet, rule)).collect())
}

/// The line of a rule of an accepted sheet, if there is one of this number.
fn line(sheet: &[u8], rule: usize) -> Option<String> {
    match print_rule(sheet, rule) {
        Ok(text) => Some(format!("{}\n", String::from_utf8_lossy(&text))),
        Err(refusal) if refusal.number() == NO_ROOM => Some(format!("{TOO_LONG}\n")),
        Err(_) => None,
    }
}
