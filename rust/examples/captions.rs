//! captions FOLDER: prints what is shown of each signal of the folder's sheet.txt where its captions.txt has the house's words, one a line in sheet order.
//!
//! A line has the signal's name, the text that what is shown is a part of, and what is shown. What can't be read or is refused is told in words on standard
//! error, and the status is 2.

mod common;

use common::{print_or_tell, read};
use mikhakun::{caption, Caption};
use std::env;
use std::path::Path;
use std::process::ExitCode;

/// What is shown of a signal without captions, which is its name, and with them.
type Shown<'a> = (Caption<'a>, Caption<'a>);

fn main() -> ExitCode {
    let words: Vec<String> = env::args().skip(1).collect();
    print_or_tell(match &words[..] {
        [folder] => printed(Path::new(folder)),
        _ => Err("usage: captions FOLDER".to_string()),
    })
}

/// What is shown of the signals of the folder's sheet, a line each, or why there is nothing. Every sheet has a signal 0.
fn printed(folder: &Path) -> Result<String, String> {
    let (sheet, captions) = (read(folder, "sheet.txt")?, read(folder, "captions.txt")?);
    caption(&sheet, &captions, 0).map_err(|refusal| refusal.explain(&sheet, &captions).to_string())?;
    let signals: Vec<Shown> = (0..).map_while(|signal| shown(&sheet, &captions, signal)).collect();
    let width = signals.iter().map(|(name, _)| name.shown.len()).max().unwrap_or(0);
    Ok(signals.iter().map(|(name, caption)| format!("{name:<width$}  {:<8}  {caption}\n", caption.text.to_string())).collect())
}

/// What is shown of a signal of an accepted sheet, if there is one of this number.
fn shown<'a>(sheet: &'a [u8], captions: &'a [u8], signal: usize) -> Option<Shown<'a>> {
    Some((caption(sheet, b"", signal).ok()?, caption(sheet, captions, signal).ok()?))
}
