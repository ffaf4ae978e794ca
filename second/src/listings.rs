//! The listing programs beside this one: on generated sheets and readings, and for one of them captions, they must print the same bytes.

use crate::generate::listed::{self, Texts};
use crate::listing::{captioned, listing, seen_of};
use crate::seen_listings::Met;
use crate::tally::ended;
use std::fs;
use std::io;
use std::path::{Path, PathBuf};
use std::process::{Command, ExitCode};

/// How many differing cases are printed, and how many bytes of their listings from the first difference on.
const MOST_PRINTED: u64 = 5;
const MOST_SHOWN: usize = 60;

/// Runs the program without captions in a folder with each case's files.
pub fn run(count: u64, seed: u64, command: &[&str]) -> ExitCode {
    let cases = (0..count).map(|number| listed::plain(seed, number));
    compare(cases, Met::none(count), seed, command)
}

/// The same with the program that takes captions.
pub fn run_captioned(count: u64, seed: u64, command: &[&str]) -> ExitCode {
    let cases = (0..count).map(|number| listed::captioned(seed, number));
    compare(cases, Met::none_captioned(count), seed, command)
}

fn compare(
    cases: impl Iterator<Item = Texts>,
    mut met: Met,
    seed: u64,
    command: &[&str],
) -> ExitCode {
    let folder = match Folder::new() {
        Ok(folder) => folder,
        Err(error) => {
            eprintln!("second: no folder for the files: {error}");
            return ExitCode::from(2);
        }
    };
    let (mut count, mut failed) = (0, 0);
    for (number, texts) in (0..).zip(cases) {
        let ours = our_listing(&texts);
        let theirs = printed(&folder.0, &texts, number, command);
        met.count(&texts, &ours);
        count += 1;
        let ours = ours.into_bytes();
        if theirs.as_ref() != Ok(&ours) {
            failed += 1;
            if failed <= MOST_PRINTED {
                println!("listing {number} of seed {seed}:");
                print!("{}", pasteable(&texts, &ours, &theirs));
            }
        }
    }
    ended(count, failed, met.print())
}

fn our_listing(texts: &Texts) -> String {
    match &texts.captions {
        Some(captions) => captioned(&texts.sheet, seen_of(captions), &texts.readings),
        None => listing(&texts.sheet, &texts.readings),
    }
}

/// A new folder of the system's room for files, removed with all its files in the end.
struct Folder(PathBuf);

impl Folder {
    fn new() -> io::Result<Self> {
        let name = format!("second-listings-{}", std::process::id());
        let path = std::env::temp_dir().join(name);
        fs::create_dir(&path)?;
        Ok(Folder(path))
    }
}

impl Drop for Folder {
    fn drop(&mut self) {
        // What cannot be removed stays; nothing depends on it.
        let _ = fs::remove_dir_all(&self.0);
    }
}

/// What the command prints in the folder with these texts. Of every other case an empty text is no file at all.
fn printed(folder: &Path, texts: &Texts, number: u64, command: &[&str]) -> Result<Vec<u8>, String> {
    for (name, text) in texts.files() {
        let file = folder.join(name);
        let no_file = text.is_empty() && number % 2 == 0;
        let written = match (no_file, file.exists()) {
            (true, true) => fs::remove_file(file),
            (true, false) => Ok(()),
            _ => fs::write(file, text),
        };
        written.map_err(|error| format!("{name} could not be written: {error}"))?;
    }
    let ran = Command::new(command[0])
        .args(&command[1..])
        .current_dir(folder)
        .output();
    match ran {
        Ok(output) if output.status.success() => Ok(output.stdout),
        Ok(output) => Err(format!("it ended with {}", output.status)),
        Err(error) => Err(format!("it could not be run: {error}")),
    }
}

/// The texts as Rust source, then where the listings differ, or why there is none.
fn pasteable(texts: &Texts, ours: &[u8], theirs: &Result<Vec<u8>, String>) -> String {
    let mut text = String::new();
    for (file, bytes) in texts.files() {
        let name = file.trim_end_matches(".txt");
        text += &format!("let {name} = b\"{}\";\n", bytes.escape_ascii());
    }
    match theirs {
        Err(error) => text += &format!("// the program: {error}\n"),
        Ok(theirs) => {
            let pairs = ours.iter().zip(theirs);
            let same = pairs.take_while(|(one, two)| one == two).count();
            for (side, listing) in [("second", ours), ("the program", theirs)] {
                let rest = listing[same..].iter().take(MOST_SHOWN).copied();
                let rest: Vec<u8> = rest.collect();
                text += &format!("// {side} from byte {same}: {}\n", rest.escape_ascii());
            }
        }
    }
    text
}
