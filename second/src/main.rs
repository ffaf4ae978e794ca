//! The second program: `second compare [COUNT] [SEED]`, `second listings COUNT SEED COMMAND..`, `second captioned COUNT SEED COMMAND..`,
//! `second settle FOLDER`, `second settle_captioned FOLDER`, `second export COUNT SEED FOLDER..`, `second dumps COUNT SEED FOLDER` and
//! `second reread FOLDER`.

mod captions;
mod compare;
mod dumps;
mod export;
mod figures;
mod generate;
mod infer;
mod library;
mod listing;
mod listings;
mod lower;
mod moves;
mod operations;
mod print;
mod rewriting;
mod seen;
mod seen_calls;
mod seen_captioned;
mod seen_captions;
mod seen_dumps;
mod seen_figures;
mod seen_listings;
mod seen_print;
mod seen_readings;
mod table;
mod tally;
#[cfg(test)]
mod tests;
mod text;
mod traces;

use std::path::Path;
use std::process::ExitCode;

const USAGE: &str = "usage: second compare [COUNT] [SEED] | second listings COUNT SEED COMMAND.. \
                     | second captioned COUNT SEED COMMAND.. | second settle FOLDER \
                     | second settle_captioned FOLDER | second export COUNT SEED FOLDER.. \
                     | second dumps COUNT SEED FOLDER | second reread FOLDER";

fn main() -> ExitCode {
    let words: Vec<String> = std::env::args().skip(1).collect();
    let words: Vec<&str> = words.iter().map(String::as_str).collect();
    match words[..] {
        ["settle", folder] => settle(Path::new(folder)),
        ["settle_captioned", folder] => settle_captioned(Path::new(folder)),
        ["compare"] => compare::run(20_000, 1),
        ["compare", count] => with_numbers(count, "1", compare::run),
        ["compare", count, seed] => with_numbers(count, seed, compare::run),
        ["listings", count, seed, ref command @ ..] if !command.is_empty() => {
            with_numbers(count, seed, |count, seed| {
                listings::run(count, seed, command)
            })
        }
        ["captioned", count, seed, ref command @ ..] if !command.is_empty() => {
            with_numbers(count, seed, |count, seed| {
                listings::run_captioned(count, seed, command)
            })
        }
        ["export", count, seed, ref folders @ ..] => {
            with_numbers(count, seed, |count, seed| export::run(count, seed, folders))
        }
        ["dumps", count, seed, folder] => with_numbers(count, seed, |count, seed| {
            traces::write(count, seed, Path::new(folder))
        }),
        ["reread", folder] => traces::reread(Path::new(folder)),
        _ => usage(),
    }
}

fn usage() -> ExitCode {
    eprintln!("{USAGE}");
    ExitCode::from(2)
}

fn with_numbers(count: &str, seed: &str, run: impl Fn(u64, u64) -> ExitCode) -> ExitCode {
    match (count.parse(), seed.parse()) {
        (Ok(count), Ok(seed)) => run(count, seed),
        _ => usage(),
    }
}

/// Prints the listing of a folder.
fn settle(folder: &Path) -> ExitCode {
    let [sheet, readings] = ["sheet.txt", "readings.txt"].map(|name| file(folder, name));
    print!("{}", listing::listing(&sheet, &readings));
    ExitCode::SUCCESS
}

/// The same with captions.
fn settle_captioned(folder: &Path) -> ExitCode {
    let files = ["sheet.txt", "captions.txt", "readings.txt"];
    let [sheet, captions, readings] = files.map(|name| file(folder, name));
    print!("{}", listing::captioned(&sheet, &captions, &readings));
    ExitCode::SUCCESS
}

/// What a listing program sees of a file; one that cannot be read counts as empty.
fn file(folder: &Path, name: &str) -> Vec<u8> {
    let bytes = std::fs::read(folder.join(name)).unwrap_or_default();
    listing::seen_of(&bytes).to_vec()
}
