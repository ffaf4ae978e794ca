//! The listing of a sheet and its readings after one add to an empty table. Signals come in the order of their names, and are shown by their
//! captions where there are any.

use crate::captions::parts;
use crate::operations::{add, read, Added};
use crate::table;
use crate::text::name::in_order;
use crate::text::{refuse, Refusal};

/// The most words of a table that is listed.
pub const MOST_WORDS: usize = 8_192;

/// The most bytes that a listing program reads of a file. A longer sheet and longer readings are refused, whatever follows; of captions no more is seen.
pub const MOST_READ: usize = 32_769;

pub fn listing(sheet: &[u8], readings: &[u8]) -> String {
    captioned(sheet, b"", readings)
}

/// The same with captions.
pub fn captioned(sheet: &[u8], captions: &[u8], readings: &[u8]) -> String {
    match accepted(sheet, captions, readings) {
        Ok(text) => text,
        Err(Refusal { number, place }) => format!("answer={number}\nplace={place}\n"),
    }
}

/// What a listing program sees of a file.
pub fn seen_of(file: &[u8]) -> &[u8] {
    &file[..file.len().min(MOST_READ)]
}

fn accepted(text: &[u8], captions: &[u8], readings: &[u8]) -> Result<String, Refusal> {
    let (sheet, rows) = read(text)?;
    let parts = parts(&sheet, captions)?;
    let rows = rows.nodes.len();
    let words = table::length(rows, sheet.window);
    if words > MOST_WORDS {
        return refuse(29, 0);
    }
    let mut table = vec![0; words];
    let Added { new_facts, clash } = add(text, readings, &mut table)?;
    let marks = table::marks_of(&table, rows, sheet.window)?;
    let mut lines = format!("answer=0\nrows={rows}\nfacts={new_facts}\nclash={clash}\n");
    for signal in in_order(&sheet.names) {
        let (part, values) = (&parts[signal], marks.values(signal));
        let shown = String::from_utf8_lossy(part.shown(text, captions));
        let signs = values
            .iter()
            .map(|&value| ['?', '1', '0', 'x'][value as usize]);
        let signs = signs.collect::<String>();
        lines += &format!("signal={shown}\nmarks={signs}\n");
    }
    Ok(lines)
}
