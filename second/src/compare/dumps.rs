//! Dumps on both sides: answer, length, place and every byte of the lent buffer must be the same. What the library writes it must read back to
//! exactly the settled values, and the table that has just these it must write as the same dump; what it reads it must write as a dump that
//! says the same.

use super::expected;
use super::written::{sides, Written};
use crate::dumps::{dump_text, read_dump, readings_text, signs_in, signs_of, table_of, write_dump};
use crate::generate::dumps::{ReadDump, WriteDump};
use crate::library;
use crate::operations::read;
use crate::seen::Met;
use crate::table::marks_of;
use crate::text::Refusal;

pub fn compare_writing(sheet: &[u8], call: &WriteDump, met: &mut Met) -> Result<(), String> {
    let WriteDump { table, room } = call;
    let ours = Written::by(*room, |out| {
        expected(write_dump(sheet, table, out).map(|length| [length]))
    });
    let theirs = their_writing(sheet, table, *room);
    let source = || writing(sheet, call) + &sides(&ours, &theirs);
    if ours != theirs {
        return Err(source());
    }
    if let Some(text) = theirs.text() {
        written_back(sheet, table, text).map_err(|what| source() + what)?;
    }
    met.dump_written(sheet, call, &ours.outcome);
    Ok(())
}

pub fn compare_reading(sheet: &[u8], call: &ReadDump, met: &mut Met) -> Result<(), String> {
    let ReadDump { dump, room } = call;
    let ours = Written::by(*room, |out| {
        expected(read_dump(sheet, dump, out).map(|length| [length]))
    });
    let theirs = their_reading(sheet, dump, *room);
    let source = || reading(sheet, call) + &sides(&ours, &theirs);
    if ours != theirs {
        return Err(source());
    }
    if let Some(text) = theirs.text() {
        read_back(sheet, dump, text).map_err(|what| source() + what)?;
    }
    met.dump_read(sheet, call, &ours.outcome);
    Ok(())
}

fn their_writing(sheet: &[u8], table: &[u64], room: usize) -> Written {
    Written::by(room, |out| library::write_dump(sheet, table, out))
}

fn their_reading(sheet: &[u8], dump: &[u8], room: usize) -> Written {
    Written::by(room, |out| library::read_dump(sheet, dump, out))
}

/// Reads what was written of the table. Answers what is wrong.
fn written_back(sheet: &[u8], table: &[u64], text: &[u8]) -> Result<(), &'static str> {
    let accepted = |_: Refusal| "// the sheet or the table is refused after all\n";
    let (read, rows) = read(sheet).map_err(accepted)?;
    let rows = rows.nodes.len();
    let marks = marks_of(table, rows, read.window).map_err(accepted)?;
    let signs = signs_in(&marks, read.names.len(), read.window);
    let settled = readings_text(&read.names, &signs);
    let back = their_reading(sheet, text, settled.len());
    if back.text() != Some(settled.as_bytes()) {
        return Err("// read after write does not give the settled values\n");
    }
    let again = their_writing(sheet, &table_of(&signs, rows), text.len());
    if again.text() != Some(text) {
        return Err("// the table of the readings alone is written in another way\n");
    }
    Ok(())
}

/// Writes the table of just the readings that were read of the dump, and reads that. Answers what is wrong.
fn read_back(sheet: &[u8], dump: &[u8], text: &[u8]) -> Result<(), &'static str> {
    let accepted = |_: Refusal| "// the sheet or the dump is refused after all\n";
    let (read, rows) = read(sheet).map_err(accepted)?;
    let signs = signs_of(dump, read.window, &read.names).map_err(accepted)?;
    let plain = dump_text(&read.names, &signs);
    let table = table_of(&signs, rows.nodes.len());
    let written = their_writing(sheet, &table, plain.len());
    if written.text() != Some(plain.as_bytes()) {
        return Err("// the table of the readings alone is not written as they say\n");
    }
    if their_reading(sheet, plain.as_bytes(), text.len()).text() != Some(text) {
        return Err("// read, written and read again, the readings are others\n");
    }
    Ok(())
}

/// A call that writes, as Rust source.
fn writing(sheet: &[u8], call: &WriteDump) -> String {
    let WriteDump { table, room } = call;
    let mut text = format!("let sheet = b\"{}\";\n", sheet.escape_ascii());
    text += &format!("let mut table = vec![0u64; {}];\n", table.len());
    for (place, word) in table.iter().enumerate().filter(|(_, word)| **word != 0) {
        text += &format!("table[{place}] = {word:#x};\n");
    }
    text + &format!("write_dump(sheet, &table, &mut [0; {room}]);\n")
}

/// A call that reads, as Rust source.
fn reading(sheet: &[u8], call: &ReadDump) -> String {
    let ReadDump { dump, room } = call;
    let mut text = format!("let sheet = b\"{}\";\n", sheet.escape_ascii());
    text += &format!("let dump = b\"{}\";\n", dump.escape_ascii());
    text + &format!("read_dump(sheet, dump, &mut [0; {room}]);\n")
}
