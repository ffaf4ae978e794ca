//! Calls that write and read dumps: tables with and without a clash, outside the window or of a wrong length, and buffers of every kind of room.

use super::random::Random;
use super::room::room;
use super::{dump_text, readings, tables, windows, Shape};
use crate::dumps::{dump, readings as read, table_of, Sign, Signs};
use crate::operations::add;
use crate::table::{length, word_of};
use crate::text::LONGEST_TEXT;

/// A table to be written as a dump to a buffer of so many bytes.
pub struct WriteDump {
    pub table: Vec<u64>,
    pub room: usize,
}

/// A dump to be read, and a buffer of so many bytes for its readings.
pub struct ReadDump {
    pub dump: Vec<u8>,
    pub room: usize,
}

/// Sheets with more cells are not closed here, and their signs seldom change at every tick.
const MOST_CELLS: usize = 20_000;

pub fn to_write(random: &mut Random, sheet: &[u8], shape: &Shape) -> WriteDump {
    let table = table(random, sheet, shape);
    let room = room(random, dump(sheet, &table).ok(), LONGEST_TEXT);
    WriteDump { table, room }
}

/// The same of a table in which signs change at most ticks.
pub fn busy_to_write(random: &mut Random, sheet: &[u8], shape: &Shape) -> WriteDump {
    let pace = random.pick(&[1, 2, 5]);
    let signs = signs_at(random, pace, shape.names.len(), shape.window);
    let table = table_of(&signs, shape.rows);
    let room = room(random, dump(sheet, &table).ok(), LONGEST_TEXT);
    WriteDump { table, room }
}

pub fn to_read(random: &mut Random, sheet: &[u8], shape: &Shape) -> ReadDump {
    let dump = dump_text::dump(random, shape.window, &shape.names);
    let room = room(random, read(sheet, &dump).ok(), LONGEST_TEXT);
    ReadDump { dump, room }
}

/// Most often without a fault; else with a clash, a mark outside the window or a wrong length, and now and then with two of these.
fn table(random: &mut Random, sheet: &[u8], shape: &Shape) -> Vec<u64> {
    match random.weighted(&[52, 16, 12, 8, 8, 4]) {
        0 => settled(random, shape),
        1 => closed(random, sheet, shape),
        2 => {
            let mut table = settled(random, shape);
            clash(random, &mut table, shape);
            table
        }
        3 => {
            let mut table = maybe_clashing(random, shape);
            tables::mark_outside(random, &mut table, shape.rows, shape.window);
            table
        }
        4 => {
            let mut table = maybe_clashing(random, shape);
            tables::resize(random, &mut table, shape.rows);
            table
        }
        _ => tables::table(random, shape),
    }
}

/// A table without a clash, whose signs hold for a while; every other one has marks in other rows too.
fn settled(random: &mut Random, shape: &Shape) -> Vec<u64> {
    let signals = shape.names.len();
    let rows = random.pick(&[signals, shape.rows]);
    let signs = signs(random, rows, shape.window);
    table_of(&signs, shape.rows)
}

fn maybe_clashing(random: &mut Random, shape: &Shape) -> Vec<u64> {
    let mut table = settled(random, shape);
    if random.chance(50) {
        clash(random, &mut table, shape);
    }
    table
}

/// Both marks in a cell: of a signal, or of any row, which may be hidden or a part of a rule.
fn clash(random: &mut Random, table: &mut [u64], shape: &Shape) {
    let (signal, any) = (random.below(shape.names.len()), random.below(shape.rows));
    let row = random.pick(&[signal, any, any, shape.rows - 1]);
    let tick = windows::tick(random, shape.window);
    for value in [false, true] {
        let (place, mark) = word_of(row, tick, value, shape.window);
        table[place] |= mark;
    }
}

/// What an add makes of an empty table; of a large one it is not asked.
fn closed(random: &mut Random, sheet: &[u8], shape: &Shape) -> Vec<u64> {
    let mut table = vec![0; length(shape.rows, shape.window)];
    if shape.rows * shape.window <= MOST_CELLS {
        let text = readings::whole(random, shape.window, &shape.names);
        // A refused sheet leaves the table as it is.
        let _ = add(sheet, &text, &mut table);
    }
    table
}

/// Signs of so many rows that change at every tick, after a few or many, or never.
pub fn signs(random: &mut Random, rows: usize, window: usize) -> Signs {
    let slow = rows * window > MOST_CELLS && random.chance(90);
    let pace = if slow {
        random.pick(&[50, 200, 1_000, usize::MAX])
    } else {
        random.pick(&[1, 2, 5, 20, 100, usize::MAX])
    };
    signs_at(random, pace, rows, window)
}

/// The same, where a sign changes after about so many ticks.
fn signs_at(random: &mut Random, pace: usize, rows: usize, window: usize) -> Signs {
    let mut now: Vec<Sign> = (0..rows).map(|_| sign(random)).collect();
    let mut signs = vec![now.clone()];
    while signs.len() < window {
        for row in &mut now {
            if random.below(pace) == 0 {
                *row = sign(random);
            }
        }
        signs.push(now.clone());
    }
    signs
}

fn sign(random: &mut Random) -> Sign {
    random.pick(&[None, Some(false), Some(true)])
}
