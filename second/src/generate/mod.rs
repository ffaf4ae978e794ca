//! The generator of cases: a sheet, a lent table, and calls one after another; the same seed gives the same cases.

mod borders;
mod caption_text;
pub mod captions;
mod clumsy;
mod damage;
mod draft;
mod dump_text;
pub mod dumps;
mod faults;
pub mod figures;
mod formula;
mod full;
mod limit_formula;
mod limits;
pub mod listed;
pub mod moves;
mod names;
mod numbers;
mod parts;
pub mod print;
pub mod random;
mod readings;
mod room;
mod sheet;
mod spans;
mod tables;
mod windows;

use crate::operations::read;
use crate::text::name::{self, Name};
use captions::Caption;
use dumps::{ReadDump, WriteDump};
use figures::Figures;
use moves::Move;
use print::Print;
use random::Random;

pub enum Call {
    Check,
    Add {
        readings: Vec<u8>,
        /// The same readings for adds one after another; most often there are none.
        parts: Vec<Vec<u8>>,
    },
    Ask {
        signal: u64,
        tick: u64,
    },
}

pub struct Case {
    pub sheet: Vec<u8>,
    pub table: Vec<u64>,
    pub calls: Vec<Call>,
    /// Calls that take no table.
    pub moves: Vec<Move>,
    /// Calls with a work table of their own.
    pub figures: Vec<Figures>,
    /// Calls that take no table, some with a sheet of their own.
    pub prints: Vec<Print>,
    /// Calls with tables of their own.
    pub dumps_written: Vec<WriteDump>,
    /// Calls that take no table.
    pub dumps_read: Vec<ReadDump>,
    /// Calls that take no table.
    pub captions: Vec<Caption>,
}

/// What the rest of a case needs to know of its sheet; of a refused sheet it is made up.
pub struct Shape {
    /// Whether the sheet is accepted.
    accepted: bool,
    window: usize,
    names: Vec<String>,
    /// The names as they are read.
    declared: Vec<Name>,
    rows: usize,
}

/// One case in forty has moves whose texts are as long as allowed, or longer, and long dumps.
pub fn case(seed: u64, number: u64) -> Case {
    let mut random = Random::new(seed, number);
    if number % 40 == 0 {
        return full_case(&mut random);
    }
    let sheet = sheet::sheet(&mut random);
    let shape = shape(&sheet);
    let table = tables::table(&mut random, &shape);
    let calls = calls(&mut random, &shape);
    let moves = (0..random.below(3)).map(|_| moves::any(&mut random, &shape));
    let moves = moves.collect();
    let figures = (0..random.below(3)).map(|_| figures::any(&mut random, &shape));
    let figures = figures.collect();
    let prints = print::calls(&mut random, &sheet);
    let dumps_written = (0..random.below(3)).map(|_| dumps::to_write(&mut random, &sheet, &shape));
    let dumps_written = dumps_written.collect();
    let dumps_read = (0..random.below(4)).map(|_| dumps::to_read(&mut random, &sheet, &shape));
    let dumps_read = dumps_read.collect();
    let captions = (0..1 + random.below(3)).map(|_| captions::any(&mut random, &shape));
    let captions = captions.collect();
    Case {
        sheet,
        table,
        calls,
        moves,
        figures,
        prints,
        dumps_written,
        dumps_read,
        captions,
    }
}

fn full_case(random: &mut Random) -> Case {
    let sheet = full::sheet(random);
    let shape = shape(&sheet);
    let moves = (0..4).map(|_| moves::full(random, &shape));
    let moves = moves.collect();
    Case {
        table: vec![],
        calls: vec![],
        moves,
        figures: vec![figures::any(random, &shape)],
        prints: vec![],
        dumps_written: vec![
            dumps::to_write(random, &sheet, &shape),
            dumps::busy_to_write(random, &sheet, &shape),
        ],
        dumps_read: (0..3)
            .map(|_| dumps::to_read(random, &sheet, &shape))
            .collect(),
        captions: vec![captions::any(random, &shape)],
        sheet,
    }
}

fn shape(sheet: &[u8]) -> Shape {
    match read(sheet) {
        Ok((sheet, rows)) => Shape {
            accepted: true,
            window: sheet.window,
            names: sheet.names.iter().map(Name::to_string).collect(),
            declared: sheet.names,
            rows: rows.nodes.len(),
        },
        Err(_) => Shape {
            accepted: false,
            window: 4,
            names: vec!["a".to_string()],
            declared: name::read(b"a").into_iter().collect(),
            rows: 3,
        },
    }
}

fn calls(random: &mut Random, shape: &Shape) -> Vec<Call> {
    let mut calls = vec![Call::Check];
    if random.chance(30) {
        calls.push(ask(random, shape));
    }
    for _ in 0..random.weighted(&[3, 45, 30, 15, 7]) {
        let readings = readings::readings(random, shape.window, &shape.names);
        let parts = parts::parts(random, &readings, shape);
        calls.push(Call::Add { readings, parts });
        for _ in 0..random.below(4) {
            calls.push(ask(random, shape));
        }
    }
    calls
}

fn ask(random: &mut Random, shape: &Shape) -> Call {
    let (signals, window) = (shape.names.len() as u64, shape.window as u64);
    let mut signal = random.below(shape.names.len()) as u64;
    let mut tick = windows::tick(random, shape.window) as u64;
    let far = [
        64,
        4_096,
        1 << 8,
        1 << 16,
        1 << 32,
        1 << 63,
        u64::MAX,
        shape.rows as u64,
    ];
    match random.weighted(&[88, 3, 3, 3, 3]) {
        0 => {}
        1 => signal = signals,
        2 => tick = window + random.below(2) as u64,
        3 => signal = signals.max(far[random.below(far.len())]),
        _ => tick = window.max(far[random.below(far.len())]),
    }
    Call::Ask { signal, tick }
}
