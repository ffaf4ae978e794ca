//! The comparison: every call of every case is made on both sides; answers, outputs, tables, written texts and records must be the same.

mod captions;
mod dumps;
mod figures;
mod moves;
mod parts;
mod print;
mod written;

use crate::generate::{case, Call, Case};
use crate::library::{self, Outcome, UNWRITTEN};
use crate::operations::{self, Added};
use crate::seen::{Met, Seen};
use crate::tally::ended;
use crate::text::Refusal;
use std::process::ExitCode;

/// Words before and after the lent table that no call may change.
const GUARD: [u64; 2] = [0xA5A5_5A5A_A5A5_5A5A, 0x0123_4567_89AB_CDEF];
/// How many differing cases are printed in full.
const MOST_PRINTED: u64 = 5;

pub fn run(count: u64, seed: u64) -> ExitCode {
    if !library::LINKED {
        eprintln!("second: built without the library, so there is nothing to compare with");
        return ExitCode::from(2);
    }
    let mut seen = Seen::none(count);
    let mut failed = 0;
    for number in 0..count {
        let case = case(seed, number);
        if let Err(difference) = compare(&case, &mut seen) {
            failed += 1;
            if failed <= MOST_PRINTED {
                println!("case {number} of seed {seed}:\n{difference}");
            }
        }
    }
    ended(count, failed, seen.print())
}

/// Makes the calls of one case on both sides; a difference is answered as a text that can be pasted.
fn compare(case: &Case, seen: &mut Seen) -> Result<(), String> {
    let mut ours = case.table.clone();
    let mut theirs = [&GUARD[..], &case.table, &GUARD].concat();
    let mut met = Met::default();
    for call in &case.calls {
        let before = ours.clone();
        let expected = our_outcome(&case.sheet, call, &mut ours);
        let inner = 2..2 + before.len();
        let got = their_outcome(&case.sheet, call, &mut theirs[inner]);
        let tables = [&GUARD[..], &ours, &GUARD].concat();
        if expected != got || tables != theirs {
            let sides = [(&expected, &tables), (&got, &theirs)];
            return Err(pasteable(&case.sheet, call, &before, sides));
        }
        met.call(&case.sheet, call, &expected);
        if let Call::Add { parts, .. } = call {
            let in_parts = parts::compare(&case.sheet, parts, &before, (&expected, &ours));
            in_parts.map_err(|parts| {
                let sides = [(&expected, &tables), (&got, &theirs)];
                pasteable(&case.sheet, call, &before, sides) + &parts
            })?;
        }
    }
    for call in &case.moves {
        moves::compare(&case.sheet, call, &mut met)?;
    }
    for call in &case.figures {
        figures::compare(&case.sheet, call, &mut met)?;
    }
    for call in &case.prints {
        print::compare(call, &mut met)?;
    }
    for call in &case.dumps_written {
        dumps::compare_writing(&case.sheet, call, &mut met)?;
    }
    for call in &case.dumps_read {
        dumps::compare_reading(&case.sheet, call, &mut met)?;
    }
    for call in &case.captions {
        captions::compare(&case.sheet, call, &mut met)?;
    }
    seen.count(met);
    Ok(())
}

/// What the library must answer and leave: on a refusal only the place is written, else all but the place.
fn expected<const N: usize>(result: Result<[u64; N], Refusal>) -> Outcome {
    let (answer, mut outputs, place) = match result {
        Ok(values) => (0, values.to_vec(), UNWRITTEN),
        Err(Refusal { number, place }) => (number, vec![UNWRITTEN; N], place),
    };
    outputs.push(place);
    Outcome { answer, outputs }
}

fn our_outcome(sheet: &[u8], call: &Call, table: &mut [u64]) -> Outcome {
    match call {
        Call::Check => expected(operations::check(sheet).map(|rows| [rows])),
        Call::Add { readings, .. } => {
            let added = operations::add(sheet, readings, table);
            expected(added.map(|Added { new_facts, clash }| [new_facts, clash]))
        }
        Call::Ask { signal, tick } => {
            expected(operations::ask(sheet, table, *signal, *tick).map(|value| [value]))
        }
    }
}

fn their_outcome(sheet: &[u8], call: &Call, table: &mut [u64]) -> Outcome {
    match call {
        Call::Check => library::check(sheet),
        Call::Add { readings, .. } => library::add(sheet, readings, table),
        Call::Ask { signal, tick } => library::ask(sheet, table, *signal, *tick),
    }
}

/// The call and its texts as Rust source, then what each side answered.
fn pasteable(
    sheet: &[u8],
    call: &Call,
    before: &[u64],
    sides: [(&Outcome, &Vec<u64>); 2],
) -> String {
    let mut text = format!("let sheet = b\"{}\";\n", sheet.escape_ascii());
    text += &format!("let mut table = vec![0u64; {}];\n", before.len());
    for (place, word) in before.iter().enumerate().filter(|(_, word)| **word != 0) {
        text += &format!("table[{place}] = {word:#x};\n");
    }
    text += &match call {
        Call::Check => "check(sheet);\n".to_string(),
        Call::Add { readings, .. } => format!(
            "add(sheet, b\"{}\", &mut table);\n",
            readings.escape_ascii()
        ),
        Call::Ask { signal, tick } => format!("ask(sheet, &table, {signal}, {tick});\n"),
    };
    for (side, (outcome, _)) in ["second", "library"].iter().zip(sides) {
        text += &format!("// {side}: {}\n", shown(outcome));
    }
    let words = sides[0].1.iter().zip(sides[1].1).enumerate();
    for (place, (ours, theirs)) in words.filter(|(_, (ours, theirs))| ours != theirs) {
        let place = place as i64 - GUARD.len() as i64;
        text += &format!("// table[{place}] after: second {ours:#x}, library {theirs:#x}\n");
    }
    text
}

fn shown(outcome: &Outcome) -> String {
    let output = |value: &u64| match *value {
        UNWRITTEN => "unwritten".to_string(),
        value => value.to_string(),
    };
    let outputs: Vec<String> = outcome.outputs.iter().map(output).collect();
    format!(
        "answer {}, outputs {} (place last)",
        outcome.answer,
        outputs.join(", ")
    )
}
