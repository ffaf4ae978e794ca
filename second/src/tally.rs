//! How often each thing of a list was met in a run and whether that is often enough; and how a run ends.

use std::process::ExitCode;

pub struct Tally {
    title: &'static str,
    things: Vec<Thing>,
}

struct Thing {
    name: String,
    /// How often it has to be met.
    least: u64,
    met: u64,
}

impl Tally {
    /// The things by their names, each with how often it has to be met.
    pub fn new(title: &'static str, things: impl Iterator<Item = (String, u64)>) -> Self {
        let thing = |(name, least)| Thing {
            name,
            least,
            met: 0,
        };
        let things = things.map(thing).collect();
        Tally { title, things }
    }

    /// Counts the thing at this place of the list.
    pub fn met(&mut self, place: usize) {
        self.things[place].met += 1;
    }

    /// Counts the thing of this name.
    pub fn met_thing(&mut self, name: &str) {
        let place = self.things.iter().position(|thing| thing.name == name);
        self.met(place.expect("a thing of the list"));
    }

    /// Counts the things for which this holds, in the list's order.
    pub fn met_if(&mut self, holds: &[bool]) {
        for place in (0..holds.len()).filter(|&place| holds[place]) {
            self.met(place);
        }
    }

    /// Prints the counts; answers how many things were met too seldom.
    pub fn print(&self) -> u64 {
        println!("{}:", self.title);
        let lengths = self.things.iter().map(|thing| thing.name.len());
        let width = lengths.max().unwrap_or(0);
        let mut rare = 0;
        for Thing { name, least, met } in &self.things {
            let too_few = met < least;
            rare += u64::from(too_few);
            let note = if too_few { "  too few" } else { "" };
            println!("  {name:>width$} {met:7}{note}");
        }
        rare
    }
}

/// The last line and the status of a run of so many cases; what was met too seldom counts as failed too.
pub fn ended(cases: u64, failed: u64, rare: u64) -> ExitCode {
    println!("{} passed, {} failed", cases - failed, failed + rare);
    ExitCode::from(u8::from(failed + rare > 0))
}
