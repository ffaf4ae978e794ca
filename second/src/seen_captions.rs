//! What calls that ask for a caption meet: the refusals and what would be refused later, the lines that they are about, and the kinds of texts
//! and parts that are accepted.

use crate::captions::{halves, is_printable, parts, read_captions, Part, Source, LONGEST_CAPTION};
use crate::generate::captions::Caption;
use crate::library::Outcome;
use crate::seen_calls::{holding, of_sheet, Thing, SHEETS};
use crate::tally::Tally;
use crate::text::name::{self, find, Name, NoName, LONGEST_NAME};
use crate::text::sheet::{self, Sheet, MOST_SIGNALS};
use crate::text::LONGEST_TEXT;

/// What is refused before a line is looked at, or after all of them.
const NUMBERS: [&str; 8] = [
    "1 to 8, also a first line not of its form",
    "1 to 8, also a number that no signal can have",
    "9, also captions that are refused",
    "9, also a number that no signal can have",
    "17, no captions",
    "17, the number of signals",
    "17, a larger number",
    "17, the number of a signal in the last 32 bits",
];

/// What is refused in a line.
const LINES: [&str; 37] = [
    "24, a last line without LF",
    "24, an empty line",
    "24, no = in the line",
    "24, an empty caption",
    "24, a caption of 41 bytes",
    "24, a longer caption",
    "24, a tab in the caption",
    "24, a CR at the caption's end",
    "24, byte 31 in the caption",
    "24, another byte below 32 in the caption",
    "24, byte 127 in the caption",
    "24, a byte above 127 in the caption",
    "24 for the form, the first line",
    "24 for the form, a later line",
    "24 for the form, also a name that is not declared",
    "24 for the form, also a name repeated",
    "24 for the form, also a later line: 12",
    "24 for the form, over 32,768 bytes",
    "24 for the form, also 17",
    "24 for a name repeated, in the next line",
    "24 for a name repeated, in a later line",
    "24 for a name repeated, with the same caption",
    "24 for a name repeated, also a later line: 12",
    "24 for a name repeated, also a later line: 24",
    "24 for a name repeated, also 17",
    "12, no byte in the name's place",
    "12, since or until",
    "12, one byte too long",
    "12, leading zero",
    "12, over 9,999",
    "12, another name",
    "12, other bytes",
    "12, the first line",
    "12, a later line",
    "12, also a later line: 24",
    "12, over 32,768 bytes",
    "12, also 17",
];

/// What is accepted, by the text that the part is of.
const PARTS: [&str; 27] = [
    "no captions: 0",
    "one tick: 0",
    "65 ticks or more: 0",
    "64 signals: 0",
    "captions of over 32 signals: 0",
    "captions of all of several signals: 0",
    "captions in another order than the sheet's: 0",
    "the sheet, beside captions: 0",
    "the sheet, a name of one byte: 0",
    "the sheet, a name of 12 bytes or more: 0",
    "the sheet, a line of a name that starts this one: 0",
    "the sheet, a line of a name that this one starts: 0",
    "the sheet, a caption with this name and = in it: 0",
    "the captions, the only line: 0",
    "the captions, the first of several lines: 0",
    "the captions, a line between others: 0",
    "the captions, the last of several lines: 0",
    "the captions, 1 byte: 0",
    "the captions, 2 to 39 bytes: 0",
    "the captions, 40 bytes: 0",
    "the captions, = first: 0",
    "the captions, = later: 0",
    "the captions, a space at an end: 0",
    "the captions, byte 126: 0",
    "the captions, the name itself: 0",
    "the captions, another's name: 0",
    "the captions, another's name and =: 0",
];

/// None yet; each thing has to be met so often.
pub fn tally(least: u64) -> Tally {
    let things = [&SHEETS[..], &NUMBERS, &LINES, &PARTS].concat();
    let things = things.iter().map(|thing| (thing.to_string(), least));
    let title = "cases in which a call that asks for a caption met";
    Tally::new(title, things)
}

/// What a call met that was answered like this.
pub fn met(text: &[u8], call: &Caption, outcome: &Outcome) -> Vec<String> {
    let (number, place) = (outcome.answer, outcome.outputs[3] as usize);
    let things = match (sheet::read(text), number) {
        (Err(_), _) => of_refused_sheet(call, number),
        (Ok(sheet), 9) => of_large_sheet(&sheet, call),
        (Ok(sheet), 17) => of_number(&sheet, call),
        (Ok(sheet), 0) => of_part(text, &sheet, call),
        (Ok(sheet), _) => Refused::new(&sheet.names, call, place).things(),
    };
    holding(&things)
}

fn of_refused_sheet(call: &Caption, number: u64) -> Vec<Thing> {
    // Where no name is declared, the first line is refused for its form or for its name.
    let first = refused(&call.captions, &[]);
    vec![
        (of_sheet(number), true),
        (
            "1 to 8, also a first line not of its form",
            first == Some(24),
        ),
        (
            "1 to 8, also a number that no signal can have",
            call.signal >= MOST_SIGNALS,
        ),
    ]
}

/// The same of a sheet that has over 32 hidden signals or 1,024 rows.
fn of_large_sheet(sheet: &Sheet, call: &Caption) -> Vec<Thing> {
    vec![
        (of_sheet(9), true),
        (
            "9, also captions that are refused",
            refused(&call.captions, &sheet.names).is_some(),
        ),
        (
            "9, also a number that no signal can have",
            call.signal >= MOST_SIGNALS,
        ),
    ]
}

/// The number of the refusal of these lines, if they are refused.
fn refused(lines: &[u8], names: &[Name]) -> Option<u64> {
    let refusal = read_captions(lines, names).err();
    refusal.map(|refusal| refusal.number)
}

fn of_number(sheet: &Sheet, call: &Caption) -> Vec<Thing> {
    let signals = sheet.names.len() as u64;
    let last_bits = call.signal & u64::from(u32::MAX);
    vec![
        ("17, no captions", call.captions.is_empty()),
        ("17, the number of signals", call.signal == signals),
        ("17, a larger number", call.signal > signals),
        (
            "17, the number of a signal in the last 32 bits",
            last_bits < signals,
        ),
    ]
}

/// The line that is refused, with its LF if it has one, and the lines before and after it.
struct Refused<'a> {
    names: &'a [Name],
    before: &'a [u8],
    line: &'a [u8],
    after: &'a [u8],
    /// Whether the whole text has more bytes than other texts may have.
    long: bool,
    /// Whether there is no signal of the number.
    no_signal: bool,
}

impl<'a> Refused<'a> {
    fn new(names: &'a [Name], call: &'a Caption, place: usize) -> Self {
        let (before, rest) = call.captions.split_at(place);
        let line = lines_of(rest).next().unwrap_or_default();
        Refused {
            names,
            before,
            line,
            after: &rest[line.len()..],
            long: call.captions.len() > LONGEST_TEXT,
            no_signal: call.signal >= names.len() as u64,
        }
    }

    /// What is met, by the refusal that the line has by itself; none if its name is repeated.
    fn things(&self) -> Vec<Thing> {
        match refused(self.line, self.names) {
            None => self.repeated(),
            Some(12) => self.not_declared(),
            Some(_) => self.not_formed(),
        }
    }

    fn not_formed(&self) -> Vec<Thing> {
        let name = halves(self.line).map(|(name, _)| name);
        vec![
            (of_form(self.line), true),
            ("24 for the form, the first line", self.before.is_empty()),
            ("24 for the form, a later line", !self.before.is_empty()),
            (
                "24 for the form, also a name that is not declared",
                matches!(name, Some(name) if find(name, self.names).is_none()),
            ),
            (
                "24 for the form, also a name repeated",
                matches!(name, Some(name) if self.has_before(name)),
            ),
            ("24 for the form, also a later line: 12", self.has_after(12)),
            ("24 for the form, over 32,768 bytes", self.long),
            ("24 for the form, also 17", self.no_signal),
        ]
    }

    fn repeated(&self) -> Vec<Thing> {
        let name = halves(self.line).map(|(name, _)| name);
        let last = lines_of(self.before).last().and_then(halves);
        let next = last.map(|(name, _)| name) == name;
        vec![
            ("24 for a name repeated, in the next line", next),
            ("24 for a name repeated, in a later line", !next),
            (
                "24 for a name repeated, with the same caption",
                lines_of(self.before).any(|line| line == self.line),
            ),
            (
                "24 for a name repeated, also a later line: 12",
                self.has_after(12),
            ),
            (
                "24 for a name repeated, also a later line: 24",
                self.has_after(24),
            ),
            ("24 for a name repeated, also 17", self.no_signal),
        ]
    }

    fn not_declared(&self) -> Vec<Thing> {
        let name = halves(self.line).map_or(&[][..], |(name, _)| name);
        vec![
            (of_name(name), true),
            ("12, the first line", self.before.is_empty()),
            ("12, a later line", !self.before.is_empty()),
            ("12, also a later line: 24", self.has_after(24)),
            ("12, over 32,768 bytes", self.long),
            ("12, also 17", self.no_signal),
        ]
    }

    /// Whether an earlier line has this name.
    fn has_before(&self, name: &[u8]) -> bool {
        let mut names = lines_of(self.before).filter_map(halves);
        names.any(|(before, _)| before == name)
    }

    /// Whether a later line has this refusal by itself.
    fn has_after(&self, number: u64) -> bool {
        let refused = |line| refused(line, self.names);
        lines_of(self.after).any(|line| refused(line) == Some(number))
    }
}

/// The lines of a text, with their LFs.
fn lines_of(text: &[u8]) -> impl Iterator<Item = &[u8]> {
    text.split_inclusive(|&byte| byte == b'\n')
}

/// What is wrong with the form of a line.
fn of_form(line: &[u8]) -> &'static str {
    let line = match line.strip_suffix(b"\n") {
        None => return "24, a last line without LF",
        Some(b"") => return "24, an empty line",
        Some(line) => line,
    };
    let caption = match halves(line) {
        None => return "24, no = in the line",
        Some((_, caption)) => caption,
    };
    match caption.iter().find(|&&byte| !is_printable(byte)) {
        _ if caption.is_empty() => "24, an empty caption",
        None if caption.len() == LONGEST_CAPTION + 1 => "24, a caption of 41 bytes",
        None => "24, a longer caption",
        Some(9) => "24, a tab in the caption",
        Some(13) if caption.ends_with(b"\r") => "24, a CR at the caption's end",
        Some(31) => "24, byte 31 in the caption",
        Some(127) => "24, byte 127 in the caption",
        Some(128..=255) => "24, a byte above 127 in the caption",
        Some(_) => "24, another byte below 32 in the caption",
    }
}

/// What stands where a declared name has to.
fn of_name(name: &[u8]) -> &'static str {
    match name::read(name) {
        Ok(_) => "12, another name",
        Err(NoName::LeadingZero) => "12, leading zero",
        Err(NoName::TooLarge) => "12, over 9,999",
        Err(NoName::Form) => match name {
            b"" => "12, no byte in the name's place",
            b"since" | b"until" => "12, since or until",
            _ if name.len() == LONGEST_NAME + 1 => "12, one byte too long",
            _ => "12, other bytes",
        },
    }
}

/// A line's name, and the rest of the line after its `=`.
type Halves<'a> = (&'a [u8], &'a [u8]);

/// What an accepted call met.
fn of_part(text: &[u8], sheet: &Sheet, call: &Caption) -> Vec<Thing> {
    let captions = &call.captions;
    let lines: Vec<Halves> = lines_of(captions).filter_map(halves).collect();
    let parts = parts(sheet, captions).expect("accepted captions");
    let part = &parts[call.signal as usize];
    let shown = part.shown(text, captions);
    let mut things = of_texts(sheet, &parts, lines.len());
    things.extend(match part.of {
        Source::Sheet => of_shown_name(shown, &lines),
        Source::Captions => of_shown_caption(shown, sheet, call, &lines),
    });
    things
}

/// What is met by the two texts, the captions having so many lines.
fn of_texts(sheet: &Sheet, parts: &[Part], lines: usize) -> Vec<Thing> {
    let signals = parts.len();
    let in_captions = parts.iter().filter(|part| part.of == Source::Captions);
    let places: Vec<usize> = in_captions.map(|part| part.bytes.start).collect();
    vec![
        ("no captions: 0", lines == 0),
        ("one tick: 0", sheet.window == 1),
        ("65 ticks or more: 0", sheet.window > 64),
        ("64 signals: 0", signals == 64),
        ("captions of over 32 signals: 0", lines > 32),
        (
            "captions of all of several signals: 0",
            signals > 1 && lines == signals,
        ),
        (
            "captions in another order than the sheet's: 0",
            places.windows(2).any(|pair| pair[1] < pair[0]),
        ),
    ]
}

/// What a part of the sheet met, beside these lines of captions.
fn of_shown_name(shown: &[u8], lines: &[Halves]) -> Vec<Thing> {
    let some = |what: &dyn Fn(&Halves) -> bool| lines.iter().any(what);
    vec![
        ("the sheet, beside captions: 0", !lines.is_empty()),
        ("the sheet, a name of one byte: 0", shown.len() == 1),
        (
            "the sheet, a name of 12 bytes or more: 0",
            shown.len() >= 12,
        ),
        (
            "the sheet, a line of a name that starts this one: 0",
            some(&|(name, _)| shown.starts_with(name)),
        ),
        (
            "the sheet, a line of a name that this one starts: 0",
            some(&|(name, _)| name.starts_with(shown)),
        ),
        (
            "the sheet, a caption with this name and = in it: 0",
            some(&|(_, rest)| has_before_equals(rest, shown)),
        ),
    ]
}

/// Whether the name stands in the caption, right before a `=`.
fn has_before_equals(caption: &[u8], name: &[u8]) -> bool {
    let mut parts = caption.windows(name.len() + 1);
    parts.any(|part| part.starts_with(name) && part.ends_with(b"="))
}

/// What a part of the captions met, which are these lines.
fn of_shown_caption(shown: &[u8], sheet: &Sheet, call: &Caption, lines: &[Halves]) -> Vec<Thing> {
    let signal = call.signal as usize;
    let own = sheet.names[signal].to_string();
    let place = lines.iter().position(|(name, _)| *name == own.as_bytes());
    let (first, last) = (place == Some(0), place == Some(lines.len() - 1));
    let is_other = |bytes| matches!(find(bytes, &sheet.names), Some(other) if other != signal);
    let edges = [shown.first(), shown.last()];
    vec![
        ("the captions, the only line: 0", first && last),
        (
            "the captions, the first of several lines: 0",
            first && !last,
        ),
        ("the captions, a line between others: 0", !first && !last),
        ("the captions, the last of several lines: 0", last && !first),
        ("the captions, 1 byte: 0", shown.len() == 1),
        (
            "the captions, 2 to 39 bytes: 0",
            (2..LONGEST_CAPTION).contains(&shown.len()),
        ),
        ("the captions, 40 bytes: 0", shown.len() == LONGEST_CAPTION),
        ("the captions, = first: 0", shown[0] == b'='),
        ("the captions, = later: 0", shown[1..].contains(&b'=')),
        (
            "the captions, a space at an end: 0",
            edges.contains(&Some(&b' ')),
        ),
        ("the captions, byte 126: 0", shown.contains(&126)),
        ("the captions, the name itself: 0", shown == own.as_bytes()),
        ("the captions, another's name: 0", is_other(shown)),
        (
            "the captions, another's name and =: 0",
            matches!(halves(shown), Some((name, _)) if is_other(name)),
        ),
    ]
}
