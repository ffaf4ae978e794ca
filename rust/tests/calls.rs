//! The calls that the gate runs and compares, made once more through the static library: `crates/run_operations/stdout` has each call with its answer.

use mikhakun::{add, ask, caption, check, figures_into, print_rule_into, read_dump_into, write_dump_into, Record, Refusal, Table, Text};
use mikhakun::{to_readings, to_readings_into, to_spans, to_spans_into};

/// A call, or a text or table for the calls that follow: the words of its heading, the lines under it, and the answer's lines, those of a written text among them.
#[derive(Default)]
struct Entry {
    heading: Vec<String>,
    body: Vec<String>,
    answer: Vec<String>,
}

fn entries() -> Vec<Entry> {
    let file = concat!(env!("CARGO_MANIFEST_DIR"), "/../crates/run_operations/stdout");
    let text = std::fs::read_to_string(file).unwrap();
    let mut entries: Vec<Entry> = Vec::new();
    // Not by `lines`, which would take a CR off a line.
    for line in text.strip_suffix('\n').unwrap().split('\n') {
        if let Some(heading) = line.strip_prefix("=== ") {
            entries.push(Entry { heading: heading.split(' ').map(str::to_string).collect(), ..Entry::default() });
        } else if let Some(answer) = line.strip_prefix("--- ") {
            entries.last_mut().unwrap().answer.push(answer.to_string());
        } else {
            let entry = entries.last_mut().unwrap();
            let lines = if entry.answer.is_empty() { &mut entry.body } else { &mut entry.answer };
            lines.push(line.to_string());
        }
    }
    entries
}

impl Entry {
    /// The kind, without the sign that changes the text under it.
    fn kind(&self) -> &str {
        self.heading[0].trim_end_matches(|c: char| c == '-' || c == '*' || c.is_ascii_digit())
    }

    /// The lines as a text: without the last LF after `-`, and so often as the number after `*` says.
    fn text(&self) -> Vec<u8> {
        let text: String = self.body.iter().map(|line| format!("{line}\n")).collect();
        let sign = &self.heading[0][self.kind().len()..];
        if sign == "-" {
            return text.trim_end_matches('\n').into();
        }
        text.repeat(sign.strip_prefix('*').map_or(1, |times| times.parse().unwrap())).into_bytes()
    }

    fn number(&self, word: usize) -> usize {
        self.heading[word].parse().unwrap()
    }

    /// The numbers of a heading, up to the one before the colon.
    fn numbers(&self) -> Vec<u64> {
        let last = self.heading.iter().position(|word| word.ends_with(':')).unwrap();
        self.heading[1..=last].iter().map(|word| word.trim_end_matches(':').parse().unwrap()).collect()
    }

    /// The table of as many words as the heading says, all 0 but those of the lines.
    fn table(&self) -> Table {
        let mut words = vec![0; self.number(1)];
        for line in &self.body {
            let (at, word) = line.split_once(' ').unwrap();
            words[at.parse::<usize>().unwrap()] = word.parse().unwrap();
        }
        Table::from(words)
    }
}

fn refused(refusal: Refusal) -> String {
    format!("refused {} at {}", refusal.number(), refusal.place())
}

/// The answer's lines to an add: what it tells, and each word of the table that is not 0.
fn added(sheet: &[u8], readings: &[u8], table: &mut Table) -> Vec<String> {
    let told = match add(sheet, readings, table) {
        Ok(added) => format!("new facts {}, clash {}", added.new_facts, u8::from(added.clash)),
        Err(refusal) => refused(refusal),
    };
    std::iter::once(told).chain(words_of(table)).collect()
}

/// Each word of a table that is not 0, a line each.
fn words_of(table: &Table) -> Vec<String> {
    let words = table.words().iter().enumerate().filter(|(_, &word)| word != 0);
    words.map(|(at, word)| format!("word {at} {word}")).collect()
}

/// The answer's lines to figures: each record, or the refusal, and the work table's words.
fn figured(entry: &Entry, sheet: &[u8], work: &mut Table) -> Vec<String> {
    let numbers = entry.numbers();
    let mut records = vec![Record::default(); numbers[0] as usize];
    let mut lines = match figures_into(sheet, &entry.text(), &numbers[1..], work, &mut records) {
        Ok(()) => records.iter().map(told).collect(),
        Err(refusal) => vec![refused(refusal)],
    };
    lines.extend(words_of(work));
    lines
}

/// A record's line.
fn told(record: &Record) -> String {
    let Record { signal, held, failed, unsettled, clashed, first } = *record;
    let first = first.map_or("none".to_string(), |tick| tick.to_string());
    format!("signal {signal}, true {held}, false {failed}, unsettled {unsettled}, clashing {clashed}, first {first}")
}

/// The answer's lines to a move into a buffer full of dots.
fn moved(entry: &Entry, sheet: &[u8]) -> Vec<String> {
    let mut buffer = vec![b'.'; entry.number(1)];
    let to_form = if entry.kind() == "spans" { to_spans_into } else { to_readings_into };
    let answer = to_form(sheet, &entry.text(), &mut buffer);
    written(answer, &buffer)
}

/// The answer's lines to a rule printed into a buffer full of dots.
fn printed(entry: &Entry, sheet: &[u8]) -> Vec<String> {
    let mut buffer = vec![b'.'; entry.number(2)];
    let answer = print_rule_into(sheet, entry.number(1), &mut buffer);
    written(answer, &buffer)
}

/// The answer's lines to the table written as a dump, or a dump read, into a buffer full of dots.
fn dumped(entry: &Entry, sheet: &[u8], table: &Table) -> Vec<String> {
    let mut buffer = vec![b'.'; entry.number(1)];
    let answer = match entry.kind() {
        "dump" => write_dump_into(sheet, table, &mut buffer),
        _ => read_dump_into(sheet, &entry.text(), &mut buffer),
    };
    written(answer, &buffer)
}

/// The answer's lines to caption: where the part stands, or the refusal, and what is shown.
fn captioned(entry: &Entry, sheet: &[u8]) -> Vec<String> {
    match caption(sheet, &entry.text(), entry.number(1)) {
        Ok(part) => vec![format!("in the {} at {}, length {}", part.text, part.start, part.shown.len()), format!("shown: {part}")],
        Err(refusal) => vec![refused(refusal), "shown: ".to_string()],
    }
}

/// What was written into the buffer: the text, or its last 100 bytes if it has over 32,000, and the byte after it.
fn written(answer: Result<usize, Refusal>, buffer: &[u8]) -> Vec<String> {
    let (mut lines, length) = match answer {
        Ok(length) => (vec![format!("length {length}")], length),
        Err(refusal) => (vec![refused(refusal)], 0),
    };
    let from = if length > 32_000 { length - 100 } else { 0 };
    if from > 0 {
        lines.push("its end".to_string());
    }
    lines.extend(String::from_utf8_lossy(&buffer[from..length]).lines().map(str::to_string));
    lines.extend(buffer.get(length).map(|&byte| format!("then {}", char::from(byte))));
    lines
}

/// Moved to either form, accepted readings have the same answer; what the moves refuse too, they refuse alike. Answers how many moves were accepted.
fn same_when_moved(sheet: &[u8], readings: &[u8], table: &Table) -> usize {
    let moved = [to_spans(sheet, readings), to_readings(sheet, readings)];
    match add(sheet, readings, &mut table.clone()) {
        Ok(_) => {
            let answer = added(sheet, readings, &mut table.clone());
            let texts = moved.iter().filter_map(|text| text.as_ref().map_err(|refusal| assert_eq!(refusal.number(), 20)).ok());
            texts.inspect(|text| assert_eq!(added(sheet, text, &mut table.clone()), answer)).count()
        }
        Err(refusal) => {
            let of_the_table = matches!(refusal.number(), 15 | 16);
            assert!(of_the_table || moved.iter().all(|text| *text == Err(refusal)), "{refusal}");
            0
        }
    }
}

/// What check refuses, caption refuses so. Of an accepted sheet every signal is shown without captions by its name, and by its caption with one. Answers how many
/// signals there are.
fn shown_as_checked(sheet: &[u8]) -> usize {
    if let Err(refusal) = check(sheet) {
        assert_eq!(caption(sheet, b"x", usize::MAX), Err(refusal));
        return 0;
    }
    let text = String::from_utf8_lossy(sheet);
    let names: Vec<&str> = text.lines().filter_map(|line| line.strip_prefix("signal=")).collect();
    let captions: String = names.iter().rev().map(|name| format!("{name}=House {name}\n")).collect();
    for (signal, name) in names.iter().enumerate() {
        let bare = caption(sheet, b"", signal).unwrap();
        assert_eq!((bare.shown, bare.text), (*name, Text::Sheet));
        assert!(sheet[..bare.start].ends_with(b"signal="), "{name}");
        let own = caption(sheet, captions.as_bytes(), signal).unwrap();
        assert_eq!((own.shown, own.text), (format!("House {name}").as_str(), Text::Captions));
    }
    assert_eq!(caption(sheet, captions.as_bytes(), names.len()).unwrap_err().number(), 17);
    names.len()
}

#[test]
fn every_call_has_the_answer_of_the_gate() {
    let (mut sheet, mut table, mut calls, mut moves, mut shown) = (Vec::new(), Table::empty(0, 0), 0, 0, 0);
    for entry in entries() {
        let answer = match entry.kind() {
            "sheet" => {
                sheet = entry.text();
                shown += shown_as_checked(&sheet);
                continue;
            }
            "table" => {
                table = entry.table();
                continue;
            }
            "check" => vec![check(&sheet).map_or_else(refused, |rows| format!("rows {rows}"))],
            "add" => {
                moves += same_when_moved(&sheet, &entry.text(), &table);
                added(&sheet, &entry.text(), &mut table)
            }
            "spans" | "singles" => moved(&entry, &sheet),
            "figures" => figured(&entry, &sheet, &mut table),
            "print" => printed(&entry, &sheet),
            "dump" | "undump" => dumped(&entry, &sheet, &table),
            "caption" => captioned(&entry, &sheet),
            "ask" => vec![ask(&sheet, &table, entry.number(1), entry.number(2)).map_or_else(refused, |value| value.to_string())],
            other => panic!("a heading of no known kind: {other}"),
        };
        assert_eq!(answer, entry.answer, "{}", entry.heading.join(" "));
        calls += 1;
    }
    assert!(calls > 800 && moves > 200 && shown > 400, "only {calls} calls, {moves} moves and {shown} signals");
}
